"""Many matches at once: the same states, events and rewards as the single calls give."""

import unittest

import numpy as np

from lundaspro import Event, Match, Matches, Refusal, Setting, Weights, draw_by, reward

WEIGHTS = Weights(step=-0.01, food=1.0, loss=-1.0, draw=-0.5, kill=0.5, win=2.0, survival=0.25)
SETTINGS = [
    Setting(2, 5, 1, initial_food_count=3, max_ticks=9),
    Setting(3, 6, 2, initial_food_count=2, play_to_last=True, max_ticks=20),
    Setting(8, 10, 1, initial_food_count=8, max_ticks=15),
    Setting(2, 4, 1, initial_food_count=4, win_food_lead=1),
    Setting(2, 4, 1),
]


class Singles:
    """The same matches by single calls, with the generator asked in the same order."""

    def __init__(self, setting, count, generator):
        self.setting, self.generator = setting, generator
        self.states, self.matches = [None] * count, [None] * count
        self.restart(np.ones(count, bool))

    def draw(self, chosen):
        while chosen := [match for match in chosen if self.states[match].due]:
            for match in chosen:
                self.states[match] = draw_by(self.states[match], self.generator).next

    def restart(self, which):
        for match in np.flatnonzero(which):
            self.states[match], self.matches[match] = self.setting.initial_state(), Match()
        self.draw(np.flatnonzero(which).tolist())

    def step(self, actions):
        playing = [match for match, kept in enumerate(self.matches) if not kept.over]
        events = [(Event(),) * self.setting.num_snakes] * len(self.states)
        for match in playing:
            self.matches[match], step = self.matches[match].take_move(self.setting, self.states[match].step(self.setting, actions[match]))
            self.states[match], events[match] = step.next, step.events
        self.draw([match for match in playing if not self.matches[match].over])
        return playing, events


class Many(unittest.TestCase):
    def held(self, many, singles):
        self.assertEqual([many[match] for match in range(len(many))], singles.states)
        self.assertEqual(many.over.tolist(), [match.over for match in singles.matches])
        self.assertEqual(many.moves.tolist(), [match.moves for match in singles.matches])
        self.assertEqual(many.alive.tolist(), [[snake.alive for snake in state.snakes] for state in singles.states])
        seen = np.array([[state.observe(agent) for agent in range(state.num_snakes)] for state in singles.states])
        self.assertTrue(np.array_equal(many.observe(), seen))

    def test_as_the_single_calls(self):
        for setting in SETTINGS:
            many, singles = Matches(setting, 7, np.random.default_rng(3), WEIGHTS), Singles(setting, 7, np.random.default_rng(3))
            source = np.random.default_rng(4)
            self.held(many, singles)
            for move in range(40):
                actions = source.integers(0, 3, (7, setting.num_snakes))
                moved = many.step(actions)
                playing, events = singles.step(actions)
                self.assertEqual(moved.events.tolist(), [[list(bytes(event)) for event in told] for told in events])
                due = [[reward(WEIGHTS, event) if match in playing else 0.0 for event in told] for match, told in enumerate(events)]
                self.assertEqual(moved.rewards.tolist(), due)
                self.assertEqual(moved.timeout.tolist(), [match.timeout for match in singles.matches])
                self.held(many, singles)
                if move % 3 == 0:
                    many.restart(moved.over)
                    singles.restart(moved.over)
                    self.held(many, singles)

    def test_a_refusal_leaves_all(self):
        many = Matches(SETTINGS[0], 3, np.random.default_rng(3))
        before = [many[match] for match in range(3)], many.moves.tolist()
        with self.assertRaises(Refusal) as caught:
            many.step(np.array([[0, 0], [0, 0], [0, 3]]))
        self.assertEqual(caught.exception.number, 25)
        self.assertEqual(before, ([many[match] for match in range(3)], many.moves.tolist()))
        for wrong, error in ((np.zeros((3, 1), int), TypeError), (np.zeros((3, 2)), TypeError), (np.full((3, 2), -1), ValueError)):
            with self.assertRaises(error):
                many.step(wrong)
        with self.assertRaises(TypeError):
            many.observe(np.zeros((3, 2, 5, 5, 5)))
        self.assertEqual(before, ([many[match] for match in range(3)], many.moves.tolist()))
        with self.assertRaises(Refusal):
            Matches(SETTINGS[0], 3, np.random.default_rng(3), Weights(win=float("nan")))

    def test_into_an_array(self):
        many = Matches(SETTINGS[0], 3, np.random.default_rng(3))
        out = np.empty((3, 2, 5, 5, 5), np.float32)
        self.assertIs(many.observe(out), out)
        self.assertTrue(np.array_equal(out[1, 1], many[1].observe(1)))
        self.assertEqual(len(Matches(SETTINGS[0], 0, np.random.default_rng(3))), 0)

    def test_all_over(self):
        many = Matches(Setting(2, 5, 1, max_ticks=1), 3, np.random.default_rng(3), WEIGHTS)
        self.assertEqual(many.step(np.zeros((3, 2), int)).timeout.tolist(), [True] * 3)
        states = [many[match] for match in range(3)]
        moved = many.step(np.zeros((3, 2), int))
        self.assertEqual((moved.rewards.any(), moved.events.any(), [many[match] for match in range(3)]), (False, False, states))


if __name__ == "__main__":
    unittest.main()

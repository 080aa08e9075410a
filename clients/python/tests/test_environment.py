"""The environment: the points of PettingZoo's own test of a parallel environment, and that it plays the match that the calls play."""

import sys
import types
import unittest
from importlib import reload

import numpy as np

from lundaspro import Book, Environment, Ending, Event, Match, Refusal, Setting, Weights, outcome_of, reward, space
from lundaspro.small_spaces import Box, Discrete

SETTINGS = [
    Setting(2, 5, 1, initial_food_count=2, max_ticks=30),
    Setting(3, 6, 2, initial_food_count=3, play_to_last=True, max_ticks=12),
    Setting(8, 9, 1, initial_food_count=6, max_ticks=40),
    Setting(2, 4, 1, initial_food_count=4, win_food_lead=1),
]
WEIGHTS = Weights(step=-0.01, food=1.0, loss=-1.0, draw=-0.5, kill=0.5, win=2.0, survival=0.25)


def sampled(env):
    return {agent: env.action_space(agent).sample() for agent in env.agents}


class Parallel(unittest.TestCase):
    def test_points_of_the_parallel_test(self):
        for setting in SETTINGS:
            env = Environment(setting, WEIGHTS)
            self.assertIs(env.unwrapped, env)
            self.assertEqual((env.metadata["name"], env.max_num_agents), ("lundaspro_v0", setting.num_snakes))
            env.reset(seed=0, options={"options": 1})
            for agent in env.possible_agents:
                env.action_space(agent).seed(1)
            for _ in range(20):
                self.one_match(env)

    def one_match(self, env):
        observations, infos = env.reset()
        self.assertEqual((env.agents, set(observations), set(infos)), (env.possible_agents, set(env.agents), set(env.agents)))
        live, finished = set(env.agents), set()
        while env.agents:
            self.assertEqual(env.num_agents, len(env.agents))
            answer = env.step(sampled(env))
            self.assertEqual(len(answer), 5)
            for part in answer:
                self.assertIsInstance(part, dict)
                self.assertEqual(set(part), live)
            observations, rewards, terminations, truncations, infos = answer
            for agent in live:
                self.assertTrue(env.observation_space(agent).contains(observations[agent]))
                self.assertEqual((observations[agent].dtype, observations[agent].shape), (np.float32, env.observation_space(agent).shape))
                self.assertEqual((type(rewards[agent]), type(terminations[agent]), type(truncations[agent])), (float, bool, bool))
                self.assertFalse(terminations[agent] and truncations[agent])
                self.assertEqual(rewards[agent], reward(WEIGHTS, infos[agent]["event"]))
                self.assertIs(env.observation_space(agent), env.observation_space(agent))
                self.assertIs(env.action_space(agent), env.action_space(agent))
            ended = {agent for agent in live if terminations[agent] or truncations[agent]}
            finished |= ended
            live -= ended
            self.assertEqual(set(env.agents), live)
            self.assertFalse(set(env.agents) & finished)
            self.assertEqual(env.agents, [agent for agent in env.possible_agents if agent in live])
            self.assertEqual(env.match.over, not env.agents)
        self.assertEqual(finished, set(env.possible_agents))
        with self.assertRaises(Refusal) as caught:
            env.step({})
        self.assertEqual(caught.exception.number, 33)

    def test_seeds_repeat(self):
        def played(seed, env):
            shown = []
            observations, _ = env.reset(seed=seed)
            for agent in env.possible_agents:
                env.action_space(agent).seed(seed)
            while env.agents:
                shown.append({agent: seen.tobytes() for agent, seen in observations.items()})
                observations, *told = env.step(sampled(env))
                shown.append(repr(told))
            return shown, bytes(env.book())

        for setting in SETTINGS[:3]:
            one, other = Environment(setting, WEIGHTS), Environment(setting, WEIGHTS)
            self.assertEqual(played(5, one), played(5, other))
            self.assertEqual(played(5, one), played(5, one))
            self.assertNotEqual(played(5, one)[1], played(6, other)[1])

    def test_the_users_generator(self):
        class Own:
            asked = 0

            def random(self):
                self.asked += 1
                return 0.5

        own = Own()
        env = Environment(Setting(2, 5, 1, initial_food_count=2), generator=own)
        env.reset()
        self.assertEqual(own.asked, 2)
        start = env.setting.initial_state()
        self.assertEqual(env.pages[1], start.draw(outcome_of(start.count(), 0.5)).next)
        with self.assertRaises(ValueError):
            Environment(Setting(2, 5, 1, initial_food_count=2)).reset()

    def test_truncation_apart_from_termination(self):
        env = Environment(Setting(2, 5, 1, max_ticks=2), Weights(survival=3.0))
        env.reset()
        env.step({"snake_0": 0, "snake_1": 0})
        _, rewards, terminations, truncations, infos = env.step({"snake_0": 0, "snake_1": 0})
        self.assertEqual((set(terminations.values()), set(truncations.values()), set(rewards.values())), ({False}, {True}, {3.0}))
        self.assertEqual((env.match.ending, infos["snake_0"]["place"], env.agents), (Ending.MaxTicks, 1, []))
        for number, agent in enumerate(env.possible_agents):
            self.assertEqual(infos[agent]["event"], env.state_now.truncation(number, Event()))
        # at the last tick snake 0 dies at the wall: it is terminated, the living are truncated
        env = Environment(Setting(3, 5, 1, max_ticks=4))
        env.reset()
        for turn in (0, 1, 1, 1):
            _, _, terminations, truncations, infos = env.step({"snake_0": 0, "snake_1": turn, "snake_2": 1})
        self.assertEqual((list(terminations.values()), list(truncations.values())), ([True, False, False], [False, True, True]))
        self.assertEqual([str(info["event"]) for info in infos.values()], ["Wl", "y", "y"])
        self.assertEqual([info["place"] for info in infos.values()], [3, 1, 1])

    def test_what_is_over_draws_no_more(self):
        class Ahead:
            # cell 12, which lies before snake 0, is the twelfth of 23 free ones
            def random(self):
                return 11.5 / 23

        env = Environment(Setting(2, 5, 1, initial_food_count=1, max_ticks=1), generator=Ahead())
        env.reset()
        self.assertEqual(env.state_now.food, (12,))
        _, _, _, _, infos = env.step({"snake_0": 0, "snake_1": 1})
        self.assertEqual((str(infos["snake_0"]["event"]), env.state_now.due, len(env.pages)), ("ay", 1, 3))

    def test_actions_of_the_living_alone(self):
        env = Environment(Setting(2, 5, 1))
        with self.assertRaises(ValueError):
            env.step({})
        env.reset()
        for actions in ({}, {"snake_0": 0}, {"snake_0": 0, "snake_1": 0, "snake_2": 0}):
            with self.assertRaises(ValueError):
                env.step(actions)
        with self.assertRaises(Refusal) as caught:
            env.step({"snake_0": 3, "snake_1": 0})
        self.assertEqual((caught.exception.number, env.match), (25, Match()))
        with self.assertRaises(Refusal):
            Environment(Setting(9, 5, 1))

    def test_book(self):
        env = Environment(SETTINGS[1])
        env.reset(seed=3)
        while env.agents:
            env.step(sampled(env))
        book = env.book()
        self.assertEqual((list(book), book), (env.pages, Book(bytes(book))))
        # replayed: each page comes of the one before by a draw, or by the next move of the match
        self.assertEqual(sum(1 for before, after in zip(book, book[1:]) if not before.due), env.match.moves)
        self.assertIsNone(env.render())
        env.close()


class Spaces(unittest.TestCase):
    def test_small_ones(self):
        box, numbers = Box(0.0, 1.0, (5, 3, 3), np.float32), Discrete(3)
        self.assertEqual((box, numbers), (Box(0.0, 1.0, (5, 3, 3), np.float32), Discrete(3)))
        self.assertNotEqual((box, numbers), (Box(0.0, 2.0, (5, 3, 3), np.float32), Discrete(3)))
        self.assertIn(box.sample(), box)
        self.assertNotIn(np.zeros((5, 3, 3)), box)
        self.assertNotIn(np.full((5, 3, 3), np.nan, np.float32), box)
        self.assertNotIn([0.0], box)
        self.assertTrue(all(numbers.sample() in numbers for _ in range(20)))
        self.assertEqual([value in numbers for value in (0, 2, 3, -1, np.int8(1), 1.0, "1")], [True, True, False, False, True, False, False])
        one, other = Discrete(1000), Discrete(1000)
        one.seed(4), other.seed(4)
        self.assertEqual([one.sample() for _ in range(9)], [other.sample() for _ in range(9)])

    def test_gymnasiums_where_it_is_installed(self):
        class Named:
            def __init__(self, *arguments):
                self.arguments = arguments

        module = types.ModuleType("gymnasium.spaces")
        module.Box, module.Discrete = type("Box", (Named,), {}), type("Discrete", (Named,), {})
        before = {name: sys.modules.get(name) for name in ("gymnasium", "gymnasium.spaces")}
        sys.modules.update({"gymnasium": types.ModuleType("gymnasium"), "gymnasium.spaces": module})
        try:
            reload(space)
            self.assertEqual((type(space.observation_space(3)), type(space.action_space())), (module.Box, module.Discrete))
            self.assertEqual(space.observation_space(3).arguments, (0.0, 1.0, (5, 3, 3), np.float32))
        finally:
            for name, value in before.items():
                sys.modules.pop(name)
                if value is not None:
                    sys.modules[name] = value
            reload(space)


if __name__ == "__main__":
    unittest.main()

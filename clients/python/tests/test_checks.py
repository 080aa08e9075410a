"""The learners' checks: each recognises its planted mistake and passes the right one."""

import unittest
from functools import partial

import numpy as np

import learner
from lundaspro import Event, State, check_collisions, check_draw, check_picture


def board(state, agent, living_only=False):
    """The five planes before they are turned, by hand."""
    side = state.grid_size
    planes = np.zeros((5, side * side), np.float32)
    for number, snake in enumerate(state.snakes):
        if living_only and not snake.alive:
            continue
        for position, cell in enumerate(snake.body):
            planes[(0 if number == agent else 2) + (position > 0), cell] = 1.0
    planes[4, list(state.food)] = 1.0
    return planes.reshape(5, side, side)


def turned(state, agent, sign=1, **how):
    return np.rot90(board(state, agent, **how), sign * state.snakes[agent].heading, axes=(1, 2))


class Pictures(unittest.TestCase):
    def test_right(self):
        for picture in (State.observe, turned, lambda state, agent: turned(state, agent).reshape(-1).tolist()):
            verdict = check_picture(picture)
            self.assertTrue(verdict, verdict)
            self.assertRegex(str(verdict), r"^agrees on \d+ states$")

    def test_planted(self):
        planted = {
            "turned with the heading: Left and Right have changed places": lambda s, a: turned(s, a, -1),
            "not turned: it shows the board, wherever the snake heads": board,
            "mirrored: what lies left of the snake is shown to its right": lambda s, a: turned(s, a)[:, :, ::-1],
            "upside down: the snake heads for the last row and not for the first": lambda s, a: turned(s, a)[:, ::-1],
            "rows and columns have changed places": lambda s, a: turned(s, a).transpose(0, 2, 1),
            "the snake's own planes and the others' have changed places": lambda s, a: turned(s, a)[[2, 3, 0, 1, 4]],
            "heads and bodies have changed places": lambda s, a: turned(s, a)[[1, 0, 3, 2, 4]],
            "heads stand in the planes of bodies too": lambda s, a: np.maximum(turned(s, a), turned(s, a)[[4, 0, 4, 2, 4]] * np.array([0, 1, 0, 1, 0])[:, None, None]),
            "the snake is among the others too": lambda s, a: np.maximum(turned(s, a), turned(s, a)[[4, 4, 0, 1, 4]] * np.array([0, 0, 1, 1, 0])[:, None, None]),
            "corpses are left out: they lie on the board and are seen": lambda s, a: turned(s, a, living_only=True),
            "no food is shown": lambda s, a: turned(s, a) * np.array([1, 1, 1, 1, 0])[:, None, None],
        }
        for sentence, picture in planted.items():
            verdict = check_picture(picture)
            self.assertEqual((bool(verdict), str(verdict)), (False, sentence))
            self.assertIsNotNone(verdict.state)

    def test_no_known_mistake(self):
        verdict = check_picture(lambda state, agent: turned(state, agent) * 2)
        self.assertRegex(str(verdict), r"^plane 0 of what snake 0 sees, row \d, column \d: 2 where 1 is due$")
        self.assertRegex(str(check_picture(lambda state, agent: [0.0])), "^gives 1 numbers where five planes of 4 by 4 are due$")


class Collisions(unittest.TestCase):
    def test_right(self):
        self.assertRegex(str(check_collisions(State.step)), r"^agrees on \d+ moves$")
        self.assertRegex(str(check_collisions(learner.step)), r"^agrees on \d+ moves$")
        events = check_collisions(lambda *move: learner.step(*move).events)
        self.assertRegex(str(events), r"^agrees on \d+ moves, by their events$")
        for cause in (lambda event: event.death_cause, lambda event: event.death_cause and event.death_cause.name):
            causes = check_collisions(lambda *move: [cause(event) for event in learner.step(*move).events])
            self.assertRegex(str(causes), r"^agrees on \d+ moves, by their causes of death$")

    def test_planted(self):
        planted = {
            "one after another": "one snake after another: the death of snake 0 has cleared the way for snake 1",
            "old tails": "judged before the tails have moved: snake 1 dies on the cell that snake 0's tail leaves",
            "moves in turn": "moved one after another: snake 0 dies on the cell that snake 1's tail leaves",
            "one of two heads": "two heads on one cell: only one of the two dies",
            "swap": "heads that change places are stopped",
            "own tail": "a snake dies on the tail that it follows",
            "corpses": "a snake dies on a corpse",
            "eater's tail": "an eater's tail has moved on: it stays",
            "dead killer": "a killer is credited that died too",
            "dying eater": "a dying snake has eaten",
            "last alone": "the last snake of play_to_last, dying alone, has lost",
        }
        for slip, sentence in planted.items():
            for verdict in (
                check_collisions(partial(learner.step, slip=slip)),
                check_collisions(lambda *move: learner.step(*move, slip=slip).events),
            ):
                self.assertEqual((bool(verdict), str(verdict)), (False, sentence), slip)

    def test_no_known_mistake(self):
        self.assertEqual(str(check_collisions(lambda state, setting, actions: [None] * len(actions))), "snake 0: no death where Wall is due")
        self.assertEqual(str(check_collisions(lambda state, setting, actions: [])), "tells of 0 snakes where 2 move")
        self.assertEqual(str(check_collisions(lambda state, setting, actions: state.step(setting, actions)._replace(terminal=False))), "terminal is not as it is due")
        stayed = check_collisions(lambda state, setting, actions: state.step(setting, actions)._replace(next=state))
        self.assertRegex(str(stayed), "^the next state is\n")
        blank = check_collisions(lambda state, setting, actions: [Event(died=event.died, death_cause=event.death_cause) for event in state.step(setting, actions).events])
        self.assertEqual(str(blank), "snake 0: the events W where Wl are due")


class Draws(unittest.TestCase):
    def test_right(self):
        for draw in (State.draw, learner.draw, learner.drawn):
            verdict = check_draw(draw)
            self.assertTrue(verdict, verdict)
            self.assertRegex(str(verdict), r"^agrees on \d+ draws$")

    def test_planted(self):
        planted = {
            "two throws": r"^two throws of one die: cell 0 twice$",
            "other end": r"^the index is read from its other end: the last draw's digit is the lowest$",
            "sorted": r"^the cells are sorted: the order drawn is lost$",
            "first alone": r"^draws 1 cells where 2 are due$",
            "corpses": r"^cell \d+ is not free: the corpse of snake \d$",
        }
        for slip, sentence in planted.items():
            verdict = check_draw(partial(learner.draw, slip=slip))
            self.assertFalse(verdict)
            self.assertRegex(str(verdict), sentence)
        self.assertEqual(str(check_draw(lambda state, index: state.draw(index).cells[::-1])), "the cells come last drawn first")

    def test_no_known_mistake(self):
        def dropped(state, index):
            answer = state.draw(index)
            return answer._replace(next=state)

        self.assertRegex(str(check_draw(dropped)), "^the next state is\n")
        self.assertRegex(str(check_draw(lambda state, index: state.draw(state.count() - 1 - index).cells)), r"^index 0 draws \[.*\] where \[.*\] are due$")


if __name__ == "__main__":
    unittest.main()

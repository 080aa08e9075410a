"""A learner's picture."""

from __future__ import annotations

from collections.abc import Callable

import numpy as np
import numpy.typing as npt

from ..lend import Planes
from ..state import State
from .trials import moves
from .verdict import Verdict


def _living_only(state: State, agent: int, right: Planes) -> Planes:
    others = np.zeros((2, state.grid_size**2), np.float32)
    for snake in (snake for number, snake in enumerate(state.snakes) if snake.alive and number != agent):
        others[0, list(snake.body[:1])] = 1.0
        others[1, list(snake.body[1:])] = 1.0
    planes = right.copy()
    planes[2:4] = _turned(others.reshape(2, state.grid_size, state.grid_size), state.snakes[agent].heading)
    return planes


def _turned(right: Planes, quarters: int) -> Planes:
    return np.rot90(right, quarters, axes=(1, 2))


def _filled(right: Planes, *pairs: tuple[int, int]) -> Planes:
    planes = right.copy()
    for into, source in pairs:
        planes[into] = np.maximum(planes[into], right[source])
    return planes


# The picture that each mistake gives, from the state, the agent and the right one. What tells it is said where all answers are these.
_MISTAKES: tuple[tuple[str, Callable[[State, int, Planes], Planes]], ...] = (
    ("turned with the heading: Left and Right have changed places", lambda s, a, p: _turned(p, -2 * s.snakes[a].heading)),
    ("not turned: it shows the board, wherever the snake heads", lambda s, a, p: _turned(p, -s.snakes[a].heading)),
    ("mirrored: what lies left of the snake is shown to its right", lambda s, a, p: p[:, :, ::-1]),
    ("upside down: the snake heads for the last row and not for the first", lambda s, a, p: p[:, ::-1]),
    ("rows and columns have changed places", lambda s, a, p: p.transpose(0, 2, 1)),
    ("the snake's own planes and the others' have changed places", lambda s, a, p: p[[2, 3, 0, 1, 4]]),
    ("heads and bodies have changed places", lambda s, a, p: p[[1, 0, 3, 2, 4]]),
    ("heads stand in the planes of bodies too", lambda s, a, p: _filled(p, (1, 0), (3, 2))),
    ("the snake is among the others too", lambda s, a, p: _filled(p, (2, 0), (3, 1))),
    ("corpses are left out: they lie on the board and are seen", _living_only),
    ("no food is shown", lambda s, a, p: p * np.array([1, 1, 1, 1, 0], np.float32)[:, None, None]),
)


def check_picture(picture: Callable[[State, int], npt.ArrayLike]) -> Verdict:
    """Tries a function of a state and the number of a living snake, which gives the five planes that this snake sees, in any shape.

    >>> from lundaspro import State
    >>> print(check_picture(State.observe))
    agrees on 365 states
    >>> def unturned(state, agent):
    ...     return np.rot90(state.observe(agent), -state.snakes[agent].heading, axes=(1, 2))
    >>> print(check_picture(unturned))
    not turned: it shows the board, wherever the snake heads
    """
    seen = []
    for state, _, _ in moves():
        for agent in (number for number, snake in enumerate(state.snakes) if snake.alive):
            right, given = state.observe(agent), np.asarray(picture(state, agent), np.float32)
            if given.size != right.size:
                return Verdict(False, f"gives {given.size} numbers where five planes of {state.grid_size} by {state.grid_size} are due", state, agent)
            seen.append((state, agent, right, given.reshape(right.shape)))
    wrong = [trial for trial in seen if not np.array_equal(trial[2], trial[3])]
    if not wrong:
        return Verdict(True, f"agrees on {len(moves())} states")
    state, agent, right, given = wrong[0]
    for sentence, mistake in _MISTAKES:
        if all(np.array_equal(answer, mistake(s, a, due)) for s, a, due, answer in seen):
            return Verdict(False, sentence, state, agent)
    plane, row, column = np.argwhere(right != given)[0].tolist()
    told = f"plane {plane} of what snake {agent} sees, row {row}, column {column}: {given[plane, row, column]:g} where {right[plane, row, column]:g} is due"
    return Verdict(False, told, state, agent)

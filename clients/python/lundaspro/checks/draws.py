"""A learner's draw."""

from __future__ import annotations

from collections.abc import Callable, Sequence
from functools import lru_cache
from typing import Union

from ..heading import Heading
from ..state import Draw, Snake, State
from .trials import moves, state_of
from .verdict import Verdict

Drawer = Callable[[State, int], Union[Draw, Sequence[int]]]

# of a state with more outcomes so many are tried
_OUTCOMES = 24


@lru_cache(maxsize=1)
def _trials() -> list[tuple[State, int]]:
    """Grid 3 with two due, of which every outcome is tried; states of matches with one to three due; the start of a match."""
    two = (Snake((2, 3), Heading.Up, True), Snake((5,), Heading.Up, True))
    states = [state_of(3, two, due=2)]
    for number, (state, setting, _) in enumerate(moves()[::9]):
        states.append(state_of(state.grid_size, state.snakes, state.food, due=1 + number % 3))
        states.append(setting.initial_state())
    counted = [(state, state.count()) for state in states]
    return [(state, index) for state, count in counted for index in range(0, count, max(1, count // _OUTCOMES))]


def _free(state: State) -> list[int]:
    taken = {cell for snake in state.snakes for cell in snake.body} | set(state.food)
    return [cell for cell in range(state.grid_size**2) if cell not in taken]


def _from_the_other_end(state: State, index: int, right: tuple[int, ...]) -> list[int]:
    left, cells = _free(state), []
    for _ in right:
        index, digit = divmod(index, len(left))
        cells.append(left.pop(digit))
    return cells


# The cells that each mistake gives, from the state, the index and the right ones.
_MISTAKES: tuple[tuple[str, Callable[[State, int, tuple[int, ...]], list[int]]], ...] = (
    ("the cells are sorted: the order drawn is lost", lambda state, index, right: sorted(right)),
    ("the cells come last drawn first", lambda state, index, right: list(right[::-1])),
    ("the index is read from its other end: the last draw's digit is the lowest", _from_the_other_end),
)


def _who(state: State, cell: int) -> str:
    if cell in state.food:
        return "food"
    for number, snake in enumerate(state.snakes):
        if cell in snake.body:
            return f"snake {number}" if snake.alive else f"the corpse of snake {number}"
    return "no cell of the board" if cell not in range(state.grid_size**2) else "nothing"


def _fault(state: State, cells: list[int], right: tuple[int, ...]) -> str | None:
    """What is wrong with the cells by themselves."""
    if len(cells) != len(right):
        return f"draws {len(cells)} cells where {len(right)} are due"
    twice = [cell for at, cell in enumerate(cells) if cell in cells[:at]]
    if twice:
        return f"two throws of one die: cell {twice[0]} twice"
    free = _free(state)
    taken = [cell for cell in cells if cell not in free]
    return f"cell {taken[0]} is not free: {_who(state, taken[0])}" if taken else None


def check_draw(draw: Drawer) -> Verdict:
    """Tries a function of a state and an index: it gives a `Draw`, or the cells in the order drawn.

    >>> from lundaspro import State
    >>> print(check_draw(State.draw))
    agrees on 2018 draws
    >>> def two_throws(state, index):
    ...     free = [cell for cell in range(state.grid_size**2) if str(state).replace("\\n", "")[cell] == "."]
    ...     first, second = divmod(index, len(free) - 1)
    ...     return [free[first], free[second]] if state.due == 2 else State.draw(state, index)
    >>> print(check_draw(two_throws))
    two throws of one die: cell 0 twice
    """
    seen = []
    for state, index in _trials():
        right, answer = state.draw(index), draw(state, index)
        cells = list(answer.cells if isinstance(answer, Draw) else answer)
        fault = _fault(state, cells, right.cells)
        if fault is not None:
            return Verdict(False, fault, state, index)
        if isinstance(answer, Draw) and cells == list(right.cells) and answer.next != right.next:
            return Verdict(False, f"the next state is\n{answer.next}\nwhere\n{right.next}\nis due", state, index)
        seen.append((state, index, right.cells, cells))
    wrong = [trial for trial in seen if list(trial[2]) != trial[3]]
    if not wrong:
        return Verdict(True, f"agrees on {len(seen)} draws")
    state, index, due, given = wrong[0]
    for sentence, mistake in _MISTAKES:
        if all(cells == mistake(s, i, right) for s, i, right, cells in seen):
            return Verdict(False, sentence, state, index)
    return Verdict(False, f"index {index} draws {given} where {list(due)} are due", state, index)

"""Draws by unit numbers: the arena has no random source of its own."""

from __future__ import annotations

from typing import Protocol

from .library import Long, check, flat
from .state import Draw, State
from .values import real, unsigned


class Generator(Protocol):
    """What gives unit numbers, at least 0 and below 1: numpy's `Generator`, Python's `random.Random`, or your own.

    >>> import random
    >>> generator: Generator = random.Random(1)
    """

    def random(self) -> float:
        """The next one.

        >>> import random
        >>> 0 <= random.Random(1).random() < 1
        True
        """


def outcome_of(count: int, u: float) -> int:
    """The index below that count which a unit number gives: the rounded product, cut. Refusals 80, 81.

    >>> outcome_of(3, 1 / 3)
    1
    """
    index = Long()
    check(flat.outcome_of(unsigned(count, "count"), real(u, "u"), index))
    return index[0]


def draw_by(state: State, generator: Generator) -> Draw:
    """The draw whose index the generator's next unit number gives. Refusals 23, 28, 80, 81.

    >>> import numpy
    >>> from lundaspro import Setting
    >>> start = Setting(num_snakes=2, grid_size=3, initial_length=1, initial_food_count=1).initial_state()
    >>> draw_by(start, numpy.random.default_rng(1)).cells
    (3,)
    """
    return state.draw(outcome_of(state.count(), generator.random()))

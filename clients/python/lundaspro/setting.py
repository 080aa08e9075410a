"""A match's setting."""

from __future__ import annotations

import struct
from dataclasses import dataclass
from functools import cached_property

from . import lend
from .library import check, flat
from .state import State
from .values import flag, unsigned, whole


@dataclass(frozen=True)
class Setting:
    """A match's setting, by the names of the Rust's `Snake`. It is a value: `validate` and every call say whether it is accepted.

    >>> setting = Setting(num_snakes=2, grid_size=3, initial_length=1, initial_food_count=1)
    >>> setting.validate()
    >>> print(setting.initial_state().draw(0).next)
    *..
    .AB
    ...
    """

    num_snakes: int
    grid_size: int
    initial_length: int
    play_to_last: bool = False
    win_food_lead: int | None = None
    initial_food_count: int = 0
    max_ticks: int | None = None

    def __post_init__(self) -> None:
        self._numbers  # a value of the wrong type is told at once

    # as the exported calls take it
    @cached_property
    def _numbers(self) -> bytes:
        return struct.pack(
            "9Q",
            unsigned(self.num_snakes, "num_snakes"),
            grid_number(self.grid_size),
            unsigned(self.initial_length, "initial_length"),
            flag(self.play_to_last, "play_to_last"),
            *_limit(self.win_food_lead, "win_food_lead"),
            unsigned(self.initial_food_count, "initial_food_count"),
            *_limit(self.max_ticks, "max_ticks"),
        )

    def validate(self) -> None:
        """Nothing, or refusals 1 to 12.

        >>> Setting(2, 3, 1, win_food_lead=0).validate()
        Traceback (most recent call last):
        lundaspro.refusal.Refusal: refusal 3: food lead 0
        """
        check(flat.validate(self._numbers))

    def initial_state(self) -> State:
        """The state of a match's start. Refusals 1 to 12.

        >>> Setting(2, 3, 1).initial_state().snakes[0].body
        (4,)
        """
        out = lend.room()
        return State._of(out, lend.initial_state(self, out))


def _limit(value: int | None, name: str) -> tuple[int, int]:
    return (0, 0) if value is None else (1, unsigned(value, name))


def grid_number(grid_size: int) -> int:
    """A 32-bit signed number in two's complement of 64 bits; every other one is above all grids, and refused by 5 as 2^31 is.

    >>> grid_number(-1) == 2**64 - 1, grid_number(2**32 + 3) == 2**31
    (True, True)
    """
    number = whole(grid_size, "grid_size")
    return number % (1 << 64) if -(1 << 31) <= number < 1 << 31 else 1 << 31

"""What a step brought one snake, and what that is worth."""

from __future__ import annotations

import struct
from dataclasses import dataclass, fields
from enum import IntEnum
from functools import cached_property, lru_cache

from .library import Double, check, flat
from .values import flag, real


class Cause(IntEnum):
    """How a snake died.

    >>> Cause.OppBody.name
    'OppBody'
    """

    Wall = 1
    SelfBody = 2
    OppBody = 3
    HeadOn = 4


@dataclass(frozen=True)
class Event:
    """What a step brought one snake, by the names of the Rust's `StepEvent`. Its text is the replay's letters.

    >>> str(Event(died=True, death_cause=Cause.Wall, drew=True))
    'Wx'
    >>> str(Event())
    '-'
    """

    ate_food: bool = False
    died: bool = False
    death_cause: Cause | None = None
    killed_opponent: bool = False
    won: bool = False
    lost: bool = False
    drew: bool = False
    survived_to_max_ticks: bool = False

    def __post_init__(self) -> None:
        self._bytes  # a value of the wrong type is told at once

    # as the exported calls take it
    @cached_property
    def _bytes(self) -> bytes:
        return bytes(_byte(field.name, getattr(self, field.name)) for field in fields(self))

    @staticmethod
    @lru_cache(maxsize=None)
    def from_bytes(told: bytes) -> Event:
        """The event of the bytes that the library writes: a flag is set where its byte is not 0, a cause above 4 is none.

        >>> Event.from_bytes(bytes([1, 0, 0, 0, 0, 0, 0, 0])).ate_food
        True
        """
        ate, died, cause, killed, won, lost, drew, survived = told
        return Event(ate != 0, died != 0, Cause(cause) if 1 <= cause <= 4 else None, killed != 0, won != 0, lost != 0, drew != 0, survived != 0)

    def __bytes__(self) -> bytes:
        return self._bytes

    def __str__(self) -> str:
        shown = [
            "a" if self.ate_food else "",
            "" if self.death_cause is None else self.death_cause.name[0],
            "k" if self.killed_opponent else "",
            "w" if self.won else "",
            "l" if self.lost else "",
            "x" if self.drew else "",
            "y" if self.survived_to_max_ticks else "",
        ]
        return "".join(shown) or "-"


def _byte(name: str, value: Cause | bool | None) -> int:
    if name == "death_cause":
        return 0 if value is None else Cause(value)
    return flag(value, name)


@dataclass(frozen=True)
class Weights:
    """What each flag of an event is worth.

    >>> Weights(win=1.0, loss=-1.0).win
    1.0
    """

    step: float = 0.0
    food: float = 0.0
    loss: float = 0.0
    draw: float = 0.0
    kill: float = 0.0
    win: float = 0.0
    survival: float = 0.0

    def __post_init__(self) -> None:
        self._numbers  # a value of the wrong type is told at once

    # as the exported calls take them
    @cached_property
    def _numbers(self) -> bytes:
        return struct.pack("7d", *(real(getattr(self, field.name), field.name) for field in fields(self)))


def reward(weights: Weights, event: Event) -> float:
    """The reward of an event. Refusal 31, for infinities and NaN, flagged or not.

    >>> reward(Weights(step=-0.5, draw=0.25), Event(died=True, death_cause=Cause.Wall, drew=True))
    -0.25
    """
    total = Double()
    check(flat.reward(weights._numbers, bytes(event), total))
    return total[0]

"""What a check found."""

from __future__ import annotations

from dataclasses import dataclass
from typing import Any

from ..state import State


@dataclass(frozen=True)
class Verdict:
    """Whether all agreed, the sentence that says so or names the mistake, and where it was seen: the state, and what was asked of it.

    >>> verdict = Verdict(True, "agrees on 3 states")
    >>> bool(verdict), str(verdict)
    (True, 'agrees on 3 states')
    """

    agrees: bool
    sentence: str
    state: State | None = None
    asked: Any = None

    def __bool__(self) -> bool:
        return self.agrees

    def __str__(self) -> str:
        return self.sentence

"""A match as a value: what is kept beside its state."""

from __future__ import annotations

from dataclasses import dataclass
from enum import Enum
from typing import Any

from . import lend
from .event import Event
from .library import EVENT_BYTES, SNAKES, Events, MatchNumbers, Places, check, flat
from .setting import Setting
from .state import Step
from .values import flag, unsigned


class Ending(Enum):
    """What a match is over by: too few snakes live, one of two living snakes has the food lead, or max_ticks.

    >>> [ending.name for ending in Ending]
    ['Deaths', 'Lead', 'MaxTicks']
    """

    Deaths = 0
    Lead = 1
    MaxTicks = 2


@dataclass(frozen=True)
class Match:
    """The moves made, who died when, and the end; `Match()` before the first move. Any numbers may stand in it.

    >>> from lundaspro import Match, Setting
    >>> setting = Setting(num_snakes=2, grid_size=5, initial_length=1, max_ticks=2)
    >>> state, match = setting.initial_state(), Match()
    >>> while not match.over:
    ...     match, step = match.take_move(setting, state.step(setting, [0, 0]))
    ...     state = step.next
    >>> match.ending.name, match.moves, match.places(setting), str(step.events[0])
    ('MaxTicks', 2, (1, 1), 'y')
    """

    moves: int = 0
    over: bool = False
    # it is over by max_ticks; else by the rules
    timeout: bool = False
    # the move on which each snake died, counted from 1; 0 while it lives
    deaths: tuple[int, ...] = (0,) * SNAKES
    # a living snake that lost: it is over by the food lead
    behind: tuple[bool, ...] = (False,) * SNAKES

    def _numbers(self) -> Any:
        if len(self.deaths) != SNAKES or len(self.behind) != SNAKES:
            raise ValueError("deaths and behind: eight values each are wanted")
        return MatchNumbers(
            unsigned(self.moves, "moves"),
            flag(self.over, "over"),
            flag(self.timeout, "timeout"),
            *(unsigned(move, "deaths") for move in self.deaths),
            *(flag(value, "behind") for value in self.behind),
        )

    @property
    def ending(self) -> Ending | None:
        """What it is over by; None while it goes on.

        >>> Match(over=True).ending.name, Match().ending
        ('Deaths', None)
        """
        if not self.over:
            return None
        if self.timeout:
            return Ending.MaxTicks
        return Ending.Lead if True in self.behind else Ending.Deaths

    def take_move(self, setting: Setting, step: Step) -> tuple[Match, Step]:
        """The match after the move that a step made, and the step with the living marked at max_ticks. Refusal 33 where it was over before.

        >>> from lundaspro import Setting
        >>> setting = Setting(num_snakes=2, grid_size=5, initial_length=1, max_ticks=0)
        >>> match, _ = Match().take_move(setting, setting.initial_state().step(setting, [0, 0]))
        >>> match.take_move(setting, setting.initial_state().step(setting, [0, 0]))
        Traceback (most recent call last):
        lundaspro.refusal.Refusal: refusal 33: match over
        """
        told = b"".join(map(bytes, step.events)).ljust(EVENT_BYTES * SNAKES, b"\0")
        events, numbers = Events.from_buffer_copy(told), self._numbers()
        check(flat.take_move(setting._numbers, flag(step.terminal, "terminal"), *lend.read(bytes(step.next)), events, numbers))
        marked = bytes(events)
        shown = tuple(Event.from_bytes(marked[at : at + EVENT_BYTES]) for at in range(0, EVENT_BYTES * len(step.events), EVENT_BYTES))
        moves, over, timeout, *snakes = numbers
        match = Match(moves, over != 0, timeout != 0, tuple(snakes[:SNAKES]), tuple(value != 0 for value in snakes[SNAKES:]))
        return match, step._replace(events=shown)

    def places(self, setting: Setting) -> tuple[int, ...]:
        """The place of each snake. Before the end they count as if it ended here.

        >>> from lundaspro import Setting
        >>> Match(moves=3, deaths=(0, 3, 0, 0, 0, 0, 0, 0)).places(Setting(num_snakes=2, grid_size=5, initial_length=1))
        (1, 2)
        """
        places = Places()
        check(flat.places(setting._numbers, self._numbers(), places))
        return tuple(places[: min(setting.num_snakes, SNAKES)])

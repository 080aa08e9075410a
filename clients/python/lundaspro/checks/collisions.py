"""A learner's step."""

from __future__ import annotations

from collections.abc import Callable, Sequence
from dataclasses import dataclass
from typing import Any, Union

from ..event import Cause, Event
from ..heading import Heading
from ..setting import Setting
from ..state import Snake, State, Step
from .trials import moves, state_of
from .verdict import Verdict

Fate = Union[Event, Cause, str, None]
Answer = Union[Step, Sequence[Fate]]
Stepper = Callable[[State, Setting, tuple[int, ...]], Answer]
_Up, _Right, _Down, _Left = Heading.Up, Heading.Right, Heading.Down, Heading.Left
_PLAIN = "plain"


@dataclass(frozen=True)
class _Case:
    """A move on which one mistake shows: its sentence, and whether these events are made by it."""

    sentence: str
    setting: Setting
    state: State
    actions: tuple[int, ...]
    slipped: Callable[[tuple[Event, ...]], bool]


def _case(sentence: str, slipped: Callable[[tuple[Event, ...]], bool], *snakes: Snake, food: Sequence[int] = (), to_last: bool = False) -> _Case:
    setting = Setting(num_snakes=len(snakes), grid_size=5, initial_length=1, play_to_last=to_last)
    return _Case(sentence, setting, state_of(5, snakes, food), (0,) * len(snakes), slipped)


def _alive(heading: Heading, *body: int) -> Snake:
    return Snake(body, heading, True)


def _died(snake: int) -> Callable[[tuple[Event, ...]], bool]:
    return lambda events: events[snake].died


def _plain(*snakes: Snake) -> _Case:
    return _case(_PLAIN, lambda events: False, *snakes)


# On a grid of 5, everyone forward. The plain deaths come first: who has these wrong has no mistake with a name. Then the first case that shows its own is told.
_CASES = (
    _plain(_alive(_Up, 2, 7), _alive(_Right, 21, 20)),
    _plain(_alive(_Right, 5), _alive(_Down, 11, 6, 1)),
    _plain(_alive(_Up, 12, 17, 16, 11, 6, 7, 8), _alive(_Right, 21, 20)),
    _case(
        "one snake after another: the death of snake 0 has cleared the way for snake 1",
        lambda events: events[0].died and not events[1].died,
        _alive(_Left, 0, 1, 2),
        _alive(_Up, 6, 11),
    ),
    _case("judged before the tails have moved: snake 1 dies on the cell that snake 0's tail leaves", _died(1), _alive(_Right, 7, 6), _alive(_Up, 11, 16)),
    _case("moved one after another: snake 0 dies on the cell that snake 1's tail leaves", _died(0), _alive(_Up, 11, 16), _alive(_Right, 7, 6)),
    _case("two heads on one cell: only one of the two dies", lambda events: events[0].died != events[1].died, _alive(_Right, 6, 5), _alive(_Left, 8, 9)),
    _case("heads that change places are stopped", lambda events: events[0].died or events[1].died, _alive(_Right, 6), _alive(_Left, 7)),
    _case("a snake dies on the tail that it follows", _died(0), _alive(_Down, 6, 7, 12, 11), _alive(_Left, 24)),
    _case("a snake dies on a corpse", _died(0), _alive(_Right, 6, 5), _alive(_Left, 24), Snake((7, 8), _Up, False)),
    _case("an eater's tail has moved on: it stays", lambda events: not events[1].died, _alive(_Right, 7, 6), _alive(_Up, 11, 16), food=(8,)),
    _case(
        "a killer is credited that died too",
        lambda events: events[0].killed_opponent or events[1].killed_opponent,
        _alive(_Right, 6, 5),
        _alive(_Left, 7, 8),
    ),
    _case("a dying snake has eaten", lambda events: events[0].ate_food or events[1].ate_food, _alive(_Right, 6, 5), _alive(_Left, 8, 9), food=(7,)),
    _case(
        "the last snake of play_to_last, dying alone, has lost",
        lambda events: events[0].lost,
        _alive(_Up, 0),
        Snake((24,), _Up, False),
        to_last=True,
    ),
)


def _event(fate: Fate) -> Event:
    if isinstance(fate, Event):
        return fate
    cause = Cause[fate] if isinstance(fate, str) else fate
    return Event() if cause is None else Event(died=True, death_cause=Cause(cause))


def _events(answer: Answer) -> tuple[Event, ...]:
    return tuple(map(_event, answer.events if isinstance(answer, Step) else answer))


# what of a right answer the given one tells, to be compared
def _told(right: Step, answer: Answer) -> tuple[Any, Any, str]:
    events = _events(answer)
    if isinstance(answer, Step):
        return right, answer, "agrees on {} moves"
    if any(isinstance(fate, Event) for fate in answer):
        return right.events, events, "agrees on {} moves, by their events"
    return [event.death_cause for event in right.events], [event.death_cause for event in events], "agrees on {} moves, by their causes of death"


def _difference(right: Step, answer: Answer) -> str:
    events = _events(answer)
    if len(events) != len(right.events):
        return f"tells of {len(events)} snakes where {len(right.events)} move"
    for snake, (due, given) in enumerate(zip(right.events, events)):
        if due.death_cause != given.death_cause:
            return f"snake {snake}: {_name(given)} where {_name(due)} is due"
    for snake, (due, given) in enumerate(zip(right.events, events)):
        if due != given:
            return f"snake {snake}: the events {given} where {due} are due"
    return f"the next state is\n{answer.next}\nwhere\n{right.next}\nis due" if isinstance(answer, Step) and answer.next != right.next else "terminal is not as it is due"


def _name(event: Event) -> str:
    return "no death" if event.death_cause is None else event.death_cause.name


def check_collisions(step: Stepper) -> Verdict:
    """Tries a function of a state, a setting and the actions: it gives a `Step`, or for each snake its event, or its cause of death or None.

    >>> from lundaspro import State
    >>> print(check_collisions(State.step))
    agrees on 379 moves
    >>> def nobody_dies(state, setting, actions):
    ...     return [None] * len(actions)
    >>> print(check_collisions(nobody_dies))
    snake 0: no death where Wall is due
    """
    first: Verdict | None = None
    said = ""
    trials = [(case.state, case.setting, case.actions, case) for case in _CASES] + [(*move, None) for move in moves()]
    for state, setting, actions, case in trials:
        right, answer = state.step(setting, actions), step(state, setting, actions)
        due, given, said = _told(right, answer)
        if due == given:
            continue
        unnamed = Verdict(False, _difference(right, answer), state, actions)
        if case is not None and case.sentence == _PLAIN:
            return unnamed
        if case is not None and len(due) == len(given) and case.slipped(_events(answer)):
            return Verdict(False, case.sentence, state, actions)
        first = first or unnamed
    return first or Verdict(True, said.format(len(trials)))

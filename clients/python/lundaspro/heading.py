"""Headings and actions."""

from __future__ import annotations

from enum import IntEnum

from .library import Long, check, flat


class Heading(IntEnum):
    """Where a snake heads.

    >>> list(Heading)
    [<Heading.Up: 0>, <Heading.Right: 1>, <Heading.Down: 2>, <Heading.Left: 3>]
    """

    Up = 0
    Right = 1
    Down = 2
    Left = 3


class Action(IntEnum):
    """What a snake does, relative to its heading; its number will do wherever one is wanted.

    >>> Action.TurnLeft == 1
    True
    """

    Forward = 0
    TurnLeft = 1
    TurnRight = 2


def relative_to_absolute(heading: Heading, action: Action) -> Heading:
    """The heading after an action.

    >>> relative_to_absolute(Heading.Up, Action.TurnLeft).name
    'Left'
    """
    after = Long()
    check(flat.relative_to_absolute(Heading(heading), Action(action), after))
    return Heading(after[0])

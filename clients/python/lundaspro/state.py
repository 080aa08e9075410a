"""A state of a match, and the calls on it."""

from __future__ import annotations

from collections.abc import Iterable
from enum import Enum
from typing import TYPE_CHECKING, Any, NamedTuple

import numpy as np

from . import lend
from .board import picture
from .event import Event
from .heading import Action, Heading
from .lend import Hit, Planes, Words
from .library import LIST_WORDS
from .values import unsigned

if TYPE_CHECKING:
    from .setting import Setting

# Words 0 to 4 of an image are snakes, side, food due, birth, food count; then four a snake: start of its body, length, heading, alive.
_CONTENTS = 5
_RECORD = 4


class Snake(NamedTuple):
    """A snake of a state: the cells of its body, head first, where it heads, whether it lives.

    >>> Snake(body=(4, 3), heading=Heading.Right, alive=True).head
    4
    """

    body: tuple[int, ...]
    heading: Heading
    alive: bool

    @property
    def head(self) -> int | None:
        """Its first cell; a dead one may have none.

        >>> Snake(body=(), heading=Heading.Up, alive=False).head is None
        True
        """
        return self.body[0] if self.body else None


class Actor(Enum):
    """Who acts next.

    >>> [actor.name for actor in Actor]
    ['Chance', 'Simultaneous']
    """

    Chance = 1
    Simultaneous = 0


class Step(NamedTuple):
    """A step's answer: the next state, whether the rules have ended the match, an event for each snake.

    >>> Step._fields
    ('next', 'terminal', 'events')
    """

    next: State
    terminal: bool
    events: tuple[Event, ...]


class Draw(NamedTuple):
    """A draw's answer: the next state, and the cells in the order drawn.

    >>> Draw._fields
    ('next', 'cells')
    """

    next: State
    cells: tuple[int, ...]


class State:
    """A state of a match: an image's words, checked, that never change. Equal words are equal states; its text is the board.

    >>> from lundaspro import Setting, State
    >>> setting = Setting(num_snakes=2, grid_size=3, initial_length=1, initial_food_count=1)
    >>> state = setting.initial_state().draw(2).next
    >>> print(state)
    ..*
    .AB
    ...
    >>> state.food, state.snakes[1].head, state.snakes[1].heading.name
    ((2,), 5, 'Left')
    >>> State.from_bytes(bytes(state)) == state, len({state, State(state.words)})
    (True, 1)
    """

    __slots__ = ("_data",)
    _data: bytes

    def __init__(self, words: Words | Iterable[int]) -> None:
        """Refusals 50 to 56 for what is no well-formed image."""
        values = words if isinstance(words, np.ndarray) else np.array([_word(word) for word in words], np.uint16)
        self._keep(lend.typed(values, np.uint16, "words").tobytes())

    def _keep(self, data: bytes) -> None:
        lend.check_image(data)
        object.__setattr__(self, "_data", data)

    @classmethod
    def from_bytes(cls, data: bytes) -> State:
        """The state of an image's bytes, each word's low one first. Refusals 50 to 56.

        >>> State.from_bytes(b"")
        Traceback (most recent call last):
        lundaspro.refusal.Refusal: refusal 50: word 0: fewer words than the contents need
        """
        state = object.__new__(cls)
        state._keep(bytes(data))
        return state

    # what the library wrote is well-formed
    @classmethod
    def _of(cls, out: Words, words: int) -> State:
        state = object.__new__(cls)
        object.__setattr__(state, "_data", out[:words].tobytes())
        return state

    def __setattr__(self, name: str, value: Any) -> None:
        raise AttributeError("a state never changes")

    def __delattr__(self, name: str) -> None:
        raise AttributeError("a state never changes")

    def __reduce__(self) -> tuple[Any, ...]:
        return State.from_bytes, (self._data,)

    def __bytes__(self) -> bytes:
        return self._data

    def __eq__(self, other: object) -> bool:
        if not isinstance(other, State):
            return NotImplemented
        return self._data == other._data

    def __hash__(self) -> int:
        return hash(self._data)

    def __str__(self) -> str:
        return picture(self)

    def __repr__(self) -> str:
        return f"State({self.words.tolist()})"

    # ---- what it shows

    @property
    def words(self) -> Words:
        """The image's words, a view that cannot be written.

        >>> from lundaspro import Setting
        >>> Setting(num_snakes=2, grid_size=3, initial_length=1).initial_state().words[:5].tolist()
        [2, 3, 0, 0, 0]
        """
        return np.frombuffer(self._data, np.uint16)

    @property
    def _words(self) -> memoryview:
        return memoryview(self._data).cast("H")

    @property
    def num_snakes(self) -> int:
        """How many snakes play, dead ones included.

        >>> from lundaspro import Setting
        >>> Setting(num_snakes=2, grid_size=3, initial_length=1).initial_state().num_snakes
        2
        """
        return self._words[0]

    @property
    def grid_size(self) -> int:
        """The side g of the grid; a cell is row * g + column.

        >>> from lundaspro import Setting
        >>> Setting(num_snakes=2, grid_size=3, initial_length=1).initial_state().grid_size
        3
        """
        return self._words[1]

    @property
    def due(self) -> int:
        """How many apples are to be drawn before the next step.

        >>> from lundaspro import Setting
        >>> Setting(num_snakes=2, grid_size=3, initial_length=1, initial_food_count=2).initial_state().due
        2
        """
        return self._words[2]

    @property
    def snakes(self) -> tuple[Snake, ...]:
        """The snakes, dead ones included.

        >>> from lundaspro import Setting
        >>> [snake.body for snake in Setting(num_snakes=2, grid_size=5, initial_length=2).initial_state().snakes]
        [(11, 10), (14, 9)]
        """
        words = self._words
        records = range(_CONTENTS, _CONTENTS + _RECORD * words[0], _RECORD)
        parts = (words[at : at + _RECORD].tolist() for at in records)
        return tuple(Snake(tuple(words[start : start + length]), Heading(heading), alive != 0) for start, length, heading, alive in parts)

    @property
    def food(self) -> tuple[int, ...]:
        """The cells with food, in ascending order.

        >>> from lundaspro import Setting
        >>> Setting(num_snakes=2, grid_size=3, initial_length=1).initial_state().food
        ()
        """
        words = self._words
        return tuple(words[len(words) - words[4] :])

    # ---- moves

    def actor(self) -> Actor:
        """Who acts next.

        >>> from lundaspro import Setting
        >>> Setting(num_snakes=2, grid_size=3, initial_length=1).initial_state().actor().name
        'Simultaneous'
        """
        return Actor.Chance if lend.actor(self._data) else Actor.Simultaneous

    def step(self, setting: Setting, actions: Iterable[int]) -> Step:
        """One move of all snakes, an action for each; a dead snake's may be any number. Refusals 1 to 12, 21, 22, 24, 25.

        >>> from lundaspro import Setting
        >>> setting = Setting(num_snakes=2, grid_size=3, initial_length=1)
        >>> answer = setting.initial_state().step(setting, [1, 0])
        >>> print(answer.next, answer.terminal, *answer.events)
        .A.
        .B.
        ... False - -
        """
        out = lend.room()
        words, terminal, events = lend.step(setting, self._data, actions, out)
        return Step(State._of(out, words), terminal, events)

    def struck(self, setting: Setting, actions: Iterable[int]) -> tuple[Hit | None, ...]:
        """For each snake, whom it hits by that move and where, if it dies by its own or another's body. Refusals 1 to 12, 21, 22, 24, 25.

        >>> from lundaspro import Setting, State
        >>> state = State([2, 5, 0, 0, 0, 13, 1, 1, 1, 14, 2, 3, 1, 7, 8, 9])
        >>> state.struck(Setting(num_snakes=2, grid_size=5, initial_length=1), [0, 0])
        (Hit(snake=1, position=1), None)
        """
        return lend.struck(setting, self._data, actions)

    # ---- draws

    def count(self) -> int:
        """How many outcomes the draw has. Refusals 23, 28.

        >>> from lundaspro import Setting
        >>> Setting(num_snakes=2, grid_size=3, initial_length=1, initial_food_count=1).initial_state().count()
        7
        """
        return lend.count(self._data)

    def draw(self, index: int) -> Draw:
        """The outcome of that index. Refusals 23, 28, 27.

        >>> from lundaspro import Setting
        >>> Setting(num_snakes=2, grid_size=3, initial_length=1, initial_food_count=1).initial_state().draw(2).cells
        (2,)
        """
        out, cells = lend.room(), np.empty(LIST_WORDS, np.uint16)
        words, listed = lend.draw(self._data, index, out, cells)
        return Draw(State._of(out, words), tuple(cells[:listed].tolist()))

    def rank(self, cells: Iterable[int]) -> int:
        """The index whose draw gives these cells in this order. Refusals 23, 28, 30.

        >>> from lundaspro import Setting
        >>> Setting(num_snakes=2, grid_size=3, initial_length=1, initial_food_count=1).initial_state().rank([2])
        2
        """
        return lend.rank(self._data, np.array([_word(cell) for cell in cells], np.uint16))

    # ---- agents

    def observe(self, agent: int, out: Planes | None = None) -> Planes:
        """What an agent sees: five planes of g rows and g columns. With `out`, float32 in one piece, the answer is a view of its beginning. Refusals 26, 29.

        >>> import numpy
        >>> from lundaspro import Setting
        >>> state = Setting(num_snakes=2, grid_size=3, initial_length=1).initial_state()
        >>> state.observe(0)[0].tolist()
        [[0.0, 0.0, 0.0], [0.0, 1.0, 0.0], [0.0, 0.0, 0.0]]
        >>> all_seen = numpy.empty((2, 5, 3, 3), numpy.float32)
        >>> numpy.shares_memory(state.observe(1, all_seen[1]), all_seen)
        True
        """
        side = self.grid_size
        planes = np.empty(5 * side * side, np.float32) if out is None else out
        count = lend.observe(self._data, agent, planes)
        return planes.reshape(-1)[:count].reshape(5, side, side)

    def legal_actions(self, agent: int) -> tuple[Action, ...]:
        """All three actions, or none. Refusal 26.

        >>> from lundaspro import Setting
        >>> [action.name for action in Setting(num_snakes=2, grid_size=3, initial_length=1).initial_state().legal_actions(0)]
        ['Forward', 'TurnLeft', 'TurnRight']
        """
        return tuple(Action)[: lend.legal_actions(self._data, agent)]

    def truncation(self, agent: int, event: Event) -> Event:
        """The event with `survived_to_max_ticks` set to whether the agent lives. Refusal 26.

        >>> from lundaspro import Event, Setting
        >>> str(Setting(num_snakes=2, grid_size=3, initial_length=1).initial_state().truncation(0, Event(ate_food=True)))
        'ay'
        """
        return lend.truncation(self._data, agent, event)

    def length_cell(self) -> int | None:
        """The sorted lengths' buckets as one key; None where a snake is dead.

        >>> from lundaspro import Setting
        >>> Setting(num_snakes=2, grid_size=9, initial_length=3).initial_state().length_cell()
        65537
        """
        return lend.length_cell(self._data)


def _word(value: Any) -> int:
    number = unsigned(value, "word")
    if number > 65535:
        raise ValueError(f"word: {number} is not from 0 to 65535")
    return number

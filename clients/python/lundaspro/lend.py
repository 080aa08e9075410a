"""The calls over the caller's own arrays: nothing is kept, and what is lent is written from its beginning.

An image is `bytes` or a numpy array of uint16; `out` is a numpy array of uint16, of an observation of float32, that can be written and lies in one piece. The
answer says how many elements were written; what lies behind them keeps its values, and a refusal, 29 for too short an array too, writes nothing.

>>> import numpy
>>> from lundaspro import Setting, lend
>>> out = numpy.zeros(20, numpy.uint16)
>>> lend.initial_state(Setting(num_snakes=2, grid_size=3, initial_length=1), out)
15
>>> lend.count(out[:14])
Traceback (most recent call last):
lundaspro.refusal.Refusal: refusal 53: word 14: total length wrong
"""

from __future__ import annotations

import ctypes
from collections.abc import Iterable
from typing import TYPE_CHECKING, Any, NamedTuple, Union

import numpy as np
import numpy.typing as npt

from .event import Event
from .library import EVENT_BYTES, IMAGE_WORDS, EventBytes, Events, Hits, Long, Longs2, check, flat
from .values import unsigned

if TYPE_CHECKING:
    from .setting import Setting

Words = npt.NDArray[np.uint16]
Planes = npt.NDArray[np.float32]
Image = Union[bytes, Words]


class Hit(NamedTuple):
    """Whom a snake hit, and at which position of that snake's moved body, its head being 0.

    >>> Hit(snake=1, position=2)
    Hit(snake=1, position=2)
    """

    snake: int
    position: int


def room() -> Words:
    """An array that holds any image.

    >>> len(room())
    9253
    """
    return np.empty(IMAGE_WORDS, np.uint16)


def typed(array: Any, kind: type, name: str) -> Any:
    """That array, where it is one of that kind in one piece.

    >>> typed([0], np.uint16, "out")
    Traceback (most recent call last):
    TypeError: out: a numpy array of uint16 in one piece is wanted
    """
    if isinstance(array, np.ndarray) and array.dtype == kind and array.flags.c_contiguous and array.flags.aligned:
        return array
    raise TypeError(f"{name}: a numpy array of {kind.__name__} in one piece is wanted")


def read(image: Image, name: str = "image") -> tuple[Any, int]:
    """Where words lie that are only read, and how many there are.

    >>> read(b"ab" * 3)[1]
    3
    """
    if isinstance(image, bytes):
        if len(image) % 2:
            raise ValueError(f"{name}: {len(image)} bytes are no words of two bytes")
        return image, len(image) // 2
    array = typed(image, np.uint16, name)
    return array.ctypes.data, array.size


_PLACES: dict[type, Any] = {np.uint16: ctypes.c_uint16 * 0, np.float32: ctypes.c_float * 0}


def written(array: Any, kind: type = np.uint16, name: str = "out") -> tuple[Any, int]:
    """Where an array lies that is written, and how many elements it has.

    >>> written(room())[1]
    9253
    """
    typed(array, kind, name)
    # what cannot be written gives no buffer: a TypeError; an empty array has none
    return (_PLACES[kind].from_buffer(array) if array.size else array.ctypes.data), array.size


def apart(out: Any, *others: Any) -> None:
    """Nothing, or a ValueError where what is written lies over another array: the library's calls are proved for memory that is apart.

    >>> words = room()
    >>> apart(words[:20], words[20:], b"")
    >>> apart(words[:20], words[10:])
    Traceback (most recent call last):
    ValueError: out: it lies over another array of the call
    """
    if any(isinstance(other, np.ndarray) and np.may_share_memory(out, other) for other in others):
        raise ValueError("out: it lies over another array of the call")


def numbers(actions: Iterable[int]) -> Any:
    """The actions of a move as the library takes them.

    >>> list(numbers([0, 2]))
    [0, 2]
    """
    values = [unsigned(action, "action") for action in actions]
    return (ctypes.c_uint64 * len(values))(*values)


def initial_state(setting: Setting, out: Words) -> int:
    """The image of a match's start; its words. Refusals 1 to 12, 29.

    >>> from lundaspro import Setting
    >>> initial_state(Setting(num_snakes=2, grid_size=3, initial_length=1), room())
    15
    """
    count = Long()
    check(flat.initial_state(setting._numbers, *written(out), count))
    return count[0]


def check_image(image: Image) -> None:
    """Nothing, or what is wrong with an image: refusals 50 to 56.

    >>> check_image(b"")
    Traceback (most recent call last):
    lundaspro.refusal.Refusal: refusal 50: word 0: fewer words than the contents need
    """
    check(flat.check_image(*read(image)))


def body(image: Image, snake: int) -> tuple[int, int]:
    """Where a snake's body begins in the image and its length; 0 and 0 for a malformed image or no such snake.

    >>> from lundaspro import Setting
    >>> body(bytes(Setting(num_snakes=2, grid_size=5, initial_length=2).initial_state()), 1)
    (15, 2)
    """
    part = Longs2()
    flat.body(*read(image), unsigned(snake, "snake"), part)
    return part[0], part[1]


def step(setting: Setting, image: Image, actions: Iterable[int], out: Words) -> tuple[int, bool, tuple[Event, ...]]:
    """One move of all snakes: the next image's words, whether the match is over, an event for each snake. Refusals 1 to 12, 50 to 56, 21, 22, 24, 25, 29.

    >>> from lundaspro import Setting
    >>> setting = Setting(num_snakes=2, grid_size=3, initial_length=1)
    >>> words, terminal, events = step(setting, bytes(setting.initial_state()), [0, 0], room())
    >>> words, terminal, [str(event) for event in events]
    (15, False, ['-', '-'])
    """
    acts = numbers(actions)
    apart(out, image)
    events, end = Events(), Longs2()
    check(flat.step(setting._numbers, *read(image), acts, len(acts), *written(out), events, end))
    told = bytes(events)
    return end[0], end[1] != 0, tuple(Event.from_bytes(told[at : at + EVENT_BYTES]) for at in range(0, EVENT_BYTES * len(acts), EVENT_BYTES))


def struck(setting: Setting, image: Image, actions: Iterable[int]) -> tuple[Hit | None, ...]:
    """For each snake, whom it hits by that move and where, if it dies by its own or another's body. Refusals 1 to 12, 50 to 56, 21, 22, 24, 25.

    >>> from lundaspro import Setting
    >>> setting = Setting(num_snakes=2, grid_size=5, initial_length=2)
    >>> struck(setting, bytes(setting.initial_state()), [0, 0])
    (None, None)
    """
    acts = numbers(actions)
    hits = Hits()
    check(flat.struck(setting._numbers, *read(image), acts, len(acts), hits))
    pairs = (Hit(hits[2 * snake], hits[2 * snake + 1]) for snake in range(len(acts)))
    return tuple(hit if hit.snake < 8 else None for hit in pairs)


def count(image: Image) -> int:
    """How many outcomes the draw has. Refusals 50 to 56, 23, 28.

    >>> from lundaspro import Setting
    >>> count(bytes(Setting(num_snakes=2, grid_size=3, initial_length=1, initial_food_count=1).initial_state()))
    7
    """
    value = Long()
    check(flat.count(*read(image), value))
    return value[0]


def draw(image: Image, index: int, out: Words, cells: Words) -> tuple[int, int]:
    """The outcome of that index: the next image's words, and how many cells were listed in the order drawn. Refusals 50 to 56, 23, 28, 27, 29.

    >>> from lundaspro import Setting
    >>> start = Setting(num_snakes=2, grid_size=3, initial_length=1, initial_food_count=1).initial_state()
    >>> draw(bytes(start), 2, room(), room())
    (16, 1)
    """
    apart(out, image, cells)
    apart(cells, image)
    drawn = Longs2()
    check(flat.draw(*read(image), unsigned(index, "index"), *written(out), *written(cells, name="cells"), drawn))
    return drawn[0], drawn[1]


def rank(image: Image, cells: Image) -> int:
    """The index whose draw gives that list. Refusals 50 to 56, 23, 28, 30.

    >>> from lundaspro import Setting
    >>> start = Setting(num_snakes=2, grid_size=3, initial_length=1, initial_food_count=1).initial_state()
    >>> import numpy
    >>> rank(bytes(start), numpy.array([2], numpy.uint16))
    2
    """
    index = Long()
    check(flat.rank(*read(image), *read(cells, "cells"), index))
    return index[0]


def observe(image: Image, agent: int, out: Planes) -> int:
    """What an agent sees: how many numbers were written, five planes of g*g. Refusals 50 to 56, 26, 29.

    >>> from lundaspro import Setting
    >>> import numpy
    >>> observe(bytes(Setting(num_snakes=2, grid_size=3, initial_length=1).initial_state()), 0, numpy.empty(45, numpy.float32))
    45
    """
    apart(out, image)
    numbers_written = Long()
    check(flat.observe(*read(image), unsigned(agent, "agent"), *written(out, np.float32), numbers_written))
    return numbers_written[0]


def actor(image: Image) -> bool:
    """Whether chance acts next; else all snakes do at once. Refusals 50 to 56.

    >>> from lundaspro import Setting
    >>> actor(bytes(Setting(num_snakes=2, grid_size=3, initial_length=1, initial_food_count=1).initial_state()))
    True
    """
    chance = Long()
    check(flat.actor(*read(image), chance))
    return chance[0] != 0


def legal_actions(image: Image, agent: int) -> int:
    """How many actions an agent has: 3, which are 0, 1 and 2, or none. Refusals 50 to 56, 26.

    >>> from lundaspro import Setting
    >>> legal_actions(bytes(Setting(num_snakes=2, grid_size=3, initial_length=1).initial_state()), 0)
    3
    """
    actions = Long()
    check(flat.legal_actions(*read(image), unsigned(agent, "agent"), actions))
    return actions[0]


def length_cell(image: Image) -> int | None:
    """The sorted lengths' buckets as one key; None where a snake is dead. Refusals 50 to 56.

    >>> from lundaspro import Setting
    >>> length_cell(bytes(Setting(num_snakes=2, grid_size=9, initial_length=3).initial_state()))
    65537
    """
    key = Longs2()
    check(flat.length_cell(*read(image), key))
    return key[1] if key[0] else None


def truncation(image: Image, agent: int, event: Event) -> Event:
    """The event with `survived_to_max_ticks` set to whether the agent lives. Refusals 50 to 56, 26.

    >>> from lundaspro import Setting
    >>> str(truncation(bytes(Setting(num_snakes=2, grid_size=3, initial_length=1).initial_state()), 0, Event(ate_food=True)))
    'ay'
    """
    marked = EventBytes()
    check(flat.truncation(*read(image), unsigned(agent, "agent"), bytes(event), marked))
    return Event.from_bytes(bytes(marked))


def write_book(setting: Setting, pages: int, row: Image, out: Words) -> int:
    """The book of that many images, which stand in the row one after the other; its words. Refusals 1 to 12, 42, 50 to 56 and 21 page by page, 29.

    >>> from lundaspro import Setting
    >>> setting = Setting(num_snakes=2, grid_size=3, initial_length=1)
    >>> write_book(setting, 1, bytes(setting.initial_state()), room())
    34
    """
    apart(out, row)
    count = Long()
    check(flat.write_book(setting._numbers, unsigned(pages, "pages"), *read(row, "row"), *written(out), count))
    return count[0]


def page(book: Image, number: int) -> tuple[int, int]:
    """Where a page begins in a book, from page 0 on, and its length. Refusals 40, 41, 50 to 56, 21.

    >>> from lundaspro import Book, Setting
    >>> setting = Setting(num_snakes=2, grid_size=3, initial_length=1)
    >>> page(bytes(Book.write(setting, [setting.initial_state()])), 0)
    (19, 15)
    """
    part = Longs2()
    check(flat.page(*read(book, "book"), unsigned(number, "page"), part))
    return part[0], part[1]

"""A match book: contents, and a page for each state."""

from __future__ import annotations

import os
from collections.abc import Iterable, Sequence
from typing import Union, overload

import numpy as np

from . import lend
from .lend import Image, Words
from .library import BOOK_PAGES
from .refusal import Refusal
from .setting import Setting
from .state import State

_PAGES = 16  # the word that says how many there are
Path = Union[str, "os.PathLike[str]"]


class Book(Sequence[State]):
    """The states of a match, read page by page as they are asked for: a damaged page leaves the others readable. Refusal 40 for damaged contents.

    >>> from lundaspro import Book, Setting
    >>> setting = Setting(num_snakes=2, grid_size=3, initial_length=1, initial_food_count=1)
    >>> start = setting.initial_state()
    >>> book = Book.write(setting, [start, start.draw(2).next])
    >>> len(book), book[0] == start, book[-1].food
    (2, True, (2,))
    >>> [page.due for page in book]
    [1, 0]
    >>> Book(bytes(book)) == book
    True
    """

    __slots__ = ("_words",)

    def __init__(self, words: Image) -> None:
        # no book has this page: 41 comes where the contents are accepted
        try:
            lend.page(words, (1 << 64) - 1)
        except Refusal as refusal:
            if refusal.number != 41:
                raise
        self._words: Words = np.frombuffer(words, np.uint16) if isinstance(words, bytes) else words

    @classmethod
    def open(cls, path: Path) -> Book:
        """The book in a file, of which no page is read before it is asked for. Refusal 40 where it is none.

        >>> import tempfile
        >>> from lundaspro import Book, Setting
        >>> setting = Setting(num_snakes=2, grid_size=3, initial_length=1)
        >>> with tempfile.NamedTemporaryFile() as file:
        ...     Book.write(setting, [setting.initial_state()]).save(file.name)
        ...     len(Book.open(file.name))
        1
        """
        size = os.stat(path).st_size
        if size % 2 or not size:
            raise Refusal(40)
        return cls(np.asarray(np.memmap(path, np.uint16, "r")))

    @classmethod
    def write(cls, setting: Setting, states: Iterable[State]) -> Book:
        """The book of these states, a page each. Refusals 1 to 12, 42, 21.

        >>> from lundaspro import Setting
        >>> setting = Setting(num_snakes=2, grid_size=3, initial_length=1)
        >>> Book.write(setting, [Setting(num_snakes=2, grid_size=4, initial_length=1).initial_state()])
        Traceback (most recent call last):
        lundaspro.refusal.Refusal: refusal 21: snakes or grid differ from the setting
        """
        images = [bytes(state) for state in states]
        row = b"".join(images)
        # what has more pages is refused
        out = np.empty(_PAGES + 1 + 2 * min(len(images), BOOK_PAGES) + len(row) // 2, np.uint16)
        return cls(out[: lend.write_book(setting, len(images), row, out)])

    def save(self, path: Path) -> None:
        """Writes the book to a file: what `./book` writes, and `./page` shows.

        >>> import tempfile
        >>> from lundaspro import Book, Setting
        >>> setting = Setting(num_snakes=2, grid_size=3, initial_length=1)
        >>> with tempfile.NamedTemporaryFile() as file:
        ...     Book.write(setting, []).save(file.name)
        ...     len(file.read())
        34
        """
        self._words.tofile(path)

    def page(self, number: int) -> State:
        """The state on a page, from page 0 on. Refusals 41, 50 to 56, 21.

        >>> from lundaspro import Setting
        >>> Book.write(Setting(num_snakes=2, grid_size=3, initial_length=1), []).page(0)
        Traceback (most recent call last):
        lundaspro.refusal.Refusal: refusal 41: no such page
        """
        start, length = lend.page(self._words, number)
        return State._of(self._words[start:], length)

    def __len__(self) -> int:
        return int(self._words[_PAGES])

    @overload
    def __getitem__(self, at: int) -> State: ...
    @overload
    def __getitem__(self, at: slice) -> list[State]: ...
    def __getitem__(self, at: int | slice) -> State | list[State]:
        # a range knows of slices and of places from the end
        pages = range(len(self))[at]
        return self.page(pages) if isinstance(pages, int) else [self.page(number) for number in pages]

    def __bytes__(self) -> bytes:
        return self._words.tobytes()

    def __eq__(self, other: object) -> bool:
        if not isinstance(other, Book):
            return NotImplemented
        return bool(np.array_equal(self._words, other._words))

"""probe.py <CALLS: the lines of docs/PROBE.md on the Python client, so that it is held against the Rust as the program `probe` is.

`!` comes where a lent array has changed beyond the answer, or an array that is only read at all; both with eight elements before and behind.
"""

from __future__ import annotations

import struct
import sys
from collections.abc import Callable
from typing import Any

import numpy as np

from lundaspro import Action, Cause, Event, Heading, Refusal, Setting, Weights, action_space, lend, observation_space, outcome_of, relative_to_absolute, reward

MOST_WORDS = 16384
MOST_NUMBERS = 8192
MOST_ACTIONS = 64
MOST_RANKED = 2048
MOST_BOOK_WORDS = 262144
ANY = (1 << 64) - 1
PATTERN = 42406


# ---- the fields of a line


class NoCall(Exception):
    pass


def need(holds: bool) -> None:
    if not holds:
        raise NoCall


def number_of(text: str) -> int:
    need(text.isascii() and text.isdigit() and len(text) <= 20 and (text == "0" or text[0] != "0"))
    number = int(text)
    need(number <= ANY)
    return number


class Fields:
    def __init__(self, line: str) -> None:
        self.left = line.split(" ")[::-1]

    def next(self) -> str:
        need(bool(self.left))
        return self.left.pop()

    def end(self) -> None:
        need(not self.left)

    def number(self, most: int = ANY) -> int:
        number = number_of(self.next())
        need(number <= most)
        return number

    def optional(self) -> int | None:
        text = self.next()
        return None if text == "-" else number_of(text)

    def grid(self) -> int:
        text = self.next()
        size = number_of(text.removeprefix("-"))
        need(0 < size <= 1 << 31 if text.startswith("-") else size < 1 << 31)
        return -size if text.startswith("-") else size

    def flag(self) -> bool:
        return self.number(1) == 1

    def counted(self, most: int, top: int) -> list[int]:
        return [self.number(top) for _ in range(self.number(most))]

    def cells(self, most: int) -> lend.Words:
        return kept(np.array(self.counted(most, 65535), np.uint16))

    def image(self, most: int = MOST_WORDS) -> lend.Words:
        words = self.cells(most)
        self.end()
        return words

    def setting(self) -> Setting:
        return Setting(self.number(), self.grid(), self.number(), self.flag(), self.optional(), self.number(), self.optional())

    def event(self) -> Event:
        ate, died, cause = self.flag(), self.flag(), self.number(4)
        return Event(ate, died, Cause(cause) if cause else None, *(self.flag() for _ in range(5)))

    def double(self) -> float:
        return struct.unpack("<d", struct.pack("<Q", self.number()))[0]


# ---- what is lent: filled with the pattern and looked through but for the answer's part; what is read is looked through whole

GUARD = 8


class Lent:
    def __init__(self, array: Any) -> None:
        guard = np.full(GUARD, PATTERN).astype(array.dtype)
        self.whole = np.concatenate([guard, array, guard])
        self.before = self.whole.copy()
        self.array = self.whole[GUARD : GUARD + len(array)]
        self.answered = 0

    def is_kept(self) -> bool:
        same = self.whole == self.before
        same[GUARD : GUARD + self.answered] = True
        return bool(same.all())


lent: list[Lent] = []


def kept(array: Any) -> Any:
    lent.append(Lent(array))
    return lent[-1].array


def lend_words(length: int) -> lend.Words:
    return kept(np.full(length, PATTERN, np.uint16))


def counted(array: Any, length: int) -> list[int]:
    next(part for part in lent if part.array is array).answered = length
    return [length, *map(int, array[:length].tolist())]


# ---- the calls, each to its numbers


def told(events: tuple[Event, ...]) -> list[int]:
    return list(b"".join(map(bytes, events)).ljust(64, b"\0"))


def validate(f: Fields) -> list[int]:
    setting = f.setting()
    f.end()
    setting.validate()
    return []


def initial_state(f: Fields) -> list[int]:
    setting, out = f.setting(), lend_words(f.number(MOST_WORDS))
    f.end()
    return counted(out, lend.initial_state(setting, out))


def step(f: Fields) -> list[int]:
    setting, out, actions = f.setting(), lend_words(f.number(MOST_WORDS)), f.counted(MOST_ACTIONS, ANY)
    words, terminal, events = lend.step(setting, f.image(), actions, out)
    return [int(terminal), *told(events), *counted(out, words)]


def struck(f: Fields) -> list[int]:
    setting, actions = f.setting(), f.counted(MOST_ACTIONS, ANY)
    hits = [hit or (8, 0) for hit in lend.struck(setting, f.image(), actions)]
    return [number for hit in hits + [(8, 0)] * (8 - len(hits)) for number in hit]


def draw(f: Fields) -> list[int]:
    out, cells, index = lend_words(f.number(MOST_WORDS)), lend_words(f.number(MOST_WORDS)), f.number()
    words, listed = lend.draw(f.image(), index, out, cells)
    return [*counted(out, words), *counted(cells, listed)]


def rank(f: Fields) -> list[int]:
    cells = f.cells(MOST_RANKED)
    return [lend.rank(f.image(), cells)]


def observe(f: Fields) -> list[int]:
    agent, out = f.number(), kept(np.full(f.number(MOST_NUMBERS), 0.5, np.float32))
    return counted(out, lend.observe(f.image(), agent, out))


def body(f: Fields) -> list[int]:
    snake = f.number()
    image = f.image()
    start, length = lend.body(image, snake)
    return [start, length, *image[start : start + length].tolist()]


def write_book(f: Fields) -> list[int]:
    setting, out, pages = f.setting(), lend_words(f.number(MOST_BOOK_WORDS)), f.number()
    return counted(out, lend.write_book(setting, pages, f.image(MOST_BOOK_WORDS), out))


def page(f: Fields) -> list[int]:
    number = f.number()
    book = f.image(MOST_BOOK_WORDS)
    start, length = lend.page(book, number)
    return [start, length, *book[start : start + length].tolist()]


def legal_actions(f: Fields) -> list[int]:
    agent = f.number()
    count = lend.legal_actions(f.image(), agent)
    return [count, *range(count)]


def length_cell(f: Fields) -> list[int]:
    key = lend.length_cell(f.image())
    return [0] if key is None else [1, key]


def truncation(f: Fields) -> list[int]:
    agent, event = f.number(), f.event()
    return list(bytes(lend.truncation(f.image(), agent, event)))


def reward_of(f: Fields) -> list[int]:
    weights, event = Weights(*(f.double() for _ in range(7))), f.event()
    f.end()
    return [struct.unpack("<Q", struct.pack("<d", reward(weights, event)))[0]]


def outcome(f: Fields) -> list[int]:
    count, u = f.number(), f.double()
    f.end()
    return [outcome_of(count, u)]


def observed(f: Fields) -> list[int]:
    side = f.grid()
    f.end()
    return list(observation_space(side).shape)


def done(f: Fields) -> list[int]:
    f.end()
    return [int(action_space().n)]


def turned(f: Fields) -> list[int]:
    heading, action = Heading(f.number(3)), Action(f.number(2))
    f.end()
    return [relative_to_absolute(heading, action)]


def check_image(f: Fields) -> list[int]:
    lend.check_image(f.image())
    return []


CALLS: dict[str, Callable[[Fields], list[int]]] = {
    "v": validate,
    "i": initial_state,
    "s": step,
    "H": struck,
    "c": lambda f: [lend.count(f.image())],
    "d": draw,
    "k": rank,
    "o": observe,
    "b": body,
    "B": write_book,
    "P": page,
    "t": lambda f: [int(lend.actor(f.image()))],
    "l": legal_actions,
    "z": length_cell,
    "u": truncation,
    "w": reward_of,
    "n": outcome,
    "p": observed,
    "q": done,
    "h": turned,
    "x": check_image,
}


def said(line: str) -> list[Any]:
    f = Fields(line)
    letter = f.next()
    need(letter in CALLS)
    try:
        return ["a", *CALLS[letter](f)]
    except Refusal as refusal:
        return ["r", refusal.number] + ([] if refusal.word is None else [refusal.word])


def answer(line: str) -> str:
    lent.clear()
    try:
        text = " ".join(map(str, said(line)))
    except NoCall:
        return "e"
    return text if all(part.is_kept() for part in lent) else f"{text} !"


for raw in sys.stdin.buffer:
    print(answer(raw.decode("latin-1").removesuffix("\n")), flush=True)

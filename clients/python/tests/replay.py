"""replay.py MATCH: a match replayed through the library, as a server plays it: setting, state and match are all that is kept from line to line."""

from __future__ import annotations

import re
from collections.abc import Iterator

from lundaspro import Event, Match, Refusal, Setting, State

# at most 200 bytes, single spaces, decimals below 2^64 without leading zeros
_N = "(?:0|[1-9][0-9]{0,19})"
_FIRST = re.compile(rf"({_N}) (-?{_N}) ({_N}) ([01]) ({_N}|-) ({_N}) ({_N}|-)")
_LATER = re.compile(rf"d ({_N})|m((?: {_N})+)")


def _parts(line: str, form: re.Pattern[str]) -> tuple[str, ...]:
    found = form.fullmatch(line) if len(line) <= 200 else None
    if found is None:
        raise Refusal(32)
    return found.groups()


def _number(text: str) -> int:
    number = int(text)
    if number >= 1 << 64 or text == "-0":
        raise Refusal(32)
    return number


def _setting(line: str) -> Setting:
    snakes, grid, length, to_last, lead, food, ticks = (None if text == "-" else _number(text) for text in _parts(line, _FIRST))
    if not -(1 << 31) <= grid < 1 << 31:
        raise Refusal(32)
    return Setting(snakes, grid, length, to_last == 1, lead, food, ticks)


def _turn(line: str, snakes: int) -> tuple[int | None, list[int]]:
    index, actions = _parts(line, _LATER)
    if index is not None:
        return _number(index), []
    numbers = [_number(text) for text in actions.split()]
    if len(numbers) != snakes:
        raise Refusal(32)
    return None, numbers


def _shown(letter: str, terminal: bool, state: State, events: tuple[Event, ...] = ()) -> str:
    told = [str(event) for event in events] or ["-"] * state.num_snakes
    snakes = [f"{snake.alive:d}:{len(snake.body)}:{'-' if snake.head is None else snake.head}:{letters}" for snake, letters in zip(state.snakes, told)]
    return " ".join([letter, f"{terminal:d}", str(state.due), str(len(state.food)), *snakes])


def _played(lines: list[str]) -> Iterator[str]:
    setting = _setting(lines[0] if lines else "")
    state, match = setting.initial_state(), Match()
    yield _shown("i", False, state)
    for line in lines[1:]:
        if match.over:
            raise Refusal(33)
        index, actions = _turn(line, setting.num_snakes)
        if index is not None:
            state = state.draw(index).next
            yield _shown("d", False, state)
            continue
        match, step = match.take_move(setting, state.step(setting, actions))
        state = step.next
        yield _shown("m", step.terminal, state, step.events)
    yield " ".join(["p", *map(str, match.places(setting))])


def replay(lines: list[str]) -> Iterator[str]:
    """Each line that ./play prints of a match; a refusal is the last one."""
    try:
        yield from _played(lines)
    except Refusal as refusal:
        yield f"r {refusal.number}"


if __name__ == "__main__":
    import sys

    with open(sys.argv[1], encoding="latin-1", newline="\n") as match:
        # the last newline is optional
        for shown in replay(match.read().removesuffix("\n").split("\n")):
            print(shown)

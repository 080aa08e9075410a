"""Many matches of one setting at once: arrays in, arrays out."""

from __future__ import annotations

from collections.abc import Iterable
from dataclasses import fields
from itertools import repeat
from typing import Any, NamedTuple

import numpy as np
import numpy.typing as npt

from .event import Cause, Event, Weights, reward
from .lend import Planes
from .library import EVENT_BYTES, LIST_WORDS, MATCH_NUMBERS, SNAKES, Long, check, flat
from .setting import Setting
from .state import State

# An event's code is the sum of its bytes, each times its weight here: a flag is a bit, a cause the rest.
_CODE = np.array([1, 2, 128, 4, 8, 16, 32, 64])
_CODES = 128 * (1 + len(Cause))


class Moved(NamedTuple):
    """What a move of all matches brought: for each match and snake the reward and the event's bytes, for each match whether it is over, and by max_ticks.

    >>> Moved._fields
    ('rewards', 'events', 'over', 'timeout')
    """

    rewards: npt.NDArray[np.float64]
    events: npt.NDArray[np.uint8]
    over: npt.NDArray[np.bool_]
    timeout: npt.NDArray[np.bool_]


class Matches:
    """So many matches of one setting, played move by move at once. Apples are drawn as they fall due, match by match, by numpy's generator.

    >>> import numpy
    >>> from lundaspro import Setting, Weights
    >>> setting = Setting(num_snakes=2, grid_size=5, initial_length=1, initial_food_count=1, max_ticks=50)
    >>> matches = Matches(setting, 3, numpy.random.default_rng(7), Weights(food=1.0))
    >>> matches.observe().shape
    (3, 2, 5, 5, 5)
    >>> moved = matches.step(numpy.zeros((3, 2), numpy.int64))
    >>> moved.rewards.shape, moved.over.tolist()
    ((3, 2), [False, False, False])
    >>> matches.restart(moved.over)
    >>> [snake.head for snake in matches[0].snakes]
    [12, 13]
    """

    def __init__(self, setting: Setting, count: int, generator: np.random.Generator, weights: Weights = Weights()) -> None:
        """Refusals 1 to 12, 31."""
        setting.validate()
        snakes, area = setting.num_snakes, setting.grid_size**2
        self.setting = setting
        self.generator = generator
        self._rewards = _rewards(weights)
        # two images a match: where it stands, and where the next call writes
        self._room = 5 + 4 * snakes + (snakes + 1) * area
        self._words = np.zeros((2, count, self._room), np.uint16)
        self._places = [_addresses(side) for side in self._words]
        self._side = np.zeros(count, np.intp)
        self._lengths = [0] * count
        self._matches = np.zeros((count, MATCH_NUMBERS), np.uint64)
        self._match_places = _addresses(self._matches)
        self._events = np.zeros((count, SNAKES * EVENT_BYTES), np.uint8)
        self._event_places = _addresses(self._events)
        self._ends = np.zeros((count, 2), np.uint64)
        self._end_places = _addresses(self._ends)
        self._start = setting.initial_state().words
        self.restart(np.ones(count, bool))

    def __len__(self) -> int:
        return len(self._lengths)

    def __getitem__(self, match: int) -> State:
        """The state of a match.

        >>> from lundaspro import Setting
        >>> Matches(Setting(2, 3, 1), 4, np.random.default_rng(1))[-1].num_snakes
        2
        """
        number = range(len(self))[match]
        return State._of(self._words[self._side[number], number], self._lengths[number])

    # a word of each match's image
    def _word(self, at: int) -> npt.NDArray[np.uint16]:
        words: npt.NDArray[np.uint16] = self._words[self._side, np.arange(len(self)), at]
        return words

    @property
    def alive(self) -> npt.NDArray[np.bool_]:
        """For each match and snake, whether it lives.

        >>> from lundaspro import Setting
        >>> Matches(Setting(2, 3, 1), 1, np.random.default_rng(1)).alive.tolist()
        [[True, True]]
        """
        words = [self._word(8 + 4 * snake) for snake in range(self.setting.num_snakes)]
        return np.stack(words, axis=1).astype(bool)

    @property
    def moves(self) -> npt.NDArray[np.uint64]:
        """For each match, how many moves were made.

        >>> from lundaspro import Setting
        >>> Matches(Setting(2, 3, 1), 2, np.random.default_rng(1)).moves.tolist()
        [0, 0]
        """
        return self._matches[:, 0].copy()

    @property
    def over(self) -> npt.NDArray[np.bool_]:
        """For each match, whether it is over.

        >>> from lundaspro import Setting
        >>> Matches(Setting(2, 3, 1), 2, np.random.default_rng(1)).over.tolist()
        [False, False]
        """
        return self._matches[:, 1].astype(bool)

    def restart(self, which: npt.NDArray[np.bool_]) -> None:
        """Begins these matches anew, one flag for each.

        >>> from lundaspro import Setting
        >>> matches = Matches(Setting(2, 3, 1), 2, np.random.default_rng(1))
        >>> _ = matches.step([[0, 0], [0, 0]])
        >>> matches.restart(np.array([True, False]))
        >>> matches.moves.tolist()
        [0, 1]
        """
        chosen = np.flatnonzero(which)
        self._words[self._side[chosen], chosen, : len(self._start)] = self._start
        self._matches[chosen] = 0
        for match in chosen.tolist():
            self._lengths[match] = len(self._start)
        self._draw(chosen.tolist())

    def step(self, actions: npt.ArrayLike) -> Moved:
        """One move of every match that is not over; of the others nothing changes, and their rewards and events are 0. A refusal, 25, leaves all as they were.

        >>> from lundaspro import Setting
        >>> matches = Matches(Setting(2, 3, 1, max_ticks=1), 2, np.random.default_rng(1))
        >>> matches.step([[0, 0], [0, 0]]).timeout.tolist()
        [True, True]
        """
        moves = self._actions(actions)
        playing = np.flatnonzero(~self.over).tolist()
        self._move(playing, moves)
        self._draw(np.flatnonzero(~self.over).tolist())
        return self._told(playing)

    def observe(self, out: Planes | None = None) -> Planes:
        """What every snake of every match sees, matches by snakes by five planes; with `out`, an array of that shape in one piece, written there.

        >>> from lundaspro import Setting
        >>> Matches(Setting(2, 3, 1), 4, np.random.default_rng(1)).observe().shape
        (4, 2, 5, 3, 3)
        """
        snakes, side = self.setting.num_snakes, self.setting.grid_size
        shape = (len(self), snakes, 5, side, side)
        seen = np.empty(shape, np.float32) if out is None else out
        if seen.shape != shape or seen.dtype != np.float32 or not seen.flags.c_contiguous:
            raise TypeError(f"out: an array of float32 in one piece of the shape {shape} is wanted")
        everyone = [place for place in self._here(range(len(self))) for _ in range(snakes)]
        lengths = [length for length in self._lengths for _ in range(snakes)]
        into = _addresses(seen.reshape(len(self) * snakes, -1))
        _all(map(flat.observe, everyone, lengths, list(range(snakes)) * len(self), into, repeat(5 * side * side), repeat(Long())))
        return seen

    # ---- a move

    def _move(self, playing: list[int], moves: npt.NDArray[np.uint64]) -> None:
        here, there, lengths = self._here(playing), self._there(playing), _of(self._lengths, playing)
        acts, events, ends = _of(_addresses(moves), playing), _of(self._event_places, playing), _of(self._end_places, playing)
        self._events[:] = 0
        numbers = repeat(self.setting._numbers)
        _all(map(flat.step, numbers, here, lengths, acts, repeat(moves.shape[1]), there, repeat(self._room), events, ends))
        # none is refused: these matches stand there now
        after, terminal = self._ends[playing].T.tolist()
        self._turn(playing, after)
        _all(map(flat.take_move, numbers, terminal, there, after, events, _of(self._match_places, playing)))

    def _told(self, playing: list[int]) -> Moved:
        events = self._events.reshape(len(self), SNAKES, EVENT_BYTES)[:, : self.setting.num_snakes].copy()
        rewards = np.zeros(events.shape[:2])
        rewards[playing] = self._rewards[events[playing] @ _CODE]
        return Moved(rewards, events, self.over, self._matches[:, 2].astype(bool))

    # ---- where the matches stand

    def _here(self, matches: Iterable[int]) -> list[int]:
        side = self._side.tolist()
        return [self._places[side[match]][match] for match in matches]

    def _there(self, matches: Iterable[int]) -> list[int]:
        side = self._side.tolist()
        return [self._places[1 - side[match]][match] for match in matches]

    # these matches stand where the call has written
    def _turn(self, matches: list[int], lengths: list[int]) -> None:
        self._side[matches] ^= 1
        for match, length in zip(matches, lengths):
            self._lengths[match] = length

    def _actions(self, actions: npt.ArrayLike) -> npt.NDArray[np.uint64]:
        values = np.asarray(actions)
        shape = (len(self), self.setting.num_snakes)
        if values.shape != shape or values.dtype.kind not in "iu":
            raise TypeError(f"actions: an array of whole numbers of the shape {shape} is wanted")
        if values.dtype.kind == "i" and (values < 0).any():
            raise ValueError("actions: one is below 0")
        return np.ascontiguousarray(values, np.uint64)

    # one draw of each match in which food is due, until none is
    def _draw(self, matches: list[int]) -> None:
        while matches := [match for match, due in zip(matches, self._word(2)[matches].tolist()) if due]:
            here, there, lengths = self._here(matches), self._there(matches), _of(self._lengths, matches)
            indices, drawn = np.empty((len(matches), 1), np.uint64), np.empty((len(matches), 2), np.uint64)
            told = _addresses(indices)
            _all(map(flat.count, here, lengths, told))
            _all(map(flat.outcome_of, indices[:, 0].tolist(), self.generator.random(len(matches)).tolist(), told))
            cells = np.empty(LIST_WORDS, np.uint16)
            _all(map(flat.draw, here, lengths, indices[:, 0].tolist(), there, repeat(self._room), repeat(cells.ctypes.data), repeat(LIST_WORDS), _addresses(drawn)))
            self._turn(matches, drawn[:, 0].tolist())


def _of(values: list[int], chosen: list[int]) -> list[int]:
    return [values[match] for match in chosen]


def _addresses(rows: npt.NDArray[Any]) -> list[int]:
    first = rows.ctypes.data
    return list(range(first, first + rows.strides[0] * len(rows), rows.strides[0])) if len(rows) else []


def _all(returned: Iterable[int]) -> None:
    for refusal in [value for value in returned if value]:
        check(refusal)


# the reward of every event, by its code
def _rewards(weights: Weights) -> npt.NDArray[np.float64]:
    names = [field.name for field in fields(Event) if field.name != "death_cause"]
    table = []
    for code in range(_CODES):
        flags = {name: bool(code >> bit & 1) for bit, name in enumerate(names)}
        table.append(reward(weights, Event(death_cause=Cause(code >> 7) if code >> 7 else None, **flags)))
    return np.array(table)

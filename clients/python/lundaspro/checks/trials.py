"""The states that a function is tried on."""

from __future__ import annotations

import random
from collections.abc import Iterator, Sequence
from functools import lru_cache

from ..match import Match
from ..setting import Setting
from ..state import Snake, State
from ..unit import draw_by

# Small grids, on which snakes meet soon; with corpses that stay, and with many snakes.
_SETTINGS = (
    Setting(num_snakes=2, grid_size=4, initial_length=2, initial_food_count=3, max_ticks=60),
    Setting(num_snakes=3, grid_size=5, initial_length=2, initial_food_count=2, play_to_last=True, max_ticks=60),
    Setting(num_snakes=4, grid_size=7, initial_length=3, initial_food_count=4, max_ticks=60),
    Setting(num_snakes=2, grid_size=5, initial_length=1, initial_food_count=5, win_food_lead=3, max_ticks=60),
    Setting(num_snakes=8, grid_size=9, initial_length=1, initial_food_count=6, play_to_last=True, max_ticks=60),
)
_MATCHES = 10


def state_of(grid_size: int, snakes: Sequence[Snake], food: Sequence[int] = (), due: int = 0) -> State:
    """The state of these snakes. Refusals 50 to 56.

    >>> from lundaspro import Heading, Snake
    >>> print(state_of(3, [Snake((0, 1), Heading.Left, True), Snake((8,), Heading.Up, False)], [4]))
    Aa.
    .*.
    ..1
    """
    words = [len(snakes), grid_size, due, 0, len(food)]
    start = len(words) + 4 * len(snakes)
    for snake in snakes:
        words += [start, len(snake.body), snake.heading, snake.alive]
        start += len(snake.body)
    return State([*words, *(cell for snake in snakes for cell in snake.body), *food])


def _match(setting: Setting, source: random.Random) -> Iterator[tuple[State, Setting, tuple[int, ...]]]:
    state, match = setting.initial_state(), Match()
    while not match.over:
        while state.due:
            state = draw_by(state, source).next
        actions = tuple((0, 0, 0, 1, 2)[int(5 * source.random())] for _ in state.snakes)
        yield state, setting, actions
        match, step = match.take_move(setting, state.step(setting, actions))
        state = step.next


@lru_cache(maxsize=1)
def moves() -> list[tuple[State, Setting, tuple[int, ...]]]:
    """Moves of matches that were played at random, the same ones each time.

    >>> len(moves()) > 300
    True
    """
    source = random.Random(34)
    return [move for _ in range(_MATCHES) for setting in _SETTINGS for move in _match(setting, source)]

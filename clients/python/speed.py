"""speed.py [ROLLOUT]: microseconds of the processor that a move of one match takes, with what all its snakes see: many matches at once, single calls, the published Rust's own loop.

All three play the same matches: the same actions and unit numbers, a tick of every match at a time, and what is over begins anew. ROLLOUT is the Rust's program, which
bench/rollout builds; without it the first two are timed. The best of five turns counts.
"""

from __future__ import annotations

import subprocess
import sys
import time
from collections.abc import Callable, Iterator

import numpy as np

from lundaspro import Match, Matches, Setting, Weights, draw_by, reward

MATCHES = 256
MOVES = 40
TURNS = 5
WEIGHTS = Weights(step=-0.25, food=1.0, loss=-1.0, draw=-0.5, kill=0.5, win=2.0, survival=0.125)
SETTINGS = {
    "small": Setting(num_snakes=2, grid_size=10, initial_length=3, initial_food_count=3, max_ticks=200),
    "middle": Setting(num_snakes=4, grid_size=16, initial_length=4, initial_food_count=4, max_ticks=200),
    "large": Setting(num_snakes=8, grid_size=32, initial_length=8, initial_food_count=5, max_ticks=200),
}


class Units:
    """Unit numbers that can be asked for again, one by one or many at once."""

    def __init__(self, numbers: np.ndarray) -> None:
        self.numbers, self.at = numbers, 0

    def random(self, size: int | None = None):
        begin, self.at = self.at, self.at + (1 if size is None else size)
        return float(self.numbers[begin]) if size is None else self.numbers[begin : self.at]


Totals = tuple[int, int, float]


def many(setting: Setting, actions: np.ndarray, units: Units) -> Totals:
    matches = Matches(setting, MATCHES, units, WEIGHTS)
    seen = np.empty((MATCHES, setting.num_snakes, 5, setting.grid_size, setting.grid_size), np.float32)
    eaten, ended, total = 0, 0, 0.0
    for moves in actions:
        matches.observe(seen)
        moved = matches.step(moves)
        eaten += int(moved.events[:, :, 0].sum())
        ended += int(moved.over.sum())
        total += float(moved.rewards.sum())
        matches.restart(moved.over)
    return eaten, ended, total


def single(setting: Setting, actions: np.ndarray, units: Units) -> Totals:
    states, matches = [setting.initial_state()] * MATCHES, [Match()] * MATCHES

    def draw(which: list[int]) -> None:
        while which := [match for match in which if states[match].due]:
            for match in which:
                states[match] = draw_by(states[match], units).next

    draw(list(range(MATCHES)))
    eaten, ended, total = 0, 0, 0.0
    for moves in actions.tolist():
        for state in states:
            for agent in range(setting.num_snakes):
                state.observe(agent)
        for number, acts in enumerate(moves):
            matches[number], step = matches[number].take_move(setting, states[number].step(setting, acts))
            states[number] = step.next
            eaten += sum(event.ate_food for event in step.events)
            total += sum(reward(WEIGHTS, event) for event in step.events)
        over = [number for number, match in enumerate(matches) if match.over]
        draw([number for number, match in enumerate(matches) if not match.over])
        for number in over:
            states[number], matches[number] = setting.initial_state(), Match()
        ended += len(over)
        draw(over)
    return eaten, ended, total


def timed(play: Callable[[Setting, np.ndarray, Units], Totals], setting: Setting, actions: np.ndarray, units: np.ndarray) -> tuple[float, Totals]:
    seconds, totals = [], (0, 0, 0.0)
    for _ in range(TURNS):
        begun = time.process_time()
        totals = play(setting, actions, Units(units))
        seconds.append(time.process_time() - begun)
    return min(seconds), totals


def rust(rollout: str, setting: Setting, actions: np.ndarray, units: np.ndarray) -> tuple[float, Totals]:
    fields = (setting.num_snakes, setting.grid_size, setting.initial_length, setting.initial_food_count, setting.max_ticks, MATCHES, len(actions))
    numbers = actions.astype(np.uint8).tobytes() + units.tobytes()
    told = [subprocess.run([rollout, *map(str, fields)], input=numbers, stdout=subprocess.PIPE, check=True).stdout.split() for _ in range(TURNS)]
    return min(float(answer[0]) for answer in told), (int(told[0][1]), int(told[0][2]), float(told[0][3]))


def rows(rollout: str | None) -> Iterator[str]:
    for name, setting in SETTINGS.items():
        source = np.random.default_rng(34)
        actions = source.choice(3, (MOVES, MATCHES, setting.num_snakes), p=(0.6, 0.2, 0.2))
        units = source.random(MOVES * MATCHES * 16)
        found = [timed(many, setting, actions, units), timed(single, setting, actions, units)]
        found += [rust(rollout, setting, actions, units)] if rollout else []
        # weights that are sums of eighths add up exactly, in any order
        if len({totals for _, totals in found}) != 1:
            raise SystemExit(f"{name}: they differ: {[totals for _, totals in found]}")
        costs = [f"{1e6 * seconds / (MOVES * MATCHES):.2f}" for seconds, _ in found]
        eaten, ended, _ = found[0][1]
        yield " | ".join(["| " + name, f"{setting.num_snakes} on {setting.grid_size}", f"{MOVES * MATCHES} moves, {eaten} eaten, {ended} over", *costs]) + " |"


print("| setting | snakes | played | at once | single calls | the Rust's own loop |\n|---|---|---|--:|--:|--:|")
for row in rows(sys.argv[1] if len(sys.argv) > 1 else None):
    print(row, flush=True)

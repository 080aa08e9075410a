"""The numbers that a call may refuse by, each with its sentence."""

from __future__ import annotations

# tests/sentences holds these to those of clients/c/lundaspro.h
SENTENCES: dict[int, str] = {
    1: "snakes not 2..8",
    2: "initial length 0",
    3: "food lead 0",
    4: "food lead set, snakes not 2",
    5: "grid above 32 (space query: or below 1)",
    6: "food above g*g (0 when g < 0)",
    8: "g*g(g*g-1).. of min(snakes, food) factors above 2^53",
    9: "some body cannot be traced to its length",
    10: "first bad cell: outside",
    11: "first bad cell: already taken",
    12: "food above the free cells",
    21: "snakes or grid differ from the setting",
    22: "food is due at a step",
    23: "none is due at a draw",
    24: "action count is not the number of snakes",
    25: "a living snake's action above 2",
    26: "agent not below the number of snakes",
    27: "outcome not below the count",
    28: "count above 2^64 - 1",
    29: "an output buffer shorter than its answer",
    30: "list to rank: wrong length, a cell not free, or repeated",
    31: "a reward weight not finite",
    33: "match over",
    40: "a book's contents: cut short, off their layout, a refused setting, starts out of line, words left in a book of no pages",
    41: "no such page",
    42: "above 65,535 pages",
    50: "fewer words than the contents need",
    51: "a content word out of range, or a living snake's length 0",
    52: "a start out of line",
    53: "total length wrong",
    54: "a cell beyond the grid",
    55: "a cell twice in a body",
    56: "food not ascending",
    80: "unit number: count not 1 to 2^53",
    81: "unit number: not at least 0 and below 1",
}


class Refusal(Exception):
    """Why a call refused: its number, what that says, and for 50 to 56 the first word of the image that shows the fault, None else.

    >>> from lundaspro import Setting
    >>> try:
    ...     Setting(num_snakes=9, grid_size=3, initial_length=1).validate()
    ... except Refusal as refusal:
    ...     print(refusal.number, refusal.sentence, refusal.word, sep=" | ")
    1 | snakes not 2..8 | None
    """

    number: int
    sentence: str
    word: int | None

    def __init__(self, number: int, word: int = 0) -> None:
        self.number = number
        self.sentence = SENTENCES.get(number, "no number that a call gives")
        self.word = word if 50 <= number <= 56 else None
        super().__init__(number, word)

    def __str__(self) -> str:
        shown = "" if self.word is None else f"word {self.word}: "
        return f"refusal {self.number}: {shown}{self.sentence}"

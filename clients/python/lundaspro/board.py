"""The board as text."""

from __future__ import annotations

from typing import TYPE_CHECKING

if TYPE_CHECKING:
    from .state import State


def picture(state: State) -> str:
    """A line a row and a character a cell: heads of the living `A` to `H`, their bodies `a` to `h`, corpses `0` to `7`, food `*`, a free cell `.`.

    Where a cell holds several, a head stands over bodies, these over corpses, these over food, and a lower snake over a higher one.

    >>> from lundaspro import Setting
    >>> print(picture(Setting(num_snakes=2, grid_size=3, initial_length=1, initial_food_count=1).initial_state().draw(0).next))
    *..
    .AB
    ...
    """
    side = state.grid_size
    board = ["."] * (side * side)
    # what stands over the rest is put last
    numbered = list(enumerate(state.snakes))[::-1]
    living = [(number, snake.body) for number, snake in numbered if snake.alive]
    dead = [(number, snake.body) for number, snake in numbered if not snake.alive]
    layers = [("*", state.food)]
    layers += [(chr(ord("0") + number), body) for number, body in dead]
    layers += [(chr(ord("a") + number), body) for number, body in living]
    layers += [(chr(ord("A") + number), body[:1]) for number, body in living]
    for letter, cells in layers:
        for cell in cells:
            board[cell] = letter
    return "\n".join("".join(board[row : row + side]) for row in range(0, side * side, side))

"""What is seen and done, as spaces: gymnasium's where that is installed, and small equal ones otherwise."""

from __future__ import annotations

from typing import Any

import numpy as np

from .library import Floats2, Longs5, check, flat
from .setting import grid_number

try:
    from gymnasium.spaces import Box, Discrete  # type: ignore
except ImportError:
    from .small_spaces import Box, Discrete

__all__ = ["Box", "Discrete", "action_space", "observation_space"]


def _asked(call: Any, *arguments: int) -> tuple[list[int], list[float]]:
    sizes, bounds = Longs5(), Floats2()
    check(call(*arguments, sizes, bounds))
    return list(sizes), list(bounds)


def observation_space(grid_size: int) -> Box:
    """Five planes of g rows and g columns of float32. Refusal 5.

    >>> observation_space(7).shape
    (5, 7, 7)
    """
    (_, _, *shape), (low, high) = _asked(flat.observation_space, grid_number(grid_size))
    return Box(low, high, tuple(shape), np.float32)


def action_space() -> Discrete:
    """The actions 0, 1 and 2.

    >>> int(action_space().n)
    3
    """
    sizes, _ = _asked(flat.action_space)
    return Discrete(sizes[1])

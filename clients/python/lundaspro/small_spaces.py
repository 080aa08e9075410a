"""A box and a row of numbers by gymnasium's names, for those who have it not."""

from __future__ import annotations

from typing import Any

import numpy as np


class Box:
    """Arrays of one shape between two bounds.

    >>> Box(0.0, 1.0, (2,), np.float32).contains(np.zeros(2, np.float32))
    True
    """

    def __init__(self, low: float, high: float, shape: tuple[int, ...], dtype: Any, seed: int | None = None) -> None:
        self.shape = shape
        self.dtype = np.dtype(dtype)
        self.low = np.full(shape, low, self.dtype)
        self.high = np.full(shape, high, self.dtype)
        self.seed(seed)

    def seed(self, seed: int | None = None) -> None:
        """What `sample` goes on from.

        >>> Box(0.0, 1.0, (2,), np.float32).seed(1)
        """
        self._generator = np.random.default_rng(seed)

    def sample(self) -> np.ndarray[Any, Any]:
        """An array of the box.

        >>> Box(0.0, 1.0, (2,), np.float32).sample().shape
        (2,)
        """
        return self._generator.uniform(self.low, self.high).astype(self.dtype)

    def contains(self, x: Any) -> bool:
        """Whether it is one of them.

        >>> Box(0.0, 1.0, (2,), np.float32).contains(np.full(2, 2, np.float32))
        False
        """
        return isinstance(x, np.ndarray) and x.shape == self.shape and np.can_cast(x.dtype, self.dtype) and bool(((self.low <= x) & (x <= self.high)).all())

    __contains__ = contains

    def __eq__(self, other: object) -> bool:
        return isinstance(other, Box) and self.dtype == other.dtype and np.array_equal(self.low, other.low) and np.array_equal(self.high, other.high)

    def __repr__(self) -> str:
        return f"Box({self.low.min()}, {self.high.max()}, {self.shape}, {self.dtype})"


class Discrete:
    """The numbers from 0 up to one below n.

    >>> 2 in Discrete(3), 3 in Discrete(3)
    (True, False)
    """

    def __init__(self, n: int, seed: int | None = None) -> None:
        self.n = n
        self.shape = ()
        self.dtype = np.dtype(np.int64)
        self.seed(seed)

    def seed(self, seed: int | None = None) -> None:
        """What `sample` goes on from.

        >>> Discrete(3).seed(1)
        """
        self._generator = np.random.default_rng(seed)

    def sample(self) -> np.int64:
        """One of them.

        >>> int(Discrete(1).sample())
        0
        """
        return np.int64(self._generator.integers(self.n))

    def contains(self, x: Any) -> bool:
        """Whether it is one of them.

        >>> Discrete(3).contains(0.5)
        False
        """
        return isinstance(x, (int, np.integer)) and 0 <= int(x) < self.n

    __contains__ = contains

    def __eq__(self, other: object) -> bool:
        return isinstance(other, Discrete) and self.n == other.n

    def __repr__(self) -> str:
        return f"Discrete({self.n})"

"""What a caller hands over, as the library's numbers: what is no value of its type never reaches the library."""

from __future__ import annotations

import numbers
import operator
from typing import Any

import numpy as np


def unsigned(value: Any, name: str) -> int:
    """A whole number from 0 to 2^64 - 1.

    >>> unsigned(-1, "index")
    Traceback (most recent call last):
    ValueError: index: -1 is not from 0 to 2^64 - 1
    """
    number = whole(value, name)
    if not 0 <= number < 1 << 64:
        raise ValueError(f"{name}: {number} is not from 0 to 2^64 - 1")
    return number


def whole(value: Any, name: str) -> int:
    """A whole number, numpy's too.

    >>> whole(0.5, "grid_size")
    Traceback (most recent call last):
    TypeError: grid_size: a whole number is wanted, not 0.5
    """
    try:
        return operator.index(value)
    except TypeError:
        raise TypeError(f"{name}: a whole number is wanted, not {value!r}") from None


def flag(value: Any, name: str) -> bool:
    """True or False, numpy's too, and nothing else.

    >>> flag(0, "died")
    Traceback (most recent call last):
    TypeError: died: True or False is wanted, not 0
    """
    if isinstance(value, (bool, np.bool_)):
        return bool(value)
    raise TypeError(f"{name}: True or False is wanted, not {value!r}")


def real(value: Any, name: str) -> float:
    """A number, numpy's too.

    >>> real("0.5", "u")
    Traceback (most recent call last):
    TypeError: u: a number is wanted, not '0.5'
    """
    if isinstance(value, numbers.Real):
        return float(value)
    raise TypeError(f"{name}: a number is wanted, not {value!r}")

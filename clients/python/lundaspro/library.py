"""The shared library of dist/: found, loaded, its exported calls declared."""

from __future__ import annotations

import ctypes
import os
import platform
import sys
from pathlib import Path
from types import SimpleNamespace

from .refusal import Refusal

# An image has at most so many words, a draw lists so many cells, an observation has so many numbers, a book has so many pages.
IMAGE_WORDS = 9253
LIST_WORDS = 20
PLANE_NUMBERS = 5120
BOOK_PAGES = 65535
# What a step tells of one snake, and of how many it tells.
EVENT_BYTES = 8
SNAKES = 8
MATCH_NUMBERS = 3 + 2 * SNAKES

# The exported calls (clients/c/lundaspro.h has them): p a pointer, n a number of 64 bits, u a binary64 number.
_CALLS = {
    "check_image": "pn",
    "body": "pnnp",
    "validate": "p",
    "initial_state": "ppnp",
    "step": "ppnpnpnpp",
    "take_move": "pnpnpp",
    "places": "ppp",
    "struck": "ppnpnp",
    "count": "pnp",
    "draw": "pnnpnpnp",
    "rank": "pnpnp",
    "outcome_of": "nup",
    "observe": "pnnpnp",
    "observation_space": "npp",
    "action_space": "pp",
    "length_cell": "pnp",
    "actor": "pnp",
    "legal_actions": "pnnp",
    "truncation": "pnnpp",
    "reward": "ppp",
    "relative_to_absolute": "nnp",
    "write_book": "pnpnpnp",
    "page": "pnnp",
}
_KINDS = {"p": ctypes.c_void_p, "n": ctypes.c_uint64, "u": ctypes.c_double}

# Arrays of so many numbers, to lend.
Long = ctypes.c_uint64 * 1
Longs2 = ctypes.c_uint64 * 2
Longs5 = ctypes.c_uint64 * 5
Places = ctypes.c_uint64 * SNAKES
MatchNumbers = ctypes.c_uint64 * MATCH_NUMBERS
Events = ctypes.c_uint8 * (EVENT_BYTES * SNAKES)
EventBytes = ctypes.c_uint8 * EVENT_BYTES
Hits = ctypes.c_uint16 * (2 * SNAKES)
Floats2 = ctypes.c_float * 2
Double = ctypes.c_double * 1


def library_path() -> Path:
    """The library's file: in the folder that LUNDASPRO_LIB names, else in the installed package, else in dist/ of the clone.

    >>> library_path().name
    'liblundaspro.so'
    """
    named = os.environ.get("LUNDASPRO_LIB")
    if named:
        return Path(named) / "liblundaspro.so"
    machine = {"x86_64": "x86-64", "aarch64": "aarch64"}.get(platform.machine())
    if machine is None or sys.platform != "linux" or sys.byteorder != "little":
        raise ImportError(f"lundaspro has libraries for x86-64 and aarch64 Linux, and none for {platform.machine()} {sys.platform}")
    here = Path(__file__).resolve().parent
    places = [folder / "dist" / machine / "liblundaspro.so" for folder in (here, here / "../../..")]
    for place in places:
        if place.is_file():
            return place
    raise ImportError(f"no liblundaspro.so: neither {' nor '.join(map(str, places))}")


def _load() -> SimpleNamespace:
    library = ctypes.CDLL(str(library_path()))
    calls = {}
    for name, kinds in _CALLS.items():
        call = getattr(library, f"lundaspro_flat_{name}")
        call.restype = ctypes.c_uint64
        call.argtypes = [_KINDS[kind] for kind in kinds]
        calls[name] = call
    return SimpleNamespace(**calls)


# The exported calls, each returning its refusal, 0 for none.
flat = _load()


def check(returned: int) -> None:
    """Raises what a call returned, unless it is 0.

    >>> check(0)
    >>> check(3 * 256 + 51)
    Traceback (most recent call last):
    lundaspro.refusal.Refusal: refusal 51: word 3: a content word out of range, or a living snake's length 0
    """
    if returned:
        raise Refusal(returned % 256, returned // 256 % 65536)

"""What a caller gives, as the library takes it. Whatever cannot be handed over is turned down here, with a sentence; nothing is judged."""

from __future__ import annotations

import operator
from array import array
from typing import Any, Union

# What is read: anything with one byte to an entry. Arrays of other packages are taken too; they have no type in Python 3.9.
Bytes = Union[bytes, bytearray, memoryview]

# What is written to in place, as array("Q") or array("I").
Numbers = Union["array[int]", memoryview]


def taken(what: Bytes) -> bytes:
    """The bytes as they are now. A copy, unless they can never change: the library must not see a thread that writes to them."""
    if type(what) is bytes:
        return what
    view = _view(what, "bytes are wanted")
    if view.itemsize != 1 or view.ndim != 1:
        raise TypeError(f"bytes are wanted, one after another, not entries of {view.itemsize} bytes in {view.ndim} dimensions")
    return view.tobytes()


def lent(numbers: Numbers, width: int) -> memoryview:
    """A buffer of numbers of so many bytes each, to which the library's are written back."""
    view = _view(numbers, f"an array of numbers of {8 * width} bits is wanted")
    if view.itemsize != width or view.ndim != 1 or view.format.lstrip("@=<") not in ("I", "L", "Q"):
        raise TypeError(f"an array of numbers of {8 * width} bits without a sign is wanted, in the processor's own byte order")
    if view.readonly:
        raise TypeError("the array is written to, and this one can only be read")
    if not view.c_contiguous:
        raise TypeError("the array's numbers must stand one after another")
    return view


def number32(number: int) -> int:
    """A number, or a set as a number, that fits in 32 bits: the library's are no wider, and nothing is cut."""
    if not 0 <= operator.index(number) < 2**32:
        raise ValueError(f"a number from 0 to 4,294,967,295 is wanted, not {number}")
    return operator.index(number)


def _view(what: Any, wanted: str) -> memoryview:
    try:
        return memoryview(what)
    except TypeError:
        raise TypeError(f"{wanted}, not {type(what).__name__}") from None

"""The shared object: where it is found, and calls of its functions."""

from __future__ import annotations

import ctypes
import functools
import os
import platform
from pathlib import Path
from typing import Any, Dict, List, Tuple, Union

from ._header import FUNCTIONS, VERSION
from ._lending import Numbers, lent
from ._refused import Refused

SONAME = f"libkrossvil.so.{VERSION.split('.')[0]}"

# Of each type in the header what is handed over. A slice has its length behind it, which is of 64 bits on every processor.
_TYPES: Dict[str, Tuple[Any, ...]] = {
    "const uint8_t *": (ctypes.c_char_p, ctypes.c_uint64),
    "uint8_t *": (ctypes.POINTER(ctypes.c_uint8), ctypes.c_uint64),
    "uint32_t *": (ctypes.POINTER(ctypes.c_uint32), ctypes.c_uint64),
    "uint64_t *": (ctypes.POINTER(ctypes.c_uint64), ctypes.c_uint64),
    "uint32_t": (ctypes.c_uint32,),
}

Argument = Union[int, bytes, "ctypes.Array[Any]"]


def _path() -> str:
    """What KROSSVIL_LIBRARY names; in a clone what is built there; else what the system's own search finds."""
    named = os.environ.get("KROSSVIL_LIBRARY")
    if named:
        return named
    processor = {"x86_64": "amd64", "aarch64": "arm64"}.get(platform.machine(), platform.machine())
    built = Path(__file__).resolve().parents[3] / "target" / "kit" / f"{processor}-linux" / SONAME
    return str(built) if built.exists() else SONAME


@functools.lru_cache(maxsize=None)
def library() -> ctypes.CDLL:
    """The shared object, loaded once."""
    path = _path()
    try:
        loaded = ctypes.CDLL(path)
        for name, types in FUNCTIONS.items():
            function = getattr(loaded, f"krossvil_{name}")
            function.restype = ctypes.c_uint64
            function.argtypes = [kind for each in types for kind in _TYPES[each]]
    except (OSError, AttributeError) as error:
        words = f"install the package libkrossvil-dev, version {VERSION}, or name the file in KROSSVIL_LIBRARY"
        raise OSError(f"{path} cannot be used ({error}): {words}") from None
    return loaded


def call(name: str, *arguments: Argument) -> None:
    """Calls a function with slices and numbers in the header's order, and raises what it refuses."""
    words: List[Any] = []
    for argument in arguments:
        words += [argument] if isinstance(argument, int) else [argument, len(argument)]
    code = getattr(library(), f"krossvil_{name}")(*words)
    if code != 0:
        raise Refused(code >> 32, code & 0xFFFFFFFF)


def room(size: int) -> ctypes.Array[ctypes.c_uint8]:
    """So many bytes for the library to write to."""
    return (ctypes.c_uint8 * size)()


class Lent:
    """A caller's numbers for one call: copied to where they are aligned, and written back if nothing was refused."""

    def __init__(self, numbers: Numbers, kind: Any) -> None:
        self._view = lent(numbers, ctypes.sizeof(kind))
        self.copy = (kind * len(self._view)).from_buffer_copy(self._view)

    def give_back(self) -> None:
        if len(self._view) > 0:
            self._view.cast("B")[:] = memoryview(self.copy).cast("B")

"""Calls of the archive from C, as kit/test/tap.c writes them: what was given, and what came back."""

import struct
from collections import Counter
from dataclasses import dataclass
from typing import BinaryIO, Dict, Iterator, List, Union


@dataclass
class Slice:
    """What was lent: entries of so many bytes each, before the call and after it."""

    width: int
    before: bytes
    after: bytes


@dataclass
class Call:
    name: str
    code: int
    arguments: List[Union[int, Slice]]


def calls(stream: BinaryIO) -> Iterator[Call]:
    """All of them, one after another."""
    while True:
        name = _name(stream)
        if name is None:
            return
        code, count = struct.unpack("<QB", _take(stream, 9))
        yield Call(name, code, [_argument(stream) for _ in range(count)])


def thinned(stream: BinaryIO, few: int = 100, small: int = 4000) -> Iterator[bytes]:
    """Of each function as many calls that were answered, and as many that were refused, as are few and small; and the largest that was answered."""
    seen: Counter = Counter()
    largest: Dict[str, bytes] = {}
    for call in calls(stream):
        how = call.name, call.code == 0
        size = sum(len(each.before) for each in call.arguments if isinstance(each, Slice))
        if size < small and seen[how] < few:
            seen[how] += 1
            yield _written(call)
        elif call.code == 0 and size > len(largest.get(call.name, b"")):
            largest[call.name] = _written(call)
    yield from largest.values()


def _written(call: Call) -> bytes:
    """The bytes of which a call was read."""
    data = f"krossvil_{call.name}".encode() + struct.pack("<xQB", call.code, len(call.arguments))
    for each in call.arguments:
        if isinstance(each, Slice):
            data += b"s" + struct.pack("<BIB", each.width, len(each.before) // each.width, 1) + each.before + each.after
        else:
            data += b"n" + struct.pack("<I", each)
    return data


def _take(stream: BinaryIO, count: int) -> bytes:
    data = stream.read(count)
    if len(data) < count:
        raise EOFError("the stream breaks off in the middle of a call")
    return data


def _name(stream: BinaryIO) -> Union[str, None]:
    name = bytearray(stream.read(1))
    if not name:
        return None
    while name[-1] != 0:
        name += _take(stream, 1)
    return name[:-1].decode().replace("krossvil_", "", 1)


def _argument(stream: BinaryIO) -> Union[int, Slice]:
    if _take(stream, 1) == b"n":
        return struct.unpack("<I", _take(stream, 4))[0]
    width, count, changed = struct.unpack("<BIB", _take(stream, 6))
    before = _take(stream, width * count)
    return Slice(width, before, _take(stream, width * count) if changed else before)

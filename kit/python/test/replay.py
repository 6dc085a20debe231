"""Repeats calls of the archive from C (kit/test/tap.c), and compares.

    replay.py CALLS LEAST

Each call is made twice: of the shared object, with the slices just as they were lent, and guards around each; and of the module's function,
as anybody calls it. What comes back and every byte must be the same. The functions always lend enough, so that a call from C which was
refused because too little was lent is only made of the shared object. It fails if anything differs, and then ends soon; if fewer than LEAST
calls were made of the functions; or if one of them was not seen to answer and to refuse.
"""

import ctypes
import sys
from array import array
from collections import Counter
from dataclasses import astuple
from typing import Any, List, Optional, Tuple

import krossvil
from krossvil._header import FUNCTIONS, LIVE
from krossvil._library import library
from stream import Call, Slice, calls

GUARD = b"\xa5" * 16
ROOM, SUMS = krossvil.Refusal.TOO_SHORT, krossvil.Refusal.SUMS_OR_PATH_TOO_SHORT
KEPT_BY_CALLER = ("uint32_t *", "uint64_t *")  # reports and memories; the sums of several moves are not
CODES = {4: "I", 8: "Q"}


# ---- The shared object, with what was lent


def of_object(call: Call) -> Optional[str]:
    """What differs; None if nothing does."""
    words: List[Any] = []
    rooms = []
    for argument, kind in zip(call.arguments, types_of(call)):
        if isinstance(argument, int):
            words.append(argument)
        else:
            room = ctypes.create_string_buffer(GUARD + argument.before + GUARD, len(argument.before) + 2 * len(GUARD))
            rooms.append((argument, room))
            words += [ctypes.cast(ctypes.byref(room, len(GUARD)), kind), len(argument.before) // argument.width]
    came = getattr(library(), f"krossvil_{call.name}")(*words)
    if came != call.code:
        return f"the object gives {said(came)}"
    return None if all(room.raw == GUARD + lent.after + GUARD for lent, room in rooms) else "bytes that the object was lent"


def types_of(call: Call) -> List[Any]:
    """For each argument its type in a call; lengths are left out."""
    types = iter(getattr(library(), f"krossvil_{call.name}").argtypes)
    found = []
    for argument in call.arguments:
        found.append(next(types))
        if isinstance(argument, Slice):
            next(types)
    return found


# ---- The functions of the module


def of_function(call: Call, turn: int) -> Optional[str]:
    """What differs; None if nothing does."""
    given, kept = arguments_of(call, turn)
    reads = [each for each in given if not isinstance(each, int) and all(each is not numbers for numbers, _ in kept)]
    before = [bytes(each) for each in reads]
    try:
        came: Any = astuple(getattr(krossvil, call.name)(*given))
        wanted: Any = answer_of(call) if call.code == 0 else said(call.code)
    except krossvil.Refused as refused:
        came, wanted = f"{refused.number} at {refused.place}", said(call.code)
    if came != wanted:
        return f"the function gives {came}"
    if any(numbers.tobytes() != lent.after for numbers, lent in kept):
        return "numbers that the function was lent"
    return None if [bytes(each) for each in reads] == before else "what the function was given"


def arguments_of(call: Call, turn: int) -> Tuple[List[Any], List[Tuple[array, Slice]]]:
    """What the function is given, and beside the arrays that it changes what C had in them afterwards."""
    given: List[Any] = []
    kept = []
    for argument, kind in zip(call.arguments, FUNCTIONS[call.name]):
        if isinstance(argument, int):
            given.append(argument)
        elif kind.startswith("const"):
            given.append(in_turn(argument.before, turn + len(given)))
        elif kind in KEPT_BY_CALLER and call.name != "reaction_moves":
            given.append(array(CODES[argument.width], argument.before))
            kept.append((given[-1], argument))
    return given, kept


def in_turn(data: bytes, turn: int) -> Any:
    """The same bytes as one kind after another of what is taken."""
    kinds = [bytes, bytearray, memoryview, lambda each: memoryview(bytearray(each)), every_third, lambda each: array("B", each)]
    return kinds[turn % len(kinds)](data)


def every_third(data: bytes) -> memoryview:
    spread = bytearray(b"\xff" * (3 * len(data)))
    spread[1::3] = data
    return memoryview(spread)[1::3]


def is_of_room(call: Call) -> bool:
    """Was it refused for a room that the function itself lends?"""
    if call.name == "report_add":
        return False
    memory_is_short = call.name in ("live", "watch") and len(call.arguments[1].before) < 4 * LIVE
    return call.code >> 32 in (ROOM, SUMS) and not memory_is_short


def answer_of(call: Call) -> Any:
    """What the function should give, from what C had in its slices."""
    lent = [argument for argument in call.arguments if isinstance(argument, Slice)]
    first, last = lent[0].before, lent[-1].after
    numbers = [int.from_bytes(last[k : k + 4], "big") for k in range(0, len(last) - 3, 4)]
    if call.name == "check_table":
        return tuple(first[3:6])
    if call.name in ("check_journal", "check_short", "watch"):
        return tuple(numbers[:7])
    if call.name in ("run", "read_stamped", "shorten", "lengthen"):
        return (lent[-2].after[: numbers[0]],)
    if call.name == "convert_table":
        return numbers[0], lent[-2].after[: len(first)]
    if call.name == "salvage":
        return (*numbers[:4], lent[-2].after[: numbers[0] + (7 if numbers[2] else 0)])
    if call.name == "live":
        return (*numbers[1:6], lent[-2].after[: numbers[0]])
    if call.name == "report_add":
        return (array("Q", last)[0],)
    if call.name == "reaction_moves":
        sums, states = array("I", lent[1].after), first[3]
        rows = tuple(tuple(sums[row * states : (row + 1) * states]) for row in range(call.arguments[3]))
        return (*numbers[:2], rows, tuple(lent[2].after[: numbers[2]]))
    return tuple(numbers[: {"reaction": 2, "reaction_tight": 3, "reaction_tight_moves": 3}[call.name]])


# ---- All of them


def said(code: int) -> str:
    return f"{code >> 32} at {code & 0xFFFFFFFF}"


def replay(path: str, least: int) -> bool:
    seen: Counter = Counter()
    differences = []
    with open(path, "rb") as stream:
        for turn, call in enumerate(calls(stream)):
            differs = of_object(call)
            seen[call.name, "of the object"] += 1
            if differs is None and not is_of_room(call):
                differs = of_function(call, turn)
                seen[call.name, "refused" if call.code else "answered"] += 1
            if differs is not None:
                differences.append(f"{call.name}: C gives {said(call.code)}, {differs}"[:150])
            if len(differences) == 5:
                break
    for name in FUNCTIONS:
        print(f"{name}: {seen[name, 'of the object']} calls of the object, {seen[name, 'answered']} answers and {seen[name, 'refused']} refusals")
    made = sum(count for (_, how), count in seen.items() if how != "of the object")
    unseen = [name for name in FUNCTIONS if not seen[name, "answered"] or not seen[name, "refused"]]
    print(*differences, f"{made} calls of functions, {len(differences)} differ", sep="\n")
    if made < least or unseen:
        print(f"fewer than {least} calls, or not seen to answer and to refuse: {' '.join(unseen)}")
    return not differences and not unseen and made >= least


if __name__ == "__main__":
    sys.exit(0 if replay(sys.argv[1], int(sys.argv[2])) else 1)

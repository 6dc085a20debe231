"""The examples, and calls that succeed of every function, for the tests."""

from array import array
from pathlib import Path
from typing import Any, Callable, Dict, List

import krossvil
from krossvil._header import LIVE, REPORT_MAX

ROOT = Path(__file__).resolve().parents[3]


def example(name: str) -> bytes:
    return (ROOT / "examples" / name).read_bytes()


TABLE, JOURNAL, STIMULUS = (example(f"classroom/{name}.bin") for name in ("table", "journal", "stimulus"))
SHORT, STAMPED, OLD_TABLE = example("short-journal/short.bin"), example("short-clock/stamped.bin"), example("idle-sets/old-table.bin")
OPENING = JOURNAL[:4]
EVENT = STIMULUS[:4]

# What each function is called with; bytes stand where bytes are read.
CALLS: Dict[str, Callable[[], List[Any]]] = {
    "check_table": lambda: [TABLE],
    "check_journal": lambda: [TABLE, JOURNAL],
    "check_short": lambda: [TABLE, SHORT],
    "run": lambda: [TABLE, STIMULUS],
    "reaction": lambda: [TABLE, 3, 1],
    "reaction_tight": lambda: [TABLE, 3, 1],
    "reaction_tight_moves": lambda: [TABLE, 3, 1, 2],
    "reaction_moves": lambda: [TABLE, 3, 1, 2],
    "convert_table": lambda: [OLD_TABLE],
    "read_stamped": lambda: [STAMPED],
    "shorten": lambda: [TABLE, JOURNAL],
    "lengthen": lambda: [TABLE, SHORT],
    "salvage": lambda: [TABLE, JOURNAL[:113]],
    "report_add": lambda: [TABLE, JOURNAL, new_report()],
    "live": lambda: [TABLE, new_memory(), EVENT],
    "watch": lambda: [TABLE, new_memory(), OPENING],
}


def journal_of(cycles: int) -> bytes:
    """A run of so many cycles, each of one unit, under the classroom's table."""
    turns = [krossvil.Record(kind, time) for time in range(1, cycles + 1) for kind in ("poll", "test", "tick")]
    events = [krossvil.Record("input", value=0), *turns, krossvil.Record("end", cycles)]
    return krossvil.run(TABLE, krossvil.journal(events, "stimulus")).data


def new_report(length: int = REPORT_MAX) -> "array[int]":
    return array("Q", [0] * length)


def new_memory(length: int = LIVE) -> "array[int]":
    return array("I", [0] * length)


def call(name: str, *arguments: Any) -> Any:
    return getattr(krossvil, name)(*arguments)


def with_each_bytes() -> List[Any]:
    """(function, arguments, place) for each place of each function where bytes are read."""
    found = []
    for name, arguments in CALLS.items():
        found += [(name, arguments, place) for place, each in enumerate(arguments()) if isinstance(each, bytes)]
    return found

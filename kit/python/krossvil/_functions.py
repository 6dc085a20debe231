"""A function for each of include/krossvil.h. What comes back is the library's; a refusal is raised as Refused."""

from __future__ import annotations

import ctypes
import struct
from typing import Tuple

from . import _header as header
from ._lending import Bytes, Numbers, number32, taken
from ._library import Argument, Lent, call, room
from ._answers import Accepted, Added, Converted, MovesReaction, Reaction, Salvaged, Step, Table, TightReaction, Written

# Bytes of a table where its counts stand, once it has passed.
_STATES, _INPUTS, _OUTPUTS = 3, 4, 5


def _answer(name: str, count: int, *arguments: Argument) -> Tuple[int, ...]:
    """The answer's numbers, so many."""
    answer = room(4 * count)
    call(name, *arguments, answer)
    return struct.unpack(f">{count}I", answer)


def _written(name: str, size: int, *arguments: Argument) -> Written:
    """What a function writes whose only number is the length of it."""
    output = room(size)
    (length,) = _answer(name, 1, *arguments, output)
    return Written(ctypes.string_at(output, length))


def check_table(table: Bytes) -> Table:
    """Does the table pass?"""
    given = taken(table)
    call("check_table", given)
    return Table(given[_STATES], given[_INPUTS], given[_OUTPUTS])


def check_journal(table: Bytes, journal: Bytes) -> Accepted:
    """Is the journal a run of the table's machine?"""
    return Accepted(*_answer("check_journal", 7, taken(table), taken(journal)))


def check_short(table: Bytes, short_journal: Bytes) -> Accepted:
    """The same of a short journal, as it is."""
    return Accepted(*_answer("check_short", 7, taken(table), taken(short_journal)))


def run(table: Bytes, stimulus: Bytes) -> Written:
    """The journal that the machine writes for a stimulus."""
    return _written("run", header.SALVAGED_MAX, taken(table), taken(stimulus))


def read_stamped(stamped: Bytes) -> Written:
    """The journal, with its times, of a controller with a short clock."""
    return _written("read_stamped", header.SALVAGED_MAX, taken(stamped))


def shorten(table: Bytes, journal: Bytes) -> Written:
    """The short journal that stands for a journal."""
    return _written("shorten", header.SHORTENED_MAX, taken(table), taken(journal))


def lengthen(table: Bytes, short_journal: Bytes) -> Written:
    """The journal that a short journal stands for."""
    return _written("lengthen", header.JOURNAL_MAX, taken(table), taken(short_journal))


def convert_table(table: Bytes) -> Converted:
    """A table that an older check let pass, as it passes now."""
    given = taken(table)
    output = room(header.TABLE_MAX)
    (changed,) = _answer("convert_table", 1, given, output)
    return Converted(changed, ctypes.string_at(output, len(given)))


def salvage(table: Bytes, journal: Bytes) -> Salvaged:
    """What is sound of a torn journal."""
    output = room(header.SALVAGED_MAX)
    kept, dropped, number, place = _answer("salvage", 4, taken(table), taken(journal), output)
    end_field = 7 if number else 0
    return Salvaged(kept, dropped, number, place, ctypes.string_at(output, kept + end_field))


def reaction(table: Bytes, states: int, inputs: int) -> Reaction:
    """How long until the state is in the target, while it stays in `states` and the input in `inputs`?"""
    return Reaction(*_answer("reaction", 2, taken(table), number32(states), number32(inputs)))


def reaction_tight(table: Bytes, states: int, inputs: int) -> TightReaction:
    """The same, and the time that is tight in whole units."""
    return TightReaction(*_answer("reaction_tight", 3, taken(table), number32(states), number32(inputs)))


def reaction_tight_moves(table: Bytes, states: int, inputs: int, moves: int) -> TightReaction:
    """The time over several moves, and the one that is tight in whole units."""
    sets = number32(states), number32(inputs), number32(moves)
    return TightReaction(*_answer("reaction_tight_moves", 3, taken(table), *sets))


def reaction_moves(table: Bytes, states: int, inputs: int, moves: int) -> MovesReaction:
    """The same over several moves."""
    given = taken(table)
    sums = (ctypes.c_uint32 * header.SUMS_MAX)()
    path = room(header.PATH_MAX)
    sets = number32(states), number32(inputs), number32(moves)
    time, target, length = _answer("reaction_moves", 3, given, *sets, sums, path)
    columns = given[_STATES]
    rows = tuple(tuple(sums[row * columns : (row + 1) * columns]) for row in range(moves))
    return MovesReaction(time, target, rows, tuple(path[:length]))


def report_add(table: Bytes, journal: Bytes, report: Numbers) -> Added:
    """Adds where the journal's time went to a report, an array("Q"); the class Report keeps one."""
    numbers = Lent(report, ctypes.c_uint64)
    call("report_add", taken(table), taken(journal), numbers.copy)
    numbers.give_back()
    return Added(numbers.copy[0])


def live(table: Bytes, memory: Numbers, event: Bytes) -> Step:
    """Takes the next event of a stimulus; the memory, an array("I"), goes on to what is behind it. The class LiveRun keeps one."""
    numbers = Lent(memory, ctypes.c_uint32)
    record = room(header.RECORD_MAX)
    length, state, output, phase, left, deadline = _answer("live", 6, taken(table), numbers.copy, taken(event), record)
    numbers.give_back()
    return Step(state, output, phase, left, deadline, ctypes.string_at(record, length))


def watch(table: Bytes, memory: Numbers, record: Bytes) -> Accepted:
    """Takes the next record of a journal; the memory goes on to what is behind it. The numbers are those of the journal up to here."""
    numbers = Lent(memory, ctypes.c_uint32)
    answer = Accepted(*_answer("watch", 7, taken(table), numbers.copy, taken(record)))
    numbers.give_back()
    return answer

"""What the library answers. Numbers have the names of docs/RULES.md; a set is a number, in which 2**i stands for member i."""

from __future__ import annotations

from dataclasses import astuple, dataclass, field, fields
from typing import Optional, Tuple

from ._refused import Refused


@dataclass(frozen=True)
class Table:
    """A table that passes: how many states, inputs and outputs it has."""

    states: int
    inputs: int
    outputs: int


@dataclass(frozen=True)
class Accepted:
    """A journal that is a run of the table's machine."""

    end: int  # the time T at which it ends; of a journal that is watched that of the last record
    cycles: int  # ticks
    moves: int  # ticks that changed the state
    state: int  # the last one
    output: int
    left: int  # the most ticks that a held test had left
    longest: int  # the longest completed cycle

    def __str__(self) -> str:
        numbers = zip((each.name for each in fields(self)), astuple(self))
        return " ".join(["accepted", *(f"{name}={number}" for name, number in numbers)])


@dataclass(frozen=True)
class Written:
    """Bytes that the library wrote."""

    data: bytes = field(repr=False)

    def __repr__(self) -> str:
        return f"Written({len(self.data)} bytes)"


@dataclass(frozen=True)
class Reaction:
    """The time after which the state is in the target, a set."""

    time: int
    target: int


@dataclass(frozen=True)
class TightReaction(Reaction):
    """The same, and the time that is tight in whole units."""

    tight: int


@dataclass(frozen=True)
class MovesReaction(Reaction):
    """The same over several moves: sums[r][q], and one worst path as state, input, state .. state."""

    sums: Tuple[Tuple[int, ...], ...]
    path: Tuple[int, ...]


@dataclass(frozen=True)
class Converted:
    """An old table as it passes now, and how many of its states were changed."""

    changed: int
    data: bytes = field(repr=False)


@dataclass(frozen=True)
class Salvaged:
    """What is sound of a torn journal: bytes kept and dropped, and the refusal that stopped it, 0 and 0 if none did."""

    kept: int
    dropped: int
    number: int
    place: int
    data: bytes = field(repr=False)

    @property
    def stopped(self) -> Optional[Refused]:
        """The refusal; None if the journal is accepted."""
        return Refused(self.number, self.place) if self.number else None


@dataclass(frozen=True)
class Added:
    """How many journals a report has."""

    journals: int


@dataclass(frozen=True)
class Step:
    """The record that an event made, and the machine after it."""

    state: int
    output: int
    phase: int  # 0 before the poll, 1 before the test, 2 held, 3 free
    left: int  # ticks left at this test; 0 if it is free, and at any other event
    deadline: int  # no record may be later
    data: bytes

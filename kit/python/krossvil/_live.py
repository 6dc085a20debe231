"""A run that goes on from call to call, made event by event or watched record by record."""

from __future__ import annotations

from array import array
from typing import Iterable, Optional, Tuple

from . import _header as header
from ._lending import Bytes, number32, taken
from ._answers import Accepted, Step
from ._functions import live, watch


class LiveRun:
    """Keeps the table and the memory of a run, 17 numbers, between two calls. With the memory that an older one left, the run goes on."""

    def __init__(self, table: Bytes, memory: Optional[Iterable[int]] = None) -> None:
        self._table = taken(table)
        numbers = [0] * header.LIVE if memory is None else [number32(number) for number in memory]
        self._memory = array("I", numbers)

    def take(self, event: Bytes) -> Step:
        """Takes the next event, one field of a stimulus, and gives the record that it makes. A refused event changes nothing."""
        return live(self._table, self._memory, event)

    def watch(self, record: Bytes) -> Accepted:
        """Takes the next record, one field of a journal. The numbers are those of the journal up to here."""
        return watch(self._table, self._memory, record)

    @property
    def memory(self) -> Tuple[int, ...]:
        """The numbers, to be kept."""
        return tuple(self._memory)

    @property
    def stage(self) -> int:
        """0 not begun, 1 running, 2 ended."""
        return self._memory[header.MEMORY_STAGE]

    @property
    def phase(self) -> int:
        """0 before the poll, 1 before the test, 2 held, 3 free."""
        return self._memory[header.MEMORY_PHASE]

    @property
    def input(self) -> int:
        """The present input."""
        return self._memory[header.MEMORY_INPUT]

    @property
    def state(self) -> int:
        """The present state."""
        return self._memory[header.MEMORY_STATE]

    @property
    def start(self) -> int:
        """When the cycle began."""
        return self._memory[header.MEMORY_START]

    @property
    def time(self) -> int:
        """The time of the last record."""
        return self._memory[header.MEMORY_TIME]

    @property
    def ticks(self) -> int:
        """How many ticks there were."""
        return self._memory[header.MEMORY_TICKS]

    @property
    def moves(self) -> int:
        """How many of them changed the state."""
        return self._memory[header.MEMORY_MOVES]

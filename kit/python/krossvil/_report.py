"""A season of journals under one table, and where their time went."""

from __future__ import annotations

from array import array
from typing import Any, Tuple

from ._lending import Bytes, taken
from ._frames import pandas
from ._functions import check_table, report_add


class Report:
    """Keeps the table and the report's numbers. Each is a sum over all journals that were added; the library does the summing."""

    def __init__(self, table: Bytes) -> None:
        self._table = taken(table)
        self.counts = check_table(self._table)
        states, inputs = self.counts.states, self.counts.inputs
        self._numbers = array("Q", [0] * (1 + 2 * states + states * inputs))

    def add(self, journal: Bytes) -> None:
        """Adds a journal. One that is refused leaves the report as it was."""
        report_add(self._table, journal, self._numbers)

    @property
    def journals(self) -> int:
        """How many journals were added."""
        return self._numbers[0]

    @property
    def dwell(self) -> Tuple[int, ...]:
        """For each state, how many slots have it."""
        return self._row(1, self.counts.states)

    @property
    def pairs(self) -> Tuple[Tuple[int, ...], ...]:
        """For each state and each input, how many slots have both: pairs[state][input]."""
        states, inputs = self.counts.states, self.counts.inputs
        return tuple(self._row(1 + states + state * inputs, inputs) for state in range(states))

    @property
    def entries(self) -> Tuple[int, ...]:
        """For each state, how often it was entered."""
        states, inputs = self.counts.states, self.counts.inputs
        return self._row(1 + states + states * inputs, states)

    def frame(self) -> Any:
        """A DataFrame with a row for each state: its slots, the entries into it, and its slots with each input."""
        pd = pandas()
        columns = {f"input {number}": column for number, column in enumerate(zip(*self.pairs))}
        index = pd.RangeIndex(self.counts.states, name="state")
        return pd.DataFrame({"slots": self.dwell, "entries": self.entries, **columns}, index=index)

    def __repr__(self) -> str:
        return f"Report(journals={self.journals}, dwell={self.dwell}, entries={self.entries})"

    def _row(self, start: int, count: int) -> Tuple[int, ...]:
        return tuple(self._numbers[start : start + count])

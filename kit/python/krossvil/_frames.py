"""Records as a DataFrame, where pandas is installed. Nothing else needs it."""

from __future__ import annotations

import importlib
from typing import Any, Iterable

from ._records import Record


def pandas() -> Any:
    """The package, or a sentence that it is not there."""
    try:
        return importlib.import_module("pandas")
    except ModuleNotFoundError:
        raise ImportError("a DataFrame needs pandas, which is not installed (Debian: python3-pandas); all else works without it") from None


def frame(records: Iterable[Record]) -> Any:
    """A row for each record: its kind, time, value and place."""
    pd = pandas()
    rows = list(records)
    columns = {"kind": [record.kind for record in rows]}
    numbers = {name: pd.array([getattr(record, name) for record in rows], dtype="Int64") for name in ("time", "value", "place")}
    return pd.DataFrame({**columns, **numbers})

"""Krossvil from Python: checks, runs and times polling controllers (PLC-Automata).

Every number is that of the proved library, libkrossvil. Bytes go in; a small dataclass comes out, or Refused is raised.
"""

from ._answers import Accepted, Added, Converted, MovesReaction, Reaction, Salvaged, Step, Table, TightReaction, Written
from ._frames import frame
from ._functions import check_journal, check_short, check_table, convert_table, lengthen, live, reaction, reaction_moves
from ._functions import reaction_tight, reaction_tight_moves, read_stamped, report_add, run, salvage, shorten, watch
from ._header import VERSION as __version__
from ._header import Refusal
from ._live import LiveRun
from ._records import Record, journal, records
from ._refused import Refused
from ._report import Report

__all__ = [
    *("check_journal", "check_short", "check_table", "convert_table", "lengthen", "live", "reaction", "reaction_moves"),
    *("reaction_tight", "reaction_tight_moves", "read_stamped", "report_add", "run", "salvage", "shorten", "watch"),
    *("Accepted", "Added", "Converted", "MovesReaction", "Reaction", "Salvaged", "Step", "Table", "TightReaction", "Written"),
    *("LiveRun", "Record", "Refusal", "Refused", "Report", "frame", "journal", "records"),
    "__version__",
]

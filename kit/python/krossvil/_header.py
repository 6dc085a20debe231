"""What include/krossvil.h, kit/explain.js and kit/fields.js say, for Python. Made by kit/python/make, and not changed by hand."""

import enum
from typing import Dict, Tuple

VERSION = "1.0.0"
TABLE_MAX = 1626
JOURNAL_MAX = 65536
STIMULUS_MAX = 57344
STAMPED_MAX = 49152
SHORT_MAX = 65536
SALVAGED_MAX = 65531
SHORTENED_MAX = 49149
MOVES_MAX = 32
SUMS_MAX = 1024
PATH_MAX = 63
LIVE = 17
RECORD_MAX = 8
REPORT_MAX = 1089
MEMORY_STAGE = 0
MEMORY_PHASE = 1
MEMORY_INPUT = 2
MEMORY_STATE = 4
MEMORY_START = 7
MEMORY_TIME = 8
MEMORY_TICKS = 14
MEMORY_MOVES = 15


class Refusal(enum.IntEnum):
    """The numbers of refusals, by the header's names."""

    TABLE_RUNS_OUT = 1
    TABLE_WRONG_FIELD = 2
    COUNT_OUT_OF_RANGE = 3
    BOUND_OUT_OF_RANGE = 4
    ENTRY_OUT_OF_RANGE = 5
    HOLD_TOO_LONG = 6
    UNKNOWN_INPUT_DELAYED = 7
    BYTES_AFTER_TABLE = 8
    UNKNOWN_MEMBER = 9
    LEAVES_STATES = 10
    IDLE_SET = 11
    TIMER_UNKNOWN_MEMBER = 12
    TIMER_OUT_OF_RANGE = 13
    HAS_TIMERS = 14
    TOO_LONG = 19
    RUNS_OUT = 20
    WRONG_FIELD = 21
    MISPLACED = 22
    OUT_OF_RANGE = 23
    TIME_GOES_BACK = 24
    PAST_BOUND = 25
    WRONG_PHASE = 26
    POLL_TOO_SOON = 27
    DIFFERS = 28
    TOO_SHORT = 30
    TOO_MANY_MOVES = 32
    SUMS_OR_PATH_TOO_SHORT = 33
    WOULD_BE_TOO_LONG = 34
    REPORT_FULL = 35
    MEMORY_OUT_OF_RANGE = 36


# What each number means, in a few words.
MEANINGS: Dict[int, str] = {
    1: "the table ends too soon",
    2: "a field of the table has the wrong tag or length",
    3: "a count, or the initial state, is out of range",
    4: "the cycle bound is out of range",
    5: "an output or a next state is out of range",
    6: "a hold is too long",
    7: "a delayed input does not exist",
    8: "bytes follow the table",
    9: "a set names a member that does not exist",
    10: "a next state is outside the states",
    11: "inputs are delayed in a state without a hold",
    12: "a timer names a state or an input that does not exist",
    13: "a timer's length is out of range",
    14: "the table has timers, and the calculator takes none",
    19: "the journal, or the stimulus, is too long",
    20: "the bytes end before the end field is complete",
    21: "a tag is unknown, or its length is wrong",
    22: "an opening is missing or stands in the middle, or bytes follow the end",
    23: "a time, an input, a verdict or a state is out of range",
    24: "a time is earlier than that of the record before",
    25: "a record is later than its cycle may last",
    26: "a record comes out of turn",
    27: "a poll is not later than the last change, or than the start of its cycle",
    28: "a polled input, a verdict or a state is not the one that the machine has",
    30: "the memory that was lent is too short",
    32: "more moves than 32 were asked for",
    33: "the memory for the sums or the path is too short",
    34: "the journal would be too long",
    35: "the report is full",
    36: "a number of the memory is out of range",
}

# What each function takes: slices, which have their length behind them, and numbers.
FUNCTIONS: Dict[str, Tuple[str, ...]] = {
    "check_table": ("const uint8_t *",),
    "check_journal": ("const uint8_t *", "const uint8_t *", "uint8_t *"),
    "run": ("const uint8_t *", "const uint8_t *", "uint8_t *", "uint8_t *"),
    "reaction": ("const uint8_t *", "uint32_t", "uint32_t", "uint8_t *"),
    "reaction_moves": ("const uint8_t *", "uint32_t", "uint32_t", "uint32_t", "uint32_t *", "uint8_t *", "uint8_t *"),
    "reaction_tight": ("const uint8_t *", "uint32_t", "uint32_t", "uint8_t *"),
    "reaction_tight_moves": ("const uint8_t *", "uint32_t", "uint32_t", "uint32_t", "uint8_t *"),
    "convert_table": ("const uint8_t *", "uint8_t *", "uint8_t *"),
    "read_stamped": ("const uint8_t *", "uint8_t *", "uint8_t *"),
    "check_short": ("const uint8_t *", "const uint8_t *", "uint8_t *"),
    "shorten": ("const uint8_t *", "const uint8_t *", "uint8_t *", "uint8_t *"),
    "lengthen": ("const uint8_t *", "const uint8_t *", "uint8_t *", "uint8_t *"),
    "salvage": ("const uint8_t *", "const uint8_t *", "uint8_t *", "uint8_t *"),
    "report_add": ("const uint8_t *", "const uint8_t *", "uint64_t *"),
    "live": ("const uint8_t *", "uint32_t *", "const uint8_t *", "uint8_t *", "uint8_t *"),
    "watch": ("const uint8_t *", "uint32_t *", "const uint8_t *", "uint8_t *"),
}

# Of each form: its first tag, how many bytes a time has, and whether polls, tests and ticks say their value.
FORMS: Dict[str, Tuple[int, int, bool]] = {
    "journal": (16, 4, True),
    "stamped": (16, 2, True),
    "short": (48, 2, True),
    "stimulus": (32, 4, False),
}

# The kinds of record, by what their tag adds to the form's first.
KINDS: Dict[int, str] = {
    0: "input",
    1: "change",
    2: "poll",
    3: "test",
    4: "tick",
    15: "end",
}

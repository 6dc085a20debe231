"""Puts faults into copies of the module, one at a time, and sees that the test which is named beside each notices it.

    faults.py CALLS

CALLS is the file that replay.py reads; of each function some calls are enough here. The last line is `N passed, M failed`.
"""

import ast
import os
import re
import shutil
import subprocess
import sys
import tempfile
from pathlib import Path
from typing import Dict, List, Tuple

from stream import thinned

HERE = Path(__file__).resolve().parent

# For each test, which is replay.py or one of checks.py: a file of the module, what stands there once, and what is put there.
FAULTS: Dict[str, List[Tuple[str, str, str]]] = {
    "replay": [
        ("_functions.py", "given[_STATES], given[_INPUTS], given[_OUTPUTS]", "given[_INPUTS], given[_STATES], given[_OUTPUTS]"),
        ("_functions.py", 'Accepted(*_answer("check_journal", 7,', 'Accepted(*_answer("check_short", 7,'),
        ("_functions.py", 'Accepted(*_answer("check_short", 7,', 'Accepted(*_answer("check_journal", 7,'),
        ("_functions.py", '"run", header.SALVAGED_MAX', '"run", header.SHORTENED_MAX'),
        ("_functions.py", '"shorten", header.SHORTENED_MAX', '"shorten", header.TABLE_MAX'),
        ("_functions.py", '"lengthen", header.JOURNAL_MAX', '"lengthen", header.SHORTENED_MAX'),
        ("_functions.py", '"read_stamped", header.SALVAGED_MAX', '"read_stamped", header.SHORTENED_MAX'),
        ("_functions.py", "string_at(output, len(given))", "string_at(output, len(given) - 1)"),
        ("_functions.py", "end_field = 7 if number else 0", "end_field = 7"),
        (
            "_functions.py",
            '"reaction", 2, taken(table), number32(states), number32(inputs)',
            '"reaction", 2, taken(table), number32(inputs), number32(states)',
        ),
        ("_functions.py", '"reaction_tight", 3,', '"reaction", 3,'),
        ("_functions.py", "*_answer(\"reaction_tight_moves\", 3, taken(table), *sets)", "*_answer(\"reaction_tight\", 3, taken(table), *sets[:2])"),
        ("_functions.py", "columns = given[_STATES]", "columns = given[_INPUTS]"),
        ("_functions.py", "tuple(path[:length])", "tuple(path[:])"),
        ("_functions.py", 'struct.unpack(f">{count}I", answer)', 'struct.unpack(f">{count}I", answer)[::-1]'),
        ("_functions.py", "numbers.give_back()\n    return Added", "return Added"),
        ("_functions.py", "numbers.give_back()\n    return Step", "return Step"),
        ("_functions.py", "numbers.give_back()\n    return answer", "return answer"),
        ("_functions.py", "Step(state, output, phase,", "Step(output, state, phase,"),
        ("_library.py", "code & 0xFFFFFFFF", "code & 0xFF"),
        ("_lending.py", "    return view\n", "    return view[:16]\n"),
    ],
    "Bytes.test_what_is_too_long_gets_the_answer_of_the_library": [
        ("_library.py", "[argument, len(argument)]", "[argument, min(len(argument), 65536)]"),
    ],
    "Bytes.test_a_table_that_is_too_long_is_handed_over_whole": [
        ("_library.py", "[argument, len(argument)]", "[argument, min(len(argument), 65537)]"),
    ],
    "Bytes.test_an_event_or_a_record_with_something_behind_it_is_handed_over_whole": [
        ("_functions.py", "taken(event)", "taken(event)[:4]"),
    ],
    "Bytes.test_all_kinds_of_bytes_are_taken_alike": [
        ("_lending.py", "view.tobytes()", "view.obj"),
    ],
    "Bytes.test_what_is_no_bytes_is_turned_down_by_a_sentence": [
        ("_lending.py", "view = _view(what, ", "view = memoryview(what if type(what) is memoryview else bytes(what)) or _view(what, "),
        ("_lending.py", "view.itemsize != 1 or ", ""),
        ("_lending.py", ' or view.ndim != 1:\n        raise TypeError(f"bytes', ':\n        raise TypeError(f"bytes'),
    ],
    "Bytes.test_no_bytes_at_all_get_the_answer_of_the_library": [
        ("_lending.py", "if type(what) is bytes:", "if not what:\n        return bytes(3)\n    if type(what) is bytes:"),
    ],
    "Bytes.test_bytes_that_are_lent_can_be_used_again": [
        ("_lending.py", "    view = _view(what, ", "    return memoryview(what).cast('B').obj\n    view = _view(what, "),
    ],
    "Arrays.test_what_is_no_array_of_numbers_is_turned_down_by_a_sentence": [
        ("_lending.py", "if view.readonly:", "if False:"),
        ("_lending.py", "if not view.c_contiguous:", "if False:"),
        ("_lending.py", 'lstrip("@=<")', 'lstrip("@=<>")'),
    ],
    "Sets.test_numbers_that_do_not_fit_are_turned_down_and_not_cut": [
        ("_lending.py", "< 2**32", "< 2**33"),
    ],
    "Sets.test_numbers_that_fit_are_judged_by_the_library": [
        ("_lending.py", "< 2**32", "< 2**16"),
    ],
    "Sources.test_a_library_that_is_not_there_or_another_is_named_in_a_sentence": [
        ("_library.py", "(OSError, AttributeError)", "OSError"),
    ],
    "Functions.test_answers_cannot_be_changed": [
        ("_answers.py", "@dataclass(frozen=True)\nclass Added:", "@dataclass\nclass Added:"),
    ],
    "Sources.test_the_page_shows_what_comes": [
        ("_refused.py", '__module__ = "krossvil"', '__module__ = "krossvil._refused"'),
    ],
    "Refusals.test_a_refusal_can_be_sent_to_another_process": [
        ("_refused.py", "super().__init__(number, place)", "super().__init__(number)"),
    ],
    "Sources.test_what_is_made_from_header_and_kit_is_as_they_are": [
        ("_header.py", '"a hold is too long"', '"a hold is long"'),
    ],
    "Records.test_the_records_are_those_that_the_kit_finds": [
        ("_records.py", "place, before = end, record.time", "place, before = end, 0"),
    ],
    "Records.test_any_bytes_come_back_from_their_records": [
        ("_records.py", 'before = 0 if record.kind == "input" else record.time', "before = record.time if number else 1"),
        ("_records.py", "time % 65536 if form", "time if form"),
    ],
    "Records.test_what_cannot_be_written_is_turned_down_by_a_sentence": [
        ("_records.py", "if not 0 <= number < 256**width:", "if number >= 256**width:"),
    ],
    "Live.test_a_run_goes_on_with_the_memory_that_was_kept": [
        ("_live.py", "[0] * header.LIVE if memory is None else", "[0] * header.LIVE if memory else"),
    ],
    "Reports.test_rows_are_as_long_as_the_table_has_inputs": [
        ("_report.py", "1 + states + state * inputs", "1 + states + state * states"),
    ],
    "Reports.test_a_frame_has_the_numbers": [
        ("_report.py", "zip(*self.pairs)", "self.pairs"),
    ],
    "Reports.test_without_pandas_a_sentence_says_so": [
        ("_frames.py", "except ModuleNotFoundError:", "except OSError:"),
    ],
    "Functions.test_every_function_of_the_header_is_there_and_tried": [
        ("__init__.py", '"shorten", "watch"),', '"shorten"),'),
    ],
    "Functions.test_what_is_public_is_there_and_has_types": [
        ("_functions.py", "def shorten(table: Bytes, journal: Bytes)", "def shorten(table: Bytes, journal)"),
    ],
    "Functions.test_several_threads_may_call": [
        ("_library.py", "return (ctypes.c_uint8 * size)()", 'return globals().setdefault(f"room{size}", (ctypes.c_uint8 * size)())'),
    ],
    "Bytes.test_a_view_that_was_given_back_is_turned_down": [
        ("_lending.py", "    except TypeError:", '    except ValueError:\n        return memoryview(b"")\n    except TypeError:'),
    ],
    "Arrays.test_too_short_ones_are_refused_by_the_library": [
        ("_lending.py", "    return view\n", '    if len(view) < 17:\n        raise TypeError("too short")\n    return view\n'),
    ],
    "Arrays.test_numbers_behind_are_left_as_they_are": [
        ("_library.py", 'memoryview(self.copy).cast("B")', 'bytes(self.copy)[:36].ljust(self._view.nbytes, b"\\0")'),
    ],
    "Arrays.test_a_refusal_changes_no_number": [
        ("_library.py", "copy(self._view)\n", 'copy(self._view)\n        self._view.cast("B")[:] = bytes(self._view.nbytes)\n'),
    ],
    "Arrays.test_one_that_is_not_aligned_is_taken_like_any_other": [
        (
            "_library.py",
            "copy(self._view)\n",
            'copy(self._view)\n        if ctypes.addressof(ctypes.c_char.from_buffer(self._view)) % 4:\n            raise TypeError("not aligned")\n',
        ),
    ],
    "Refusals.test_each_number_has_a_name_and_a_sentence": [
        ("_refused.py", "{self.number} at {self.place}:", "{self.number}:"),
    ],
    "Refusals.test_a_number_that_is_not_known_yet_can_be_printed": [
        ("_refused.py", 'MEANINGS.get(self.number, "this version has no words for it")', "MEANINGS[self.number]"),
    ],
    "Refusals.test_what_stopped_salvage_is_a_refusal": [
        ("_answers.py", "Refused(self.number, self.place) if", "Refused(self.number, self.dropped) if"),
    ],
    "Refusals.test_what_is_printed_of_an_answer": [
        ("_answers.py", '["accepted", ', '["Accepted", '),
    ],
    "Records.test_the_forms_of_one_run_lead_to_each_other": [
        ("_records.py", '_number(time - before, width, "gap")', '_number(time, width, "gap")'),
    ],
    "Live.test_a_run_event_by_event_is_the_run": [
        ("_live.py", "self._memory[header.MEMORY_TICKS]", "self._memory[header.MEMORY_MOVES]"),
    ],
    "Live.test_a_journal_record_by_record_is_the_check": [
        ("_live.py", "watch(self._table, self._memory, record)", 'watch(self._table, array("I", self._memory), record)'),
    ],
    "Live.test_memories_that_are_none": [
        ("_live.py", "[number32(number) for", "[number % 2**32 for"),
    ],
    "Reports.test_a_season_is_summed_up": [
        ("_report.py", "self._row(1, self.counts.states)", "self._row(0, self.counts.states)"),
    ],
    "Reports.test_a_table_that_is_refused_begins_no_report": [
        ("_report.py", "= check_table(self._table)", '= type("Table", (), {"states": 2, "inputs": 2})()'),
    ],
    "Reports.test_it_takes_a_thousand_journals": [
        ("_report.py", "        report_add(self._table", "        if self.journals < 1000:\n            report_add(self._table"),
    ],
    "Reports.test_a_frame_of_records": [
        ("_frames.py", '("time", "value", "place")', '("time", "place", "value")'),
    ],
    "Sources.test_python_3_9_can_read_it": [
        ("_frames.py", "    pd = pandas()\n", "    pd = pandas()\n    match pd:\n        case _:\n            pass\n"),
    ],
}

# What shows that a test was not tried: then nothing was noticed.
BROKEN = re.compile(r"SyntaxError|NameError|has no attribute '(test_|[A-Z])|^OSError: .* cannot be used|No module named", re.MULTILINE)


def noticed(folder: Path, calls: str, test: str) -> str:
    """What the test says to the module in the folder; nothing if it notices no fault."""
    words = [HERE / "replay.py", calls, "0"] if test == "replay" else [HERE / "checks.py", test]
    said = subprocess.run([sys.executable, *words], capture_output=True, text=True, env={**os.environ, "PYTHONPATH": str(folder)})
    text = said.stdout + said.stderr
    shown = re.search(r"^\d+ calls of functions, [1-9]\d* differ$" if test == "replay" else r"^(FAIL|ERROR): ", text, re.MULTILINE)
    return text if said.returncode == 1 and shown and not BROKEN.search(text) else ""


def try_fault(calls: str, test: str, file: str, stands: str, put: str) -> bool:
    with tempfile.TemporaryDirectory() as folder:
        shutil.copytree(HERE.parent / "krossvil", Path(folder) / "krossvil", ignore=shutil.ignore_patterns("__pycache__"))
        path = Path(folder) / "krossvil" / file
        text = path.read_text()
        if text.count(stands) != 1:
            print(f"{file} does not have once: {stands}")
            return False
        path.write_text(text.replace(stands, put))
        return noticed(Path(folder), calls, test) != ""


def without_fault() -> List[str]:
    """The tests for which there is none."""
    source = ast.parse((HERE / "checks.py").read_text())
    classes = [each for each in source.body if isinstance(each, ast.ClassDef)]
    names = [f"{each.name}.{inner.name}" for each in classes for inner in each.body if isinstance(inner, ast.FunctionDef)]
    return [name for name in names if ".test_" in name and name not in FAULTS]


def main(calls: str) -> int:
    tried = 1 + len(without_fault())
    wrong = len(without_fault())
    print(*(f"no fault for {name}" for name in without_fault()), sep="\n", end="")
    with tempfile.NamedTemporaryFile() as few:
        with open(calls, "rb") as stream:
            few.writelines(thinned(stream))
        few.flush()
        if noticed(HERE.parent, few.name, "replay"):
            wrong += 1
            print("the module as it is does not pass")
        for test, faults in FAULTS.items():
            for fault in faults:
                tried += 1
                if not try_fault(few.name, test, *fault):
                    wrong += 1
                    print(f"NOT NOTICED by {test}:", *fault, sep="\n")
    print(f"{tried - wrong} passed, {wrong} failed")
    return 1 if wrong else 0


if __name__ == "__main__":
    sys.exit(main(sys.argv[1]))

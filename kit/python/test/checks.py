"""What the module does with whatever it is given, besides the calls that replay.py compares. The last line is `N passed, M failed`.

    checks.py [TEST]...
"""

import ast
import copy
import ctypes
import dataclasses
import doctest
import inspect
import json
import os
import pickle
import random
import subprocess
import sys
import threading
import unittest
from array import array
from pathlib import Path

import krossvil
from given import CALLS, EVENT, JOURNAL, OPENING, ROOT, SHORT, STAMPED, STIMULUS, TABLE
from given import call, example, journal_of, new_memory, with_each_bytes
from krossvil import LiveRun, Record, Refused, Report, _header

MODULE = ROOT / "kit" / "python"
NO_BYTES = [None, 5, 1.5, True, "text", [1, 2], {1}, object(), array("I", [1]), array("h", [1]), memoryview(bytes(4)).cast("B", [2, 2])]


class Own(bytes):
    """A kind of bytes that somebody else has made."""


class Trying(unittest.TestCase):
    def refuses(self, number, place, name, *arguments):
        with self.assertRaises(Refused) as raised:
            call(name, *arguments)
        self.assertEqual((raised.exception.number, raised.exception.place), (number, place))

    def says(self, kind, words, function, *arguments):
        with self.assertRaises(kind) as raised:
            function(*arguments)
        self.assertRegex(str(raised.exception), words)


class Functions(Trying):
    def test_every_function_of_the_header_is_there_and_tried(self):
        self.assertEqual(len(_header.FUNCTIONS), 16)
        self.assertEqual(sorted(CALLS), sorted(_header.FUNCTIONS))
        for name in CALLS:
            self.assertIn(name, krossvil.__all__)
            self.assertTrue(call(name, *CALLS[name]()))

    def test_what_is_public_is_there_and_has_types(self):
        for name in krossvil.__all__:
            self.assertTrue(hasattr(krossvil, name))
        for name in CALLS:
            signature = inspect.signature(getattr(krossvil, name))
            self.assertNotIn(inspect.Parameter.empty, [signature.return_annotation, *(each.annotation for each in signature.parameters.values())])

    def test_answers_cannot_be_changed(self):
        for name in CALLS:
            answer = call(name, *CALLS[name]())
            with self.assertRaises(dataclasses.FrozenInstanceError):
                setattr(answer, dataclasses.fields(answer)[0].name, 0)

    def test_several_threads_may_call(self):
        wrong = []
        journals = [journal_of(cycles) for cycles in (2500, 2600, 2700)]
        together = threading.Barrier(len(journals))

        def work(journal):
            for _ in range(500):  # long journals, and each turn begun at the same time: the calls do overlap
                together.wait()
                if krossvil.salvage(TABLE, journal).data != journal:
                    wrong.append(len(journal))

        threads = [threading.Thread(target=work, args=[journal]) for journal in journals]
        for thread in threads:
            thread.start()
        for thread in threads:
            thread.join()
        self.assertEqual(wrong, [])


class Bytes(Trying):
    def test_what_is_no_bytes_is_turned_down_by_a_sentence(self):
        for name, arguments, place in with_each_bytes():
            for wrong in NO_BYTES:
                given = arguments()
                given[place] = wrong
                with self.subTest(name=name, place=place, wrong=wrong):
                    self.says(TypeError, "^bytes are wanted", call, name, *given)

    def test_all_kinds_of_bytes_are_taken_alike(self):
        for name, arguments, place in with_each_bytes():
            data = arguments()[place]
            spread = bytearray(2 * len(data))
            spread[::2] = data
            kinds = [bytearray(data), memoryview(data), memoryview(spread)[::2], memoryview(data[::-1])[::-1], array("B", data)]
            kinds += [(ctypes.c_ubyte * len(data))(*data), memoryview(data).cast("c"), memoryview(data).cast("b"), Own(data)]
            for kind in kinds:
                given = arguments()
                given[place] = kind
                with self.subTest(name=name, place=place, kind=kind):
                    self.assertEqual(call(name, *given), call(name, *arguments()))

    def test_no_bytes_at_all_get_the_answer_of_the_library(self):
        first = {"read_stamped": 20}
        for name, arguments, place in with_each_bytes():
            given = arguments()
            given[place] = b""
            with self.subTest(name=name, place=place):
                self.refuses(first.get(name, 1) if place == 0 else 20, 0, name, *given)

    def test_what_is_too_long_gets_the_answer_of_the_library(self):
        limits = {"check_journal": 65536, "shorten": 65536, "salvage": 65536, "report_add": 65536, "check_short": 65536, "lengthen": 65536}
        limits.update(run=57344, read_stamped=49152)
        for name, limit in limits.items():
            given = CALLS[name]()
            place = 0 if name == "read_stamped" else 1
            for length in (limit + 1, 65537, 10_000_000):
                given[place] = CALLS[name]()[place].ljust(length, b"\0")
                self.refuses(19, 0, name, *given)
            given[place] = b"\0" * limit
            self.refuses(21, 0, name, *given)

    def test_a_table_that_is_too_long_is_handed_over_whole(self):
        for length in (len(TABLE) + 1, _header.TABLE_MAX + 1, 70_000, 10_000_000):
            self.refuses(8, len(TABLE), "check_table", TABLE.ljust(length, b"\0"))
        self.refuses(2, 0, "check_table", b"\1\xff\xff" + bytes(65535))
        self.refuses(1, 0, "check_table", b"\1\xff\xff" + bytes(65534))

    def test_an_event_or_a_record_with_something_behind_it_is_handed_over_whole(self):
        for length in (5, 9, 70_000):
            self.refuses(22, 4, "live", TABLE, new_memory(), EVENT.ljust(length, b"\0"))
            self.refuses(22, 4, "watch", TABLE, new_memory(), OPENING.ljust(length, b"\0"))

    def test_a_view_that_was_given_back_is_turned_down(self):
        view = memoryview(JOURNAL)
        view.release()
        self.assertRaises(ValueError, krossvil.check_journal, TABLE, view)

    def test_bytes_that_are_lent_can_be_used_again(self):
        journal = bytearray(JOURNAL)
        krossvil.check_journal(TABLE, journal)
        journal += b"\0"
        self.refuses(22, 123, "check_journal", TABLE, journal)


class Arrays(Trying):
    LENT = [("report_add", 2, "Q"), ("live", 1, "I"), ("watch", 1, "I")]

    def each(self):
        for name, place, code in self.LENT:
            yield name, place, code, CALLS[name]()

    def test_what_is_no_array_of_numbers_is_turned_down_by_a_sentence(self):
        for name, place, code, given in self.each():
            numbers = array(code, [0] * 1089)
            other = {"Q": "I", "I": "Q"}[code]
            signed, foreign = code.lower(), {"Q": ctypes.c_uint64, "I": ctypes.c_uint32}[code].__ctype_be__
            wrong = [None, 5, "text", [0] * 17, b"\0" * 136, array(other, [0] * 17), array(signed, [0] * 17), (foreign * 17)()]
            sentences = [(each, "is wanted") for each in wrong]
            sentences += [(memoryview(numbers).toreadonly(), "can only be read"), (memoryview(numbers)[::2], "one after another")]
            for each, words in sentences:
                given[place] = each
                with self.subTest(name=name, each=each):
                    self.says(TypeError, words, call, name, *given)

    def test_too_short_ones_are_refused_by_the_library(self):
        for name, place, code, given in self.each():
            for length in (0, 1, {"Q": 8, "I": 16}[code]):
                given[place] = array(code, [0] * length)
                self.refuses(30, 0, name, *given)

    def test_numbers_behind_are_left_as_they_are(self):
        for name, place, code, given in self.each():
            used = {"Q": 9, "I": 17}[code]
            given[place] = array(code, [0] * used + [7] * 100)
            call(name, *given)
            self.assertEqual((list(given[place][used:]), any(given[place][:used])), ([7] * 100, True))

    def test_a_refusal_changes_no_number(self):
        for name, place, code, given in self.each():
            given[place] = array(code, [2**32 - 1] * 1089)
            self.assertRaises(Refused, call, name, *given)
            self.assertEqual(set(given[place]), {2**32 - 1})

    def test_one_that_is_not_aligned_is_taken_like_any_other(self):
        for name, place, code, given in self.each():
            call(name, *given)
            crooked = CALLS[name]()
            room = bytearray(len(given[place]) * given[place].itemsize + 1)
            crooked[place] = memoryview(room)[1:].cast(code)
            call(name, *crooked)
            self.assertEqual(crooked[place].tobytes(), given[place].tobytes())


class Sets(Trying):
    def test_numbers_that_do_not_fit_are_turned_down_and_not_cut(self):
        for name in ("reaction", "reaction_tight", "reaction_tight_moves", "reaction_moves"):
            for place in range(1, len(CALLS[name]())):
                for wrong in (-1, 2**32, 2**32 + 1, 2**64 + 1):
                    given = CALLS[name]()
                    given[place] = wrong
                    self.says(ValueError, "^a number from 0 to 4,294,967,295 is wanted", call, name, *given)
                given[place] = 1.0
                self.assertRaises(TypeError, call, name, *given)

    def test_numbers_that_fit_are_judged_by_the_library(self):
        self.refuses(9, 0, "reaction", TABLE, 2**32 - 1, 1)
        self.refuses(9, 1, "reaction_tight", TABLE, 3, 2**32 - 1)
        self.refuses(32, 0, "reaction_moves", TABLE, 3, 1, 2**32 - 1)
        self.refuses(32, 0, "reaction_moves", TABLE, 3, 1, 33)
        self.refuses(32, 0, "reaction_tight_moves", TABLE, 3, 1, 33)
        self.assertEqual(len(krossvil.reaction_moves(TABLE, 3, 1, 32).sums), 32)


class Refusals(Trying):
    def test_each_number_has_a_name_and_a_sentence(self):
        self.assertEqual([each.value for each in krossvil.Refusal], list(_header.MEANINGS))
        for number, meaning in _header.MEANINGS.items():
            self.assertEqual(str(Refused(number, 7)), f"refused {number} at 7: {meaning}")

    def test_a_number_that_is_not_known_yet_can_be_printed(self):
        self.assertEqual(str(Refused(99, 1)), "refused 99 at 1: this version has no words for it")

    def test_a_refusal_can_be_sent_to_another_process(self):
        for refused in (pickle.loads(pickle.dumps(Refused(28, 76))), copy.copy(Refused(28, 76))):
            self.assertEqual((refused.number, refused.place, str(refused)), (28, 76, str(Refused(28, 76))))

    def test_what_stopped_salvage_is_a_refusal(self):
        self.assertEqual(str(krossvil.salvage(TABLE, JOURNAL[:113]).stopped), str(Refused(20, 108)))
        self.assertIsNone(krossvil.salvage(TABLE, JOURNAL).stopped)

    def test_what_is_printed_of_an_answer(self):
        self.assertEqual(str(krossvil.check_journal(TABLE, JOURNAL)), "accepted end=12 cycles=4 moves=2 state=0 output=0 left=4 longest=3")
        self.assertEqual(repr(krossvil.run(TABLE, STIMULUS)), "Written(123 bytes)")


class Records(Trying):
    WHOLE = {"journal": JOURNAL, "stimulus": STIMULUS, "short": SHORT, "stamped": STAMPED}

    def damaged(self, count):
        chance = random.Random(1)
        for _ in range(count):
            form = chance.choice(list(self.WHOLE))
            data = bytearray(self.WHOLE[form])
            for _ in range(chance.randrange(4)):
                place = chance.randrange(len(data))
                change = chance.choice(["byte", "cut", "tag", "twice", "out"])
                if change == "byte":
                    data[place] = chance.randrange(256)
                elif change == "cut":
                    del data[max(place, 1) :]
                elif change == "tag":
                    data[place // 8 * 8 + 4 if place < len(data) - 4 else 0 : 1] = bytes([chance.choice([0x10, 0x13, 0x1F, 0x24, 0x31])])
                elif change == "twice":
                    data[place:place] = data[: chance.randrange(12)]
                elif len(data) > 9:
                    del data[place : place + chance.randrange(8)]
            yield form, bytes(data)

    def test_any_bytes_come_back_from_their_records(self):
        for form, data in self.damaged(3000):
            self.assertEqual(krossvil.journal(krossvil.records(data, form), form), data)

    def test_the_records_are_those_that_the_kit_finds(self):
        cases = list(self.damaged(3000))
        lines = "".join(f"{form} {data.hex()}\n" for form, data in cases)
        said = subprocess.run(["node", MODULE / "test" / "decode.js"], input=lines, capture_output=True, text=True, check=True).stdout
        found = [[[each.kind, each.time, each.value, each.place] for each in krossvil.records(data, form)] for form, data in cases]
        self.assertEqual(found, [json.loads(line) for line in said.splitlines()])

    def test_the_forms_of_one_run_lead_to_each_other(self):
        records = krossvil.records(JOURNAL)
        self.assertEqual(krossvil.journal(records, "stimulus"), STIMULUS)
        self.assertEqual(krossvil.journal(records, "short"), krossvil.shorten(TABLE, JOURNAL).data)
        self.assertEqual(krossvil.read_stamped(krossvil.journal(records, "stamped")).data, JOURNAL)

    def test_what_cannot_be_written_is_turned_down_by_a_sentence(self):
        for record, form, words in [
            (Record("poll", 1), "journal", "^record 1, poll at 1: its value is missing$"),
            (Record("poll", 2**32, 1), "journal", "its time is 4294967296, and has 4 bytes"),
            (Record("poll", -1, 1), "journal", "its time is -1"),
            (Record("poll", 1, 256), "journal", "its value is 256, and has 1 bytes"),
            (Record("tick", 65536, 1), "short", "its gap is 65536"),
            (Record("wait", 1, 1), "journal", "there is no such kind"),
        ]:
            self.says(ValueError, words, krossvil.journal, [Record("input", value=0), record], form)
        self.says(ValueError, "^the form is one of journal, stamped, short, stimulus, not 'long'$", krossvil.records, JOURNAL, "long")
        self.says(TypeError, "^bytes are wanted", krossvil.records, "text")


class Live(Trying):
    def fields(self, data, form):
        return [krossvil.journal([record], form) for record in krossvil.records(data, form)]

    def test_a_run_event_by_event_is_the_run(self):
        run = LiveRun(TABLE)
        steps = [run.take(event) for event in self.fields(STIMULUS, "stimulus")]
        self.assertEqual(b"".join(step.data for step in steps), JOURNAL)
        self.assertEqual((run.stage, run.ticks, run.moves, run.time, run.state, run.input), (2, 4, 2, 12, 0, 0))
        self.says(Refused, "^refused 22 at 0", run.take, EVENT)

    def test_a_run_goes_on_with_the_memory_that_was_kept(self):
        events = self.fields(STIMULUS, "stimulus")
        first = LiveRun(TABLE)
        for event in events[:7]:
            first.take(event)
        self.assertEqual((first.stage, first.phase, first.start), (1, 1, 3))
        then = LiveRun(TABLE, json.loads(json.dumps(first.memory)))
        made = [first.take(event) for event in events[7:]]
        self.assertEqual([then.take(event) for event in events[7:]], made)
        self.assertEqual(then.memory, first.memory)

    def test_a_journal_record_by_record_is_the_check(self):
        run = LiveRun(TABLE)
        self.assertEqual([run.watch(record) for record in self.fields(JOURNAL, "journal")][-1], krossvil.check_journal(TABLE, JOURNAL))

    def test_memories_that_are_none(self):
        self.says(Refused, "^refused 30 at 0", LiveRun(TABLE, [0] * 16).take, EVENT)
        self.says(Refused, "^refused 36 at 0", LiveRun(TABLE, [3] * 17).watch, OPENING)
        self.says(ValueError, "^a number from 0", LiveRun, TABLE, [-1] * 17)


class Reports(Trying):
    def season(self):
        report = Report(example("season/table.bin"))
        for name in ("early", "late"):
            report.add(example(f"season/{name}.bin"))
        return report

    def test_a_season_is_summed_up(self):
        report = self.season()
        self.says(Refused, "^refused 20 at 108", report.add, example("season/torn.bin"))
        self.assertEqual((report.journals, report.dwell, report.pairs, report.entries), (2, (7, 15), ((2, 5), (12, 3)), (4, 3)))
        self.assertEqual(repr(report), "Report(journals=2, dwell=(7, 15), entries=(4, 3))")

    def test_rows_are_as_long_as_the_table_has_inputs(self):
        report = Report(example("gas-burner/table.bin"))
        report.add(example("gas-burner/journal.bin"))
        self.assertEqual((report.dwell, report.entries), ((5, 16, 3, 9), (2, 2, 1, 1)))
        self.assertEqual(report.pairs, ((1, 4, 0), (0, 16, 0), (0, 1, 2), (0, 8, 1)))

    def test_a_table_that_is_refused_begins_no_report(self):
        self.says(Refused, "^refused 11 at 40", Report, example("idle-sets/old-table.bin"))

    def test_it_takes_a_thousand_journals(self):
        report = Report(TABLE)
        for _ in range(1000):
            report.add(JOURNAL)
        self.says(Refused, "^refused 35 at 0: the report is full", report.add, JOURNAL)
        self.assertEqual((report.journals, report.dwell), (1000, (4000, 8000)))

    def test_a_frame_has_the_numbers(self):
        frame = self.season().frame()
        self.assertEqual((list(frame.columns), frame.index.name), (["slots", "entries", "input 0", "input 1"], "state"))
        self.assertEqual(frame.values.tolist(), [[7, 4, 2, 5], [15, 3, 12, 3]])

    def test_a_frame_of_records(self):
        frame = krossvil.frame(krossvil.records(JOURNAL))
        self.assertEqual(frame.iloc[1].tolist(), ["change", 1, 1, 4])
        self.assertEqual((len(frame), int(frame["time"].max()), int(frame["value"].isna().sum())), (16, 12, 1))

    def test_without_pandas_a_sentence_says_so(self):
        kept = sys.modules.get("pandas")
        sys.modules["pandas"] = None
        try:
            for ask in (self.season().frame, lambda: krossvil.frame([])):
                self.says(ImportError, "^a DataFrame needs pandas, which is not installed", ask)
        finally:
            del sys.modules["pandas"]
            if kept:
                sys.modules["pandas"] = kept


class Sources(Trying):
    def test_what_is_made_from_header_and_kit_is_as_they_are(self):
        made = subprocess.run(["node", MODULE / "make", "--print"], capture_output=True, text=True, check=True).stdout
        self.assertEqual(made, Path(_header.__file__).read_text())

    def test_the_page_shows_what_comes(self):
        kept = os.getcwd()
        os.chdir(ROOT)
        try:
            failed, tried = doctest.testfile(str(ROOT / "docs" / "PYTHON.md"), module_relative=False)
        finally:
            os.chdir(kept)
        self.assertEqual((failed, tried > 10), (0, True))

    def test_python_3_9_can_read_it(self):
        files = list(Path(krossvil.__file__).parent.glob("*.py"))
        self.assertGreater(len(files), 5)
        self.assertEqual([unread for unread in map(self.why_unread, files) if unread], [])

    def why_unread(self, file):
        try:
            ast.parse(file.read_text(), feature_version=(3, 9))
        except SyntaxError as error:
            return f"{file.name}: {error}"
        return None

    def test_a_library_that_is_not_there_or_another_is_named_in_a_sentence(self):
        for path in ("/none/libkrossvil.so", "libc.so.6"):
            environment = {**os.environ, "KROSSVIL_LIBRARY": path}
            asks = "import krossvil; krossvil.check_table(b'')"
            said = subprocess.run([sys.executable, "-c", asks], capture_output=True, text=True, env=environment).stderr
            self.assertRegex(said.splitlines()[-1], f"^OSError: {path} cannot be used .*install the package libkrossvil-dev, version 1")


if __name__ == "__main__":
    program = unittest.main(exit=False, verbosity=1)
    found = program.result.failures + program.result.errors + program.result.skipped
    wrong = len({getattr(test, "test_case", test).id() for test, _ in found})  # of a test with several cases it names the test
    print(f"{program.result.testsRun - wrong} passed, {wrong} failed")
    sys.exit(1 if wrong or not program.result.testsRun else 0)

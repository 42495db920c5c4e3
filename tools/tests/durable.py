"""Tests of the durable table of the Python package: what is kept, what is refused and what is rolled back, and the crash tests of tools/crash on a short
history. The library is that of BETABLE_LIBRARY, or bin/build_c builds it. kept_tables.py and file_tables.py test the file itself."""

import contextlib
import copy
import ctypes
import errno
import inspect
import itertools
import os
import pickle
import re
import resource
import shutil
import subprocess
import sys
import tempfile
from contextlib import contextmanager, nullcontext
from pathlib import Path
from unittest import TestCase

from .clients import betable, library
from .common import fault_of, SECONDS, TOP
from .kept_tables import file_of

TABLE = "table 4 3 2 1 id:int city:text qty:int\n"
ADD = "batch\nups 1,add,qty,1\nend\n"
INDEXED = TABLE + "index by_city on city include qty\nbuild by_city 1\nindex building on qty\n"
ROWS = [(number, "abc"[number % 3], number * 7) for number in range(40)]
FAILS = b"drop fails"  # what a call has that is to fail


def durable():
    betable()
    return __import__("betable.durable.table").durable


def calls_on_files():
    betable()
    return __import__("betable.durable.file_calls").durable.file_calls


@contextmanager
def folder():
    with tempfile.TemporaryDirectory() as path:
        yield Path(path)


def expect_fault(test, kind, call, *words):
    """That a call raises just this, and says these words."""
    fault = fault_of(call)
    test.assertEqual(type(fault), kind)
    for word in words:
        test.assertIn(word, str(fault))
    return fault


def probe(table):
    """The images and the rows of all trees."""
    if not table.trees():
        return table.replies("image primary\n")
    names = list(table.trees().by_name)
    return table.replies(b"".join(b"image %b\nscan %b\ngo\n" % (name, name) for name in names))


def run_python(text, *words):
    """The status and the output of a program in a separate process."""
    environment = {**os.environ, "PYTHONPATH": str(TOP / "clients/python")}
    ended = subprocess.run([sys.executable, "-B", "-c", text, *map(str, words)], env=environment, capture_output=True, text=True, timeout=SECONDS)
    return ended.returncode, ended.stdout + ended.stderr


def files_of(folder):
    return {path.name: path.read_bytes() for path in folder.iterdir() if path.is_file()}


class Failing:
    """The library of a table, as long as the context lasts: requests fail that have FAILS in them, that of changes after a number of others, and commits if they
    are to. If it is not certain that nothing was kept, the file cannot be read again."""

    def __init__(self, table, status="OUT_OF_MEMORY", is_certain=True, commits=False, after=None):
        self.calls, self.status, self.is_certain, self.commits, self.after = table._bytes, getattr(betable().library, status), is_certain, commits, after

    def __enter__(self):
        self.library, self.calls._library = self.calls._library, self

    def __exit__(self, *_):
        self.calls._library = self.library

    def is_next(self, request):
        """Whether a request is that of changes which is to fail."""
        if self.after is None or request != calls_on_files().Request.APPLY:
            return False
        self.after -= 1
        if self.after >= 0:
            return False
        self.after = None
        return True

    def __getattr__(self, name):
        call = getattr(self.library, name)

        def failing(*given):
            if name == "exchange" and (FAILS in given[2] or self.is_next(given[1])):
                return self.status, errno.EIO, 0, 0, 0, b""
            if name == "betable_file_commit" and self.commits:
                ctypes.set_errno(errno.EIO)
                return self.status
            if name == "betable_file_roll_back" and not self.is_certain:
                return betable().library.NOT_KEPT
            return call(*given)

        return failing


def interrupted(call, moment):
    """Whether a call was interrupted at this one of the moments in the code of the package and of contexts, counted from 0."""
    left, places = moment, (os.path.dirname(betable().__file__), contextlib.__file__)

    def profile(frame, event, _):
        nonlocal left
        # A generator that is interrupted here as it goes on ends without its `finally`, which no signal does.
        is_moment = event == "c_return" or (event == "call" and not frame.f_code.co_flags & inspect.CO_GENERATOR)
        if is_moment and frame.f_code.co_filename.startswith(places):
            left -= 1
            if left == -1:
                raise KeyboardInterrupt

    sys.setprofile(profile)
    try:
        call()
    except (KeyboardInterrupt, KeyError):
        pass
    finally:
        sys.setprofile(None)
    return left < 0


@contextmanager
def no_file_longer_than(size):
    """The system refuses to write beyond this size, as on a full disk."""
    limits = resource.getrlimit(resource.RLIMIT_FSIZE)
    resource.setrlimit(resource.RLIMIT_FSIZE, (size, limits[1]))
    try:
        yield
    finally:
        resource.setrlimit(resource.RLIMIT_FSIZE, limits)


def setUpModule():
    library()


# ---- what is kept ----


class Kept(TestCase):
    def test_the_quick_start_of_the_page_prints_what_it_says(self):
        page = (TOP / "docs/DURABLE.md").read_text()
        code, after = page.split("```python\n")[1].split("```\n", 1)
        wanted = after.split("```text\n")[1].split("```")[0]
        with folder() as path:
            for _ in range(2):
                environment = {**os.environ, "PYTHONPATH": str(TOP / "clients/python")}
                ended = subprocess.run([sys.executable, "-c", code], cwd=path, capture_output=True, text=True, env=environment)
                self.assertEqual((ended.returncode, ended.stdout, ended.stderr), (0, wanted, ""))

    def test_what_was_answered_is_there_in_another_process(self):
        with folder() as path:
            with durable().open(path / "t") as table:
                table.run(TABLE)
                table.put([(1, "Oslo", 30), (2, 'a "b", c\n', 4)])
                table.run("index by_city on city include qty\nbuild by_city 9\n")
                wanted = f"{table.scan('by_city')} {table.get(2)} {table.count()}\n"
            text = "import sys; from betable import durable; t = durable.open(sys.argv[1]); print(t.scan('by_city'), t.get(2), t.count())"
            self.assertEqual(run_python(text, path / "t"), (0, wanted))

    def test_what_was_answered_outlives_a_kill(self):
        """No close, no end of the interpreter. A group that is open is not kept."""
        text = """import os, sys; from betable import durable
t = durable.open(sys.argv[1]); t.replies(sys.argv[2]); t.replies(sys.argv[3])
with t.group(): t.replies(sys.argv[3]); t.replies(sys.argv[3])
with t.group(): t.replies(sys.argv[3]); os.kill(os.getpid(), 9)"""
        with folder() as path:
            self.assertEqual(run_python(text, path / "t", TABLE, ADD)[0], -9)
            with durable().open(path / "t") as table:
                self.assertEqual(table.get(1), (1, "", 3))

    def test_what_changes_nothing_is_not_kept(self):
        """Nor is it counted. A request that runs once is kept, and counted if it changes something."""
        with folder() as path, durable().open(path / "t") as table:
            table.replies(TABLE)
            table.replies(ADD)
            before = files_of(path)
            for script in ("", "\n", "get 1\n", "scan primary\ngo\nimage primary\n", "batch\nput 1,a,1\n", "sums primary 1 qty\ngo\n", "x\n"):
                table.replies(script)
            with table.group():
                table.scan()
            self.assertEqual((table.number, files_of(path) == before), (2, True))
            for script in (TABLE, "batch\nput x\nend\nget 1\n"):
                table.replies(script)
            table.once("a", "get 1\n")
            self.assertEqual(table.number, 2)
            table.replies("get 1\nbatch\nput x\nend\n" + ADD)
            table.once("b", ADD)
            table.put([(2, "", 0)])
            self.assertEqual((table.put([(3, "", 0)] * 5, most=2), table.number), (5, 8))
            self.assertEqual(table._apply_once("c", b"BTV\x01\x01\0\0\0\x09", b"done"), b"refused 6 BadField 1\n")
            self.assertEqual((table._apply_once("d", table._pack_rows([(4, "", 0)]), b"done"), table.number), (b"done", 9))

    def test_columns_are_known_when_a_table_is_opened_again(self):
        with folder() as path:
            with durable().open(path / "t") as table:
                table.run("table 4 3 2 1 k:bytes f:flag n:int t:text\nindex i on t include f\nbuild i 1\n")
                table.put([(b"\1\2", True, 3, "x,y"), (b"", False, -1, "")])
                table.checkpoint()
            for _ in range(2):
                with durable().open(path / "t") as table:
                    self.assertEqual(table.get(b"\1\2"), (b"\1\2", True, 3, "x,y"))
                    self.assertEqual(table.scan("i"), [("", b"", False), ("x,y", b"\1\2", True)])
                    expect_fault(self, betable().Refused, lambda: table.run("index i on t\n"))


# ---- reads ----


READS = [
    lambda one: [one.get(key) for key in (0, 39, 40, -1)],
    lambda one: one.scan(),
    lambda one: one.scan("by_city", ("a",), ("c",), 5),
    lambda one: one.scan("by_city", limit=0),
    lambda one: one.scan("by_city", after=("a", 36), limit=2),
    lambda one: list(one.iterate("by_city", ("b",), page=3)),
    lambda one: one.scan("by_city", ("a",), ("c",), 5, newest_first=True),
    lambda one: one.scan("by_city", after=("b", 4), limit=4, newest_first=True),
    lambda one: list(one.iterate("by_city", ("b",), page=3, newest_first=True)),
    lambda one: one.scan_columns("by_city", ("a",), ("b",), 4),
    lambda one: one.sums("by_city", 1, "qty", ("b",)),
    lambda one: one.count("by_city", ("b",)),
    lambda one: one.columns("by_city"),
    lambda one: one.usage("by_city"),
    lambda one: one.check("get 1\nget x\nbatch\nput 1\nend\n"),
    lambda one: one.explain("batch\nput 1\nend\n"),
]
WRONG_READS = [
    lambda one: one.get("1"),
    lambda one: one.get((1,)),
    lambda one: one.get(2**63),
    lambda one: one.scan("none"),
    lambda one: one.scan("building", limit=1),
    lambda one: one.scan("by_city", ("a", 1, 2)),
    lambda one: one.scan(limit=-1),
    lambda one: one.scan(after=(2**63,)),
    lambda one: one.scan("building", limit=1, newest_first=True),
    lambda one: one.scan_columns(newest_first=None),
    lambda one: one.iterate(page=0),
    lambda one: list(one.iterate("building")),
    lambda one: one.sums("by_city", 1, "city"),
    lambda one: one.count("building"),
    lambda one: one.usage("none"),
    lambda one: one.columns("none"),
    lambda one: one.check(5),
]


class Reads(TestCase):
    def test_reads_are_those_of_a_session(self):
        """In a group too, and the file stays as it is."""
        with folder() as path, durable().open(path / "t") as table, betable().Session() as session:
            for one in (table, session):
                one.run(INDEXED)
                one.put(ROWS)
            before = table.number, files_of(path)
            for context in (nullcontext, table.group):
                with context():
                    for number, call in enumerate(READS):
                        with self.subTest(number=number):
                            self.assertEqual(call(table), call(session))
                    for number, call in enumerate(WRONG_READS):
                        with self.subTest(number=number):
                            found, wanted = fault_of(lambda: call(table)), fault_of(lambda: call(session))
                            self.assertEqual((type(found), str(found)), (type(wanted), str(wanted)))
                            self.assertFalse(wanted is None)
            self.assertEqual((table.number, files_of(path)), before)

    def test_a_plain_get_and_a_plain_scan_run_no_code_of_python(self):
        """They are calls of the extension on the file, as those of a session are on it."""
        with folder() as path, durable().open(path / "t") as table:
            if betable().session._packed is None:
                self.skipTest("the extension is not built")
            table.run(INDEXED)
            table.put(ROWS)
            table.get(1)
            table.trees = table.replies = table._ask = table._opened = None
            self.assertEqual((table.get(3), table.scan(limit=2), table.sums("by_city", 0, "qty")), (ROWS[3], ROWS[:2], [(40, 5460)]))

    def test_reads_see_what_their_group_has_changed(self):
        with folder() as path, durable().open(path / "t") as table:
            table.run(TABLE)
            with table.group():
                table.put(ROWS)
                self.assertEqual((table.get(3), len(table.scan(limit=9)), table.usage().rows + table.usage().messages), (ROWS[3], 9, 40))

            def rolled_back():
                with table.group():
                    table.delete(3)
                    table.index("i", on="city")
                    self.assertEqual((table.get(3), table.scan("primary", (3,), limit=1), table.scan("i", limit=1)), (None, [ROWS[4]], [("a", 0)]))
                    raise KeyError

            expect_fault(self, KeyError, rolled_back)
            self.assertEqual((table.get(3), table.scan(), len(table.trees())), (ROWS[3], ROWS, 1))
            expect_fault(self, betable().Refused, lambda: table.scan("i"))

    def test_an_iterator_goes_on_over_a_rollback(self):
        """A tree that was dropped and made again meanwhile ends it, as in a session."""
        with folder() as path, durable().open(path / "t") as table:
            table.run(INDEXED)
            table.put(ROWS)
            rows = table.iterate("by_city", page=2)
            found = [next(rows) for _ in range(2)]
            with Failing(table):
                expect_fault(self, durable().RolledBack, lambda: table.put([(2, "drop fails", 1)]))
            found += [next(rows) for _ in range(3)]

            def in_group():
                with table.group():
                    table.delete_range("primary")
                    raise KeyError

            expect_fault(self, KeyError, in_group)
            self.assertEqual(found + list(rows), table.scan("by_city"))
            rows = table.iterate("by_city", page=2)
            next(rows), next(rows)
            table.run("drop by_city\nindex by_city on city include qty\nbuild by_city 100\n")
            expect_fault(self, RuntimeError, lambda: next(rows), "the tree 'by_city' was dropped, or made again")
            rows = table.iterate(page=1)
            next(rows)
        expect_fault(self, ValueError, lambda: next(rows), "the table is closed")

    def test_a_read_that_runs_out_of_memory_changes_nothing(self):
        """Its group goes on."""
        module = betable().library
        kind = ctypes.CFUNCTYPE(ctypes.c_uint, ctypes.POINTER(module.Handle), ctypes.c_char_p, ctypes.c_size_t, ctypes.POINTER(module.Fault))
        starved = {name: kind(lambda *_: module.OUT_OF_MEMORY) for name in ("betable_file_get", "betable_file_usage")}

        class Library:
            def __getattr__(self, name):
                return starved.get(name) or getattr(calls_on_files().loaded_library(), name)

        with folder() as path, durable().open(path / "t") as table:
            table.run(TABLE)
            table.put(ROWS)
            table._bytes._library = Library()
            table._connect_library(table._bytes._library, table._bytes.file, "betable_file_")
            with table.group():
                table.delete(1)
                for call in (lambda: table.get(2), table.usage):
                    self.assertEqual(expect_fault(self, betable().OutOfMemory, call).is_lost, False)
                table.delete(2)
            self.assertEqual(table.scan(), [ROWS[0], *ROWS[3:]])


# ---- all or nothing ----


class AllOrNothing(TestCase):
    def test_a_call_that_fails_is_rolled_back(self):
        causes = {"OUT_OF_MEMORY": (betable().OutOfMemory, None), "FILE_TOO_LONG": (OSError, errno.EFBIG), "FILE_FAILED": (OSError, errno.EIO)}
        for status, (kind, number) in causes.items():
            with self.subTest(status=status), folder() as path:
                with durable().open(path / "t") as table:
                    table.replies(TABLE)
                    table.replies(ADD)
                    wanted = probe(table)
                    with Failing(table, status):
                        calls = [lambda: table.replies(ADD + "drop fails\n"), lambda: table.put([(1, "drop fails", 1)]), lambda: table.once("a", "drop fails\n")]
                        for call in calls:
                            fault = expect_fault(self, durable().RolledBack, call, "nothing of the call was kept")
                            self.assertEqual((type(fault.__cause__), getattr(fault.__cause__, "errno", None)), (kind, number))
                            self.assertEqual((probe(table), table.number, table.is_lost), (wanted, 2, False))
                    self.assertEqual(table.once("a", ADD), b"batch 1\n")
                    wanted = probe(table)
                with durable().open(path / "t") as table:
                    self.assertEqual(probe(table), wanted)

    def test_a_group_is_kept_whole_or_not_at_all(self):
        with folder() as path:
            with durable().open(path / "t") as table:
                table.replies(TABLE)
                with table.group():
                    table.replies(ADD)
                    self.assertEqual(table.once("a", ADD), b"batch 1\n")
                    self.assertEqual(table.once("a", ADD), b"batch 1\n")
                wanted, number = probe(table), table.number

                def by_exception():
                    with table.group():
                        table.replies(ADD + "index i on city\nbuild i 9\n")
                        table.once("b", ADD)
                        raise KeyError

                def by_interrupt():
                    with table.group():
                        table.replies(ADD + "index i on city\nbuild i 9\n")
                        raise KeyboardInterrupt

                def by_failure():
                    with table.group():
                        table.replies(ADD)
                        expect_fault(self, durable().RolledBack, lambda: table.replies(ADD + "drop fails\n"), "nothing of the group was kept")
                        # It cannot be half of a group that goes on.
                        for call in (lambda: table.replies(ADD), lambda: table.once("a", ADD), lambda: table.get(1), lambda: table.put([(1, "", 1)])):
                            expect_fault(self, durable().RolledBack, call, "a call of the group failed before")

                def by_commit():
                    with Failing(table, "FILE_FAILED", commits=True), table.group():
                        table.replies(ADD)

                rolled_back = durable().RolledBack
                for kind, call in ((KeyError, by_exception), (rolled_back, by_failure), (rolled_back, by_commit), (KeyboardInterrupt, by_interrupt)):
                    with self.subTest(call=call.__name__), self.assertRaises(kind), Failing(table):
                        call()
                    self.assertEqual((probe(table), table.number), (wanted, number))
                    expect_fault(self, betable().Refused, lambda: table.scan("i"))
                self.assertEqual(table.once("b", "batch\nend\n"), b"batch 0\n")
                expect_fault(self, durable().RequestReused, lambda: table.once("a", "get 1\n"))
            with durable().open(path / "t") as table:
                self.assertEqual(probe(table), wanted)

    def test_an_interrupt_at_any_moment_leaves_a_group_whole_or_not_at_all(self):
        """It comes as a function of Python begins or one of C has returned, which is when handlers of signals run. Calls after it are kept."""

        def ended(table):
            with table.group():
                table.replies(ADD)
                table.replies(ADD)

        def left(table):
            with table.group():
                table.replies(ADD)
                raise KeyError

        with folder() as path:
            for call, kept in ((ended, (1, 3)), (left, (1,)), (lambda table: table.replies(ADD), (1, 2))):
                for moment in itertools.count():
                    table = durable().open(path / f"{kept}{moment}")
                    table.replies(TABLE + ADD)
                    is_over = not interrupted(lambda: call(table), moment)
                    found = table.get(1)[2]
                    self.assertIn(found, kept, moment)
                    table.replies(ADD)
                    with table.group():
                        table.replies(ADD)
                    table.close()
                    with durable().open(table.path) as table:
                        self.assertEqual(table.get(1)[2], found + 2, moment)
                    if is_over:
                        break
                self.assertGreater(moment, 20)

    def test_a_group_that_an_interrupt_has_left_is_rolled_back_by_the_next_call(self):
        """It comes while the group is rolled back after an exception."""
        with folder() as path, durable().open(path / "t") as table:
            table.replies(TABLE + ADD)

            def interrupted():
                raise KeyboardInterrupt

            table._bytes.drop_group = interrupted
            try:
                with table.group():
                    table.replies(ADD)
                    raise KeyError
            except KeyboardInterrupt:
                del table._bytes.drop_group
            self.assertEqual((table.get(1), table.put([(2, "", 2)])), ((1, "", 1), 1))
            with table.group():
                table.put([(3, "", 3)])
            self.assertEqual(table.scan(), [(1, "", 1), (2, "", 2), (3, "", 3)])

    def test_rows_of_the_batches_before_one_that_fails_are_kept_and_counted(self):
        """And in a group none of them are."""
        with folder() as path, durable().open(path / "t") as table, Failing(table):
            table.replies(TABLE)
            rows = [(1, "", 1), (2, "", 2), (3, "drop fails", 3)]
            fault = expect_fault(self, durable().RolledBack, lambda: table.put(rows, most=2), "2 rows of this call were applied before it")
            self.assertEqual((fault.taken, table.scan(), table.number), (2, rows[:2], 2))
            self.assertEqual(pickle.loads(pickle.dumps(fault)).taken, 2)
            self.assertEqual(expect_fault(self, durable().RolledBack, lambda: table.put(rows[2:])).taken, 0)

            def in_group():
                with table.group():
                    self.assertEqual(expect_fault(self, durable().RolledBack, lambda: table.put(rows, most=2)).taken, 0)

            expect_fault(self, durable().RolledBack, in_group)
            self.assertEqual((table.scan(), table.number), (rows[:2], 2))

    def test_a_full_disk_rolls_back_and_the_table_goes_on(self):
        """The system refuses to write more: in a call, in the second batch of a call, and at the end of a group. The table can be read, and changed when there
        is room."""
        with folder() as path:
            with durable().open(path / "t") as table:
                table.replies(TABLE)
                table.put(ROWS)
                wanted, rows = probe(table), [(number, "x" * 250, 1) for number in range(100, 5_100)]

                def in_group():
                    with table.group():
                        table.put(rows)

                with no_file_longer_than(table.file_bytes + 10_000):
                    for call in (lambda: table.put(rows), in_group):
                        fault = expect_fault(self, durable().RolledBack, call, "File too large")
                        self.assertEqual((fault.__cause__.errno, fault.__cause__.filename), (errno.EFBIG, str(path / "t")))
                        self.assertEqual((probe(table), table.number, table.get(39)), (wanted, 2, ROWS[39]))
                    fault = expect_fault(self, durable().RolledBack, lambda: table.put(rows, most=10))
                    self.assertEqual((0 < fault.taken < 5_000, table.count()), (True, 40 + fault.taken))
                table.put(rows)
                self.assertEqual(table.count(), 5_040)
            with durable().open(path / "t") as table:
                self.assertEqual(table.count(), 5_040)

    def test_without_the_extension_a_full_disk_rolls_back_too(self):
        text = """import resource, sys, warnings
warnings.simplefilter("ignore"); sys.modules["betable._packed"] = None
from betable import durable
with durable.open(sys.argv[1]) as table:
    table.table("id:int city:text")
    table.put([(1, "")])
    limits = resource.getrlimit(resource.RLIMIT_FSIZE)
    resource.setrlimit(resource.RLIMIT_FSIZE, (10_000, limits[1]))
    try: table.put((number, "x" * 250) for number in range(5_000))
    except durable.RolledBack as fault: print(fault.__cause__.errno, fault.__cause__.filename == sys.argv[1])
    resource.setrlimit(resource.RLIMIT_FSIZE, limits)
    print(table.scan(), table.put([(2, "")]), table.number)"""
        with folder() as path:
            self.assertEqual(run_python(text, path / "t"), (0, f"{errno.EFBIG} True\n[(1, '')] 1 3\n"))

    def test_a_call_of_which_nobody_knows_closes_the_table(self):
        with folder() as path:
            table = durable().open(path / "t")
            table.replies(TABLE)
            with Failing(table, "FILE_FAILED", is_certain=False):
                fault = expect_fault(self, durable().InDoubt, lambda: table.put([(1, "", 1), (2, "drop fails", 1)], most=1), "open the table again")
            self.assertEqual((fault.taken, fault.__cause__.errno), (1, errno.EIO))
            for call in (lambda: table.get(1), lambda: table.replies(ADD), table.checkpoint, lambda: table.group().__enter__()):
                expect_fault(self, durable().InDoubt, call, "the table was closed")
            with durable().open(path / "t") as again:
                self.assertEqual(again.scan(), [(1, "", 1)])
            table.close()
            expect_fault(self, ValueError, lambda: table.get(1), "closed")


class Requests(TestCase):
    def test_a_request_is_run_once(self):
        with folder() as path:
            with durable().open(path / "t") as table:
                table.run(TABLE)
                self.assertEqual(table.once("a", ADD), b"batch 1\n")
                table.put([(1, "", 1)])
                changes = table._pack_rows([(7, "x", 1)])
                table._apply_once("packed", changes, b"")
            for _ in range(3):
                with durable().open(path / "t") as table:
                    for _ in range(2):
                        self.assertEqual(table.once("a", ADD), b"batch 1\n")
                        expect_fault(self, durable().RequestReused, lambda: table.once("a", ADD + "\n"), "'a'", "a new id")
                        # Replies are those of the first time, even if they would be different now.
                        self.assertEqual(table.once("read", "get 1\n"), b"row 1,,1\n")
                        self.assertEqual(table.once("refused", "get x\n"), b"refused 6 BadField 1\n")
                        self.assertEqual(table._apply_once("packed", changes, b"done"), b"done")
                        expect_fault(self, durable().RequestReused, lambda: table._apply_once("a", changes, b""), "'a'")
                    self.assertEqual(table.get(1), (1, "", 1))
                    table.checkpoint()
            with durable().open(path / "t") as table:
                table.once("b", ADD)
                self.assertEqual((table.get(1), table.once("read", "get 1\n")), ((1, "", 2), b"row 1,,1\n"))
                for wrong in (1, None, b"a"):
                    expect_fault(self, TypeError, lambda: table.once(wrong, ADD))
                expect_fault(self, TypeError, lambda: table.once("c", None))


    def test_a_reply_that_is_no_frame_is_refused(self):
        """With the extension and without it."""
        calls, module = calls_on_files(), betable().library
        handle = ctypes.POINTER(module.Handle)
        given = b""

        def copied(_, start, room, size):
            found = given[start : start + size]
            ctypes.memmove(room, found, len(found))
            return len(found)

        class Library:
            betable_file_replies_length = ctypes.CFUNCTYPE(ctypes.c_size_t, handle)(lambda _: len(given))
            betable_file_copy_replies = ctypes.CFUNCTYPE(ctypes.c_size_t, handle, ctypes.c_size_t, ctypes.c_void_p, ctypes.c_size_t)(copied)

            def __getattr__(self, name):
                return getattr(calls.loaded_library(), name)

        exchanges = [calls.exchange_of(Library(), has_extension) for has_extension in {False, module._packed is not None}]
        with folder() as path, durable().open(path / "t") as table:
            for number, exchange in enumerate(exchanges):
                for given in (b"", b"BTF\x01", b"BTF\x01" + bytes(8), b"BTF\x02" + bytes(9), b"BTF\x01\x01" + bytes(8), b"BTF\x01" + bytes(10)):
                    with self.subTest(number=number, given=given):
                        expect_fault(self, RuntimeError, lambda: exchange(table._bytes.file, 1, b""), "of another version")
                given = b"BTF\x01\x05" + bytes(7) + b"\x09reply"
                self.assertEqual(exchange(table._bytes.file, 1, b"")[2:], (0, 0, 9, b"reply"))


# ---- files ----


class Files(TestCase):
    def test_other_files_are_refused_by_name_and_left_as_they_are(self):
        data, _ = file_of(31, [TABLE, ADD])
        with folder() as path:
            (path / "text").write_text("table 4 3 2 1 id:int\n" * 300)
            (path / "newer").write_bytes(file_of(5, [TABLE], form=2)[0])
            (path / "other").write_bytes(file_of(5, [TABLE], engine=2)[0])
            (path / "damaged").write_bytes(data[:70] + bytes([data[70] ^ 1]) + data[71:])
            (path / "sqlite").write_bytes(b"SQLite format 3\0" + bytes(4_080))
            (path / "folder").mkdir()
            kinds = {"text": "NotATable", "newer": "NewerFormat", "other": "OtherEngine", "damaged": "Corrupt", "sqlite": "NotATable"}
            before = files_of(path)
            for name, kind in kinds.items():
                with self.subTest(name=name):
                    advice = f"'python3 -m betable convert {path}/sqlite NEW'" if name == "sqlite" else ""
                    expect_fault(self, getattr(durable(), kind), lambda: durable().open(path / name), str(path / name), advice)
            for name, kind in (("folder", IsADirectoryError), ("none/t", FileNotFoundError)):
                expect_fault(self, kind, lambda: durable().open(path / name), str(path / name))
            self.assertEqual(files_of(path), before)
            (path / "empty").touch()
            with durable().open(path / "empty") as table:
                table.run(TABLE)

    def test_a_table_is_open_once(self):
        """In one process and in two, also after another descriptor of the file was closed, and over a link. Neither a child nor an object that is dropped keeps
        it locked."""
        text = "import sys; from betable import durable\ntry: durable.open(sys.argv[1])\nexcept durable.InUse as fault: print(fault)\nelse: print('open')"
        with folder() as path:
            table = durable().open(path / "t")
            table.run(TABLE)
            shutil.copy(path / "t", path / "copy")
            (path / "link").hardlink_to(path / "t")
            for name in (path / "t", os.path.relpath(path / "t"), path / "link"):
                expect_fault(self, durable().InUse, lambda: durable().open(name), f"{path}/{Path(name).name} is open already")
            self.assertEqual(run_python(text, path / "t"), (0, f"{path}/t is open already, by another process or by this one\n"))
            (path / "link").unlink()
            reader, writer = os.pipe()
            child = os.fork()
            if child == 0:
                os.close(writer)
                os.read(reader, 1)
                os._exit(0)
            table.close()
            self.assertEqual(run_python(text, path / "t"), (0, "open\n"))
            os.write(writer, b".")
            os.waitpid(child, 0)
            os.close(reader)
            os.close(writer)
            table = durable().open(path / "t")
            table.replies(ADD)
            del table
            with durable().open(path / "t") as table:
                self.assertEqual(table.get(1), (1, "", 1))

    def test_a_backup_is_the_table_as_it_was(self):
        with folder() as path:
            with durable().open(path / "t") as table:
                table.run(TABLE)
                table.put((number, "x" * 200, number) for number in range(500))
                table.once("a", ADD)
                wanted = probe(table)
                table.backup(path / "copy")
                table.replies(ADD)
                expect_fault(self, FileExistsError, lambda: table.backup(path / "copy"), "a new file")
                expect_fault(self, FileNotFoundError, lambda: table.backup(path / "none/copy"))
                with table.group():
                    table.replies(ADD)
                    expect_fault(self, RuntimeError, lambda: table.backup(path / "other"), "end the group")
                    expect_fault(self, RuntimeError, table.checkpoint, "end the group")
                self.assertEqual(table.get(1), (1, "x" * 200, 4))
                with durable().open(path / "copy") as copied:
                    self.assertEqual((probe(copied), copied.once("a", ADD), copied.get(1)), (wanted, b"batch 1\n", (1, "x" * 200, 2)))
                self.assertEqual({name.name for name in path.iterdir()}, {"t", "copy"})

    def test_a_backup_that_fails_leaves_nothing(self):
        module = __import__("betable.durable.table").durable.table
        sync = module.sync_path
        with folder() as path, durable().open(path / "t") as table:
            table.run(TABLE)
            (path / "copy.part").write_bytes(b"of a process that was killed")
            for failing in (path / "copy.part", path):

                def sync_path(name):
                    if str(name) == str(failing):
                        raise OSError(28, "No space left on device")
                    sync(name)

                try:
                    module.sync_path = sync_path
                    expect_fault(self, OSError, lambda: table.backup(path / "copy"), "No space")
                finally:
                    module.sync_path = sync
                self.assertEqual({name.name for name in path.iterdir()}, {"t"})


# ---- the object ----


class TheObject(TestCase):
    def test_wrong_use_is_refused(self):
        with folder() as path:
            table = durable().open(path / "t")
            table.run(TABLE)
            self.assertEqual(repr(table), f"<betable.durable.Durable '{path}/t'>")
            calls = [
                lambda: table.replies(ADD), table.checkpoint, lambda: table.once("a", ADD), lambda: table.group().__enter__(), table.trees,
                lambda: table.is_lost, lambda: table.backup(path / "b"), lambda: table.get(1), table.scan, lambda: table.put([(1, "", 1)]),
                lambda: table.run(ADD), lambda: table.check(ADD), table.usage, lambda: table._apply_once("a", b"", b""),
            ]  # fmt: skip
            child = os.fork()
            if child == 0:
                found = [type(fault_of(call)) for call in calls]
                table.close()
                os._exit(found != [RuntimeError] * len(found))
            self.assertEqual(os.waitstatus_to_exitcode(os.waitpid(child, 0)[1]), 0)
            for call in (lambda: pickle.dumps(table), lambda: copy.copy(table), lambda: table.replies(None), lambda: table.replies(3)):
                expect_fault(self, TypeError, call)
            with table.group():
                expect_fault(self, RuntimeError, lambda: table.group().__enter__(), "nested")
                table.replies(ADD)
            self.assertEqual(table.get(1), (1, "", 1))
            table.close()
            table.close()
            self.assertEqual(repr(table), f"<betable.durable.Durable '{path}/t', closed>")
            for call in calls:
                expect_fault(self, ValueError, call, "the table is closed")
            with durable().open(path / "t") as table:

                def ended():
                    with table.group():
                        table.replies(ADD)
                        table.close()

                expect_fault(self, ValueError, ended)
            with durable().open(path / "t") as table:
                self.assertEqual(table.get(1), (1, "", 1))
            expect_fault(self, ValueError, lambda: durable().open("a\0b"), "zero byte")
            self.assertIs(betable().open, durable().open)

    def test_a_forked_child_leaves_the_file_alone(self):
        """Also one that was forked in a group."""
        text = """import os, sys; from betable import durable
table = durable.open(sys.argv[1]); table.replies(sys.argv[2])
with table.group():
    table.replies(sys.argv[3])
    child = os.fork()
    if child == 0: sys.exit(0)
    os.waitpid(child, 0)
os.kill(os.getpid(), 9)"""
        with folder() as path:
            self.assertEqual(run_python(text, path / "t", TABLE, ADD)[0], -9)
            with durable().open(path / "t") as table:
                self.assertEqual(table.get(1), (1, "", 1))

    def test_a_table_follows_no_change_of_the_folder(self):
        with folder() as path:
            before = os.getcwd()
            os.chdir(path)
            try:
                table = durable().open("t")
                (path / "other").mkdir()
                os.chdir(path / "other")
                table.run(TABLE)
                table.checkpoint()
                table.backup("copy")
                table.close()
            finally:
                os.chdir(before)
            self.assertEqual((sorted(os.listdir(path)), os.listdir(path / "other")), (["other", "t"], ["copy"]))


# ---- crashes ----


def crashed(test, *names):
    ended = subprocess.run([sys.executable, "-B", TOP / "tools/crash/run", "--short", *names], capture_output=True, text=True, timeout=3 * SECONDS)
    test.assertEqual((ended.returncode, ended.stderr), (0, ""))
    return [int(count.replace(",", "")) for count in re.findall(r": ([\d,]+) looked at", ended.stdout)]


class Crashes(TestCase):
    def test_what_was_answered_outlives_a_kill_at_each_write(self):
        self.assertEqual([count > 50 for count in crashed(self, "killed")], [True])

    def test_what_was_answered_outlives_a_loss_of_power(self):
        self.assertEqual([count > 40 for count in crashed(self, "power")], [True])

    def test_what_fails_to_be_written_is_rolled_back(self):
        self.assertEqual([count > 100 for count in crashed(self, "faults")], [True])

    def test_wrong_clients_and_files_without_sync_fail_these_tests(self):
        self.assertEqual(len(crashed(self, "controls")), 3)

    def test_replies_to_random_scripts_are_those_of_a_session(self):
        self.assertEqual([count > 1_000 for count in crashed(self, "random")], [True])

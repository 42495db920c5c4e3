"""Tests of the extension of the Python client on what the other tests of the client do not reach: replies that are not of the layout, code of Python that runs
during a call, memory that is refused, references, and threads. Without the extension a line says that they are not tested."""

import ctypes
import gc
import os
import random
import shutil
import subprocess
import sys
import tempfile
import threading
import time
from array import array
from pathlib import Path
from unittest import SkipTest, TestCase

from .common import fault_of, TOP
from .clients import OtherLibrary, betable, build_extension, library

ROWS = [(number, f"city{number % 7}", number % 2 == 0, bytes([number]), number - 5) for number in range(40)]


def filled():
    session = betable().Session()
    session.table("id:int city:text ok:flag raw:bytes qty:int")
    session.index("by_city", "city", "qty")
    session.put(ROWS)
    return session


def reads(session):
    """Each call of the extension that reads rows."""
    return [
        lambda: session.get(5), lambda: session.scan(limit=9), lambda: session.scan("by_city"), lambda: session.scan_columns(), lambda: list(session.iterate(page=7)),
        lambda: session.sums("by_city", 1, "qty"), lambda: session.scan("by_city", newest_first=True),
    ]  # fmt: skip


class CallsAgain:
    """What calls a session when it is collected, and makes another one like it."""

    count, is_over = 0, False

    def __init__(self, session):
        self.session, self.itself = session, self

    def __del__(self):
        type(self).count += 1
        if not self.is_over and CallsAgain.count < 3_000:
            key = 1_000 + self.count % 9
            self.session.put([(key, "again", True, b"again", key)])
            self.session.get(key)
            self.session.scan_columns("by_city", limit=3)
            self.session.batch([betable().upsert(key, **{("add", "max", "min")[key % 3]: {"qty": 1}})])
            CallsAgain(self.session)


REFUSED_MEMORY = """
import sys, _testcapi
sys.path.insert(0, {path!r})
import betable
from array import array
rows = {rows!r}
session = betable.Session()
session.table("id:int city:text ok:flag raw:bytes qty:int")
session.index("by_city", "city", "qty")
session.put(rows)
columns = {{name: list(values) for name, values in zip(("id", "city", "ok", "raw", "qty"), zip(*rows))}}
columns["id"] = array("q", columns["id"])
message = betable.upsert(1, set={{"qty": -4}})
# More bytes than are kept for the next call.
many = [(number, "x" * 255) for number in range(6_000)]
other = betable.Session()
other.table("id:int text:text")
refused = betable.Session()
refused.replies("get 1\\n" * 20)
calls = [
    lambda: session.put(rows), lambda: session._pack_rows([(4, "\\ud800", True, b"", 1)]), lambda: session._pack_rows(rows),
    lambda: session._pack_columns(len(rows), b"\\0", list(columns.values())), lambda: session._pack_messages([message]),
    lambda: session.batch([message]), lambda: session.get(99), lambda: other.put(many), lambda: other.get(1), refused._places,
    lambda: session.get(5), lambda: session.scan("by_city"), lambda: session.scan_columns("primary", (3,), (9,)), lambda: session.sums("by_city", 1, "qty"),
]
wanted = [call() for call in calls]
faults = 0
for call, found in zip(calls, wanted):
    done = start = 0
    while done < 20:
        done += 1
        _testcapi.set_nomemory(start, start + 1)
        try:
            given = call()
        except MemoryError:
            faults += 1
            done, given = 0, found
        finally:
            _testcapi.remove_mem_hooks()
        assert given == found, (start, given, found)
        start += 1
    assert session.scan() == rows
print(faults)
"""


def setUpModule():
    library()
    build_extension()
    if betable().session._packed is None:
        raise SkipTest("the extension of the Python package is not built")


class PythonExtension(TestCase):
    def test_replies_that_are_not_of_the_layout_raise(self):
        """Replies that are cut, and replies with other bytes, in place of those of the library. What is read is a row of the right types, or an exception."""
        client, session, dice = betable(), filled(), random.Random(1)
        expected = [call() for call in reads(session)]
        given = []
        copy = ctypes.CFUNCTYPE(ctypes.c_size_t, ctypes.POINTER(client.library.Handle), ctypes.c_size_t, ctypes.c_void_p, ctypes.c_size_t)
        own = session._bytes.library.betable_copy_replies

        def copied(handle, start, room, size):
            raw = ctypes.create_string_buffer(size)
            count = own(handle, start, raw, size)
            found = changed(raw.raw[:count])[:size]
            ctypes.memmove(room, found, len(found))
            return len(found)

        changes = {
            "none": lambda reply: reply,
            "cut": lambda reply: reply[: dice.randrange(len(reply) + 1)],
            "short by one": lambda reply: reply[:-1] if len(reply) > 4 else reply,
            "longer": lambda reply: reply + dice.randbytes(dice.randrange(1, 20)),
            "other": lambda reply: reply[:4] + dice.randbytes(dice.randrange(200)),
            "head": lambda reply: b"BTV\2" + reply[4:],
            "empty": lambda reply: b"",
        }
        other = OtherLibrary(session, {"betable_copy_replies": copy(copied)})
        faults = {}
        for name, changed in changes.items():
            with self.subTest(name=name):
                for _ in range(60):
                    for call, wanted in zip(reads(session), expected):
                        try:
                            found = call()
                            self.assertEqual(found, wanted) if name == "none" else None
                        except (RuntimeError, UnicodeDecodeError) as fault:
                            given.append(str(fault))
                            faults[name] = faults.get(name, 0) + 1
        self.assertNotIn("none", faults)
        self.assertEqual([faults[name] for name in ("short by one", "head", "empty")], [60 * len(expected)] * 3)
        self.assertIn("a reply of the library is not of the layout of its tree", given[0])
        other.end(session)
        self.assertEqual([call() for call in reads(session)], expected)

    def test_code_that_runs_during_a_call_may_call_again(self):
        """The collector of garbage runs it whenever an object is made."""
        session = filled()
        own = [call() for call in reads(session)[:1]]
        thresholds = gc.get_threshold()
        try:
            gc.set_threshold(1)
            CallsAgain(session)
            for number in range(300):
                self.assertEqual(session.get(5), own[0])
                self.assertEqual([row for row in session.scan() if row[0] < 1_000], ROWS)
                self.assertEqual([row for row in zip(*session.scan_columns().values()) if row[0] < 1_000], ROWS)
                session.batch(
                    [betable().upsert(1, set={"city": ROWS[1][1]}, **{("add", "max")[number % 2]: {"qty": -100 * (number % 2)}}), betable().put(*ROWS[0])]
                )
                session.put([ROWS[3], ROWS[4]])
                fault_of(lambda: session.put([ROWS[3], (4, "\ud800", True, b"", 1)]))
                self.assertEqual(sum(group[0] for group in session.sums("by_city", 1, "qty") if group[2] != "again"), len(ROWS))
        finally:
            gc.set_threshold(*thresholds)
            CallsAgain.is_over = True
        self.assertGreater(CallsAgain.count, 50)

    def test_values_may_call_the_session(self):
        """A value with code of its own, which puts another row first, as its row is encoded."""
        session = filled()

        class Calls:
            def __index__(self):
                session.put([(-1, "first", True, b"", 1)])
                rows.clear()
                return 77

        rows = [ROWS[0], (Calls(), "x", True, b"", 1), ROWS[1]]
        session.put(rows)
        self.assertEqual((session.get(77), session.get(-1), rows), ((77, "x", True, b"", 1), (-1, "first", True, b"", 1), []))

    def test_a_session_that_is_closed_during_a_call_is_not_used(self):
        """It is closed as the plan of a new shape of upserts is asked for, after the session was looked at first."""
        session = filled()
        session._plan = lambda shape: session.close() or bytes([1, 4])
        self.assertEqual(type(fault_of(lambda: session.batch([betable().upsert(1, add={"qty": 1})]))), ValueError)

    def test_memory_that_is_refused_is_an_exception(self):
        """Each request for memory of Python is refused in turn, in each call. The table is as before, and the call is right when it is made again."""
        code = REFUSED_MEMORY.format(path=str(TOP / "clients/python"), rows=ROWS)
        ended = subprocess.run([sys.executable, "-B", "-c", code], capture_output=True, text=True, env={**os.environ, "BETABLE_LIBRARY": library()})
        if "No module named '_testcapi'" in ended.stderr:
            self.skipTest("this Python has no _testcapi")
        self.assertEqual((ended.returncode, ended.stderr), (0, ""))
        self.assertGreater(int(ended.stdout), 80)

    def test_no_memory_is_kept_after_calls(self):
        """Blocks of memory of Python, after calls that are done and calls that raise."""
        client, session = betable(), filled()
        columns = {name: list(values) for name, values in zip(("id", "city", "ok", "raw", "qty"), zip(*ROWS))} | {"id": array("q", range(len(ROWS)))}
        calls = [
            *reads(session), lambda: session.put(ROWS), lambda: session.put(columns), lambda: session.batch([client.upsert(1, add={"qty": 0}), client.delete(99), client.put(*ROWS[2])]),
            lambda: session.put([ROWS[0], (1, "\ud800", True, b"", 1)]), lambda: session.get("x"), lambda: session.get(2**70), lambda: session.scan("nothing"),
            lambda: session.sums("by_city", 1, "nothing"), lambda: session.put(columns | {"qty": [None] * len(ROWS)}), lambda: session.batch([client.upsert(1, add={"city": 1})]),
            lambda: client.Session().table("id:int"), lambda: session.upsert_columns({"id": columns["id"]}, add={"qty": 0}, set={"ok": True}),
            lambda: session.upsert_columns({"id": columns["id"]}, add={"qty": columns["city"]}), lambda: session.delete_columns({"id": 99}),
            lambda: session._puts_after(None, 3), lambda: session._puts_after((10**6,), 3), lambda: session._puts_after(("x",), 3), lambda: session._puts_after(1),
        ]  # fmt: skip
        for call in calls:
            for count in (20, 1_000):
                gc.collect()
                before = sys.getallocatedblocks()
                for _ in range(count):
                    fault_of(call)
                gc.collect()
                kept = sys.getallocatedblocks() - before
            self.assertEqual((kept < 500, kept), (True, kept))

    def test_other_threads_run_during_long_calls(self):
        """A thread that notes the time, while rows are put and summed."""
        session = betable().Session()
        session.table("id:int city:text qty:int")
        session.index("by_city", "city", "qty")
        rows = [(number * 7_919 % 1_000_003, f"city{number % 10}", number) for number in range(60_000)]
        times, is_over = [], threading.Event()

        def note():
            while not is_over.wait(0.001):
                times.append(time.perf_counter())

        thread = threading.Thread(target=note)
        thread.start()
        try:
            for call in (lambda: session.put(rows), lambda: session.sums("by_city", 1, "qty"), lambda: session.scan("by_city")):
                spans = []
                for _ in range(40):
                    begin = time.perf_counter()
                    call()
                    spans.append((begin, time.perf_counter()))
                    if any(first + (last - first) / 10 < now < last - (last - first) / 10 for first, last in spans for now in times[-100:]):
                        break
                else:
                    self.assertEqual("no time was noted during a call", "times")
        finally:
            is_over.set()
            thread.join()

    def test_a_package_without_the_extension_goes_by_scripts(self):
        """If the extension is missing or no library. One warning says so."""
        code = "import betable\nfor _ in range(2):\n    session = betable.Session()\n    session.table('id:int')\n    session.put([(1,), (2,)])\n"
        code += "print(betable.session._packed is None, session.scan())\n"

        def printed(folder):
            words = {**os.environ, "BETABLE_LIBRARY": library(), "PYTHONPATH": str(folder)}
            ended = subprocess.run([sys.executable, "-B", "-c", code], capture_output=True, text=True, env=words)
            self.assertEqual(ended.returncode, 0)
            return ended.stdout, ended.stderr.count("RuntimeWarning: the extension betable._packed is not built, so calls on values go by scripts")

        clients = TOP / "clients/python"
        self.assertEqual(printed(clients), ("False [(1,), (2,)]\n", 0))
        with tempfile.TemporaryDirectory() as folder:
            shutil.copytree(clients / "betable", Path(folder) / "betable", ignore=shutil.ignore_patterns("*.so", "__pycache__"))
            shutil.copy(TOP / "VERSION", Path(folder) / "betable/VERSION")
            self.assertEqual(printed(folder), ("True [(1,), (2,)]\n", 1))
            (Path(folder) / "betable/_packed.abi3.so").write_bytes(b"no library")
            self.assertEqual(printed(folder), ("True [(1,), (2,)]\n", 1))

    def test_the_extension_by_itself_says_what_uses_it(self):
        code = "from importlib import util\nspec = util.spec_from_file_location('_packed', PATH)\nmodule = util.module_from_spec(spec)\nspec.loader.exec_module(module)\ncaller = module.Caller()\n"
        code = code.replace("PATH", repr(betable().session._packed.__file__))
        for call in ("get(1)", "put([(1,)])", "scan()", "sums('a', 1, 'b')", "batch([])"):
            with self.subTest(call=call):
                ended = subprocess.run([sys.executable, "-B", "-c", f"{code}caller.{call}\n"], capture_output=True, text=True)
                self.assertEqual(ended.returncode, 1)
                self.assertIn("RuntimeError: betable._packed is used by betable.session", ended.stderr)
        for call in ("_know({})", "_know(5)", "_connect(1)", "_connect(1, 2, 3)", "_connect(1, 2, (1,))", "_connect(1, 2, (1,) * 8, 3)"):
            with self.subTest(call=call):
                ended = subprocess.run([sys.executable, "-B", "-c", f"{code}caller.{call}\n"], capture_output=True, text=True)
                self.assertEqual(ended.returncode, 1)
                self.assertIn("TypeError", ended.stderr)

"""Tests of the program betable_engine and of `betable.Engine`: frames, replies and images beside a session by several crews, changes that are sent ahead, pipes
that are full, threads, memory, and the end of either process.

The program is that of BETABLE_ENGINE, or the one that is built in crates/betable_engine; without it the tests are skipped. Where a test needs an engine that
does something else, a short program takes its place.
"""

import gc
import os
import pickle
import random
import re
import select
import signal
import struct
import subprocess
import sys
import tempfile
import threading
import time
from array import array
from contextlib import contextmanager
from functools import cache
from pathlib import Path
from unittest import SkipTest, TestCase

from .. import frames
from ..crews import CREWS
from ..frames import APPLY, CHECK, COLUMNS, DONE, EXPLAIN, GET, INVALID, LAST_PAGE, PAGE, REFUSED, RESTORE, SCRIPT, SUMS, TREES, USAGE, frame, frames_of
from . import csv_puts, python_changes, python_columns, python_ranges
from .clients import WORKED, betable, build_extension, library
from .common import SECONDS, TOP, fault_of, run
from .durable import folder

SOME_CREWS = [(1, 2, 64), (2, 1, 1), (4, 1, 1), (4, 2, 64), (4, 6, 16)]
TABLE = b"table 4 8 4 1 id:int city:text qty:int\n"
DEFAULT_MOST = 67_108_864


@cache
def program():
    """The path of the program, or None."""
    path = Path(os.environ.get("BETABLE_ENGINE") or TOP / "crates/betable_engine/out") / "betable_engine"
    return path if path.exists() else None


def setUpModule():
    library()
    build_extension()
    if program() is None:
        raise SkipTest("the program betable_engine is not built")


def engine(*words, **named):
    return betable().Engine(*words, **named)


def answered(given, *words):
    """The frames with which the program answers bytes, after which it ends with status 0."""
    ended = subprocess.run([program(), *words], input=given, capture_output=True, timeout=SECONDS)
    if ended.returncode or ended.stderr:
        raise AssertionError((ended.returncode, ended.stderr, ended.stdout[:100]))
    return frames_of(ended.stdout)


def done(text, *commands):
    """The reply to a script: its text, and where the reply to each command ends and what the command did."""
    return DONE, text + b"".join(struct.pack("<QB", *command) for command in commands) + struct.pack("<Q", len(text))


def until(is_so):
    """Waits until something is so."""
    end = time.monotonic() + SECONDS
    while not is_so():
        if time.monotonic() > end:
            raise TimeoutError("it did not come to be")
        time.sleep(0.002)


def has_ended(process):
    """Whether a process is not there, or waits for the one that has started it to take notice."""
    try:
        return Path(f"/proc/{process}/stat").read_text().rpartition(")")[2].split()[0] == "Z"
    except (FileNotFoundError, ProcessLookupError):
        return True


def is_child(process):
    """Whether this process has a child of that number, also one that has ended and was not waited for."""
    try:
        os.waitid(os.P_PID, process, os.WEXITED | os.WNOHANG | os.WNOWAIT)
        return True
    except ChildProcessError:
        return False


def threads_of(process):
    return len(os.listdir(f"/proc/{process}/task"))


def memory_of(process, which):
    """A size of the memory of a process, in KiB."""
    return int(re.search(rf"{which}:\s+(\d+)", Path(f"/proc/{process}/status").read_text())[1])


def processor_seconds(process):
    words = Path(f"/proc/{process}/stat").read_text().rpartition(")")[2].split()
    return (int(words[11]) + int(words[12])) / os.sysconf("SC_CLK_TCK")


@contextmanager
def stopped(process):
    os.kill(process, signal.SIGSTOP)
    try:
        yield
    finally:
        os.kill(process, signal.SIGCONT)


def images(one):
    return one.replies("".join(f"image {tree.name}\n" for tree in one.trees()))


def rows_of(dice, count, keys):
    return [(dice.randrange(keys), dice.choice(["Oslo", "Bergen, west", "", 'a"b', "æøå"]), dice.randrange(-(2**40), 2**40)) for _ in range(count)]


# In place of the program: it reads and writes frames, and `main` says what it does.
OTHER_PROGRAM = """#!{python}
import os, struct, sys, time
def read_all(count):
    found = b""
    while len(found) < count and (some := os.read(0, count - len(found))):
        found += some
    return found
def receive():
    head = read_all(13)
    if not head:
        sys.exit(0)
    length, kind = struct.unpack("<QB", head[4:])
    return kind, read_all(length)
def send(kind, payload=b""):
    out = b"BTF\\1" + struct.pack("<QB", len(payload), kind) + payload
    while out:
        out = out[os.write(1, out):]
def refuse(*numbers):
    send(1, struct.pack("<3Q", *numbers))
def text(word):
    return bytes([len(word)]) + word
def start():
    receive()
    refuse(3, 0, 0)
    receive()
    send(0, b"table 2\\n" + struct.pack("<QBQ", 8, 1, 8))
    receive()
    send(0, b"BTV\\1" + text(b"primary") + struct.pack("<B2Q", 0, 1, 2) + b"\\0" + text(b"id") + b"\\0" + text(b"qty"))
{main}
"""
STARTED = 3  # requests that `start` answers


def started():
    """An engine of the other program, which has a table."""
    one = engine()
    one.replies("table 4 8 4 1 id:int qty:int\n")
    one.trees()
    return one


@contextmanager
def other_program(main):
    """Engines are this program while the context lasts."""
    with tempfile.TemporaryDirectory() as place:
        path = Path(place) / "betable_engine"
        path.write_text(OTHER_PROGRAM.format(python=sys.executable, main=main))
        path.chmod(0o755)
        before = os.environ.get("BETABLE_ENGINE")
        os.environ["BETABLE_ENGINE"] = place
        try:
            yield
        finally:
            os.environ.pop("BETABLE_ENGINE")
            if before is not None:
                os.environ["BETABLE_ENGINE"] = before


class Frames(TestCase):
    """The program by itself."""

    def test_each_kind_of_request_has_its_reply(self):
        put = b"BTV\1\1\0\0\0\0" + struct.pack("<q", 7) + b"\4Oslo" + struct.pack("<q", 30)
        row = put[9:]
        page = struct.pack("<I", 5) + b"\7primary\0\0"
        given = [
            (SCRIPT, TABLE), (CHECK, b"get 7\nget x\ndrop none\n"), (APPLY, put), (GET, b"BTV\1\1\0\0\0" + struct.pack("<q", 7)),
            (GET, b"BTV\1\1\0\0\0" + struct.pack("<q", 8)), (PAGE, b"BTV\1" + page), (LAST_PAGE, b"BTV\1" + page),
            (SUMS, b"BTV\1\0\0\0\0\7primary\3qty\0\0"), (COLUMNS, b"BTV\1\1\0\0\0\7primary"), (USAGE, b"BTV\1\1\0\0\0\7primary"), (TREES, b"BTV\1\0\0\0\0"),
            (EXPLAIN, b"get x\n"), (EXPLAIN, b"get 7\n"), (SCRIPT, b"get 7\nget x\n"), (GET, b"BTV\2"),
        ]  # fmt: skip
        columns = b"\0\2id\1\4city\0\3qty"
        wanted = [
            done(b"table 3\n", (8, 1)), done(b"", (0, 0), (0, 2), (0, 2)), (DONE, b""), (DONE, b"BTV\1" + row), (DONE, b"BTV\1"), (DONE, b"BTV\1" + row),
            (DONE, b"BTV\1" + row), (DONE, b"BTV\1" + struct.pack("<QqQ", 1, 30, 0)), (DONE, b"BTV\1" + struct.pack("<Q", 1) + columns),
            (DONE, b"BTV\1" + struct.pack("<3Q", 0, 1, 1)), (DONE, b"BTV\1\7primary\0" + struct.pack("<2Q", 1, 3) + columns),
            (DONE, struct.pack("<4Q", 6, 1, 1, 2)), (DONE, b""), done(b"row 7,Oslo,30\nrefused 6 BadField 1\n", (14, 0), (35, 2)),
            (REFUSED, struct.pack("<3Q", 1, 0, 0)),
        ]  # fmt: skip
        found = answered(b"".join(frame(*one) for one in given))
        usage = found.pop(9), wanted.pop(9)
        self.assertEqual(found, wanted)
        self.assertEqual(sum(struct.unpack("<3Q", usage[0][1][4:])[:2]), 1)  # the row is in a leaf, or in a buffer

    def test_a_frame_that_is_cut_at_any_byte_is_told(self):
        first, second = frame(SCRIPT, TABLE), frame(SCRIPT, b"get 1\n")
        for count in range(len(second) + 1):
            with self.subTest(count=count):
                found = answered(first + second[:count])
                last = [] if count == 0 else [done(b"none\n", (5, 0))] if count == len(second) else [(INVALID, b"CutOff")]
                self.assertEqual(found, [done(b"table 3\n", (8, 1)), *last])

    def test_bytes_that_are_no_frame_end_the_program_after_its_reply(self):
        first, last = frame(SCRIPT, TABLE), frame(SCRIPT, b"get 1\n")
        dice = random.Random(1)
        wrong = [b"BTF\2" + last[4:], b"BTV\1" + last[4:], b"\0" * 13, b"get 1\nget 2\nget 3\n", last[1:], b"\n" + last]
        wrong += [b"x" + dice.randbytes(40) for _ in range(5)]
        for place in range(4):
            wrong.append(last[:place] + bytes([last[place] ^ 1]) + last[place + 1 :])
        for garbage in wrong:
            with self.subTest(garbage=garbage):
                self.assertEqual(answered(first + garbage + last), [done(b"table 3\n", (8, 1)), (INVALID, b"NoFrame")])

    def test_a_kind_that_is_unknown_is_answered_and_the_next_request_too(self):
        unknown = [kind for kind in range(256) if not SCRIPT <= kind <= EXPLAIN and kind != RESTORE]
        given = b"".join(frame(kind, TABLE) + frame(SCRIPT, b"get 1\n") for kind in unknown)
        wanted = [(INVALID, b"UnknownKind"), done(b"refused 3 NoTable\n", (18, 2))] * len(unknown)
        self.assertEqual(answered(given), wanted)

    def test_a_request_over_the_limit_is_passed_over(self):
        script = TABLE + b"get 1\n"
        at_most = [done(b"table 3\nnone\n", (8, 1), (13, 0)), done(b"none\n", (5, 0))]
        for most, wanted in ((len(script), at_most), (len(script) - 1, [(INVALID, b"TooLong"), done(b"refused 3 NoTable\n", (18, 2))])):
            self.assertEqual(answered(frame(SCRIPT, script) + frame(SCRIPT, b"get 1\n"), "--most-frame", str(most)), wanted)

    def test_a_request_of_the_default_limit_is_carried_out(self):
        head = TABLE + b"load\nid,city,qty\n"
        size = DEFAULT_MOST - len(head) - 2
        records = [b"%d,%b,1\n" % (number, b"x" * 230) for number in range(size // 260)]
        last = b"%d,%b,1\n" % (10**9, b"y" * 200)
        rest = size - sum(map(len, records)) - len(last)
        # Each further record is one with other lengths of its text, so that the script has just as many bytes.
        number = 10**8
        while rest:
            count = rest if rest <= 240 else 120
            records.append(b"%d,%b,1\n" % (number, b"z" * (count - 13)))
            number, rest = number + 1, rest - count
        script = b"".join([head, *records, last, b".\n"])
        self.assertEqual(len(script), DEFAULT_MOST)
        (kind, payload), too_long = answered(frame(SCRIPT, script) + frame(SCRIPT, script + b"\n"))
        text = b"table 3\nloaded %d\n" % (len(records) + 1)
        self.assertEqual(((kind, payload[: len(text)]), too_long), ((DONE, text), (INVALID, b"TooLong")))

    def test_a_payload_that_does_not_arrive_takes_no_memory(self):
        """Its length is that of the largest one that is allowed, and ten bytes of it arrive."""
        words = [program(), "--most-frame", str(1 << 40)]
        with subprocess.Popen(words, stdin=subprocess.PIPE, stdout=subprocess.PIPE) as process:
            process.stdin.write(frames.MAGIC + struct.pack("<QB", 1 << 40, SCRIPT) + b"0123456789")
            process.stdin.flush()
            time.sleep(0.5)
            most = memory_of(process.pid, "VmHWM")
            output = process.communicate(timeout=SECONDS)[0]
        self.assertEqual((frames_of(output), process.returncode), ([(INVALID, b"CutOff")], 0))
        self.assertLess(most, 64 << 10)

    def test_each_reply_is_written_before_the_next_request_is_read(self):
        with subprocess.Popen([program()], stdin=subprocess.PIPE, stdout=subprocess.PIPE, bufsize=0) as process:
            for script, text in ((TABLE, b"table 3\n"), (b"get 1\n", b"none\n"), (b"get x\n", b"refused 6 BadField 1\n")):
                process.stdin.write(frame(SCRIPT, script))
                reply = b""
                while len(reply) < 13 or len(reply) < 13 + int.from_bytes(reply[4:12], "little"):
                    self.assertEqual(select.select([process.stdout], [], [], SECONDS)[0], [process.stdout])
                    reply += process.stdout.read(1 << 16)
                ((_, payload),) = frames_of(reply)
                self.assertEqual(payload[: len(text)], text)
            process.stdin.close()
            self.assertEqual(process.wait(SECONDS), 0)


class BesideASession(TestCase):
    def test_worked_scripts_have_their_replies_by_all_crews(self):
        status, text, errors = run("tools/every_crew", "--engine", "--program", str(program()), "examples", "crates/test_scripts/data", seconds=1800)
        self.assertEqual((status, errors, text.splitlines()[-1].split(", ")[-1]), (0, "", "0 faults"))

    def test_worked_scripts_have_the_images_and_reasons_of_a_session(self):
        """And the places of their replies, and the checks of their commands, before each of which the script has not been run."""
        scripts = sorted(path.with_suffix("") for path in WORKED.glob("*.stdout"))
        self.assertGreater(len(scripts), 50)
        for crew in SOME_CREWS:
            for path in scripts:
                script = path.read_bytes()
                with self.subTest(crew=crew, script=path.name), engine(crew[0], cut=crew[1], grain=crew[2]) as one, betable().Session() as session:
                    self.assertEqual((one.check(script), one.explain(script)), (session.check(script), session.explain(script)))
                    found = one._replies_with_places(script)
                    self.assertEqual(found, session._replies_with_places(script))
                    self.assertEqual(found[0], path.with_suffix(".stdout").read_bytes())
                    first = b"\n".join(script.split(b"\n")[:1] + [b""])
                    self.assertEqual(one.replies(first), session.replies(first))
                    self.assertEqual((one.trees(), images(one)), (session.trees(), images(session)))

    def test_calls_on_values_have_the_results_of_a_session_by_all_crews(self):
        with betable().Session() as session:
            expected = [(call(session), images(session)) for call in self.calls()]
        for crew in CREWS:
            with self.subTest(crew=crew), engine(crew[0], cut=crew[1], grain=crew[2]) as one:
                for number, (call, results) in enumerate(zip(self.calls(), expected)):
                    self.assertEqual((call(one), images(one)), results, number)

    def calls(self):
        """Changes of each kind, and after some of them reads of each kind."""
        client, dice = betable(), random.Random(7)
        some = [rows_of(dice, count, 3_000) for count in (1, 2_000, 700, 5_000)]
        ids = array("q", [dice.randrange(3_000) for _ in range(800)])
        kinds = [
            lambda row: client.put(*row), lambda row: client.delete(row[0]), lambda row: client.upsert(row[0], add={"qty": 5}, set={"city": "new\nline"}),
            lambda row: client.upsert(row[0], max={"qty": 9}),
        ]  # fmt: skip
        messages = [dice.choice(kinds)(row) for row in rows_of(dice, 1_500, 3_000)]
        reads = [
            lambda s: [s.get(key) for key in range(0, 3_000, 37)],
            lambda s: s.scan("by_city", ("Bergen, west",), ("Oslo",)),
            lambda s: s.scan("by_qty", limit=10, newest_first=True),
            lambda s: s.scan(limit=7, after=(1_000,)),
            lambda s: list(s.iterate("by_city", page=700)),
            lambda s: list(s.iterate("primary", (100,), (2_000,), page=333, newest_first=True)),
            lambda s: s.sums("by_city", 1, "qty"),
            lambda s: (s.sums("by_qty", 0, "qty", (0,)), s.count(), s.count("by_qty", None, (0,))),
            lambda s: s.scan_columns("by_city", ("Oslo",)),
            lambda s: (s.columns("by_city"), s.usage("by_qty"), s.trees(), s.is_lost),
            lambda s: s.run("get 5\nscan by_city\ngo\n")[1].rows,
        ]
        return [
            lambda s: s.table("id:int city:text qty:int", fanout=4, buffer=16, leaf=8),
            lambda s: s.index("by_city", on="city", include="qty"),
            lambda s: s.index("by_qty", on="qty", where=("qty", ">=", -(2**39))),
            *(lambda s, rows=rows: s.put(rows) for rows in some),
            *reads,
            lambda s: s.put(iter(some[3]), most=600),
            lambda s: s.put({"id": ids, "city": ["by columns"] * len(ids), "qty": list(range(len(ids)))}, most=100),
            lambda s: s.batch(messages),
            lambda s: s.batch(messages, most=99),
            *reads,
            lambda s: s.upsert_columns({"id": ids}, add={"qty": 3}, most=300),
            lambda s: s.upsert_rows([(key, 7, "Alta") for key in ids], set=["qty", "city"], most=250),
            lambda s: s.delete_columns({"id": ids[:50]}),
            lambda s: (s.upsert(5, add={"qty": 1}), s.delete(6)),
            lambda s: s.delete_range("by_city", ("Oslo",), most=200),
            lambda s: s.rebuild("by_city"),
            *reads,
        ]

    def test_loads_and_files_have_the_results_of_a_session(self):
        with tempfile.TemporaryDirectory() as place:
            found = []
            for make in (lambda: engine(4), betable().Session):
                with make() as one:
                    one.table("id:int city:text qty:int")
                    one.load((number, "a,b", number) for number in range(3_000))
                    path = Path(place) / f"{len(found)}.csv"
                    count = one.to_csv(path)
                    with make() as other:
                        other.table("id:int city:text qty:int")
                        loaded, put = other.load_csv(path), other.put_csv(path, most=700)
                        found.append((count, loaded, put, images(one), images(other)))
            self.assertEqual(found[0][:3], (3_000, 3_000, 3_000))
            self.assertEqual(*found)

    def test_a_put_of_many_rows_gives_the_images_of_a_session(self):
        """Three batches and a part, of rows and of columns, with two indexes."""
        dice = random.Random(3)
        rows = rows_of(dice, 220_000, 1 << 40)
        found = []
        for one in (engine(4), betable().Session()):
            with one:
                one.table("id:int city:text qty:int")
                one.index("by_qty", on="qty")
                one.index("by_city", on="city", include="qty")
                counts = one.put(iter(rows)), one.put({"id": array("q", range(200_000)), "city": ["Oslo"] * 200_000, "qty": array("q", range(200_000))})
                found.append((counts, one.count(), one.sums("by_city", 1, "qty"), images(one)))
        self.assertEqual(found[0][0], (220_000, 200_000))
        self.assertEqual(found[0] == found[1], True)

    def test_a_wrong_row_of_a_later_batch_is_told_as_by_a_session(self):
        wrong = [
            lambda n: (n, "a", "x" if n == 250 else 1), lambda n: (n, "a", 2**63 if n == 250 else 1), lambda n: (n, "x" * 256 if n == 250 else "a", 1),
            lambda n: (n, "a") if n == 250 else (n, "a", 1), lambda n: (n, "a", 0 // (n - 250)),
        ]  # fmt: skip
        for number, row in enumerate(wrong):
            found = []
            for one in (engine(2), betable().Session()):
                with self.subTest(number=number), one:
                    one.table("id:int city:text qty:int")
                    fault = fault_of(lambda: one.put((row(n) for n in range(400)), most=100))
                    found.append((type(fault), str(fault), getattr(fault, "row", None), getattr(fault, "taken", None), one.scan()))
            self.assertEqual(found[0], found[1])
            self.assertEqual(len(found[0][4]), 200)

    def test_without_the_extension_calls_go_by_scripts(self):
        code = (
            "import sys, warnings\nsys.modules['betable._packed'] = None\nimport betable\nwith warnings.catch_warnings(record=True) as told:\n"
            "    warnings.simplefilter('always')\n    engine = betable.Engine(2)\nwith engine as one:\n    one.table('id:int qty:int')\n"
            "    print(one.put((n, n) for n in range(70_000)), one.get(5), one.count(), one.sums('primary', 0, 'qty'), [w.category.__name__ for w in told])\n"
        )
        ended = subprocess.run([sys.executable, "-B", "-c", code], capture_output=True, text=True, env=environment(), timeout=SECONDS)
        self.assertEqual((ended.stderr, ended.stdout), ("", "70000 (5, 5) 70000 [(70000, 2449965000)] ['RuntimeWarning']\n"))


def environment():
    return {**os.environ, "BETABLE_LIBRARY": library(), "BETABLE_ENGINE": str(program().parent), "PYTHONPATH": str(TOP / "clients/python")}


def by_engine(case):
    """A class of tests of sessions, with engines in their place."""

    def put_in_place(self):
        client = betable()
        for holder in (client, client.session):
            self.addCleanup(setattr, holder, "Session", holder.Session)
            holder.Session = client.Engine
        case.setUp(self)

    return type(f"{case.__name__}ByEngine", (case,), {"setUp": put_in_place, "__module__": __name__, "__doc__": case.__doc__})


for _module in (python_changes, python_columns, python_ranges, csv_puts):
    for _case in [one for one in vars(_module).values() if isinstance(one, type) and issubclass(one, TestCase) and one.__module__ == _module.__name__]:
        globals()[f"{_case.__name__}ByEngine"] = by_engine(_case)
del _case


class Pipes(TestCase):
    def test_the_next_batch_is_sent_before_the_reply_to_the_one_before(self):
        """The engine here replies to the first changes once it has the second ones."""
        with other_program("start()\nreceive(), receive()\nsend(0), send(0)\nreceive()\nsend(0)\nreceive()\n"), within(60), started() as one:
            self.assertEqual(one.put(((n, n) for n in range(30)), most=10), 30)

    def test_a_refusal_tells_what_was_applied_after_it(self):
        """The engine here refuses the second of three batches, of which the third one was sent before the reply to the second."""
        main = "start()\nreceive()\nsend(0)\nreceive(), receive()\nrefuse(6, 3, 2)\nsend({})\nreceive()\n"
        for status, later in (("0", 10), ("1, struct.pack('<3Q', 6, 1, 1)", 0)):
            with other_program(main.format(status)), within(60), started() as one:
                fault = fault_of(lambda: one.put(((n, n) for n in range(30)), most=10))
                self.assertEqual((type(fault), fault.number, fault.item, fault.row, fault.taken, fault.later), (betable().Refused, 6, 3, 13, 10, later))
                self.assertEqual("(10 rows of this call were applied after it, in a batch that was sent ahead)" in str(fault), later > 0)
                same = pickle.loads(pickle.dumps(fault))
                self.assertEqual((str(same), same.later), (str(fault), later))

    def test_pipes_that_are_full_both_ways_do_not_stop_either_process(self):
        """Requests of several MiB, each sent while the reply to the one before, of several MiB too, is not read."""
        text = b"get %d\n"
        script = b"".join(text % number for number in range(200_000))
        with within(SECONDS), engine(2) as one:
            one.table("id:int city:text")
            one.put((number, "a" * 40) for number in range(200_000))
            wanted = one._ran(script, True)
            self.assertGreater(len(wanted[0]), 8 << 20)
            calls = one._bytes
            asked = [calls._add(SCRIPT, script) for _ in range(6)]
            for reply in reversed(asked):
                self.assertEqual(calls._take_marks(calls._reply(reply)[1]) == wanted[0], True)
            self.assertEqual((len(calls._asked), one.get(5)), (0, (5, "a" * 40)))

    def test_a_reply_in_single_bytes_is_read(self):
        """Of which each arrives by itself."""
        main = (
            "start()\nreceive()\nfor byte in b'BTF\\1' + struct.pack('<QB', 12, 0) + b'text' + struct.pack('<Q', 4):\n"
            "    os.write(1, bytes([byte]))\n    time.sleep(0.001)\nreceive()\nsend(0, b'more' + struct.pack('<Q', 4))\nreceive()\n"
        )
        with other_program(main), within(60), started() as one:
            self.assertEqual((one.replies("get 1\n"), one.replies("get 1\n")), (b"text", b"more"))

    def test_interrupts_leave_an_engine_free_and_its_replies_in_order(self):
        code = INTERRUPTED
        ended = subprocess.run([sys.executable, "-B", "-c", code], capture_output=True, text=True, env=environment(), timeout=SECONDS)
        self.assertEqual((ended.returncode, ended.stderr), (0, ""))
        count, wrong, rest = ended.stdout.split(" ", 2)
        self.assertEqual((int(count) > 1_400, wrong, rest), (True, "0", "65536 True None\n"))

    def test_a_call_during_another_one_is_refused(self):
        with engine(2) as one:
            one.table("id:int qty:int")
            one.put([(1, 1)])
            found = []
            with stopped(one.pid):
                thread = threading.Thread(target=lambda: found.append(fault_of(lambda: found.append(one.get(1)))))
                thread.start()
                until(lambda: one._lock.locked())
                calls = [lambda: one.get(1), lambda: one.put([(2, 2)]), lambda: one.scan(), lambda: one.replies("get 1\n"), lambda: one.is_lost, one.close]
                faults = [fault_of(call) for call in calls]
                self.assertEqual(repr(one), "<betable.Engine, open, in a call>")
            thread.join(SECONDS)
            self.assertEqual({type(fault) for fault in faults}, {RuntimeError})
            self.assertIn("one call at a time", str(faults[0]))
            self.assertEqual((found, one.scan()), ([(1, 1), None], [(1, 1)]))

    def test_waiting_takes_no_time_of_a_processor(self):
        """Of the engine between two requests, of a call that waits for its reply, and of one that waits until its request can be sent."""
        with engine(4) as one:
            one.table("id:int qty:int")
            one.put((n, n) for n in range(100_000))
            before = processor_seconds(one.pid)
            time.sleep(0.5)
            self.assertLess(processor_seconds(one.pid) - before, 0.1)
            for call in (lambda: one.get(1), lambda: one.replies("get 1\n" * 1_000_000)):
                with stopped(one.pid):
                    thread = threading.Thread(target=call)
                    thread.start()
                    time.sleep(0.3)
                    before = time.process_time()
                    time.sleep(0.5)
                    waited = time.process_time() - before
                thread.join(SECONDS)
                self.assertLess(waited, 0.1)

    def test_memory_does_not_grow_with_the_requests(self):
        with engine(2) as one:
            one.table("id:int qty:int")
            rows = [(number, number) for number in range(20_000)]
            sizes = []
            for _ in range(4):
                for _ in range(25):
                    one.put(rows)
                    one.scan(limit=20_000)
                sizes.append((memory_of(one.pid, "VmRSS"), memory_of(os.getpid(), "VmRSS")))
            self.assertLess(max(sizes[-1][0] - sizes[0][0], sizes[-1][1] - sizes[0][1]), 8 << 10)
            self.assertEqual((len(one._bytes._asked), one._bytes.answered > 200), (0, True))


INTERRUPTED = """
import signal
import betable

def interrupt(number, frame):
    raise KeyboardInterrupt

engine, count, wrong = betable.Engine(2), 0, 0
engine.table("id:int qty:int")
engine.put([(number, number) for number in range(100)])
signal.signal(signal.SIGALRM, interrupt)
for number in range(1500):
    try:
        signal.setitimer(signal.ITIMER_REAL, 0.00004 + number % 297 * 1e-6)
        for step in range(10_000):
            key = step % 100
            found = engine.get(key), engine.replies("get %d\\n" % key), engine.sums("primary", 1, "qty", (key,), (key + 1,))
            wrong += found != ((key, key), b"row %d,%d\\n" % (key, key), [(1, key, key)])
    except KeyboardInterrupt:
        count += 1
rows = [(number, number) for number in range(65_536)]
for number in range(40):
    try:
        signal.setitimer(signal.ITIMER_REAL, 0.0005 + number * 5e-4)
        while True:
            engine.put(rows)
            wrong += len(engine.scan()) != len(rows)
    except KeyboardInterrupt:
        count += 1
print(count, wrong, engine.count(), engine.scan() == rows, engine.close())
"""


@contextmanager
def within(seconds):
    """Ends what is done in the context after some seconds, as if by an interrupt."""

    def late(number, frame):
        raise TimeoutError("it waits for ever")

    before = signal.signal(signal.SIGALRM, late)
    signal.alarm(seconds)
    try:
        yield
    finally:
        signal.alarm(0)
        signal.signal(signal.SIGALRM, before)


class Threads(TestCase):
    def test_an_engine_has_as_many_threads_as_workers_while_it_works(self):
        """With one worker there is never a second thread. With more, one that has just ended may be there beside those of the next job."""
        for workers, most in ((1, {1}), (2, {2, 3}), (4, {4, 5})):
            with engine(workers, cut=1, grain=1) as one:
                one.table("id:int qty:int")
                for name in ("first", "second"):
                    one.index(name, on="qty")
                dice = random.Random(1)
                rows = [(dice.randrange(1 << 40), dice.randrange(1 << 40)) for _ in range(60_000)]
                one.put(rows)
                seen, is_over = set(), threading.Event()

                def looks():
                    while not is_over.is_set():
                        seen.add(threads_of(one.pid))

                thread = threading.Thread(target=looks)
                thread.start()
                try:
                    for _ in range(5):
                        one.put(rows)
                        one.sums("first", 1, "qty")
                finally:
                    is_over.set()
                    thread.join()
                self.assertEqual((workers in seen, max(seen) in most), (True, True), seen)

    def test_refused_memory_ends_an_engine_after_whole_replies(self):
        """Each request for memory and each start of a thread, refused in turn, in the program and in the engine."""
        status, text, errors = run("tools/refused_allocations/run", "crates/betable/out/betable", str(program()), seconds=1800)
        self.assertEqual((status, errors), (0, ""))
        self.assertIn("; fault: 0", text)

    def test_small_requests_start_no_thread(self):
        with engine(4) as one:
            one.table("id:int qty:int")
            one.put([(number, number) for number in range(1_000)])
            # A thread of the first put may still be ending.
            until(lambda: threads_of(one.pid) == 1)
            for number in range(200):
                one.get(number)
                one.put([(number, 1)])
            self.assertEqual(threads_of(one.pid), 1)


CALLER = """
import sys, time
import betable
one = betable.Engine(2)
one.table("id:int qty:int")
print(one.pid, flush=True)
{then}
"""


class Ends(TestCase):
    def test_a_killed_engine_is_told_by_each_call(self):
        client = betable()
        calls = [
            lambda s: s.get(1), lambda s: s.put([(1, 1)]), lambda s: s.put((n, n) for n in range(3)), lambda s: s.batch([client.delete(1)]), lambda s: s.scan(),
            lambda s: s.scan_columns(), lambda s: s.sums("primary", 1, "qty"), lambda s: s.count(), lambda s: s.usage(), lambda s: s.columns(),
            lambda s: s.run("get 1\n"), lambda s: s.replies("get 1\n"), lambda s: s.check("get 1\n"), lambda s: s.explain("get 1\n"),
        ]  # fmt: skip
        for number, call in enumerate(calls):
            with self.subTest(number=number), engine(2) as one:
                one.table("id:int qty:int")
                one.put([(5, 5)])
                answered = one._bytes.answered
                os.kill(one.pid, signal.SIGKILL)
                fault = fault_of(lambda: call(one))
                found = fault.status, fault.signal, fault.answered - answered, fault.taken
                self.assertEqual((type(fault), found), (client.EngineEnded, (None, 9, 0, 0)))
                self.assertIn("the engine ended by the signal SIGKILL, after ", str(fault))
                self.assertEqual((one.is_lost, is_child(one.pid), has_ended(one.pid)), (True, False, True))
                self.assertEqual([type(fault_of(lambda: again(one))) for again in [*calls, lambda s: s.trees()]], [client.EngineEnded] * (len(calls) + 1))
                same = pickle.loads(pickle.dumps(fault))
                self.assertEqual((str(same), vars(same)), (str(fault), vars(fault)))
            self.assertEqual(type(fault_of(lambda: call(one))), ValueError)

    def test_an_engine_that_is_killed_in_a_put_tells_how_many_rows_were_applied(self):
        """The engine here replies to two batches, and has a third one and a part of the fourth."""
        main = "start()\nreceive()\nsend(0)\nreceive()\nsend(0)\nreceive()\nos.kill(os.getpid(), 9)\n"
        with other_program(main), within(60), started() as one:
            fault = fault_of(lambda: one.put(((n, n) for n in range(500_000)), most=65_536))
            self.assertEqual((type(fault), fault.signal, fault.answered, fault.taken), (betable().EngineEnded, 9, STARTED + 2, 131_072))
            self.assertIn("(131,072 rows of this call were applied before it, in earlier batches)", str(fault))

    def test_replies_that_were_written_before_the_end_count(self):
        """The engine here ends after its reply to the first batch, before the second one is sent, which fails."""

        def rows():
            for number in range(30):
                if number == 10:
                    time.sleep(0.5)
                yield number, number

        with other_program("start()\nreceive()\nsend(0)\nsys.exit(3)\n"), within(60), started() as one:
            fault = fault_of(lambda: one.put(rows(), most=10))
            self.assertEqual((type(fault), fault.status, fault.answered, fault.taken), (betable().EngineEnded, 3, STARTED + 1, 10))

    def test_an_engine_that_ends_by_itself_tells_its_status_and_what_it_has_said(self):
        for main, fields in (
            ("start()\nreceive()\nos.write(2, b'betable: write failed\\n')\nsys.exit(1)\n", (1, None, STARTED, "betable: write failed")),
            ("start()\nreceive()\nsend(0)\nsys.exit(0)\n", (0, None, STARTED + 1, "")),
            ("sys.exit(2)\n", (2, None, 0, "")),
            ("start()\nos.close(1)\ntime.sleep(0.1)\nsys.exit(7)\n", (7, None, STARTED, "")),
        ):
            with self.subTest(main=main), other_program(main), within(60):
                fault = fault_of(lambda: started().put(((n, n) for n in range(30)), most=10))
                found = fault.status, fault.signal, fault.answered, fault.said
                self.assertEqual((type(fault), found), (betable().EngineEnded, fields))

    def test_an_engine_without_memory_is_told_as_such(self):
        main = "start()\nreceive()\nsend(0)\nreceive()\nos.write(2, b'betable: out of memory\\n')\nsys.exit(1)\n"
        with other_program(main), within(60), started() as one:
            fault = fault_of(lambda: one.put(((n, n) for n in range(30)), most=10))
            self.assertEqual((type(fault), fault.is_lost, fault.taken, fault.replies), (betable().OutOfMemory, True, 10, b""))
            self.assertEqual((one.is_lost, type(fault_of(lambda: one.get(1)))), (True, betable().OutOfMemory))

    def test_what_is_no_engine_is_told(self):
        for main in ("os.write(1, b'Hello, this is another program\\n')\ntime.sleep(60)\n", "receive()\nsend(2, b'UnknownKind')\ntime.sleep(60)\n"):
            with self.subTest(main=main), other_program(main), within(60):
                self.assertEqual(type(fault_of(engine)), RuntimeError)
        with tempfile.TemporaryDirectory() as place:
            before = os.environ.get("BETABLE_ENGINE")
            os.environ["BETABLE_ENGINE"] = place
            try:
                fault = fault_of(engine)
            finally:
                os.environ.pop("BETABLE_ENGINE") if before is None else os.environ.update(BETABLE_ENGINE=before)
            self.assertEqual((type(fault), place in str(fault), "BETABLE_ENGINE" in str(fault)), (FileNotFoundError, True, True))

    def test_closing_ends_the_process_and_leaves_none(self):
        one = engine(2)
        one.table("id:int qty:int")
        one.put((number, number) for number in range(100_000))
        process = one.pid
        self.assertEqual((is_child(process), has_ended(process)), (True, False))
        one.close()
        self.assertEqual((is_child(process), has_ended(process), repr(one)), (False, True, "<betable.Engine, closed>"))
        one.close()
        self.assertEqual([type(fault_of(call)) for call in (lambda: one.get(1), lambda: one.is_lost, one.trees)], [ValueError] * 3)

    def test_an_engine_that_is_dropped_ends(self):
        one = engine(2)
        process = one.pid
        one.table("id:int qty:int")
        del one
        gc.collect()
        self.assertEqual((is_child(process), has_ended(process)), (False, True))

    def test_a_caller_that_dies_ends_its_engine(self):
        """By a signal, while it waits and in the middle of a large put, and at the end of its program, where it does not close the engine."""
        for then, number in (
            ("time.sleep(600)", signal.SIGKILL), ("while True: one.put((n, n) for n in range(300_000))", signal.SIGKILL), ("time.sleep(600)", signal.SIGTERM),
            ("sys.exit(0)", None),
        ):  # fmt: skip
            with self.subTest(then=then):
                words = [sys.executable, "-B", "-c", CALLER.format(then=then)]
                with subprocess.Popen(words, stdout=subprocess.PIPE, stderr=subprocess.PIPE, env=environment()) as caller:
                    process = int(caller.stdout.readline())
                    if number is not None:
                        time.sleep(0.3)
                        self.assertEqual(has_ended(process), False)
                        caller.send_signal(number)
                    self.assertEqual((caller.wait(SECONDS), caller.stderr.read()), (0 if number is None else -number, b""))
                until(lambda: has_ended(process))

    def test_an_interrupt_of_the_terminal_does_not_end_the_engine(self):
        """It goes to each process of the group that is in the foreground."""
        # As in a shell, also where the tests run with interrupts ignored.
        then = "import signal\nsignal.signal(signal.SIGINT, signal.default_int_handler)\n"
        then += "try:\n    time.sleep(600)\nexcept KeyboardInterrupt:\n    one.put([(1, 1)])\n    print(one.get(1), flush=True)\n    one.close()"
        words = [sys.executable, "-B", "-c", CALLER.format(then=then)]
        with subprocess.Popen(words, stdout=subprocess.PIPE, text=True, env=environment(), process_group=0) as caller:
            caller.stdout.readline()
            time.sleep(0.2)
            os.killpg(caller.pid, signal.SIGINT)
            self.assertEqual((caller.stdout.readline(), caller.wait(SECONDS)), ("(1, 1)\n", 0))

    def test_a_forked_child_leaves_the_engine_to_its_parent(self):
        one = engine(2)
        one.table("id:int qty:int")
        one.put([(1, 1)])
        begin, end = os.pipe()
        child = os.fork()
        if child == 0:
            faults = [type(fault_of(call)).__name__ for call in (lambda: one.get(1), lambda: one.put([(2, 2)]), one.trees, lambda: one.replies("get 1\n"))]
            one.close()
            del one
            gc.collect()
            os.write(end, " ".join(faults).encode())
            time.sleep(600)
            os._exit(0)
        try:
            self.assertEqual(os.read(begin, 1_000).decode().split(), ["RuntimeError"] * 4)
            self.assertEqual((one.get(1), one.scan()), ((1, 1), [(1, 1)]))
            # The child has no copy of the pipe, which would keep the engine running.
            process = one.pid
            with within(60):
                one.close()
            self.assertEqual((has_ended(process), has_ended(child)), (True, False))
        finally:
            os.kill(child, signal.SIGKILL)
            os.waitpid(child, 0)
            os.close(begin)
            os.close(end)

    def test_a_forked_child_that_ends_as_a_program_does_leaves_the_engine(self):
        then = "import os\nchild = os.fork()\nif child == 0:\n    sys.exit(0)\nos.waitpid(child, 0)\n"
        then += "print(one.put([(1, 1)]), one.get(1), flush=True)\none.close()\n"
        ended = subprocess.run([sys.executable, "-B", "-c", CALLER.format(then=then)], capture_output=True, text=True, env=environment(), timeout=SECONDS)
        self.assertEqual((ended.returncode, ended.stderr, ended.stdout.split("\n", 1)[1]), (0, "", "1 (1, 1)\n"))

    def test_other_programs_that_are_started_do_not_have_the_pipes(self):
        with engine(2) as one, subprocess.Popen(["sleep", "600"], close_fds=False) as other:
            try:
                process = one.pid
                with within(60):
                    one.close()
                self.assertEqual((has_ended(process), other.poll()), (True, None))
            finally:
                other.kill()

    def test_arguments_that_are_wrong_start_nothing(self):
        wrong = [((0,), {}), ((65,), {}), (("4",), {}), ((True,), {}), ((4,), {"cut": 7}), ((4,), {"grain": 0}), ((4,), {"most_frame": 0})]
        wrong.append(((4,), {"grain": 65_537}))
        for words, named in wrong:
            self.assertIn(type(fault_of(lambda: engine(*words, **named))), (ValueError, TypeError), (words, named))
        for words, named in (((1,), {"cut": 6, "grain": 65_536, "most_frame": 1 << 40}), ((64,), {"cut": 1, "grain": 1})):
            engine(*words, **named).close()

    def test_a_request_over_the_limit_is_not_sent(self):
        with engine(2, most_frame=1_000) as one:
            one.table("id:int qty:int")
            script = "get 1\n" * 200
            fault = fault_of(lambda: one.replies(script))
            self.assertEqual((type(fault), "1,200" in str(fault)), (ValueError, True))
            self.assertEqual((type(fault_of(lambda: one.put((n, n) for n in range(100)))), one.count()), (ValueError, 0))
            self.assertEqual((one.put((n, n) for n in range(50)), one.count()), (50, 50))


class Kept(TestCase):
    def test_an_engine_that_was_killed_goes_on_from_its_file(self):
        with folder() as path:
            kept = path / "table of rows"
            rows = rows_of(random.Random(86), 5_000, 2_000)
            with betable().Session() as session:
                for one in (session, first := engine(4, keep=kept)):
                    one.table("id:int city:text qty:int")
                    one.index("by_city", on="city")
                    one.put(rows)
                os.kill(first.pid, signal.SIGKILL)
                fault = fault_of(lambda: first.get(1))
                self.assertEqual((type(fault), fault.signal, fault.kept, str(kept) in str(fault)), (betable().EngineEnded, signal.SIGKILL, str(kept), True))
                with engine(2, keep=kept) as second:
                    self.assertEqual(second.trees(), session.trees())
                    self.assertTrue((second.scan(), images(second)) == (session.scan(), images(session)))
                    fault = fault_of(lambda: engine(1, keep=str(kept)))
                    self.assertEqual((fault.status, fault.said, fault.answered), (2, "betable: the file is in use", 0))

    def test_a_request_runs_once(self):
        with folder() as path:
            script = "batch\nups 1,add,qty,5\nend\nget 1\n"
            with engine(2, keep=path / "t") as first:
                first.table("id:int qty:int")
                replies = first.once("order 17", script)
                self.assertEqual((replies, first.once("order 17", script)), (b"batch 1\nrow 1,5\n", replies))
                os.kill(first.pid, signal.SIGKILL)
            with engine(1, keep=path / "t") as second:
                self.assertEqual((second.once("order 17", script), second.get(1)), (replies, (1, 5)))
                fault = fault_of(lambda: second.once("order 17", script + "get 1\n"))
                self.assertEqual((type(fault), fault.request_id, second.get(1)), (betable().RequestReused, "order 17", (1, 5)))
                self.assertEqual(second.once("order 18", script), b"batch 1\nrow 1,10\n")
                second.once("another table", "index by_qty on qty\nbuild by_qty 5\n")
                self.assertEqual([tree.name for tree in second.trees()], ["primary", "by_qty"])
                self.assertEqual(type(fault_of(lambda: second.once(17, script))), TypeError)
            with engine(1) as third:
                fault = fault_of(lambda: third.once("order 17", script))
                self.assertEqual((type(fault), "'keep'" in str(fault), len(third.trees())), (ValueError, True, 0))

    def test_an_engine_without_its_file_is_told(self):
        with folder() as path:
            fault = fault_of(lambda: engine(1, keep=path / "none" / "table"))
            self.assertEqual((type(fault), fault.status, fault.said), (betable().EngineEnded, 2, "betable: the file cannot be opened"))

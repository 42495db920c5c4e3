"""Tests of tables in files of this process, by the clients in C, Rust and Python: the tests of `betable_engine --keep` on programs that do the same by them, and
files that one of them writes and another one opens. They need the program betable_engine too, and do not build it."""

import ctypes
import errno
import os
import pickle
import re
import shutil
import signal
import subprocess
import sys
import tempfile
from contextlib import contextmanager
from functools import cache, partial
from pathlib import Path
from unittest import SkipTest, TestCase

from . import csv_puts, kept_checkpoints, kept_tables, python_changes, python_columns, python_ranges
from ..frames import INVALID, once
from .clients import betable, build_extension, compiled_by_rust, library, programs, rust_program, worked_scripts
from .common import SECONDS, TABLE, TOP, fault_of, needs, output_of, type_of_fault
from .durable import durable
from .engine_clients import CLIENT, FILE_CLIENT, HERE, SANITIZERS, STRICT, ended, pairs
from .kept_tables import INSTEAD, READ, SCRIPTS, batch, command, file_of, keep, keep_all, next_reply, replies_after, replies_in, request, text_of

FILE_CALLS = TOP / "clients/c/betable_file.c"

# A process that does in Python what kept_here.c and kept_here.rs do.
KEPT_HERE = """#!{python} -B
import os, sys
sys.path.insert(0, {package!r})
os.environ["BETABLE_LIBRARY"] = {library!r}
import betable

def end(status, reason):
    print(f"betable: {{reason}}", file=sys.stderr)
    sys.exit(status)

reasons = {{betable.InUse: "the file is in use", betable.NotATable: "the file is no table", betable.NewerFormat: "the file has another format",
           betable.OtherEngine: "another engine wrote the file", betable.Corrupt: "the file is damaged"}}
try:
    session = betable.open(sys.argv[2])
except tuple(reasons) as fault:
    end(2, reasons[type(fault)])
except OSError:
    end(2, "the file cannot be opened")
with session:
    while head := sys.stdin.buffer.read(13):
        payload = sys.stdin.buffer.read(int.from_bytes(head[4:12], "little"))
        try:
            text = session.replies(payload) if head[12] == 1 else session.once(payload[:16].hex(), payload[17:])
            kind, reply = 0, text + len(text).to_bytes(8, "little")
        except betable.RequestReused:
            kind, reply = 2, b"RequestReused"
        except (betable.InDoubt, betable.RolledBack) as fault:
            assert isinstance(fault.__cause__, OSError)
            end(1, "the disk failed")
        sys.stdout.buffer.write(b"BTF\\1" + len(reply).to_bytes(8, "little") + bytes([kind]) + reply)
        sys.stdout.flush()
"""


@cache
def kept_here(language):
    """The words that begin the command of a program which serves a table in a file: `frames` and `calls` in C, `rust` or `python`."""
    if language == "rust":
        return [rust_program(HERE / "rust/kept_here.rs")]
    path = Path(programs().name) / f"kept_here_{'python' if language == 'python' else 'c'}"
    if language == "python":
        path.write_text(KEPT_HERE.format(python=sys.executable, package=str(TOP / "clients/python"), library=library()))
        path.chmod(0o755)
        return [path]
    if not path.exists():
        output_of(["cc", "-O1", *STRICT, HERE / "c/kept_here.c", CLIENT, FILE_CLIENT, f"{library()}/libbt_c.a", "-o", path])
    return [path, language]


@cache
def sanitized(name, *options):
    path = Path(programs().name) / f"{name}_sanitized"
    output_of(["cc", "-O1", *STRICT, *SANITIZERS, *options, HERE / f"c/{name}.c", CLIENT, FILE_CLIENT, FILE_CALLS, f"{library()}/libbt_c.a", "-o", path])
    return path


@cache
def group_steps(language):
    """A program that keeps groups of two batches: see tools/tests/c/group_steps.c."""
    if language == "rust":
        return rust_program(HERE / "rust/group_steps.rs")
    path = Path(programs().name) / "group_steps"
    if not path.exists():
        output_of(["cc", "-O1", *STRICT, HERE / "c/group_steps.c", f"{library()}/libbt_c.a", "-o", path])
    return path


@cache
def languages():
    return ["frames", "calls", "python", *(["rust"] if shutil.which("rustc") else [])]


def setUpModule():
    if not kept_tables.program().exists():
        raise SkipTest("betable_engine is not built")
    library(), build_extension(), durable(), worked_scripts(), pairs()
    for language in languages():
        kept_here(language)
    if shutil.which("rustc"):
        for name in ("typed", "scripts", "checks", "groups"):
            rust_program(HERE / f"rust/{name}.rs")
    for language in ("c", *(["rust"] if shutil.which("rustc") else [])):
        group_steps(language)


@contextmanager
def instead_of_the_engine(language):
    """Tests of betable_engine are made with another program while the context lasts."""
    INSTEAD[:] = kept_here(language)
    try:
        yield
    finally:
        INSTEAD.clear()


@contextmanager
def without_others():
    before = list(INSTEAD)
    INSTEAD.clear()
    try:
        yield
    finally:
        INSTEAD[:] = before


# ---- the tests of betable_engine ----


class ByFrames:
    """Tests of betable_engine, with the calls of betable_file.h in its place."""

    def setUp(self):
        super().setUp()
        self.enterContext(instead_of_the_engine("frames"))


class FilesByFrames(ByFrames, kept_tables.Files):
    test_what_is_no_request_is_answered_and_not_kept = test_a_file_is_read_with_any_limit = test_each_crew_makes_the_same_table = None


class RequestsThatRunOnceByFrames(ByFrames, kept_tables.RequestsThatRunOnce):
    test_an_engine_without_a_file_takes_no_ids = None


class CrashesByFrames(ByFrames, kept_tables.Crashes):
    test_wrong_arguments = None


class FaultsByFrames(ByFrames, kept_tables.Faults):
    pass


class CheckpointsByFrames(ByFrames, kept_checkpoints.Checkpoints):
    pass


class RequestsOfAFileByFrames(ByFrames, kept_checkpoints.RequestsOfAFile):
    pass


class FaultsOfCheckpointsByFrames(ByFrames, kept_checkpoints.FaultsOfCheckpoints):
    FAILED = 0, ""  # the checkpoint is that of the close, which loses nothing if it fails


class FaultsByCalls(kept_tables.Faults):
    """The process with a fault is one of a client, and the engine opens what it leaves."""

    language = "calls"

    def run_with(self, *steps, **fault):
        with instead_of_the_engine(self.language):
            return super().run_with(*steps, **fault)


@needs("rustc")
class FaultsByRust(FaultsByCalls):
    language = "rust"
    test_each_allocation_is_refused = None  # the standard library of Rust ends the process


class FaultsByPython(FaultsByCalls):
    language = "python"
    test_each_allocation_is_refused = None  # most are those of Python


# ---- each language beside the engine ----


class EachLanguage(kept_tables.KeptTables):
    @contextmanager
    def each(self, language):
        """A language, in place of the engine, with a file of its own."""
        self.path = self.path.with_name(language)
        with self.subTest(language=language), instead_of_the_engine(language):
            yield

    def keep_by_engine(self, *scripts):
        with without_others():
            return keep(self.path, *scripts)

    def test_a_file_is_that_of_the_engine(self):
        """What the one writes the other one opens and goes on with: replies and images."""
        half = len(SCRIPTS) // 2
        for language in languages():
            with self.each(language):
                by_client = partial(keep, self.path)
                for first, second in ((by_client, self.keep_by_engine), (self.keep_by_engine, by_client)):
                    self.path.unlink(missing_ok=True)
                    status, texts, errors = first(*SCRIPTS[:half], READ)
                    self.assertEqual((status, texts[-1], errors), (0, replies_after(SCRIPTS[:half]), ""))
                    status, texts, errors = second(READ, *SCRIPTS[half:], READ)
                    self.assertEqual((status, texts[0], texts[-1], errors), (0, replies_after(SCRIPTS[:half]), replies_after(SCRIPTS), ""))
                    self.assertEqual(first(READ), (0, [replies_after(SCRIPTS)], ""))
                    self.has_groups(*SCRIPTS)

    def test_a_request_runs_once(self):
        """Before and after the file was closed, and not for another one with its id."""
        add, other = (once(7, b"batch\nups 1,add,qty,%d\nend\nget 1\n" % number) for number in (5, 6))
        for language in languages():
            with self.each(language):
                keep(self.path, TABLE + "\n", batch(0))
                for _ in range(2):
                    status, found, errors = keep_all(self.path, add + add + other + request("get 1\n"))
                    texts = [text_of(reply) for reply in (found[0], found[1], found[3])]
                    wanted = ["batch 1\nrow 1,city 0,5\n"] * 2 + ["row 1,city 0,5\n"]
                    self.assertEqual((status, texts, found[2], errors), (0, wanted, (INVALID, b"RequestReused"), ""))

    def test_a_file_is_open_once(self):
        """In the engine and in a client, each first."""
        for language in languages():
            with self.each(language):
                of_client, of_engine = command(self.path), [kept_tables.program(), "--keep", self.path]
                for first, second in ((of_client, of_engine), (of_engine, of_client), (of_client, of_client)):
                    with subprocess.Popen(first, stdin=subprocess.PIPE, stdout=subprocess.PIPE, bufsize=0) as process:
                        process.stdin.write(request("get 1\n"))
                        self.assertEqual(text_of(next_reply(process)), "refused 3 NoTable\n")
                        self.assertEqual(ended(*second), (2, "", "betable: the file is in use\n"))
                        process.stdin.close()
                        self.assertEqual(process.wait(SECONDS), 0)

    def test_what_is_no_table_is_refused_by_its_name(self):
        data, places = file_of(31, SCRIPTS)
        damaged = bytearray(data)
        damaged[places[2]] ^= 1
        cases = {
            b"\n": "the file is no table", data[:39]: "the file is no table", bytes(40): "the file is no table", bytes(damaged): "the file is damaged",
            file_of(5, SCRIPTS, engine=kept_tables.ENGINE + 1)[0]: "another engine wrote the file",
            file_of(5, SCRIPTS, form=kept_tables.FORMAT + 1)[0]: "the file has another format",
        }  # fmt: skip
        for language in languages():
            with self.each(language):
                for given, reason in cases.items():
                    self.is_refused(given, reason)
                self.opens_as(b"", replies_after([]))
                self.assertEqual(ended(*command(self.path / "none")), (2, "", "betable: the file cannot be opened\n"))

    def test_a_file_that_was_cut_has_the_scripts_before_the_cut(self):
        """At each length. In Python in this process, where to start is slow."""
        data, places = file_of(31, SCRIPTS)
        expected = [replies_after(SCRIPTS[:count]) for count in range(len(places))]
        for language in languages()[1:]:  # FilesByFrames cuts it too
            with self.each(language):
                for length in range(places[0], len(data)):
                    self.path.write_bytes(data[:length])
                    wanted = expected[sum(place <= length for place in places) - 1]
                    if language == "python":
                        with betable().open(self.path) as session:
                            self.assertEqual(session.replies(READ).decode(), wanted)
                    else:
                        self.assertEqual(keep(self.path, READ), (0, [wanted], ""))

    def test_no_stream_is_the_file(self):
        """A process whose standard error is closed, the number of which the next file that is opened would have."""
        for language in languages():
            self.path = self.path.with_name(language)
            keep(self.path, TABLE + "\n")  # a new file is replaced once it is open
            words = {"stdin": subprocess.PIPE, "stdout": subprocess.PIPE, "bufsize": 0, "preexec_fn": lambda: os.close(2)}
            with self.each(language), subprocess.Popen(command(self.path), **words) as process:
                process.stdin.write(request("get 1\n"))
                self.assertEqual(text_of(next_reply(process)), "none\n")
                files = {int(link.name): os.stat(link) for link in Path(f"/proc/{process.pid}/fd").iterdir() if link.exists()}
                of_table = [number for number, found in files.items() if os.path.samestat(found, self.path.stat())]
                self.assertEqual((len(of_table), min(of_table) > 2), (1, True))
                process.stdin.close()


class InC(kept_tables.KeptTables):
    def serves(self, *words):
        """A process that is begun by these words makes a file, goes on with one that was cut, refuses one that is none, and says nothing else."""
        INSTEAD[:] = words
        self.addCleanup(INSTEAD.clear)
        self.path.unlink(missing_ok=True)
        self.assertEqual(keep(self.path, *SCRIPTS, READ)[1][-1], replies_after(SCRIPTS))
        data, _ = file_of(7, SCRIPTS)
        self.path.write_bytes(data[:-1])
        self.assertEqual(keep(self.path, SCRIPTS[-1], READ)[::2], (0, ""))
        self.is_refused(b"\n", "the file is no table")

    def test_sanitizers_find_nothing(self):
        for mode in ("frames", "calls"):
            with self.subTest(mode=mode):
                self.serves(sanitized("kept_here"), mode)

    def test_an_engine_over_a_file_begins_and_ends(self):
        """As tools/tests/c/engine_file.c says: the order of calls, requests that are sent ahead, a close, a disk that fails, interrupted calls, and a file that
        another one takes the place of."""
        wrapped = "-Wl," + ",".join(f"--wrap={name}" for name in ("open", "fsync", "fdatasync", "ftruncate", "pwrite", "flock"))
        self.assertEqual(ended(sanitized("engine_file", wrapped), kept_tables.program(), self.path), (0, "", ""))

    def test_groups_and_faults_and_questions_of_a_file(self):
        """As tools/tests/c/file_groups.c says."""
        calls = "open fsync fdatasync ftruncate pwrite flock rename malloc".split()
        wrapped = [f"--wrap={name}" for name in (*calls, *(f"betable_keep_{name}" for name in "run add commit checkpoint".split()))]
        self.assertEqual(ended(sanitized("file_groups", f"-Wl,{','.join(wrapped)}"), self.path), (0, "", ""))

    def test_requests_that_are_sent_ahead_are_one_group(self):
        with instead_of_the_engine("calls"):
            kept_tables.Files.test_requests_that_are_sent_ahead_are_one_group(self)

    @needs("valgrind")
    def test_valgrind_finds_no_memory_and_no_descriptor_that_is_left(self):
        for mode in ("frames", "calls"):
            with self.subTest(mode=mode), tempfile.TemporaryDirectory() as logs:
                words = ["valgrind", "-q", "--leak-check=full", "--errors-for-leak-kinds=all", "--error-exitcode=9", "--track-fds=yes", f"--log-file={logs}/%p"]
                self.serves(*words, *kept_here(mode))
                found = "".join(path.read_text() for path in Path(logs).iterdir())
                of_log = rf"FILE DESCRIPTORS: 4 open \(3 std\) at exit\.|Open file descriptor \d+: {logs}/\d+|   <inherited from parent>"
                self.assertEqual(re.sub(rf"==\d+== ({of_log})?\n", "", found), "")


# ---- groups ----


GROUPS = 3


class Groups(kept_tables.FaultyCalls):
    language = "c"

    def steps(self, first, last, *killed, failed=(-1, -1), killed_at=-1, part=kept_tables.NOTHING, refused=-1):
        """Keeps the groups of two numbers and those between them, with a fault: the status, the lines and the operations on files."""
        trace = self.path.parent.with_name("trace")
        faults = f"{self.path.parent} {trace} {killed_at} {failed[0]} {failed[1]} {part} {errno.ENOSPC} {refused}"
        words = [group_steps(self.language), self.path, str(first), str(last), *map(str, killed)]
        done = subprocess.run(words, capture_output=True, text=True, timeout=SECONDS, env={**os.environ, "LD_PRELOAD": self.library, "FAULTS": faults})
        self.assertEqual(done.stderr, "")
        return done.returncode, done.stdout.split(), list(kept_tables.operations_of(trace.read_bytes()))

    def steps_of_new(self, **fault):
        """All groups, in a new file."""
        self.path.unlink(missing_ok=True)
        keep(self.path, TABLE + "\n")
        return self.steps(0, GROUPS - 1, **fault)

    def has_groups_of_batches(self, *counts):
        """The table has the batches of one of these numbers of groups, and takes those of the others."""
        numbers = self.rows_of_batches()
        self.assertIn(len(numbers), [2 * count for count in counts])
        self.assertEqual(numbers, list(range(len(numbers))))
        self.assertEqual(self.steps(len(numbers) // 2, GROUPS)[:2], (0, ["kept"] * (GROUPS + 1 - len(numbers) // 2)))
        self.assertEqual(self.rows_of_batches(), list(range(2 * GROUPS + 2)))

    def operations(self):
        """Those of a run without a fault. Each group is a write and a sync."""
        status, lines, operations = self.steps_of_new()
        self.assertEqual((status, lines), (0, ["kept"] * GROUPS))
        self.assertEqual([letter for letter, *_ in operations[-2 * GROUPS :]], ["w", "s"] * GROUPS)
        return operations

    def test_a_group_is_one_of_the_file(self):
        self.operations()
        groups = [b"".join(request(batch(number)) for number in range(2 * group, 2 * group + 2)) for group in range(GROUPS)]
        if self.language == "c":  # the other one packs its changes
            self.has_groups(TABLE + "\n", *groups)
        self.has_groups_of_batches(GROUPS)

    def test_a_kill_in_a_group_undoes_it(self):
        for killed in range(GROUPS):
            self.path.unlink(missing_ok=True)
            keep(self.path, TABLE + "\n")
            self.assertEqual(self.steps(0, GROUPS - 1, killed)[:2], (-signal.SIGKILL, ["kept"] * killed))
            self.has_groups_of_batches(killed)

    def test_the_process_is_killed_at_each_call(self):
        for killed in range(len(self.operations())):
            for part in (kept_tables.NOTHING, kept_tables.HALF, kept_tables.ALL_BUT_A_BYTE, kept_tables.WHOLE):
                with self.subTest(killed=killed, part=part):
                    status, lines, _ = self.steps_of_new(killed_at=killed, part=part)
                    self.assertEqual((status, set(lines) <= {"kept"}), (-signal.SIGKILL, True))
                    self.has_groups_of_batches(len(lines), len(lines) + 1)

    def test_a_write_that_fails_is_undone_and_a_sync_is_not(self):
        operations = self.operations()
        begin = len(operations) - 2 * GROUPS
        for failed in range(len(operations)):
            for part in (kept_tables.NOTHING, kept_tables.HALF):
                with self.subTest(failed=failed, part=part):
                    status, lines, found = self.steps_of_new(failed=(failed, failed), part=part)
                    kept = ["kept"] * max((failed - begin) // 2, 0)
                    if failed < begin:
                        self.assertEqual((status, lines), (3, []))
                        self.has_groups_of_batches(0)
                    elif operations[failed][0] == "w":
                        self.assertEqual((status, lines), (0, [*kept, "undone", *["kept"] * (GROUPS - len(kept))]))
                        at = operations[failed][2]
                        self.assertIn(("t", str(self.path), at, b""), found)
                        self.has_groups_of_batches(GROUPS)
                    else:
                        self.assertEqual((status, lines), (1, [*kept, "unknown"]))
                        self.has_groups_of_batches(len(kept), len(kept) + 1)

    def test_each_allocation_is_refused(self):
        """Some are not needed. A group that was refused is undone, and made again."""
        refused = unneeded = undone = 0
        while unneeded < 20:
            status, lines, _ = self.steps_of_new(refused=refused)
            if status == 3:
                self.assertEqual(lines, [])
            else:
                self.assertEqual((status, lines.count("kept"), set(lines) <= {"kept", "undone"}), (0, GROUPS, True))
                undone += len(lines) - GROUPS
            unneeded = unneeded + 1 if status == 0 and len(lines) == GROUPS else 0
            self.has_groups_of_batches(0 if status == 3 else GROUPS)
            refused += 1 + refused // 20
        self.assertGreater(undone, 5)

    def test_what_is_not_cut_off_is_not_undone(self):
        operations = self.operations()
        for failed in range(len(operations) - 2 * GROUPS, len(operations), 2):
            status, lines, found = self.steps_of_new(failed=(failed, failed + 1), part=kept_tables.HALF)
            self.assertEqual((status, lines[-1], [letter for letter, *_ in found].count("t")), (1, "unknown", 0))
            self.has_groups_of_batches(len(lines) - 1)


@needs("rustc")
class GroupsInRust(Groups):
    language = "rust"
    test_each_allocation_is_refused = None  # the standard library of Rust ends the process

    def test_calls_of_a_group(self):
        """As tools/tests/rust/groups.rs says, which has the lines of the document."""
        source = HERE / "rust/groups.rs"
        self.assertEqual(ended(rust_program(source), self.path), (0, "", ""))
        part = (TOP / "docs/C.md").read_text().split("\n## A table in a file\n")[1]
        self.assertIn(part.split("```rust\n")[1].split("```")[0], source.read_text().replace("\n    ", "\n"))

    def test_a_group_has_no_group_and_no_checkpoint_and_its_session_makes_no_call(self):
        opened = 'let mut session = betable::KeptSession::open("a").unwrap();\n    let mut group = session.group().unwrap();'
        reasons = {"group.group()": "no method named `group`", "group.checkpoint()": "no method named `checkpoint`", "session.get(&1)": "cannot borrow"}
        for number, (call, reason) in enumerate(reasons.items()):
            source = Path(programs().name) / f"in_a_group_{number}.rs"
            source.write_text(f"fn main() {{\n    {opened}\n    let _ = {call};\n    let _ = group.get(&1);\n}}\n")
            compiled, _ = compiled_by_rust(source)
            self.assertEqual((compiled.returncode != 0, compiled.stderr.count("error[E0"), reason in compiled.stderr), (True, 1, True), compiled.stderr)


# ---- the calls beside those of a session ----


class BesideASession(TestCase):
    def setUp(self):
        folder = tempfile.TemporaryDirectory()
        self.addCleanup(folder.cleanup)
        self.folder = f"{folder.name}/"

    def test_calls_of_c_are_those_of_a_session(self):
        """As engine_clients.py tests those of an engine."""
        words = []
        for script, _, places in worked_scripts()[::3]:
            images = Path(self.folder) / f"{script.name}.images"
            images.write_text("image primary\n")
            words += ["--", script, images, *map(str, places)]
        status, text, errors = ended(pairs(), self.folder, "1", "5", "2000", *words[1:])
        self.assertEqual((status, status and text, errors), (0, 0, ""))

    @needs("rustc")
    def test_typed_calls_in_rust_are_those_of_a_session(self):
        for what in ("changes", "reads", "pages", "sums", "usage", "trees", "wrong", "replies", "threads"):
            with self.subTest(what=what):
                self.assertEqual(ended(rust_program(HERE / "rust/typed.rs"), what, ENGINE=self.folder), (0, "", ""))

    @needs("rustc")
    def test_worked_scripts_in_rust_leave_the_trees_of_a_session(self):
        words = [word for script, _, places in worked_scripts()[::3] for word in ("--", script, *map(str, places))][1:]
        for source in ("scripts", "checks"):
            program = rust_program(HERE / f"rust/{source}.rs")
            self.assertEqual(ended(program, *words, ENGINE=self.folder), ended(program, *words), source)


def by_files(case):
    """A class of tests of sessions, with sessions of new files in their place."""

    def put_in_place(self):
        client, folder = betable(), tempfile.TemporaryDirectory()
        self.addCleanup(folder.cleanup)
        count = iter(range(10**9))

        class FileSession(client.durable.Durable):
            def __init__(self):
                super().__init__(f"{folder.name}/{next(count)}")

        for holder in (client, client.session):
            self.addCleanup(setattr, holder, "Session", holder.Session)
            holder.Session = FileSession
        case.setUp(self)

    return type(f"{case.__name__}ByFiles", (case,), {"setUp": put_in_place, "__module__": __name__, "__doc__": case.__doc__})


for _case in (
    python_changes.ChangesByColumns, python_changes.PreparedUpserts, python_changes.LineBreaks, python_columns.PythonColumns, python_ranges.DeleteRange,
    python_ranges.NewestFirst, csv_puts.AllWrongRecordsAreTold, csv_puts.TextsWithLineBreaks, csv_puts.WrongRecordsGoToAFile,
):  # fmt: skip
    globals()[f"{_case.__name__}ByFiles"] = by_files(_case)
del _case


# ---- files that are read in pieces ----


class Pieces(TestCase):
    """The calls of the library by which a host passes the bytes of a file."""

    def setUp(self):
        from betable import library as of_calls

        self.of_calls, self.calls = of_calls, ctypes.CDLL(f"{library()}/libbt_c.so")
        handle, size = ctypes.POINTER(of_calls.Handle), ctypes.c_size_t
        of_calls.declare(self.calls, [
            ("betable_keep_open", [handle, ctypes.c_uint64], ctypes.c_uint),
            ("betable_keep_read", [handle, ctypes.c_char_p, size], ctypes.c_uint),
            ("betable_keep_end_of_file", [handle], ctypes.c_uint),
            ("betable_keep_run", [handle, ctypes.c_char_p, size], ctypes.c_uint),
            ("betable_file_call_count", [handle], size),
            ("betable_replies_length", [handle], size),
            ("betable_copy_replies", [handle, size, ctypes.c_char_p, size], size),
            ("betable_close", [handle], ctypes.c_uint),
        ])  # fmt: skip

    @contextmanager
    def opening(self):
        handle = self.of_calls.Handle()
        self.assertEqual(self.calls.betable_keep_open(handle, 7), self.of_calls.DONE)
        try:
            yield handle
        finally:
            self.assertEqual(self.calls.betable_close(handle), self.of_calls.DONE)

    def read(self, handle, *pieces):
        return [self.calls.betable_keep_read(handle, piece, len(piece)) for piece in pieces]

    def replies_of(self, handle, script):
        sent = request(script)
        self.assertEqual(self.calls.betable_keep_run(handle, sent, len(sent)), self.of_calls.DONE)
        found = ctypes.create_string_buffer(self.calls.betable_replies_length(handle))
        self.calls.betable_copy_replies(handle, 0, found, len(found))
        return text_of(replies_in(found.raw)[0])

    def test_a_file_is_read_in_pieces_of_any_length(self):
        data = file_of(12345, SCRIPTS)[0]
        for length in (1, 2, 15, 16, 39, 40, 41, 1_000, len(data)):
            with self.subTest(length=length), self.opening() as handle:
                pieces = [data[at : at + length] for at in range(0, len(data), length)]
                self.assertEqual(set(self.read(handle, *pieces, b"")), {self.of_calls.DONE})
                self.assertEqual((self.calls.betable_keep_end_of_file(handle), self.calls.betable_file_call_count(handle)), (self.of_calls.DONE, 0))
                self.assertEqual(self.replies_of(handle, READ), replies_after(SCRIPTS))

    def test_what_follows_the_frames_is_looked_at_once_all_is_read(self):
        """Bytes that are no frame are cut off, unless a whole frame follows them."""
        data, places = file_of(12345, SCRIPTS)
        changed = bytearray(data)
        changed[places[2] + 20] ^= 1
        for given, status, count in ((data[:-1], self.of_calls.DONE, 2), (bytes(changed), self.of_calls.DAMAGED, 0)):
            with self.opening() as handle:
                self.assertEqual(self.read(handle, given[:100], given[100:]), [self.of_calls.DONE] * 2)
                self.assertEqual((self.calls.betable_keep_end_of_file(handle), self.calls.betable_file_call_count(handle)), (status, count))

    def test_another_file_is_refused_by_its_head(self):
        """Before the rest of it is read. Then the session opens no file."""
        sent, of = request(READ), self.of_calls
        other_engine, other_format = file_of(5, SCRIPTS, engine=2)[0], file_of(5, SCRIPTS, form=2)[0]
        for front, status in ((b"x" * 40, of.NOT_A_TABLE), (other_engine[:40], of.OTHER_ENGINE), (other_format[:40], of.OTHER_FORMAT)):
            with self.opening() as handle:
                self.assertEqual(self.read(handle, front[:39], front[39:], b"more"), [of.DONE, status, of.NOT_KEPT])
                self.assertEqual((self.calls.betable_keep_end_of_file(handle), self.calls.betable_keep_run(handle, sent, len(sent))), (of.NOT_KEPT, of.NOT_KEPT))
        with self.opening() as handle:
            self.assertEqual([*self.read(handle, b"x" * 39), self.calls.betable_keep_end_of_file(handle)], [of.DONE, of.NOT_A_TABLE])

    def test_a_file_without_bytes_gets_a_head(self):
        with self.opening() as handle:
            self.assertEqual((self.calls.betable_keep_end_of_file(handle), self.calls.betable_file_call_count(handle)), (self.of_calls.DONE, 1))
            self.assertEqual([*self.read(handle, b"x"), self.calls.betable_keep_end_of_file(handle)], [self.of_calls.NOT_KEPT] * 2)


# ---- Python ----


class InPython(TestCase):
    def setUp(self):
        folder = tempfile.TemporaryDirectory()
        self.addCleanup(folder.cleanup)
        self.path = f"{folder.name}/table"

    def opened(self):
        table = betable().open(self.path)
        self.addCleanup(table.close)
        return table

    def test_what_one_call_of_the_system_does_not_write_is_there_again(self):
        """A batch and a checkpoint of five megabytes each."""
        rows = [(number, f"{number:0250}", number) for number in range(20_000)]
        with betable().open(self.path) as session:
            session.table("id:int city:text qty:int")
            session.put(rows)
        with betable().open(self.path) as session:
            self.assertEqual(session.scan() == rows, True)
            session.checkpoint()
        with betable().open(self.path) as session:
            self.assertEqual(session.scan() == rows, True)

    def test_the_program_of_the_document_keeps_its_table(self):
        """It is run twice, and its request once."""
        part = (TOP / "docs/PYTHON.md").read_text().split("\n## A table in a file\n")[1]
        code = part.split("```python\n")[1].split("```")[0]
        environment = {**os.environ, "PYTHONPATH": str(TOP / "clients/python"), "BETABLE_LIBRARY": library()}
        for qty in (29, 30):
            output_of([sys.executable, "-B", "-c", f"import betable\n{code}"], cwd=os.path.dirname(self.path), env=environment)
            with betable().open(f"{os.path.dirname(self.path)}/stock.table") as session:
                self.assertEqual(session.scan(), [(1, "Oslo", qty), (2, "Bergen", 20)])

    def test_faults_have_fields(self):
        client = betable()
        table = self.opened()
        table.table("id:int qty:int")
        table.once("a", "batch\nput 1,2\nend\n")
        fault = fault_of(lambda: table.once("a", "get 1\n"))
        self.assertEqual((type(fault), fault.request_id, table.get(1)), (client.RequestReused, "a", (1, 2)))
        table.close()
        data = Path(self.path).read_bytes()
        Path(self.path).write_bytes(data[:45] + bytes([data[45] ^ 1]) + data[46:])
        fault = fault_of(self.opened)
        self.assertEqual((type(fault), fault.path, fault.number, "backup" in fault.reason), (client.Corrupt, self.path, None, True))
        self.assertEqual(str(pickle.loads(pickle.dumps(fault))), str(fault))
        self.path += "/none"
        fault = fault_of(self.opened)
        self.assertEqual((type(fault), fault.filename), (NotADirectoryError, self.path))

    def test_the_library_refuses_a_forked_child(self):
        """Without the package, which closes the file there."""
        from betable import library as of_calls
        from betable.durable.file_calls import loaded_library

        calls, file = loaded_library(), of_calls.Handle()
        self.assertEqual(calls.betable_file_open(file, self.path.encode()), of_calls.DONE)
        child = os.fork()
        if child == 0:
            found = calls.betable_file_run(file, b"", 0), calls.betable_file_checkpoint(file), calls.betable_file_replies_length(file), calls.betable_file_close(file)
            os._exit(found != (of_calls.FILE_IN_USE, of_calls.FILE_IN_USE, 0, of_calls.DONE))
        self.assertEqual(os.waitstatus_to_exitcode(os.waitpid(child, 0)[1]), 0)
        self.assertEqual(type_of_fault(self.opened), betable().InUse)
        self.assertEqual([calls.betable_file_run(file, b"", 0), calls.betable_file_close(file), calls.betable_file_close(file)], [0, 0, of_calls.NOT_OPEN])

    def test_a_link_leads_to_the_file(self):
        """Which a checkpoint replaces, and not the link."""
        os.symlink(self.path, f"{self.path}.link")
        with betable().open(f"{self.path}.link") as session:
            session.table("id:int qty:int")
            self.assertEqual(type_of_fault(self.opened), betable().InUse)
            session.checkpoint()
            session.put([(1, 1)])
        self.assertTrue(os.path.islink(f"{self.path}.link"))
        with self.opened() as session:
            self.assertEqual(session.scan(), [(1, 1)])


if __name__ == "__main__":
    import unittest

    unittest.main()

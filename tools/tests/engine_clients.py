"""Tests of the engine from C and from Rust, by clients/c/betable_engine.c and clients/rust: calls beside those of a session, requests that are sent ahead,
engines and callers that end, closed streams, refused memory, and replies of programs that are no engine. They need the program betable_engine, and do not
build it."""

import os
import re
import shutil
import signal
import struct
import subprocess
import sys
import tempfile
import time
from functools import cache
from pathlib import Path
from unittest import SkipTest, TestCase

from ..frames import frame
from .clients import library, programs, rust_program, worked_scripts
from .common import needs, output_of, SECONDS, TOP

ENGINE = TOP / "crates/betable_engine/out/betable_engine"
HERE = Path(__file__).resolve().parent
CLIENT, FILE_CLIENT = TOP / "clients/c/betable_engine.c", TOP / "clients/c/betable_engine_file.c"
STRICT = ("-std=c11", "-Wall", "-Wextra", "-Wpedantic", "-Wconversion", "-Werror", "-g", f"-I{TOP}/include", f"-I{TOP}/clients/c")
SANITIZERS = ("-fsanitize=address,undefined", "-fno-sanitize-recover=all")
WORKERS = ("1", "4")
ENDS = ("full", "killed", "closed", "streams", "order", "pending")


def setUpModule():
    """What more than one test runs, before tests run side by side."""
    if not ENGINE.exists():
        raise SkipTest(f"{ENGINE.relative_to(TOP)} is not built")
    library(), worked_scripts(), ends(), kept(), pairs()
    if shutil.which("rustc"):
        for name in ("engine", "kept", "typed"):
            rust_program(HERE / f"rust/{name}.rs")


def c_program(name, source, *options):
    """A program of this name, with the client, and without the library unless it is among the options."""
    path = Path(programs().name) / name
    if not path.exists():
        output_of(["cc", "-O1", *STRICT, HERE / "c" / source, CLIENT, *options, "-o", path])
    return path


def ends():
    return c_program("engine_ends", "engine_ends.c")


def kept():
    return c_program("engine_kept", "engine_kept.c")


@cache
def pairs():
    """Its headers are those of programs that are compiled with fewer warnings."""
    return c_program("engine_pairs", "engine_pairs.c", "-Wno-conversion", FILE_CLIENT, f"{library()}/libbt_c.a")


def ended(*words, **variables):
    """The status, the output and the errors of a program that runs to its end."""
    done = subprocess.run(words, capture_output=True, text=True, timeout=SECONDS, env={**os.environ, **variables})
    return done.returncode, done.stdout, done.stderr


def in_rust(source, *words, workers="1", engine=ENGINE):
    return ended(rust_program(HERE / f"rust/{source}.rs"), *words, ENGINE=str(engine), WORKERS=workers)


def is_running(process):
    """Whether there is a process of this id that has not ended. One that no one waits for stays as a zombie."""
    try:
        return ") Z" not in Path(f"/proc/{process}/stat").read_text()
    except (FileNotFoundError, ProcessLookupError):
        return False


class BesideASession(TestCase):
    def test_calls_of_c_are_those_of_a_session(self):
        """Worked scripts, command by command and sent ahead, and random requests: statuses, faults, reasons, replies, their places, and images."""
        counts = set()
        for workers in WORKERS:
            with self.subTest(workers=workers), tempfile.TemporaryDirectory() as folder:
                words = []
                for script, _, places in worked_scripts():
                    trees = sorted(set(re.findall(rb"^index (\w+)", script.read_bytes(), re.MULTILINE)))
                    images = Path(folder) / script.name
                    images.write_bytes(b"".join(b"image %b\n" % tree for tree in [b"primary", *trees]))
                    words += ["--", script, images, *map(str, places)]
                status, text, errors = ended(pairs(), ENGINE, workers, "5", "6000", *words[1:])
                self.assertEqual((status, status and text, errors), (0, 0, ""))
                found = list(map(int, re.findall(r"\d+", text)))
                self.assertEqual((min(found) > 200, sum(found[2:])), (True, 6000))
                counts.add(tuple(found))
        self.assertEqual(len(counts), 1)

    @needs("rustc")
    def test_typed_calls_in_rust_are_those_of_a_session(self):
        """Those of the tests of sessions, with an engine for the typed calls."""
        for workers in WORKERS:
            for what in ("changes", "reads", "pages", "sums", "usage", "trees", "wrong", "replies", "threads"):
                with self.subTest(what=what, workers=workers):
                    self.assertEqual(in_rust("typed", what, workers=workers), (0, "", ""))

    @needs("rustc")
    def test_worked_scripts_in_rust_leave_the_trees_of_a_session(self):
        """By typed calls where a command is one, and by checks and reasons of each command."""
        words = [word for script, _, places in worked_scripts() for word in ("--", script, *map(str, places))][1:]
        for source in ("scripts", "checks"):
            printed = {ended(rust_program(HERE / f"rust/{source}.rs"), *words)}
            printed |= {in_rust(source, *words, workers=workers) for workers in WORKERS}
            self.assertEqual([(status, errors) for status, _, errors in printed], [(0, "")], source)


class EndsInC(TestCase):
    def test_engines_of_c_begin_and_end(self):
        """Each is a word of tools/tests/c/engine_ends.c, which says what it expects."""
        for what in (*ENDS, "missing", "interrupted"):
            for workers in WORKERS:
                with self.subTest(what=what, workers=workers):
                    self.assertEqual(ended(ends(), what, ENGINE, workers), (0, "", ""))

    def test_sanitizers_find_nothing(self):
        program = c_program("engine_ends_sanitized", "engine_ends.c", *SANITIZERS)
        for what in ENDS:
            with self.subTest(what=what):
                self.assertEqual(ended(program, what, ENGINE, "2"), (0, "", ""))

    @needs("valgrind")
    def test_valgrind_finds_no_memory_and_no_descriptor_that_is_left(self):
        words = ["valgrind", "-q", "--leak-check=full", "--errors-for-leak-kinds=all", "--error-exitcode=9", "--track-fds=yes"]
        for what in ENDS:
            with self.subTest(what=what):
                status, text, errors = ended(*words, ends(), what, ENGINE, "2")
                self.assertEqual((status, text, re.sub(r"==\d+== (FILE DESCRIPTORS: ([0-3]) open \(\2 std\) at exit\.)?\n", "", errors)), (0, "", ""))

    def test_refused_memory_is_answered(self):
        """Each request of the client, alone and with those after it."""
        program = c_program("engine_refused", "engine_refused.c", "-Wl,--wrap=malloc,--wrap=realloc,--wrap=free")
        status, text, errors = ended(program, ENGINE)
        self.assertEqual((status, status and text, errors), (0, 0, ""))
        self.assertEqual([count > 5 for count in map(int, re.findall(r"\d+", text))], [True, True, True])

    def test_wrong_programs_and_options_are_told(self):
        """By the status, and by how the process ended, as waitpid gives it."""
        cases = [((ENGINE, "4"), (0, 0), ""), ((ENGINE, "65"), (16, 2 << 8), "betable: faulty command line\n"), (("false", "0"), (16, 1 << 8), ""),
                 (("true", "0"), (16, 0), ""), (("cat", "0"), (19, signal.SIGKILL), "")]  # fmt: skip
        for words, (status, wait_status), errors in cases:
            with self.subTest(words=words):
                self.assertEqual(ended(ends(), "open", *words), (0, f"{status} {int(wait_status)}\n", errors))


class EndsInRust(TestCase):
    @needs("rustc")
    def test_changes_in_rust_are_sent_ahead(self):
        for workers in WORKERS:
            with self.subTest(workers=workers):
                self.assertEqual(in_rust("engine", "ahead", workers=workers), (0, "", ""))

    @needs("rustc")
    def test_a_killed_engine_is_told_in_rust(self):
        for workers in WORKERS:
            with self.subTest(workers=workers):
                self.assertEqual(in_rust("engine", "killed", workers=workers), (0, "", ""))

    @needs("rustc")
    def test_wrong_programs_options_and_requests_are_told_in_rust(self):
        self.assertEqual(in_rust("engine", "ended"), (0, "", "betable: faulty command line\n"))


class Kept(TestCase):
    def is_kept(self, program):
        """A table that one process has made is that of the next one, and a file that cannot be opened ends the engine before its first reply."""
        with tempfile.TemporaryDirectory() as folder:
            for script, replies in (("table 4 8 4 1 id:int city:text\nbatch\nput 1,Oslo\nend\n", "table 2\nbatch 1\n"), ("get 1\n", "row 1,Oslo\n")):
                self.assertEqual(ended(program, ENGINE, f"{folder}/table", script), (0, replies, ""))
            status, output, errors = ended(program, ENGINE, f"{folder}/none/table", "get 1\n")
            self.assertEqual((status, output, "betable: the file cannot be opened\n" in errors), (1, "", True))

    def runs_once(self, program):
        """A script with an id has the replies of the first time, and another one with the id is refused. Returns what is told of that."""
        with tempfile.TemporaryDirectory() as folder:
            self.assertEqual(ended(program, ENGINE, f"{folder}/table", "table 4 8 4 1 id:int qty:int\n"), (0, "table 2\n", ""))
            add = "batch\nups 1,add,qty,5\nend\nget 1\n"
            for _ in range(2):
                self.assertEqual(ended(program, ENGINE, f"{folder}/table", add, "an id of letters"), (0, "batch 1\nrow 1,5\n", ""))
            self.assertEqual(ended(program, ENGINE, f"{folder}/table", add, "another of them "), (0, "batch 1\nrow 1,10\n", ""))
            return ended(program, ENGINE, f"{folder}/table", "get 1\n", "an id of letters")

    def test_a_table_in_a_file_is_there_again_in_c(self):
        self.is_kept(kept())

    def test_a_request_runs_once_in_c(self):
        self.assertEqual(self.runs_once(kept()), (1, "RequestReused", ""))

    @needs("rustc")
    def test_a_table_in_a_file_is_there_again_in_rust(self):
        self.is_kept(rust_program(HERE / "rust/kept.rs"))

    @needs("rustc")
    def test_a_request_runs_once_in_rust(self):
        self.assertEqual(self.runs_once(rust_program(HERE / "rust/kept.rs")), (1, "", "Error: RequestReused\n"))


class Documents(TestCase):
    def test_programs_of_the_document_print_what_they_say(self):
        """Those of the part of docs/C.md on the engine, by the lines that follow them, with the program in PATH."""
        part = (TOP / "docs/C.md").read_text().split("\n## The engine\n")[1]
        for language, ending in (("c", ".c"), ("rust", ".rs")):
            with self.subTest(language=language):
                code, after = part.split(f"```{language}\n")[1].split("```\n", 1)
                source, wanted = Path(programs().name) / f"engine_of_the_document{ending}", after.split("```text\n")[1].split("```")[0]
                source.write_text(code)
                if language == "rust" and not shutil.which("rustc"):
                    self.skipTest("rustc is not installed")
                program = rust_program(source) if language == "rust" else c_program("engine_of_the_document", source)
                self.assertEqual(ended(program, PATH=f"{ENGINE.parent}:{os.environ['PATH']}"), (0, wanted, ""))


class Callers(TestCase):
    def test_a_caller_that_dies_leaves_no_engine(self):
        """Idle, and with requests whose replies no one reads. The engine has the words of its options, is not in the process group of its caller, which gets
        interrupts from the terminal, and blocks no signal that its caller blocks: that is read while no worker is started, and std of Rust does not do it."""
        words = ["--workers", "4", "--cut", "3", "--grain", "5", "--most-frame", "9000000"]
        callers = [([ends(), what, ENGINE, *words[1::2]], words, {}) for what in ("idle", "busy")]
        if shutil.which("rustc"):
            callers.append(([rust_program(HERE / "rust/engine.rs"), "stay"], words[:2], {"ENGINE": str(ENGINE), "WORKERS": "4"}))
        before = signal.pthread_sigmask(signal.SIG_BLOCK, [signal.SIGTERM])
        self.addCleanup(signal.pthread_sigmask, signal.SIG_SETMASK, before)
        for started, wanted, variables in callers:
            with self.subTest(words=started):
                caller = subprocess.Popen(started, stdout=subprocess.PIPE, stderr=subprocess.DEVNULL, text=True, env={**os.environ, **variables})
                for clean in (caller.stdout.close, caller.wait, caller.kill):  # from the last one
                    self.addCleanup(clean)
                process = int(caller.stdout.readline())
                of_process = Path(f"/proc/{process}")
                self.assertTrue(is_running(process))
                self.assertEqual((of_process / "cmdline").read_text().split("\0")[1:-1], wanted)
                self.assertEqual(os.getpgid(process), process)
                if "idle" in started:
                    blocked = int(re.search(r"SigBlk:\s*(\w+)", (of_process / "status").read_text())[1], 16)
                    self.assertEqual(blocked >> signal.SIGTERM - 1 & 1, 0)
                caller.kill()
                caller.wait()
                until = time.monotonic() + SECONDS
                while is_running(process) and time.monotonic() < until:
                    time.sleep(0.01)
                self.assertFalse(is_running(process))


# ---- programs that are no engine ----

# Reads as many requests as there are replies in REPLIES, writes a reply after each, and ends.
OTHER_ENGINE = """#!%s
import os

def read(count):
    found = b""
    while len(found) < count:
        found += os.read(0, count - len(found))
    return found

for reply in os.environ["REPLIES"].split(","):
    read(int.from_bytes(read(13)[4:12], "little"))
    os.write(1, bytes.fromhex(reply))
"""


def numbers(*given):
    return struct.pack(f"<{len(given)}Q", *given)


def replies(text, *marks, length=None):
    """The payload of the reply to a script, with the ends and the codes of its marks."""
    return text + b"".join(struct.pack("<QB", *mark) for mark in marks) + numbers(len(text) if length is None else length)


OTHER = "the library or the engine is of another version than the crate"
KILLED = "the engine has ended: signal: 9 (SIGKILL)"
USAGE = frame(0, b"BTV\x01" + numbers(1, 2, 3))
# Each: replies, calls, and how they end in C and in Rust. After a reply that is none the engine was killed.
CASES = [
    ([frame(0, numbers(6, 2, 3, 99)), USAGE], "explain get", "explain 5 (6 2 3 99), get 0 (28 bytes, 0 of 0 refused)",
     ["Some(Reason { refusal: 6, item: 2, field: Some(3), problem: Unknown(99) })", "Usage { rows: 1, messages: 2, height: 3 }"]),
    ([frame(0, numbers(6, 2, 0, 0))], "explain", "explain 5 (6 2 0 0)", ["Some(Reason { refusal: 6, item: 2, field: None, problem: Unknown(0) })"]),
    ([frame(0, numbers(6, 2, 1, 16))], "explain", "explain 5 (6 2 1 16)", ["Some(Reason { refusal: 6, item: 2, field: Some(1), problem: OtherName })"]),
    ([frame(0, b"")], "explain", "explain 0", ["None"]),
    ([frame(0, numbers(6, 2, 1)), USAGE], "explain get", "explain 19, get 16", [OTHER, KILLED]),
    ([frame(1, numbers(6, 2, 1)), USAGE], "get get", "get 5 (6 2 1), get 0 (28 bytes, 0 of 0 refused)",
     ["refused 6 BadField 2, column 1", "Usage { rows: 1, messages: 2, height: 3 }"]),
    ([frame(1, numbers(6, 2)), USAGE], "get get", "get 19, get 16", [OTHER, KILLED]),
    ([frame(2, b"UnknownKind"), USAGE], "get get", "get 17 (11 bytes, 0 of 0 refused), get 0 (28 bytes, 0 of 0 refused)",
     [OTHER, "Usage { rows: 1, messages: 2, height: 3 }"]),
    ([frame(3, numbers(6, 2, 1)), USAGE], "get get", "get 19, get 16", [OTHER, KILLED]),
    ([b"BTF\x02" + USAGE[4:], USAGE], "get get", "get 19, get 16", [OTHER, KILLED]),
    ([frame(0, replies(b"none\n", (5, 0))), USAGE], "run get", "run 0 (5 bytes, 0 of 1 refused), get 0 (28 bytes, 0 of 0 refused)",
     ["[None]", "Usage { rows: 1, messages: 2, height: 3 }"]),
    ([frame(0, replies(b"none\n", (0, 2), (5, 0)))], "run", "run 0 (5 bytes, 1 of 2 refused)", ['[Line(""), None]']),
    ([frame(0, replies(b"", (0, 2), (0, 0), (0, 2)))], "check", "check 0 (0 bytes, 0 of 3 refused)", ["[0, 2]"]),
    *[([frame(0, payload), USAGE], "run get", "run 19, get 16", [OTHER, KILLED]) for payload in (
        b"", replies(b"none\n", (6, 0)), replies(b"none\n", (4, 0)), replies(b"none\n", (5, 3)), replies(b"none\n", (6, 0), (5, 0)),
        replies(b"none\n", (5, 0), (4, 0)), replies(b"none\n", (5, 0), (4, 0), (5, 0)), replies(b"none\n", (5, 0), length=6),
        replies(b"none\n", (5, 0), length=15), replies(b"none\n", (5, 0), length=2**64 - 1), replies(b"none\n"))],
    *[([cut], "get get", "get 16, get 16", ["the engine has ended: exit status: 0"] * 2) for cut in (b"", USAGE[:1], USAGE[:12], USAGE[:13], USAGE[:-1])],
    ([frame(0, b"x" * 100, length=2**62)], "get", "get 16", ["the engine has ended: exit status: 0"]),
]  # fmt: skip


class OtherPrograms(TestCase):
    def setUp(self):
        folder = tempfile.TemporaryDirectory()
        self.addCleanup(folder.cleanup)
        self.program = Path(folder.name) / "other"
        self.program.write_text(OTHER_ENGINE % sys.executable)
        self.program.chmod(0o755)

    def variables(self, given):
        return {"REPLIES": ",".join(reply.hex() for reply in [frame(0, replies(b"")), *given])}

    def test_replies_of_other_programs_are_told_in_c(self):
        for given, calls, wanted, _ in CASES:
            with self.subTest(given=given):
                self.assertEqual(ended(ends(), "replies", self.program, *calls.split(), **self.variables(given)), (0, f"0, {wanted}\n", ""))

    @needs("rustc")
    def test_replies_of_other_programs_are_told_in_rust(self):
        program = rust_program(HERE / "rust/engine.rs")
        for given, calls, _, wanted in CASES:
            with self.subTest(given=given):
                lines = "".join(f"{call}: {line}\n" for call, line in zip(calls.split(), wanted, strict=True))
                self.assertEqual(ended(program, "replies", *calls.split(), ENGINE=str(self.program), **self.variables(given)), (0, lines, ""))

    def test_changes_have_no_reply_in_c(self):
        self.assertEqual(ended(ends(), "replies", self.program, "apply", **self.variables([frame(0, b"x")])), (0, "0, apply 19\n", ""))
        sent = self.variables([USAGE, frame(1, numbers(8, 0, 0)), USAGE[:20]])
        calls = ["send", "send", "send", "receive", "get", "receive", "receive", "receive"]
        wanted = "0, send 0, send 0, send 0, receive 0 (28 bytes, 0 of 0 refused), get 18, receive 5 (8 0 0), receive 16, receive 18\n"
        self.assertEqual(ended(ends(), "replies", self.program, *calls, **sent), (0, wanted, ""))

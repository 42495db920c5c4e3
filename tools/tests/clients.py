"""Tests of the library for C, by its clients in C, Python and Rust: worked scripts in parts, sessions side by side, rows and refusals, wrong use, refused
memory, valgrind, and the programs of docs/C.md and docs/PYTHON.md. The library is that of BETABLE_LIBRARY, or bin/build_c builds it. A test that
needs valgrind or rustc is skipped where that is not installed."""

import ctypes
import os
import re
import shutil
import subprocess
import sys
import tempfile
import threading
from functools import cache, wraps
from pathlib import Path
from unittest import TestCase

from .common import build_extension, needs, output_of, SECONDS, TOP, type_of_fault

from betable import language

WORKED = TOP / "crates/test_scripts/data"
HERE = Path(__file__).resolve().parent
RUST_EXAMPLE = TOP / "clients/rust/example.rs"
TEXTS = ["", "Oslo", "Bergen, west", '"', 'a"b', " ", " x ", ".", "\ufeff", "\ufeffx", "end", "æøå", "a,b,", '","', "\0", "go", "refused 1 Syntax"]
LONG_TEXTS = ["a\nb", '\r\n"', "\n", "row 1\nrefused 6 BadField 1\n", "end\nend\n"]


@cache
def library():
    """The folder of the library."""
    folder = os.environ.get("BETABLE_LIBRARY")
    if folder is None:
        folder = str(TOP / "out")
        built = subprocess.run([TOP / "bin/build_c", folder], capture_output=True)
        if built.returncode != 0:
            raise RuntimeError(f"bin/build_c: {built.stderr.decode()}")
    os.environ["BETABLE_LIBRARY"] = folder
    return folder


@cache
def betable():
    """The Python client, as a module."""
    library()
    build_extension()
    sys.path.insert(0, str(TOP / "clients/python"))
    return __import__("betable")


def both_ways(test):
    """The test, with sessions of the extension, and then with those whose calls on values go by scripts."""

    @wraps(test)
    def tested(case):
        client = betable()
        usual, by_scripts = client.session.Session, client.session.ScriptSession
        case.addCleanup(setattr, client, "Session", usual)
        for client.Session in (usual, by_scripts):
            with case.subTest(session=client.Session.__name__):
                if client.Session is usual and client.session._packed is None:
                    case.skipTest("the extension of the Python package is not built")
                test(case)

    return tested


PACKED_CALLS = ("betable_apply", "betable_get", "betable_page", "betable_last_page", "betable_columns", "betable_sums")


class OtherLibrary:
    """The library of a session, with other functions in place of some of its own."""

    def __init__(self, session, functions):
        self.library, self.functions = session._bytes.library, functions
        session._bytes.library = self
        self.connect(session)

    def __getattr__(self, name):
        return self.functions.get(name) or getattr(self.library, name)

    def connect(self, session):
        # The extension has the addresses of its calls.
        getattr(session, "_connect_calls", lambda: None)()

    def end(self, session):
        session._bytes.library = self.library
        self.connect(session)


def library_without_memory(session, calls=PACKED_CALLS):
    """A library whose calls on packed bytes return that memory ran out, in a session."""
    module = betable().library
    kind = ctypes.CFUNCTYPE(ctypes.c_uint, ctypes.POINTER(module.Handle), ctypes.c_char_p, ctypes.c_size_t, ctypes.POINTER(module.Fault))
    return OtherLibrary(session, {name: kind(lambda *_: module.OUT_OF_MEMORY) for name in calls})


@cache
def programs():
    """A folder that goes with the process."""
    return tempfile.TemporaryDirectory()


def c_program(source, *options):
    path = Path(programs().name) / source.stem
    if not path.exists():
        words = ["cc", "-std=c11", "-O1", "-g", "-Wall", "-Wextra", "-Werror", f"-I{TOP}/include", source, *options, f"{library()}/libbt_c.a", "-o", path]
        output_of(words)
    return path


def setUpModule():
    """The library, the extension of the Python client, and the programs that more than one test runs, before tests run side by side."""
    library()
    build_extension()
    worked_scripts()
    for source in (TOP / "clients/c/example.c", HERE / "c/cuts.c", HERE / "c/wrong_use.c"):
        c_program(source)
    moved_session()
    if shutil.which("rustc"):
        rust_program(RUST_EXAMPLE)
        rust_program(HERE / "rust/typed.rs")


def compiled_by_rust(source):
    """How clients/rust/build ended on a program, and the path of the program, in a new folder, since the crate is put beside it."""
    library()
    path = Path(programs().name) / f"rust_{source.stem}" / source.stem
    path.parent.mkdir(exist_ok=True)
    return subprocess.run([TOP / "clients/rust/build", path, source], capture_output=True, text=True), path


@cache
def rust_program(source):
    compiled, path = compiled_by_rust(source)
    if compiled.returncode or compiled.stderr:
        raise AssertionError(compiled.stderr)
    return path


@cache
def worked_scripts():
    """Each worked script with its replies and the places where it may be cut."""
    found = []
    for wanted in sorted(WORKED.glob("*.stdout")):
        script = wanted.with_suffix("")
        found.append((script, wanted, places_between(script.read_bytes())))
    assert len(found) > 50, "worked scripts are missing"
    return found


def places_between(script):
    """Where commands begin, and the end: by the lines where the Python package finds commands, whose replies the library is to give."""
    starts = [0]
    for line in script.split(b"\n")[:-1]:
        starts.append(starts[-1] + len(line) + 1)
    places = {starts[command.head.number - 1] for command in language.commands(script)}
    return sorted(places | {0, len(script)})


def moved_session():
    return c_program(HERE / "c/moved_session.c", "-pthread")


def typed_calls_hold(test, what):
    ended = subprocess.run([rust_program(HERE / "rust/typed.rs"), what], capture_output=True, text=True, timeout=SECONDS)
    test.assertEqual((ended.returncode, ended.stdout, ended.stderr), (0, "", ""))


class Clients(TestCase):
    # Each test of cuts takes all pairs of places, with a second session alive beside the first, which takes the script in two parts.
    def test_cut_scripts_answer_as_whole_ones_in_c(self):
        program = c_program(HERE / "c/cuts.c")
        for script, wanted, places in worked_scripts():
            with self.subTest(script=script.name):
                ended = subprocess.run([program, script, wanted, "1", *map(str, places)], capture_output=True, timeout=SECONDS)
                self.assertEqual(ended.returncode, 0)

    def test_cut_scripts_answer_as_whole_ones_in_python(self):
        session = betable().Session
        for script, wanted, places in worked_scripts():
            text, wanted = script.read_bytes(), wanted.read_bytes()
            for high in places:
                with self.subTest(script=script.name, high=high):
                    with session() as two:
                        of_two = [two.replies(text[:high])]
                        for low in places[: places.index(high) + 1]:
                            with session() as three:
                                found = b"".join(three.replies(part) for part in (text[:low], text[low:high], text[high:]))
                            if found != wanted:
                                self.assertEqual((script.name, low, high), "equal replies")
                        of_two.append(two.replies(text[high:]))
                    self.assertEqual(b"".join(of_two), wanted)

    @needs("rustc")
    def test_cut_scripts_answer_as_whole_ones_in_rust(self):
        words = [word for script, wanted, places in worked_scripts() for word in ("--", script, wanted, *map(str, places))]
        ended = subprocess.run([rust_program(HERE / "rust/cuts.rs"), *words[1:]], capture_output=True, text=True, timeout=SECONDS)
        self.assertEqual((ended.returncode, ended.stdout, ended.stderr), (0, "", ""))

    def test_examples_run_files_on_one_table(self):
        """The example programs of C and Rust, which take parts of a script as files."""
        programs_of_files = [c_program(TOP / "clients/c/example.c")] + ([rust_program(RUST_EXAMPLE)] if shutil.which("rustc") else [])
        with tempfile.TemporaryDirectory() as folder:
            paths = [Path(folder) / str(number) for number in range(3)]
            for script, wanted, places in worked_scripts()[::5]:
                with self.subTest(script=script.name):
                    text, middle = script.read_bytes(), places[len(places) // 2]
                    for path, part in zip(paths, (text[:middle], b"", text[middle:])):
                        path.write_bytes(part)
                    for program in programs_of_files:
                        ended = subprocess.run([program, *paths], capture_output=True, timeout=SECONDS)
                        status = 2 if re.search(rb"^refused ", ended.stdout, re.MULTILINE) else 0
                        self.assertEqual((ended.stdout, ended.returncode, ended.stderr), (wanted.read_bytes(), status, b""))

    @both_ways
    def test_replies_of_worked_scripts_are_cut_as_their_text_says(self):
        """Where the library says that each reply is, beside a parser of their text, and by which commands are refused."""
        client = betable()
        for script, _, _ in worked_scripts():
            with self.subTest(script=script.name):
                given = script.read_bytes()
                with client.Session() as session:
                    replies, places = session._replies_with_places(given)
                commands = list(client.language.commands(given))
                self.assertEqual(len(places), len(commands))
                by_places, by_text = (list(client.replies.answered(commands, replies, some)) for some in (places, None))
                self.assertEqual(by_places, by_text)
                self.assertEqual(b"".join(reply for _, reply, _ in by_places), replies)

    def test_sessions_of_two_threads_do_not_meet(self):
        """Each with its session and its scripts, at the same time: Python releases its lock during a call."""
        client, faults = betable(), []

        def work(scripts):
            try:
                for script, wanted, _ in scripts:
                    with client.Session() as session:
                        self.assertEqual(session.replies(script.read_bytes()), wanted.read_bytes())
            except Exception as fault:
                faults.append(fault)

        threads = [threading.Thread(target=work, args=[worked_scripts()[first::2]]) for first in range(2)]
        for thread in threads:
            thread.start()
        for thread in threads:
            thread.join()
        self.assertEqual(faults, [])

    def test_programs_of_the_document_print_what_they_say(self):
        """Those of docs/C.md and docs/PYTHON.md, by the lines that follow them."""
        programs_of_pages = [
            ("C.md", "c", ".c", 1),
            ("C.md", "c", ".c", 2),
            ("PYTHON.md", "python", ".py", 1),
            ("C.md", "rust", ".rs", 1),
            ("C.md", "rust", ".rs", 2),
        ]
        for page, language, ending, place in programs_of_pages:
            with self.subTest(language=language):
                code, after = (TOP / "docs" / page).read_text().split(f"```{language}\n")[place].split("```\n", 1)
                source, wanted = Path(programs().name) / f"ten_lines{place}{ending}", after.split("```text\n")[1].split("```")[0]
                source.write_text(code)
                if language == "rust" and not shutil.which("rustc"):
                    self.skipTest("rustc is not installed")
                words = {"c": lambda: [c_program(source)], "python": lambda: [sys.executable, source], "rust": lambda: [rust_program(source)]}[language]()
                library()
                ended = subprocess.run(words, capture_output=True, text=True, env={**os.environ, "PYTHONPATH": str(TOP / "clients/python")})
                self.assertEqual((ended.returncode, ended.stdout, ended.stderr), (0, wanted, ""))

    def test_the_example_in_c_prints_its_rows(self):
        ended = subprocess.run([c_program(TOP / "clients/c/example.c")], capture_output=True, text=True)
        self.assertEqual((ended.returncode, ended.stdout, ended.stderr), (0, 'table 3\nbatch 2\nrow 2,"Bergen, west",10\n', ""))

    @needs("rustc")
    def test_the_example_in_rust_prints_its_rows(self):
        ended = subprocess.run([rust_program(RUST_EXAMPLE)], capture_output=True, text=True)
        self.assertEqual((ended.returncode, ended.stdout, ended.stderr), (2, '["1", "Oslo", "30"]\n["2", "Bergen, west", "10"]\nrefused 7 BadLength 1\n', ""))

    def test_rows_come_as_they_went(self):
        """Each text in quotes where it wants them, and each value by its kind."""
        client = betable()
        with client.Session() as session:
            session.run("table 16 64 16 1 id:int name:text ok:flag\n")
            rows = [(number - 3, text, number % 2 == 0) for number, text in enumerate(TEXTS)]
            self.assertEqual(session.put(iter(rows), most=5), len(rows))
            self.assertEqual(session.scan(), rows)
            self.assertEqual([session.get(row[0]) for row in rows], rows)
            self.assertIsNone(session.get(1_000))
            self.assertEqual(session.scan("primary", (0,), (2,)), rows[3:5])
            session.run("index by_name on name include ok\nbuild by_name 100\n")
            self.assertEqual(session.scan("by_name", ("Oslo",), ("Oslo", 1)), [("Oslo", -2, False)])
            session.batch([client.upsert(0, set={"name": 'x,"y"', "ok": False}), client.delete(1)])
            self.assertEqual((session.get(0), session.get(1)), ((0, 'x,"y"', False), None))
            self.assertEqual(session.sums("primary", 1, "id", (5,), (6,)), [(1, 5, 5)])
        with client.Session() as session:
            session.run("table 16 64 16 1 id:text name:text\n")
            rows = sorted((text, text) for text in TEXTS + LONG_TEXTS)
            self.assertEqual(session.load(rows), len(rows))
            self.assertEqual(session.scan(), rows)
        with client.Session() as session:
            session.run("table 16 64 16 1 hash:bytes least:int greatest:int\n")
            rows = [(b"", 3, 3), (b"\0\xff", -1, 7), (bytes(range(255)), 0, 0)]
            self.assertEqual(session.put(rows), len(rows))
            self.assertEqual(session.scan(), sorted(rows))
            session.batch([client.upsert(row[0], min={"least": 1}, max={"greatest": 5}) for row in rows])
            self.assertEqual([session.get(row[0])[1:] for row in rows], [(1, 5), (-1, 7), (0, 5)])
            self.assertEqual(type_of_fault(lambda: client.upsert(b"", most={"greatest": 1})), TypeError)

    def test_texts_that_no_line_has_are_told(self):
        """Of a load by each session, and of other calls where they go by scripts."""
        client = betable()
        calls = [lambda s: s.load([("a", "b\n.\nc")]), lambda s: s.put([("a", "b\nc")]), lambda s: s.get("\r")]
        for make, told in ((client.Session, calls[:1]), (client.session.ScriptSession, calls)):
            with self.subTest(make=make.__name__), make() as session:
                session.run("table 16 64 16 1 id:text name:text\n")
                for call in told:
                    self.assertEqual(type_of_fault(lambda: call(session)), client.RowValueError)
                self.assertEqual(session.scan(), [])

    def test_refusals_have_line_and_name(self):
        client = betable()
        with client.Session() as session:
            session.run("table 16 64 16 1 id:int name:text\n")
            with self.assertRaises(client.Refused) as raised:
                session.run("get 1\n\nbatch\nput 1,a\nput x,b\nend\nscan primary\ngo\nnothing\n")
            refused = raised.exception
            found = refused.line, refused.number, refused.name, refused.item, [reply[0] for reply in refused.replies]
            self.assertEqual(found, (3, 6, "BadField", 2, ["none", "refused 6 BadField 2", "rows 0", "refused 1 Syntax"]))
            self.assertIn("line 3: refused 6 BadField 2", str(refused))
            self.assertEqual(type_of_fault(lambda: session.put([(1, "a"), (2**63, "b")])), client.Refused)
            self.assertEqual(session.scan(), [])

    def test_wrong_use_is_answered(self):
        ended = subprocess.run([c_program(HERE / "c/wrong_use.c")], capture_output=True)
        self.assertEqual(ended.returncode, 0)
        session = betable().Session()
        session.close()
        session.close()
        self.assertEqual([type_of_fault(lambda: session.run("get 1\n")), type_of_fault(lambda: session.is_lost)], [ValueError, ValueError])

    def test_a_session_in_c_goes_from_thread_to_thread(self):
        """A lock and joins order the calls."""
        ended = subprocess.run([moved_session()], capture_output=True, text=True, timeout=SECONDS)
        self.assertEqual((ended.returncode, ended.stderr), (0, ""))

    @needs("valgrind")
    def test_helgrind_finds_no_race_in_a_session_that_goes_from_thread_to_thread(self):
        """Of valgrind, helgrind looks for accesses that nothing orders, those of the library too."""
        words = ["valgrind", "-q", "--tool=helgrind", "--error-exitcode=9", moved_session()]
        ended = subprocess.run(words, capture_output=True, text=True, timeout=SECONDS)
        self.assertEqual((ended.returncode, ended.stderr), (0, ""))

    @needs("rustc")
    def test_two_threads_in_rust_cannot_share_a_session_without_a_lock(self):
        source = Path(programs().name) / "shared.rs"
        source.write_text("fn is_shared<T: Sync>(_: T) {}\n\nfn main() {\n    is_shared(betable::Session::new().unwrap());\n}\n")
        compiled, _ = compiled_by_rust(source)
        self.assertTrue(compiled.returncode != 0)
        self.assertIn("cannot be shared between threads safely", compiled.stderr)

    @needs("rustc")
    def test_sessions_in_rust_go_from_thread_to_thread(self):
        typed_calls_hold(self, "threads")

    @needs("rustc")
    def test_replies_in_rust_are_cut_as_the_library_says(self):
        typed_calls_hold(self, "replies")

    @needs("rustc")
    def test_typed_changes_in_rust_leave_the_images_of_scripts(self):
        typed_calls_hold(self, "changes")

    @needs("rustc")
    def test_typed_reads_in_rust_give_the_rows_of_replies(self):
        typed_calls_hold(self, "reads")

    @needs("rustc")
    def test_pages_in_rust_repeat_and_lose_no_row(self):
        typed_calls_hold(self, "pages")

    @needs("rustc")
    def test_typed_sums_in_rust_are_those_of_replies(self):
        typed_calls_hold(self, "sums")

    @needs("rustc")
    def test_typed_usage_in_rust_is_that_of_the_image(self):
        typed_calls_hold(self, "usage")

    @needs("rustc")
    def test_trees_in_rust_are_those_that_scripts_make(self):
        typed_calls_hold(self, "trees")

    @needs("rustc")
    def test_wrong_typed_calls_in_rust_say_where_and_change_nothing(self):
        typed_calls_hold(self, "wrong")

    @needs("rustc")
    def test_typed_calls_in_rust_allocate_nothing_for_a_value(self):
        typed_calls_hold(self, "allocations")

    @needs("rustc")
    def test_worked_scripts_by_typed_calls_in_rust_leave_the_trees_that_they_leave(self):
        """Each batch, get, scan and sums of the worked scripts that has plain values is a typed call. The program compares, and prints how many there were."""
        words = [word for script, _, places in worked_scripts() for word in ("--", script, *map(str, places))]
        ended = subprocess.run([rust_program(HERE / "rust/scripts.rs"), *words[1:]], capture_output=True, text=True, timeout=SECONDS)
        self.assertEqual((ended.returncode, ended.stderr), (0, ""))
        batches, gets, scans, sums, refused = map(int, re.findall(r"\d+", ended.stdout))
        self.assertEqual((batches > 100, gets > 20, scans > 40, sums > 20, refused > 5), (True, True, True, True, True))

    def test_refused_memory_is_answered(self):
        """Each request, alone and with those after it: what is returned, what state is left, and that all memory is freed."""
        program = c_program(HERE / "c/refused_memory.c", "-Wl,--wrap=malloc,--wrap=realloc,--wrap=free")
        for script in (TOP / "tools/refused_allocations/all_commands.script", WORKED / "building_index"):
            with self.subTest(script=script.name):
                text = script.read_bytes()
                names = ["primary", *sorted(set(re.findall(r"^index (\w+)", text.decode(), re.MULTILINE)))]
                probe = Path(programs().name) / "probe"
                probe.write_text("".join(f"image {name}\n" for name in names))
                ended = subprocess.run([program, script, probe, *map(str, places_between(text))], capture_output=True, text=True, timeout=SECONDS)
                self.assertEqual((ended.returncode, ended.stderr), (0, ""))

    @needs("valgrind")
    def test_valgrind_finds_nothing(self):
        words = ["valgrind", "-q", "--leak-check=full", "--errors-for-leak-kinds=all", "--error-exitcode=9"]
        for program in (c_program(HERE / "c/wrong_use.c"), moved_session()):
            ended = subprocess.run([*words, program], capture_output=True, text=True)
            self.assertEqual((ended.returncode, ended.stderr), (0, ""))
        script = WORKED / "building_index"
        places = places_between(script.read_bytes())
        step = max(1, len(places) * (len(places) + 1) // 2 // 5)
        program = c_program(HERE / "c/cuts.c")
        ended = subprocess.run([*words, program, script, f"{script}.stdout", str(step), *map(str, places)], capture_output=True, text=True)
        self.assertEqual((ended.returncode, ended.stderr), (0, ""))

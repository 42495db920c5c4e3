"""Tests of tools/promises, and of who calls the public functions that it finds: each is reached by the program, the library for C, an example or a test, as
callers.py finds by the types of the sources."""

import re
import tempfile
from pathlib import Path
from typing import Any
from unittest import TestCase

from .callers import House
from .common import imported, run, TOP

promises: Any = imported("tools/promises")

# Public functions that nothing calls, each with the reason why it stays.
UNCALLED: dict[str, str] = {
    "bt_batch::Changes::is_empty": "stands beside `len`, as on the lists of the standard library",
    "bt_batch::Changes::len": "for callers in Rattle who collect changes: how many there are so far",
    "bt_messages::Packet::is_empty": "stands beside `len`, as on the lists of the standard library",
    "bt_value::Collected::new": "stands beside `with_capacity`, as on the lists of the standard library",
    "bt_record::Fields::is_empty": "stands beside `len`, as on the lists of the standard library",
    "bt_show::KeyRange::after": "the rest of a range after a page, for callers in Rattle; the library for C takes packed bounds instead",
    "bt_show::KeyRange::before": "the same for a page from the end of a range",
    "bt_engine::serve_table": "is the loop of requests on any streams and by any workforce, for callers in Rattle; the program frees no memory at its end",
    "bt_journal::damage": "is a law, and does nothing",
    "bt_journal::salts": "is a law, and does nothing",
}

# Functions of a module of the engine, although only callers outside of it need them, each with the reason.
BESIDE: dict[str, str] = {
    "bt_engine::serve_table": "is the loop of requests on any streams, for which THEOREM.md states the theorem",
    "bt_journal::damage": "is a law of the definitions of its crate",
    "bt_journal::salts": "is a law of the definitions of its crate",
    "bt_row::copy_change": "is the copy of an upsert that the trait `Merge` requires",
    "bt_shell::replies_to": "is the run of a script whose text is in memory",
    "bt_shell::run_script": "is the run of a script on any streams, for which THEOREM.md states the theorem",
}

# The programs and the library for C.
OFFERED = {"betable", "betable_engine", "bt_c"}

LIBRARY = """pub use list::{List, unused};
pub fn used(list: &List<u8>) -> usize
    requires { list.now ≢ [] }
    ensures { result ≡ 1 }
    ensures { IfOk list.now
        (requires known { true }) }
{ list.count() }
pub fn unused() {} // unused()
const MARK: u8 = b'"';
const TEXT: &str = "\\
unused()";
fn hidden() {}
pub struct List<T> { items: Vec<T> }
impl<T: Into<Vec<T>>> List<T> {
    pub fn new() -> Self { List { items: "unused()" } }
    #[must_use]
    pub fn count(&self) -> usize
        requires within { true }
        requires whole { true }
        ensures value { result ≡ unused self.now }
        ensures { true }
    {
        ghost assume { ensures later { true } }
        self.items.len()
    }
    pub fn first(&self) -> &T { first(&self.items) }
}
pub trait Shown {
    fn show(&self)
        ensures shown { true };
    fn hide(&self);
}
impl Shown for List<u8> {
    fn show(&self) { self.hide() }
}
"""
LAWS = "pub use self::law;\npub fn law()\n    ensures law { true }\n{}\n"
PROGRAM = "use lists::{List, used};\nfn main() { used(&List::new()); List::new().show() }\n"
DEFINITIONS = {"Lib.antt": "-- None.\n", "inside.antt": "-- None.\n", "Sizes.antt": "use Lists\n-- None.\n",
               "Lists.antt": "-- Lists of one kind,\n-- and what they hold. More.\nuse Sizes\n-- None.\n"}  # fmt: skip


def repository(folder: str) -> Path:
    """Three crates, one of them not a library."""
    top = Path(folder)
    (top / "crates.txt").write_text("# Three crates.\nlists:\nlaws: lists\nprogram: lists\n")
    for crate, file, code in (("lists", "lib.rt", LIBRARY), ("laws", "lib.rt", LAWS), ("program", "main.rt", PROGRAM)):
        source = top / "crates" / crate / "src"
        source.mkdir(parents=True)
        (source / file).write_text(code)
    for name, text in DEFINITIONS.items():
        (top / "crates/lists/specs" / name).parent.mkdir(exist_ok=True)
        (top / "crates/lists/specs" / name).write_text(text)
    return top


STORE = """mod inside;
pub use inside::{Session, Table as Board};
pub fn open() -> Result<Session, ()> { Ok(Session { tables: Vec::new(), last: None }) }
pub fn never() { open(); by_never() }
pub fn by_never() {}
pub trait Counts { fn count(&self) -> usize; }
impl Counts for Session { fn count(&self) -> usize { counted(self.tables().len()) } }
pub fn counted(n: usize) -> usize { n }
"""
INSIDE = """pub struct Table { rows: Vec<u8> }
impl Table { pub fn load(&mut self, text: &[u8]) -> usize { text.len() } }
pub struct Session { tables: Vec<Table>, last: Option<Table> }
impl Session {
    pub fn load(&mut self, text: &[u8]) {}
    pub fn tables(&self) -> &[Table] { self.tables.as_slice() }
    pub fn last(&mut self) -> Option<&mut Table> { self.last.as_mut() }
}
"""


def house_of(*programs: str) -> House:
    """That of the library `store`, and of these programs on it, whose names are a, b and so on."""
    sources = {"store/src/lib.rt": STORE, "store/src/inside.rt": INSIDE}
    for name, text in zip("abc", programs):
        sources[f"{name}/src/main.rt"] = f"use store::{{Board, Counts, Session, counted, open}};\n{text}"
    with tempfile.TemporaryDirectory() as folder:
        for path, text in sources.items():
            (Path(folder) / "crates" / path).parent.mkdir(parents=True, exist_ok=True)
            (Path(folder) / "crates" / path).write_text(text)
        (Path(folder) / "crates.txt").write_text("".join(["store:\n", *(f"{name}: store\n" for name, _ in zip("abc", programs))]))
        return House(Path(folder))


def reached_by(*programs: str) -> dict[str, str]:
    """The public functions of the library, each with the names of the programs that reach it."""
    return {name.removeprefix("store::"): "".join(names) for name, names in house_of(*programs).callers()}


LINES = """8 functions in 2 files, as `tools/promises` finds them.

### lists

- `specs`: `Lists` (Lists of one kind, and what they hold), `Sizes`
- `src/lib.rt`: `used` (requires, 2 ensures), `unused`, `List::new`, `List::count` (requires within, requires whole, value, ensures), `List::first`,
  `Shown::show` (shown), `Shown::hide`

### laws

- `src/lib.rt`: `law` (law)
"""


class PublicCalls(TestCase):
    def test_each_public_function_is_reached_by_a_program_or_a_test(self) -> None:
        found = House(TOP).callers()
        self.assertEqual(sorted(name for name, programs in found if not programs), sorted(UNCALLED))
        listed = {crate for crate, _, _ in (name.partition("::") for name, _ in found)}
        self.assertEqual(sorted(name for name, _ in found), sorted(str(one) for one in promises.functions_of(TOP) if one.crate in listed and not one.is_for_c))

    def test_functions_that_the_engine_does_not_call_are_in_library_calls(self) -> None:
        """Neither a program nor the library for C reaches a function of a module of this name, and no other function stays unreached."""
        programs = dict(House(TOP).callers())
        found = [one for one in promises.functions_of(TOP) if not one.type and not one.is_for_c and str(one) in programs]
        beside = [str(one) for one in found if not OFFERED & set(programs[str(one)]) and one.file != "library_calls.rt" and one.crate != "bt_laws"]
        self.assertEqual(sorted(beside), sorted(BESIDE))
        self.assertEqual([str(one) for one in found if one.file == "library_calls.rt" and OFFERED & set(programs[str(one)])], [])

    def test_functions_that_no_program_reaches_are_found(self) -> None:
        """The words after `use`, in comments, strings and clauses are no calls, and neither is that of a function with the name of a method."""
        with tempfile.TemporaryDirectory() as folder:
            found = House(repository(folder)).callers()
        self.assertEqual([name for name, programs in found if programs != ["program"]], ["lists::unused", "lists::List::first"])
        self.assertEqual(len(found), 7)

    def test_a_call_of_the_same_name_on_another_type_does_not_count(self) -> None:
        """Also on a type that is not known."""
        loads = [reached_by(text) for text in (
            "fn main() { let Ok(mut session) = open() else { return }; session.load(b\"\"); }", "fn main() { Session::load(s, b\"\") }",
            "struct Mine; impl Mine { fn load(&self, text: &[u8]) {} } fn f(mine: &Mine) { mine.load(b\"\") }", "fn load() { load() }",
        )]  # fmt: skip
        self.assertEqual([(found["Session::load"], found["Table::load"]) for found in loads], [("a", ""), ("a", ""), ("", ""), ("", "")])
        unknown = house_of('fn f(other: &Other) { other.table().load(b"") }')
        self.assertEqual((unknown.unknown, [names for name, names in unknown.callers() if name.endswith("load")]), (["a::f: .load()"], [[], []]))

    def test_the_type_of_a_receiver_is_found(self) -> None:
        """From parameters, fields, results, options, patterns, loops, closures, imports under another name, and types with parameters."""
        for text in (
            'fn f(table: &mut Board) { (*table).load(b""); }',
            'struct Held { board: Board } impl Held { fn f(&mut self) { self.board.load(b""); } }',
            'fn f(session: &mut Session) { if let Some(table) = session.last() && true { table.load(b""); } }',
            'fn f(session: &mut Session) { match session.last() { Some(session) if true => session.load(b""), _ => 0 }; }',
            'fn f() -> Result<(), ()> { for table in open()?.tables() { table.load(b""); } Ok(()) }',
            'fn f(session: &Session) { session.tables().iter().map(|table| table.load(b"")); }',
            'fn f(mut all: Vec<(u8, Board)>) { while let Some((_, table)) = all.pop() { table.load(b""); } }',
            'use store::Board as Other; fn f(tables: &mut [Other; 2]) { let load = |n: usize| tables[n].load(b""); }',
            'struct Pair<T> { one: T } impl<T> Pair<T> { fn one(self) -> T { self.one } } fn f(pair: Pair<Board>) { pair.one().load(b""); }',
            'enum Either<A, B> { Left(A), Right { of: B } } fn f(e: Either<Session, Board>) { if let Either::Right { of } = e { of.load(b""); } }',
            'fn f(mut all: Vec<Option<Board>>) { let mut kept = Vec::new(); for one in all { kept.push(one?); } kept[0].load(b""); }',
            "fn f() { let load = Board::load; }",
        ):
            with self.subTest(text=text):  # fmt: skip
                found = reached_by(text)
                self.assertEqual((found["Table::load"], found["Session::load"]), ("a", ""))

    def test_a_function_is_reached_by_each_program_that_calls_what_calls_it(self) -> None:
        """A trait's method reaches each implementation, and a function that nothing calls reaches nothing."""
        found = reached_by("fn main() { all(&open()?) } fn all<C: Counts>(c: &C) { c.count(); }", "fn main() { counted(1); }", "fn main() {}")
        names = ("open", "never", "by_never", "Counts::count", "counted", "Session::tables", "Session::last")
        self.assertEqual([found[name] for name in names], ["a", "", "", "a", "ab", "a", ""])

    def test_each_public_function_is_listed_with_its_clauses(self) -> None:
        """Methods and those of a public trait too; no clause of a body, no file of definitions inside, and nothing of a crate that is no library."""
        with tempfile.TemporaryDirectory() as folder:
            self.assertEqual(run("tools/promises", "--top", repository(folder)), (0, LINES, ""))

    def test_the_list_names_each_file_of_definitions_and_each_public_function(self) -> None:
        """In the section of its crate, in lines of at most 160 letters, found by patterns of this test."""
        lines = list(promises.lines_of(TOP))
        self.assertEqual([line for line in lines if len(line) > 160], [])
        sections = {title: text for title, _, text in (part.partition("\n") for part in "\n".join(lines).split("\n### ")[1:])}
        files = {(path.parents[1].name, path.stem) for path in TOP.glob("crates/bt_*/specs/*.antt") if path.stem not in ("Lib", "inside")}
        self.assertEqual(sorted((crate, name) for crate, name in files if f"`{name}`" not in sections[crate].split("\n- `src/")[0]), [])
        found = {(path.relative_to(TOP).parts[1], name) for path in TOP.glob("crates/bt_*/src/**/*.rt")
                 for name in re.findall(r'^ *pub (?:unsafe |extern "C" )*fn (\w+)', path.read_text(), re.MULTILINE)}  # fmt: skip
        self.assertEqual(sorted((crate, name) for crate, name in found if not re.search(rf"[`:]{name}`", sections[crate])), [])
        self.assertEqual((len(files) > 100, len(found) > 250), (True, True))

    # Those that ask for no program.
    def test_contracts_that_a_page_quotes_are_those_of_the_sources(self) -> None:
        """Line by line, without the indentation of a method, and up to its body."""
        codes = [re.sub(r"(?m)^    ", "", path.read_text()) for path in TOP.glob("crates/bt_*/src/**/*.rt")]
        quoted = re.findall(r"```text\n(pub fn .*?)```", (TOP / "docs/VERIFYING.md").read_text(), flags=re.DOTALL)
        self.assertEqual((len(quoted) > 0, [contract for contract in quoted if not any(f"{contract}{{\n" in code for code in codes)]), (True, []))

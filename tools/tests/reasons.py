"""Tests of the reasons of refusals, by the library for C and the Python client: each problem, and random commands beside their replies."""

import re
from itertools import count
from unittest import TestCase

from .clients import betable, library, OtherLibrary
from .common import fault_of, imported, run, TOP, PROGRAM, ProgramTestCase

from betable import language
from betable.reasons import Problem, empty_session, problem_of

TABLE = "table 4 3 2 2 id:int part:text on:flag raw:bytes qty:int\nindex by_part on part include qty\nindex by_on on on,raw include qty\nbuild by_on 1\n"
# Commands, each with its reason: the refusal, the item, the field and the problem.
CASES = [
    ("get 1", (7, 1, 0, "FIELD_COUNT")),
    ("get x,a", (6, 1, 1, "NO_INT")),
    ("batch\nput 1,a,true,00,0\nput 1,a,true,00,9223372036854775808\nend", (6, 2, 5, "INT_RANGE")),
    (f"batch\ndel 1,{'a' * 256}\nend", (6, 1, 2, "TOO_LONG")),
    (f"load\nid,part,on,raw,qty\n1,a,true,00,0\n2,a,true,{'00' * 256},0\n.", (6, 2, 4, "TOO_LONG")),
    (b"scan by_part\nfrom a\nto \xff,x\ngo", (6, 2, 1, "NO_TEXT")),
    ("sums by_on 1 qty\nfrom yes\nto true,0\ngo", (6, 1, 1, "NO_FLAG")),
    ("batch\nput 1,a,true,0g,0\nend", (6, 1, 4, "NO_HEX")),
    ("scan by_on\nto true,012\ngo", (6, 2, 2, "ODD_DIGITS")),
    ("batch\n\nups 1,a,inc,qty,1\nend", (6, 1, 3, "NO_OPERATION")),
    ("batch\nups 1,a,add,qty,1,set,town,x\nend", (15, 1, 7, "NO_COLUMN")),
    ("batch\ndel 1,a\nups 1,a,set,part,b\nend", (15, 2, 4, "KEY_COLUMN")),
    ("batch\nups 1,a,add,qty,1,max,on,1\nend", (16, 1, 7, "NO_INT_COLUMN")),
    ("batch\n" + "del 1,a\n" * 65_537 + "end", (10, 65_537, 0, "MANY_MESSAGES")),
    ("load\n\ufeff\ufeffid,part,on,raw,qty\n.", (5, 0, 0, "SECOND_MARK")),
    ("load\n\n.", (5, 0, 0, "NO_HEADER")),
    ("load\nid,part,off,raw,quantity\nx\n.", (5, 0, 3, "OTHER_NAME")),
    ("load\nid,part\n.", (5, 0, 0, "FIELD_COUNT")),
    ("batch\nput 1\nups 1,a,add,on,x,add,town,x\nups 1,a,set,town,x\nput 1,a,yes,0,x\nput x\nend", (6, 4, 3, "NO_FLAG")),
    ("scan by_part\nfrom a,1,b,0\nto a,1,0\ngo", (7, 1, 0, "FIELD_COUNT")),
]  # fmt: skip
# Commands that are refused for another reason, or are not refused.
WITHOUT_REASON = ("get 1,a", "batch\nend", "scan none\nfrom x\ngo", "put x", "batch\nput\nend", "index a on x", "get 1,a\nget x", "")
# The refusals that are of records, by the words of commands. Those of the columns of `sums` have the numbers 15 and 16 too.
OF_RECORDS = {b"batch": (6, 7, 10, 15, 16), b"load": (5, 6, 7), b"get": (6, 7), b"scan": (6, 7), b"sums": (6, 7)}


def setUpModule():
    library()


class Reasons(TestCase):
    def setUp(self):
        self.session = betable().Session()
        self.addCleanup(self.session.close)
        self.session.replies(TABLE)

    def test_problems_are_those_of_the_header_and_of_rust(self):
        text = (TOP / "include/betable.h").read_text()
        codes = re.findall(r"BETABLE_([A-Z_]+) = ([0-9]+)", text[text.index("what is wrong with a field".capitalize()) : text.index("} betable_problem;")])
        self.assertEqual([(name, int(code)) for name, code in codes], [(one.name, one.value) for one in Problem])
        in_rust = (TOP / "clients/rust/reason.rs").read_text()
        names = ["".join(word.capitalize() for word in one.name.split("_")) for one in Problem]
        for start, others in (("pub enum Problem {", ["Unknown"]), ("const PROBLEMS: [Problem; 16] = [", [])):
            found = re.sub("///.*", "", re.split("[]}]", in_rust.partition(start)[2])[0])
            self.assertEqual(re.findall(r"[A-Z][A-Za-z]+", found), names + others)

    def test_each_problem_has_its_reason(self):
        self.assertEqual({name for _, (*_, name) in CASES}, {one.name for one in Problem})
        for script, (*numbers, name) in CASES:
            self.assertEqual(self.session.explain(script if isinstance(script, bytes) else script + "\n"), (*numbers, Problem[name]), script[:80])
        for script in WITHOUT_REASON:
            self.assertIsNone(self.session.explain(script), script)

    def test_reasons_are_those_of_the_replies(self):
        """Of the commands of random scripts, until a thousand have one: the refusal and the item of the reply; the same on a table without rows; and the first
        field that is no value, by what Python knows of fields."""
        scripts, found = imported("tools/fuzz/scripts.py"), []
        for number in count():
            if len(found) >= 1_000:
                break
            with betable().Session() as session:
                for command in language.commands(scripts.script(3, number)):
                    script = b"%b\n%b%b" % (command.head.raw, command.block, command.closing + b"\n" if command.is_closed else b"")
                    reason, trees, words = session.explain(script), session.trees(), session.replies(script).split()
                    of_records = OF_RECORDS.get(command.head.word, ()) if trees and words[0] == b"refused" else ()
                    self.assertEqual(reason is not None, bool(of_records) and int(words[1]) in of_records, script)
                    if reason:
                        self.assertEqual((reason.refusal, reason.item), (int(words[1]), int(words[3]) if len(words) > 3 else reason.item), script)
                        self.assertEqual(empty_session(trees).explain(script), reason, script)
                        self.expect_first_field(command, reason, trees)
                        found.append((command.head.word, reason.problem))
        self.assertEqual({word for word, _ in found}, OF_RECORDS.keys())
        self.assertEqual(set(Problem) - {problem for _, problem in found}, {Problem.MANY_MESSAGES})

    def expect_first_field(self, command, reason, trees):
        """That the field at fault of a record is no value of its column, and those before it are."""
        if reason.refusal != 6 or command.closing == b"go":
            return
        if command.head.word == b"load":
            word, raw = b"put", [record for _, record in command.records()][reason.item]
        else:
            line = command.head if command.head.word == b"get" else command.messages()[reason.item - 1]
            word, raw = line.word, language.record_of_line(line.rest)[0]
        columns = trees.columns if word == b"put" else trees.key
        problems = [problem_of(kind.decode(), value) for value, (_, kind) in zip(language.fields(raw), columns)][: reason.field]
        self.assertEqual(problems, [None] * (reason.field - 1) + [reason.problem] if reason.field <= len(columns) else [None] * len(columns), raw)

    def test_a_reason_changes_neither_the_table_nor_the_replies(self):
        self.session.replies("batch\nput 1,a,true,00,5\nput 2,b,false,ff,6\nend\n")
        images = "image primary\nimage by_part\nimage by_on\n"
        trees, before = self.session.trees(), self.session.replies(images)
        for script in [script for script, _ in CASES] + ["batch\nput 9,z,true,00,1\ndel 1,a\nend\n", "drop by_on\n", "table 4 3 2 1 id:int\n"]:
            self.session.explain(script)
            self.assertEqual((self.session._bytes.copied(), self.session.trees()), (before, trees))
        self.assertEqual(self.session.replies(images), before)

    def test_a_session_without_a_table_or_memory_has_no_reason(self):
        client = betable()
        with client.Session() as session:
            self.assertIsNone(session.explain("get x\n"))
        self.assertEqual(type(fault_of(lambda: session.explain("get x\n"))), ValueError)
        self.assertEqual(type(fault_of(lambda: self.session.explain(5))), TypeError)
        other = OtherLibrary(self.session, {"betable_explain": lambda *_: client.library.OUT_OF_MEMORY})
        self.assertEqual(type(fault_of(lambda: self.session.explain("get x\n"))), client.OutOfMemory)
        other.end(self.session)
        self.assertEqual(self.session.explain("get x,a\n"), (6, 1, 1, Problem.NO_INT))


class WithoutTheLibrary(ProgramTestCase):
    def test_explain_says_how_the_library_is_built(self):
        words = ["/usr/bin/env", "BETABLE_LIBRARY=/nowhere", TOP / "tools/explain", "--program", PROGRAM]
        status, text, errors = run(*words, given=b"table 4 3 2 1 id:int\nget x\n")
        self.assertEqual((status, text, "bin/build_c" in errors, "Traceback" in errors), (3, "", True, False))
        self.assertEqual(run(*words, given=b"table 4 3 2 1 id:int\n")[0], 0)

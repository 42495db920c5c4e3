"""Tests of the prompt, `betable shell`: its commands over a pipe, files in and out, a durable table, and real keys at a terminal. The library is that of
BETABLE_LIBRARY, or bin/build_c builds it."""

import os
import pty
import random
import re
import select
import signal
import subprocess
import tempfile
import time
from contextlib import contextmanager
from importlib import import_module
from pathlib import Path
from unittest import TestCase

from .clients import betable, library
from .common import SECONDS, TOP

PYTHON = "/usr/bin/python3"
TABLE = "table 4 3 2 1 id:int city:text qty:int\n"
CITIES = f"{TABLE}.import {TOP}/examples/cities.csv\n"
NO_TABLE = "there is no table yet: make one by 'table', as 'table 16 1024 256 1 id:int city:text qty:int'"
HARD_TEXTS = ["", ".", "..", '"', 'a"b', '""', ",", "\ufeffx", '\ufeff"', " ", " x ", "row x", "end", "put 1", "\0", "æøå", "'", "x\ty"]


def environment(**more):
    package = {"BETABLE_LIBRARY": library(), "PYTHONPATH": str(TOP / "clients/python"), "PYTHONDONTWRITEBYTECODE": "1"}
    return {**os.environ, **package, "INPUTRC": "/dev/null", **more}


def prompt(lines, *words, folder=TOP):
    """The status and the streams of the prompt on lines that come by a pipe."""
    given = lines if isinstance(lines, bytes) else lines.encode()
    ended = subprocess.run([PYTHON, "-m", "betable", "shell", *words], input=given, capture_output=True, cwd=folder, env=environment(), timeout=SECONDS)
    return ended.returncode, ended.stdout.decode(), ended.stderr.decode()


def printed(test, lines, *words):
    """What the prompt prints on lines if none is refused."""
    status, text, errors = prompt(lines, *words)
    test.assertEqual((status, errors), (0, ""))
    return text


# ---- replies ----


def setUpModule() -> None:
    library()


class Replies(TestCase):
    def test_rows_are_aligned_tables_with_their_counts(self):
        text = printed(self, f'{TABLE}batch\nput 1,Oslo,30\nput 20,東京,-5\nput 3,"a""b, c",0\nend\nscan primary\ngo\nget 20\nget 4\n')
        self.assertEqual(text, """table 3
batch 3
id  city    qty
--  ------  ---
 1  Oslo     30
 3  a"b, c    0
20  東京     -5
3 rows
id  city  qty
--  ----  ---
20  東京   -5
1 row
0 rows
""")  # fmt: skip
        groups = printed(self, f"{CITIES}index c on city include qty\nbuild c 99\nsums c 1 qty\nto C\ngo\nscan c\nfrom Bergen\nto Bergen\x01\ngo\n")
        self.assertEqual(groups.split("complete\n")[1], """count  sum  city
-----  ---  ------
    1   21  Alta
    2   36  Bergen
    1    9  Bodø
3 groups
city    id  qty
------  --  ---
Bergen   2   20
Bergen   7   16
2 rows
""")  # fmt: skip

    def test_texts_with_line_breaks_stay_in_their_row(self):
        self.assertEqual(printed(self, 'table 4 3 2 1 id:int t:text\nload\nid,t\n1,"a\nrow 2,b"\n2,c\n.\nscan primary\ngo\n').splitlines()[2:], [
            "id  t", "--  ---------", " 1  a↵row 2,b", " 2  c", "2 rows",
        ])  # fmt: skip

    def test_the_rows_of_a_reply_can_be_limited(self):
        lines = printed(self, f"{CITIES}.limit 2\nscan primary\ngo\nimage primary\n.limit off\nscan primary\ngo\n").splitlines()
        self.assertEqual(lines[4:7], [" 1  Oslo     30", " 2  Bergen   20", ".. 10 more: .limit off shows all, and .export FILE writes all rows to a file"])
        self.assertEqual((lines[7], lines[8], lines[10].startswith(".. "), len(lines)), ("12 rows", "image primary height 3", True, 11 + 15))

    def test_times_are_shown_if_asked_for(self):
        text = printed(self, f".timer on\n{TABLE}get 1\n.timer off\nget 1\n")
        self.assertEqual(re.sub(r"\d+\.\d{3} s", "N s", text), "table 3 (N s)\n0 rows (N s)\n0 rows\n")


# ---- commands of the prompt ----


def betable_module(name):
    betable()
    return import_module(f"betable.{name}")


class CommandsOfThePrompt(TestCase):
    def test_help_lists_each_command(self):
        commands = betable_module("shell.prompt").DOT_COMMANDS
        text = printed(self, ".help\n")
        self.assertEqual([line.split()[0] for line in text.splitlines()[: len(commands)]], list(commands))
        for word in betable().language.FORMS:
            self.assertIn(word.decode(), text)
            self.assertIn(betable().language.FORMS[word], printed(self, f".help {word.decode()}\n"))
        self.assertEqual(printed(self, ".help tree\n"), ".tree [TREE]\n  draws a tree: primary, or an index\n")
        self.assertEqual(prompt(".help bach\n"), (1, "", "error: 'bach' is not a command: did you mean 'batch'?\n"))

    def test_help_of_a_table_has_one_that_can_be_copied(self):
        text = printed(self, ".help table\n")
        for part in ("table 16 1024 256 1 id:int city:text qty:int", "F: the most children", "K: how many of the columns are the key", "int, text, flag or bytes"):
            self.assertIn(part, text)

    def test_help_knows_the_lines_of_blocks(self):
        for word, part in (("put", "put 3,Oslo,12"), ("del", "del 3"), ("ups", "ups 3,add,qty,-5,set,city,Oslo"), ("from", "from Oslo,3"), ("to", "to P")):
            lines = printed(self, f".help {word}\n").splitlines()
            self.assertEqual(lines[0], f"{word} record")
            self.assertIn(part, lines[1])
        text = printed(self, f"{TABLE}batch\nput 3,Alta,12\nups 3,add,qty,-5,set,city,Oslo\nend\nscan primary\ngo\n")
        self.assertIn(" 3  Oslo    7\n", text)

    def test_a_table_without_its_numbers_is_told_with_them(self):
        self.assertIn("write table 16 1024 256 1 id:int name:text\n", prompt("table id:int name:text\n")[1])
        self.assertEqual(printed(self, "table 16 1024 256 1 id:int name:text\n"), "table 2\n")

    def test_kinds_of_other_programs_lead_to_the_right_ones(self):
        for kind, part in (("float", "write int, for decimals in a fixed unit, as cents"), ("VARCHAR", "write text"), ("boolean", "write flag")):
            self.assertIn(f"a kind is int, text, flag or bytes: {part}\n", prompt(f"table 16 1024 256 1 id:int qty:{kind}\n")[1])
        self.assertIn("a kind is int, text, flag or bytes\n", prompt("table 16 1024 256 1 id:int qty:colour\n")[1])

    def test_the_schema_and_the_indexes_are_those_that_were_made(self):
        index = 'index c on city,qty include id where city = "x, y"\n'
        text = printed(self, f"{TABLE}.indexes\n{index}index d on qty\nbuild d 1\n.schema\n.indexes\ndrop c\n.indexes\n")
        self.assertEqual(text, f"""table 3
0 indexes
index c
index d
build d 0 complete
{TABLE}{index}index d on qty
name  on        include  where        complete
----  --------  -------  -----------  --------
c     city,qty  id       city = x, y  building
d     qty                             yes
2 indexes
dropped c
name  on   include  where  complete
----  ---  -------  -----  --------
d     qty                  yes
1 index
""")  # fmt: skip

    def test_trees_are_drawn_in_characters(self):
        puts = "".join(f"put {key},x,{key}\n" for key in range(1, 7))
        text = printed(self, f"{TABLE}batch\n{puts}end\nrebuild primary\nbatch\nups 2,add,qty,5\ndel 9\nend\n.tree\nindex c on city\n.tree c\n")
        self.assertEqual(text.split("batch 2\n")[1], """primary (id), height 2
inner, 2 messages
│ ~ 2 add,qty,5
│ - 9
├─ leaf, 2 rows
│    1,x,1
│    2,x,2
│ | 3
├─ leaf, 2 rows
│    3,x,3
│    4,x,4
│ | 5
└─ leaf, 2 rows
     5,x,5
     6,x,6
index c
c (city, id), height 1
leaf, 0 entries
""")  # fmt: skip
        self.assertEqual(prompt(f"{TABLE}.tree c\n")[2], "error: no tree is named 'c': there is primary\n")

    def test_refusals_are_explained(self):
        status, text, errors = prompt(f"{CITIES}get Oslo\n.explain\nbatch\nput 1,a\nput x,b,3\nend\n.explain\n")
        self.assertEqual((status, errors), (1, ""))
        self.assertEqual(text.split("loaded\n")[1], """refused 6 BadField 1
  column 1 'id' (int): 'Oslo' is no whole number
get Oslo
refused 6 BadField 1
  column 1 'id' (int): 'Oslo' is no whole number
  get finds a row by its key, id. By city: an index on it, and a scan (docs/HOW_TO.md, The rows of one value)
  A field is no value of its column.
refused 6 BadField 2
  line 2: 2 fields, and a put has 3 (id, city, qty): put 1,a
batch
refused 6 BadField 2
  line 2: 2 fields, and a put has 3 (id, city, qty): put 1,a
  line 3, column 1 'id' (int): 'x' is no whole number
  A field is no value of its column.
""")  # fmt: skip
        self.assertEqual(printed(self, ".explain\n"), "no command was refused\n")

    def test_words_of_other_programs_lead_to_the_right_ones(self):
        for line, said in (
            ("help", "'help' is not a command: write .help"),
            ("exit;", "'exit;' is not a command: write .quit"),
            ("show tables", "'show' is not a command: write .schema"),
            ("select * from rows", "'select' is not a command here: read rows by 'get key', or by 'scan primary' and 'go', and groups of rows by 'sums'"),
            ("insert into rows values (1)", "'insert' is not a command here: put rows by 'batch', a line 'put record' for each, and 'end'"),
            ("scna primary", "'scna' is not a command: did you mean 'scan'?"),
            ("drain primary;", "'primary;' ends with a semicolon, which no line has: write 'primary'"),
        ):
            with self.subTest(line=line):
                self.assertEqual(prompt(f"{line}\n"), (1, f"refused 1 Syntax\n  {said}\n", ""))
        for line, said in (
            (".tables", "'.tables' is not a command: did you mean .schema?"),
            (".dump", "'.dump' is not a command: did you mean .export?"),
            (".shema", "'.shema' is not a command: did you mean .schema?"),
            (".HELP", "'.HELP' has capitals: write .help"),
            (".schema;", "'.schema;' ends with a semicolon, which no line has: write .schema"),
            (".xyzzy", "'.xyzzy' is not a command; .help lists them"),
            (".import", "the form: .import FILE"),
            (".timer maybe", "the form: .timer on|off"),
            (".limit 0", "the form: .limit N|off"),
            (".read 'a", "No closing quotation"),
            (".read /nowhere/x", "/nowhere/x: No such file or directory"),
            (".schema", "there is no table yet: make one by 'table', as 'table 16 1024 256 1 id:int city:text qty:int'"),
        ):
            with self.subTest(line=line):
                self.assertEqual(prompt(f"{line}\n"), (1, "", f"error: {said}\n"))

    def test_a_pipe_goes_on_after_a_refusal_unless_it_is_to_end(self):
        refused = "refused 3 NoTable\n  There is no table yet. A 'table' command has to come first, and has to be answered itself.\n"
        for first, text in (("get 1\n", refused), (".quti\n", ""), (".import /nowhere/x\n", ""), (".read /nowhere/x\n", "")):
            with self.subTest(first=first):
                self.assertEqual(prompt(f"{first}{TABLE}")[:2], (1, f"{text}table 3\n"))
                self.assertEqual(prompt(f"{first}{TABLE}", "--bail")[:2], (1, text))
        self.assertEqual(printed(self, f"{TABLE}.quit\nget x\n"), "table 3\n")
        # A block that the end leaves open is not carried out, and a last line needs no line break.
        self.assertIn("refused 2 Unfinished", prompt(f"{TABLE}batch\nput 1,a,1")[1])
        self.assertEqual(printed(self, f"{TABLE}get 1"), "table 3\n0 rows\n")

    def test_scripts_are_read(self):
        with tempfile.TemporaryDirectory() as folder:
            script = Path(folder) / "a script"
            script.write_text((TOP / "examples/first_steps").read_text())
            text = printed(self, f".read '{script}'\n")
            replies = (TOP / "examples/first_steps.stdout").read_text()
            of_changes = [[line for line in part.splitlines() if line.startswith(("table", "batch", "loaded"))] for part in (text, replies)]
            self.assertEqual(*of_changes)
            # Of several pieces, with the lines of the file.
            script.write_text(TABLE + "".join(f"batch\nput {key},{'x' * 200},1\nend\n" for key in range(9_000)) + "get y\nscan primary\nfrom 8999\ngo\n")
            status, text, _ = prompt(f".read '{script}'\n.explain\n")
            wanted = ["refused 6 BadField 1", "  column 1 'id' (int): 'y' is no whole number"]
            self.assertEqual((status, text.count("batch 1\n"), text.splitlines()[9001:9003]), (1, 9_000, wanted))
            with open(script, "wb") as stream:
                stream.truncate(67_108_865)
            self.assertIn("has more than 67,108,864 bytes, the most of a script: divide it, or put a CSV file in by .import", prompt(f".read '{script}'\n")[2])

    def test_a_reader_that_goes_ends_the_prompt_without_a_word(self):
        words = [PYTHON, "-m", "betable", "shell"]
        for lines in ("get 1\n" * 20_000, ".help\n" * 20_000):
            pipes = dict.fromkeys(("stdin", "stdout", "stderr"), subprocess.PIPE)
            with tempfile.TemporaryFile() as script, subprocess.Popen(words, **{**pipes, "stdin": script}, env=environment(), cwd=TOP) as running:
                script.write((TABLE + lines).encode())
                script.seek(0)
                self.assertEqual(running.stdout.read(8), b"table 3\n")
                running.stdout.close()
                self.assertEqual((running.stderr.read(), running.wait(SECONDS)), (b"", 1))


# ---- files in and out ----


def imported(test, text, most_bytes, before=""):
    """What an import of a CSV text has done, and the rows that are then in the table."""
    files = betable_module("shell.files")
    with betable().Session() as session, tempfile.TemporaryDirectory() as folder:
        session.run("table 4 3 2 1 id:int city:text\n" + before)
        path = Path(folder) / "rows.csv"
        path.write_bytes(text if isinstance(text, bytes) else text.encode())
        parts = []
        steps = list(files.import_csv(session, session.trees(), str(path), lambda part, rows: parts.append(part), most_bytes))
        test.assertEqual((parts == sorted(parts), parts[-1], [step.is_end for step in steps]), (True, 1, [False] * (len(steps) - 1) + [True]))
        return steps[-1], session.scan()


class FilesInAndOut(TestCase):
    def test_a_file_over_the_limit_is_imported_in_batches(self):
        """Of any texts that a line can have: the rows are those of a load."""
        dice, files = random.Random(65), betable_module("shell.files")
        before = files.READ_BYTES
        try:
            for number in range(60):
                files.READ_BYTES = dice.choice([1, 7, 64, 4096])
                rows = [(key, dice.choice(HARD_TEXTS)) for key in dice.sample(range(-50, 1000), 40)]
                lines = [
                    f'{key},"{text.replace(chr(34), chr(34) * 2)}"' if dice.random() < 0.5 or set(text) & set('",') else f"{key},{text}" for key, text in rows
                ]
                text = dice.choice(["", "\ufeff"]) + dice.choice(["\n", "\r\n", "\n\n"]).join(["id,city", *lines]) + dice.choice(["", "\n"])
                loaded, there = imported(self, text, 1 << 20)
                self.assertEqual((loaded.rows, loaded.batches, there), (40, 0, sorted(rows)))
                put, there = imported(self, text, 150)
                self.assertEqual((put.rows, put.refused, put.batches > 2, there), (40, 0, True, sorted(rows)))
        finally:
            files.READ_BYTES = before

    def test_records_that_are_refused_are_told_and_the_others_put(self):
        rows = "".join(f"{key},x\n" for key in range(100))
        text = f'id,city\n{rows}a,y\n7\n800,"y\nz"\n9,{"z" * 256}\n\n{rows.replace("x", "w")}1,2,3\n'
        for most_bytes in (1 << 20, 200):
            done, there = imported(self, text, most_bytes)
            self.assertEqual((done.rows, done.refused, there), (201, 4, [*((key, "w") for key in range(100)), (800, "y\nz")]))
            self.assertEqual([(refusal.line, refusal.reason.split(":")[-1].split(",")[0].strip()) for refusal in done.refusals], [
                (102, "'a' is no whole number"), (103, "7"), (106, f"'{'z' * 40}…'"), (208, "1"),
            ])  # fmt: skip
        # Texts with line breaks are put like others, also beside rows, and their batch without those that are wrong.
        text = 'id,city\r\n1,"a\r\nb"\r\n2,"c\n\n,""d"""\r\nx,"e\nf"\r\n3,"g\rh"\r\n4,"i\nj"k\r\n5,l\r\n'
        for before in ("", "batch\nput 2,x\nput 6,y\nend\n"):
            done, there = imported(self, text, 1 << 20, before)
            wanted = [(1, "a\r\nb"), (2, 'c\n\n,"d"'), (3, "g\rh"), (5, "l"), *([(6, "y")] if before else [])]
            self.assertEqual((there, done.rows, done.refused), (wanted, 4, 2))
            self.assertEqual([refusal.line for refusal in done.refusals], [7, 10])
            self.assertIn("goes on after its closing quote", done.refusals[1].reason)
        # Rows that are in are replaced by those of the file, and the others stay.
        done, there = imported(self, "id,city\n1,a\n2,b\n", 1 << 20, "batch\nput 2,x\nput 3,y\nend\n")
        self.assertEqual((done.rows, done.batches, done.refused, there), (2, 1, 0, [(1, "a"), (2, "b"), (3, "y")]))
        # Of many faults only the first ones are reported; a quote that is never closed ends the import.
        done, there = imported(self, "id,city\n" + "x,y\n" * 1_000 + "1,a\n", 1 << 20)
        self.assertEqual((done.rows, done.refused, len(done.refusals), there), (1, 1_000, 10, [(1, "a")]))
        done, there = imported(self, 'id,city\n1,a\n2,"b\n' + "3,c\n" * 3_000_000, 1 << 20)
        self.assertEqual((done.rows, done.refused, done.refusals[0].line, there), (1, 1, 3, [(1, "a")]))
        self.assertIn("is not closed: was a quote forgotten?", done.refusals[0].reason)

    def test_imports_say_what_they_did(self):
        with tempfile.TemporaryDirectory() as folder:
            path = Path(folder) / "a file.csv"
            path.write_text("id,city,qty\n1,Oslo,30\nx,Oslo,2\n")
            said = "line 3: column 1 'id' (int): 'x' is no whole number\n1 row put by 1 batch, and 1 record refused\n"
            self.assertEqual(prompt(f"{TABLE}.import '{path}'\nget 1\n")[:2], (1, f"table 3\n{said}id  city  qty\n--  ----  ---\n 1  Oslo   30\n1 row\n"))
            for text, said in (
                (
                    "city,id,qty\n",
                    "line 1, column 1 'id': the header has 'city' there; line 1, column 2 'city': the header has 'id' there. Expected: id,city,qty",
                ),
                ("", "the block has no header. Expected: id,city,qty"),
                ("\x1f\x8b", "is compressed by gzip: unpack it first, as by gunzip"),
            ):
                path.write_bytes(text.encode("latin-1"))
                self.assertIn(said, prompt(f"{TABLE}.import '{path}'\n")[2])
            path.write_text("id,is_open,city\n1,true,Oslo\n2,FALSE,3\n")
            self.assertIn(
                "Make one that has the columns of the file, as\n  table 16 1024 256 1 id:int is_open:flag city:text\n", prompt(f".import '{path}'\n")[2]
            )
            path.write_text("Id number,city\n1,Oslo\n")
            self.assertIn("tools/from_csv --csv writes a file with such names", prompt(f".import '{path}'\n")[2])
            self.assertEqual(prompt(f"{TABLE}.import {folder}/nope\n")[2], f"error: {folder}/nope: No such file or directory\n")

    def test_exported_rows_are_those_that_are_imported(self):
        with tempfile.TemporaryDirectory() as folder:
            source, path, index = Path(folder) / "source.csv", Path(folder) / "rows.csv", Path(folder) / "index.csv"
            rows = [f'{key},"{text.replace(chr(34), chr(34) * 2)}"' for key, text in enumerate([*HARD_TEXTS, "a\nb", "\r\n", "x\n.y"])]
            source.write_text("\n".join(["k,t", *rows]) + "\n", newline="")
            table = "table 4 3 2 1 k:int t:text\n"
            lines = f"{table}.import {source}\n.export {path}\nindex c on t\nbuild c 99\n.export {index} c\n.export {path}\n"
            status, text, errors = prompt(lines)
            self.assertEqual((status, text.count("21 rows written to "), errors), (1, 2, f"error: {path} is there already: rows are written to a new file\n"))
            self.assertEqual((index.read_text().split("\n")[:2], sorted(os.listdir(folder))), (["t,k", ",0"], ["index.csv", "rows.csv", "source.csv"]))
            self.assertEqual(printed(self, f"{table}.import {path}\nscan primary\ngo\n"), printed(self, f"{table}.import {source}\nscan primary\ngo\n"))
            self.assertIn("21 rows loaded", printed(self, f"{table}.import {path}\n"))
            self.assertIn("refused 11 Building", prompt(f"{TABLE}index c on city\nbatch\nput 1,a,1\nend\n.export {folder}/x c\n")[2])

    def test_the_example_of_the_document_is_what_is_shown(self):
        """The lines that are typed in docs/HOW_TO.md, with what follows each except what only a terminal shows, and its table of commands."""
        text = (TOP / "docs/HOW_TO.md").read_text().split("\n## A prompt\n")[1].split("\n## ")[0]
        lines = text.split("```text\n")[1].split("```")[0].splitlines()
        given = [line.partition("> ")[2] for line in lines if re.match(r"betable> | +\(\w+\)> ", line)]
        shown = [line for line in lines if not re.match(r"betable> | +\(\w+\)> | +\(\.explain", line)]
        self.assertEqual(prompt("\n".join(given) + "\n"), (1, "\n".join(shown) + "\n", ""))
        self.assertGreater(len(given), 10)
        told = [name for row in re.findall(r"^\| (`\..*?) \|", text, re.MULTILINE) for name in re.findall(r"`(\.\w+[^`]*)`", row)]
        forms = [f"{name} {command.form}".strip() for name, command in betable_module("shell.prompt").DOT_COMMANDS.items()]
        self.assertEqual(sorted(name.replace("\\|", "|") for name in told), sorted(forms))


# ---- a durable table ----


class ADurableTable(TestCase):
    def test_a_durable_table_is_there_again(self):
        with tempfile.TemporaryDirectory() as folder:
            path = f"{folder}/stock.table"
            self.assertEqual(printed(self, f"{CITIES}index c on city\nbuild c 99\n", path), "table 3\n12 rows loaded\nindex c\nbuild c 12 complete\n")
            self.assertEqual(printed(self, ".schema\nbatch\nput 3,x,1\nend\n", path), f"{TABLE}index c on city\nbatch 1 c:2\n")
            self.assertEqual(printed(self, ".limit 1\nget 3\n", path).splitlines()[2], " 3  x       1")
            with betable_module("durable").open(path):
                self.assertEqual(prompt("", path), (1, "", f"betable shell: {path} is open already, by another process or by this one\n"))
            self.assertEqual(prompt("", f"{TOP}/README.md")[:2], (1, ""))

    def test_the_schema_of_a_file_is_that_of_its_commands(self):
        """In whatever requests they came, before a checkpoint and after it. What was refused, or dropped, is no part of it."""
        with tempfile.TemporaryDirectory() as folder:
            path, lines = f"{folder}/stock.table", [TABLE, 'index c on city,qty where city = "a\tb, c"\n', "index d on qty include city\n"]
            with betable_module("durable").open(path) as table:
                self.assertEqual(prompt(".schema\n", f"{folder}/none")[2], f"error: {NO_TABLE}\n")
                table.replies("index c on city\n" + lines[0] + lines[0].replace("text", "int") + "batch\nput 1,index c on city,2\nend\n")
                table.once("a", "index c on none\nindex c on qty\ndrop c\ndrop c\n" + lines[1])
                with table.group():
                    table.put([(2, "x", 3)])
                    table.replies(lines[1] + "build c 9\n")
                    table.replies(lines[2] + "index e on id\n")
                table.once("a", "index c on none\nindex c on qty\ndrop c\ndrop c\n" + lines[1])
            shown = "".join(lines) + "index e on id\n"
            self.assertEqual(printed(self, ".schema\n", path), shown)
            with betable_module("durable").open(path) as table:
                table.replies("build d 9\ndrop e\n")
                table.checkpoint()
            index = "index f on id where qty >= 3\n"
            self.assertEqual(printed(self, f".schema\n{index}.schema\n.indexes\n", path), f"""{"".join(lines)}index f
{"".join(lines)}{index}name  on        include  where          complete
----  --------  -------  -------------  --------
c     city,qty           city = a·b, c  yes
d     qty       city                    yes
f     id                 qty >= 3       building
3 indexes
""")  # fmt: skip


# ---- a terminal ----


class Typed:
    """The prompt at a terminal at which keys are typed. `shown` is what it shows, without the sequences that move the cursor."""

    def __init__(self, folder, *words):
        child, self.terminal = pty.fork()
        if child == 0:
            os.chdir(folder)
            # A shell that starts the tests in the background has them ignore it.
            signal.signal(signal.SIGINT, signal.SIG_DFL)
            os.execve(PYTHON, [PYTHON, "-m", "betable", "shell", *words], environment(BETABLE_HISTORY=f"{folder}/history", TERM="xterm"))
        self.child, self.raw, self.at = child, b"", 0

    @property
    def shown(self):
        return re.sub(r"\x1b\[[?0-9;]*[a-zA-Z]|\a|\r(?!\n)", "", self.raw.decode(errors="replace")).replace("\r\n", "\n")

    def until(self, text):
        """What is shown from here on up to a text."""
        limit = time.monotonic() + SECONDS
        while text not in self.shown[self.at :]:
            if time.monotonic() > limit or not self.read():
                raise TimeoutError(f"no {text!r} in {self.shown[self.at:]!r}")
        start, self.at = self.at, self.shown.index(text, self.at) + len(text)
        return self.shown[start : self.at]

    def read(self):
        if not select.select([self.terminal], [], [], 1)[0]:
            return True
        try:
            piece = os.read(self.terminal, 65536)
        except OSError:
            piece = b""
        self.raw += piece
        return bool(piece)

    def type(self, keys, until="betable> "):
        os.write(self.terminal, keys.encode())
        return self.until(until)

    def give_up(self, keys):
        """Types the beginning of a line, and then Ctrl-C. Python does not notice a signal that comes after a key and before it waits for the next one."""
        self.type(keys, keys)
        while Path(f"/proc/{self.child}/stat").read_text().rpartition(") ")[2][0] != "S":
            time.sleep(0.01)
        return self.type("\x03")

    def end(self):
        """The status after the end was typed."""
        os.write(self.terminal, b"\x04")
        limit = time.monotonic() + SECONDS
        while self.read() and time.monotonic() < limit:
            pass
        os.close(self.terminal)
        return os.waitstatus_to_exitcode(os.waitpid(self.child, 0)[1])


@contextmanager
def typed(*words, folder=None):
    with tempfile.TemporaryDirectory() as own:
        keys = Typed(folder or own, *words)
        try:
            keys.until("betable> ")
            yield keys
        finally:
            try:
                os.kill(keys.child, signal.SIGKILL)
                os.waitpid(keys.child, 0)
            except (ProcessLookupError, ChildProcessError):
                pass


class ATerminal(TestCase):
    def test_a_terminal_has_prompts_and_times(self):
        with typed() as keys:
            self.assertIn("a table in memory, which is gone after .quit. .help lists the commands.", keys.shown)
            self.assertIn("table 3 (0.0", keys.type(TABLE))
            keys.type("batch\n", "  (end)> ")
            keys.type("put 1,Oslo,3\n", "  (end)> ")
            self.assertIn("batch 1 (0.0", keys.type("end\n"))
            self.assertIn("(.explain says more)", keys.type("get Oslo\n"))
            self.assertEqual(keys.end(), 0)

    def test_tab_completes_commands_trees_columns_and_files(self):
        with tempfile.TemporaryDirectory() as folder, typed(folder=folder) as keys:
            (Path(folder) / "cities.csv").write_text((TOP / "examples/cities.csv").read_text())
            for line, shown in (
                ("tab\t4 3 2 1 id:i\t city:te\t qty:int\n", "table 4 3 2 1 id:int city:text qty:int\ntable 3"),
                (".imp\tci\t\n", ".import cities.csv\n12 rows loaded"),
                ("ind\tby_city o\t ci\t inc\t q\t\n", "index by_city on city include qty\nindex by_city"),
                ("bui\tby\t 99\n", "build by_city 99\nbuild by_city 12 complete"),
                ("ge\t1\n", "get 1\nid  city"),
            ):
                self.assertIn(shown, keys.type(line))
            self.assertIn("sums by_city 1 qty\n", keys.type("sums b\t 1 q\t\n", "(go)> "))
            self.assertIn("from Alta\n", keys.type("f\tAlta\n", "(go)> "))
            self.assertIn("to B\n", keys.type("t\tB\n", "(go)> "))
            # What closes a block is a whole line.
            self.assertIn("1 group", keys.type("g\t\n"))
            self.assertIn("drain  drop", keys.type("dr\t\t", "drop"))

    def test_single_quotes_are_warned_of(self):
        with typed() as keys:
            keys.type(TABLE)
            keys.type("batch\n", "  (end)> ")
            keys.type("put 1,'O',3\n", "  (end)> ")
            self.assertIn("warning: 'O' in line 2 has single quotes, which are letters of the text", keys.type("end\n"))
            keys.type("batch\n", "  (end)> ")
            keys.type("put 1,O'Neill,3\n", "  (end)> ")
            self.assertNotIn("warning", keys.type("end\n"))

    def test_lines_come_back_from_the_history(self):
        with tempfile.TemporaryDirectory() as folder:
            with typed(folder=folder) as keys:
                keys.type(TABLE)
                keys.type("get 7\n")
                self.assertIn("get 7\n0 rows", keys.type("\x1b[A\n"))
                self.assertEqual(keys.end(), 0)
            with typed(folder=folder) as keys:
                self.assertEqual((Path(folder) / "history").read_text(), f"{TABLE}get 7\n")
                self.assertIn(f"{TABLE}table 3", keys.type("\x1b[A\x1b[A\n"))
                self.assertEqual(keys.end(), 0)

    def test_what_is_wrong_in_a_block_is_told_at_once(self):
        with typed() as keys:
            keys.type(TABLE)
            self.assertIn("'primary;' ends with a semicolon, which no line has: write 'primary'", keys.type("scan primary;\n"))
            keys.type("batch\n", "(end)> ")
            self.assertIn("not taken: column 1 'id' (int): 'x' is no whole number", keys.type("put x,Oslo,3\n", "(end)> "))
            self.assertIn("not taken: 'insert' is 'put' in a batch: 'insert 1,Oslo,3'", keys.type("insert 1,Oslo,3\n", "(end)> "))
            self.assertIn("not taken: 'end;' does not close the block: a closing line is 'end' exactly", keys.type("end;\n", "(end)> "))
            keys.type("put 1,Oslo,3\n", "(end)> ")
            self.assertIn("batch 1", keys.type("end\n"))
            keys.type("scan primary\n", "(go)> ")
            keys.type("to 5\n", "(go)> ")
            self.assertIn("not taken: 'from' comes after the 'to' of line 2: the order is from, then to", keys.type("from 1\n", "(go)> "))
            self.assertIn("1 row", keys.type("go\n"))

    def test_ctrl_c_gives_up_a_block_and_not_the_session(self):
        with typed() as keys:
            keys.type(TABLE)
            keys.type("batch\n", "(end)> ")
            keys.type("put 1,Oslo,3\n", "(end)> ")
            self.assertIn("the block is given up, and nothing of it was carried out", keys.give_up("put 2,"))
            self.assertIn(".quit or Ctrl-D ends", keys.give_up("get"))
            self.assertIn("0 rows", keys.type("get 1\n"))
            self.assertEqual(keys.end(), 0)

    def test_ctrl_c_ends_a_script_that_is_read(self):
        """While its replies are printed, or between two pieces of it."""
        with typed() as keys:
            path = Path(f"/proc/{keys.child}/cwd").resolve() / "script"
            path.write_text(TABLE + "get 1\n" * 1_000_000)
            keys.type(".read script\n", "0 rows")
            keys.type("\x03")
            self.assertIn("0 rows", keys.type("get 1\n"))
            self.assertLess(keys.shown.count("0 rows"), 1_000_000)
            self.assertEqual(keys.end(), 0)

    def test_ctrl_c_ends_an_import_between_two_batches(self):
        """What was put before it stays, in memory and in a durable table."""
        with tempfile.TemporaryDirectory() as folder:
            (Path(folder) / "rows.csv").write_text("id,city,qty\n" + "".join(f"{key},Oslo,1\n" for key in range(1_000_000)))
            for words in ((), ("rows.table",)):
                with typed(*words, folder=folder) as keys:
                    keys.type(f"{TABLE.replace('4 3 2', '16 1024 256')}")
                    for line in ("batch\n", "put -1,x,1\n"):
                        keys.type(line, "(end)> ")
                    keys.type("end\n")
                    keys.type(".import rows.csv\n", "%, ")
                    text = keys.type("\x03")
                    self.assertIn("interrupted: these rows stay, and the records after them were not read", text)
                    rows = int(re.search(r"([\d,]+) rows put by", text)[1].replace(",", ""))
                    self.assertEqual((0 < rows < 1_000_000, rows % 65_536), (True, 0))
                    keys.type("scan primary\n", "(go)> ")
                    keys.type(f"from {rows - 1}\n", "(go)> ")
                    self.assertIn(f"{rows - 1}  Oslo    1\n1 row", keys.type("go\n"))
                    self.assertEqual(keys.end(), 0)

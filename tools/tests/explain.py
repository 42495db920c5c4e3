"""Tests of tools/explain, and of what it knows of the language."""

import random
import re
import subprocess
import tempfile
from importlib import import_module
from pathlib import Path
from unittest import TestCase

from .clients import library
from .common import explained, imported, run, run_forked, SECONDS, TABLE, TOP, ProgramTestCase
from .mistakes import MISTAKES

X_IS_NO_INT = "column 1 'id' (int): 'x' is no whole number"
DECIMALS = "is no whole number: decimals are stored as ints of a fixed unit, as 1250 for 12.50"
BY_CITY = "get finds a row by its key, id. By city: an index on it, and a scan (docs/HOW_TO.md, The rows of one value)"


def warned(test, script):
    """The warnings of a script without refused commands."""
    status, lines = explained(script)
    test.assertEqual(status, 0)
    return [line.removeprefix("  warning: ") for line in lines if line.startswith("  warning: ")]


def setUpModule() -> None:
    library()


class Explain(ProgramTestCase):
    def test_explain_counts_what_was_answered(self):
        self.assertEqual(explained(TABLE + "\nget 1\n"), (0, ["2 commands: 2 answered, 0 refused"]))

    def test_explain_wants_a_script(self):
        for words, said in (
            (["no/such/file"], "no/such/file: No such file"),
            (["tools"], "tools: Is a directory"),
            (["--what", "x"], "--what"),
            (["--program", "no/such", "-"], "no/such is no program"),
        ):
            status, text, errors = run_forked("tools/explain", *words)
            self.assertEqual((status, text, said in errors, "Traceback" in errors), (2, "", True, False))

    def test_explain_counts_one_command(self):
        for script, said in (("", "0 commands: 0 answered, 0 refused"), (TABLE, "1 command: 1 answered, 0 refused")):
            self.assertEqual(explained(script), (0, [said]))
        self.assertEqual(explained("x")[1][-2], "1 command: 0 answered, 1 refused")

    def test_explain_reads_pipes_and_standard_input(self):
        script = f"{TABLE}\nget x\n"
        lines = ["line 2: get x", f"  {X_IS_NO_INT}", f"  {BY_CITY}", "2 commands: 1 answered, 1 refused", "  1 times 6 BadField"]
        for words in ([], ["-"], ["/dev/stdin"]):
            status, text, errors = run("tools/explain", *words, given=script.encode())
            self.assertEqual((status, text.splitlines(), errors), (1, lines, ""))
        words = ["bash", "-c", 'tools/explain <(printf "%s\\n" "$@")', "bash", TABLE, "get x"]
        ended = subprocess.run(words, cwd=TOP, capture_output=True, text=True, timeout=SECONDS)
        self.assertEqual((ended.returncode, ended.stdout.splitlines(), ended.stderr), (1, lines, ""))

    def test_explain_says_that_a_script_is_too_long(self):
        with tempfile.TemporaryDirectory() as folder:
            path = Path(folder) / "script"
            with open(path, "wb") as script:
                script.truncate(67_108_865)
            status, text, errors = run_forked("tools/explain", path)
            self.assertEqual((status, text), (2, ""))
            self.assertIn(f"{path} has 67,108,865 bytes, and a script has at most 67,108,864", errors)
            status, text, errors = run("tools/explain", given=path.read_bytes())
            self.assertEqual((status, text, "more than 67,108,864 bytes" in errors), (2, "", True))

    def test_explain_ends_quietly_where_its_reader_goes(self):
        rows = "".join(f"put {row},x,1\n" for row in range(2000))
        script = f"{TABLE}\nbatch\n{rows}end\n" + "scan primary\ngo\n" * 6
        ended = subprocess.run(["sh", "-c", "tools/explain --replies - | head -2"], input=script.encode(), cwd=TOP, capture_output=True, timeout=SECONDS)
        self.assertEqual((ended.stdout.decode().splitlines(), ended.stderr), ([f"line 1: {TABLE}", "  > table 3"], b""))

    def test_explain_names_a_forgotten_end(self):
        script = f"{TABLE}\nbatch\nput 1,Oslo,10\n\nget 1\nbatch\nput 2,Bergen,20\nend\nget 2\n"
        status, lines = explained(script)
        self.assertEqual(status, 1)
        self.assertEqual(lines[0], "line 2: batch")
        self.assertEqual(
            lines[1:4], ["  The block began in line 2, and line 5 inside it looks like a command:", "    get 1", "  Was the line 'end' forgotten before it?"]
        )
        self.assertEqual(lines[4:], ["3 commands: 2 answered, 1 refused", "  1 times 1 Syntax"])
        status, lines = explained(script.replace("put 1,", "put x,").replace("put 2,", "put x,"))
        self.assertEqual(lines[1:3], [f"  line 3, {X_IS_NO_INT}", "  The block began in line 2, and line 5 inside it looks like a command:"])

    def test_explain_names_a_forgotten_go(self):
        status, lines = explained(f"{TABLE}\nscan primary\nimage primary\n")
        self.assertEqual((status, lines[0]), (1, "line 2: scan primary"))
        self.assertIn("  The block began in line 2, and line 3 inside it looks like a command:", lines)
        self.assertIn("  The block that began in line 2 is open until the script ends: no line is 'go' exactly.", lines)

    def test_explain_names_a_block_open_at_the_end(self):
        for ending, shown in ((" end", "·end"), ("end\t", "end→")):
            status, lines = explained(f"{TABLE}\nbatch\nput 1,Oslo,10\nput 2,Oslo,10\n{ending}\n")
            self.assertEqual((status, lines[0], lines[-1]), (1, "line 2: batch", "  1 times 1 Syntax"))
            self.assertEqual(lines[1], f"  line 5: '{shown}' does not close the block: a closing line is 'end' exactly")
            self.assertEqual(lines[2], "  The block that began in line 2 is open until the script ends: no line is 'end' exactly.")
        status, lines = explained(f"{TABLE}\nbatch\nput 1,Oslo,10\n")
        self.assertEqual((status, lines[1].split(":")[0]), (1, "  2 Unfinished"))

    def test_explain_finds_the_message_at_fault(self):
        status, lines = explained(f"{TABLE}\r\nbatch\n\nput 1,Oslo,10\n   \n  put x,Oslo,10\nend\nget y\n", "--replies")
        self.assertEqual(status, 1)
        self.assertEqual(lines[2:5], ["line 2: batch", f"  line 6, {X_IS_NO_INT}", "  > refused 6 BadField 2"])
        self.assertEqual(lines[5:7], ["line 8: get y", "  column 1 'id' (int): 'y' is no whole number"])

    def test_explain_finds_the_bound_at_fault(self):
        """Of a scan and of sums: item 1 is the line of `from`, item 2 that of `to`."""
        good = "sums primary 1 qty\nto 5\ngo\n"
        script = f"{TABLE}\nscan primary\n\n  from 1\nto x\ngo\n{good}sums primary 1 qty\nfrom 1,Oslo\nto 5\ngo\n"
        status, lines = explained(script, "--replies")
        self.assertEqual((status, lines[-3]), (1, "4 commands: 2 answered, 2 refused"))
        self.assertEqual(lines[2:5], ["line 2: scan primary", f"  line 5, {X_IS_NO_INT}", "  > refused 6 BadField 2"])
        self.assertEqual(lines[5:8], ["line 7: sums primary 1 qty", "  > sums 0", "line 10: sums primary 1 qty"])
        self.assertEqual(lines[8:10], ["  line 11: 2 fields, and a bound of primary has at most 1 (id): from 1,Oslo", "  > refused 7 BadLength 1"])

    def test_explain_finds_a_bound_in_the_wrong_place(self):
        order = "'from' comes after the 'to' of line 3: the order is from, then to: from 1"
        twice = "a second '{0}', and each bound is given at most once: {0} {1}"
        cases = ("to 5\nfrom 1", 4, order), ("from 1\n\nfrom 2\nto 5", 5, twice.format("from", 2)), ("to 5\nto 6", 4, twice.format("to", 6))
        for head in ("scan primary", "sums primary 1 qty"):
            script, wanted = f"{TABLE}\n", []
            for bounds, place, reason in cases:
                start = script.count("\n") + 1
                wanted += [f"line {start}: {head}", f"  line {start + place - 2}: {reason.replace('line 3', f'line {start + 1}')}"]
                script += f"{head}\n{bounds}\ngo\n"
            self.assertEqual(explained(script), (1, [*wanted, "4 commands: 1 answered, 3 refused", "  3 times 1 Syntax"]))

    def test_explain_finds_200_refusals_of_60000_lines(self):
        lines, wanted = [TABLE], []
        for batch in range(1000):
            lines += ["batch", *(f"put {60 * batch + row},Oslo,{row}" for row in range(57)), "end"]
            if batch % 5 == 0:
                wanted.append(len(lines) - 56 + 30)
                lines[wanted[-1] - 1] = "put x,Oslo,1"
            lines += ["get 1"]
        status, said = explained("\n".join(lines) + "\n", "--all")
        self.assertEqual((status, len(lines)), (1, 60_001))
        self.assertEqual([line for line in said if "whole number" in line], [f"  line {place}, {X_IS_NO_INT}" for place in wanted])
        self.assertEqual(said[-2:], ["2,001 commands: 1,801 answered, 200 refused", "  200 times 6 BadField"])
        status, said = explained("\n".join(lines) + "\n")
        group = f"  200 times 6 BadField    lines {wanted[0]}, {wanted[1]}, {wanted[2]}, .. (197 more; --all)   {X_IS_NO_INT}"
        self.assertEqual((status, said), (1, ["2,001 commands: 1,801 answered, 200 refused", group]))

    def test_explain_groups_more_than_20_refusals(self):
        """Those that are alike are groups; of the others the first 20 are where they are without groups."""
        alike = "".join(f"get {number}.5\nget 1,{number}\n" for number in range(10))
        status, lines = explained(f"{TABLE}\n{alike}")
        self.assertEqual((status, len(lines), lines[-3:]), (1, 43, ["21 commands: 1 answered, 20 refused", "  10 times 6 BadField", "  10 times 7 BadLength"]))
        status, lines = explained(f"{TABLE}\n{alike}TABLE\n")
        self.assertEqual(lines[:3], ["line 22: TABLE", "  commands are in small letters: 'table'", "22 commands: 1 answered, 21 refused"])
        self.assertEqual(lines[3], f"  10 times 6 BadField    lines 2, 4, 6, .. (7 more; --all)   column 1 'id' (int): '0.5' {DECIMALS}")
        self.assertEqual(lines[4:], ["  10 times 7 BadLength    lines 3, 5, 7, .. (7 more; --all)   2 fields, and a get has 1 (id)", "  1 times 1 Syntax"])
        status, lines = explained("".join(f"{'x' * number}\n" for number in range(1, 31)))
        self.assertEqual(
            lines[-2:], ["30 commands: 0 answered, 30 refused", "  30 times 1 Syntax    lines 1, 2, 3, .. (27 more; --all)   " + lines[-1].split("   ")[-1]]
        )

    def test_explain_prints_ten_faults_of_a_block(self):
        faults = "".join(f"put {number},Oslo,{number}.5\n" for number in range(14))
        script = f"{TABLE}\nbatch\n{faults}end\nload\nid,city,qty\n{faults.replace('put ', '')}.\n"
        of_batch, of_load = ([f"  line {start + number}, column 3 'qty' (int): '{number}.5' {DECIMALS}" for number in range(14)] for start in (3, 20))
        left = "  4 more faults are left out; --all prints each"
        self.assertEqual(explained(script)[1][:-2], ["line 2: batch", *of_batch[:10], left, "line 18: load", *of_load[:10], left])
        self.assertEqual(explained(script, "--all")[1][:-2], ["line 2: batch", *of_batch, "line 18: load", *of_load])

    def test_explain_prints_replies_behind_their_lines(self):
        script = f'{TABLE}\nbatch\nput 1,"Oslo, west",10\nend\nscan primary\ngo\nimage primary\nget\n'
        status, lines = explained(script, "--replies")
        self.assertEqual(status, 1)
        self.assertEqual(lines[:4], [f"line 1: {TABLE}", "  > table 3", "line 2: batch", "  > batch 1"])
        self.assertEqual(lines[4:7], ["line 5: scan primary", '  > row 1,"Oslo, west",10', "  > rows 1"])
        self.assertEqual(lines[7:9] + lines[11:13], ["line 7: image primary", "  > image primary height 1", "  > end", "line 8: get"])
        self.assertEqual(lines[-3], "  > refused 1 Syntax")

    def test_explain_cuts_no_reply_but_at_a_terminal(self):
        status, lines = explained(f"{TABLE}\nbatch\nput 1,{'x' * 255},10\nend\nget 1\n", "--replies")
        self.assertEqual((status, lines[-2]), (0, f"  > row 1,{'x' * 255},10"))

    def test_explain_takes_any_bytes(self):
        status, lines = explained(b"\xff\x00\x1b[1m " + b"x" * 1000 + b"\n" + TABLE.encode())
        self.assertEqual(status, 1)
        self.assertTrue(all(line.isprintable() and len(line) <= 130 for line in lines[:1]))
        self.assertEqual(lines[-2], "2 commands: 1 answered, 1 refused")

    def test_explain_finds_the_record_of_a_load(self):
        """Records after the header count, in whatever lines they are: with blank lines, and line breaks in quotes."""
        records = '1,"two\r\nlines, ""here""",5\r\n\r\n2,5" nail,x\n3,c\n'
        status, lines = explained(f"{TABLE}\nload\r\n\ufeffid,city,qty\n{records}.\r\nget 1\n", "--replies")
        self.assertEqual((status, lines[2:4]), (1, ["line 2: load", "  line 7, column 3 'qty' (int): 'x' is no whole number"]))
        self.assertEqual(lines[4:6], ["  line 8: 2 fields, and a record has 3 (id, city, qty): 3,c", "  > refused 6 BadField 2"])
        self.assertEqual(lines[-2], "3 commands: 2 answered, 1 refused")
        status, lines = explained(f"{TABLE}\nload\nid,city,qty\n1,a,1\r2,b,2\n \n.\n", "--replies")
        self.assertEqual((status, lines[3:5]), (1, ["  line 5: 1 field, and a record has 3 (id, city, qty): ·", "  > refused 7 BadLength 3"]))

    def test_explain_finds_the_header_of_a_load(self):
        town = "line 4, column 2 'city': the header has 'town' there"
        tabs = "line 8: 1 field, and the table has 3 columns; fields are divided by commas, and not by '→': id→city→qty"
        blocks = ("\nid,town,qty\n1,a,1\n", "id\tcity\tqty\n", "\n\n")
        status, lines = explained(f"{TABLE}\n" + "".join(f"load\n{block}.\n" for block in blocks))
        wanted = "  the expected header: id,city,qty"
        self.assertEqual((status, lines[:6]), (1, ["line 2: load", f"  {town}", wanted, "line 7: load", f"  {tabs}", wanted]))
        self.assertEqual(lines[6:9], ["line 10: load", "  5 BadSchema: the block has no header", wanted])
        self.assertEqual(lines[9:], ["4 commands: 1 answered, 3 refused", "  3 times 5 BadSchema"])

    def test_explain_finds_the_key_that_comes_again(self):
        status, lines = explained(f'{TABLE}\nload\nid,city,qty\n1,"a\nb",1\n2,b,1\n01,c,1\n2,d,1\n"-0",e,1\n0,f,1\n.\n')
        self.assertEqual((status, lines[0]), (1, "line 2: load"))
        self.assertEqual(
            lines[1:3], ["  14 DuplicateKey 3: key 1 in line 7 is that of line 4 too", "  14 DuplicateKey 4: key 2 in line 8 is that of line 6 too"]
        )
        self.assertEqual(
            lines[3:], ["  14 DuplicateKey 6: key 0 in line 10 is that of line 9 too", "2 commands: 1 answered, 1 refused", "  1 times 14 DuplicateKey"]
        )
        # More zeros than Python reads.
        status, lines = explained(f"{TABLE}\nload\nid,city,qty\n1,a,1\n{'0' * 5_000}1,b,2\n.\n")
        self.assertEqual((status, lines[1]), (1, "  14 DuplicateKey 2: key 1 in line 5 is that of line 4 too"))

    def test_explain_says_what_a_load_wants(self):
        load = "load\nid,city,qty\n1,a,1\n.\n"
        status, lines = explained(f"{TABLE}\n{load}{load}")
        self.assertEqual((status, lines[0], lines[1].split(":")[0]), (1, "line 6: load", "  13 NotEmpty"))
        self.assertIn("'rebuild primary'", lines[1])
        status, lines = explained(f"{TABLE}\nindex c on city\n{load}build c 1\n{load}")
        self.assertEqual((status, lines[0], lines[1].split(".")[0]), (1, "line 3: load", "  11 Building: 'c' is building"))
        self.assertIn("'build NAME 1'", lines[1])
        self.assertEqual(lines[2], "5 commands: 4 answered, 1 refused")

    def test_explain_says_how_an_index_is_completed(self):
        script = f"{TABLE}\nbatch\nput 1,Oslo,10\nend\nindex c on city\nbuild c 1\nscan c\ngo\nbuild c 1\nscan c\ngo\nbuild c 0\nbuild primary 1\n"
        status, lines = explained(script, "--replies")
        self.assertEqual((status, lines[-4]), (1, "9 commands: 6 answered, 3 refused"))
        self.assertEqual([line for line in lines if line.startswith("  > build")], ["  > build c 1 building", "  > build c 0 complete"])
        place = lines.index("line 7: scan c")
        self.assertEqual(lines[place + 1].split(".")[0], "  11 Building: 'c' is building")
        self.assertEqual(lines[place + 2], "  'c' was made in line 5.")
        self.assertIn("'build NAME N'", lines[place + 1])
        heads = ("line 12: build c 0", "line 13: build primary 1")
        self.assertEqual([lines[lines.index(line) + 1].split(":")[0] for line in heads], ["  12 AlreadyComplete", "  8 NoSuchTree"])

    def test_explain_names_a_forgotten_point(self):
        script = f"{TABLE}\nload\nid,city,qty\n1,a,1\nscan primary\ngo\n"
        for rest, refusal in (("", "2 Unfinished"), (".\n", "7 BadLength 2")):
            status, lines = explained(script + rest, "--replies")
            self.assertEqual((status, refusal in " ".join(lines)), (1, True))
            place = lines.index("  The block began in line 2, and line 5 inside it looks like a command:")
            self.assertEqual(lines[place + 1 : place + 3], ["    scan primary", "  Was the line '.' forgotten before it?"])
        status, lines = explained(f"{TABLE}\nload\nid,city\nget 1\n.\n")
        self.assertEqual((status, "looks like a command" in " ".join(lines)), (1, False))
        # A record that begins with the word of a command is none.
        status, lines = explained("table 4 3 2 1 id:text qty:int\nload\nid,qty\nget well,1\nx,y\n.\n")
        self.assertEqual((status, lines[1]), (1, "  line 5, column 2 'qty' (int): 'y' is no whole number"))

    def test_explain_says_what_a_buffer_is(self):
        no_buffers, none = ("b", "60B", "60bb", "b60", "1234567890b"), "is no buffer: write 1 to 9 digits, those of a buffer in bytes with a 'b' after them."
        tables = [*(TABLE.replace(" 3 ", f" {word} ") for word in (*no_buffers, "0b", "1048577b", "1048576b")), TABLE.replace(" 3 2 ", " 3 2b ")]
        status, lines = explained("\n".join(tables))
        form = "  the form: table F C L K name:kind .."
        for place, word in enumerate(no_buffers):
            self.assertEqual(lines[3 * place + 1 : 3 * place + 3], [f"  '{word}' {none}", form])
        for place, word in enumerate(("0b", "1048577b")):
            self.assertEqual(lines[15 + 2 * place : 17 + 2 * place][1].split(". ")[0], f"  20 BadShape: the buffer is {word}, and from 1 to 1048576 bytes")
            self.assertIn("with a 'b' after the number 1 to 1048576 bytes", lines[16 + 2 * place])
        self.assertEqual(lines[19:22], [f"line 9: {tables[-1]}", "  '2b' is no leaf: write 1 to 9 digits.", form])
        self.assertEqual((status, lines[22:]), (1, ["9 commands: 1 answered, 8 refused", "  6 times 1 Syntax", "  2 times 20 BadShape"]))

    def test_explain_prints_rows_with_line_breaks(self):
        script = f'{TABLE}\nload\nid,city,qty\n1,"a\nrows 7\nend\nb",1\n.\nscan primary\ngo\nimage primary\ndrain primary\n'
        status, lines = explained(script, "--replies")
        self.assertEqual((status, lines[2:4]), (0, ["line 2: load", "  > loaded 1"]))
        self.assertEqual(lines[4:7], ["line 9: scan primary", '  > row 1,"a\\x0arows 7\\x0aend\\x0ab",1', "  > rows 1"])
        self.assertEqual(lines[-3:], ["line 12: drain primary", "  > drained primary", "5 commands: 5 answered, 0 refused"])

    def test_explain_warns_of_broken_quotes(self):
        """Of quoted fields that go on after their closing quotes, or end with the block or the line; also where they were answered."""
        records = '1,"a ""b"", c",1\n2,"city,5\n3,city"x,7\n4,5" nail,1\n'
        script = f'{TABLE}\nload\nid,city,qty\n{records}.\nbatch\nput 5,a,"5\nput 6,"a"b,6\nput 7,"a,b",7\nend\n'
        status, lines = explained(script)
        goes_on = "goes on after its closing quote"
        self.assertEqual((status, lines[:2]), (0, ["line 2: load", "  loaded 3"]))
        field = "the quoted field that begins in line"
        self.assertEqual(lines[2], f"  warning: {field} 5 {goes_on} in line 6: was a quote forgotten? (it holds 1 line break)")
        self.assertEqual(lines[3:5], ["line 9: batch", "  batch 3"])
        self.assertEqual(
            lines[5:7], [f"  warning: {field} 10 is not closed: was a quote forgotten?", f"  warning: {field} 11 {goes_on}: was a quote forgotten?"]
        )
        self.assertEqual(lines[7:], ["3 commands: 3 answered, 0 refused", "  3 warnings"])
        status, lines = explained('table 4 3 2 1 id:int city:text\nload\nid,city\n1,"a\n\nb\n.\n')
        self.assertEqual((status, lines[2]), (0, f"  warning: {field} 4 is not closed, and goes on to line 6: was a quote forgotten? (it holds 2 line breaks)"))
        self.assertEqual(
            explained(f'{TABLE}\nload\nid,city,qty\n1,"a",1\r2,"",2\r\n3,"b\n"",""\n",3\n4,x"y"z,4\n.\n')[1][-1], "2 commands: 2 answered, 0 refused"
        )

    def test_explain_warns_of_single_quotes(self):
        """Around a field of a batch, a load, a bound, a get or a condition, and not of other apostrophes."""
        table = "table 4 3 2 1 city:text note:text\n"
        of_text = "has single quotes, which are letters of the text{}: a text needs no quotes, or double ones"
        for script, line, more in (
            ("batch\nput Molde,'x'\nend\n", 3, ""),
            ("batch\nups Molde,set,note,'x'\r\nput 'a',b\nend\n", 3, ", and so does 1 other field"),
            ("load\ncity,note\na,b\n'x','y'\n'z',\n.\n", 5, ", and so do 2 other fields"),
            ("scan primary\nfrom 'x'\ngo\n", 3, ""),
            ("get 'x'\n", 2, ""),
            ("index a on note where city = 'x'\n", 2, ""),
        ):
            self.assertEqual(warned(self, table + script), [f"'x' in line {line} {of_text.format(more)}"])
        right = "batch\nput it's,'s-Hertogenbosch\nput '',rock 'n' roll\nput \"'a'\",\"'b', 'c'\"\nput Xi'an,5'\nend\nget it's\n"
        self.assertEqual(warned(self, table + right), ["'' in line 4 " + of_text.format("")])
        self.assertEqual(warned(self, table + right.replace("'',", "b,")), [])

    def test_explain_warns_of_empty_ranges(self):
        """By the order of keys, of an int, a flag, bytes, texts, and parts of a key; and not of a range that may have a key."""
        table = "table 4 3 2 2 n:int t:text h:bytes on:flag\nindex by_on on on,h\nbuild by_on 1\nindex by_t on t\nbuild by_t 1\n"
        equal, see = "is equal to {} of line {}, which is not in the range, so the range is empty: {}", "see docs/HOW_TO.md, The rows of one value"
        for head, start, stop, said in (
            ("scan primary", "1", "1", equal.format("'to 1'", 8, "write 'to 2'")),
            ("sums primary 1 n", "-1", "-01", equal.format("'to -01'", 8, "write 'to 0'")),
            ("scan primary", "9223372036854775807", "9223372036854775807", equal.format("'to 9223372036854775807'", 8, see)),
            ("scan primary", "10", "9", "comes after 'to 9' of line 8, so the range is empty: exchange the bounds"),
            ("scan primary", "10", "0" * 5_000 + "9", f"comes after 'to {'0' * 37}…' of line 8, so the range is empty: exchange the bounds"),
            ("scan primary", "1,b", "1,a", "comes after 'to 1,a' of line 8, so the range is empty: exchange the bounds"),
            ("scan primary", "1,b", "1", "comes after 'to 1' of line 8, so the range is empty: exchange the bounds"),
            ("scan by_t", "Oslo", "Oslo", equal.format("'to Oslo'", 8, see)),
            ("scan by_t", "Oslo,3", '"Oslo",3', equal.format("'to \"Oslo\",3'", 8, "write 'to Oslo,4'")),
            ("scan by_on", "TRUE", "false", "comes after 'to false' of line 8, so the range is empty: exchange the bounds"),
            ("scan by_on", "true,FF", "true,ff", equal.format("'to true,ff'", 8, see)),
        ):
            self.assertEqual(warned(self, f"{table}{head}\nfrom {start}\nto {stop}\ngo\n"), [f"'from {start}' {said}"])
        rooms = ("scan primary", "9", "10"), ("scan primary", "1", "1,a"), ("scan primary", "1,a", "2"), ("scan by_t", "9", "90")
        for head, start, stop in (*rooms, ("scan by_on", "true,0f", "true,F0"), ("scan by_on", "false", "true")):
            self.assertEqual(warned(self, f"{table}{head}\nfrom {start}\nto {stop}\ngo\n"), [])
        self.assertEqual(warned(self, f"{table}scan primary\nfrom 5\ngo\nscan primary\nto 5\ngo\n"), [])

    def test_explain_warns_of_no_right_script(self):
        """Of the examples and the worked scripts those alone that hold such a thing, and want it."""
        found = {}
        for path in sorted([*(TOP / "examples").glob("*.stdout"), *(TOP / "crates/test_scripts/data").glob("*.stdout")]):
            lines = explained(path.with_suffix("").read_bytes(), "--all")[1]
            kinds = {re.sub(".*(quote|range).*", r"\1", line) for line in lines if line.startswith("  warning: ")}
            found |= {path.stem: kinds} if kinds else {}
        quotes = dict.fromkeys(("lines_and_blocks", "load_blocks", "quoted_fields_of_a_load"), {"quote"})
        self.assertEqual(found, quotes | dict.fromkeys(("ranges_and_sums", "range_from_past_to", "scans_of_indexes"), {"range"}))

    def test_explain_knows_the_language_of_the_program(self):
        """With a program that knows no `load`, by replies that are given, and one that fails."""
        script = f"{TABLE}\nload\nid,city,qty\n.\nget 1\n"
        # If it is asked for its language, it replies to each line of a load, and to one line of each other block.
        older = """#!/bin/sh
given=$(cat)
case "$given" in
    table*) printf 'table 3\\nrefused 1 Syntax\\nrefused 1 Syntax\\nrefused 1 Syntax\\nnone\\n' ;;
    *) printf '%s\\n' "$given" | grep -v -e end -e go | sed 's/.*/refused 1 Syntax/' ;;
esac
"""
        fails = "#!/bin/sh\necho 'betable: out of memory' >&2\nexit 1\n"
        with tempfile.TemporaryDirectory() as folder:
            path, program = Path(folder) / "script", Path(folder) / "program"
            path.write_text(script)
            program.write_text(older)
            program.chmod(0o755)
            status, text, errors = run_forked("tools/explain", "--program", program, path)
            self.assertEqual((status, errors, text.splitlines()[0]), (1, "", "line 2: load"))
            self.assertEqual(text.splitlines()[-2], "5 commands: 2 answered, 3 refused")
            program.write_text(fails)
            self.assertEqual(run_forked("tools/explain", "--program", program, path)[0], 3)
            # One that replies nothing, and one that repeats its input.
            for words, said in (("/bin/true", "the program ended before it answered line 1"), ("/bin/cat", "")):
                status, text, errors = run_forked("tools/explain", "--program", words, path)
                self.assertEqual((status, said in errors, "Traceback" in errors), (3 if said else 0, True, False))
        status, lines = explained("build x\nput 1\n")
        self.assertEqual((status, lines[-2]), (1, "2 commands: 0 answered, 2 refused"))


# ---- a table of mistakes ----


class Mistakes(ProgramTestCase):
    def test_explain_says_why(self):
        """Of a table of mistakes: for each the line, the column with its kind, the reason, and the form of a command."""
        start = f"{TABLE}\nload\nid,city,qty\n1,Oslo,5\n.\nindex by_qty on qty\nbuild by_qty 9\nindex gone on qty\ndrop gone\n".encode()
        script, wanted = start, {}
        for mistake, *reasons in MISTAKES:
            number = script.count(b"\n") + 1
            wanted[number] = [re.sub("@([0-9])", lambda found: str(number + int(found[1])), reason) for reason in reasons]
            script += (mistake if isinstance(mistake, bytes) else mistake.encode()) + b"\n"
        status, lines = explained(script, "--all")
        said, number = {}, 0
        for line in lines:
            if head := re.match(r"line ([0-9]+): ", line):
                number = int(head[1])
            elif line.startswith("  ") and not re.match("  [0-9]+ (?:times |warnings?$)", line):
                said.setdefault(number, []).append(line[2:])
        self.assertIn(f"{len(MISTAKES) + 6} commands: 6 answered, {len(MISTAKES)} refused", lines)
        unlike = [number for number in said.keys() | wanted.keys() if said.get(number) != wanted.get(number)]
        self.assertEqual({number: said.get(number) for number in unlike}, {number: wanted.get(number) for number in unlike})

    def test_explain_names_the_message_that_is_too_many(self):
        status, lines = explained(f"{TABLE}\nbatch\n\n" + "del 1\n" * 65_537 + "ups 1,add,city,1\nend\n")
        self.assertEqual((status, lines[1]), (1, "  line 65540: message 65,537 of 65,538, and a batch has at most 65,536"))
        self.assertEqual(lines[2], "  line 65541, operation 1: 'city' is text, and add needs an int: ups 1,add,city,1")
        self.assertEqual(lines[3:], ["2 commands: 1 answered, 1 refused", "  1 times 10 TooMany"])

    def test_explain_finds_one_upsert_of_60000(self):
        upserts = [f"ups {number},add,qty,1" for number in range(60_000)]
        upserts[40_000] = "ups 40000,add,city,1"
        status, lines = explained("\n".join([TABLE, "batch", *upserts, "end"]) + "\n")
        self.assertEqual((status, lines[:2]), (1, ["line 2: batch", "  line 40003, operation 1: 'city' is text, and add needs an int: ups 40000,add,city,1"]))


# ---- beside the model of the language ----


def rows_of_their_kinds(test, command, answer, trees, language):
    """How many rows a scan printed, each of which has the columns of the tree, and values as they are printed."""
    if command.head.word != b"scan":
        return 0
    columns = trees.columns_of(command.head.text.split()[1])
    for row in answer[:-1]:
        record = row.removesuffix(b"\n").removeprefix(b"row ")
        fields = language.fields(record)
        test.assertEqual(len(fields), len(columns), record)
        test.assertEqual([import_module("betable.reasons").problem_of(kind.decode(), field) for field, (_, kind) in zip(fields, columns)], [None] * len(columns))
        test.assertEqual(language.printed_record([language.KINDS[kind].printed(field) for field, (_, kind) in zip(fields, columns)]), record)
    return len(answer) - 1


def line_of_item(command, item):
    if command.head.word == b"batch":
        return command.messages()[item - 1].number
    if command.head.word == b"load":
        return list(command.records())[item][0]
    return next(line.number for line in command.lines if line.word == (b"from", b"to")[item - 1])


def requoted(raw, language):
    """A record with each field that is in quotes put into quotes again."""
    parts = [raw[start:end] for start, end in language.spans(raw)]
    return b",".join(
        b'"' + value.replace(b'"', b'""') + b'"' if part.startswith(b'"') else part for part, value in zip(parts, language.fields(raw))
    )


class BesideTheModelOfTheLanguage(TestCase):
    def test_reasons_are_those_of_the_model(self):
        """Of random scripts: a refused command has a fault, on the line of its item where it has one, and an answered one has none."""
        language, faults, forms, schema = (import_module(f"betable.{name}") for name in ("language", "faults", "forms", "schema"))
        model, scripts = imported("tools/fuzz/model.py"), imported("tools/fuzz/scripts.py")
        refused = answered = rows = 0
        for number in range(80):
            script = scripts.script(2, number)
            trees, lines = schema.Trees(), language.logical_lines(model.replies(script).splitlines(True))
            for command in language.commands(script):
                with self.subTest(command=command.head.text):
                    answer = language.reply(command.head.word, lines)
                    words = answer[0].split()
                    if words[0] == b"refused":
                        found = list(faults.faults_of_refusal(command, int(words[1]), trees))
                        self.assertTrue(bool(found) or int(words[1]) in (2, 3, 4, 13), words)
                        if int(words[1]) in (6, 7) and command.closing:
                            self.assertIn(line_of_item(command, int(words[3])), [fault.line for fault in found])
                        refused += 1
                    else:
                        found = [*forms.head_faults(command.head), *faults.block_faults(command, trees)]
                        if command.head.word == b"load":
                            for of_load in (faults.header_faults, faults.load_faults, faults.key_faults):
                                found += of_load(command, trees)
                        self.assertEqual([fault.what() for fault in found], [])
                        rows += rows_of_their_kinds(self, command, answer, trees, language)
                        answered += 1
                    trees = schema.trees_after(trees, command, answer[0])
        self.assertEqual((refused > 200, answered > 500, rows > 500), (True, True, True))

    def test_what_is_said_of_random_mistakes_is_true(self):
        """Of scripts with mistakes at random: a session, tools/explain, the prompt and the server report each refusal, with its line, its name and a reason."""
        library()
        # Debian's Python has the modules of the server.
        ended = subprocess.run(
            ["/usr/bin/python3", TOP / "tools/fuzz/explanations", "--scripts", "300", "--processes", "1"], capture_output=True, timeout=SECONDS
        )
        *others, last = ended.stdout.decode().splitlines() or [""]
        self.assertEqual((ended.returncode, ended.stderr.decode(), [line for line in others if line.startswith("seed ")]), (0, "", []))
        print("".join(line + "\n" for line in others), end="")
        refusals = re.fullmatch(r"300 scripts, ([0-9]+) refusals, 0 faults", last)
        self.assertTrue(refusals is not None and int(refusals[1]) > 1_000)

    def test_records_are_those_of_the_model(self):
        """Of random CSV texts: the fields of each record, the line in which it begins, and which quotes look broken."""
        language, model = import_module("betable.language"), imported("tools/fuzz/model.py")
        dice = random.Random(1)
        for _ in range(4000):
            text = bytes(dice.choice(b'aa,,""\r\n') for _ in range(dice.randrange(1, 16)))
            found = list(language.records(text))
            self.assertEqual([language.fields(raw) for _, raw in found], model.csv_records(text), text)
            at = 0
            for number, raw in found:
                at = text.index(raw, at)
                self.assertEqual(number, text.count(b"\n", 0, at) + 1, text)
                at += len(raw)
            # A text is sound exactly if printing its fields with as many quotes gives the same text.
            sound = all(requoted(raw, language) == raw for _, raw in found)
            self.assertEqual([str(quote) for quote in language.broken_quotes(text)] == [], sound, text)

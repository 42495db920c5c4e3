"""Tests of tools/from_csv and tools/to_csv."""

import bz2
import csv
import gzip
import io
import lzma
import os
import pty
import random
import re
import shutil
import subprocess
import sys
import tempfile
from collections import Counter
from decimal import Decimal
from pathlib import Path
from unittest import TestCase

from .clients import betable
from .common import imported, PROGRAM, run, run_forked, SECONDS, TOP, ProgramTestCase
from .wrong_uses import OF_FROM_CSV, OF_OTHERS

FILES = TOP / "tools/tests/files"
SHAPE = "table 16 1024 256"
FROM_CSV = imported("tools/from_csv")


def from_csv(given, *words):
    """The status of tools/from_csv on these bytes, the script, and its sentences."""
    with tempfile.TemporaryDirectory() as folder:
        path = Path(folder) / "given.csv"
        path.write_bytes(given if isinstance(given, bytes) else given.encode())
        status, text, errors = in_process(FROM_CSV, str(path), *words)
    return status, text, [line.strip() for line in errors.splitlines()]


def in_process(tool, *words):
    """The status of a tool that is a module, and what it printed on standard output and standard error."""
    before = sys.argv, sys.stdout, sys.stderr
    sys.argv, sys.stdout, sys.stderr = ["tool", *words], io.TextIOWrapper(io.BytesIO()), io.StringIO()
    try:
        try:
            status = tool.run(tool.words_given())
        except tool.Faulty as fault:
            status = print(fault, file=sys.stderr) or 2
        except SystemExit as ended:
            status = ended.code
        return status, sys.stdout.buffer.getvalue().decode(), sys.stderr.getvalue()
    finally:
        sys.argv, sys.stdout, sys.stderr = before


def to_csv(script, *words):
    return run_forked("tools/to_csv", "--program", PROGRAM, "-", *words, given=script if isinstance(script, bytes) else script.encode())


def read(text, separator=","):
    """The records of a CSV as Python reads them."""
    return list(csv.reader(io.StringIO(text, newline=""), delimiter=separator))


def there_and_back(test, given, *words):
    """The rows of a CSV text that went through from_csv, the program and to_csv, the header first."""
    status, script, sentences = from_csv(given, *words)
    test.assertEqual((status, sentences[-1].startswith("refused")), (0, False))
    status, text, errors = to_csv(script + "scan primary\ngo\n")
    test.assertEqual((status, errors), (0, ""))
    return read(text)


# The findings in a file: its bytes, the words, the columns of the table, the records of the script, and sentences.
FOUND = (
    ("b;a\n1;x\n", "--key a", "1 a:text b:int", "a,b\nx,1\n", ["1 record, 2 columns, divided by ';'"]),
    ("a\tb\r\n1\t-2,5\r\n", "--key a", "1 a:int b:text", 'a,b\n1,"-2,5"\n',
     ["divided by '\\t'", "b: decimals, the first '-2,5' in record 1 (line 2), kept as text; --scale b=1 makes ints of tenths"]),
    ("a|b\r1|x,y\r2|z\r", "--key b,a", "2 b:text a:int", 'b,a\n"x,y",1\nz,2\n', ["2 records, 2 columns, divided by '|'", "its lines end with CR"]),
    ("a,b\n1,x;y;z\n2,x;y;z\n", "--key a", "1 a:int b:text", "a,b\n1,x;y;z\n2,x;y;z\n", ["divided by ','"]),
    ("a\n.\nb\n\n\n", "--key a", "1 a:text", 'a\n"."\n"b"\n', ["2 records, 1 column"]),
    ("\ufeffid,on\n1,TRUE\n2,false", "--key id", "1 id:int on:flag", "id,on\n1,TRUE\n2,false\n", ["the byte order mark at the start is left out"]),
    ("a,b\n1,caf\u00e9\n".encode("utf-16"), "--key a", "1 a:int b:text", "a,b\n1,caf\u00e9\n", ["read as utf-16"]),
    (b"a,b\n1,caf\xe9\n", "--key a --encoding latin-1", "1 a:int b:text", "a,b\n1,caf\u00e9\n", ["read as iso8859-1"]),
    ("id,zip\n1,0150\n2,7\n", "--key id", "1 id:int zip:text", "id,zip\n1,0150\n2,7\n",
     ["zip: digits of which an int would lose the zeros, the first '0150' in record 1 (line 2), kept as text"]),
    ("id,zip\n1,0150\n2,7\n", "--key id --kind zip=int", "1 id:int zip:int", "id,zip\n1,0150\n2,7\n", []),
    ("id,n\n1,9223372036854775807\n2,-9223372036854775808\n", "--key id", "1 id:int n:int", None, []),
    ("id,n\n1,9223372036854775808\n2,5\n", "--key id", "1 id:int n:text", None,
     ["n: numbers that do not fit 64 bits, the first '9223372036854775808' in record 1"]),
    ("id,n\n1,5\n2,n/a\n3,6\n", "--key id", "1 id:int n:text", None,
     ["n: ints, but 1 field is 'n/a', in record 2 (line 3): kept as text; --null n=n/a --empty n=0 make it int"]),
    ("id,n\n1,5\n2,x\n3,6\n", "--key id", "1 id:int n:text", None, ["n: text, as record 2 (line 3) has 'x', which is neither an int nor a decimal"]),
    ('id,n\n1, "5"\n2, 6\n', "--key id --trim", "1 id:int n:int", "id,n\n1,5\n2,6\n", []),
    ("id,n\n1, 5\n2, 6\n", "--key id", "1 id:int n:text", None, ["--trim drops spaces"]),
    ("id,n\n1,5\n2,\n\n3,\n", "--key id", "1 id:int n:text", None, ["n: ints, but 2 fields are empty, the first in record 2 (line 3): kept as text"]),
    ("id,n\n1,5\n2,\n", "--key id --empty n=-7", "1 id:int n:int", "id,n\n1,5\n2,-7\n", ["n: 1 empty field is stored as -7"]),
    ("id,n\n1,\n2,\n", "--key id", "1 id:int n:text", None, ["n: all fields are empty, kept as text"]),
    ("1,x\n2,y\n", "--key id --names id,n", "1 id:int n:text", "id,n\n1,x\n2,y\n", ["2 records, 2 columns"]),
    ("1,x\n2,y\n", "--key x", "1 x:text column_1:int", "x,column_1\ny,2\n", ["--names NAMES gives them", "'1' is named column_1"]),
    ("a,b\n1\n2,x,\n", "--key a --fit", "1 a:int b:text", "a,b\n1,\n2,x\n", ["2 records of another length"]),
    ("a,b,c\n1,x,y\n", "--key a --columns c", "1 a:int c:text", "a,c\n1,y\n", ["left out: b"]),
    ('a,b\n1,"x\r\ny"\n2,5" nail\n', "--key a", "1 a:int b:text", None, []),
    ("a,b\n", "--key b", "1 b:text a:text", "b,a\n", ["0 records"]),
    ("a,b\n1,12.500\n2,-0.05\n3,7\n", "--key a --scale b=2", "1 a:int b:int", "a,b\n1,1250\n2,-5\n3,700\n", ["b: decimals, stored as ints times 100"]),
    ("a,b\n1,-0.05\n2,100.00\n", "--key a --scale b=2", "1 a:int b:int", "a,b\n1,-5\n2,10000\n", []),
    ("a,b\n1,0.05\n2,\n3,1.5\n", "--key a --scale b=2 --empty b=-1", "1 a:int b:int", "a,b\n1,5\n2,-1\n3,150\n",
     ["b: 1 empty field is stored as -1, which is not scaled"]),
    ("a,b\n1,0.05\n2,\n", "--key a --scale b=2 --empty b=0", "1 a:int b:int", "a,b\n1,5\n2,0\n", ["b: 1 empty field is stored as 0\n"]),
    ("a;b\n1;1,5\n2;-2E-1\n3;3\n", "--key a --scale b=1", "1 a:int b:int", "a,b\n1,15\n2,-2\n3,30\n", []),
    ("a,b\n1,1.0\n2,7.00\n", "--key a", "1 a:int b:text", None, ["the first '1.0' in record 1 (line 2), kept as text; --scale b=0 makes ints of them"]),
    ("a,b\n1,1.0\n2,7.00\n", "--key a --scale b=0", "1 a:int b:int", "a,b\n1,1\n2,7\n", ["b: decimals, stored as ints without digits after the point"]),
    ("a,b\n1,2\n2,\n", "--key a --empty b=x", "1 a:int b:text", "a,b\n1,2\n2,x\n", ["b: ints, but the filling of empty fields is 'x': kept as text"]),
    ("a,b,c\n1,NULL,x\n2,5,NULL\n3,\\N,y\n", "--key a --null NULL,\\N --empty b=-1", "1 a:int b:int c:text", "a,b,c\n1,-1,x\n2,5,\n3,-1,y\n",
     ["b: 2 fields are taken as empty: 'NULL' (1) and '\\N' (1)", "b: 2 empty fields are stored as -1", "c: 1 field is taken as empty: 'NULL' (1)"]),
    ("a,b,c\n1,-,-\n2,5,x\n", "--key a --null b=- --empty b=0", "1 a:int b:int c:text", "a,b,c\n1,0,-\n2,5,x\n", []),
    ("a,b,c\n1,n/a,NULL\n2,2.5,x\n3,,NULL\n", "--key a", "1 a:int b:text c:text", "a,b,c\n1,n/a,NULL\n2,2.5,x\n3,,NULL\n",
     ["b: decimals, the first '2.5' in record 2 (line 3), kept as text; --scale b=1 makes ints of tenths, with --null b=n/a --empty b=0, as 1 field is "
      "empty, in record 3 (line 4), and 1 field is 'n/a', in record 1 (line 2)", "c: 2 fields are 'NULL', kept as text; --null c=NULL takes such as empty"]),
    ("a,b\n1,-\n2,None\n3,it - None\n", "--key a", "1 a:int b:text", "a,b\n1,-\n2,None\n3,it - None\n", ["3 records, 2 columns, divided by ','"]),
    ("a,b,c\n1,Yes,1\n2,no,0\n", "--key a", "1 a:int b:text c:int", None, ["b: yes and no, kept as text; --flag b makes flags of them"]),
    ("a,b,c\n1,Y,1\n2,n,0\n3,y,1\n", "--key a --flag b,c", "1 a:int b:flag c:flag", "a,b,c\n1,true,true\n2,false,false\n3,true,true\n",
     ["b: flags, true for 'Y' and 'y' and false for 'n'", "c: flags, true for '1' and false for '0'"]),
    ("a,b\n1,ja\n2,Nein\n3,\n", "--key a --flag b=ja,nein --empty b=false", "1 a:int b:flag", "a,b\n1,true\n2,false\n3,false\n", []),
    ("a,b\n1,true\n2,false\n3,maybe\n", "--key a", "1 a:int b:text", None, ["b: text, as record 3 (line 4) has 'maybe', which is neither true nor false"]),
    (gzip.compress(b"a,b\n1,x\n"), "--key a", "1 a:int b:text", "a,b\n1,x\n", ["unpacked by gzip"]),
    (bz2.compress("\ufeffa,b\n1,x\n".encode()), "--key a", "1 a:int b:text", "a,b\n1,x\n", ["unpacked by bz2", "byte order mark at the start is left out"]),
    (lzma.compress("a;b\n1;\u00e9\n".encode("utf-16")), "--key a", "1 a:int b:text", "a,b\n1,\u00e9\n", ["unpacked by lzma", "read as utf-16"]),
    ('a,b\n1,"5\n6"\n2,7\n', "--key a", "1 a:int b:text", 'a,b\n1,"5\n6"\n2,7\n', []),
    (f"a,b\n1,x{'é' * 130}\n", "--key a --cut b", "1 a:int b:text", f"a,b\n1,x{'é' * 127}\n", ["b: 1 text is cut to 255 bytes"]),
    (f"a,b\n1,{'é' * 130}\n", "--key a --cut b", "1 a:int b:text", f"a,b\n1,{'é' * 127}\n", []),
)  # fmt: skip

LONG = "é" * 128

# What is refused: the bytes, the words, and the sentences of it.
REFUSED = (
    (f"a,b\n1,x\n2,{LONG}\n", "", ["b of record 2 (line 3) has 256 bytes, the most are 255 (--cut b cuts such)"]),
    ('a,b\n1,"x\ny"\n2,"x\n.\ny"\n', "", ["b of record 2 (line 4) has a line that is '.' alone, which would close the load (--mend-points "]),
    ("a,b\n1,x\n2\n3,x,y\n", "", ["record 2 (line 3) has 1 field, and the header 2", "record 3 (line 4) has 3 fields, and the header 2"]),
    ("a,b\n1,x\n2,x,y\n", "--fit", ["record 2 (line 3) has 3 fields, and the header 2"]),
    ("a,b\n1,x\n2,x\n1,y\n", "", ["record 3 (line 4) has the key of record 1 (line 2)"]),
    ("a,b\n1,x\n01,x\n", "--kind a=int", ["record 2 (line 3) has the key of record 1 (line 2)"]),
    ("a,b\ntrue,x\nTRUE,x\n", "", ["record 2 (line 3) has the key of record 1 (line 2)"]),
    ("a,b\n1,x\n2,\n", "--kind b=int", ["b of record 1 (line 2) is no int: 'x' is no whole number", "b of record 2 (line 3) is no int: the field is empty"]),
    ('a,b\n1,"5\n6"\n', "--kind b=int", ["b of record 1 (line 2) is no int"]),
    ("a,b\n1,0.125\n2,x\n3,\n", "--scale b=2", ["record 1 (line 2) is '0.125', with more than 2", "record 2 (line 3) is 'x', and no decimal", "(--empty b=0"]),
    ('a,b\n1,"1.00\n2.00"\n2,5.00\n', "--scale b=2", ["record 1 (line 2) is '1.00\\n2.00', and no decimal number"]),
    ("a,b\n1,92233720368547758.08\n", "--scale b=2", ["'92233720368547758.08', and 9223372036854775808 as an int, which does not fit 64 bits"]),
    ("a,b\n" + "".join(f"{n},{LONG}\n" for n in range(9)), "", ["b of record 3 (line 4) has 256 bytes", "b of 6 other records too"]),
)

# Fields of a column, some of them of another kind.
POOLS = (["1", "-20", "3"], ["0.05", "12.5", "-3", "1e-2", "7.00"], ["yes", "NO", "y", "0", "1", "true", "False"], ["x", "", "a,b", '"'])
ODD_FIELDS = ["", "NULL", "n/a", "-", "007", "9223372036854775808", "0.125", " 5", "maybe", "1e300"]


def stored(field, nulls, filling, digits, is_flag):
    """What is to be stored for a field, None if it is to be refused: by another way than that of the tool."""
    field = "" if field in nulls else field
    if field == "" and filling is not None:
        return filling
    if digits is not None:
        number = Decimal(field).scaleb(digits) if re.fullmatch(r"-?\d+(\.\d+)?(e[+-]?\d+)?", field) else Decimal("0.5")
        return str(int(number)) if number == int(number) and -(2**63) <= number < 2**63 else None
    if is_flag:
        words = dict.fromkeys(("yes", "y", "1", "true"), "true") | dict.fromkeys(("no", "n", "0", "false"), "false")
        return words.get(field.lower())
    return field


def all_of_terminal(near):
    """What was written to the far end of a terminal, which is closed. It may come in parts."""
    text = b""
    while True:
        try:
            part = os.read(near, 1000)
        except OSError:
            return text
        if not part:
            return text
        text += part


# A table with an index, and its replies.
STOCK = """table 4 3 2 2 city:text day:int sold:int note:text
batch
put Oslo,1,12,"row, 1"
put Oslo,2,7,
end
index by_sold on sold,city include note
build by_sold 9
scan by_sold
go
get Oslo,2
get Oslo,3
sums primary 1 day
go
sums by_sold 3 sold
go
drop by_sold
scan by_sold
go
"""
STOCK_REPLIES = '''table 4
batch 2
index by_sold
build by_sold 2 complete
row 7,Oslo,Oslo,2,
row 12,Oslo,Oslo,1,"row, 1
rows 9
row ""x"""
rows 2
row Oslo,2,7,
none
sum 2 3 Oslo
sums 1
sum 1 7 7,Oslo,Oslo
sum 1 12 12,Oslo,Oslo
sums 2
dropped by_sold
refused 8 NoSuchTree
'''

LISTED = (
    (5, "8: scan by_sold"), (6, "10: get Oslo,2"), (7, "11: get Oslo,3"), (8, "12: sums primary 1 day"), (9, "14: sums by_sold 3 sold"),
    (11, "17: scan by_sold"),
)  # fmt: skip

# Files as other programs write them, the words that are asked for, and the rows that are stored.
OF_OTHER_PROGRAMS = (
    # A spreadsheet: semicolons, decimal commas, CR LF, letters of Windows, a dash for no value, and other words for yes and no.
    ('Nr.;Bezeichnung;Preis \u20ac;Bestand;Lieferbar\r\n007;"Schraube ""M3"", kurz";1234,50;-;ja\r\n008;Mutter;0,05;;nein\r\n'.encode("cp1252"),
     "--key Nr. --encoding cp1252 --scale preis=2 --null bestand=- --empty bestand=-1 --flag lieferbar=ja,nein",
     [["nr", "bezeichnung", "preis", "bestand", "lieferbar"], ["007", 'Schraube "M3", kurz', "123450", "-1", "true"], ["008", "Mutter", "5", "-1", "false"]]),
    # COPY of PostgreSQL, with (format csv, header, null '\\N').
    (b'id,host,ok,value,note\n1,h1,t,0.05,"a, ""b"""\n2,\\N,f,\\N,\\N\n3,h1,\\N,12,""\n',
     "--key id --null \\N --flag ok --empty ok=false --scale value=2 --empty value=-1",
     [["id", "host", "ok", "value", "note"], ["1", "h1", "true", "5", 'a, "b"'], ["2", "", "false", "-1", ""], ["3", "h1", "false", "1200", ""]]),
    # to_csv of pandas: the index has no name, ints among which one is missing are floats, and floats have exponents.
    (b",name,qty,ratio,ok\n0,a,1.0,1e-05,True\n1,b,,0.25,False\n2,c,3.0,,True\n",
     "--key column_1 --scale qty=0 --empty qty=-1 --scale ratio=5 --empty ratio=-1",
     [["column_1", "name", "qty", "ratio", "ok"], ["0", "a", "1", "1", "true"], ["1", "b", "-1", "25000", "false"], ["2", "c", "3", "-1", "true"]]),
    # The shell of SQLite in its mode csv: NULL is an empty field, the empty text is in quotes, and there are no flags.
    (b'id,name,price,ok\r\n1,"a\r\nb",0.1,1\r\n2,"",2.0,0\r\n3,,1.0e-07,\r\n', "--key id --scale price=7 --flag ok --empty ok=false",
     [["id", "name", "price", "ok"], ["1", "a\r\nb", "1000000", "true"], ["2", "", "20000000", "false"], ["3", "", "1", "false"]]),
)  # fmt: skip


class CsvFiles(TestCase):
    def test_from_csv_finds_what_a_file_is(self):
        for given, words, columns, records, wanted in FOUND:
            status, script, sentences = from_csv(given, *words.split())
            self.assertEqual((status, sentences[1]), (0, f"{SHAPE} {columns}"))
            if records is not None:
                self.assertEqual(script, f"{SHAPE} {columns}\nload\n{records}.\n")
            for part in wanted:
                self.assertIn(part, "\n".join([*sentences, ""]))

    def test_from_csv_names_the_field_that_makes_a_text_of_numbers(self):
        """Also far down in the file, for each way in which a column of ints becomes another."""
        others_are_ints = "3,999 records have ints, and --kind n=int names those that have none"
        for odd, said in (
            ("x1", f"n: text, as record 2501 (line 2502) has 'x1', which is neither an int nor a decimal; {others_are_ints}"),
            ("1 000", f"n: text, as record 2501 (line 2502) has '1 000', which is neither an int nor a decimal; {others_are_ints}"),
            ("007", "n: digits of which an int would lose the zeros, the first '007' in record 2501 (line 2502), kept as text; --kind n=int makes it int"),
            ("9223372036854775808", "n: numbers that do not fit 64 bits, the first '9223372036854775808' in record 2501 (line 2502), kept as text"),
            ("0.25", "n: decimals, the first '0.25' in record 2501 (line 2502), kept as text; --scale n=2 makes ints of hundredths"),
            ("NaN", "n: ints, but 1 field is 'NaN', in record 2501 (line 2502): kept as text; --null n=NaN --empty n=0 make it int"),
            ("", "n: ints, but 1 field is empty, in record 2501 (line 2502): kept as text; --empty n=0 makes it int"),
        ):
            fields = [str(number) for number in range(4000)]
            fields[2500] = odd
            status, script, sentences = from_csv("id,n\n" + "".join(f"{place},{field}\n" for place, field in enumerate(fields)), "--key", "id")
            self.assertEqual((status, sentences[1:]), (0, [f"{SHAPE} 1 id:int n:text", said]))
            self.assertIn(f"\n2500,{odd}\n", script)

    def test_from_csv_reads_compressed_files_from_pipes(self):
        given = gzip.compress(b"a,b\n1,x\n2,y\n")
        status, script, errors = run("tools/from_csv", "-", "--key", "a", given=given)
        self.assertEqual((status, script), (0, f"{SHAPE} 1 a:int b:text\nload\na,b\n1,x\n2,y\n.\n"))
        wrong_block = given[:10] + b"\xff" * 20
        broken = (given[:-4], "ended before the end-of-stream marker"), (given[:-8] + bytes(8), "CRC check failed"), (wrong_block, "invalid block type")
        for packed, said in broken:
            status, script, errors = run("tools/from_csv", "-", "--key", "a", given=packed)
            self.assertEqual((status, script, "Traceback" in errors), (2, "", False))
            self.assertIn("from_csv: standard input cannot be unpacked: ", errors)
            self.assertIn(said, errors)

    def test_from_csv_makes_names_of_titles(self):
        titles = ["Id", "id", "ID", "Store #", "2020", "", "Ørsted/Åse", "n" * 40, "n" * 41, "é", "_x", "a__b"]
        names = imported("tools/csv_source.py").legal_names(titles)
        wanted = ["id_2", "id", "id_3", "store", "column_2020", "column_6", "orsted_ase", "n" * 32, "n" * 30 + "_2", "e", "x", "a__b"]
        self.assertEqual(names, wanted)

    def test_from_csv_says_what_became_of_the_sales(self):
        """A file with a mark, semicolons, CR LF, decimal commas, empty fields and titles that are no names."""
        words = ["--key", "Date,Store #", "--scale", "revenue=2", "--empty", "visitors=0"]
        status, script, errors = run("tools/from_csv", str(FILES / "sales.csv"), *words)
        table = f"{SHAPE} 2 date:text store:int revenue:int visitors:int open:flag comment:text"
        self.assertEqual(
            errors.splitlines(),
            [
                "6 records, 6 columns, divided by ';'",
                f"  {table}",
                "  the byte order mark at the start is left out",
                "  its lines end with CR LF, and those of the script with LF; inside fields they stay as they are",
                "  'Date' is named date, 'Store #' store, 'Revenue €' revenue, 'Open?' open",
                "  revenue: decimals, stored as ints times 100",
                "  visitors: 2 empty fields are stored as 0",
            ],
        )
        self.assertEqual((status, script.splitlines()[:4]), (0, [table, "load", "date,store,revenue,visitors,open,comment", "2026-11-02,1,120450,35,TRUE,"]))
        revenues = [record[2] for record in read(script.split("load\n")[1])[1:-1]]
        self.assertEqual(revenues, ["120450", "-1205", "98000", "99", "100000001", "750"])

    def test_from_csv_refuses_what_cannot_be_loaded(self):
        """With record and line, all in one run, and without a script."""
        for given, words, wanted in REFUSED:
            status, script, sentences = from_csv(given, "--key", "a", *words.split())
            self.assertEqual((status, script, sentences[-1]), (2, "", "no script is written"))
            refusals = [sentence for sentence in sentences if sentence.startswith("refused: ")]
            for part in wanted:
                self.assertIn(part, "\n".join(refusals))
        everything = f"a,b,c\n1,{LONG},\n1,x\n"
        self.assertEqual(len([sentence for sentence in from_csv(everything, "--key", "a")[2] if sentence.startswith("refused: ")]), 3)

    def test_from_csv_wants_right_words(self):
        with tempfile.TemporaryDirectory() as folder:
            path = Path(folder) / "a.csv"
            path.write_text("id,City name\n1,Oslo\n")
            wide = Path(folder) / "wide.csv"
            wide.write_text(",".join(f"c{place}" for place in range(17)) + "\n")
            bad = Path(folder) / "bad.csv"
            bad.write_bytes(b"id,city\n1,ok\n2,\xff\n")
            for words, wanted in (
                ([path], "--key COLUMNS names the column, or up to four columns, by which each record is found; the columns are: id, city_name"),
                ([path, "--key", "town"], "no column 'town'; its columns are: id, 'City name' or city_name"),
                ([path, "--key", ","], "--key names no column"),
                ([path, "--key", "id,id"], "a column is named twice"),
                ([wide, "--key", "c0"], "17 columns, and a table has at most 16: --columns takes some of them"),
                ([wide, "--key", "c0,c1,c2,c3,c4"], "5 key columns, and a table has at most 4"),
                ([path, "--key", "id", "--shape", "3 4 4"], "--shape wants"),
                ([path, "--key", "id", "--shape", "4 0b 4"], "--shape wants"),
                ([path, "--key", "id", "--kind", "id=float"], "--kind wants int, text, flag or bytes and not 'float'"),
                ([path, "--key", "id", "--scale", "id=x"], "--scale wants the number of digits"),
                ([path, "--key", "id", "--empty", "id"], "--empty wants COLUMN=VALUE"),
                ([path, "--key", "id", "--index", "by", "on town"], "index by: there is no column 'town'"),
                ([path, "--key", "id", "--index", "primary", "on id"], "the name primary of an index is taken"),
                ([path, "--key", "id", "--index", "by", "id"], "--index wants NAME and 'on LIST"),
                ([path, "--key", "id", "--index", "by", "on id where id = x"], "'x' is no whole number"),
                ([path, "--key", "id", "--separator", "ab"], "is no separator"),
                ([path, "--key", "id", "--encoding", "what"], "is no encoding"),
                ([path, "--key", "id", "--encoding", "base64"], "is no encoding"),
                ([bad, "--key", "id"], "line 3 is no UTF-8: byte 3 is FF; --encoding cp1252, latin-1"),
                ([Path(folder) / "none", "--key", "id"], "No such file"),
                ([folder, "--key", "id"], "Is a directory"),
                (["/dev/null", "--key", "id"], "has no record"),
                ([], "the following arguments are required: FILE"),
            ):
                status, text, errors = in_process(FROM_CSV, *map(str, words))
                self.assertEqual((status, text), (2, ""))
                self.assertIn(wanted, errors)
            for words in ([], [bad, "--key", "id"], [path, "--key", "town"], [folder, "--key", "id"]):
                status, text, errors = run("tools/from_csv", *map(str, words))
                self.assertEqual((status, text, "Traceback" in errors, errors.splitlines()[-1].startswith("from_csv: ")), (2, "", False, True))

    def test_wrong_uses_of_from_csv_say_what_to_do(self):
        """Of a table of wrong uses: no script, and what is wrong with what to do about it, to the end of a line."""
        for given, words, said in OF_FROM_CSV:
            with self.subTest(words=words):
                status, script, sentences = from_csv(given, *words)
                self.assertEqual((status, script), (2, ""))
                if not any(sentence.endswith(said) for sentence in sentences):
                    raise AssertionError(f"{words}: no {said!r} in {sentences!r}")

    def test_from_csv_stores_what_is_asked_for(self):
        """Of random columns and options each field is stored as it is asked for, or all of it is refused; and int and flag columns have such values alone."""
        dice, kinds, refused = random.Random(4), Counter(), 0
        for _ in range(900):
            pool = dice.choice(POOLS)
            fields = [dice.choice(pool + ([dice.choice(ODD_FIELDS)] if dice.random() < 0.4 else [])) for _ in range(dice.randrange(1, 7))]
            nulls = dice.choice(([], [], ["NULL"], ["n/a", "-"]))
            digits, is_flag = dice.choice(((None, False), (None, False), (0, False), (2, False), (None, True)))
            filling = dice.choice((None, "false" if is_flag else dice.choice(("0", "-1"))))
            words = [f"--null={','.join(nulls)}"] * bool(nulls) + [f"--empty=v={filling}"] * (filling is not None)
            words += [f"--scale=v={digits}"] * (digits is not None) + ["--flag=v"] * is_flag
            text = io.StringIO()
            csv.writer(text).writerows([["k", "v"], *enumerate(fields)])
            status, script, _ = from_csv(text.getvalue(), "--key", "k", *words)
            expected = [stored(field, nulls, filling, digits, is_flag) for field in fields]
            self.assertEqual(status, 2 if None in expected else 0, (fields, words))
            if status == 0:
                kind = re.search(r" v:(\w+)\n", script)[1]
                self.assertEqual([row[1] for row in read(script.split("load\n")[1])[1:-1]], expected, (fields, words))
                form = {"int": r"-?\d{1,19}", "flag": "(?i:true|false)", "text": ".*"}[kind]
                self.assertEqual([bool(re.fullmatch(form, value)) for value in expected], [True] * len(fields), (fields, kind))
                kinds[kind] += 1
            refused += status
        self.assertEqual((min(kinds.values()) > 30, len(kinds), refused > 200), (True, 3, True))

    def test_from_csv_warns_of_quotes_that_look_broken(self):
        status, script, errors = run("tools/from_csv", str(FILES / "forgotten_quote.csv"), "--key", "id")
        goes_on = "the quoted field that begins in line 28 goes on after its closing quote in line 29: was a quote forgotten? (it holds 1 line break)"
        self.assertEqual((status, script.count("\n"), errors.splitlines()[2:]), (0, 33, [f"  warning: {goes_on}"]))
        self.assertIn('\n27,"city,5\n28,city""",5\n29,city,5\n.\n', script)
        status, script, sentences = from_csv('a;b\n1;"x"y\n2;"z\n3;z\n', "--key", "a")
        self.assertIn("warning: the quoted field that begins in line 2 goes on after its closing quote: was a quote forgotten?", sentences)
        self.assertIn("warning: the quoted field that begins in line 3 is not closed, and goes on to line 4", sentences[-1])
        self.assertEqual((status, read(script)[2:-1]), (0, [["a", "b"], ["1", "xy"], ["2", "z\n3;z\n"]]))
        for whole in ('a,b\n1,"x ""y"""\n', 'a,b\n1,x "y\n', 'a,b\n1,"x"', 'a,b\n"1",""\n'):
            self.assertEqual([sentence for sentence in from_csv(whole, "--key", "a")[2] if "warning" in sentence], [])

    def test_from_csv_makes_scripts_of_64_mebibytes_and_no_byte_more(self):
        """With a smaller limit in its place, to the byte. Of a larger file it says so at once, and the record with which the script is full if it has to
        read."""
        tool = imported("tools/from_csv")
        with tempfile.TemporaryDirectory() as folder:
            path = Path(folder) / "a.csv"
            path.write_text("a,b\n" + "".join(f"{n},xyz\n" for n in range(2500)))
            size = len(run("tools/from_csv", str(path), "--key", "a")[1])
            so_far = "1,000 records so far, 2 columns, divided by ','\n  table 16 1024 256 1 a:int b:text\n  refused: the script would have more than 9,000"
            too_large = f"the file has {path.stat().st_size:,} bytes; --csv writes the records for load_csv of a session, which takes any size (docs/PYTHON.md)"
            for most, words, status, said in (
                (size, [], 0, ""),
                (size - 1, [], 2, f"the script would have {size:,} bytes"),
                (9000, [], 2, so_far),
                (9000, [], 2, too_large),
                (9000, ["--columns", "a,b"], 2, "it is full at record 2000 (line 2001); --csv writes"),
            ):
                tool.MOST_SCRIPT = most
                found = in_process(tool, str(path), "--key", "a", *words)
                self.assertEqual(found[0], status)
                self.assertIn(said, found[2])
            # The records alone have no limit.
            status, text, said = in_process(tool, str(path), "--key", "a", "--csv", "--index", "by_b", "on b")
            table = "  table 16 1024 256 1 a:int b:text\n  index by_b on b\n  build by_b 1"
            self.assertEqual((status, text, said), (0, path.read_text(), f"2,500 records, 2 columns, divided by ','\n{table}\n"))

    def test_from_csv_refuses_early_only_what_has_no_room(self):
        """Of random files, with quotes, blanks, exponents and zeros that are dropped: the script of just as many bytes as there may be is written."""
        tool, dice = imported("tools/from_csv"), random.Random(5)
        decimals, texts = ["0.00", "-0.50", "12.5", "1e-2", "1.5E+1", "007", "-0", "0e5"], ["x", " y ", '"q"', "a,b", "l\nm", ""]
        with tempfile.TemporaryDirectory() as folder:
            path = Path(folder) / "a.csv"
            for _ in range(200):
                text = io.StringIO(newline="")
                records = csv.writer(text, lineterminator=dice.choice(("\n", "\r\n")), quoting=dice.choice((csv.QUOTE_ALL, csv.QUOTE_MINIMAL)))
                # One of each, so that what is dropped adds up.
                decimal, note = dice.choice(decimals), dice.choice(texts)
                records.writerows([["k", "d", "s"], *([place, decimal, note] for place in range(dice.randrange(1, 200)))])
                path.write_text(text.getvalue(), newline="")
                words = [str(path), "--key", "k", *dice.choice(([], ["--trim"])), *dice.choice(([], ["--scale", "d=2"]))]
                tool.MOST_SCRIPT = 2**26
                size = len(in_process(tool, *words)[1].encode())
                for tool.MOST_SCRIPT, status in ((size, 0), (size - 1, 2)):
                    self.assertEqual((words[1:], text.getvalue(), in_process(tool, *words)[0]), (words[1:], text.getvalue(), status))

    def test_from_csv_shows_progress_at_a_terminal_only(self):
        near, far = pty.openpty()
        before = sys.stderr
        try:
            with os.fdopen(far, "w") as terminal:
                sys.stderr = terminal
                progress = FROM_CSV.Progress()
                progress.show(5)
                progress.due -= 1
                progress.show(1234567)
                progress.end()
            sys.stderr = io.StringIO()
            shown = all_of_terminal(near).decode()
            self.assertIsNone(FROM_CSV.Progress().due)
        finally:
            sys.stderr = before
            os.close(near)
        self.assertEqual((shown.startswith("\r1,234,567 records so far\r"), "\r5 " in shown, shown.endswith(" \r")), (True, False, True))

    def test_to_csv_takes_replies_from_a_file(self):
        """Names that come again, line breaks that look like replies, a get of no row, a refusal, and what has no rows."""
        with tempfile.TemporaryDirectory() as folder:
            script, given = Path(folder) / "script", Path(folder) / "replies"
            script.write_text(STOCK)
            given.write_text(STOCK_REPLIES)

            def of(number):
                return run_forked("tools/to_csv", script, "--replies", given, *(["--reply", number] if number is not None else []))

            self.assertEqual(of(5), (0, 'sold,city,city_2,day,note\n7,Oslo,Oslo,2,\n12,Oslo,Oslo,1,"row, 1\nrows 9\nrow ""x"""\n', ""))
            self.assertEqual(of(6), (0, "city,day,sold,note\nOslo,2,7,\n", ""))
            self.assertEqual(of(7), (0, "city,day,sold,note\n", "to_csv: command 7 (line 11: get Oslo,3) found no row\n"))
            self.assertEqual(of(8), (0, "city,count,day\nOslo,2,3\n", ""))
            self.assertEqual(of(9), (0, "sold,city,city_2,count,sold_2\n7,Oslo,Oslo,1,7\n12,Oslo,Oslo,1,12\n", ""))
            for number in (11, None):
                self.assertEqual(of(number), (1, "", "to_csv: command 11 (line 17: scan by_sold) is refused, 8 NoSuchTree: tools/explain says why\n"))
            self.assertEqual(of(2)[:2] + of(12)[:2] + of(0)[:2], (2, "", 2, "", 2, ""))
            self.assertIn("the script has 11 commands", of(12)[2])
            listed = run("tools/to_csv", str(script), "--list")[1].splitlines()
            self.assertEqual(listed, [f"command {number} (line {line})" for number, line in LISTED])

    def test_to_csv_names_no_two_columns_alike(self):
        """A column that comes again is never named as another one that is there."""
        script = """table 4 3 2 1 a:int a_2:int count:int
index i on a_2,a include a,count
build i 1
scan i
go
sums i 2 count
go
index j on a include a_2
build j 1
scan j
go
"""
        with tempfile.TemporaryDirectory() as folder:
            path = Path(folder) / "replies"
            path.write_text("table 3\nindex i\nbuild i 0 complete\nrows 0\nsums 0\nindex j\nbuild j 0 complete\nrows 0\n")
            self.assertEqual(to_csv(script, "--replies", str(path), "--reply", "4"), (0, "a_2,a,a_3,a_4,count\n", ""))
            self.assertEqual(to_csv(script, "--replies", str(path), "--reply", "5"), (0, "a_2,a,count,count_2\n", ""))
            self.assertEqual(to_csv(script, "--replies", str(path)), (0, "a,a_3,a_2\n", ""))

    def test_to_csv_finds_replies_that_are_not_those_of_the_script(self):
        with tempfile.TemporaryDirectory() as folder:
            script, given = Path(folder) / "script", Path(folder) / "replies"
            script.write_text(STOCK)
            lines = STOCK_REPLIES.splitlines(keepends=True)
            for replies, wanted in (
                ("", "the replies end before that to command 1 (line 1: "),
                ("".join(lines[:5]), "the replies end within that to command 5 (line 8: scan by_sold)"),
                ("".join(lines[:9]), "the replies end before that to command 6"),
                ("".join(lines[1:]), "the replies are not those of this script: command 1"),
                ("".join([*lines, "none\n"]), "1 line of them more than it has commands"),
                ("".join(["refused 5 BadSchema\n", *lines[1:]]), "command 5 (line 8: scan by_sold) could not be answered"),
                (STOCK_REPLIES.replace("index by_sold", "refused 9 NameTaken"), "command 5 (line 8: scan by_sold) could not be answered"),
                (STOCK_REPLIES.replace("rows 2\n", "rows 3\n"), "the replies end within that to command 5"),
            ):
                given.write_text(replies)
                status, text, errors = run_forked("tools/to_csv", script, "--replies", given, "--reply", 5)
                self.assertEqual((status, text, "Traceback" in errors), (2, "", False))
                self.assertIn(wanted, errors)


class CsvFilesWithProgram(ProgramTestCase):
    def test_wrong_uses_of_the_other_tools_say_what_to_do(self):
        with tempfile.TemporaryDirectory() as folder:
            path = Path(folder) / "FILE"
            for tool, words, contents, status, said in OF_OTHERS:
                with self.subTest(tool=tool, words=words):
                    path.write_text(contents)
                    program = ["--program", PROGRAM] if tool not in ("explain_words",) and "--program" not in words else []
                    found, text, errors = run_forked(f"tools/{tool}", *program, *(path if word == "FILE" else word for word in words.split()))
                    lines = (text + errors).replace(str(path), "FILE").splitlines()
                    self.assertEqual((found, lines[-1]), (status, said))
                    if tool != "explain" and tool != "explain_words":
                        self.assertEqual(text, "")

    def test_from_csv_takes_one_record_of_each_key(self):
        """Over several chunks: of 2,500 records each key comes twice, the second time at the same distance, and once a third time."""
        records = [f'{n % 1200},"{n}\r\n"' for n in range(2400)] + ["7,end"]
        given = "a,b\n" + "\n".join(records) + "\n"
        first, last = ([row for row in there_and_back(self, given, "--key", "a", word)[1:]] for word in ("--first", "--last"))
        self.assertEqual(first, [[str(n), f"{n}\r\n"] for n in range(1200)])
        self.assertEqual(last, [[str(n), "end" if n == 7 else f"{n + 1200}\r\n"] for n in range(1200)])
        sentences = from_csv(given, "--key", "a", "--last")[2]
        self.assertIn("left out: 1,201 records with the key of a later one, first record 1 (line 2), which has that of record 1201 (line 2402)", sentences)

    def test_to_csv_wants_right_words(self):
        for words, wanted in (
            ([], "required: SCRIPT"),
            (["no/such/file"], "No such file"),
            (["examples"], "Is a directory"),
            (["examples/flush"], "the script has no scan and no sums"),
            (["examples/first_steps", "--replies", "no/such/file"], "No such file"),
            (["-", "--replies", "-"], "standard input is the script or the replies"),
        ):
            status, text, errors = run_forked("tools/to_csv", *words)
            self.assertEqual((status, text, "Traceback" in errors), (2, "", False))
            self.assertIn(wanted, errors)
        status, _, errors = run("tools/to_csv", "examples/first_steps", "--program", "no/such/program")
        self.assertEqual((status, "no/such/program: No such file" in errors), (3, True))
        self.assertEqual(run("tools/to_csv", "examples/ranges_and_sums", "--program", "/bin/false")[0], 3)

    # After it the program runs.
    def test_csv_comes_back_as_it_was(self):
        """Quotes, line breaks, empty fields, points, commas, spaces and texts of 255 bytes, written by Python with each separator and line end."""
        texts = ['the "old" town', "two\nlines", "two\r\nlines", "a\rb", "", ".", ".\n. \n..", "a,b;c\td|e", " 'x' ", '"', "rows 7\nrow 1", "é" * 127 + "x"]
        rows = [[str(n - 5), text, ["0.5", "-3.25", ""][n % 3], ["true", "false"][n % 2], str((-1) ** n * 9**n)] for n, text in enumerate(texts)]
        for separator, line_end in ((",", "\n"), (";", "\r\n"), ("\t", "\r"), ("|", "\r\n")):
            for mark in ("", "\ufeff"):
                text = io.StringIO(newline="")
                csv.writer(text, delimiter=separator, lineterminator=line_end, quoting=csv.QUOTE_ALL).writerows([["n", "t", "d", "f", "i"], *rows])
                self.assertEqual(there_and_back(self, mark + text.getvalue(), "--key", "n"), [["n", "t", "d", "f", "i"], *rows])

    def test_csv_of_sqlite3_comes_back(self):
        """The file that is stored is what sqlite3 writes here, where there is one."""
        stored = (FILES / "sqlite3.csv").read_bytes()
        if shutil.which("sqlite3"):
            text = subprocess.run(["sqlite3", ":memory:"], input=(FILES / "sqlite3.sql").read_bytes(), capture_output=True).stdout
            self.assertEqual(read(text.decode()), read(stored.decode()))
        rows = read(stored.decode())
        self.assertEqual(there_and_back(self, stored, "--key", "id"), rows)
        # By another key, which comes first.
        order = [2, 0, 1, 3, 4]
        wanted = [[row[place] for place in order] for row in rows]
        self.assertEqual(there_and_back(self, stored, "--key", "note"), [wanted[0], *sorted(wanted[1:])])

    def test_csv_of_other_programs_goes_in(self):
        """As it is, and compressed."""
        for given, words, rows in OF_OTHER_PROGRAMS:
            self.assertEqual(there_and_back(self, given, *words.split()), rows)
            self.assertEqual(there_and_back(self, gzip.compress(given), *words.split()), rows)

    def test_csv_of_other_programs_goes_into_a_session(self):
        """By the lines that --csv says and the records that it writes."""
        for given, words, rows in OF_OTHER_PROGRAMS:
            status, text, sentences = from_csv(given, *words.split(), "--csv", "--index", "by_last", f"on {rows[0][-1]}")
            lines = [sentence for sentence in sentences if sentence.startswith(("table ", "index ", "build "))]
            self.assertEqual((status, len(lines)), (0, 3))
            with tempfile.TemporaryDirectory() as folder, betable().Session() as session:
                path = Path(folder) / "records.csv"
                path.write_text(text, newline="")
                session.run("\n".join(lines) + "\n")
                self.assertEqual(session.load_csv(path), len(rows) - 1)
                values = [[value if isinstance(value, str) else str(value).lower() for value in row] for row in session.scan()]
                self.assertEqual((values, len(session.scan("by_last"))), (rows[1:], len(rows) - 1))

    def test_csv_with_lines_of_a_point_comes_back_mended(self):
        rows = [["1", "a\n.\nb"], ["2", "\n.\r\n.\n"], ["3", "."], ["4", ".\n"], ["5", "x" * 254 + "\n.\ny"]]
        text = io.StringIO(newline="")
        csv.writer(text, lineterminator="\r\n").writerows([["a", "b"], *rows])
        mended = [["1", "a\n. \nb"], ["2", "\n. \r\n. \n"], *rows[2:4], ["5", "x" * 254 + "\n"]]
        self.assertEqual(there_and_back(self, text.getvalue(), "--key", "a", "--mend-points", "--cut", "b"), [["a", "b"], *mended])

    def test_csv_sums_are_exact(self):
        """Decimals as ints of hundredths: their sum is that of the decimals."""
        given = "day,price\n" + "".join(f"{n},{n // 7 - 40}.{n % 100:02}\n" for n in range(1500))
        status, script, _ = from_csv(given, "--key", "day", "--scale", "price=2", "--index", "all", "on price include price")
        self.assertEqual(status, 0)
        total = sum((abs(n // 7 - 40) * 100 + n % 100) * (-1 if n // 7 - 40 < 0 else 1) for n in range(1500))
        status, text, _ = to_csv(script + "sums all 1 price\ngo\n")
        rows = read(text)
        self.assertEqual((status, rows[0]), (0, ["price", "count", "price_2"]))
        self.assertEqual((sum(int(row[2]) for row in rows[1:]), sum(int(row[1]) for row in rows[1:])), (total, 1500))

    def test_help_of_from_csv_can_be_followed(self):
        """The lines of its help, in a folder with examples/cities.csv."""
        lines = run("tools/from_csv", "--help")[1].split("the reply:\n")[1].split("\nThe separator")[0]
        with tempfile.TemporaryDirectory() as folder:
            for name in ("bin", "tools", "crates", "crates.txt", "examples/cities.csv"):
                (Path(folder) / Path(name).name).symlink_to(TOP / name)
            ended = subprocess.run(["sh", "-ec", lines], cwd=folder, capture_output=True, text=True, timeout=SECONDS)
        self.assertEqual((ended.returncode, ended.stderr.count("id:int city:text qty:int")), (0, 2))
        cities = read((TOP / "examples/cities.csv").read_text())
        sums = [f"sum 1 {row[2]} {row[0]}" for row in cities[1:]]
        self.assertEqual(ended.stdout.split("loaded 12\n")[1].split("id,city,qty\n")[0].splitlines(), [*sums, "sums 12"])
        self.assertEqual(read("id,city,qty\n" + ended.stdout.split("id,city,qty\n")[1]), cities)

    def test_csv_tools_end_quietly_where_the_reader_goes_away(self):
        """More than a pipe holds; only the first line is read."""
        given = "a,b\n" + "".join(f"{n},{'x' * 200}\n" for n in range(3000))
        with tempfile.TemporaryDirectory() as folder:
            path, script = Path(folder) / "a.csv", Path(folder) / "script"
            path.write_text(given)
            script.write_text(run("tools/from_csv", str(path), "--key", "a")[1] + "scan primary\ngo\n")
            for words in (["tools/from_csv", str(path), "--key", "a"], ["tools/to_csv", str(script)]):
                with subprocess.Popen([TOP / words[0], *words[1:]], stdout=subprocess.PIPE, stderr=subprocess.PIPE) as process:
                    process.stdout.readline()
                    process.stdout.close()
                    errors = process.stderr.read().decode()
                self.assertFalse("BrokenPipe" in errors or "Traceback" in errors)

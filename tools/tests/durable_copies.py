"""Tests of copies of durable tables with other columns, and of tables of the files of earlier versions."""

import fcntl
import os
import sqlite3
import subprocess
import sys
import zlib
from contextlib import closing
from functools import partial
from unittest import TestCase
from unittest.mock import patch

from .clients import betable, library
from .common import SECONDS, TOP
from .durable import ADD, TABLE, durable, expect_fault, files_of, folder, probe

COLUMNS = "day:int city:text qty:int ok:flag raw:bytes note:text"
ROWS = [(number % 7, f"c{number}\n.\n" if number % 5 == 0 else f'c{number},"x"', number, number % 2 == 0, b"%d" % number, "n" * (number % 3)) for number in range(60)]
ROWS[7] = (0, "x, y", *ROWS[7][2:])
KEY = '1,"c8,""x"""'
INDEXES = "index by_qty on qty,city include raw where ok = true\nindex by_raw  on raw where qty >= 3\nindex spaces on city where city = \"x, y\"\n"


def setUpModule():
    library()


def copies():
    betable()
    return __import__("betable.durable.copies").durable.copies


def a_table(path):
    with durable().open(path) as table:
        table.table(COLUMNS, keys=2, fanout=4, buffer="60b", leaf=2)
        table.run(INDEXES + "build by_qty 1\nbuild by_raw 1\nbuild spaces 1\n")
        table.put(ROWS)
        table.once("order 1", f"batch\nups {KEY},add,qty,0\nend\n")
        table.once("order 2", f"get {KEY}\n")


def printed_by(*words):
    """The status of a command of the package, and what it prints."""
    environment = {**os.environ, "PYTHONPATH": str(TOP / "clients/python")}
    ended = subprocess.run([sys.executable, "-B", "-m", "betable", *words], env=environment, capture_output=True, text=True, timeout=SECONDS)
    return ended.returncode, ended.stdout, ended.stderr


copied = partial(printed_by, "copy")


def names(table):
    return [column.name for column in table.columns()]


class Copies(TestCase):
    def test_a_copy_without_changes_is_the_table_after_a_checkpoint(self):
        with folder() as path:
            a_table(path / "t")
            self.assertEqual(betable().durable.copy(path / "t", path / "new"), 60)
            self.assertEqual({one.name for one in path.iterdir()}, {"t", "new"})
            with durable().open(path / "t") as table, durable().open(path / "new") as new:
                table.checkpoint()
                self.assertEqual((probe(new), new.trees()), (probe(table), table.trees()))
                self.assertEqual(new.once("order 2", f"get {KEY}\n"), table.once("order 2", f"get {KEY}\n"))
                expect_fault(self, durable().RequestReused, lambda: new.once("order 1", "get 1\n"))
                self.assertEqual(new.once("order 3", "get 7,x\n"), b"none\n")

    def test_columns_are_added_at_the_end(self):
        with folder() as path:
            a_table(path / "t")
            add = {"n": "int", "t": "text", "f": "flag", "b": "bytes", "five": ("int", 5), "tag": ("text", "a\n.\nb"), "yes": ("flag", True), "raw2": ("bytes", b"\0")}
            betable().durable.copy(path / "t", path / "new", add=add)
            with durable().open(path / "t") as table, durable().open(path / "new") as new:
                self.assertEqual(new.scan(), [(*row, 0, "", False, b"", 5, "a\n.\nb", True, b"\0") for row in table.scan()])
                self.assertEqual((names(new), new.scan("by_qty"), new.trees()[1]), ([*names(table), *add], table.scan("by_qty"), table.trees()[1]))
                new.index("by_five", "five", "yes")
                self.assertEqual(len(new.scan("by_five", (5,))), 60)

    def test_columns_are_renamed_with_their_indexes(self):
        """Two can change their names. Constants stay."""
        with folder() as path:
            a_table(path / "t")
            betable().durable.copy(path / "t", path / "new", rename={"qty": "city", "city": "qty", "raw": "blob", "ok": "is_ok"})
            with durable().open(path / "t") as table, durable().open(path / "new") as new:
                self.assertEqual((new.scan(), names(new)), (table.scan(), ["day", "qty", "city", "is_ok", "blob", "note"]))
                for name in ("by_qty", "by_raw", "spaces"):
                    self.assertEqual(new.scan(name), table.scan(name))
                new.checkpoint()
                self.assertEqual([line.text for line in copies().checkpoint_of(path / "new")[0].values()][1:], [
                    b"index by_qty on city,qty include blob where is_ok = true", b"index by_raw on blob where city >= 3",
                    b'index spaces on qty where qty = "x, y"',
                ])  # fmt: skip

    def test_columns_are_dropped(self):
        with folder() as path:
            a_table(path / "t")
            betable().durable.copy(path / "t", path / "new", drop=["note"], add={"note": ("int", 3)})
            with durable().open(path / "t") as table:
                self.assertEqual(table.scan(), sorted(ROWS))
                table.run("drop by_qty\ndrop by_raw\n")
            betable().durable.copy(path / "new", path / "two")
            betable().durable.copy(path / "t", path / "three", drop=("raw", "qty"))
            with durable().open(path / "two") as two, durable().open(path / "three") as three:
                self.assertEqual(two.scan(), [(*row[:5], 3) for row in sorted(ROWS)])
                self.assertEqual((three.scan(), names(three)), ([(*row[:2], row[3], row[5]) for row in sorted(ROWS)], ["day", "city", "ok", "note"]))

    def test_what_cannot_be_done_is_refused_by_name(self):
        with folder() as path:
            a_table(path / "t")
            with durable().open(path / "empty"):
                pass
            with durable().open(path / "building") as table:
                table.run(TABLE + ADD + "index i on city\n")
            with durable().open(path / "t") as table:
                table.checkpoint()
            before = files_of(path)
            copy = betable().durable.copy
            many = {f"n{number}": "int" for number in range(11)}
            for words, given, kind in [
                (["'none'", "day, city"], {"drop": ["none"]}, ValueError),
                (["'none'"], {"rename": {"none": "x"}}, ValueError),
                (["'day'", "key"], {"drop": ["day"]}, ValueError),
                (["'city'", "key"], {"drop": "city"}, ValueError),
                (["'by_qty'", "'qty'"], {"drop": ["qty"]}, ValueError),
                (["'by_qty'", "'ok'"], {"drop": ["ok"]}, ValueError),
                (["'by_qty'", "'raw'"], {"drop": ["raw"]}, ValueError),
                (["'note'", "renamed and dropped"], {"drop": ["note"], "rename": {"note": "x"}}, ValueError),
                (["'qty'", "two columns"], {"rename": {"note": "qty"}}, ValueError),
                (["'qty'", "two columns"], {"add": {"qty": "int"}}, ValueError),
                (["a column"], {"add": {"A B": "int"}}, ValueError),
                (["a column"], {"rename": {"note": "1"}}, ValueError),
                (["kind"], {"add": {"x": "float"}}, ValueError),
                (["'x'", "a kind, or a kind and a value"], {"add": {"x": ("int", 1, 2)}}, ValueError),
                (["int", "'x'"], {"add": {"x": ("int", "5")}}, betable().RowTypeError),
                (["'x'", "largest int"], {"add": {"x": ("int", 2**63)}}, betable().Refused),
                (["'x'", "256 bytes"], {"add": {"x": ("text", "æ" * 128)}}, betable().Refused),
                (["'x'", "256 bytes"], {"add": {"x": ("bytes", b"x" * 256)}}, betable().Refused),
                (["refused"], {"add": many}, betable().Refused),
            ]:
                with self.subTest(given=given):
                    expect_fault(self, kind, lambda: copy(path / "t", path / "new", **given), *words)
            expect_fault(self, ValueError, lambda: copy(path / "empty", path / "new"), "no table")
            expect_fault(self, durable().IndexBuilding, lambda: copy(path / "building", path / "new"), "i")
            expect_fault(self, FileNotFoundError, lambda: copy(path / "none", path / "new"), "none")
            expect_fault(self, FileExistsError, lambda: copy(path / "t", path / "empty"), f"{path}/empty")
            with durable().open(path / "empty"):
                expect_fault(self, durable().InUse, lambda: copy(path / "empty", path / "new"), "empty")
            self.assertEqual(files_of(path), before)

    def test_a_copy_that_fails_leaves_nothing(self):
        """At each of its steps. What an earlier one has left is no hindrance."""
        module = copies()
        with folder() as path:
            a_table(path / "t")
            (path / "new.part").write_bytes(b"of a killed copy")
            table = __import__("betable.durable.table").durable.table
            for holder, name in ((table.Durable, "put"), (module, "checkpoint_of"), (table, "sync_path"), (table.Durable, "count")):
                with self.subTest(name=name), patch.object(holder, name, side_effect=OSError(28, "No space left on device")):
                    expect_fault(self, OSError, lambda: module.copy(path / "t", path / "new", add={"x": "int"}), "No space")
                self.assertEqual({one.name for one in path.iterdir()}, {"t"})
            self.assertEqual(module.copy(path / "t", path / "new", add={"x": "int"}), 60)

    def test_the_command(self):
        with folder() as path:
            with durable().open(path / "t") as table:
                table.run(TABLE)
                table.put([(1, "a", 2), (3, "b", 4)])
            words = ["--add", "tag:text=a=b:c", "--add", "ok:flag=true", "--add", "n:int", "--rename", "city=town", "--drop", "qty"]
            self.assertEqual(copied(path / "t", path / "new", *words), (0, f"{path}/new has the 2 rows of {path}/t.\n", ""))
            with durable().open(path / "new") as new:
                self.assertEqual((new.scan(), names(new)), ([(1, "a", "a=b:c", True, 0), (3, "b", "a=b:c", True, 0)], ["id", "town", "tag", "ok", "n"]))
            for words, said in [
                (["--add", "tag"], "--add takes NAME:KIND"), (["--add", "n:int=x"], "'x'"), (["--rename", "city"], "--rename takes OLD=NEW"),
                (["--add", "n:int", "--add", "n:text"], "named twice"), (["--drop", "id"], "key"), ([], "is there already"),
            ]:  # fmt: skip
                status, printed, errors = copied(path / "t", path / ("new" if not words else "other"), *words)
                self.assertEqual((status, printed, errors.count("\n")), (1, "", 1))
                self.assertTrue(errors.startswith("betable copy: ") and said in errors, errors)
            self.assertEqual({one.name for one in path.iterdir()}, {"t", "new"})


# ---- files of earlier versions ----

# The tables of format 4. Format 1 has no last column in `about` and in `requests`, formats 1 and 2 have none in `log`, and formats 1 to 3 none in `checkpoint`.
SCHEMA = """
    CREATE TABLE about(engine INTEGER NOT NULL, number INTEGER NOT NULL, checksum INTEGER NOT NULL{about});
    CREATE TABLE checkpoint(part INTEGER PRIMARY KEY, text BLOB NOT NULL{checkpoint});
    CREATE TABLE log(number INTEGER PRIMARY KEY, script BLOB NOT NULL, checksum INTEGER NOT NULL{log});
    CREATE TABLE requests(number INTEGER PRIMARY KEY, id TEXT NOT NULL UNIQUE, script BLOB NOT NULL, replies BLOB NOT NULL{requests});
    PRAGMA application_id=1651794540;
    PRAGMA user_version={version};
"""
PACKED = ", is_packed INTEGER NOT NULL DEFAULT 0"


def write_old(path, version, checkpoint, log):
    """A file of an earlier version, with the parts of a checkpoint and with a log. A part or an entry is a script, or packed changes."""
    columns = {
        "about": ", generation INTEGER NOT NULL DEFAULT 7, mark BLOB" if version >= 2 else "", "requests": ", checksum INTEGER" if version >= 2 else "",
        "log": PACKED if version >= 3 else "", "checkpoint": PACKED if version >= 4 else "",
    }  # fmt: skip
    with closing(sqlite3.connect(path)) as db, betable().Session() as session:
        db.executescript(SCHEMA.format(version=version, **columns))
        for number, part in enumerate(checkpoint, 1):
            session._apply_packed(part) if part.startswith(b"BTV") else session.replies(part)
            row = number, part, part.startswith(b"BTV")
            db.execute(f"INSERT INTO checkpoint VALUES(?, ?{', ?' if version >= 4 else ''})", row[: 3 if version >= 4 else 2])
        db.execute("INSERT INTO about(engine, number, checksum) VALUES(1, ?, ?)", (len(checkpoint), zlib.crc32(b"".join(checkpoint))))
        for number, entry in enumerate(log, len(checkpoint) + 1):
            is_packed = entry.startswith(b"BTV")
            replies = session._apply_packed(entry) if is_packed else session.replies(entry)
            row = number, entry, zlib.crc32(replies, zlib.crc32(entry)), is_packed
            db.execute(f"INSERT INTO log VALUES(?, ?, ?{', ?' if version >= 3 else ''})", row[: 4 if version >= 3 else 3])
            db.execute("INSERT INTO requests(id, script, replies) VALUES(?, ?, ?)", (f"{number}", entry, replies))
        db.commit()
        session.replies(b"rebuild primary\nrebuild by_city\n")
        return probe(session)


def puts(*rows):
    with betable().Session() as session:
        session.run(TABLE)
        session.trees()
        return betable().packed.puts_of_rows(rows, ["int", "text", "int"])


OF_TABLE = TABLE.encode()
INDEX = b"index by_city on city include qty\nbuild by_city 999\n"
LOADED = OF_TABLE + b'load\nid,city,qty\n1,"a\nb",5\n2,b,6\n.\n' + INDEX + b"rebuild primary\n"
SCRIPTS = [ADD.encode(), b"batch\nput 3,c,7\nput x\nend\nbatch\nput 4,d,8\nend\n", b"batch\ndel 2\nend\n"]
OLD = {
    1: ([LOADED], SCRIPTS),
    2: ([], [OF_TABLE, INDEX, *SCRIPTS]),
    3: ([LOADED], [*SCRIPTS, puts((5, "x\n.\ny", 9), (1, "", 0))]),
    4: ([OF_TABLE, puts((1, "a\n.\nb", 5), (2, "b", 6)), INDEX], [*SCRIPTS, puts((5, "x", 9)), ADD.encode()]),
}  # fmt: skip
convert = partial(printed_by, "convert")


class Conversions(TestCase):
    def test_a_table_of_each_format_is_converted(self):
        """Node by node it is the table after a rebuild. The old file stays as it is, and what it has of requests is not there."""
        for version, (checkpoint, log) in OLD.items():
            with self.subTest(version=version), folder() as path:
                wanted = write_old(path / "old", version, checkpoint, log)
                before = files_of(path)
                expect_fault(self, durable().NotATable, lambda: durable().open(path / "old"), "convert")
                with patch("betable.durable.conversions.GROUP_ENTRIES", 2):
                    count = durable().convert(path / "old", path / "new")
                self.assertEqual({**before, "new": (path / "new").read_bytes()}, files_of(path))
                with durable().open(path / "new") as table:
                    self.assertEqual((probe(table), table.count()), (wanted, count))
                    self.assertEqual(table.once(f"{len(checkpoint) + 1}", "get 4\n"), b"row 4,d,8\n")

    def test_a_file_without_a_table_is_converted(self):
        with folder() as path:
            write_old(path / "old", 4, [], [])
            self.assertEqual(durable().convert(path / "old", path / "new"), 0)
            with durable().open(path / "new") as table:
                self.assertEqual(table.trees(), ())

    def test_an_index_that_is_building_goes_on(self):
        with folder() as path:
            write_old(path / "old", 4, [], [OF_TABLE, b"load\nid,city,qty\n1,a,5\n2,b,6\n3,c,7\n.\n", b"index i on qty\nbuild i 1\n"])
            self.assertEqual(durable().convert(path / "old", path / "new"), 3)
            with durable().open(path / "new") as table:
                self.assertEqual(table.replies("build i 1\nbuild i 9\n"), b"build i 1 building\nbuild i 1 complete\n")

    def test_what_is_damaged_is_refused_and_nothing_is_written(self):
        with folder() as path:
            write_old(path / "whole", 4, *OLD[4])
            for number, statement in [
                (5, "UPDATE log SET script = CAST(replace(CAST(script AS TEXT), 'c,7', 'c,8') AS BLOB) WHERE number = 5"),
                (5, "UPDATE log SET checksum = checksum + 1 WHERE number = 5"),
                (5, "DELETE FROM log WHERE number = 5"),
                (4, "DELETE FROM log WHERE number = 4"),
                (7, "UPDATE log SET checksum = checksum + 1 WHERE number = 7"),
                (7, "UPDATE log SET script = 5 WHERE number = 7"),
                (7, "UPDATE log SET is_packed = 0 WHERE number = 7"),
                (0, "UPDATE checkpoint SET text = zeroblob(length(text)) WHERE is_packed"),
                (0, "DELETE FROM checkpoint WHERE is_packed"),
                (0, "UPDATE checkpoint SET text = 5"),
                (0, "UPDATE about SET number = 'x'"),
                (None, "ALTER TABLE log RENAME TO other"),
            ]:
                with self.subTest(statement=statement):
                    (path / "damaged").write_bytes((path / "whole").read_bytes())
                    with closing(sqlite3.connect(path / "damaged")) as db:
                        db.execute(statement)
                        db.commit()
                    fault = expect_fault(self, durable().Corrupt, lambda: durable().convert(path / "damaged", path / "new"), f"{path}/damaged")
                    self.assertEqual((fault.number, {one.name for one in path.iterdir()}), (number, {"whole", "damaged"}))
            data = bytearray((path / "whole").read_bytes())
            data[4096:] = b"\xff" * (len(data) - 4096)
            (path / "damaged").write_bytes(data)
            expect_fault(self, durable().Corrupt, lambda: durable().convert(path / "damaged", path / "new"), "backup")

    def test_the_command_and_what_it_refuses(self):
        with folder() as path:
            write_old(path / "old", 4, *OLD[4])
            (path / "open").write_bytes((path / "old").read_bytes())
            (path / "open-wal").write_bytes(b"a log")
            (path / "text").write_text("table 4 3 2 1 id:int\n" * 300)
            for name, statement in (("other", "PRAGMA application_id=5"), ("newer", "PRAGMA user_version=5")):
                (path / name).write_bytes((path / "old").read_bytes())
                with closing(sqlite3.connect(path / name)) as db:
                    db.execute(statement)
                    db.commit()
            before = files_of(path)
            for name, said in (
                ("open", "was not closed"), ("text", "no SQLite database"), ("other", "no table of an earlier version"), ("newer", "has format 5"),
                ("none", "No such file"),
            ):  # fmt: skip
                status, printed, errors = convert(path / name, path / "new")
                self.assertEqual((status, printed, errors.startswith("betable convert: "), said in errors), (1, "", True, True), errors)
            expect_fault(self, FileExistsError, lambda: durable().convert(path / "old", path / "text"), "a new file")
            with open(path / "old", "rb") as file:
                fcntl.flock(file, fcntl.LOCK_EX)
                expect_fault(self, durable().InUse, lambda: durable().convert(path / "old", path / "new"), "open already")
            self.assertEqual(files_of(path), before)
            (path / "new.part").write_bytes(b"of a process that was killed")
            said = f"{path}/new has the 3 rows of {path}/old, and none of its request ids.\n"
            self.assertEqual(convert(path / "old", path / "new"), (0, said, ""))
            self.assertEqual(files_of(path).keys() - before.keys(), {"new"})

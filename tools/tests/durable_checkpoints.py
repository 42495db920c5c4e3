"""Tests of the checkpoints of a durable table: those that it makes by itself, and those that it is asked for."""

import ctypes
import errno
import logging
from contextlib import contextmanager
from unittest import TestCase

from .clients import betable, library
from .common import fault_of
from .durable import ADD, TABLE, calls_on_files, durable, expect_fault, folder, no_file_longer_than, probe

# Texts that are hard to write, or end a load as a line of their own, and definitions that are hard to write.
TEXTS = [
    "", ".", "..", "a\nb", "a\r", "\r\n", "\n", '"', '""', 'a"b', ",", "\ufeffx", " ", "row x", "rows 3\n", "a\n\nb", "\0", "æøå", 'x"\nrow 1,"y',
    "a\n.\nb", "\n.\n", "\r\n.\r\n",
]  # fmt: skip
HARD_TABLE = "table 4 60b 2 2 v:text k:int f:flag b:bytes w:text\n"
HARD_INDEXES = """index a on w where w = "x, y"
 index  c on f,b include v,v where b >= 0a
index d on v where w =  x \r
index gone on k
index e on w,w,b,f include k where f < true
index f on k where w = ""
drop gone
index gone on f,k
"""
ROW = "x" * 250


def setUpModule():
    library()


def rebuild_all(session):
    session.replies(b"".join(b"rebuild %b\n" % name for name in session.trees().by_name))


@contextmanager
def notices():
    """The lines that the logger of durable tables is given."""
    lines = []
    handler = logging.Handler()
    handler.emit = lambda record: lines.append(record.getMessage())
    logger = logging.getLogger("betable.durable")
    logger.addHandler(handler)
    logger.propagate = False
    try:
        yield lines
    finally:
        logger.removeHandler(handler)
        logger.propagate = True


def write(table, count):
    """Writes that many MiB to the file, by changes of a few rows."""
    for _ in range(count):
        with table.group():
            for start in (0, 2_000):
                table.put((start + number, ROW, number) for number in range(2_000))


class ByThemselves(TestCase):
    def test_a_call_that_follows_a_long_file_makes_a_checkpoint(self):
        """The replies and the trees are those of a session in which a checkpoint is a rebuild of each tree, also after the table is opened again. None is made
        in a group. A group begins with one that is due."""
        with folder() as path, betable().Session() as plain:
            with durable().open(path / "t") as table:
                self.assertEqual((table.checkpoint_count, table.checkpoint_time, table.checkpoint_seconds, table.checkpoint_fault), (0, None, None, None))
                table.run(TABLE + "index i on qty\nbuild i 1\n")
                with table.group():
                    for _ in range(20):
                        table.put((number, ROW, number) for number in range(4_000))
                self.assertEqual((table.checkpoint_count, table.file_bytes > 20 << 20), (0, True))
                plain.run(TABLE + "index i on qty\nbuild i 1\n")
                plain.put((number, ROW, number) for number in range(4_000))
                with table.group():
                    self.assertEqual((table.checkpoint_count, table.file_bytes < 2 << 20), (1, True))
                    table.replies(ADD)
                rebuild_all(plain)
                plain.replies(ADD)
                self.assertEqual((probe(table) == probe(plain), table.checkpoint_seconds > 0, table.checkpoint_time > 1.7e9), (True, True, True))
            with durable().open(path / "t") as table:
                self.assertEqual((probe(table) == probe(plain), table.checkpoint_count), (True, 0))
                write(table, 20)
                self.assertEqual(table.checkpoint_count, 1)
                table.put([(1, "", 1)])
                write(table, 20)
                table.get(1), table.scan(limit=1)
                self.assertEqual(table.checkpoint_count, 2)

    def test_a_request_begins_with_one_that_is_due(self):
        """Outside of a group: a script, packed changes, and a script that runs once."""
        with folder() as path, durable().open(path / "t") as table:
            table.run(TABLE)
            calls = (lambda: table.replies(ADD), lambda: table.put([(1, "", 1)]), lambda: table.once("a", ADD))
            for count, call in enumerate(calls):
                with table.group():
                    for _ in range(20):
                        table.put((number, ROW, number) for number in range(4_000))
                self.assertEqual(table.checkpoint_count, count)
                before = table.checkpoint_time
                call()
                self.assertEqual((table.checkpoint_count, table.checkpoint_seconds > 0, table.checkpoint_time != before), (count + 1, True, True))

    def test_an_index_is_completed_first(self):
        """What is due then is told without a warning."""
        with folder() as path, durable().open(path / "t") as table, notices() as told:
            table.run(TABLE)
            write(table, 1)
            table.run("index i on city\nbuild i 1\n")
            write(table, 20)
            fault = table.checkpoint_fault
            self.assertEqual((table.checkpoint_count, type(fault), fault.errno, "building" in str(fault)), (0, BlockingIOError, errno.EAGAIN, True))
            table.run("build i 999999\n")
            write(table, 20)
            self.assertEqual((table.checkpoint_count > 0, table.checkpoint_fault, told), (True, None, []))

    def test_a_checkpoint_that_fails_fails_no_call(self):
        """Nothing is lost, the logger is told once, and it is tried again when there is more."""
        with folder() as path:
            with durable().open(path / "t") as table, notices() as told:
                table.run(TABLE)
                write(table, 18)
                self.assertEqual(table.checkpoint_count, 1)
                (path / "t.new").mkdir()
                write(table, 20)
                fault = table.checkpoint_fault
                self.assertEqual((table.checkpoint_count, type(fault), fault.filename), (1, IsADirectoryError, str(path / "t")))
                self.assertEqual((len(told), str(path / "t") in told[0], table.put([(5_000, "", 1)]), table.count()), (1, True, 1, 4_001))
                (path / "t.new").rmdir()
                write(table, 20)
                self.assertEqual((table.checkpoint_count, table.checkpoint_fault, len(told)), (2, None, 1))
            with durable().open(path / "t") as table:
                self.assertEqual(table.count(), 4_001)


class AskedFor(TestCase):
    def test_a_table_is_the_same_after_a_checkpoint(self):
        """Node by node it is the table after a rebuild, now, when it is opened again, and after another checkpoint. All texts are kept."""
        puts = "".join(f"put {number * 7 % 50},c{number % 5},{number}\n" for number in range(60))
        many = f"batch\n{puts}del 3\nups 4,add,qty,9\nups 99,set,city,x\nend\n"
        scripts = [
            "",
            TABLE,
            TABLE + "index i on city\nbuild i 1\n",
            TABLE + many + "index i on city where qty < 30\nbuild i 10\nbatch\ndel 7\nend\nbuild i 999\nindex gone on qty\n" + many + "drop gone\n",
            TABLE + many + "batch\n" + "".join(f"del {number}\n" for number in range(100)) + "end\n",
            HARD_TABLE + HARD_INDEXES + "".join(f"build {name} 1\n" for name in ("a", "c", "d", "e", "f", "gone")),
        ]
        rows = [(text, number, number % 2 == 0, text.encode()[:9], ["x, y", " x ", "", text][number % 4]) for number, text in enumerate(TEXTS)]
        for number, script in enumerate(scripts):
            with self.subTest(number=number), folder() as path, betable().Session() as plain:
                with durable().open(path / "t") as table:
                    self.assertEqual(table.replies(script), plain.replies(script))
                    if script.startswith(HARD_TABLE):
                        for one in (table, plain):
                            one.put(rows)
                    rebuild_all(plain)
                    wanted = probe(plain)
                    table.checkpoint()
                    self.assertEqual((probe(table), table.checkpoint_count), (wanted, 1 if script else 0))
                for _ in range(2):
                    with durable().open(path / "t") as table:
                        self.assertEqual((probe(table), list(table.trees().by_name)), (wanted, list(plain.trees().by_name)))
                        table.checkpoint()
                        self.assertEqual(probe(table), wanted)

    def test_a_checkpoint_shortens_the_file(self):
        with folder() as path, durable().open(path / "t") as table:
            table.run(TABLE)
            write(table, 2)
            before = table.file_bytes
            table.checkpoint()
            self.assertEqual((table.file_bytes < before * 2 // 3, table.checkpoint_count, table.checkpoint_seconds >= 0), (True, 1, True))

    def test_no_checkpoint_is_made_while_an_index_is_building(self):
        with folder() as path, durable().open(path / "t") as table:
            table.run(TABLE + "batch\nput 1,a,1\nput 2,b,2\nend\nindex i on city\nindex done on qty\nbuild done 9\nindex j on city\nbuild j 1\n")
            wanted = probe(table)
            fault = expect_fault(self, durable().IndexBuilding, table.checkpoint, "i, j", "drop")
            self.assertEqual((fault.names, probe(table), table.checkpoint_count), (["i", "j"], wanted, 0))
            table.run("build i 9\nbuild j 9\n")
            table.checkpoint()
            self.assertEqual(table.checkpoint_count, 1)

    def test_a_checkpoint_that_fails_leaves_the_table(self):
        """Before the new file has the name it is certain, and the table goes on. After that it is not."""
        with folder() as path:
            with durable().open(path / "t") as table:
                table.run(TABLE)
                table.put((number, ROW, number) for number in range(1_000))
                wanted = probe(table)
                with no_file_longer_than(10_000):
                    fault = expect_fault(self, durable().RolledBack, table.checkpoint, "File too large")
                self.assertEqual((fault.__cause__.errno, probe(table), table.checkpoint_count), (errno.EFBIG, wanted, 0))
                self.assertEqual([one.name for one in path.iterdir()], ["t"])
                table.checkpoint()
            table = durable().open(path / "t")
            real, calls = calls_on_files().loaded_library(), table._bytes

            class Library:
                def __getattr__(self, name):
                    return getattr(real, name)

                def betable_file_checkpoint(self, file):
                    ctypes.set_errno(errno.EIO)
                    return betable().library.FILE_FAILED

                def betable_file_roll_back(self, file):
                    return betable().library.NOT_KEPT

            calls._library = Library()
            self.assertEqual(expect_fault(self, durable().InDoubt, table.checkpoint).__cause__.errno, errno.EIO)
            self.assertIs(type(fault_of(lambda: table.get(1))), durable().InDoubt)
            with durable().open(path / "t") as table:
                self.assertEqual(table.count(), 1_000)

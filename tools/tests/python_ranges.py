"""Tests of ranges on sessions and durable tables: `delete_range`, and rows from the end of a range."""

import random
import threading
from itertools import product
from unittest import TestCase

from .clients import betable, both_ways, build_extension, library
from .common import SECONDS, TOP, fault_of
from .durable import Failing, durable, expect_fault, folder, probe


def setUpModule():
    library()
    build_extension()


COLUMNS = "day:int city:text id:bytes qty:int ok:flag"
INDEX = {"by_qty": ("qty,city", "ok"), "by_ok": ("ok", ""), "by_day": ("day", "")}


def rows_of(count, texts):
    dice = random.Random(5)
    return [(dice.randrange(20), dice.choice(texts), b"%d" % number, dice.randrange(9), number % 3 == 0) for number in range(count)]


def filled(one, rows):
    one.table(COLUMNS, keys=3, fanout=4, buffer=3, leaf=2)
    for name, (on, include) in INDEX.items():
        one.index(name, on, include)
    one.put(rows)


RANGES = [
    ("primary", None, None), ("primary", (5,), (9,)), ("primary", (5, "b"), (6, "a")), ("primary", (3,), (3,)), ("primary", (9,), (2,)),
    ("primary", None, (4,)), ("primary", (4, "a", b"7"), None), ("by_qty", (3,), (5,)), ("by_qty", (3, "a"), (3, "b")), ("by_ok", (True,), None),
    ("by_ok", None, (True,)), ("by_day", (19,), None), ("by_day", (50,), (60,)), ("by_qty", None, None),
]  # fmt: skip


class DeleteRange(TestCase):
    @both_ways
    def test_the_rows_of_a_range_go_and_no_others(self):
        """Of text, int and flag keys, of several columns, of indexes, and of ranges without rows; in one batch, and in several."""
        rows = rows_of(40, ["", "a", "b", "ab"])
        for tree, start, stop in RANGES:
            for most in (3, 65_536):
                with self.subTest(tree=tree, start=start, stop=stop, most=most), betable().Session() as one:
                    filled(one, rows)
                    gone = one.scan(tree, start, stop)
                    key = [column.name for column in one.columns(tree)]
                    keys = {tuple(row[key.index(name)] for name in ("day", "city", "id")) for row in gone}
                    left = [row for row in one.scan() if row[:3] not in keys]
                    self.assertEqual(one.delete_range(tree, start, stop, most=most), len(keys))
                    self.assertEqual((one.scan(), one.scan(tree, start, stop)), (left, []))
                    self.assertEqual(len(one.scan("by_qty")), len(left))
                    self.assertEqual(one.delete_range(tree, start, stop), 0)

    def test_rows_with_line_breaks_go_too(self):
        with betable().Session() as one:
            if not hasattr(one, "_puts_after"):
                self.skipTest("the extension is not built")
            filled(one, rows_of(60, ["a\nb", "\n.\n", "\r", "x"]))
            left = [row for row in one.scan() if not 2 <= row[3] < 7]
            self.assertEqual((one.delete_range("by_qty", (2,), (7,), most=3), one.scan()), (60 - len(left), left))
            self.assertEqual((one.delete_range("primary", most=4), one.scan("by_day")), (len(left), []))

    @both_ways
    def test_what_a_scan_refuses_is_refused(self):
        with betable().Session() as one:
            expect_fault(self, betable().Refused, lambda: one.delete_range("primary"), "NoTable")
            filled(one, rows_of(9, ["a"]))
            one.index("half", "qty", build=False)
            for tree, start in (("none", None), ("half", None)):
                self.assertEqual(type(fault_of(lambda: one.delete_range(tree, start))), type(fault_of(lambda: one.scan(tree, start))))
                self.assertIs(type(fault_of(lambda: one.delete_range(tree, start))), betable().Refused)
            for wrong in [(1, 2, 3, 4), ("x",), 5]:
                self.assertEqual(str(fault_of(lambda: one.delete_range("primary", wrong))), str(fault_of(lambda: one.scan("primary", wrong))))
                self.assertIsNotNone(fault_of(lambda: one.delete_range("primary", wrong)))
            for most in (0, 65_537, "x"):
                self.assertIsNotNone(fault_of(lambda: one.delete_range("primary", most=most)))
            self.assertEqual(len(one.scan()), 9)
            expect_fault(self, betable().RowTypeError, lambda: one.delete((1,), (2,)), "delete_range('primary', start, stop)")

    def test_each_batch_is_kept_by_itself(self):
        """A call that fails in the middle says how many rows are gone, and is made again. In a group it is all or nothing."""
        with folder() as path:
            with durable().open(path / "t") as table:
                table.table("id:int city:text")
                table.put([(number, "") for number in range(40)])
                table.index("by_city", "city")
                with Failing(table, after=2):
                    fault = expect_fault(self, durable().RolledBack, lambda: table.delete_range("by_city", ("",), None, most=10), "20 rows")
                self.assertEqual((fault.taken, [row[0] for row in table.scan()], table.number), (20, [*range(20, 40)], 5))
                self.assertEqual(table.delete_range("by_city", ("",), None, most=7), 20)
                self.assertEqual((table.scan(), table.number), ([], 8))

                def in_group():
                    with table.group():
                        table.put([(number, "a") for number in range(20)])
                        self.assertEqual(table.delete_range("primary", (5,), most=4), 25)
                        self.assertEqual(len(table.scan()), 5)
                        raise KeyError

                table.put([(number, "a") for number in range(30)])
                expect_fault(self, KeyError, in_group)
                self.assertEqual(len(table.scan()), 30)
                with table.group():
                    self.assertEqual(table.delete_range("primary", (5,), most=4), 25)
                wanted = probe(table)
            with durable().open(path / "t") as table:
                self.assertEqual((probe(table), len(table.scan())), (wanted, 5))

    def test_a_row_that_leaves_the_range_meanwhile_stays(self):
        """Another thread cannot change it between the read of a page and the delete."""
        with folder() as path, durable().open(path / "t") as table:
            table.table("id:int day:int")
            table.index("by_day", "day")
            table.put([(number, 1) for number in range(20)])
            scan, threads = table.scan_columns, []

            def scan_columns(*given):
                found = scan(*given)
                threads.append(threading.Thread(target=lambda: table.put([(19 - len(threads), 2)])))
                threads[-1].start()
                threads[-1].join(0.2)
                return found

            table.scan_columns = scan_columns
            count = table.delete_range("by_day", (1,), (2,), most=5)
            for thread in threads:
                thread.join(SECONDS)
            # A row is gone and was put again, or was out of the range and stays.
            self.assertEqual(sorted(day for _, day in table.scan()), [2] * len(threads))
            self.assertTrue(16 <= count <= 20)


def changed(one):
    """Fills a table whose trees have several levels and messages in their buffers. A row of it was put, put again, upserted, or deleted and put again."""
    client, dice, rows = betable(), random.Random(7), rows_of(150, ["", "a", "b", "ab"])
    filled(one, rows[:100])
    one.batch([client.delete(*row[:3]) for row in rows[:100] if dice.random() < 0.4])
    one.put((*row[:3], row[3] + 1, not row[4]) for row in rows[50:])
    one.batch([client.upsert(*row[:3], add={"qty": 3}) for row in rows if dice.random() < 0.2])
    one.batch([client.delete(*rows[0][:3])])


class NewestFirst(TestCase):
    @both_ways
    def test_rows_are_those_of_a_scan_from_the_last_one_back(self):
        """Of trees with messages in their buffers, with every limit at which something may end, in rows, columns and pages. The first values of keys are the
        same in many rows, so pages end between rows that differ only in later ones."""
        with betable().Session() as one:
            changed(one)
            for tree in ("primary", *INDEX):
                usage = one.usage(tree)
                self.assertTrue(usage.messages > 0 and usage.height > 2, usage)
            for tree, start, stop in RANGES:
                wanted, columns = one.scan(tree, start, stop)[::-1], one.scan_columns(tree, start, stop)
                for limit in (None, 0, 1, 2, max(0, len(wanted) - 1), len(wanted), len(wanted) + 1):
                    with self.subTest(tree=tree, start=start, stop=stop, limit=limit):
                        self.assertEqual(one.scan(tree, start, stop, limit, newest_first=True), wanted[:limit])
                        found = one.scan_columns(tree, start, stop, limit, newest_first=True)
                        self.assertEqual(found, {name: values[::-1][:limit] for name, values in columns.items()})
                for page in (1, 2, 7, max(1, len(wanted)), 1_000):
                    with self.subTest(tree=tree, start=start, stop=stop, page=page):
                        self.assertEqual(list(one.iterate(tree, start, stop, page, newest_first=True)), wanted)
            self.assertEqual(one.scan(newest_first=False), one.scan())

    @both_ways
    def test_rows_begin_directly_before_a_row(self):
        """Before each row and before a key of no row, with the bounds of a range beside it. The earlier one of the two upper bounds counts."""
        with betable().Session() as one:
            changed(one)
            for tree in ("primary", "by_qty", "by_ok"):
                rows, key = one.scan(tree), len(one.trees().tree(tree).key)
                for (of, start, stop), row in product(RANGES, [*rows[::11], rows[0], rows[-1]]):
                    if of == tree:
                        inside = one.scan(tree, start, stop)
                        for after in (row[:key], (*row[: key - 1], row[key - 1] + b"\0")):
                            with self.subTest(tree=tree, start=start, stop=stop, after=after):
                                wanted = [found for found in inside[::-1] if found[:key] < after]
                                for limit in (None, 1, 3):
                                    self.assertEqual(one.scan(tree, start, stop, limit, after, newest_first=True), wanted[:limit])

    def test_pages_are_those_of_the_table_when_they_are_read(self):
        """On sessions and on durable tables, over a rollback too: what is put before the last row that was read comes, and what is put after it does not."""
        with folder() as path, durable().open(path / "t") as table, Failing(table), betable().Session() as session:
            for one in (session, table):
                with self.subTest(one=type(one).__name__):
                    one.table("id:int city:text", fanout=4, buffer=3, leaf=2)
                    one.index("by_city", "city")
                    one.put([(number, "x") for number in range(0, 20, 2)])
                    for tree, place in (("primary", 0), ("by_city", 1)):
                        rows = one.iterate(tree, page=2, newest_first=True)
                        found = [next(rows)[place] for _ in range(4)]
                        one.put([(19, "x"), (13, "x"), (11, "x"), (-1, "x")])
                        one.batch([betable().delete(8)])
                        if one is table:
                            expect_fault(self, durable().RolledBack, lambda: one.put([(2, "drop fails")]))
                        self.assertEqual(found + [row[place] for row in rows], [18, 16, 14, 12, 11, 10, 6, 4, 2, 0, -1])
                        one.delete_columns({"id": [19, 13, 11, -1]})
                        one.put([(8, "x")])
                    rows = one.iterate("by_city", page=2, newest_first=True)
                    next(rows), next(rows)
                    one.run("drop by_city\nindex by_city on city\nbuild by_city 100\n")
                    expect_fault(self, RuntimeError, lambda: next(rows), "the tree 'by_city' was dropped, or made again")

    @both_ways
    def test_the_order_is_given_by_its_name_and_is_a_flag(self):
        with betable().Session() as one:
            filled(one, rows_of(9, ["a"]))
            for wrong in (1, 0, None, "yes"):
                for call in (one.scan, one.iterate, one.scan_columns):
                    expect_fault(self, TypeError, lambda: call(newest_first=wrong), f"'newest_first' is True or False, and not {wrong!r}")
            self.assertIs(type(fault_of(lambda: one.scan("primary", None, None, None, None, True))), TypeError)
            expect_fault(self, betable().RowValueError, lambda: one.scan(after=(1,), newest_first=True), "the key of the row before")
            for tree in ("none", "half"):
                one.index("half", "qty", build=False) if tree == "half" else None
                wrong = [str(fault_of(lambda: one.scan(tree, newest_first=newest_first))) for newest_first in (False, True)]
                self.assertEqual(wrong[0], wrong[1])
                self.assertIn("refused ", wrong[0])

    def test_the_recipe_gives_the_newest_rows(self):
        """The lines of docs/HOW_TO.md."""
        recipe = (TOP / "docs/HOW_TO.md").read_text().split("\n## The newest rows of each device\n")[1].split("```python\n")[1].split("```")[0]
        with betable().Session() as session:
            readings = [(device, time, device * time) for device in (6, 7, 8) for time in range(2_000)]
            found = {"session": session, "readings": readings[::-1]}
            exec(recipe, found)
            self.assertEqual((found["newest"], found["older"]), (readings[3_999:3_994:-1], readings[3_994:3_989:-1]))

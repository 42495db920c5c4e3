"""Tests of what the Python client says of the mistakes that are made first: each message says what to write instead, and what it says is right."""

import unittest
from importlib import import_module
from typing import Any

from .clients import library

client: Any = import_module("betable")


def setUpModule() -> None:
    library()


class Messages(unittest.TestCase):
    def setUp(self) -> None:
        self.session = client.Session()
        self.addCleanup(self.session.close)

    def said(self, call: Any, kind: type[BaseException]) -> str:
        with self.assertRaises(kind) as caught:
            call(self.session)
        return str(caught.exception)

    def test_a_table_takes_its_columns_in_each_natural_form(self) -> None:
        mixed = iter(["id:int", ("name", "text")])
        for columns in ("id:int name:text", {"id": "int", "name": "text"}, ["id:int", "name:text"], [("id", "int"), ["name", "text"]], mixed):
            with client.Session() as session:
                session.table(columns)
                self.assertEqual([(column.name, column.kind) for column in session.columns()], [("id", "int"), ("name", "text")])

    def test_wrong_columns_of_a_table_say_their_form(self) -> None:
        for columns, part in (
            ("id int, name text", "a column is its name, a colon and its kind, and not 'id': write 'id:int city:text'"),
            (["id:int", "name"], "and not 'name': write 'id:int city:text'"),
            ([("id", "int", 5)], "and not ('id', 'int', 5)"),
            ("id:int temp:float", "a kind is one of int, text, flag, bytes, and not 'float': write int, for decimals in a fixed unit, as cents"),
            ({"id": "int", "name": str}, "and not <class 'str'>: write text"),
            ({"id": "int", "at": "datetime"}, "write int, for times as seconds"),
            ({"id": "int", "open": bool}, "write flag"),
            ("id: int", "and not 'int': write 'id:int city:text'"),
        ):
            self.assertIn(part, self.said(lambda session: session.table(columns), ValueError))
        self.assertIn("write 'id:int city:text'", self.said(lambda session: session.table(5), TypeError))
        self.assertEqual(self.session.trees(), ())

    def test_an_index_takes_names_with_commas_or_a_list(self) -> None:
        self.session.table("id:int city:text qty:int")
        self.session.index("a", "city,qty", include="id, qty")
        self.session.index("b", ["city", "qty"], include=["id", "qty"])
        _, first, second = self.session.trees()
        self.assertEqual(first.names, ["city", "qty", "id", "id", "qty"])
        self.assertEqual(first[1:], second[1:])
        self.assertIn("a name is empty", self.said(lambda session: session.index("c", "city,"), ValueError))

    def test_other_operators_have_the_condition_that_is_meant(self) -> None:
        self.session.table("id:int qty:int")
        self.session.put([(number, number) for number in range(10)])
        for operator, meant, wanted in ((">", (">=", 6), 4), ("<=", ("<", 6), 6)):
            said = self.said(lambda session: session.index("a", "qty", where=("qty", operator, 5)), ValueError)
            self.assertIn(f"an operator is one of =, <, >=, and not '{operator}': of ints '{operator} 5' is '{meant[0]} {meant[1]}'", said)
            self.session.index("a", "qty", where=("qty", *meant))
            self.assertEqual(len(self.session.scan("a")), wanted)
            self.session.run("drop a\n")
        self.assertIn("'==': write '='", self.said(lambda session: session.index("a", "qty", where=("qty", "==", 5)), ValueError))

    def test_only_a_script_of_the_caller_has_lines(self) -> None:
        self.session.table("id:int qty:int")
        self.assertTrue(self.said(lambda session: session.put([(1, 2**63)]), client.Refused).startswith("refused 6 BadField 1: row 1: column 2 'qty'"))
        self.assertTrue(self.said(lambda session: session.scan("other"), client.Refused).startswith("refused 8 NoSuchTree: "))
        self.assertTrue(self.said(lambda session: session.run("get 1\nbatch\nput 1,x\nend\n"), client.Refused).startswith("line 2: refused 6 BadField 1: "))

    def test_a_call_before_the_table_names_the_call_that_makes_it(self) -> None:
        for call in (lambda session: session.put([(1, 2)]), lambda session: session.get(1), lambda session: session.put_csv(__file__)):
            said = self.said(call, client.Refused)
            self.assertEqual(said, "refused 3 NoTable: There is no table yet. Make it first, as by table('id:int city:text')")
        self.assertIn("A 'table' command has to come first", self.said(lambda session: session.run("get 1\n"), client.Refused))

    def test_a_rebuild_packs_one_tree_and_changes_no_row(self) -> None:
        self.session.table("id:int qty:int", buffer=4, leaf=4, fanout=4)
        self.session.index("by_qty", "qty")
        self.session.put([(number * 37 % 101, number) for number in range(101)], most=5)
        rows, before = self.session.scan(), [self.session.usage(tree) for tree in ("primary", "by_qty")]
        self.assertGreater(before[0].messages, 0)
        self.session.rebuild()
        self.assertEqual((self.session.usage().rows, self.session.usage().messages, self.session.usage("by_qty")), (101, 0, before[1]))
        self.session.rebuild("by_qty")
        self.assertEqual((self.session.usage("by_qty").messages, self.session.scan()), (0, rows))
        self.assertTrue(self.said(lambda session: session.rebuild("other"), client.Refused).startswith("refused 8 NoSuchTree: no tree is named 'other'"))

    def test_a_range_is_not_deleted_as_a_key(self) -> None:
        self.session.table("id:int qty:int")
        said = self.said(lambda session: session.delete((1,), (5,)), client.RowTypeError)
        self.assertIn("a range is removed by delete_range('primary', start, stop)", said)
        self.assertIn("the values of a key are given one by one, as delete(*key)", self.said(lambda session: session.delete((1,)), client.RowTypeError))

    def test_a_data_frame_has_a_call_of_its_own(self) -> None:
        try:
            import numpy
            import pandas  # type: ignore
        except ImportError:
            self.skipTest("pandas is not installed")
        self.session.table("id:int qty:int")
        frame = pandas.DataFrame({"id": [1], "qty": [2]})
        self.assertIn("write put_frame(frame)", self.said(lambda session: session.put(frame), TypeError))
        days = numpy.array(["2024-02-29"], "datetime64[D]")
        said = self.said(lambda session: session.put({"id": days, "qty": [1]}), client.RowTypeError)
        self.assertIn("write value.astype('datetime64[s]').astype('int64')", said)
        self.session.put({"id": days.astype("datetime64[s]").astype("int64"), "qty": [1]})
        self.assertEqual(self.session.scan(), [(1_709_164_800, 1)])


if __name__ == "__main__":
    unittest.main()

"""Tests of the Python client on rows by columns, on data frames, and on the calls that make a table and its indexes. Tests of NumPy
and pandas are skipped if these are not installed."""

import random
import tempfile
from array import array
from itertools import product
from pathlib import Path
from unittest import TestCase

from .common import fault_of
from .clients import betable, both_ways, build_extension, library

COLUMNS = "id:int city:text ok:flag raw:bytes qty:int"
NAMES = ["id", "city", "ok", "raw", "qty"]
TEXTS = ["", "Oslo", "Bergen, west", '"', ".", "\ufeff", "æ" * 127, "x" * 255]
BINARIES = [b"", b"\0", b"\n", b"x" * 255]


def installed(test, name):
    """A module, without which the test is skipped."""
    try:
        return __import__(name)
    except ImportError:
        return test.skipTest(f"{name} is not installed")


def new_session(columns=COLUMNS):
    session = betable().Session()
    session.table(columns)
    return session


def random_rows(dice, count):
    return [
        (dice.choice([number, -number, 2**63 - 1 - number]), dice.choice(TEXTS), dice.random() < 0.5, dice.choice(BINARIES), dice.choice([-(2**63), -1, 0, 5, 2**63 - 1]))
        for number in dice.sample(range(10 * count), count)
    ]


def forms_of_ints(numbers):
    """A column of ints, in each form that it may have."""
    twice = array("q", [number for one in numbers for number in (one, 7)])
    return [numbers, tuple(numbers), array("q", numbers), memoryview(array("q", numbers)), memoryview(twice)[::2], memoryview(array("q", numbers[::-1]))[::-1]]


WRONG_COLUMNS = [
    (lambda c: c | {"id": 5}, "RowTypeError", "column 'id': 5 is of type int, and the values of a column are a list, a tuple or an array: write {'id': [..], ..}, or [{'id': ..}]"),
    (lambda c: c | {"id": None}, "RowTypeError", "column 'id': None is of type NoneType"),
    (lambda c: c | {"city": "abc"}, "RowTypeError", "column 'city': 'abc' is of type str"),
    (lambda c: c | {"raw": b"abc"}, "RowTypeError", "column 'raw': b'abc' is of type bytes"),
    (lambda c: c | {"id": {1, 2, 3}}, "RowTypeError", "column 'id': {1, 2, 3} is of type set"),
    (lambda c: c | {"id": {1: 2}}, "RowTypeError", "column 'id': {1: 2} is of type dict"),
    (lambda c: c | {"id": iter([1, 2, 3])}, "RowTypeError", "is of type list_iterator"),
    (lambda c: c | {"id": [1, 2]}, "RowValueError", "column 'city': 3 values, and 'id' has 2"),
    (lambda c: c | {"qty": array("q", [1] * 4)}, "RowValueError", "column 'qty': 4 values, and 'id' has 3"),
    (lambda c: c | {"town": ["a"] * 3}, "RowValueError", "'town' is no column: columns of rows are a dict from each of the names id, city, ok, raw, qty"),
    (lambda c: {name: c[name] for name in NAMES[1:]}, "RowValueError", "'id' is missing"),
    (lambda c: {}, "RowValueError", "'id' is missing"),
    (lambda c: c | {"id": [1, "2", 3]}, "RowTypeError", "row 2, column 'id': '2' is of type str"),
    (lambda c: c | {"id": [1, 2, True]}, "RowTypeError", "row 3, column 'id': True is of type bool"),
    (lambda c: c | {"id": array("d", [1, 2, 3])}, "RowTypeError", "row 1, column 'id': 1.0 is of type float"),
    (lambda c: c | {"ok": array("q", [0, 1, 0])}, "RowTypeError", "row 1, column 'ok': 0 is of type int"),
    (lambda c: c | {"city": array("q", [0, 1, 0])}, "RowTypeError", "row 1, column 'city': 0 is of type int"),
    (lambda c: c | {"id": array("Q", [1, 2, 2**63])}, "Refused", "row 3: column 1 'id' (int): '9223372036854775808' is over the largest int"),
    (lambda c: c | {"city": ["a", "x" * 256, "d"]}, "Refused", "row 2: column 2 'city' (text): 256 bytes"),
    (lambda c: c | {"id": memoryview(array("q", range(3))).cast("B").cast("q", (3, 1))}, "RowTypeError", "row 1, column 'id': [0] is of type list"),
]


def setUpModule():
    """The library, and the extension of the Python client, before tests run side by side."""
    library()
    build_extension()


def scripts_of(session):
    """The scripts that calls of a session run from now on."""
    scripts, run = [], session.run
    session.run = lambda script: scripts.append(script) or run(script)
    return scripts


class PythonColumns(TestCase):
    @both_ways
    def test_rows_by_columns_are_the_rows_that_are_put(self):
        """In each form of a column of ints, in any order of the names, in batches of any size, beside the same rows by tuples."""
        client, dice = betable(), random.Random(2)
        for count in (1, 2, 9, 40):
            rows = random_rows(dice, count)
            by_rows = new_session()
            by_rows.put(rows)
            columns = dict(zip(NAMES, map(list, zip(*rows))))
            for ids, quantities in zip(forms_of_ints(columns["id"]), reversed(forms_of_ints(columns["qty"]))):
                given = columns | {"id": ids, "qty": quantities, "city": dice.choice([list, tuple])(columns["city"])}
                given = {name: given[name] for name in dice.sample(NAMES, 5)}
                for most in (count, 3, client.MOST_MESSAGES):
                    session = new_session()
                    self.assertEqual(session.put(given, most), count)
                    self.assertEqual(
                        session.replies("image primary\n" if most >= count else "scan primary\ngo\n"),
                        by_rows.replies("image primary\n" if most >= count else "scan primary\ngo\n"),
                    )
        # Forms that are no plain sequence of plain values, and more rows than a batch has.
        session = new_session("id:int small:int")
        self.assertEqual(session.put({"id": range(5), "small": array("b", [-1, 0, 1, 2, 3])}), 5)
        self.assertEqual(session.put({"id": [True + 4, *range(6, 8)], "small": array("H", [1, 2, 3])}), 3)
        self.assertEqual(session.put({"id": array("q"), "small": []}), 0)
        self.assertEqual(session.scan("primary", (3,)), [(3, 2), (4, 3), (5, 1), (6, 2), (7, 3)])
        count = client.MOST_MESSAGES + 10
        self.assertEqual(session.put({"id": array("q", range(count)), "small": [number % 7 for number in range(count)]}), count)
        self.assertTrue(session.scan() == [(number, number % 7) for number in range(count)])

    @both_ways
    def test_wrong_columns_change_nothing(self):
        session = new_session()
        session.put([(9, "Oslo", True, b"a", 1)])
        before = session.replies("image primary\n")
        plain = {"id": [1, 2, 3], "city": ["a", "b", "c"], "ok": [True, False, True], "raw": [b"", b"a", b"b"], "qty": [1, 2, 3]}
        for number, (change, kind, said) in enumerate(WRONG_COLUMNS):
            with self.subTest(number=number):
                fault = fault_of(lambda: session.put(change(plain)))
                self.assertEqual(type(fault).__name__, kind)
                self.assertIn(said, str(fault))
                self.assertEqual(session.replies("image primary\n"), before)
        # Earlier batches of the call are counted.
        fault = fault_of(lambda: session.put({name: values * 5 for name, values in plain.items()} | {"id": [*range(20, 33), "x", 5]}, most=4))
        self.assertEqual((type(fault).__name__, fault.row, fault.column, fault.value, fault.taken), ("RowTypeError", 14, "id", "x", 12))
        fault = fault_of(lambda: session.put({name: values * 5 for name, values in plain.items()} | {"id": [*range(20, 33), 2**63, 5]}, most=4))
        self.assertEqual((type(fault).__name__, fault.row, fault.column, fault.value, fault.taken), ("Refused", 14, "id", 2**63, 12))

    @both_ways
    def test_scans_by_columns_are_those_of_rows(self):
        dice = random.Random(4)
        session = new_session()
        session.index("by_city", ["city", "ok"], ["qty", "raw"])
        for count in (0, 1, 30):
            if count:
                session.put(random_rows(dice, count))
            for tree, bounds in (("primary", (None, None)), ("primary", ((0,), (50,))), ("by_city", (None, None)), ("by_city", (("Oslo", True), ("x" * 255,)))):
                with self.subTest(tree=tree):
                    for limit, newest_first in product((None, 0, 1, 7, 10**6), (False, True)):
                        rows, columns = (call(tree, *bounds, limit, newest_first=newest_first) for call in (session.scan, session.scan_columns))
                        there = session.columns(tree)
                        self.assertEqual(list(columns), [column.name for column in there])
                        self.assertEqual([type(values) for values in columns.values()], [array if column.kind == "int" else list for column in there])
                        self.assertEqual(list(zip(*columns.values())), rows)
        self.assertEqual(type(fault_of(lambda: session.scan_columns("nothing"))), betable().Refused)
        self.assertEqual(type(fault_of(lambda: session.scan_columns("primary", ("a",)))), betable().RowTypeError)
        self.assertEqual(type(fault_of(lambda: session.scan_columns(limit=-1))), ValueError)
        session.close()
        self.assertEqual(type(fault_of(session.scan_columns)), ValueError)

    @both_ways
    def test_arrays_of_numpy_are_columns(self):
        numpy = installed(self, "numpy")
        client, session = betable(), new_session("id:int city:text ok:flag qty:int")
        count = 1_000
        ids, flags = numpy.arange(count) * 7 - 50, numpy.arange(count) % 3 == 0
        cities = numpy.array([f"city{number % 9}" for number in range(count)])
        rows = [(int(one), str(city), bool(ok), int(qty)) for one, city, ok, qty in zip(ids, cities, flags, ids // 2)]
        wide = numpy.stack([ids, ids // 2], axis=1)  # its columns are 16 bytes apart
        forms = [
            (ids, ids // 2),
            (wide[:, 0], wide[:, 1]),
            (ids.astype(">i8"), (ids // 2).astype("int16")),
            (ids[::-1].copy()[::-1], (ids // 2).astype(object)),
        ]
        for one, quantities in forms:
            for names in (cities, cities.astype(object), cities.tolist()):
                session = new_session("id:int city:text ok:flag qty:int")
                self.assertEqual(session.put({"id": one, "city": names, "ok": flags, "qty": quantities}), count)
                self.assertTrue(session.scan() == rows)
        for wrong in (ids.astype(float), flags, cities, ids.astype("datetime64[ns]"), ids.astype("timedelta64[s]"), wide):
            with self.subTest(wrong=wrong.dtype):
                fault = fault_of(lambda: session.put({"id": wrong, "city": cities, "ok": flags, "qty": ids}))
                self.assertEqual(type(fault), client.RowTypeError)
        self.assertEqual(type(fault_of(lambda: session.put({"id": numpy.int64(5), "city": cities, "ok": flags, "qty": ids}))), client.RowTypeError)
        self.assertEqual(
            fault_of(lambda: session.put({"id": ids.astype("uint64") + numpy.uint64(2**63), "city": cities, "ok": flags, "qty": ids})).column, "id"
        )
        self.assertTrue(session.scan() == rows)

    @both_ways
    def test_frames_of_pandas_go_in_and_come_out(self):
        pandas = installed(self, "pandas")
        client, session, rows = betable(), new_session(), random_rows(random.Random(5), 300)
        frame = pandas.DataFrame(rows, columns=NAMES)
        self.assertEqual(session.put_frame(frame[["qty", "raw", "id", "ok", "city"]].sample(frac=1, random_state=1)), 300)
        self.assertEqual(session.scan(), sorted(rows))
        found = session.scan_frame()
        self.assertEqual((list(found.columns), [str(kind) for kind in found.dtypes]), (NAMES, ["int64", "object", "bool", "object", "int64"]))
        self.assertEqual(list(found.itertuples(index=False, name=None)), sorted(rows))
        other = new_session()
        self.assertEqual((other.put_frame(found), other.replies("scan primary\ngo\n")), (300, session.replies("scan primary\ngo\n")))
        session.index("by_qty", "qty", "city")
        self.assertEqual(list(session.scan_frame("by_qty", (5,), (6,)).itertuples(index=False, name=None)), session.scan("by_qty", (5,), (6,)))
        self.assertEqual(list(session.scan_frame("by_qty", limit=7, newest_first=True).itertuples(index=False, name=None)), session.scan("by_qty")[:-8:-1])
        self.assertEqual(len(new_session().scan_frame()), 0)
        before = session.scan()
        missing = frame.assign(qty=[None] + [1] * 299)
        wrong = [
            (missing, client.RowTypeError), (frame.assign(city=None), client.RowTypeError), (frame.assign(more=1), client.RowValueError), (frame[NAMES[1:]], client.RowValueError),
            (frame.assign(id=pandas.Timestamp(0)), client.RowTypeError), (pandas.concat([frame, frame[["id"]]], axis=1), ValueError), (frame.astype({"id": "float64"}), client.RowTypeError),
        ]  # fmt: skip
        for number, (given, kind) in enumerate(wrong):
            with self.subTest(number=number):
                self.assertEqual(type(fault_of(lambda: session.put_frame(given))), kind)
        self.assertEqual(session.scan(), before)
        nullable = frame.astype({"qty": "Int64", "ok": "boolean", "city": "string"})
        self.assertEqual((other.put_frame(nullable), other.scan()), (300, sorted(rows)))

    @both_ways
    def test_tables_and_indexes_are_made_as_by_scripts(self):
        client = betable()
        pairs = [("id", "int"), ("city", "text"), ("ok", "flag"), ("raw", "bytes"), ("qty", "int")]
        with client.Session() as session:
            self.assertEqual(session.trees(), ())
            scripts = scripts_of(session)
            session.table(pairs, keys=2, fanout=8, buffer="4096b", leaf=32)
            self.assertEqual(scripts, [f"table 8 4096b 32 2 {COLUMNS}\n"])
        with client.Session() as session:
            scripts = scripts_of(session)
            session.table(COLUMNS)
            self.assertEqual(scripts, [f"table 16 1024 256 1 {COLUMNS}\n"])
            session.put([(number, f"city, {number % 3}", number % 2 == 0, bytes([number]), number) for number in range(20)])
            made = [
                (("by_city", "city"), {}, "index by_city on city"),
                (("by_two", ["city", "ok"], ["qty", "raw"]), {"where": ("qty", ">=", 5)}, "index by_two on city,ok include qty,raw where qty >= 5"),
                (("one", "qty"), {"include": "city", "where": ("city", "=", "city, 1")}, 'index one on qty include city where city = "city, 1"'),
                (("flags", "ok"), {"where": ("ok", "=", True)}, "index flags on ok where ok = true"),
                (("few", "id"), {"where": ("raw", "<", b"\x05")}, "index few on id where raw < 05"),
                (("empty", "id"), {"where": ("city", "=", ""), "build": False}, 'index empty on id where city = ""'),
            ]
            for words, named, line in made:
                session.index(*words, **named)
                self.assertEqual(scripts[-1].split("\n")[0], line)
            found = session.trees()
            self.assertEqual([tree.name for tree in found], ["primary", "by_city", "by_two", "one", "flags", "few", "empty"])
            kinds = dict(pairs)
            for tree, keys, others in ((found[0], ["id"], ["city", "ok", "raw", "qty"]), (found[2], ["city", "ok", "id"], ["qty", "raw"])):
                columns = [client.TreeColumn(name, kinds[name], name in keys) for name in keys + others]
                self.assertEqual((tree.columns, [column.name for column in tree.key], session.columns(tree.name)), (tuple(columns), keys, columns))
            self.assertEqual([tree.is_complete for tree in found], [True] * 6 + [False])
            self.assertEqual((len(session.scan("by_city")), len(session.scan("by_two")), len(session.scan("one")), len(session.scan("few"))), (20, 15, 7, 5))
            session.upsert(1, add={"qty": 5}, set={"ok": True})
            session.delete(2)
            self.assertEqual((session.get(1), session.get(2), session.delete(2)), ((1, "city, 1", True, b"\1", 6), None, None))
            wrong = [
                (lambda: session.table(COLUMNS), "Refused", "refused 4 TableExists"),
                (lambda: session.table("id"), "ValueError", "a column is its name, a colon and its kind, and not 'id': write 'id:int city:text'"),
                (lambda: session.table([("id", "integer")]), "ValueError", "a kind is one of int, text, flag, bytes, and not 'integer'"),
                (lambda: session.table([("id", "int x:int")]), "ValueError", "a kind is one of"),
                (lambda: session.table([("id\nget 1", "int")]), "ValueError", "a column: "),
                (lambda: session.table("id:int", fanout="16"), "TypeError", "a fanout is an int, and not '16'"),
                (lambda: session.table("id:int", keys=True), "TypeError", "the number of key columns is an int, and not True"),
                (lambda: session.table("id:int", leaf=-1), "ValueError", "a leaf has one to 9 digits, and not -1"),
                (lambda: session.table("id:int", buffer="1\nget 1"), "ValueError", "a buffer is a number of messages, or of bytes"),
                (lambda: session.index("by_city", "city"), "Refused", "refused 9 NameTaken"),
                (lambda: session.index("new", "town"), "Refused", "refused 15 NoSuchColumn"),
                (lambda: session.index("new one", "city"), "ValueError", "an index: "),
                (lambda: session.index("new", ["city", "ok\ndrop by_city"]), "ValueError", "a column: "),
                (lambda: session.index("new", "city", [5]), "TypeError", "a column is named by a str, and not by 5"),
                (lambda: session.index("new", "city", where="qty >= 5"), "TypeError", "a condition is a tuple of a column, an operator and a value"),
                (lambda: session.index("new", "city", where=("qty", ">", 5)), "ValueError", "an operator is one of =, <, >=, and not '>'"),
                (lambda: session.index("new", "city", where=("qty", "=", "5")), "RowTypeError", "column 'qty': '5' is of type str"),
                (lambda: session.index("new", "city", where=("city", "=", "a\nb")), "RowValueError", "has a line break"),
                (lambda: session.index("new", "city", where=("town", "=", 5)), "Refused", "refused 15 NoSuchColumn"),
            ]
            for number, (call, kind, said) in enumerate(wrong):
                with self.subTest(number=number):
                    fault = fault_of(call)
                    self.assertEqual(type(fault).__name__, kind)
                    self.assertIn(said, str(fault))
                    self.assertEqual(session.trees(), found)
        with client.Session() as session:
            self.assertEqual(fault_of(lambda: session.table("id:int", fanout=1)).name, fault_of(lambda: session.run("table 1 1024 256 1 id:int\n")).name)
            self.assertEqual(fault_of(lambda: session.index("new", "city")).name, "NoTable")
            self.assertEqual(fault_of(lambda: session.index("new", "city", where=("city", "=", "a"))).name, "NoTable")

    def test_layers_have_the_same_calls(self):
        """A durable table makes its table and index, and takes and gives columns, as a session does."""
        client = __import__("betable.durable")
        with tempfile.TemporaryDirectory() as folder, client.durable.open(Path(folder) / "table") as table:
            table.table("id:int city:text")
            table.index("by_city", "city")
            self.assertEqual(table.put({"id": array("q", [2, 1, 3]), "city": ["b", "a", "a"]}), 3)
            table.upsert(3, set={"city": "c"})
            self.assertEqual(table.scan_columns(), {"id": array("q", [1, 2, 3]), "city": ["a", "b", "c"]})
            self.assertEqual(table.scan_columns("by_city", ("b",)), {"city": ["b", "c"], "id": array("q", [2, 3])})
            self.assertEqual([(tree.name, tree.is_complete) for tree in table.trees()], [("primary", True), ("by_city", True)])
            self.assertEqual(type(fault_of(lambda: table.put({"id": [1], "city": [2]}))), client.RowTypeError)

"""Tests of the Python client on changes by columns, on prepared upserts, and on texts with line breaks, in sessions and in durable tables, whose files have
packed changes. The library is that of BETABLE_LIBRARY, or bin/build_c builds it. NumPy and pandas are tested where they are installed."""

import random
import tempfile
from array import array
from importlib import import_module
from pathlib import Path
from unittest import TestCase, skipUnless

from .clients import betable, build_extension, library
from .layers import Log

try:
    import numpy
    import pandas
except ImportError:
    numpy = pandas = None

SCHEMA = "table 4 6 3 2 device:int city:text n:int total:int hi:int note:text ok:flag raw:bytes\nindex by_note on note include n\nbuild by_note 1\n"
IMAGES = "image primary\nimage by_note\nscan primary\ngo\n"
TEXTS = ["", "Oslo", "Bergen, west", '"', ".", "a\nb", "\r\n", "\n", "x\ry", "\ufeff", "æ" * 127, "x" * 255]
BINARIES = [b"", b"\0", b"\n", b"x" * 255]
VALUES = {
    "int": lambda dice: dice.choice([0, -1, 2**63 - 1, -(2**63), dice.randrange(-99, 99)]),
    "text": lambda dice: dice.choice(TEXTS),
    "flag": lambda dice: dice.random() < 0.5,
    "bytes": lambda dice: dice.choice(BINARIES),
}
KINDS = {"n": "int", "total": "int", "hi": "int", "note": "text", "ok": "flag", "raw": "bytes"}


class Number(int):
    """An int that the extension does not take as it is."""


def setUpModule():
    library()
    build_extension()
    betable()


def filled(schema=SCHEMA, make=None):
    session = (make or betable().Session)()
    session.run(schema)
    return session


def durable():
    return betable().durable


class Layer:
    """A layer over a session, which replies to scripts alone, and knows the trees."""

    def __init__(self):
        session = betable().Session()
        self.replies, self.trees, self.close = session.replies, session.trees, session.close


class Folder(TestCase):
    def setUp(self):
        folder = tempfile.TemporaryDirectory()
        self.addCleanup(folder.cleanup)
        self.folder = Path(folder.name)
        self.path = self.folder / "table"


def one_for_all(dice, values):
    """The values of a column, or one of them in place of all; as a list, a tuple, or an array of ints."""
    if dice.random() < 0.3:
        return values[0], values[:1] * len(values)
    forms = [list, tuple] + [lambda given: array("q", given)] * (type(values[0]) is int)
    return dice.choice(forms)(values), values


class ChangesByColumns(Folder):
    def test_upserts_by_columns_leave_the_trees_of_the_same_messages(self):
        """Random keys, operations and values, in several batches, by a session, by a durable table that is opened again, and by scripts."""
        for seed in range(40):
            dice = random.Random(seed)
            by_columns, by_messages = filled(), filled()
            count, most = dice.randrange(1, 40), dice.choice([1, 3, 65_536])
            keys = {"device": [dice.randrange(9) for _ in range(count)], "city": [dice.choice(TEXTS) for _ in range(count)]}
            given, plain = {}, {}
            for operation in dice.sample(["set", "add", "max", "min"], dice.randrange(1, 5)):
                names = dice.sample(sorted(KINDS) if operation == "set" else ["n", "total", "hi"], dice.randrange(1, 4))
                columns = {name: one_for_all(dice, [VALUES[KINDS[name]](dice) for _ in range(count)]) for name in names}
                given[operation] = {name: one for name, (one, _) in columns.items()}
                plain[operation] = {name: all for name, (_, all) in columns.items()}
            key = {name: one_for_all(dice, values) for name, values in keys.items()}
            columns = {name: one for name, (one, _) in key.items()}
            alone = all(type(one) in (int, str, bool, bytes) for one in [*columns.values(), *(one for some in given.values() for one in some.values())])
            messages = []
            for row in range(1 if alone else count):
                changes = {operation: {name: all[row] for name, all in some.items()} for operation, some in plain.items()}
                messages.append(betable().upsert(*(values[row] for _, values in key.values()), **changes))
            with self.subTest(seed=seed):
                self.assertEqual(by_columns.upsert_columns(columns, most, **given), len(messages))
                by_messages.batch(messages, most)
                self.assertEqual(by_columns.replies(IMAGES), by_messages.replies(IMAGES))
                path = self.folder / str(seed)
                with durable().open(path) as table:
                    table.run(SCHEMA)
                    table.upsert_columns(columns, most, **given)
                with durable().open(path) as table:
                    self.assertEqual(table.replies(IMAGES), by_messages.replies(IMAGES))
                if not any("\n" in value or "\r" in value for message in messages for value in message.values if isinstance(value, str)):
                    by_scripts = filled(make=betable().session.ScriptSession)
                    by_scripts.upsert_columns(columns, most, **given)
                    self.assertEqual(by_scripts.replies(IMAGES), by_messages.replies(IMAGES))

    def test_deletes_by_columns_leave_the_rows_of_other_keys(self):
        session = filled("table 4 6 3 2 a:int b:text n:int\n")
        session.put([(a, b, a) for a in range(20) for b in ("x", "y\n")])
        self.assertEqual(session.delete_columns({"b": "y\n", "a": range(5, 15)}, most=3), 10)
        self.assertEqual(session.delete_columns({"a": [0, 99], "b": ["x", "x"]}), 2)
        self.assertEqual(session.scan(), [(a, b, a) for a in range(20) for b in ("x", "y\n") if (a, b) != (0, "x") and (b == "x" or not 5 <= a < 15)])

    def test_more_upserts_than_a_batch_has_are_several_batches(self):
        session, count = filled("table 16 1024 256 1 id:int n:int\n"), betable().MOST_MESSAGES + 5
        self.assertEqual(session.upsert_columns({"id": array("q", range(count))}, add={"n": 2}), count)
        self.assertEqual((len(session.scan()), session.get(count - 1)), (count, (count - 1, 2)))
        self.assertEqual(session.upsert_columns({"id": []}, add={"n": 1}), 0)
        self.assertEqual(session.upsert_columns({"id": 7}, add={"n": 1}), 1)
        self.assertEqual(session.get(7), (7, 3))

    def test_wrong_columns_change_nothing_and_say_what_to_write(self):
        client = betable()
        session = filled("table 4 6 3 2 a:int b:text n:int\n")
        session.put([(1, "x", 5)])
        keys = {"a": [1, 2], "b": ["x", "y"]}
        wrong = [
            (lambda: session.upsert_columns({"a": [1]}, add={"n": 1}), client.RowValueError, "'b' is missing: keys by columns are a dict"),
            (lambda: session.upsert_columns(keys | {"n": [1, 2]}, add={"n": 1}), client.RowValueError, "'n' is no column"),
            (lambda: session.upsert_columns([1, 2], add={"n": 1}), TypeError, "write {'a': [..]}"),
            (lambda: session.upsert_columns(keys | {"b": ["x"]}, add={"n": 1}), client.RowValueError, "column 'b': 1 value, and 'a' has 2"),
            (lambda: session.upsert_columns(keys, add={"n": [1, 2, 3]}), client.RowValueError, "column 'n': 3 values, and 'a' has 2"),
            (lambda: session.upsert_columns(keys, add={"n": 1.5}), client.RowTypeError, "1.5 is of type float"),
            (lambda: session.upsert_columns(keys, add={"n": [1, "2"]}), client.RowTypeError, "row 2, column 'n': '2' is of type str"),
            (lambda: session.upsert_columns(keys, add={"n": {1, 2}}), client.RowTypeError, "of type set"),
            (lambda: session.upsert_columns(keys | {"a": [1, True]}, add={"n": 1}), client.RowTypeError, "row 2, column 'a': True is of type bool"),
            (lambda: session.upsert_columns(keys, add={"town": 1}), client.RowValueError, "'town' is no column (a, b, n)"),
            (lambda: session.upsert_columns(keys, plus={"n": 1}), TypeError, "an operation is one of set, add, max, min, and not 'plus'"),
            (lambda: session.upsert_columns(keys), TypeError, "an upsert changes a column or more"),
            (lambda: session.upsert_columns(keys, add={"b": 1}), client.RowTypeError, "1 is of type int, and a column of kind text"),
            (lambda: session.upsert_columns(keys, set={"b": "z"}), client.Refused, "'b' is a column of the key, which no operation changes"),
            (lambda: session.upsert_columns(keys, add={"n": [1, 2**63]}), client.Refused, "row 2: operation 1, column 3 'n' (int): '92233720368547"),
            (lambda: session.delete_columns({"a": 1, "b": ["\n", "x" * 256]}), client.Refused, "row 2: column 2 'b' (text): 256 bytes"),
            (lambda: session.upsert_columns(keys | {"b": ["\n", "\ud800"]}, add={"n": 1}), client.RowValueError, "half of a surrogate pair"),
            (lambda: session.upsert_columns(keys, most=0, add={"n": 1}), ValueError, "a batch has 1 to 65,536 messages"),
        ]  # fmt: skip
        for number, (call, kind, words) in enumerate(wrong):
            with self.subTest(number=number), self.assertRaises(kind) as found:
                call()
            self.assertEqual(type(found.exception), kind)
            self.assertIn(words, str(found.exception))
            self.assertEqual(session.scan(), [(1, "x", 5)])

    def test_a_fault_counts_the_rows_of_earlier_batches(self):
        session = filled("table 4 6 3 1 id:int n:int\n")
        with self.assertRaises(betable().RowTypeError) as found:
            session.upsert_columns({"id": range(10)}, 4, add={"n": [1] * 9 + ["x"]})
        self.assertEqual((found.exception.row, found.exception.column, found.exception.taken, len(session.scan())), (10, "n", 8, 8))

    @skipUnless(numpy, "NumPy is not installed")
    def test_arrays_of_numpy_are_columns_of_upserts(self):
        """Also those with strides, of smaller ints, and of texts."""
        session, ids = filled("table 16 64 16 1 id:int n:int hi:int city:text\n"), numpy.arange(100)
        changes = {"add": {"n": numpy.ones(100, dtype="uint8")}, "max": {"hi": numpy.arange(200)[::2]}}
        changes["set"] = {"city": numpy.array([f"c{one % 3}" for one in ids])}
        session.upsert_columns({"id": ids.astype("int32")}, **changes)
        session.upsert_columns({"id": ids[::-1]}, add={"n": numpy.int64(4)})
        self.assertEqual(session.scan(), [(one, 5, 2 * one, f"c{one % 3}") for one in range(100)])
        for wrong in (numpy.array([1.5] * 100), ids.astype("datetime64[s]"), ids.reshape(10, 10)):
            with self.assertRaises(betable().RowError):
                session.upsert_columns({"id": ids}, add={"n": wrong})

    @skipUnless(pandas, "pandas is not installed")
    def test_rows_of_a_frame_are_upserts(self):
        session = filled("table 4 6 3 2 device:int minute:int n:int total:int hi:int\n")
        frame = pandas.DataFrame({"minute": [5, 5, 6], "device": [1, 1, 2], "cents": [7, 9, 8]})
        self.assertEqual(session.upsert_frame(frame, add={"n": 1, "total": "cents"}, max={"hi": "cents"}), 3)
        self.assertEqual(session.scan(), [(1, 5, 2, 16, 9), (2, 6, 1, 8, 8)])
        session.upsert_frame(frame.rename(columns={"cents": "total"}), set=["total"])
        self.assertEqual(session.scan(), [(1, 5, 2, 9, 9), (2, 6, 1, 8, 8)])
        with self.assertRaisesRegex(ValueError, "the data frame has no column 'total': its columns are minute, device, cents"):
            session.upsert_frame(frame, set=["total"])


class PreparedUpserts(TestCase):
    def test_a_form_makes_the_messages_of_upsert(self):
        client = betable()
        form = client.upsert_form(max=["hi"], add=["n", "total"])
        self.assertEqual(form(1, 2, 3, 4, 5), client.upsert(1, 2, add={"n": 3, "total": 4}, max={"hi": 5}))
        session = filled("table 4 6 3 2 a:int b:int n:int total:int hi:int\n")
        session.batch(form(number % 3, 0, 1, number, number) for number in range(10))
        self.assertEqual(session.scan(), [(0, 0, 4, 18, 9), (1, 0, 3, 12, 7), (2, 0, 3, 15, 8)])

    def test_rows_of_upserts_leave_the_trees_of_the_same_messages(self):
        """Of all kinds, in several batches, in rows that the extension takes and in others, by a session and by scripts."""
        client = betable()
        for seed in range(30):
            dice = random.Random(seed)
            by_rows, by_messages = filled(), filled()
            given = {"set": dice.sample(["note", "ok", "raw", "hi"], dice.randrange(5)), "add": dice.sample(["n", "total"], dice.randrange(1, 3))}
            given["min"] = ["hi"]
            names = [name for operation in ("set", "add", "min") for name in given[operation]]
            rows = [(dice.randrange(5), dice.choice(TEXTS), *(VALUES[KINDS[name]](dice) for name in names)) for _ in range(dice.randrange(1, 30))]
            form = client.upsert_form(**{operation: some for operation, some in given.items() if some})
            forms = [dice.choice([tuple, list, lambda row: [Number(row[0]), *row[1:]]])(row) for row in rows]
            with self.subTest(seed=seed):
                self.assertEqual(by_rows.upsert_rows(iter(forms), dice.choice([2, 65_536]), **{name: some for name, some in given.items() if some}), len(rows))
                by_messages.batch([form(*row) for row in rows])
                self.assertEqual(by_rows.replies(IMAGES[IMAGES.index("scan") :]), by_messages.replies(IMAGES[IMAGES.index("scan") :]))

    def test_wrong_rows_of_upserts_change_nothing(self):
        client, session = betable(), filled("table 4 6 3 2 a:int b:text n:int\n")
        wrong = [
            ([(1, "x")], {"add": ["n"]}, client.RowValueError, "row 1: 2 values, and a row has 3 (a, b, n)"),
            ([(1, "x", 1), 5], {"add": ["n"]}, client.RowTypeError, "row 2: 5 is of type int, and a row is a tuple or a list: write (a, b, n)"),
            ([(1, "x", "1")], {"add": ["n"]}, client.RowTypeError, "row 1, column 'n': '1' is of type str"),
            ([(1, "x", 2**63)], {"add": ["n"]}, client.Refused, "'9223372036854775808' is over the largest int"),
            ([(1, "x", "z")], {"set": ["b"]}, client.Refused, "'b' is a column of the key"),
            ([(1, "x", 1)], {"add": ["town"]}, client.RowValueError, "'town' is no column (a, b, n)"),
            ([(1, "x", 1)], {"add": "n"}, TypeError, "add is a list of columns, and not 'n': write add=['n']"),
            ({"a": 1}, {"add": ["n"]}, TypeError, "rows are an iterable"),
        ]  # fmt: skip
        for number, (rows, operations, kind, words) in enumerate(wrong):
            with self.subTest(number=number), self.assertRaises(kind) as found:
                session.upsert_rows(rows, **operations)
            self.assertIn(words, str(found.exception))
            self.assertEqual(session.scan(), [])

    def test_a_wrong_form_and_wrong_numbers_of_values_are_told(self):
        client, session = betable(), filled("table 4 6 3 1 a:int n:int\n")
        with self.assertRaisesRegex(TypeError, r"add is a list of columns, and not 'n': write add=\['n'\]"):
            client.upsert_form(add="n")
        with self.assertRaisesRegex(TypeError, "an operation is one of set, add, max, min, and not 'sum'"):
            client.upsert_form(sum=["n"])
        with self.assertRaisesRegex(client.RowValueError, r"2 values, and a key has 1 \(a\)"):
            session.batch([client.upsert_form(add=["n"])(1, 2, 3)])


class LineBreaks(Folder):
    def test_what_get_returns_can_be_put_upserted_looked_up_and_deleted(self):
        """In a session and in a durable table, of which each step is opened again."""
        key, other = "a\nb\r\nc", "\r"
        row = (key, 1, "x\ny")

        def steps(table):
            yield table.table("name:text n:int note:text")
            yield table.index("by_note", on="note", include="n")
            yield table.load([row])
            yield table.put([table.get(key)])
            yield table.put({"name": [other], "n": [2], "note": ["\n"]})
            yield table.upsert(key, add={"n": 5}, set={"note": "\n\n"})
            yield table.batch([betable().upsert(other, add={"n": 1}), betable().put("plain", 3, "p")])
            yield table.delete(other)

        wanted = [[], [], [row], [row], [(other, 2, "\n"), row], [(other, 2, "\n"), (key, 6, "\n\n")], [(other, 3, "\n"), (key, 6, "\n\n"), ("plain", 3, "p")],
                  [(key, 6, "\n\n"), ("plain", 3, "p")]]  # fmt: skip
        session = betable().Session()
        for number, (_, found) in enumerate(zip(steps(session), wanted)):
            with self.subTest(number=number):
                self.assertEqual(session.scan(), found)
        self.assertEqual((session.get(key), session.get(other)), ((key, 6, "\n\n"), None))
        self.assertEqual(session.scan("primary", (key,), (key + "\0",)), [(key, 6, "\n\n")])
        self.assertEqual(session.scan("by_note", ("\n\n",), ("\n\n\0",), 1), [("\n\n", key, 6)])
        self.assertEqual(session.scan(after=(key,)), [("plain", 3, "p")])
        self.assertEqual(session.sums("by_note", 1, "n", ("\n",), ("p",)), [(1, 6, "\n\n")])
        self.assertEqual(list(session.iterate(page=1)), wanted[-1])
        for number, found in enumerate(wanted):
            path = self.folder / f"step {number}"
            with durable().open(path) as table:
                for _, _ in zip(range(number + 1), steps(table)):
                    pass
            with durable().open(path) as table:
                self.assertEqual((number, table.scan()), (number, found))

    def test_sessions_by_scripts_refuse_them_and_say_so(self):
        session = filled("table 4 6 3 1 name:text n:int\n", betable().session.ScriptSession)
        for call in (lambda: session.put([("a\nb", 1)]), lambda: session.get("a\r"), lambda: session.delete("\n"), lambda: session.scan("primary", ("\n",))):
            with self.assertRaisesRegex(betable().RowValueError, "has a line break, and only load takes a text with one"):
                call()


class FilesOfPackedChanges(Folder):
    def test_values_are_kept_as_the_bytes_that_were_applied(self):
        """Those that are refused are not, and leave the table as it was."""
        with durable().open(self.path) as table:
            table.run("table 4 6 3 1 id:int city:text\n")
            table.put([(1, "a\n")])
            before = self.path.read_bytes()
            self.assertIn(b"BTV\1\1\0\0\0" + b"\0" + (1).to_bytes(8, "little") + b"\2a\n", before)
            with self.assertRaises(betable().Refused) as found:
                table.batch([betable().put(2, "b"), betable().upsert(1, set={"id": 4})])
            self.assertIn("'id' is a column of the key", str(found.exception))
            self.assertEqual((table.number, table.scan(), self.path.read_bytes() == before), (2, [(1, "a\n")], True))

    def test_a_group_keeps_values_and_scripts_together_or_not_at_all(self):
        with durable().open(self.path) as table:
            table.run("table 4 6 3 1 id:int n:int\n")
            with self.assertRaises(ZeroDivisionError), table.group():
                table.put([(1, 1)])
                table.replies("batch\nput 2,2\nend\n")
                1 // 0
            self.assertEqual((table.scan(), table.number), ([], 1))
            with table.group():
                table.upsert_columns({"id": [1, 2]}, add={"n": 3})
                table.replies("batch\nups 1,add,n,1\nend\n")
        with durable().open(self.path) as table:
            self.assertEqual(table.scan(), [(1, 4), (2, 3)])


class ReplicasOfPackedChanges(TestCase):
    def setUp(self):
        self.log = Log()
        self.cluster = import_module("betable.cluster")

    def test_values_of_one_replica_are_those_of_all(self):
        with self.cluster.Replicas(self.log) as one, self.cluster.Replicas(self.log) as other, betable().Session() as session:
            for table in (one, session):
                table.run(SCHEMA)
                table.put([(1, "a\nb", 1, 1, 1, "\r", True, b"\n")])
                table.upsert_columns({"device": [1, 2], "city": ["a\nb", "c"]}, add={"n": 5}, set={"note": "x\ny"})
                table.delete(2, "c")
            self.assertEqual((other.replies(IMAGES), other.scan()), (session.replies(IMAGES), session.scan()))
            self.assertEqual(len([entry for entry in self.log.scripts if entry.script.startswith(b"BTV\1")]), 3)
            with self.assertRaises(betable().Refused) as found:
                other.batch([betable().put(5, "e", 0, 0, 0, "", True, b""), betable().upsert(1, "a\nb", set={"device": 4})])
            self.assertIn("'device' is a column of the key", str(found.exception))
            self.assertEqual((one.scan(), one.position, other.position), (session.scan(), 5, 5))
            one.checkpoint()
            one.trim()
            with self.cluster.Replicas(self.log) as third:
                self.assertEqual(third.scan(), session.scan())

    def test_a_script_that_begins_like_packed_changes_is_a_script(self):
        text = b"BTV\1\nbatch\nput 1,1\nend\n"
        with self.cluster.Replicas(self.log) as one, self.cluster.Replicas(self.log) as other, betable().Session() as session:
            session.run("table 4 6 3 1 id:int n:int\n")
            one.run("table 4 6 3 1 id:int n:int\n")
            self.assertEqual(one.once("id", text), session.replies(text))
            self.assertEqual((other.once("id", text), other.scan(), other.position), (session.replies(text), [(1, 1)], 2))

    def test_a_replica_over_a_layer_has_the_same_rows(self):
        with self.cluster.Replicas(self.log) as one, self.cluster.Replicas(self.log, make=Layer) as other:
            one.run("table 4 6 3 1 id:int n:int\n")
            one.upsert_columns({"id": range(20)}, add={"n": range(20)})
            other.put([(5, 50), (15, 150)])
            self.assertEqual((other.scan(), one.scan()), (one.scan(), [(n, 10 * n if n in (5, 15) else n) for n in range(20)]))

"""Tests of the Python package on what nobody meant: each wrong use raises, says what to do, and leaves the table as it was; names are never a piece of a
script; and values of all types of Python come back as they went in, or are refused."""

import asyncio
import copy
import ctypes
import datetime
import decimal
import enum
import fractions
import inspect
import io
import itertools
import os
import pickle
import random
import subprocess
import sys
import tempfile
import threading
import time
import uuid
from concurrent.futures import ThreadPoolExecutor
from pathlib import Path
from unittest import TestCase

from .common import fault_of, TABLE, TOP
from .clients import OtherLibrary, betable, both_ways, build_extension, library, library_without_memory

from betable import language
from betable.replies import answered
from betable.schema import Trees, trees_after

SCHEMA = "table 16 64 16 1 id:int city:text ok:flag raw:bytes\nindex by_city on city include ok\nbuild by_city 100\n"
ROWS = [(1, "Oslo", True, b"\0"), (2, "Bergen, west", False, b""), (3, "", True, b"ab")]
LONG = "x" * 256


class Number(int):
    """An int that prints as something else."""

    def __str__(self):
        return "999"

    __repr__ = __str__


class Color(enum.IntEnum):
    RED = 5


class Index:
    def __index__(self):
        return 7


class Broken:
    def __index__(self):
        raise KeyError("a fault of its own")

    def __repr__(self):
        raise KeyError("no text")


def filled():
    session = betable().Session()
    session.run(SCHEMA)
    session.put(ROWS)
    return session


def content(session):
    """All that a session shows: its rows, and its trees as they are."""
    return session.scan(), session.replies("scan by_city\ngo\nimage primary\nimage by_city\n")


# Wrong uses: a call with the client's module and a session, the exception's type, and its message.
VALUES = [
    (lambda c, s: s.put([(4, None, True, b"")]), "RowTypeError", "row 1, column 'city': None is None, and a column of kind text takes a str: there is no null"),
    (lambda c, s: s.put([(None, "a", True, b"")]), "RowTypeError", "row 1, column 'id': None is None, and a column of kind int takes an int: there is no null"),
    (lambda c, s: s.put([(4, "a", None, b"")]), "RowTypeError", "column 'ok': None is None, and a column of kind flag takes a bool"),
    (lambda c, s: s.put([(4, "a", True, None)]), "RowTypeError", "column 'raw': None is None, and a column of kind bytes takes bytes"),
    (lambda c, s: s.put([(4, b"Oslo", True, b"")]), "RowTypeError", "column 'city': b'Oslo' is of type bytes, and a column of kind text takes a str: write value.decode()"),
    (lambda c, s: s.put([(4, 42, True, b"")]), "RowTypeError", "column 'city': 42 is of type int, and a column of kind text takes a str: write str(value)"),
    (lambda c, s: s.put([(4, datetime.date(2026, 1, 1), True, b"")]), "RowTypeError", "write value.isoformat()"),
    (lambda c, s: s.put([(4, uuid.UUID(int=1), True, b"")]), "RowTypeError", "is of type UUID, and a column of kind text takes a str: write str(value)"),
    (lambda c, s: s.put([("4", "a", True, b"")]), "RowTypeError", "column 'id': '4' is of type str, and a column of kind int takes an int: write int(value)"),
    (lambda c, s: s.put([(4.0, "a", True, b"")]), "RowTypeError", "column 'id': 4.0 is of type float, and a column of kind int takes an int: write int(value), or keep it"),
    (lambda c, s: s.put([(float("nan"), "a", True, b"")]), "RowTypeError", "column 'id': nan is of type float"),
    (lambda c, s: s.put([(decimal.Decimal("4"), "a", True, b"")]), "RowTypeError", "is of type Decimal, and a column of kind int takes an int"),
    (lambda c, s: s.put([(fractions.Fraction(4), "a", True, b"")]), "RowTypeError", "is of type Fraction, and a column of kind int takes an int"),
    (lambda c, s: s.put([(True, "a", True, b"")]), "RowTypeError", "column 'id': True is of type bool, and a column of kind int takes an int: write int(value)"),
    (lambda c, s: s.put([(datetime.datetime(2026, 1, 1), "a", True, b"")]), "RowTypeError", "write int(value.timestamp())"),
    (lambda c, s: s.put([(4j, "a", True, b"")]), "RowTypeError", "4j is of type complex, and a column of kind int takes an int"),
    (lambda c, s: s.put([(Broken(), "a", True, b"")]), "RowValueError", "row 1, column 'id'"),
    (lambda c, s: s.put([(4, "a", 1, b"")]), "RowTypeError", "column 'ok': 1 is of type int, and a column of kind flag takes a bool: write bool(value)"),
    (lambda c, s: s.put([(4, "a", "true", b"")]), "RowTypeError", "column 'ok': 'true' is of type str, and a column of kind flag takes a bool: write value == 'true'"),
    (lambda c, s: s.put([(4, "a", True, "ab")]), "RowTypeError", "column 'raw': 'ab' is of type str, and a column of kind bytes takes bytes: write value.encode(), or bytes.fromhex"),
    (lambda c, s: s.put([(4, "a", True, uuid.UUID(int=1))]), "RowTypeError", "column 'raw': UUID('00000000-0000-0000-0000-000000000001') is of type UUID, and a column of kind bytes takes bytes: write value.bytes"),
    (lambda c, s: s.put([(4, "a", True, 7)]), "RowTypeError", "column 'raw': 7 is of type int, and a column of kind bytes takes bytes"),
    (lambda c, s: s.put([(4, "a", True, [1, 2])]), "RowTypeError", "column 'raw': [1, 2] is of type list"),
    (lambda c, s: s.put([(4, ["a"], True, b"")]), "RowTypeError", "column 'city': ['a'] is of type list, and a column of kind text takes a str"),
    (lambda c, s: s.put([(4, "\ud800", True, b"")]), "RowValueError", "column 'city': '\\ud800' has half of a surrogate pair"),
    (lambda c, s: s.put([(n, "a" if n < 19 else "\udfff", True, b"") for n in range(10, 20)]), "RowValueError", "row 10, column 'city': '\\udfff' has half of a"),
    (lambda c, s: s.put([(n, "a", True, b"" if n < 19 else "") for n in range(10, 20)]), "RowTypeError", "row 10, column 'raw': '' is of type str"),
    (lambda c, s: s.put([(2**63, "a", True, b"")]), "Refused", "refused 6 BadField 1: row 1: column 1 'id' (int): '9223372036854775808' is over the largest int"),
    (lambda c, s: s.put([(-(2**63) - 1, "a", True, b"")]), "Refused", "is below the smallest int"),
    (lambda c, s: s.put([(10**5000, "a", True, b"")]), "RowValueError", "row 1, column 'id'"),
    (lambda c, s: s.put([(n, "a", True, b"") for n in [*range(10, 20), 10**5000]]), "RowValueError", "row 11, column 'id': an int has at most 64 bits, and not 16,610"),
    (lambda c, s: s.put([(4, LONG, True, b"")]), "Refused", "column 2 'city' (text): 256 bytes, and a text has at most 255"),
    (lambda c, s: s.put([(4, "ø" * 128, True, b"")]), "Refused", "column 2 'city' (text): 256 bytes, and a text has at most 255"),
    (lambda c, s: s.put([(4, "a", True, bytes(256))]), "Refused", "column 4 'raw' (bytes): 256 bytes, and a value has at most 255"),
]

LENGTHS = [
    (lambda c, s: s.put([(4, "a", True)]), "RowValueError", "row 1: 3 values, and a row has 4 (id, city, ok, raw): (4, 'a', True)"),
    (lambda c, s: s.put([(4, "a", True, b"", 5)]), "RowValueError", "row 1: 5 values, and a row has 4"),
    (lambda c, s: s.put([()]), "RowValueError", "row 1: 0 values, and a row has 4"),
    (lambda c, s: s.put([*ROWS, (4,)]), "RowValueError", "row 4: 1 value, and a row has 4"),
    (lambda c, s: s.put([{"id": 4, "city": "a", "ok": True}]), "RowValueError", "row 1: 'raw' is missing: a dict has a value for each of the columns id, city, ok, raw"),
    (lambda c, s: s.put([{"id": 4, "city": "a", "ok": True, "raw": b"", "x": 1}]), "RowValueError", "row 1: 'x' is no column: a dict has a value for each"),
    (lambda c, s: s.put([{"id": 4, "town": "a", "ok": True, "raw": b""}]), "RowValueError", "row 1: 'town' is no column and 'city' is missing"),
    (lambda c, s: s.put([{}]), "RowValueError", "row 1: 'id' is missing"),
    (lambda c, s: s.put([{1: 4}]), "RowValueError", "row 1: 1 is no column and 'id' is missing"),
    (lambda c, s: s.put([{"id": "4", "city": "a", "ok": True, "raw": b""}]), "RowTypeError", "row 1, column 'id': '4' is of type str"),
    (lambda c, s: s.batch([c.put(4, "a")]), "RowValueError", "row 1: 2 values, and a row has 4"),
    (lambda c, s: s.batch([c.delete()]), "RowValueError", "row 1: 0 values, and a key has 1 (id)"),
    (lambda c, s: s.batch([c.delete(1, "Oslo")]), "RowValueError", "row 1: 2 values, and a key has 1 (id)"),
    (lambda c, s: s.get(), "RowValueError", "0 values, and a key has 1 (id)"),
    (lambda c, s: s.get(1, 2), "RowValueError", "2 values, and a key has 1 (id)"),
    (lambda c, s: s.scan("primary", (1, 2)), "RowValueError", "2 values, and a bound has 1 (id)"),
    (lambda c, s: s.scan("primary", ()), "RowValueError", "0 values, and a bound has 1 (id)"),
    (lambda c, s: s.scan("by_city", ("a", 1, 2)), "RowValueError", "3 values, and a bound has 1 to 2 (city, id)"),
]

SHAPES = [
    (lambda c, s: s.put("4,a,true,"), "TypeError", "rows are an iterable, as a list, and not '4,a,true,' of type str: write [(1, ..), (2, ..)]"),
    (lambda c, s: s.put(b"4,a,true,"), "TypeError", "rows are an iterable, as a list, and not b'4,a,true,' of type bytes"),
    (lambda c, s: s.put(bytearray(b"4")), "TypeError", "of type bytearray"),
    (lambda c, s: s.put({"id": 4}), "RowValueError", "'city' is missing: columns of rows are a dict from each of the names id, city, ok, raw to its values"),
    (lambda c, s: s.put(4), "TypeError", "rows are an iterable, as a list, and not 4 of type int"),
    (lambda c, s: s.put(None), "TypeError", "rows are an iterable, as a list, and not None"),
    (lambda c, s: s.put(ROWS[0]), "RowTypeError", "row 1: 1 is of type int, and a row is a tuple, a list or a dict: write [(id, city, ok, raw), ..]"),
    (lambda c, s: s.put(["no", "se"]), "RowTypeError", "row 1: 'no' is of type str, and a row is a tuple, a list or a dict"),
    (lambda c, s: s.put([b"abcd"]), "RowTypeError", "row 1: b'abcd' is of type bytes, and a row is a tuple, a list or a dict"),
    (lambda c, s: s.put(["abcd"]), "RowTypeError", "row 1: 'abcd' is of type str"),
    (lambda c, s: s.put([{4, 5, 6, 7}]), "RowTypeError", "row 1: {4, 5, 6, 7} is of type set, and a row is a tuple, a list or a dict: write [(id,"),
    (lambda c, s: s.put([range(4)]), "RowTypeError", "row 1: range(0, 4) is of type range, and a row is a tuple, a list or a dict: write tuple(row)"),
    (lambda c, s: s.put([iter(ROWS[0])]), "RowTypeError", "is of type tuple_iterator, and a row is a tuple, a list or a dict"),
    (lambda c, s: s.put([None]), "RowTypeError", "row 1: None is of type NoneType, and a row is a tuple, a list or a dict"),
    (lambda c, s: s.put([c.put(4, "a", True, b"")]), "RowTypeError", "is of type Message, and a row is a tuple, a list or a dict"),
    (lambda c, s: s.put(ROWS, most=0), "ValueError", "a batch has 1 to 65,536 messages, and not 0"),
    (lambda c, s: s.put(ROWS, most=65_537), "ValueError", "a batch has 1 to 65,536 messages, and not 65,537"),
    (lambda c, s: s.put(ROWS, most=-1), "ValueError", "a batch has 1 to 65,536 messages, and not -1"),
    (lambda c, s: s.put(ROWS, most=True), "TypeError", "the size of a batch is an int, and not True"),
    (lambda c, s: s.put(ROWS, most="7"), "TypeError", "the size of a batch is an int, and not '7'"),
    (lambda c, s: s.put(ROWS, most=None), "TypeError", "the size of a batch is an int, and not None"),
    (lambda c, s: s.batch("put 4,a,true,\n"), "TypeError", "messages are an iterable, as a list, and not 'put 4,a,true,\\n' of type str: write [betable.put(..)"),
    (lambda c, s: s.batch(c.put(4, "a", True, b"")), "TypeError", "messages are an iterable, as a list, and not put(4, 'a', True, b'') of type Message"),
    (lambda c, s: s.batch(["put 4,a,true,\n"]), "RowTypeError", "row 1: 'put 4,a,true,\\n' is of type str, and a message is made by betable.put"),
    (lambda c, s: s.batch([("put", 4, "a", True, b"")]), "RowTypeError", "is of type tuple, and a message is made by betable.put, betable.delete or betable.upsert"),
    (lambda c, s: s.batch([c.delete(1), None]), "RowTypeError", "row 2: None is of type NoneType, and a message is made by"),
    (lambda c, s: s.batch({"id": 4}), "TypeError", "messages are an iterable, as a list, and not {'id': 4} of type dict"),
    (lambda c, s: s.batch([c.delete("1")]), "RowTypeError", "row 1, column 'id': '1' is of type str"),
    (lambda c, s: s.batch([c.delete((1,))]), "RowTypeError", "row 1, column 'id': (1,) is of type tuple"),
    (lambda c, s: s.get((1,)), "RowTypeError", "(1,) is of type tuple: the values of a key are given one by one, as get(*key)"),
    (lambda c, s: s.get("1"), "RowTypeError", "column 'id': '1' is of type str, and a column of kind int takes an int: write int(value)"),
    (lambda c, s: s.get(None), "RowTypeError", "column 'id': None is None"),
    (lambda c, s: s.get(1.0), "RowTypeError", "column 'id': 1.0 is of type float"),
    (lambda c, s: s.get(True), "RowTypeError", "column 'id': True is of type bool"),
    (lambda c, s: s.get({"id": 1}), "RowTypeError", "column 'id': {'id': 1} is of type dict"),
    (lambda c, s: s.get(id=1), "TypeError", "unexpected keyword argument 'id'"),
    (lambda c, s: s.scan("primary", 1), "RowTypeError", "a bound is a tuple, and not 1 of type int: write (1,)"),
    (lambda c, s: s.scan("by_city", "Oslo"), "RowTypeError", "a bound is a tuple, and not 'Oslo' of type str: write ('Oslo',)"),
    (lambda c, s: s.scan("by_city", b"Oslo"), "RowTypeError", "a bound is a tuple, and not b'Oslo' of type bytes"),
    (lambda c, s: s.scan("by_city", {"city": "Oslo"}), "RowTypeError", "a bound is a tuple, and not {'city': 'Oslo'} of type dict"),
    (lambda c, s: s.scan("by_city", {"Oslo"}), "RowTypeError", "a bound is a tuple, and not {'Oslo'} of type set"),
    (lambda c, s: s.scan("by_city", (v for v in ["Oslo"])), "RowTypeError", "a bound is a tuple, and not"),
    (lambda c, s: s.scan("by_city", ("Oslo", "1")), "RowTypeError", "column 'id': '1' is of type str"),
    (lambda c, s: s.scan("by_city", (1,)), "RowTypeError", "column 'city': 1 is of type int"),
    (lambda c, s: s.load(ROWS), "Refused", "refused 13 NotEmpty: A load needs a table whose tree of rows is one leaf without rows"),
    (lambda c, s: s.load("id,city,ok,raw\n"), "TypeError", "rows are an iterable, as a list, and not 'id,city,ok,raw\\n' of type str"),
    (lambda c, s: s.load([{"id": 4}]), "RowValueError", "row 1: 'city' is missing"),
    (lambda c, s: s.load([(4, "a", True, b""), (5, "a\n.\nb", True, b"")]), "RowValueError", "row 2, column 'city': 'a\\n.\\nb' has a line that is a point alone"),
    (lambda c, s: s.load(["abcd"]), "RowTypeError", "row 1: 'abcd' is of type str"),
    (lambda c, s: s.load_csv("no/such/file.csv"), "FileNotFoundError", "no/such/file.csv"),
    (lambda c, s: s.load_csv(None), "TypeError", "NoneType"),
    (lambda c, s: s.load_csv(io.StringIO("id\n")), "TypeError", "StringIO"),
    (lambda c, s: s.run(5), "TypeError", "a script is a str or bytes, and not 5 of type int"),
    (lambda c, s: s.run(None), "TypeError", "a script is a str or bytes, and not None of type NoneType"),
    (lambda c, s: s.run(["get 1\n"]), "TypeError", "a script is a str or bytes, and not ['get 1\\n'] of type list"),
    (lambda c, s: s.replies(5), "TypeError", "a script is a str or bytes, and not 5"),
    (lambda c, s: s.check(5), "TypeError", "a script is a str or bytes, and not 5 of type int"),
    (lambda c, s: s.check(["get 1\n"]), "TypeError", "a script is a str or bytes, and not ['get 1\\n'] of type list"),
    (lambda c, s: s.run("get \ud800\n"), "UnicodeEncodeError", "surrogates not allowed"),
]

UPSERTS = [
    (lambda c, s: c.upsert(1), "TypeError", "an upsert changes a column or more: write upsert(*key, add={'qty': 1})"),
    (lambda c, s: c.upsert(1, {"city": "a"}), "TypeError", "an upsert changes a column or more"),
    (lambda c, s: c.upsert(1, set={}), "TypeError", "an upsert changes a column or more"),
    (lambda c, s: c.upsert(1, inc={"id": 1}), "TypeError", "an operation is one of set, add, max, min, and not 'inc'"),
    (lambda c, s: c.upsert(1, set={"city": "a"}, put={"ok": True}), "TypeError", "an operation is one of set, add, max, min, and not 'put'"),
    (lambda c, s: c.upsert(1, add=("id", 1)), "TypeError", "add is a dict of columns and values, and not ('id', 1): write add={'qty': 1}"),
    (lambda c, s: c.upsert(1, set="city"), "TypeError", "set is a dict of columns and values, and not 'city'"),
    (lambda c, s: c.upsert(1, set=None), "TypeError", "set is a dict of columns and values, and not None"),
    (lambda c, s: s.batch([c.upsert(1, set={"town": "a"})]), "RowValueError", "row 1: 'town' is no column (id, city, ok, raw)"),
    (lambda c, s: s.batch([c.upsert(1, set={5: "a"})]), "RowValueError", "row 1: 5 is no column (id, city, ok, raw)"),
    (lambda c, s: s.batch([c.upsert(1, set={"city,x,add,id": 1})]), "RowValueError", "row 1: 'city,x,add,id' is no column"),
    (lambda c, s: s.batch([c.upsert(1, set={"city\nend\ndrop by_city": 1})]), "RowValueError", "is no column"),
    (lambda c, s: s.batch([c.upsert(1, set={"city": 5})]), "RowTypeError", "row 1, column 'city': 5 is of type int, and a column of kind text takes a str"),
    (lambda c, s: s.batch([c.upsert(1, set={"ok": 1})]), "RowTypeError", "row 1, column 'ok': 1 is of type int"),
    (lambda c, s: s.batch([c.upsert(1, set={"raw": "ab"})]), "RowTypeError", "row 1, column 'raw': 'ab' is of type str"),
    (lambda c, s: s.batch([c.upsert(1, set={"id": 2})]), "Refused", "'id' is a column of the key, which no operation changes"),
    (lambda c, s: s.batch([c.upsert(1, add={"city": "a"})]), "Refused", "'city' is text, and add"),
    (lambda c, s: s.batch([c.upsert("1", set={"city": "a"})]), "RowTypeError", "row 1, column 'id': '1' is of type str"),
    (lambda c, s: s.batch([c.upsert(1, 2, set={"city": "a"})]), "RowValueError", "row 1: 2 values, and a key has 1 (id)"),
    (lambda c, s: s.batch([c.upsert(set={"city": "a"})]), "RowValueError", "row 1: 0 values, and a key has 1 (id)"),
    (lambda c, s: s.batch([c.upsert(1, set={"city": "a"}), c.upsert(2, set={"city": b"a"})]), "RowTypeError", "row 2, column 'city': b'a' is of type bytes"),
]

# Names that would be more than a name.
NAMES = [
    "primary\ngo\ndrop by_city\nscan primary", "by_city\n", "\nby_city", "by_city go", " by_city", "by_city ", "by city", "by_city\r", "by_city\0", "by\tcity",
    "", "Primary", "1st", "by-city", "by_city;", "by_city,ok", "a" * 33, "bÿ", "\ud800", "ok\ngo\nbatch\ndel 1\nend\nsums primary 1 ok", "primary 1 id\ngo\n",
]  # fmt: skip

OTHERS = [
    (lambda c, s: s.scan("by_name"), "Refused", "refused 8 NoSuchTree: no tree is named 'by_name': there are primary, by_city"),
    (lambda c, s: s.scan(None), "TypeError", "a tree is named by a str, and not by None of type NoneType"),
    (lambda c, s: s.scan(b"primary"), "TypeError", "a tree is named by a str, and not by b'primary' of type bytes"),
    (lambda c, s: s.scan(("primary",)), "TypeError", "a tree is named by a str, and not by ('primary',)"),
    (lambda c, s: s.sums("primary", "city", "id"), "TypeError", "the number of columns of a group is an int, and not 'city'"),
    (lambda c, s: s.sums("primary", True, "id"), "TypeError", "the number of columns of a group is an int, and not True"),
    (lambda c, s: s.sums("primary", 1.0, "id"), "TypeError", "the number of columns of a group is an int, and not 1.0"),
    (lambda c, s: s.sums("primary", -1, "id"), "ValueError", "the number of columns of a group is 0 to 8, and not -1"),
    (lambda c, s: s.sums("primary", 10**10, "id"), "ValueError", "the number of columns of a group is 0 to 8"),
    (lambda c, s: s.sums("primary", 2, ""), "Refused", "G is 2, and from 1 to 1: the key of primary is id"),
    (lambda c, s: s.sums("primary", 0, "city"), "Refused", "refused 16 NotInt: 'city' is text"),
    (lambda c, s: s.sums("primary", 0, "town"), "Refused", "refused 15 NoSuchColumn: 'town' is no column of primary"),
    (lambda c, s: s.count("by_name"), "Refused", "refused 8 NoSuchTree: no tree is named 'by_name': there are primary, by_city"),
    (lambda c, s: s.count(None), "TypeError", "a tree is named by a str, and not by None of type NoneType"),
    (lambda c, s: s.count("primary", ("1",)), "RowTypeError", "column 'id': '1' is of type str"),
    (lambda c, s: s.count("by_city", stop=("a", 1, 2)), "RowValueError", "3 values, and a bound has 1 to 2 (city, id)"),
    (lambda c, s: s.sums("primary", 1, "city"), "Refused", "refused 16 NotInt: 'city' is text"),
    (lambda c, s: s.sums("primary", 1, "town"), "Refused", "refused 15 NoSuchColumn: 'town' is no column of primary"),
    (lambda c, s: s.sums("primary", 1, None), "TypeError", "a column is named by a str, and not by None"),
    (lambda c, s: s.run("selekt 1\n"), "Refused", "line 1: refused 1 Syntax: 'selekt' is"),
    (lambda c, s: s.run("get 1\nbatch\nput 4,a,true,\n"), "Refused", "line 2: refused 2 Unfinished"),
    (lambda c, s: s.run("get 1\n\nbatch\nput 4,a,true,00\nput x,b,true,00\nend\n"), "Refused", "line 3: refused 6 BadField 2: column 1 'id' (int): 'x' is"),
    (lambda c, s: s.run(SCHEMA), "Refused", "refused 4 TableExists"),
    (lambda c, s: s.run("index by_city on ok\n"), "Refused", "refused 9 NameTaken: 'by_city' is the name of an index. Choose another"),
    (lambda c, s: s.run("index by_x on x\n"), "Refused", "refused 15 NoSuchColumn: 'x' is no column: id, city, ok, raw"),
    (lambda c, s: s.run("build by_city 1\n"), "Refused", "refused 12 AlreadyComplete"),
    (lambda c, s: copy.copy(s), "TypeError", "a session cannot be copied or pickled"),
    (lambda c, s: copy.deepcopy(s), "TypeError", "a session cannot be copied or pickled"),
    (lambda c, s: pickle.dumps(s), "TypeError", "a session cannot be copied or pickled"),
    (lambda c, s: len(s), "TypeError", "has no len()"),
    (lambda c, s: list(s), "TypeError", "not iterable"),
    (lambda c, s: s["primary"], "TypeError", "not subscriptable"),
    (lambda c, s: c.record([1, 2.5]), "TypeError", "a value is an int, a str, a bool or bytes, and not 2.5 of type float"),
    (lambda c, s: c.record("abc"), "TypeError", "the values of a record are an iterable"),
    (lambda c, s: c.record(["a\nb"]), "ValueError", "'a\\nb' has a line break"),
    (lambda c, s: c.field(None), "TypeError", "a value is an int, a str, a bool or bytes, and not None"),
    (lambda c, s: str(c.put(None)), "TypeError", "a value is an int, a str, a bool or bytes, and not None"),
]
OTHERS += [(lambda c, s, name=name: s.scan(name), "ValueError", "a tree: ") for name in NAMES]
OTHERS += [(lambda c, s, name=name: s.sums(name, 1, "id"), "ValueError", "a tree: ") for name in NAMES]
OTHERS += [(lambda c, s, name=name: s.sums("primary", 1, name), "ValueError", "a column: ") for name in NAMES if name]
WRONG_USES = VALUES + LENGTHS + SHAPES + UPSERTS + OTHERS


class PythonClient(TestCase):
    @both_ways
    def test_wrong_uses_of_the_python_client_change_nothing(self):
        """Each raises what it should, says what to do, and leaves rows, indexes and trees as they were, and what the client knows of them."""
        self.assertGreaterEqual(len(WRONG_USES), 120)
        client, session = betable(), filled()
        before, shown = content(session), repr(session)
        for number, (call, kind, said) in enumerate(WRONG_USES):
            with self.subTest(number=number):
                try:
                    call(client, session)
                except Exception as fault:
                    self.assertEqual(type(fault).__name__, kind)
                    self.assertIn(said, str(fault))
                else:
                    self.assertEqual("no exception", kind)
                self.assertEqual((content(session), repr(session)), (before, shown))
        self.assertEqual(session.get(1), ROWS[0])

    @both_ways
    def test_calls_without_a_table_are_refused(self):
        client = betable()
        with client.Session() as session:
            calls = [
                lambda: session.put(ROWS), lambda: session.put([]), lambda: session.batch([client.delete(1)]), lambda: session.load(ROWS), lambda: session.get(1),
                lambda: session.scan(), lambda: session.sums("primary", 1, "id"), lambda: session.count(), lambda: session.load_csv(__file__),
            ]  # fmt: skip
            for call in calls:
                try:
                    call()
                except client.Refused as refused:
                    self.assertEqual((refused.number, refused.name), (3, "NoTable"))
                    self.assertIn("There is no table yet", str(refused))
                else:
                    self.assertEqual("no exception", "Refused")

    @both_ways
    def test_names_are_never_a_piece_of_a_script(self):
        """Each public method is here: those with a name take none that is more than one, and the others take texts as values."""
        client = betable()
        text = "x\ngo\ndrop by_city\n"
        methods = {
            "batch": lambda s: s.batch([client.put(text, "", True, b"")]),
            "check": None,
            "explain": None,
            "close": None,
            "columns": lambda s: s.columns(text),
            "count": lambda s: s.count(text),
            "delete": lambda s: s.delete(text),
            "delete_columns": lambda s: s.delete_columns({text: [1]}),
            "delete_range": lambda s: s.delete_range(text),
            "get": lambda s: s.get(text),
            "index": lambda s: s.index("by_ok", on="ok", where=("city", "=", text)),
            "is_lost": None,
            "iterate": lambda s: s.iterate(text),
            "load": lambda s: s.load([(4, text, True, text)]),
            "load_csv": lambda s: s.load_csv(text),
            "put": lambda s: s.put([(text, "", True, b"")]),
            "put_csv": lambda s: s.put_csv(text),
            "put_frame": None,
            "rebuild": lambda s: s.rebuild(text),
            "replies": None,
            "run": None,
            "scan": lambda s: s.scan(text),
            "scan_columns": lambda s: s.scan_columns(text),
            "scan_frame": lambda s: s.scan_frame(text),
            "sums": lambda s: s.sums("by_city", 1, text),
            "table": lambda s: s.table([(text, "int")]),
            "to_csv": lambda s: s.to_csv("/nowhere/rows.csv", text),
            "trees": None,
            "upsert": lambda s: s.upsert(4, set={text: 1}),
            "upsert_columns": lambda s: s.upsert_columns({"id": [4]}, set={text: 1}),
            "upsert_frame": None,
            "upsert_rows": lambda s: s.upsert_rows([(4, 1)], set=[text]),
            "usage": lambda s: s.usage(text),
        }
        self.assertEqual(sorted(name for name in dir(client.Session) if not name.startswith("_")), sorted(methods))
        session = filled()
        before = content(session)
        for name, call in methods.items():
            with self.subTest(name=name):
                if call:
                    for parameter in inspect.signature(getattr(client.Session, name)).parameters.values():
                        kinds = [parameter.VAR_POSITIONAL, parameter.POSITIONAL_OR_KEYWORD] + [parameter.VAR_KEYWORD] * name.startswith("upsert")
                        self.assertTrue(parameter.kind in kinds or parameter.name in ("self", "newest_first"))
                    self.assertEqual((fault_of(lambda: call(session)) is not None, content(session)), (True, before))


# ---- values of all types ----


POOL = [
    0, 1, -1, 2**63 - 1, -(2**63), 2**63, 10**30, True, False, None, 0.0, 1.5, float("inf"), 1j, decimal.Decimal("1.0"), fractions.Fraction(1, 2), Number(6),
    Color.RED, Index(), Broken(), "", "a", "Oslo", "a,b", 'x"y', '"', "\ufeff", "\ufeffx", ".", "..", "\n", "\r", "a\r\nb", ".\n.", "a\n.\nb", "\n.\r\n", "\0", "end", "go", "é", "\ud800",
    LONG[1:], LONG, "ø" * 127, b"", b"a", bytes(range(256)), bytes(255), bytearray(b"ab"), memoryview(b"cd"), (), (1,), (1, "a"), [], ["a"], {}, {"id": 1}, set(), {1},
    frozenset({2}), range(3), iter([1]), object(), int, len, datetime.date(2026, 1, 1), datetime.timedelta(1), uuid.UUID(int=5), NotImplemented, ..., Exception("x"),
]  # fmt: skip


def stored(value, kind):
    """What a value is as a value of a column of this kind, or None where it is none."""
    if kind == "int" and hasattr(value, "__index__") and not isinstance(value, (bool, type, Broken)):
        number = int.__add__(value.__index__(), 0)
        return number if -(2**63) <= number < 2**63 else None
    if kind == "text" and isinstance(value, str):
        text = "".join(value)
        return text if len(text.encode("utf-8", "surrogatepass")) <= 255 and not any("\ud800" <= letter <= "\udfff" for letter in text) else None
    if kind == "flag" and isinstance(value, bool):
        return value
    if kind == "bytes" and isinstance(value, (bytes, bytearray, memoryview)):
        return bytes(value) if len(value) <= 255 else None
    return None


KINDS = ("int", "text", "flag", "bytes")
COLUMNS = ("id", "city", "ok", "raw")


def row_of(dice):
    """A row; most of its values are right."""
    right = (dice.randrange(20), dice.choice(["a", "b,c", "", '"', "."]), dice.random() < 0.5, dice.choice([b"", b"a", b"\0\n"]))
    row = [value if dice.random() < 0.8 else dice.choice(POOL) for value in right]
    if dice.random() < 0.1:
        row = dice.sample(row, dice.randrange(5))
    form = dice.random()
    if form < 0.5:
        return tuple(row)
    return row if form < 0.8 or len(row) != 4 else dict(zip(dice.sample(COLUMNS, 4), row)) if form < 0.85 else dict(zip(COLUMNS, row))


def stored_row(row, is_load):
    """A row as it is stored, or None where it is none."""
    if isinstance(row, dict):
        row = [row[name] for name in COLUMNS] if row.keys() == set(COLUMNS) else ()
    if not isinstance(row, (tuple, list)) or len(row) != 4:
        return None
    found = tuple(stored(value, kind) for value, kind in zip(row, KINDS))
    # The extension packs texts with line breaks.
    has_break = betable().Session is betable().session.ScriptSession and any(isinstance(value, str) and ("\n" in value or "\r" in value) for value in row)
    has_point = isinstance(row[1], str) and any(line in (".", ".\r") for line in row[1].split("\n")[1:-1])
    return None if None in found or (has_break and not is_load) or (is_load and has_point) else found


def anything_may_be_asked(client, session, dice):
    """Calls with values of any type in any place; none of them can change a row."""
    one, two, three = (dice.choice(POOL) for _ in range(3))
    calls = [
        lambda: session.scan(one), lambda: session.scan("primary", one, two), lambda: session.scan("by_city", (one, two), (three,)), lambda: session.sums(one, two, three),
        lambda: session.sums("primary", 1, "id", one), lambda: session.put(one) if not isinstance(one, (list, tuple, set, frozenset, dict)) else None,
        lambda: session.batch([one]), lambda: session.batch([client.upsert(one, set=two)]), lambda: session.batch([client.upsert(object(), add={one: two})]),
        lambda: session.put([one]), lambda: session.put([], most=one), lambda: session.load_csv(one) if not isinstance(one, (int, str, bytes)) else None,
        lambda: client.record([one, two]), lambda: repr(client.put(one, two)),
    ]  # fmt: skip
    fault = fault_of(dice.choice(calls))
    if fault is not None and not isinstance(fault, (client.Refused, client.RowError, TypeError, ValueError, KeyError)):
        raise fault


class ValuesOfAllTypes(TestCase):
    @both_ways
    def test_values_of_all_types_are_stored_exactly_or_refused(self):
        """Random rows, keys, bounds and messages: afterwards either the exact rows are there, with values of their columns' types, or an exception came and
        nothing changed."""
        client, dice, stored_calls = betable(), random.Random(5), 0
        for _ in range(60):
            with client.Session() as session:
                session.run("table 16 64 16 1 id:int city:text ok:flag raw:bytes\nindex by_city on city\nbuild by_city 1\n")
                rows = {}
                for _ in range(40):
                    given = [row_of(dice) for _ in range(dice.choice([1, 1, 2, 3, 6]))]
                    is_load = not rows and dice.random() < 0.3
                    wanted = [stored_row(row, is_load) for row in given]
                    is_right = None not in wanted and not (is_load and len({row[0] for row in wanted}) < len(wanted))
                    put = dice.choice([session.put, lambda rows: session.batch([client.put(*row) for row in rows])])
                    if any(isinstance(row, dict) for row in given):
                        put = session.put
                    fault = fault_of(lambda: (session.load if is_load else put)(iter(given) if dice.random() < 0.5 else given))
                    self.assertEqual(fault is None, is_right, given) if not any(isinstance(value, Broken) for row in given for value in row) else None
                    if fault is None:
                        rows |= {row[0]: row for row in wanted}
                        stored_calls += 1
                    elif not isinstance(fault, (client.Refused, client.RowError, TypeError, ValueError)):
                        raise fault
                    found = session.scan()
                    self.assertEqual(found, [rows[key] for key in sorted(rows)])
                    self.assertLessEqual({tuple(map(type, row)) for row in found}, {(int, str, bool, bytes)})
                    single = dice.choice(POOL)
                    key = stored(single, "int")
                    got = fault_of(lambda: self.assertEqual(session.get(single), rows.get(key)))
                    self.assertEqual(got is None, key is not None, single) if not isinstance(single, Broken) else None
                    anything_may_be_asked(client, session, dice)
                    self.assertEqual(session.scan(), found)
        self.assertGreater(stored_calls, 300)

    @both_ways
    def test_texts_are_keys_as_they_are(self):
        """Texts with a byte order mark, quotes, points and nothing in them, as the whole of a row and as the first part of a line."""
        client = betable()
        texts = ["", ".", "..", "\ufeff", "\ufeffx", "x\ufeff", '"', 'a"', "a,b", " ", "end", "go", "put 1", "é", "\0", "a" * 254]
        for load in (False, True):
            for some in (1, 3, len(texts)):
                with client.Session() as session:
                    session.run("table 16 64 16 1 name:text\n")
                    for place in range(0, len(texts), some) if not load else [0]:
                        (session.load if load else session.put)([(text,) for text in (texts if load else texts[place : place + some])])
                    self.assertEqual(session.scan(), sorted((text,) for text in texts))
                    for text in texts:
                        with self.subTest(text=text):
                            self.assertEqual((session.get(text), session.scan("primary", (text,), (text + "\0",))), ((text,), [(text,)]))
                    self.assertEqual(session.batch([client.delete(text) for text in texts]), len(texts))
                    self.assertEqual(session.scan(), [])
        # Many rows; only one of them needs quotes.
        for special in ("\ufeffx", ".", "", "a,b"):
            for load in (False, True):
                with self.subTest(special=special, load=load):
                    with client.Session() as session:
                        session.run("table 16 64 16 1 name:text\n")
                        rows = [*(("a" * count,) for count in range(1, 9)), (special,)]
                        (session.load if load else session.put)(rows)
                        self.assertEqual(session.scan(), sorted(rows))

    @both_ways
    def test_keys_of_two_columns_have_two_values(self):
        client = betable()
        with client.Session() as session:
            session.run("table 16 64 16 2 land:text city:text qty:int\n")
            rows = [("n", "o", 1), ("n", "z", 2), ("no", "a", 3), ("o", "x", 4)]
            session.put(rows)
            for call in (
                lambda: session.scan("primary", "no"), lambda: session.get("no"), lambda: session.get(("n", "o")), lambda: session.batch([client.delete("n")]),
                lambda: session.batch([client.upsert("n", add={"qty": 1})]), lambda: session.scan("primary", ["n", "o", 1]),
            ):  # fmt: skip
                self.assertIsInstance(fault_of(call), client.RowError)
            self.assertEqual(session.scan("primary", ("n",), ("n", "z")), rows[:1])
            self.assertEqual((session.scan("primary", ["no"]), session.get("n", "z"), session.scan()), (rows[2:], rows[1], rows))

    @both_ways
    def test_messages_that_are_alike_differ_by_their_values(self):
        """Upserts of one shape, whose line is made once: texts that need quotes, and values whose Python text is not their field, after plain ones."""
        client = betable()
        with client.Session() as session:
            session.run("table 16 64 16 1 id:int city:text ok:flag raw:bytes qty:int\n")
            texts, binaries = ["a", "b,c", '"', "", "."], [b"a", b"", b"\xff"]
            messages = [client.put(number, "x", False, b"", 0) for number in range(9)]
            messages += [client.upsert(number, set={"city": text}) for number, text in enumerate(texts)]
            messages += [client.upsert(number, set={"raw": value, "ok": True}) for number, value in enumerate(binaries, 5)]
            messages += [client.upsert(8, add={"qty": 5}, set={"qty": 1}, max={"qty": 4}), client.upsert(0, add={"qty": 2**62}), client.delete(1)]
            self.assertEqual(session.batch(messages), len(messages))
            wanted = [(number, text, False, b"", 0) for number, text in enumerate(texts)] + [
                (number, "x", True, value, 0) for number, value in enumerate(binaries, 5)
            ]
            self.assertEqual(session.scan(), [(0, "a", False, b"", 2**62), *wanted[2:], (8, "x", False, b"", 6)])
            for wrong in (client.upsert(0, set={"city": 5}), client.upsert(0, set={"raw": "a"}), client.upsert("0", add={"qty": 1})):
                self.assertIsInstance(fault_of(lambda: session.batch([*messages, wrong])), client.RowError)
            self.assertIsNone(session.get(1))
            session.batch([client.upsert(number, set={"qty": Number(7)}) for number in range(2, 4)])
            self.assertEqual((session.get(2)[4], session.get(3)[4]), (7, 7))


# ---- exceptions ----


def library_that_runs(session, script):
    """A library that runs this script in place of another one, and returns that memory ran out after it."""
    run = session._bytes.library.betable_run
    return OtherLibrary(session, {"betable_run": lambda handle, *_: run(handle, script, len(script)) + 1})


# A call of each kind.
CALLS = [
    lambda s: s.put(ROWS),
    lambda s: s.put({"id": [1], "city": ["Oslo"], "ok": [True], "raw": [b"\0"]}),
    lambda s: s.batch([betable().delete(99)]),
    lambda s: s.get(1),
    lambda s: s.scan(),
    lambda s: s.scan(limit=1),
    lambda s: s.scan_columns(),
    lambda s: list(s.iterate()),
    lambda s: s.sums("by_city", 1, "id"),
    lambda s: s.count(),
    lambda s: s.columns(),
    lambda s: s.usage(),
    lambda s: s.run("get 1\n"),
    lambda s: s.replies("get 1\n"),
    lambda s: s.check("get 1\n"),
    lambda s: s.explain("get 1\n"),
    lambda s: s.is_lost,
]

INTERRUPTED = """
import signal, sys
sys.path.insert(0, {path!r})
import betable

def interrupt(number, frame):
    raise KeyboardInterrupt

session, count = betable.Session(), 0
session.table("id:int qty:int")
session.put([(number, number) for number in range(100)])
signal.signal(signal.SIGALRM, interrupt)
for number in range(1500):
    try:
        signal.setitimer(signal.ITIMER_REAL, 0.00004 + number % 97 * 1e-6)
        for _ in range(10_000):
            session.get(5), session.is_lost, session.replies("get 5\\n"), session.sums("primary", 1, "qty", (5,), (6,))
    except KeyboardInterrupt:
        count += 1
print(count, session.scan(limit=2), session.close())
"""


def setUpModule():
    """The library, and the extension of the Python client, before tests run side by side."""
    library()
    build_extension()


class Exceptions(TestCase):
    @both_ways
    def test_refusals_say_what_to_do(self):
        """Fields of exceptions: the row of the call, its column, its value, and how many rows were applied before."""
        client = betable()
        with client.Session() as session:
            session.run("table 16 1024 256 1 id:int city:text qty:int\n")
            fault = fault_of(lambda: session.put(((n, "a", 1 if n != 25 else 2**63) for n in range(40)), most=10))
            found = fault.row, fault.column, fault.value, fault.taken, fault.line, fault.number, fault.name, fault.item
            self.assertEqual(found, (26, "qty", 2**63, 20, 1, 6, "BadField", 6))
            self.assertIn("row 26: column 3 'qty' (int): '9223372036854775808' is over the largest int", str(fault))
            self.assertIn("(20 rows of this call were applied before it, in earlier batches)", str(fault))
            self.assertEqual(len(session.scan()), 20)
            fault = fault_of(lambda: session.put(((n, "a", 1 if n != 125 else "x") for n in range(100, 140)), most=10))
            self.assertEqual((type(fault), fault.row, fault.column, fault.value, fault.taken), (client.RowTypeError, 26, "qty", "x", 20))
            self.assertEqual(len(session.scan()), 40)
            fault = fault_of(lambda: session.run("get 0\nbatch\nput 1,b,5\nput 2,c,y\nend\nget 1\n"))
            self.assertEqual((fault.line, fault.item, fault.column, fault.value, len(fault.replies)), (2, 2, "qty", "y", 3))
            self.assertEqual(fault.replies[2].rows, [(1, "a", 1)])
            fault = fault_of(lambda: session.batch([client.upsert(1, add={"qty": 2**63})]))
            self.assertEqual((fault.row, fault.column, fault.value), (1, "qty", 2**63))

    def test_reads_of_another_form_are_refused(self):
        """Their kinds of rows are asked for although they have none."""
        client = betable()
        for text in ("sums", "sums primary", "sums primary 1", "sums primary x qty", "sums primary 1x qty", "sums primary -1 qty", "scan", "scan x"):
            with self.subTest(text=text):
                with client.Session() as session:
                    session.run(f"{TABLE}\n")
                    fault = fault_of(lambda: session.run(f"{text}\ngo\nbatch\nput 1,a,2\nend\n"))
                    self.assertEqual((type(fault), fault.replies[1:], session.get(1)), (client.Refused, [["batch 1"]], (1, "a", 2)))

    def test_names_that_are_no_text_are_refused(self):
        client = betable()
        for text in (
            b"batch\nups 1,set,\xff,2\nend\n",
            b"sums primary 1 \xff\ngo\n",
            b"scan \xff\ngo\n",
            b"index \xff on qty\n",
            b"index a on \xff\n",
            b"\xff\n",
        ):
            with self.subTest(text=text):
                with client.Session() as session:
                    session.run(f"{TABLE}\n")
                    self.assertEqual(type(fault_of(lambda: session.run(text))), client.Refused)

    def test_the_reason_is_that_of_the_least_refusal(self):
        """Of a batch with a line of the wrong length and then a value that is none, the second one is what the refusal names."""
        client = betable()
        with client.Session() as session:
            session.run("table 16 64 16 1 id:int city:text\n")
            fault = fault_of(lambda: session.run("batch\nput 1\nput x,a\nput y,b\nend\n"))
            self.assertEqual((fault.number, fault.item, fault.column, fault.value), (6, 2, "id", "x"))
            fault = fault_of(lambda: session.run("load\nid,city\n1\nx,a\n.\n"))
            self.assertEqual((fault.number, fault.item, fault.value), (6, 2, "x"))

    def test_out_of_memory_says_what_was_carried_out(self):
        client = betable()
        with client.Session() as session:
            session.run("table 16 64 16 1 id:int city:text\n")
            session.put([(1, "a")])
            library = library_that_runs(session, b"get 1\n")
            fault = fault_of(lambda: session.run("get 1\nindex by_city on city\nbuild by_city 9\n"))
            self.assertEqual((type(fault), fault.replies, fault.is_cut, fault.is_lost, fault.taken), (client.OutOfMemory, b"row 1,a\n", False, False, 0))
            # No index was made, which the library tells.
            self.assertEqual([tree.name for tree in session.trees()], ["primary"])
            library.end(session)
            session.run("index by_city on city\nbuild by_city 9\n")
            self.assertEqual(session.scan("by_city"), [("a", 1)])
            library = library_without_memory(session)
            fault = fault_of(lambda: session.put([(2, "b")]))
            self.assertEqual((type(fault), fault.replies, str(fault)), (client.OutOfMemory, b"", "betable: out of memory"))
            library.end(session)
            self.assertEqual(session.scan(), [(1, "a")])

    def test_a_class_with_replies_of_its_own_runs_by_them(self):
        given = []

        class Shown(betable().Session):
            def replies(self, script):
                given.append(script)
                return b"none\n" if script == b"get 1\n" else super().replies(script)

        with Shown() as session:
            session.run(SCHEMA)
            session.put(ROWS)
            self.assertEqual([reply.rows for reply in session.run("get 2\nget 3\n")], [[ROWS[1]], [ROWS[2]]])
            self.assertEqual((list(session.run("get 1\n")[0]), given), (["none"], [SCHEMA.encode(), b"get 2\nget 3\n", b"get 1\n"]))

    @both_ways
    def test_a_closed_session_raises(self):
        session = filled()
        for _ in range(2):
            session.close()
            self.assertEqual({type(fault_of(lambda: call(session))) for call in CALLS}, {ValueError})
        self.assertIsNone(betable().Session().__enter__().close())

    @both_ways
    def test_a_session_goes_through_a_pool_of_threads(self):
        """Each call is made by some thread of a pool, which holds a lock, and the last thread closes the session."""
        client, lock, threads = betable(), threading.Lock(), set()
        session = client.Session()

        def made():
            session.table("thread:int count:int", keys=1, fanout=4, buffer=8, leaf=4)
            session.index("by_count", "count")

        def counted(number):
            with lock:
                threads.add(threading.get_ident())
                key, before = number % 7, session.get(number % 7) or (number % 7, 0)
                session.upsert(key, add={"count": 1})
                self.assertEqual((session.get(key), session.run(f"get {key}\n")[0].rows), ((key, before[1] + 1), [(key, before[1] + 1)]))
                session.put([(1_000 + number, number)])
                self.assertEqual(sum(total for _, total, _ in session.sums("by_count", 1, "count")), sum(row[1] for row in session.scan()))
            time.sleep(0.001)

        with ThreadPoolExecutor(8) as pool:
            pool.submit(made).result()
            list(pool.map(counted, range(350)))
            self.assertEqual([row for row in session.scan(stop=(1_000,))], [(key, 50) for key in range(7)])
            self.assertEqual(len(session.scan("by_count")), 357)
            pool.submit(session.close).result()
        self.assertEqual((len(threads) > 1, type(fault_of(session.scan))), (True, ValueError))

    @both_ways
    def test_a_session_works_in_the_threads_of_asyncio(self):
        async def all_at_once():
            session, lock = await asyncio.to_thread(betable().Session), asyncio.Lock()

            async def called(function, *given):
                async with lock:
                    return await asyncio.to_thread(function, *given)

            await called(session.table, "id:int qty:int")
            await asyncio.gather(*(called(session.put, [(number, number)]) for number in range(100)))
            self.assertEqual(await called(session.scan), [(number, number) for number in range(100)])
            await called(session.close)

        asyncio.run(all_at_once())

    def test_a_call_during_another_one_is_refused(self):
        """Of another thread, and of the same one, while the library carries out a script or sums. The call that was first ends as it should."""
        for name, call in (("betable_run", lambda: session.run("get 1\n")[0].rows), ("betable_sums", lambda: session.sums("by_city", 1, "id"))):
            session = filled()
            wanted, begun, ended, found = call(), threading.Event(), threading.Event(), []

            def waits(handle, given, length, *fault):
                found.append(fault_of(lambda: session.get(1)))
                begun.set()
                self.assertEqual(ended.wait(60), True)
                return getattr(library.library, name)(handle, ctypes.string_at(given, length), length, *fault)

            function = getattr(session._bytes.library, name)
            data = [ctypes.c_void_p if kind is ctypes.c_char_p else kind for kind in function.argtypes or session._bytes.library.betable_apply.argtypes]
            library = OtherLibrary(session, {name: ctypes.CFUNCTYPE(function.restype, *data)(waits)})
            thread = threading.Thread(target=lambda: found.append(call()))
            thread.start()
            self.assertEqual(begun.wait(60), True)
            faults = [fault_of(lambda: one(session)) for one in [*CALLS, lambda session: session.close()]]
            ended.set()
            thread.join()
            library.end(session)
            self.assertEqual({type(fault) for fault in [*faults, found[0]]}, {RuntimeError})
            self.assertIn("one call at a time", str(faults[0]))
            self.assertEqual((found[1:], session.scan()), ([wanted], ROWS))

    def test_interrupts_leave_a_session_free(self):
        """Ctrl-C, at many places of calls by the extension and by scripts: no call takes the session for good."""
        for session in ("Session", "session.ScriptSession"):
            with self.subTest(session=session):
                code = INTERRUPTED.format(path=str(TOP / "clients/python")).replace("betable.Session()", f"betable.{session}()")
                ended = subprocess.run([sys.executable, "-B", "-c", code], capture_output=True, text=True, env={**os.environ, "BETABLE_LIBRARY": library()})
                self.assertEqual((ended.returncode, ended.stderr), (0, ""))
                count, rest = ended.stdout.split(" ", 1)
                self.assertEqual((int(count) > 1_400, rest), (True, "[(0, 0), (1, 1)] None\n"))

    @both_ways
    def test_threads_without_a_lock_get_their_own_replies_or_a_fault(self):
        session, wrong, refused, rows = betable().Session(), [], [], 2_000
        session.table("id:int qty:int")
        session.put([(number, number) for number in range(rows)])
        is_over, interval = time.monotonic() + 0.7, sys.getswitchinterval()

        def reads(first):
            key = first
            while time.monotonic() < is_over:
                key = (key + 7) % rows
                for call, wanted in (
                    (lambda: session.run(f"get {key}\nscan primary\nfrom {key}\nto {key + 1}\ngo\n")[1].rows, [(key, key)]),
                    (lambda: session.get(key), (key, key)),
                    (lambda: session.scan("primary", (key,), (key + 1,)), [(key, key)]),
                    (lambda: session.sums("primary", 1, "qty", (key,), (key + 1,)), [(1, key, key)]),
                ):
                    try:
                        found = call()
                    except RuntimeError as fault:
                        refused.append(fault)
                        continue
                    except Exception as fault:
                        found = fault
                    if found != wanted:
                        wrong.append((found, wanted))

        threads = [threading.Thread(target=reads, args=[first]) for first in range(4)]
        sys.setswitchinterval(1e-6)
        try:
            for thread in threads:
                thread.start()
        finally:
            for thread in threads:
                thread.join()
            sys.setswitchinterval(interval)
        self.assertEqual((wrong[:3], len(refused) > 0, session.get(5)), ([], True, (5, 5)))

    @both_ways
    def test_a_session_that_another_thread_drops_is_closed(self):
        sessions, closed = [filled()], []
        close = sessions[0]._bytes.library.betable_close
        OtherLibrary(sessions[0], {"betable_close": lambda handle: closed.append((threading.get_ident(), close(handle)))})
        thread = threading.Thread(target=sessions.clear)
        thread.start()
        number = thread.ident
        thread.join()
        self.assertEqual(closed, [(number, 0)])

    @both_ways
    def test_counts_and_totals_are_those_of_the_rows_of_a_scan(self):
        """Of all rows and of ranges, with rows and without, of a table without rows, with three key columns and with no int column, and of an index that
        selects rows. An index that is building is refused."""
        tables = ["table 4 8 4 3 city:text id:int ok:flag qty:int", "table 4 8 4 2 city:text raw:bytes ok:flag", "table 4 8 4 1 id:int qty:int"]
        for table in tables:
            with self.subTest(table=table), betable().Session() as session:
                names = [word.partition(":")[0] for word in table.split()[5:]]
                index = f"index some on {names[-1]} include {names[0]}\nbuild some 1\n"
                session.run(f"{table}\n{index}index begun on {names[0]}\n")
                values = {"city": "abc", "id": range(50), "ok": [False, True], "qty": range(-3, 9), "raw": [b"", b"\0", b"x"]}
                for count in (0, 200):
                    dice = random.Random(count)
                    session.put([tuple(dice.choice(values[name]) for name in names) for _ in range(count)])
                    for tree in ("primary", "some"):
                        rows, columns = session.scan(tree), session.columns(tree)
                        keys = sum(column.is_key for column in columns)
                        bounds = [None, *(dice.choice(rows)[: dice.randrange(1, keys + 1)] for _ in range(6 if rows else 0))]
                        for start, stop in itertools.product(bounds, bounds):
                            found = session.scan(tree, start, stop)
                            self.assertEqual(session.count(tree, start, stop), len(found), (start, stop))
                            for place, column in enumerate(columns):
                                if column.kind == "int":
                                    total = sum(row[place] for row in found)
                                    self.assertEqual(session.sums(tree, 0, column.name, start, stop), [(len(found), total)])
                            for length in range(1, keys + 1):
                                groups = [(len(list(group)), 0, *key) for key, group in itertools.groupby(found, key=lambda row: row[:length])]
                                self.assertEqual(session.sums(tree, length, "", start, stop), groups)
                self.assertEqual(session.count(), len(session.scan()))
                self.assertEqual(fault_of(lambda: session.count("begun")).name, "Building")

    @both_ways
    def test_trees_follow_the_definitions_of_each_script(self):
        """Of random scripts that make, build and drop: what the library tells after a script is what its commands have done, one after the other. Words of such
        commands are texts too, and lines of them have blanks."""
        lines = ["table 8 8 8 2 id:int city:text qty:int raw:bytes", "table 8", "rebuild primary", "drop primary", "index a", "batch\nput 1,drop,2,00\nend"]
        for seed in range(40):
            dice, session, followed = random.Random(seed), betable().Session(), Trees()
            for _ in range(10):
                name, on, rest = dice.choice("abc"), dice.choice(["city", "qty,raw", "id"]), dice.choice(["", " include qty", " include id,raw where qty >= 3"])
                some = [*lines[1:], f"index {name} on {on}{rest}", f"build {name} {dice.choice([0, 1, 99])}"]
                some += [f"drop {name}", f"  drop  {name}\r", f"scan {name}\ngo"]
                script = "".join(f"{line}\n" for line in [lines[0], *dice.choices(some, k=4)]).encode()
                text, places = session._replies_with_places(script)
                for command, reply, _ in answered(language.commands(script), text, places):
                    followed = trees_after(followed, command, reply)
                self.assertEqual(session.trees(), followed, script)
                self.assertEqual([list(tree.columns) for tree in followed], [session.columns(tree.name) for tree in followed])
                self.assertEqual([len(session.scan(tree.name)) for tree in followed if tree.is_complete and tree.name == "primary"], [session.count()])

    @both_ways
    def test_trees_are_asked_for_again_after_memory_ran_out(self):
        with filled() as session:
            before = session.trees()
            session.replies("get 1\nbatch\nput 4,index ,true,00\nend\n")
            self.assertIs(session.trees(), before)
            session.replies("index by_ok on ok\n")
            library = library_without_memory(session, ["betable_trees"])
            for call in (session.trees, session.scan, lambda: session.put(ROWS)):
                self.assertEqual(type(fault_of(call)), betable().OutOfMemory)
            library.end(session)
            self.assertEqual([(tree.name, tree.is_complete) for tree in session.trees()], [("primary", True), ("by_city", True), ("by_ok", False)])
            self.assertEqual((session.trees()[:2], session.put(ROWS), session.count()), (tuple(before), 3, 4))

    def test_usage_has_names_and_is_refused_without_a_tree(self):
        client = betable()
        with filled() as session, client.Session() as other:
            self.assertEqual([(use.rows, use.messages, use.height) for use in (session.usage(), session.usage("by_city"))], [(3, 0, 1)] * 2)
            faults = [fault_of(call) for call in (lambda: session.usage("nothing"), other.usage, lambda: session.usage(5), lambda: session.usage("a b"))]
            self.assertEqual([type(fault) for fault in faults], [client.Refused, client.Refused, TypeError, ValueError])
            self.assertEqual([fault.name for fault in faults[:2]], ["NoSuchTree", "NoTable"])

    def test_a_load_names_the_line_of_its_file(self):
        client = betable()
        with tempfile.TemporaryDirectory() as folder, client.Session() as session:
            session.run("table 16 64 16 1 id:int city:text\n")
            path = Path(folder) / "cities.csv"
            cases = [
                (b"id,city\n1,Oslo\n\n2,Bergen,x\n", client.Refused, f"{path}, line 4: 3 fields, and a record has 2 (id, city)"),
                (b"id,city\n1,Oslo\nx,Bergen\n", client.Refused, f"{path}, line 3: column 1 'id' (int): 'x' is no"),
                (b"id,town\n1,Oslo\n", client.Refused, f"{path}, line 1: column 2 'city': the header has 'town' there"),
                (b"id,city\n1,Oslo\n1,Bergen\n", client.Refused, "refused 14 DuplicateKey 2"),
                (b"id,city\n1,Oslo\n.\n2,Bergen\n", ValueError, f"{path}, line 3: a line that is a point alone would end the load"),
                (b"id,city\n1,\xff\n", client.Refused, f"{path}, line 2: column 2 'city' (text): byte 1 of"),
                (b"\x1f\x8b\x08\0\0\0", ValueError, f"{path} is compressed by gzip"),
                (b"", client.Refused, "the block has no header"),
            ]
            for text, kind, said in cases:
                with self.subTest(text=text):
                    path.write_bytes(text)
                    fault = fault_of(lambda: session.load_csv(path))
                    self.assertEqual(type(fault), kind)
                    self.assertIn(said, str(fault))
                    self.assertEqual(session.scan(), [])
            path.write_bytes(b'\xef\xbb\xbfid,city\r\n2,"a\nb"\r\n1,Oslo')
            self.assertEqual((session.load_csv(str(path)), session.scan()), (2, [(1, "Oslo"), (2, "a\nb")]))

    @both_ways
    def test_a_csv_file_of_any_size_is_put_in_batches(self):
        """With records at every place of the blocks in which it is read, beside a load of the same file."""
        client, calls = betable(), []
        module = sys.modules["betable.csv_input"]
        block = module.BLOCK
        texts = ["Oslo", '"Bergen, west"', '"a ""b"""', '5" wide', "", "æ", ".", "end"]
        text = (
            "\ufeffid,city\n" + "".join(f"{number},{texts[number % 8]}" + ("\r\n", "\n", "\n\n", "\r")[number // 8 % 4] for number in range(300)) + "300,last"
        )
        with tempfile.TemporaryDirectory() as folder, client.Session() as loaded:
            path = Path(folder) / "cities.csv"
            path.write_text(text, newline="")
            size = path.stat().st_size
            loaded.table("id:int city:text")
            reader = sys.modules["betable.calls"]
            try:
                reader.BLOCK = 1_000
                self.assertEqual(
                    (loaded.load_csv(path, lambda *call: calls.append(call)), calls),
                    (301, [(min(read, size), size) for read in range(1_000, size + 1_000, 1_000)]),
                )
            finally:
                reader.BLOCK = block
            try:
                for module.BLOCK in (1, 7, 50, 51, 52, 53, 1_000, block):
                    for most in (1, 7, 301, client.MOST_MESSAGES):
                        with self.subTest(module=module.BLOCK, most=most):
                            with client.Session() as session:
                                session.table("id:int city:text")
                                calls.clear()
                                self.assertEqual(session.put_csv(str(path), lambda *call: calls.append(call), most), 301)
                                self.assertTrue(session.scan() == loaded.scan())
                                self.assertEqual((calls[-1], {total for _, total in calls}, calls), ((size, size), {size}, sorted(calls)))
                                self.assertGreaterEqual(len(calls), 301 // most)
            finally:
                module.BLOCK = block
            with client.Session() as session:
                session.table("id:int city:text")
                session.put([(1, "old"), (900, "old")])
                self.assertEqual((session.put_csv(path), session.get(1), session.get(900)), (301, (1, "Bergen, west"), (900, "old")))
                before = session.scan()
                cases = [
                    ("id,city\n1,a\n\n2,b,x\n", client.Refused, f"{path}, line 4: 3 fields, and a record has 2 (id, city)"),
                    ('id,city\n1,a\nx,"b"\n', client.Refused, f"{path}, line 3: column 1 'id' (int): 'x' is no"),
                    ('id,city\n1,a\n3,"b\n', client.Refused, f"{path}, line 3: the quoted field that begins in line 3 is not closed"),
                    ("id,town\n1,a\n", client.RowValueError, f"{path}, line 1: the header is 'id,town', and the columns are id,city"),
                    ("\n\n1,a\n", client.RowValueError, f"{path}, line 3: the header is '1,a', and the columns are id,city"),
                    ("", client.RowValueError, f"{path}: the header is '', and the columns are id,city"),
                ]
                for given, kind, said in cases:
                    with self.subTest(given=given):
                        path.write_text(given, newline="")
                        fault = fault_of(lambda: session.put_csv(path))
                        self.assertEqual(type(fault), kind)
                        self.assertIn(said, str(fault))
                        self.assertEqual(session.scan(), before)
                path.write_text("id,city\n" + "".join(f"{number},a\n" for number in range(2_000, 2_025)) + "x,b\n")
                fault = fault_of(lambda: session.put_csv(path, most=10))
                self.assertEqual((type(fault), fault.taken, fault.column), (client.Refused, 19, "id"))
                self.assertIn(f"{path}, line 27: column 1 'id' (int): 'x' is no", str(fault))
                self.assertEqual(len(session.scan("primary", (2_000,))), 19)
                path.write_bytes(b"\x1f\x8b\x08\0")
                self.assertIn("is compressed by gzip", str(fault_of(lambda: session.put_csv(path))))
                self.assertEqual([type(fault_of(lambda: session.put_csv(path, None, most))) for most in (0, "1")], [ValueError, TypeError])

    @both_ways
    def test_a_csv_file_is_cut_by_lines_where_it_has_no_quotes(self):
        """With the same records, and the same lines of faults, as a load has. Where a block has a quote or a carriage return, its records are found one by
        one."""
        client, module = betable(), sys.modules["betable.csv_input"]
        block, cut, cuts = module.BLOCK, module._records, []
        plain = "\ufeffid,city\n" + "".join(f"{number},city {number % 9}\n" + "\n" * (number % 3 == 0) for number in range(200))
        quoted = "".join(f'{number},"a ""b"", {number}"\r\n\r\n' for number in range(200, 240))
        after = "".join(f"{number},{'x' * (number % 60)}\n" for number in range(240, 400))
        module._records = lambda *given: cuts.append(given[0]) or cut(*given)
        try:
            with tempfile.TemporaryDirectory() as folder:
                path = Path(folder) / "cities.csv"
                for text, count in (
                    (plain, 200),
                    (plain + quoted, 240),
                    (plain + quoted + after, 400),
                    (plain.removesuffix("\n"), 200),
                    (plain.replace("\n", "\r"), 200),
                ):
                    path.write_text(text, newline="")
                    for module.BLOCK in (1, 30, 64, 1_000, block):
                        with self.subTest(module=module.BLOCK, count=count):
                            cuts.clear()
                            with client.Session() as session, client.Session() as loaded:
                                session.table("id:int city:text")
                                loaded.table("id:int city:text")
                                self.assertEqual((session.put_csv(path, most=50), loaded.load_csv(path)), (count, count))
                                self.assertTrue(session.scan() == loaded.scan())
                            self.assertEqual(bool(cuts), '"' in text or "\r" in text)
                            if module.BLOCK < 1_000 and text.endswith(after):
                                # After the quotes it is cut by lines again.
                                self.assertEqual(any(b"399," in one for one in cuts), False)
                    wrong = text + "\n\nx,y\n"
                    path.write_text(wrong, newline="")
                    line = wrong[: wrong.index("x,y")].count("\n") + 1
                    for module.BLOCK in (1, 30, 1_000, block):
                        with client.Session() as session:
                            session.table("id:int city:text")
                            fault = fault_of(lambda: session.put_csv(path, most=50))
                            self.assertEqual(type(fault), client.Refused)
                            self.assertIn(f"{path}, line {line}: column 1 'id' (int): 'x' is no", str(fault))
                            self.assertEqual((fault.taken, len(session.scan())), ((count + 1) // 50 * 50 - 1, (count + 1) // 50 * 50 - 1))
        finally:
            module.BLOCK, module._records = block, cut

    @both_ways
    def test_rows_come_back_from_a_csv_file_as_they_were(self):
        """Of more rows than a page has, with all that needs quotes, in the order of the tree. Scripts put no texts with line breaks."""
        client, module = betable(), sys.modules["betable.calls"]
        texts = ["", ".", "..", " x ", "a,b", '"', 'say "so"', "\ufeff", "\ufeffx", "æ", "\0", "end", "put 1", "'", "#", "\t"]
        breaks = ["a\nb", "\r\n", "\n\n", 'x"\n,"y', "a\rb", "\n"]
        page = module.CSV_ROWS
        with tempfile.TemporaryDirectory() as folder:
            path = Path(folder) / "rows.csv"
            try:
                for module.CSV_ROWS in (1, 7, page):
                    of_breaks = ("load_csv",) if client.Session is client.session.ScriptSession else ("load_csv", "put_csv")
                    for given, calls in ((texts, ("load_csv", "put_csv")), (texts + breaks, of_breaks)):
                        for columns, rows in (
                            ("t:text", [(text,) for text in given]),
                            ("t:text n:int f:flag b:bytes", [(text, place - 3, place % 2 == 1, bytes(range(place))) for place, text in enumerate(given)]),
                            ("n:int t:text", []),
                        ):
                            with client.Session() as session:
                                session.table(columns)
                                session.load(rows)
                                self.assertEqual(session.to_csv(path), len(rows))
                                wanted = session.scan()
                            for call in calls:
                                with self.subTest(columns=columns, call=call):
                                    with client.Session() as session:
                                        session.table(columns)
                                        self.assertEqual(getattr(session, call)(path), len(rows))
                                        self.assertEqual(session.scan(), wanted)
                            path.unlink()
            finally:
                module.CSV_ROWS = page
            path.write_bytes(b'id,city\r\n\r\n2,"a ""b"", c"\r\n\r\n\r\n1,Oslo\r\n3,\r\n')
            with client.Session() as session, client.Session() as again:
                for one in (session, again):
                    one.table("id:int city:text")
                session.index("by_city", on="city")
                self.assertEqual((session.put_csv(path), session.to_csv(f"{folder}/a.csv")), (3, 3))
                self.assertEqual(Path(folder, "a.csv").read_bytes(), b'id,city\n1,Oslo\n2,"a ""b"", c"\n3,""\n')
                self.assertEqual((again.put_csv(f"{folder}/a.csv"), again.scan()), (3, session.scan()))
                self.assertEqual(session.to_csv(Path(folder, "b.csv"), "by_city", ("O",), ("a",)), 1)
                self.assertEqual(Path(folder, "b.csv").read_bytes(), b"city,id\nOslo,1\n")

    @both_ways
    def test_a_csv_file_that_is_not_written_leaves_nothing(self):
        client = betable()
        with tempfile.TemporaryDirectory() as folder, client.Session() as session, client.Session() as other:
            path = Path(folder) / "rows.csv"
            session.table("id:int city:text")
            session.put([(number, "x") for number in range(9)])
            session.index("building", on="city", build=False)
            path.write_bytes(b"before\n")
            for call, kind, said in (
                (lambda: session.to_csv(path), FileExistsError, f"{path} is there already"),
                (lambda: session.to_csv(f"{folder}/none/rows.csv"), FileNotFoundError, "none/rows.csv.part"),
                (lambda: session.to_csv(f"{folder}/a", "none"), client.Refused, "no tree is named 'none'"),
                (lambda: session.to_csv(f"{folder}/b", "building"), client.Refused, "refused 11 Building"),
                (lambda: session.to_csv(f"{folder}/c", "primary", 5), client.RowTypeError, "a bound is a tuple"),
                (lambda: other.to_csv(f"{folder}/d"), client.Refused, "refused 3 NoTable"),
            ):
                with self.subTest(said=said):
                    fault = fault_of(call)
                    self.assertEqual(type(fault), kind)
                    self.assertIn(said, str(fault))
            self.assertEqual(([one.name for one in Path(folder).iterdir()], path.read_bytes()), (["rows.csv"], b"before\n"))

    def test_exceptions_can_be_pickled(self):
        client = betable()
        faults = [
            client.Refused(3, 6, "BadField", 2, [["none"]], reason="why", column="qty", value=2**63, row=7, taken=5),
            client.OutOfMemory(b"table 1\n", True, True, 4),
            client.RowTypeError("why", row=2, column="city", value=b"x", taken=1),
            client.RowValueError("why"),
            fault_of(lambda: filled().run("get 1\nscan primary\ngo\nnothing\n")),
        ]
        for fault in faults:
            again = pickle.loads(pickle.dumps(fault))
            self.assertEqual((type(again), str(again), again.__dict__), (type(fault), str(fault), fault.__dict__))
        self.assertEqual(pickle.loads(pickle.dumps(faults[-1])).replies[1].rows, [*ROWS])

    @both_ways
    def test_a_session_says_what_it_has(self):
        client = betable()
        session = client.Session()
        self.assertEqual(repr(session), "<betable.Session, open, without a table>")
        session.run("table 16 64 16 1 id:int city:text\n")
        session.put([(1, "a")])
        session.run("index by_city on city\n")
        self.assertEqual(repr(session), "<betable.Session, open, 2 columns, indexes: by_city (building)>")
        session.run("build by_city 10\n")
        self.assertEqual(repr(session), "<betable.Session, open, 2 columns, indexes: by_city (complete)>")
        session.close()
        self.assertEqual(repr(session), "<betable.Session, closed>")

    def test_a_missing_library_is_named(self):
        code = "import betable\nbetable.Session()"
        with tempfile.TemporaryDirectory() as folder:
            environment = {**os.environ, "PYTHONPATH": str(TOP / "clients/python"), "BETABLE_LIBRARY": folder}
            ended = subprocess.run([sys.executable, "-B", "-c", code], capture_output=True, text=True, env=environment)
        self.assertEqual(ended.returncode, 1)
        self.assertIn("FileNotFoundError", ended.stderr)
        for part in (folder, "bin/build_c", "BETABLE_LIBRARY"):
            self.assertIn(part, ended.stderr)

    @both_ways
    def test_scripts_of_any_form_are_cut_as_they_are_run(self):
        """Replies of `run`, beside those of a session that gets each command by itself: texts with line breaks and quotes, and words of replies inside of
        texts."""
        client = betable()
        texts = ["rows 1", "a\nrows 2\nrow x", 'q"\nsums 3\n"', "end\nend", "\nrow 1,x\nrows 1", "refused 1 Syntax"]
        with client.Session() as session, client.Session() as other:
            for one in (session, other):
                one.run("table 4 64 16 1 id:int city:text\n")
                one.load(list(enumerate(texts)))
                one.run("index by_city on city\nbuild by_city 10\n")
            commands = [
                "scan primary\ngo\n",
                "get 1\n",
                "nothing\n",
                "scan by_city\ngo\n",
                "image primary\n",
                "sums by_city 1 id\ngo\n",
                "get 9\n",
                "scan nope\ngo\n",
                "drain primary\n",
            ]
            dice = random.Random(3)
            for _ in range(50):
                chosen = dice.choices(commands, k=dice.randrange(6))
                script = "\n".join(chosen).encode()
                replies, places = session._replies_with_places(script)
                alone = [(reply, reply.startswith(b"refused ")) for reply in map(other.replies, chosen)]
                for some in (places, None):
                    self.assertEqual([found[1:] for found in client.replies.answered(client.language.commands(script), replies, some)], alone)
            rows = session.run("scan primary\ngo\n")[0].rows
            self.assertEqual((rows, session.scan()), (list(enumerate(texts)), list(enumerate(texts))))
            sums = session.run("sums by_city 1 id\ngo\n")[0].rows
            self.assertEqual((sums, sums), (session.sums("by_city", 1, "id"), [(1, texts.index(text), text) for text in sorted(texts)]))

    @both_ways
    def test_integers_of_numpy_are_ints(self):
        try:
            import numpy
        except ImportError:
            print("NumPy is not installed")
            return
        client = betable()
        with client.Session() as session:
            session.run("table 16 64 16 1 id:int city:text ok:flag\n")
            self.assertEqual(session.put([(numpy.int64(5), numpy.str_("a"), True)]), 1)
            self.assertEqual(session.scan(), [(5, "a", True)])
            for row in ((numpy.float64(5), "a", True), (5, "a", numpy.bool_(True)), (numpy.bool_(True), "a", True), (5, numpy.bytes_(b"a"), True)):
                self.assertEqual(type(fault_of(lambda: session.put([row]))), client.RowTypeError)

    def test_the_page_loads_a_large_file_as_it_says(self):
        """The lines of docs/HOW_TO.md on a file that is too large for a script, unchanged, on a small one."""
        shell, python = (TOP / "docs/HOW_TO.md").read_text().split("## A large CSV file\n")[1].split("\n## ")[0].split("```sh\n")[1].split("```python\n")
        betable()
        with tempfile.TemporaryDirectory() as folder:
            line = shell.split("\n```")[0].replace("tools/", f"{TOP}/tools/").replace("examples/", f"{TOP}/examples/")
            ended = subprocess.run(["sh", "-c", line], cwd=folder, capture_output=True, text=True)
            self.assertEqual(ended.returncode, 0)
            self.assertIn("table 16 1024 256 1 id:int city:text qty:int", ended.stdout + ended.stderr)
            code = python.split("```")[0] + "    print(len(session.scan()))\n"
            environment = {**os.environ, "PYTHONPATH": str(TOP / "clients/python")}
            ended = subprocess.run([sys.executable, "-B", "-c", code], cwd=folder, capture_output=True, text=True, env=environment)
            self.assertEqual((ended.returncode, ended.stdout, ended.stderr), (0, "12\n", ""))

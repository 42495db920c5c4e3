"""Tests of the calls on packed bytes, of the library for C and of the Python client: beside scripts, with bytes that are none of the layout, at random, with
memory refused, and under valgrind.

The bytes are those of an encoder of this file, and not of the client's. `BETABLE_FUZZ` is the number of random messages from Python and from C, 20,000 each
unless it is set, and `BETABLE_SEED` the seed. Under valgrind are a hundredth of those from C."""

import os
import random
import re
import struct
import subprocess
from textwrap import dedent
from unittest import TestCase

from .common import fault_of, SECONDS, TOP, needs
from .clients import betable, both_ways, build_extension, c_program, HERE, library, library_without_memory, worked_scripts

from betable import language
from betable.reasons import problem_of

DONE, NOT_OPEN, REFUSED = 0, 3, 5
SYNTAX, NO_TABLE, BAD_FIELD, BAD_LENGTH, NO_SUCH_TREE, BUILDING, NO_SUCH_COLUMN, NOT_INT = 1, 3, 6, 7, 8, 11, 15, 16
CALLS = ("betable_apply", "betable_get", "betable_page", "betable_last_page", "betable_sums", "betable_columns", "betable_usage", "betable_trees")
UNWRITTEN = (99, 98, 97)
PUT, DEL, UPS = range(3)
WORDS = ("set", "add", "max", "min")
FUZZ = int(os.environ.get("BETABLE_FUZZ", 20_000))
SEED = os.environ.get("BETABLE_SEED", "8")


# ---- the layout, as include/betable.h has it ----


def header(number, magic=b"BTV\x01"):
    return magic + struct.pack("<I", number)


def value_bytes(value):
    """A value by its own type."""
    if isinstance(value, bool):
        return bytes([value])
    if isinstance(value, int):
        return struct.pack("<q", value)
    encoded = value.encode() if isinstance(value, str) else value
    return bytes([len(encoded)]) + encoded


def values_bytes(values):
    return b"".join(map(value_bytes, values))


def put(*row):
    return bytes([PUT]) + values_bytes(row)


def delete(*key):
    return bytes([DEL]) + values_bytes(key)


def upsert(key, *operations):
    """Of the key, and of operations each of a code, a place and a value."""
    return bytes([UPS]) + values_bytes(key) + bytes([len(operations)]) + b"".join(bytes(one[:2]) + value_bytes(one[2]) for one in operations)


def changes(*found):
    return header(len(found)) + b"".join(found)


def from_values(*values):
    """The bound before the rows that begin with these values, or none."""
    return bytes([1, len(values)]) + values_bytes(values) if values else b"\0"


def after_row(*key):
    return b"\2" + values_bytes(key)


def page(limit, tree="primary", lower=b"\0", upper=b"\0"):
    return header(limit) + value_bytes(tree) + lower + upper


def sums(columns, tree="primary", column="qty", lower=b"\0", upper=b"\0"):
    return header(columns) + value_bytes(tree) + value_bytes(column) + lower + upper


class Bytes:
    """Bytes that are read from the front. What is not there raises the fault of their place."""

    def __init__(self, given):
        self.rest = given

    def take(self, count, fault):
        if len(self.rest) < count:
            raise Fault(*fault)
        found, self.rest = self.rest[:count], self.rest[count:]
        return found

    def value(self, kind, fault):
        if kind == "int":
            return struct.unpack("<q", self.take(8, fault))[0]
        number = self.take(1, fault)[0]
        if kind == "flag":
            if number > 1:
                raise Fault(*fault)
            return bool(number)
        found = self.take(number, fault)
        try:
            return found.decode() if kind == "text" else found
        except UnicodeDecodeError:
            raise Fault(*fault) from None

    def values(self, kinds, item):
        return tuple([self.value(kind, (BAD_FIELD, item, place)) for place, kind in enumerate(kinds, 1)])


class Fault(Exception):
    """Why packed bytes are refused: the number, the item and the column."""


def rows_of(test, reply, kinds):
    """The rows of a reply, and where each begins in it."""
    test.assertEqual(reply[:4], b"BTV\x01")
    found, places, bytes_left = [], [], Bytes(reply[4:])
    while bytes_left.rest:
        places.append(len(reply) - len(bytes_left.rest))
        found.append(bytes_left.values(kinds, 0))
    return found, places


def groups_of(test, reply, kinds):
    """The groups of a reply: of each the number of rows, the sum, and its values."""
    test.assertEqual(reply[:4], b"BTV\x01")
    found, bytes_left = [], Bytes(reply[4:])
    while bytes_left.rest:
        values = bytes_left.values(kinds, 0)
        numbers = [int.from_bytes(bytes_left.take(size, (BAD_FIELD, 0, 0)), "little", signed=is_signed) for size, is_signed in ((8, False), (16, True))]
        found.append((*numbers, *values))
    return found


def changes_of(given, kinds, keys):
    """The changes that bytes encode, for a table with these columns, each a list of its code, its row or key, and its operations."""
    read = Bytes(given)
    if read.take(4, (SYNTAX, 0, 0)) != b"BTV\x01":
        raise Fault(SYNTAX, 0, 0)
    count, found = struct.unpack("<I", read.take(4, (SYNTAX, 0, 0)))[0], []
    for item in range(1, count + 1):
        code = read.take(1, (BAD_FIELD, item, 0))[0]
        if code > UPS:
            raise Fault(BAD_FIELD, item, 0)
        values = read.values(kinds if code == PUT else kinds[:keys], item)
        found.append((code, values, operations_of(read, kinds, keys, item) if code == UPS else []))
    if read.rest:
        raise Fault(BAD_FIELD, count + 1, 0)
    return found


def operations_of(read, kinds, keys, item):
    count, found = read.take(1, (BAD_FIELD, item, 0))[0], []
    for _ in range(count):
        code, place = read.take(2, (BAD_FIELD, item, 0))
        at = (BAD_FIELD, item, place + 1)
        if code == 0 and place >= len(kinds):
            raise Fault(NO_SUCH_COLUMN, item, place + 1)
        if code > 3:
            raise Fault(BAD_FIELD, item, 0)
        found.append((code, place, read.value("int" if code else kinds[place], at)))
        if place < keys or place >= len(kinds):
            raise Fault(NO_SUCH_COLUMN, item, place + 1)
        if code and kinds[place] != "int":
            raise Fault(NOT_INT, item, place + 1)
    if not 1 <= count <= 16:
        raise Fault(BAD_LENGTH, item, 0)
    return found


# ---- sessions ----


class Raw:
    """The calls of the library on a session of the client, with bytes as they are."""

    def __init__(self, script=""):
        self.session = betable().Session()
        # Those that the client does not make are of the types of the others.
        library = self.session._bytes.library
        for name in CALLS:
            function = getattr(library, name)
            function.argtypes, function.restype = library.betable_apply.argtypes, library.betable_apply.restype
        if script:
            self.session.run(script)

    def call(self, name, given):
        """The status, the fault, and the bytes of the reply."""
        fault = self.session._bytes.fault
        fault.refusal, fault.item, fault.column = UNWRITTEN
        status = getattr(self.session._bytes.library, name)(self.session._bytes.handle, given, len(given), fault)
        return status, (fault.refusal, fault.item, fault.column), self.session._bytes.copied()

    def reply(self, name, given):
        """The reply of a call that is done."""
        status, fault, reply = self.call(name, given)
        if (status, fault) != (DONE, UNWRITTEN):
            raise AssertionError((name, given, status, fault))
        return reply

    def apply(self, *given):
        if reply := self.reply("betable_apply", changes(*given)):
            raise AssertionError(reply)

    def images(self):
        return self.session.replies("".join(f"image {tree.name}\n" for tree in self.session.trees()))

    def kinds(self, tree="primary"):
        return self.session.trees().tree(tree).kinds


SCHEMA = "table 4 3 2 1 id:int city:text ok:flag raw:bytes qty:int\nindex by_city on city include ok,qty\nbuild by_city 1\nindex large on qty where qty >= 6\nbuild large 1\n"
TEXTS = ["", "a", "a\0", "a\0\0", "ab", "b", "Oslo", "Bergen, west", '"', "æ", "\ufeffx", "\x7f", "x" * 255]
BINARIES = [b"", b"\0", b"\0\0", b"\xff", b"\xff" * 255, b"ab"]
INTS = [0, 1, -1, 2, 7, 2**63 - 1, -(2**63)]


def random_row(dice):
    return dice.randrange(-9, 30), dice.choice(TEXTS), dice.random() < 0.5, dice.choice(BINARIES), dice.choice(INTS)


def random_change(dice):
    """A message of the client, and the bytes of the same change."""
    client, row = betable(), random_row(dice)
    form = dice.random()
    if form < 0.5:
        return client.put(*row), put(*row)
    if form < 0.7:
        return client.delete(row[0]), delete(row[0])
    places = {"city": 1, "ok": 2, "raw": 3, "qty": 4}
    given = {}
    for word in dice.sample(WORDS, dice.randrange(1, 5)):
        names = dice.sample(sorted(places), dice.randrange(1, 5)) if word == "set" else ["qty"]
        given[word] = {name: row[places[name]] for name in names}
    operations = [(code, places[name], value) for code, word in enumerate(WORDS) for name, value in given.get(word, {}).items()]
    return client.upsert(row[0], **given), upsert(row[:1], *operations)


def filled(dice, count=40):
    raw = Raw(SCHEMA)
    raw.apply(*(put(*random_row(dice)) for _ in range(count)))
    return raw


# ---- beside scripts ----


class NotInValues(Exception):
    """What a command says is no value of its column, or has another number of them."""


def fields_of_line(line):
    """Those of the record that ends it."""
    raw, fault = language.record_of_line(line.rest or b"")
    if fault:
        raise NotInValues
    return language.fields(raw)


def values_of_fields(found, columns):
    """The values of fields of the first of these columns."""
    if len(found) > len(columns):
        raise NotInValues
    return [value_of_field(field, kind) for field, (_, kind) in zip(found, columns)]


def values_of_line(line, columns):
    """The values of the record that ends a line, one of each of these columns."""
    found = values_of_fields(fields_of_line(line), columns)
    if len(found) < len(columns):
        raise NotInValues
    return found


def value_of_field(field, kind):
    if problem_of(kind.decode(), field):
        raise NotInValues
    forms = {b"int": int, b"text": bytes.decode, b"flag": lambda flag: flag.lower() == b"true", b"bytes": lambda digits: bytes.fromhex(digits.decode())}
    return forms[kind](field)


def change_in_values(line, table):
    """The bytes of a message of a batch."""
    if line.word == b"put":
        return put(*values_of_line(line, table.columns))
    if line.word == b"del":
        return delete(*values_of_line(line, table.key))
    if line.word != b"ups":
        raise NotInValues
    count, found = len(table.key), fields_of_line(line)
    operations = [operation_in_values(table, *found[at : at + 3]) for at in range(count, len(found) - 2, 3)]
    if len(found) != count + 3 * len(operations):
        raise NotInValues
    return upsert(values_of_fields(found[:count], table.key), *operations)


def operation_in_values(table, word, name, field):
    if word.decode() not in WORDS or name not in table.names:
        raise NotInValues
    place = table.names.index(name)
    return WORDS.index(word.decode()), place, value_of_field(field, table.kinds[place] if word == b"set" else b"int")


def call_in_values(command, table):
    """The call on packed bytes that does what a command does, and its bytes."""
    words = command.head.text.split()
    if command.head.word == b"get":
        return "betable_get", header(1) + values_bytes(values_of_line(command.head, table.key))
    if not command.is_closed or len(words) != {b"batch": 1, b"scan": 2, b"sums": 4}.get(words[0]):
        raise NotInValues
    if words[0] == b"batch":
        return "betable_apply", changes(*(change_in_values(line, table) for line in command.messages()))
    tree, bounds = words[1].decode(), {b"from": b"\0", b"to": b"\0"}
    if [line.word for line in command.messages()] not in ([], [b"from"], [b"to"], [b"from", b"to"]) or not table.has_tree(words[1]):
        raise NotInValues
    for line in command.messages():
        bounds[line.word] = from_values(*values_of_fields(fields_of_line(line), table.key_of(words[1])))
    if words[0] == b"scan":
        return "betable_page", page(2**32 - 1, tree, *bounds.values())
    if not words[2].isdigit() or int(words[2]) == 0:  # In values, all rows are one group then.
        raise NotInValues
    return "betable_sums", sums(int(words[2]), tree, words[3].decode(), *bounds.values())


def replied(session, part):
    """Whether a command is refused, and the rows of its reply."""
    try:
        replies = session.run(part)
    except betable().Refused:
        return True, []
    return False, replies[0].rows if replies else []


class BesideScripts(TestCase):
    @both_ways
    def test_changes_by_packed_bytes_and_by_script_leave_equal_trees(self):
        """Those of rows and of indexes, of three tables that get the same changes: by script, by packed bytes, and by the client."""
        for seed in range(12):
            with self.subTest(seed=seed):
                dice = random.Random(seed)
                by_script, by_bytes, by_client = Raw(SCHEMA), Raw(SCHEMA), Raw(SCHEMA)
                for _ in range(15):
                    found = [random_change(dice) for _ in range(dice.choice([0, 1, 2, 5, 40]))]
                    by_script.session.run("batch\n" + "".join(str(message) for message, _ in found) + "end\n")
                    by_bytes.apply(*(given for _, given in found))
                    by_client.session.batch([message for message, _ in found])
                    images = by_script.images()
                    self.assertEqual((by_bytes.images(), by_client.images()), (images, images))

    def test_worked_scripts_in_values_leave_the_trees_that_they_leave(self):
        """Each batch, get, scan and sums of the worked scripts by packed bytes, if it can be said in values, beside the script: its rows or groups, whether it
        is refused, and the images of all trees after it. All other commands are run as they are."""
        said, refused = dict.fromkeys(CALLS, 0), 0
        for script, _, places in worked_scripts():
            by_script, by_bytes, text = Raw(), Raw(), script.read_bytes()
            for part in (text[start:end] for start, end in zip(places, places[1:])):
                with self.subTest(script=script.name, part=part):
                    is_refused, rows = replied(by_script.session, part)
                    table = by_script.session.trees()
                    try:
                        if not table:
                            raise NotInValues
                        name, given = call_in_values(next(language.commands(part)), table)
                    except NotInValues:
                        by_bytes.session.replies(part)
                        continue
                    status, _, reply = by_bytes.call(name, given)
                    said[name] += 1
                    refused += is_refused
                    self.assertEqual(status, REFUSED if is_refused else DONE)
                    if status == DONE and name != "betable_apply":
                        words = part.decode().split()
                        kinds = by_script.kinds("primary" if name == "betable_get" else words[1])
                        found = groups_of(self, reply, kinds[: int(words[2])]) if name == "betable_sums" else rows_of(self, reply, kinds)[0]
                        self.assertEqual(found, rows)
                    self.assertTrue(by_bytes.images() == by_script.images())
        enough = {"betable_apply": 100, "betable_get": 30, "betable_page": 50, "betable_sums": 20}
        self.assertEqual([said[name] > least for name, least in enough.items()] + [refused > 10], [True] * 5)

    @both_ways
    def test_rows_that_are_put_go_as_they_go_by_text(self):
        """Rows of the client, one after the other and many at once, beside the lines of a batch."""
        client, dice = betable(), random.Random(3)
        for _ in range(20):
            rows = [random_row(dice) for _ in range(dice.choice([1, 2, 3, 4, 50]))]
            by_script, by_client = Raw(SCHEMA), Raw(SCHEMA)
            by_script.session.run("batch\n" + "".join(str(client.put(*row)) for row in rows) + "end\n")
            self.assertEqual(by_client.session.put([dice.choice([tuple, list])(row) for row in rows]), len(rows))
            self.assertEqual(by_client.images(), by_script.images())

    @both_ways
    def test_gets_and_pages_are_those_of_scans(self):
        """Of random keys, bounds and limits, in the rows and in the indexes, by packed bytes and by the client."""
        for seed in range(6):
            dice = random.Random(seed)
            raw = filled(dice)
            session = raw.session
            for key in range(-12, 33):
                with self.subTest(key=key):
                    wanted = session.run(f"get {key}\n")[0].rows
                    reply = raw.reply("betable_get", header(1) + value_bytes(key))
                    self.assertEqual((rows_of(self, reply, raw.kinds())[0], session.get(key)), (wanted, wanted[0] if wanted else None))
            for tree in ("primary", "by_city", "large"):
                whole = session.run(f"scan {tree}\ngo\n")[0].rows
                count = len(session.trees().tree(tree).key)
                for _ in range(60):
                    bounds = [dice.choice(whole)[: dice.randrange(count + 1)] for _ in range(2)]
                    lines = "".join(f"{word} {betable().record(values)}\n" for word, values in zip(("from", "to"), bounds) if values)
                    wanted = session.run(f"scan {tree}\n{lines}go\n")[0].rows
                    for limit in (0, 1, 2, len(wanted), len(wanted) + 1, 2**32 - 1):
                        with self.subTest(tree=tree, limit=limit):
                            reply = raw.reply("betable_page", page(limit, tree, *(from_values(*values) for values in bounds)))
                            self.assertEqual(rows_of(self, reply, raw.kinds(tree))[0], wanted[:limit], bounds)
                            reply = raw.reply("betable_last_page", page(limit, tree, *(from_values(*values) for values in bounds)))
                            self.assertEqual(rows_of(self, reply, raw.kinds(tree))[0], wanted[::-1][:limit], bounds)
                            found = session.scan(tree, *(values or None for values in bounds), limit)
                            self.assertEqual(found, wanted[:limit], bounds)
                            found = session.scan(tree, *(values or None for values in bounds), limit, newest_first=True)
                            self.assertEqual(found, wanted[::-1][:limit], bounds)
                    self.assertEqual(session.scan(tree, *(values or None for values in bounds)), wanted)
                    self.assertEqual(list(session.iterate(tree, *(values or None for values in bounds), dice.randrange(1, 9))), wanted)

    def test_sums_are_those_of_scripts(self):
        """Of random bounds and numbers of columns, in the rows and in the indexes. Some totals need more than 64 bits."""
        largest = 0
        for seed in range(6):
            dice = random.Random(seed)
            raw = filled(dice, 80)
            session = raw.session
            for tree, columns in (("primary", ("id", "qty")), ("by_city", ("id", "qty")), ("large", ("qty", "id"))):
                with self.subTest(tree=tree):
                    whole, kinds = session.run(f"scan {tree}\ngo\n")[0].rows, raw.kinds(tree)
                    count = len(session.trees().tree(tree).key)
                    for _ in range(40):
                        bounds = [dice.choice(whole)[: dice.randrange(count + 1)] for _ in range(2)]
                        column, by = dice.choice(columns), dice.randrange(1, count + 1)
                        lines = "".join(f"{word} {betable().record(values)}\n" for word, values in zip(("from", "to"), bounds) if values)
                        wanted = session.run(f"sums {tree} {by} {column}\n{lines}go\n")[0].rows
                        found = groups_of(self, raw.reply("betable_sums", sums(by, tree, column, *(from_values(*values) for values in bounds))), kinds[:by])
                        self.assertEqual(found, wanted, (by, column, bounds))
                        largest = max([largest, *(abs(group[1]) for group in found)])
        self.assertGreater(largest, 2**64)

    def test_sums_after_a_row_begin_with_the_next_one(self):
        dice = random.Random(9)
        raw = filled(dice)
        for tree in ("primary", "by_city", "large"):
            whole, keys = raw.session.scan(tree), len(raw.session.trees().tree(tree).key)
            for place, row in enumerate(whole):
                with self.subTest(tree=tree, row=row):
                    reply = raw.reply("betable_sums", sums(keys, tree, "qty", after_row(*row[:keys])))
                    self.assertEqual([group[2:] for group in groups_of(self, reply, raw.kinds(tree)[:keys])], [later[:keys] for later in whole[place + 1 :]])

    def test_one_group_of_no_columns_counts_and_sums_the_rows_of_a_range(self):
        """Between bounds of each length and after a row, of ranges with rows and without, with a summed column and without one, which is no column of the
        table."""
        counts = set()
        for seed in range(6):
            dice = random.Random(seed)
            raw = filled(dice, dice.choice([0, 1, 40, 200]))
            for tree, columns in (("primary", ("id", "qty")), ("by_city", ("id", "qty")), ("large", ("qty", "id"))):
                whole, names = raw.session.scan(tree), [column.name for column in raw.session.columns(tree)]
                keys = len(raw.session.trees().tree(tree).key)
                for _ in range(40):
                    row = random_row(dice)
                    key = dice.choice([*whole, {"primary": row[:1], "by_city": (row[1], row[0]), "large": (row[4], row[0])}[tree]])[:keys]
                    bounds = [dice.choice([b"\0", from_values(*key[: dice.randrange(1, keys + 1)]), after_row(*key)]) for _ in range(2)]
                    rows = rows_of(self, raw.reply("betable_page", page(2**32 - 1, tree, *bounds)), raw.kinds(tree))[0]
                    counts.add(min(len(rows), 2))
                    for column in ("", *columns):
                        with self.subTest(tree=tree, column=column):
                            total = sum(found[names.index(column)] for found in rows) if column else 0
                            found = groups_of(self, raw.reply("betable_sums", sums(0, tree, column, *bounds)), [])
                            self.assertEqual(found, [(len(rows), total)], bounds)
        self.assertEqual(counts, {0, 1, 2})

    def test_groups_are_counted_without_a_summed_column(self):
        """By each number of columns, beside the groups with the sum of a column."""
        raw = filled(random.Random(11), 200)
        for tree, keys in (("primary", 1), ("by_city", 2), ("large", 2)):
            for columns in range(1, keys + 1):
                with self.subTest(tree=tree, columns=columns):
                    kinds = raw.kinds(tree)[:columns]
                    wanted = [(group[0], 0, *group[2:]) for group in groups_of(self, raw.reply("betable_sums", sums(columns, tree)), kinds)]
                    self.assertEqual(groups_of(self, raw.reply("betable_sums", sums(columns, tree, "")), kinds), wanted)

    @both_ways
    def test_a_page_after_a_row_repeats_and_loses_no_row(self):
        """Pages that begin with 2 and the first bytes of the last row, which a program has without decoding it."""
        dice = random.Random(1)
        raw = filled(dice)
        for tree in ("primary", "by_city", "large"):
            kinds, keys = raw.kinds(tree), len(raw.session.trees().tree(tree).key)
            wanted = raw.session.run(f"scan {tree}\ngo\n")[0].rows
            self.assertGreater(len(wanted), 5)
            for limit in (1, 2, 3, len(wanted) - 1, len(wanted), len(wanted) + 1):
                with self.subTest(tree=tree, limit=limit):
                    found, lower, pages = [], b"\0", 0
                    while True:
                        reply = raw.reply("betable_page", page(limit, tree, lower))
                        rows, places = rows_of(self, reply, kinds)
                        found, pages = found + rows, pages + 1
                        if len(rows) < limit:
                            break
                        end = places[-1] + len(values_bytes(rows[-1][:keys]))
                        lower = b"\2" + reply[places[-1] : end]
                    self.assertEqual((found, pages), (wanted, len(wanted) // limit + 1))
                    self.assertEqual(list(raw.session.iterate(tree, page=limit)), wanted)

    def test_a_last_page_before_a_row_repeats_and_loses_no_row(self):
        """Of trees of some hundred leaves, with messages in their buffers, in rows and in indexes. The upper bound is 1, the number of key columns and the first
        bytes of the last row, which a program has without decoding it."""
        dice = random.Random(3)
        raw = Raw(SCHEMA)
        for _ in range(40):
            raw.apply(*(put(dice.randrange(-999, 999), *random_row(dice)[1:]) for _ in range(20)))
            raw.apply(*(delete(dice.randrange(-999, 999)) for _ in range(20)))
        for tree in ("primary", "by_city", "large"):
            kinds, keys = raw.kinds(tree), len(raw.session.trees().tree(tree).key)
            wanted = raw.session.run(f"scan {tree}\ngo\n")[0].rows[::-1]
            self.assertGreater(len(wanted), 150)
            for limit in (1, 2, 7, 100, len(wanted) - 1, len(wanted), len(wanted) + 1):
                with self.subTest(tree=tree, limit=limit):
                    found, upper, pages = [], b"\0", 0
                    while True:
                        reply = raw.reply("betable_last_page", page(limit, tree, upper=upper))
                        rows, places = rows_of(self, reply, kinds)
                        found, pages = found + rows, pages + 1
                        if len(rows) < limit:
                            break
                        end = places[-1] + len(values_bytes(rows[-1][:keys]))
                        upper = bytes([1, keys]) + reply[places[-1] : end]
                    self.assertEqual((found, pages), (wanted, len(wanted) // limit + 1))

    @both_ways
    def test_keys_that_begin_alike_are_in_one_page_each(self):
        """Texts and bytes that are the beginning of another, zeros, the largest ints, and texts that only a load takes."""
        dice = random.Random(2)
        for kind, pool in (
            ("text", [*TEXTS, "\n", "a\r\n", "a\x01", "\0"]),
            ("bytes", [*BINARIES, b"\0\1", b"\xff\0"]),
            ("int", INTS),
            ("flag", [False, True]),
        ):
            for columns in (1, 2, 3):
                raw = Raw(f"table 4 3 2 {columns} " + " ".join(f"{name}:{kind}" for name in ("a", "b", "c")[:columns]) + " qty:int\n")
                raw.session.run("index by_qty on qty\nbuild by_qty 1\n")
                keys = {tuple(dice.choice(pool) for _ in range(columns)) for _ in range(30)}
                raw.session.load([(*key, dice.randrange(3)) for key in keys])
                for tree in ("primary", "by_qty"):
                    wanted = raw.session.run(f"scan {tree}\ngo\n")[0].rows
                    for size in (1, 2, len(keys)):
                        with self.subTest(kind=kind, tree=tree, size=size):
                            self.assertEqual(list(raw.session.iterate(tree, page=size)), wanted)
                    for row in wanted:
                        with self.subTest(kind=kind, tree=tree, row=row):
                            key = row[: len(raw.session.trees().tree(tree).key)]
                            reply = raw.reply("betable_page", page(9, tree, from_values(*key), after_row(*key)))
                            self.assertEqual(rows_of(self, reply, raw.kinds(tree))[0], [row])
                            reply = raw.reply("betable_page", page(99, tree, after_row(*key)))
                            self.assertEqual(rows_of(self, reply, raw.kinds(tree))[0], wanted[wanted.index(row) + 1 :])

    def test_columns_are_those_of_the_tables_and_indexes(self):
        raw = Raw("table 16 64 16 2 land:text id:int ok:flag raw:bytes qty:int\nindex by_qty on qty include ok\n")
        session = raw.session
        text = b"\1\4land\0\2id\2\2ok\4\3raw\0\3qty"
        self.assertEqual(raw.reply("betable_columns", header(1) + value_bytes("primary")), b"BTV\x01" + struct.pack("<q", 2) + text)
        # An index that is building has its columns too.
        self.assertEqual(raw.reply("betable_columns", header(1) + value_bytes("by_qty")), b"BTV\x01" + struct.pack("<q", 3) + b"\0\3qty\1\4land\0\2id\2\2ok")
        self.assertEqual(
            session.columns(), [("land", "text", True), ("id", "int", True), ("ok", "flag", False), ("raw", "bytes", False), ("qty", "int", False)]
        )
        found = session.columns("by_qty")
        self.assertEqual(
            (found, found[3].name, found[3].kind, found[3].is_key),
            ([("qty", "int", True), ("land", "text", True), ("id", "int", True), ("ok", "flag", False)], "ok", "flag", False),
        )

    def test_usage_is_that_of_the_image(self):
        """The rows of the leaves, the messages of the inner nodes, and the height, of trees that are empty, of one leaf, and of some levels."""
        seen = set()
        for seed in range(4):
            dice = random.Random(seed)
            raw = Raw(SCHEMA + "index begun on ok\n")
            for count in (0, 1, 2, 5, 40, 100):
                raw.apply(*(random_change(dice)[1] for _ in range(count)))
                for tree in (*TREES, "begun"):
                    with self.subTest(seed=seed, count=count, tree=tree):
                        lines = raw.session.replies(f"image {tree}\n").decode().splitlines()
                        counts = {word: sum(int(line.split()[-1]) for line in lines if line.split()[0] == word) for word in ("leaf", "inner")}
                        height = int(lines[0].split()[-1])
                        reply = raw.reply("betable_usage", header(1) + value_bytes(tree))
                        self.assertEqual(reply, b"BTV\x01" + struct.pack("<QQQ", counts["leaf"], counts["inner"], height))
                        self.assertEqual(raw.session.usage(tree), (counts["leaf"], counts["inner"], height))
                        seen.add((min(height, 3), counts["inner"] > 0))
        self.assertGreaterEqual(seen, {(1, False), (2, True), (3, True)})

    def test_trees_are_those_of_the_calls_on_each_of_them(self):
        """Their names, states and columns, and how much they hold if that is requested, of a table without rows and with several levels, and with indexes that
        are complete, building and dropped, one of them under the first bytes of another name."""
        for count in (0, 1, 100):
            raw = filled(random.Random(count), count)
            raw.session.run("index by on ok include qty,city\n")
            is_building = {"primary": False, "by_city": False, "large": False, "by": True}
            for change in ("", "drop large\n", "index later on qty,city where qty >= 6\n", "build by 100000\n", "build later 3\n", "drop by_city\n"):
                raw.session.run(change)
                words = change.split()
                if words[:1] == ["drop"]:
                    del is_building[words[1]]
                elif words[:1] == ["index"]:
                    is_building[words[1]] = True
                elif words[:1] == ["build"]:
                    is_building[words[1]] = not raw.session.trees().tree(words[1]).is_complete
                for number in (0, 1):
                    with self.subTest(count=count, change=change, number=number):
                        wanted = b"BTV\x01"
                        for tree, state in is_building.items():
                            columns = raw.reply("betable_columns", header(1) + value_bytes(tree))
                            wanted += value_bytes(tree) + bytes([state]) + columns[4:12] + struct.pack("<Q", len(raw.kinds(tree))) + columns[12:]
                            wanted += raw.reply("betable_usage", header(1) + value_bytes(tree))[4:] if number else b""
                        self.assertEqual(raw.reply("betable_trees", header(number)), wanted)
            self.assertEqual(is_building, {"primary": False, "by": False, "later": count == 100})


# ---- bytes that are none of the layout ----


ROW = (1, "Oslo", True, b"\0\xff", 30)
KEY_TOO_LONG = bytes([PUT]) + value_bytes(4) + b"\xff" + b"a" * 20
MALFORMED = [
    ("betable_apply", b"", (SYNTAX, 0, 0)),
    ("betable_apply", b"BTW\x01" + changes(put(*ROW))[4:], (SYNTAX, 0, 0)),
    ("betable_apply", b"BTV\x02" + changes(put(*ROW))[4:], (SYNTAX, 0, 0)),
    ("betable_apply", b"batch\nput 1,a\nend\n", (SYNTAX, 0, 0)),
    ("betable_apply", b"BTV\x01\x01\0\0", (SYNTAX, 0, 0)),
    ("betable_apply", header(1), (BAD_FIELD, 1, 0)),
    ("betable_apply", header(2**32 - 1) + put(*ROW), (BAD_FIELD, 2, 0)),
    ("betable_apply", changes(KEY_TOO_LONG), (BAD_FIELD, 1, 2)),
    ("betable_apply", changes(put(1, b"\xff", True, b"", 1)), (BAD_FIELD, 1, 2)),
    ("betable_apply", changes(put(1, b"\xed\xa0\x80", True, b"", 1)), (BAD_FIELD, 1, 2)),
    ("betable_apply", changes(put(1, b"\xc0\x80", True, b"", 1)), (BAD_FIELD, 1, 2)),
    ("betable_apply", changes(put(1, "æ".encode()[:1], True, b"", 1)), (BAD_FIELD, 1, 2)),
    ("betable_apply", changes(bytes([PUT]) + values_bytes((1, "a")) + b"\2" + values_bytes((b"", 1))), (BAD_FIELD, 1, 3)),
    ("betable_apply", changes(b"\3" + values_bytes(ROW)), (BAD_FIELD, 1, 0)),
    ("betable_apply", changes(put(*ROW), delete(2), b"\xff"), (BAD_FIELD, 3, 0)),
    ("betable_apply", changes(put(*ROW), delete(2), put(3, "a", True, b"", 1)[:-1]), (BAD_FIELD, 3, 5)),
    ("betable_apply", changes(upsert((1,), (4, 4, 1))), (BAD_FIELD, 1, 0)),
    ("betable_apply", changes(upsert((1,), (255, 4, 1))), (BAD_FIELD, 1, 0)),
    ("betable_apply", changes(upsert((1,), (0, 0, 1))), (NO_SUCH_COLUMN, 1, 1)),
    ("betable_apply", changes(upsert((1,), (1, 0, 1))), (NO_SUCH_COLUMN, 1, 1)),
    ("betable_apply", changes(upsert((1,), (0, 5, 1))), (NO_SUCH_COLUMN, 1, 6)),
    ("betable_apply", changes(upsert((1,), (2, 255, 1))), (NO_SUCH_COLUMN, 1, 256)),
    ("betable_apply", changes(upsert((1,), (1, 1, 1))), (NOT_INT, 1, 2)),
    ("betable_apply", changes(put(*ROW), upsert((1,), (1, 4, 1), (3, 2, 1))), (NOT_INT, 2, 3)),
    ("betable_apply", changes(upsert((1,), (3, 2, 1), (1, 0, 1))), (NOT_INT, 1, 3)),
    ("betable_apply", changes(upsert((1,))), (BAD_LENGTH, 1, 0)),
    ("betable_apply", changes(upsert((1,), *[(1, 4, 1)] * 17)), (BAD_LENGTH, 1, 0)),
    ("betable_apply", changes(bytes([UPS]) + value_bytes(1) + b"\1\0\2\2"), (BAD_FIELD, 1, 3)),
    ("betable_apply", changes(bytes([UPS]) + value_bytes(1) + b"\1\0\1\1\xff"), (BAD_FIELD, 1, 2)),
    ("betable_apply", changes(put(*ROW)) + b"\0", (BAD_FIELD, 2, 0)),
    ("betable_apply", changes() + put(*ROW), (BAD_FIELD, 1, 0)),
    ("betable_get", b"", (SYNTAX, 0, 0)),
    ("betable_get", header(0) + value_bytes(1), (SYNTAX, 0, 0)),
    ("betable_get", header(2) + value_bytes(1), (SYNTAX, 0, 0)),
    ("betable_get", header(1, b"BTV\0") + value_bytes(1), (SYNTAX, 0, 0)),
    ("betable_get", header(1), (BAD_FIELD, 1, 1)),
    ("betable_get", header(1) + value_bytes(1)[:-1], (BAD_FIELD, 1, 1)),
    ("betable_get", header(1) + value_bytes(1) + b"\0", (BAD_FIELD, 1, 0)),
    ("betable_page", b"", (SYNTAX, 0, 0)),
    ("betable_page", b"scan primary\ngo\n", (SYNTAX, 0, 0)),
    ("betable_page", header(1), (BAD_FIELD, 0, 0)),
    ("betable_page", header(1) + b"\x09primary\0\0", (NO_SUCH_TREE, 0, 0)),
    ("betable_page", header(1) + b"\x0aprimary\0\0", (BAD_FIELD, 0, 0)),
    ("betable_page", page(1, b"\xff"), (BAD_FIELD, 0, 0)),
    ("betable_page", page(1, "nothing"), (NO_SUCH_TREE, 0, 0)),
    ("betable_page", page(1, ""), (NO_SUCH_TREE, 0, 0)),
    ("betable_page", page(1, "begun"), (BUILDING, 0, 0)),
    ("betable_page", page(1, lower=b"", upper=b""), (BAD_FIELD, 1, 0)),
    ("betable_page", page(1, upper=b""), (BAD_FIELD, 2, 0)),
    ("betable_page", page(1, lower=b"\3"), (BAD_FIELD, 1, 0)),
    ("betable_page", page(1, upper=b"\3"), (BAD_FIELD, 2, 0)),
    ("betable_page", page(1, lower=b"\1", upper=b""), (BAD_FIELD, 1, 0)),
    ("betable_page", page(1, lower=b"\1\0"), (BAD_LENGTH, 1, 0)),
    ("betable_page", page(1, upper=b"\1\0"), (BAD_LENGTH, 2, 0)),
    ("betable_page", page(1, lower=from_values(1, 2)), (BAD_LENGTH, 1, 0)),
    ("betable_page", page(1, upper=from_values(1)[:-1]), (BAD_FIELD, 2, 1)),
    ("betable_page", page(1, upper=after_row(1)[:-1]), (BAD_FIELD, 2, 1)),
    ("betable_page", page(1, "by_city", after_row("Oslo")), (BAD_FIELD, 1, 2)),
    ("betable_page", page(1, "by_city", from_values(b"\xff")), (BAD_FIELD, 1, 1)),
    ("betable_page", page(1, "by_city", b"\0", from_values("Oslo", 1, True)), (BAD_LENGTH, 2, 0)),
    ("betable_page", page(1) + b"\0", (BAD_FIELD, 2, 0)),
    ("betable_sums", b"", (SYNTAX, 0, 0)),
    ("betable_sums", header(1), (BAD_FIELD, 0, 0)),
    ("betable_sums", header(1) + value_bytes("primary"), (BAD_FIELD, 0, 0)),
    ("betable_sums", sums(1, "nothing"), (NO_SUCH_TREE, 0, 0)),
    ("betable_sums", sums(1, "begun"), (BUILDING, 0, 0)),
    ("betable_sums", sums(1, column="nothing"), (NO_SUCH_COLUMN, 0, 0)),
    ("betable_sums", sums(0, column="nothing"), (NO_SUCH_COLUMN, 0, 0)),
    ("betable_sums", sums(0, column="city"), (NOT_INT, 0, 0)),
    ("betable_sums", sums(0, "begun", ""), (BUILDING, 0, 0)),
    ("betable_sums", sums(0, "nothing", ""), (NO_SUCH_TREE, 0, 0)),
    ("betable_sums", sums(2), (NO_SUCH_COLUMN, 0, 0)),
    ("betable_sums", sums(2, column=""), (NO_SUCH_COLUMN, 0, 0)),
    ("betable_sums", sums(2**32 - 1), (NO_SUCH_COLUMN, 0, 0)),
    ("betable_sums", sums(3, "by_city"), (NO_SUCH_COLUMN, 0, 0)),
    ("betable_sums", sums(1, "large", "city"), (NO_SUCH_COLUMN, 0, 0)),
    ("betable_sums", sums(1, column="city"), (NOT_INT, 0, 0)),
    ("betable_sums", sums(1, "by_city", "ok"), (NOT_INT, 0, 0)),
    ("betable_sums", sums(1, lower=b"\3"), (BAD_FIELD, 1, 0)),
    ("betable_sums", sums(1, upper=b"\1\0"), (BAD_LENGTH, 2, 0)),
    ("betable_sums", sums(1, upper=from_values(1)[:-1]), (BAD_FIELD, 2, 1)),
    ("betable_sums", sums(1, "by_city", lower=after_row("Oslo")), (BAD_FIELD, 1, 2)),
    ("betable_sums", sums(1) + b"\0", (BAD_FIELD, 2, 0)),
    ("betable_columns", b"", (SYNTAX, 0, 0)),
    ("betable_columns", header(0) + value_bytes("primary"), (SYNTAX, 0, 0)),
    ("betable_columns", header(1), (BAD_FIELD, 0, 0)),
    ("betable_columns", header(1) + b"\x08primary", (BAD_FIELD, 0, 0)),
    ("betable_columns", header(1) + value_bytes("primary") + b"\0", (BAD_FIELD, 1, 0)),
    ("betable_columns", header(1) + value_bytes("nothing"), (NO_SUCH_TREE, 0, 0)),
    ("betable_usage", b"", (SYNTAX, 0, 0)),
    ("betable_usage", header(2) + value_bytes("primary"), (SYNTAX, 0, 0)),
    ("betable_usage", header(1), (BAD_FIELD, 0, 0)),
    ("betable_usage", header(1) + b"\x08primary", (BAD_FIELD, 0, 0)),
    ("betable_usage", header(1) + value_bytes("primary") + b"\0", (BAD_FIELD, 1, 0)),
    ("betable_usage", header(1) + value_bytes("nothing"), (NO_SUCH_TREE, 0, 0)),
    ("betable_trees", b"", (SYNTAX, 0, 0)),
    ("betable_trees", header(2), (SYNTAX, 0, 0)),
    ("betable_trees", header(1, b"BTV\0"), (SYNTAX, 0, 0)),
    ("betable_trees", header(1)[:-1], (SYNTAX, 0, 0)),
    ("betable_trees", header(0) + b"\0", (BAD_FIELD, 1, 0)),
    ("betable_trees", header(1) + value_bytes("primary"), (BAD_FIELD, 1, 0)),
]
MALFORMED += [("betable_last_page", given, fault) for name, given, fault in MALFORMED if name == "betable_page"]


class OtherBytes(TestCase):
    @both_ways
    def test_sums_of_the_client_are_those_of_its_scripts(self):
        """Of each tree, by groups of each number of columns, of each column and of none, between bounds of each length, beside those of text; also sums over 64
        bits."""
        client = betable()
        for seed in range(4):
            dice = random.Random(seed)
            session = filled(dice, dice.choice([0, 1, 40, 400])).session
            for tree, most, columns in (("primary", 1, ["id", "qty"]), ("by_city", 2, ["id", "qty"]), ("large", 2, ["qty", "id"])):
                there = session.columns(tree)
                for _ in range(30):
                    row = dict(zip(["id", "city", "ok", "raw", "qty"], random_row(dice)))
                    bounds = [dice.choice([None, tuple(row[column.name] for column in there[: dice.randrange(1, most + 1)])]) for _ in range(2)]
                    given = tree, dice.randrange(most + 1), dice.choice([*columns, ""]), *bounds
                    found = session.sums(*given)
                    self.assertEqual(found, client.Calls.sums(session, *given), given)
                    self.assertLessEqual({tuple(map(type, group[:2])) for group in found}, {(int, int)})
            for call in (
                lambda: session.sums("primary", 2, "qty"), lambda: session.sums("by_city", 1, "city"), lambda: session.sums("by_city", 1, "raw"), lambda: session.sums("by_city", 1, "x"),
                lambda: session.sums("nothing", 1, "qty"), lambda: session.sums("large", 1, "qty", (2**63,)), lambda: session.sums("by_city", 0, "city"),
            ):  # fmt: skip
                faults = [fault_of(call), fault_of(lambda: client.Calls.sums(session, "by_city", 1, "qty"))]
                self.assertEqual((type(faults[0]), faults[1]), (client.Refused, None))
        session = client.Session()
        session.table("side:int id:int qty:int", keys=2)
        numbers = [2**63 - 1, -(2**63), 2**62, -1, 0]
        rows = [(side, number, numbers[side]) for side in range(5) for number in range(side * 700 + 3)]
        session.put(rows)
        self.assertEqual(session.sums("primary", 1, "qty"), [(side * 700 + 3, numbers[side] * (side * 700 + 3), side) for side in range(5)])
        self.assertEqual(session.sums("primary", 1, "qty", stop=(2,), start=(1,)), [(703, -(2**63) * 703, 1)])
        self.assertEqual(session.sums(tree="primary", columns=2, column="id", start=(4, 2_801)), [(1, number, 4, number) for number in (2_801, 2_802)])

    def test_malformed_bytes_are_refused_at_their_place_and_change_nothing(self):
        raw = filled(random.Random(4))
        raw.session.run("index begun on qty\n")
        before = raw.images()
        for number, (name, given, fault) in enumerate(MALFORMED):
            with self.subTest(number=number):
                self.assertEqual(raw.call(name, given), (REFUSED, fault, b""))
                self.assertEqual(raw.images(), before)
        raw.apply(put(*ROW))
        self.assertEqual(raw.session.get(1), ROW)

    def test_bytes_that_are_cut_are_refused_where_they_end(self):
        """A message with each kind of change and value, cut after each of its bytes: the place is that of what is not whole."""
        parts = [(b"BTV\x01" + struct.pack("<I", 4), (SYNTAX, 0, 0))]
        for item, code, values in ((1, PUT, ROW), (2, DEL, (2,)), (3, PUT, (3, "æ", False, b"", -1)), (4, UPS, (1,))):
            parts.append((bytes([code]), (BAD_FIELD, item, 0)))
            parts += [(value_bytes(value), (BAD_FIELD, item, place)) for place, value in enumerate(values, 1)]
        parts.append((b"\4", (BAD_FIELD, 4, 0)))
        for code, place, value in ((0, 1, "Bergen, west"), (0, 2, False), (0, 3, b"ab"), (1, 4, -5)):
            parts += [(bytes([code, place]), (BAD_FIELD, 4, 0)), (value_bytes(value), (BAD_FIELD, 4, place + 1))]
        whole = b"".join(part for part, _ in parts)
        raw = filled(random.Random(5))
        before, at = raw.images(), 0
        for part, fault in parts:
            for end in range(at, at + len(part)):
                with self.subTest(end=end):
                    self.assertEqual(raw.call("betable_apply", whole[:end]), (REFUSED, fault, b""))
            at += len(part)
            self.assertEqual(raw.images(), before, at)
        self.assertEqual(raw.reply("betable_apply", whole), b"")
        self.assertEqual([raw.session.get(key) for key in (1, 2, 3)], [(1, "Bergen, west", False, b"ab", 25), None, (3, "æ", False, b"", -1)])
        # The same for a page of an index, and for sums of it.
        bounds = [(b"\1\2", (BAD_FIELD, 1, 0)), (value_bytes("a"), (BAD_FIELD, 1, 1)), (value_bytes(7), (BAD_FIELD, 1, 2))]
        bounds += [(b"\2", (BAD_FIELD, 2, 0)), (value_bytes("z"), (BAD_FIELD, 2, 1)), (value_bytes(9), (BAD_FIELD, 2, 2))]
        for name, names in (("betable_page", ["by_city"]), ("betable_last_page", ["by_city"]), ("betable_sums", ["by_city", "qty"])):
            parts = [(header(2), (SYNTAX, 0, 0)), *((value_bytes(each), (BAD_FIELD, 0, 0)) for each in names), *bounds]
            whole, at = b"".join(part for part, _ in parts), 0
            for part, fault in parts:
                for end in range(at, at + len(part)):
                    with self.subTest(name=name, end=end):
                        self.assertEqual(raw.call(name, whole[:end]), (REFUSED, fault, b""))
                at += len(part)
            raw.reply(name, whole)

    @both_ways
    def test_calls_without_a_table_or_on_a_closed_session_are_refused(self):
        raw = Raw()
        for name in CALLS:
            with self.subTest(name=name):
                for given in (b"", changes(put(*ROW)), b"BTV"):
                    self.assertEqual(raw.call(name, given), (REFUSED, (NO_TABLE, 0, 0), b""))
        session, client = raw.session, betable()
        for call in (lambda: session.put([ROW]), lambda: session.get(1), lambda: session.scan(limit=1), lambda: session.iterate(), session.columns):
            fault = fault_of(call)
            self.assertEqual((type(fault), fault.number), (client.Refused, NO_TABLE))
        session.close()
        for name in CALLS:
            with self.subTest(name=name):
                self.assertEqual(raw.call(name, changes(put(*ROW))), (NOT_OPEN, UNWRITTEN, b""))
        for call in (lambda: session.put([ROW]), lambda: session.get(1), lambda: session.scan(limit=1), lambda: session.iterate(), session.columns):
            self.assertEqual(type(fault_of(call)), ValueError)


# ---- random bytes ----


def mutated(dice, given):
    """Bytes with a few of them changed, removed, doubled or added."""
    found = bytearray(given)
    for _ in range(dice.choice([0, 1, 1, 2, 5])):
        at = dice.randrange(len(found) + 1)
        form = dice.randrange(5)
        if form == 0:
            found[at : at + 1] = bytes([dice.choice([0, 1, 2, 3, 4, 5, 255, dice.randrange(256)])])
        elif form == 1:
            del found[at : at + dice.randrange(1, 9)]
        elif form == 2:
            found[at:at] = dice.randbytes(dice.randrange(1, 9))
        elif form == 3:
            found[at:at] = found[at : at + dice.randrange(20)]
        elif found:
            found[at % len(found)] ^= 1 << dice.randrange(8)
    return bytes(found)


def applied(rows, found):
    """The rows of a dict by their keys after changes."""
    for code, values, operations in found:
        if code == PUT:
            rows[values[0]] = values
        elif code == DEL:
            rows.pop(values[0], None)
        else:
            row = list(rows.get(values[0], (values[0], "", False, b"", 0)))
            for operation, place, value in operations:
                if operation == 1:
                    row[place] = max(-(2**63), min(2**63 - 1, row[place] + value))
                else:
                    row[place] = value if operation == 0 else max(row[place], value) if operation == 2 else min(row[place], value)
            rows[values[0]] = tuple(row)


# The calls whose replies follow from the rows.
PAGES = ("betable_page", "betable_last_page")
READS = ("betable_get", *PAGES, "betable_sums", "betable_columns")

# Of the trees of SCHEMA: the kinds of a row, the number of its key columns, the columns by name, and the rows, of those of the table.
TREES = {
    "primary": (["int", "text", "flag", "bytes", "int"], 1, ["id", "city", "ok", "raw", "qty"], lambda rows: rows),
    "by_city": (["text", "int", "flag", "int"], 2, ["city", "id", "ok", "qty"], lambda rows: [(row[1], row[0], row[2], row[4]) for row in rows]),
    "large": (["int", "int"], 2, ["qty", "id"], lambda rows: [(row[4], row[0]) for row in rows if row[4] >= 6]),
}


def order(values):
    """What the values of keys are compared by."""
    return tuple([value.encode() if isinstance(value, str) else value for value in values])


def bound_of(read, kinds, item):
    """The first values of a key, and whether the bound is after the row with them. None if there is no bound."""
    code = read.take(1, (BAD_FIELD, item, 0))[0]
    if code > 2:
        raise Fault(BAD_FIELD, item, 0)
    if code == 0:
        return None
    count = read.take(1, (BAD_FIELD, item, 0))[0] if code == 1 else len(kinds)
    if not 1 <= count <= len(kinds):
        raise Fault(BAD_LENGTH, item, 0)
    return order(read.values(kinds[:count], item)), code == 2


def is_before(row, bound):
    values, is_after = bound
    first = order(row[: len(values)])
    return first < values or is_after and first == values


def rows_between(read, tree, rows):
    """The rows of a tree between the two bounds that end the bytes, in order."""
    kinds, keys, _, of_tree = TREES[tree]
    lower, upper = bound_of(read, kinds[:keys], 1), bound_of(read, kinds[:keys], 2)
    if read.rest:
        raise Fault(BAD_FIELD, 2, 0)
    found = sorted(of_tree(rows.values()), key=order)
    return [row for row in found if not (lower and is_before(row, lower)) and (upper is None or is_before(row, upper))]


def grouped(found, columns, place):
    """Of each group of rows the number of rows, the sum, and the first values. Without columns there is one group, and without a place the sums are 0."""
    groups = {} if columns else {(): (0, 0)}
    for row in found:
        count, total = groups.get(row[:columns], (0, 0))
        groups[row[:columns]] = (count + 1, total if place is None else total + row[place])
    return [(*numbers, *first) for first, numbers in groups.items()]


def found_by(name, given, rows):
    """What a call that only reads finds among rows: rows, groups, or the number of key columns and the names of all."""
    read = Bytes(given)
    if read.take(4, (SYNTAX, 0, 0)) != b"BTV\x01":
        raise Fault(SYNTAX, 0, 0)
    number = struct.unpack("<I", read.take(4, (SYNTAX, 0, 0)))[0]
    if name in (*PAGES, "betable_sums"):
        names = [read.value("text", (BAD_FIELD, 0, 0)) for _ in range(1 if name in PAGES else 2)]
        found = rows_between(read, tree_of(names[0]), rows)
        if name in PAGES:
            return (found if name == "betable_page" else found[::-1])[:number]
        return grouped(found, number, place_to_sum(*names, number))
    if number != 1:
        raise Fault(SYNTAX, 0, 0)
    wanted = read.value("int", (BAD_FIELD, 1, 1)) if name == "betable_get" else read.value("text", (BAD_FIELD, 0, 0))
    if read.rest:
        raise Fault(BAD_FIELD, 1, 0)
    if name == "betable_columns":
        return TREES[tree_of(wanted)][1:3]
    return [rows[wanted]] if wanted in rows else []


def tree_of(name):
    if name not in TREES:
        raise Fault(NO_SUCH_TREE, 0, 0)
    return name


def place_to_sum(tree, column, number):
    """The place of the column to sum by groups of that many columns, or None without a name."""
    kinds, keys, names, _ = TREES[tree]
    if number > keys or column and column not in names:
        raise Fault(NO_SUCH_COLUMN, 0, 0)
    if not column:
        return None
    if kinds[names.index(column)] != "int":
        raise Fault(NOT_INT, 0, 0)
    return names.index(column)


def read_reply(test, name, given, reply):
    """What a reply has: rows, groups, or the number of key columns and the names of all."""
    if name == "betable_get":
        return rows_of(test, reply, TREES["primary"][0])[0]
    kinds, keys, names, _ = TREES[given[9 : 9 + given[8]].decode()]
    if name in PAGES:
        return rows_of(test, reply, kinds)[0]
    if name == "betable_sums":
        return groups_of(test, reply, kinds[: struct.unpack("<I", given[4:8])[0]])
    codes = {"int": 0, "text": 1, "flag": 2, "bytes": 4}
    test.assertEqual(reply, b"BTV\x01" + struct.pack("<q", keys) + b"".join(bytes([codes[kind]]) + value_bytes(each) for kind, each in zip(kinds, names)))
    return keys, names


def random_request(dice, name):
    """The bytes of a call that only reads."""
    if name == "betable_get":
        return header(1) + value_bytes(dice.randrange(-12, 33))
    tree = dice.choice([*TREES, "nothing"] if dice.random() < 0.2 else [*TREES])
    if name == "betable_columns":
        return header(1) + value_bytes(tree)
    row = random_row(dice)
    keys = {"by_city": (row[1], row[0]), "large": (row[4], row[0])}.get(tree, row[:1])
    bounds = [dice.choice([b"\0", from_values(*keys[: dice.randrange(1, len(keys) + 1)]), after_row(*keys)]) for _ in range(2)]
    if name in PAGES:
        return page(dice.choice([0, 1, 2, 5, 2**32 - 1]), tree, *bounds)
    return sums(dice.randrange(4), tree, dice.choice(["qty", "qty", "qty", "id", "city", "ok", "nothing", ""]), *bounds)


class RandomBytes(TestCase):
    def test_random_bytes_are_refused_or_answered_as_they_say(self):
        """Random and mutated bytes of each call. The reader of this file says of changes what they are, and of requests what they find, or why and where they
        are refused; rows are those of a dict. A call that is refused changes no row, and one that only reads changes none."""
        dice = random.Random(int(SEED))
        raw, rows, kinds, refused, done, read = Raw(SCHEMA), {}, TREES["primary"][0], 0, 0, 0
        everything = page(2**32 - 1)
        shown = raw.reply("betable_page", everything)
        for number in range(FUZZ):
            if dice.random() < 0.3:
                name = dice.choice(READS)
                given = random_request(dice, name if dice.random() < 0.9 else dice.choice(READS))
                given = mutated(dice, given) if dice.random() < 0.7 else given
                status, fault, reply = raw.call(name, given)
                try:
                    found = found_by(name, given, rows)
                    self.assertEqual((status, fault), (DONE, UNWRITTEN), (name, given))
                    self.assertEqual(read_reply(self, name, given, reply), found, (name, given))
                    read += 1
                except Fault as wanted:
                    self.assertEqual((status, fault, reply), (REFUSED, wanted.args, b""), (name, given))
            else:
                given = changes(*(random_change(dice)[1] for _ in range(dice.choice([1, 1, 2, 4]))))
                given = mutated(dice, given) if dice.random() < 0.95 else dice.randbytes(dice.randrange(40))
                try:
                    found, wanted = changes_of(given, kinds, 1), (DONE, UNWRITTEN, b"")
                    applied(rows, found)
                    done += 1
                except Fault as fault:
                    wanted = (REFUSED, fault.args, b"")
                    refused += 1
                self.assertEqual(raw.call("betable_apply", given), wanted, given)
                if wanted[0] == DONE:
                    shown = raw.reply("betable_page", everything)
                    if len(rows) > 60:
                        raw.apply(*map(delete, list(rows)[::2]))
                        rows = {key: row for place, (key, row) in enumerate(rows.items()) if place % 2}
                        shown = raw.reply("betable_page", everything)
                    self.assertEqual(rows_of(self, shown, kinds)[0], [rows[key] for key in sorted(rows)], given)
            self.assertTrue(raw.reply("betable_page", everything) == shown, given)
        self.assertEqual((refused > FUZZ // 5, done > FUZZ // 10, read > FUZZ // 10), (True, True, True))
        by_city = sorted((row[1].encode(), row[0], row[2], row[4]) for row in rows.values())
        self.assertEqual([(row[0].encode(), *row[1:]) for row in raw.session.scan("by_city")], by_city)


# ---- the client ----


REFUSED_CALLS = [
    lambda c, s: s.put([(4, "a", True, b"", 2**63)]),
    lambda c, s: s.put([(n, "a", True, b"" if n != 7 else bytes(256), 1) for n in range(9)]),
    lambda c, s: s.put([(4, "x" * 256, True, b"", 1)], most=5),
    lambda c, s: s.batch([c.upsert(1, set={"id": 2})]),
    lambda c, s: s.batch([c.delete(1), c.upsert(1, add={"city": "a"})]),
    lambda c, s: s.batch([c.upsert(1, add={"qty": 2**63})]),
    lambda c, s: s.batch([c.delete(2), c.upsert(1, **{word: {name: 1} for word in WORDS[1:] for name in ("qty", "id")})]),
    lambda c, s: s.get(2**63),
    lambda c, s: s.scan("nothing"),
    lambda c, s: s.scan("primary", (2**63,)),
    lambda c, s: s.scan("begun"),
    lambda c, s: s.scan("by_city", None, ("x" * 256,)),
]


class TheClient(TestCase):
    @both_ways
    def test_refusals_of_packed_bytes_are_those_of_text(self):
        """The exceptions of the client, with their fields, beside those of a client that goes by text."""
        client = betable()

        class ByText(client.Session):
            put, batch, get, sums = client.Calls.put, client.Calls.batch, client.Calls.get, client.Calls.sums
            _apply, scan = client.Calls._apply, client.Calls.scan

        packed, text = client.Session(), ByText()
        for session in (packed, text):
            session.run(SCHEMA + "index begun on qty\n")
            session.put([ROW])
        for number, call in enumerate(REFUSED_CALLS):
            with self.subTest(number=number):
                faults = [fault_of(lambda: call(client, session)) for session in (packed, text)]
                self.assertEqual(type(faults[0]), client.Refused)
                self.assertEqual((str(faults[0]), faults[0].__dict__), (str(faults[1]), faults[1].__dict__))
                self.assertEqual(packed.scan(), [ROW])

    @both_ways
    def test_limits_and_pages_are_checked(self):
        client, session = betable(), filled(random.Random(6)).session
        wrong = [
            (lambda: session.scan(limit="5"), TypeError, "the limit of a scan is an int, and not '5'"),
            (lambda: session.scan(limit=True), TypeError, "the limit of a scan is an int, and not True"),
            (lambda: session.scan(limit=-1), ValueError, "the limit of a scan is 0 or more, and not -1"),
            (lambda: session.iterate(page=0), ValueError, "the size of a page is 1 or more, and not 0"),
            (lambda: session.iterate(page=None), TypeError, "the size of a page is an int, and not None"),
            (lambda: session.iterate("by city"), ValueError, "a tree: "),
            (lambda: session.iterate("nothing"), client.Refused, "refused 8 NoSuchTree"),
            (lambda: session.iterate("primary", 1), client.RowTypeError, "a bound is a tuple, and not 1 of type int: write (1,)"),
            (lambda: session.scan("primary", (1, 2), limit=1), client.RowValueError, "2 values, and a bound has 1 (id)"),
            (lambda: session.scan("primary", (2**63,), limit=1), client.Refused, "refused 6 BadField"),
            (lambda: session.scan("nothing", limit=1), client.Refused, "refused 8 NoSuchTree"),
            (lambda: list(session.iterate("primary", (2**63,))), client.Refused, "refused 6 BadField"),
            (lambda: session.columns("nothing"), client.Refused, "refused 8 NoSuchTree: no tree is named 'nothing'"),
            (lambda: session.columns(5), TypeError, "a tree is named by a str, and not by 5"),
        ]
        for number, (call, kind, said) in enumerate(wrong):
            with self.subTest(number=number):
                fault = fault_of(call)
                self.assertEqual(type(fault), kind)
                self.assertIn(said, str(fault))
        self.assertEqual(session.scan(limit=10**30), session.scan())

    def test_rows_that_change_while_they_are_read_come_once(self):
        """Rows that are added after the last one that was read come, and those before it do not; a tree that is dropped ends the reading."""
        client = betable()
        with client.Session() as session:
            session.run("table 4 3 2 1 id:int qty:int\nindex by_qty on qty\nbuild by_qty 1\n")
            session.put((number, 0) for number in range(0, 20, 2))
            rows = session.iterate(page=2)
            found = [next(rows) for _ in range(4)]
            session.put([(1, 0), (9, 0)])
            session.batch([client.delete(10)])
            self.assertEqual([row[0] for row in [*found, *rows]], [0, 2, 4, 6, 8, 9, 12, 14, 16, 18])
            rows = session.iterate("by_qty", page=2)
            next(rows), next(rows)
            session.run("drop by_qty\nindex by_qty on qty\nbuild by_qty 100\n")
            self.assertIn("the tree 'by_qty' was dropped, or made again", str(fault_of(lambda: next(rows))))
            rows = session.iterate(page=1)
            next(rows)
        self.assertEqual(type(fault_of(lambda: next(rows))), ValueError)

    def test_out_of_memory_is_an_exception_of_each_call(self):
        client, session = betable(), filled(random.Random(7)).session
        before, library = session.scan(), library_without_memory(session)
        for call in (
            lambda: session.put([ROW]), lambda: session.batch([client.delete(1)]), lambda: session.get(1), lambda: session.scan(limit=1), session.columns,
            lambda: session.sums("by_city", 1, "qty"), lambda: session.scan_columns(), lambda: list(session.iterate()),
            lambda: session.scan(newest_first=True), lambda: next(session.iterate("by_city", newest_first=True)),
        ):  # fmt: skip
            fault = fault_of(call)
            self.assertEqual((type(fault), fault.replies, fault.is_lost, str(fault)), (client.OutOfMemory, b"", False, "betable: out of memory"))
        library.end(session)
        self.assertEqual(session.scan(), before)

    @both_ways
    def test_messages_of_many_shapes_keep_their_encoders_apart(self):
        """More shapes than are kept at a time, and values of the types that only text takes, after those of packed bytes."""
        client = betable()
        with client.Session() as session:
            names = [f"c{number}" for number in range(12)]
            session.run("table 16 64 16 1 id:int " + " ".join(f"{name}:int" for name in names) + "\n")
            wanted = [0] * 12
            for number in range(1_500):
                chosen = [place for place in range(12) if number >> place & 1] or [11]
                session.batch([client.upsert(1, add={names[place]: place + 1 for place in chosen})])
                wanted = [count + place + 1 if place in chosen else count for place, count in enumerate(wanted)]
            self.assertEqual(session.get(1), (1, *wanted))
        for kind, plain, other, stored in (
            ("text", "a", type("Text", (str,), {})("b"), "b"),
            ("int", 1, type("Int", (int,), {})(2), 2),
            ("bytes", b"a", bytearray(b"b"), b"b"),
        ):
            with client.Session() as session:
                session.run(f"table 16 64 16 1 id:int it:{kind}\n")
                for value, found in ((plain, plain), (other, stored), (plain, plain)):
                    session.put([(1, value)])
                    self.assertEqual((session.get(1), type(session.get(1)[1])), ((1, found), type(plain)))
                    session.batch([client.upsert(1, set={"it": value})])
                    self.assertEqual(session.scan(), [(1, found)])


# ---- C ----


PRINTED = """\
get: 2 Bergen, west 15
page:
1 Oslo 30
2 Bergen, west 15
page:
3 Oslo 7
last page:
3 Oslo 7
2 Bergen, west 15
sums:
Bergen, west: rows 1, sum 15
Oslo: rows 2, sum 37
rows: 3
refused 6, item 2, column 2
"""


def setUpModule():
    """The library, the extension of the Python client, and the programs that more than one test runs, before tests run side by side."""
    library()
    build_extension()
    random_packed(), refused_packed(), c_program(TOP / "clients/c/packed.c")


def random_packed():
    return c_program(HERE / "c/random_packed.c")


def refused_packed():
    return c_program(HERE / "c/refused_packed.c", "-Wl,--wrap=malloc,--wrap=realloc,--wrap=free")


class InC(TestCase):
    def test_random_bytes_in_c_are_read_within_their_ends(self):
        """A call that reads bytes before or after its message ends the program. The images of all trees are compared after each call."""
        ended = subprocess.run([random_packed(), SEED, str(FUZZ)], capture_output=True, text=True, timeout=SECONDS + FUZZ // 1_000)
        self.assertEqual((ended.returncode, ended.returncode and ended.stdout, ended.stderr), (0, 0, ""))
        counts = list(map(int, re.findall(r"\d+", ended.stdout)))
        self.assertEqual((sum(counts), min(counts) > FUZZ // 100), (FUZZ, True))

    def test_refused_memory_is_answered_by_packed_calls(self):
        """Each request of each call, alone and with those after it: what is returned, that the table is as before or lost, and that all memory is freed."""
        ended = subprocess.run([refused_packed()], capture_output=True, text=True, timeout=SECONDS)
        self.assertEqual((ended.returncode, ended.returncode and ended.stdout, ended.stderr), (0, 0, ""))

    @needs("valgrind")
    def test_valgrind_finds_nothing_in_packed_calls(self):
        """In the example, in random messages, and with memory refused."""
        words = ["valgrind", "-q", "--leak-check=full", "--errors-for-leak-kinds=all", "--error-exitcode=9"]
        for program in ([c_program(TOP / "clients/c/packed.c")], [random_packed(), SEED, str(FUZZ // 100)], [refused_packed()]):
            with self.subTest(program=program):
                ended = subprocess.run([*words, *program], capture_output=True, text=True, timeout=SECONDS + FUZZ // 100)
                self.assertEqual((ended.returncode, ended.stderr), (0, ""))

    def test_the_example_in_c_prints_its_rows(self):
        ended = subprocess.run([c_program(TOP / "clients/c/packed.c")], capture_output=True, text=True, timeout=SECONDS)
        self.assertEqual((ended.returncode, ended.stdout, ended.stderr), (0, PRINTED, ""))

    def test_the_page_has_a_part_of_the_example_in_c(self):
        """docs/C.md has some of its lines, unchanged, and what the whole of it prints."""
        code, after = (TOP / "docs/C.md").read_text().split("### Calls on packed bytes\n")[1].split("```c\n")[1].split("```\n", 1)
        self.assertIn(code, dedent((TOP / "clients/c/packed.c").read_text().split("int main(void) {\n")[1].removesuffix("}\n")))
        self.assertEqual(after.split("```text\n")[1].split("```")[0], PRINTED)

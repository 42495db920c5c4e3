"""Scripts at random. Script number n of a seed is always the same, however many are made and in whatever order.

    script(seed: int, number: int) -> bytes

Four kinds, in fixed shares: commands of the whole language over small trees, most of them valid; deep trees of few commands
with many rows; both of these and the stored scripts of this repository with bytes and lines changed; and noise. The stored
scripts are those of crates/test_scripts/data and of examples, so the changed ones depend on these.
"""

import random
import re
from functools import cache
from pathlib import Path

TOP = Path(__file__).resolve().parents[2]
STORED_FOLDERS = ["crates/test_scripts/data", "examples"]
LARGEST_CHANGED = 6_000
MOST_INDEXES = 16

MARK = b"\xef\xbb\xbf"
GREATEST_INT = 2**63 - 1
KINDS = [b"int", b"text", b"flag", b"bytes"]
INT_WORDS = [b"add", b"max", b"min"]
NAMES = [b"a", b"b", b"c", b"id", b"city", b"sold", b"on", b"where", b"include", b"primary", b"end", b"x_1", b"z" * 32]
TEXTS = [
    b"", b"a", b"aa", b"ab", b"b", b"ba", b" a", b"a ", b"x,y", b'q"q', b'"', b".", b"end", b"go", b"true", b"0", b"a\0", b"\0",
    b"\0b", "å".encode(), "\U0001f600".encode(), MARK + b"m", b"t" * 254, b"t" * 255, b"put 1",
]  # fmt: skip
BROKEN_TEXTS = [b"line\nbreak", b"\r", b"a\r\nb", b"\n"]
WRONG_TEXTS = [b"\xff", b"a\xc3", b"\xed\xa0\x80", b"\xc0\x80", b"t" * 256, "å".encode() * 128]
WRONG_INTS = [b"", b"-", b"+1", b" 1", b"1 ", b"x", b"1.0", b"9223372036854775808", b"-9223372036854775809", b"9" * 30, b"--1"]
BYTES = [b"", b"00", b"0001", b"ff", b"FF", b"fF", b"00ff", b"0a", b"61", b"6100", b"0" * 508, b"aB" * 255]
WRONG_BYTES = [b"0", b"0x", b"g0", b"0 ", b" 00", b"000", b"0" * 511, b"0" * 512, b"\xff\xff"]
WRONG_FLAGS = [b"", b"yes", b"1", b"true ", b"TRU"]
INTS = [b"-0", b"007", b"-1", b"%d" % GREATEST_INT, b"%d" % -GREATEST_INT, b"-9223372036854775808", b"0" * 30 + b"5"]
WRONG_SHAPES = [
    b"3 1 2", b"4 0 2", b"4 4097 2", b"4 1 1", b"4 1 1025", b"65 1 2", b"4 0b 2", b"4 1048577b 2", b"3 1b 2", b"4 1b 1",
    b"4 b 2", b"4 60B 2", b"4 60bb 2", b"4 b60 2", b"4 1234567890b 2", b"4b 1 2", b"4 1 2b", b"4 60 b 2",
]  # fmt: skip
TOKENS = [
    b"table", b"4", b"2", b"1", b"id:int", b"a:text", b"b:flag", b"load", b"batch", b"put", b"del", b"ups", b"end", b"get",
    b"scan", b"primary", b"from", b"to", b"go", b"sums", b"image", b"index", b"on", b"include", b"where", b"=", b"<", b">=",
    b"build", b"drop", b"drain", b"rebuild", b".", b"1,2", b"1,set,a,x", b"1,add,id,2", b"1,min,id,2", b"c:bytes", b"0A", b"i", b"id", b"id,a", b"0", b"65",
    b"999999999", b"1234567890", b"60b", b"60B", b"1048577b", b"b",
]  # fmt: skip
PIECES = [
    b"\n", b"\r", b"\r\n", b" ", b",", b'"', b'""', MARK, b"\0", b"\xff", b"-", b"0", b":", b"\n\n", b"\n.\n", b"\nend\n",
    b"\ngo\n",
]  # fmt: skip


class Maker:
    """Makes the lines of one script. It knows the columns and the indexes that a valid script would have at this place."""

    def __init__(self, dice, faults):
        self.dice, self.faults = dice, faults
        self.lines, self.columns, self.key_length, self.indexes = [], [], 1, {}
        self.span = dice.choice([3, 6, 12, 30])
        self.keys = []

    def happens(self, share):
        return self.dice.random() < share

    def is_faulty(self, share=1):
        """Whether a plausible fault comes here; `faults` is how often in this script."""
        return self.happens(self.faults * share)

    def number(self, low, high):
        return b"%d" % self.dice.randint(low, high)

    def add(self, line):
        self.lines.append(line + b"\n")

    # Fields and records

    def field(self, kind, is_load=False):
        if kind == b"int":
            if self.is_faulty():
                return self.dice.choice(WRONG_INTS)
            return self.dice.choice(INTS) if self.happens(0.06) else self.number(0, self.span)
        if kind == b"flag":
            if self.is_faulty():
                return self.dice.choice(WRONG_FLAGS)
            return self.dice.choice([b"true", b"false", b"True", b"FALSE"])
        if kind == b"bytes":
            return self.dice.choice(WRONG_BYTES if self.is_faulty() else BYTES[: 3 + self.span])
        if self.is_faulty():
            return self.dice.choice(WRONG_TEXTS)
        if is_load and self.happens(0.1):
            return self.dice.choice(BROKEN_TEXTS)
        return self.dice.choice(TEXTS[: 3 + self.span])

    def written(self, field):
        """A field as it may be in a record, in quotes if it has to be and sometimes if not."""
        needs = any(byte in field for byte in (b",", b"\r", b"\n")) or field.startswith(b'"')
        if self.is_faulty(0.3):
            return b'"' + field + b'"' + self.dice.choice([b"x", b'"', b" ", b"y\"z"])
        if needs or self.happens(0.08):
            return b'"' + field.replace(b'"', b'""') + b'"'
        return field

    def record(self, fields):
        """A record of fields. One that would be empty has quotes."""
        fields = list(fields)
        if self.is_faulty():
            self.dice.choice([lambda: fields.append(b"1"), lambda: fields.pop() if fields else None])()
        text = b",".join([self.written(field) for field in fields])
        if self.is_faulty(0.5):
            text = self.dice.choice([MARK, MARK + MARK, b" "]) + text
        return text or b'""'

    def fields(self, columns, is_load=False):
        return [self.field(kind, is_load) for _, kind in columns]

    def key_fields(self):
        """The fields of a key, often those of one that a message has had."""
        if self.keys and self.happens(0.5):
            return self.dice.choice(self.keys)
        self.keys.append(self.fields(self.columns[: self.key_length]))
        return self.keys[-1]

    def name(self):
        return self.dice.choice(NAMES)

    def column(self):
        return self.name() if self.is_faulty() else self.dice.choice(self.columns)[0]

    def column_list(self, most):
        count = most + 1 if self.is_faulty(0.5) else self.dice.choice([1, 1, 1, 2, 2, 3, most])
        return b",".join([self.column() for _ in range(count)])

    def tree(self):
        if self.is_faulty():
            return self.name()
        return self.dice.choice([b"primary", *self.indexes])

    def index_name(self):
        return self.dice.choice([*self.indexes]) if self.indexes and not self.is_faulty() else self.name()

    # Commands

    def table(self, shape):
        """Makes the table, mostly. If there are to be faults, a faulty line may be before it, or in its place."""
        count = self.dice.choice([1, 2, 3, 3, 4, 5, 8, 16])
        names = self.dice.sample(NAMES, min(count, len(NAMES))) + [b"more%d" % place for place in range(count - len(NAMES))]
        self.columns = [(name, self.dice.choice([*KINDS, b"int"])) for name in names]
        self.key_length = self.dice.randint(1, min(4, count))
        if self.is_faulty(3):
            self.add(self.faulty_table(shape))
        if not self.is_faulty(0.5):
            self.add(self.table_line(shape, self.key_length, self.columns))

    @staticmethod
    def table_line(shape, key_length, columns):
        return b" ".join([b"table", *shape, b"%d" % key_length, *map(b":".join, columns)])

    def faulty_table(self, shape):
        key_length, columns = self.key_length, self.columns
        if self.happens(0.4):
            key_length = self.dice.choice([0, 5, len(columns) + 1])
        if self.happens(0.4):
            columns = self.dice.choice([[], columns[:1] * 2, [(b"m%d" % place, b"int") for place in range(17)]])
        if self.happens(0.4):
            shape = self.dice.choice(WRONG_SHAPES).split()
        line = self.table_line(shape, key_length, columns)
        return with_token(self.dice, line) if self.happens(0.3) else line

    def load(self, count):
        header = b",".join([self.written(name) if self.happens(0.1) else name for name, _ in self.columns])
        if self.is_faulty():
            header = self.dice.choice([b"", header + b",x", header.upper(), MARK + MARK + header])
        records, known = [], set()
        for _ in range(count):
            fields = self.fields(self.columns, is_load=True)
            key = tuple(fields[: self.key_length])
            if key not in known or self.is_faulty():
                records.append(self.record(fields))
                # No line of a batch can have a key with a line break.
                if not any(byte in b"".join(key) for byte in b"\r\n"):
                    self.keys.append(list(key))
            known.add(key)
        break_ = self.dice.choice([b"\n", b"\n", b"\r\n", b"\r", b"\n\n"])
        text = break_.join([header, *records])
        self.add(b"load" + b" x" * self.is_faulty(0.2))
        self.add((MARK if self.happens(0.1) else b"") + text)
        self.add(b".")

    def operation(self):
        name, kind = self.dice.choice(self.columns[self.key_length :] or self.columns)
        if self.is_faulty():
            name = self.name()
        word = self.dice.choice(INT_WORDS) if kind == b"int" and self.happens(0.6) else b"set"
        if self.is_faulty():
            word = self.dice.choice([b"add", b"max", b"Min", b"Set", b"put", b""])
        return [word, name, self.field(kind)]

    def message(self):
        word = self.dice.choice([b"put", b"put", b"put", b"del", b"ups"])
        key = self.key_fields()
        if word == b"put":
            key = key + self.fields(self.columns[self.key_length :])
        elif word == b"ups" and len(self.columns) > self.key_length:
            for _ in range(17 if self.is_faulty(0.2) else self.dice.choice([1, 1, 1, 2, 3, 16])):
                key = key + self.operation()
        elif word == b"ups" and not self.is_faulty():
            word = b"del"
        line = word + b" " + self.record(key)
        return b" " * self.happens(0.03) + line

    def batch(self, count):
        self.add(b"batch" + b" x" * self.is_faulty(0.1))
        for _ in range(count):
            is_wrong = self.is_faulty(0.2)
            self.add(self.dice.choice([b"put", b"del ", b"from 1", b"x", b"put  "]) if is_wrong else self.message())
        self.add(self.dice.choice([b" end", b"end ", b"END", b"go", b""]) if self.is_faulty(0.1) else b"end")

    def empty(self):
        """Deletes all keys that were named, packs the tree, and loads again."""
        self.add(b"batch")
        for key in self.keys:
            self.add(b"del " + (b",".join([self.written(field) for field in key]) or b'""'))
        self.add(b"end")
        if self.happens(0.8):
            self.add(b"rebuild primary")
        self.keys = []
        for name in self.indexes:
            if self.happens(0.7):
                self.add(b"build " + name + b" 1")
        self.load(self.dice.randint(0, 10))

    def get(self):
        self.add(b"get " + self.record(self.key_fields()))

    def key_columns(self, name):
        """The columns of a tree's key."""
        key = self.columns[: self.key_length]
        if name in self.indexes:
            kinds = dict(self.columns)
            return [(column, kinds[column]) for column in self.indexes[name]] + key
        return key

    def bounds(self, name):
        columns = self.key_columns(name)
        words = [word for word in (b"from", b"to") if self.happens(0.5)]
        if self.is_faulty():
            words = self.dice.choice([[b"to", b"from"], [b"from", b"from"], [b"put"], [b"to", b"to"]])
        for word in words:
            fields = self.fields(columns[: self.dice.randint(1, len(columns))])
            self.add(word + b" " + self.record(fields))
        self.add(self.dice.choice([b"end", b"go ", b" go", b""]) if self.is_faulty(0.1) else b"go")

    def scan(self):
        name = self.tree()
        self.add(b"scan " + name)
        self.bounds(name)

    def sums(self):
        name = self.tree()
        length = len(self.key_columns(name))
        group_length = self.dice.choice([0, length + 1]) if self.is_faulty() else self.dice.randint(1, length)
        ints = [column for column, kind in self.columns if kind == b"int"]
        column = self.dice.choice(ints) if ints and not self.is_faulty() else self.column()
        self.add(b"sums %b %d %b" % (name, group_length, column))
        self.bounds(name)

    def image(self):
        self.add(b"image " + self.tree())

    def images(self):
        """The images of all trees, the surest way to see a difference."""
        for name in [b"primary", *self.indexes]:
            self.add(b"image " + name)

    def index(self):
        name, on = self.name(), self.column_list(4)
        line = b"index " + name + b" on " + on
        if self.happens(0.5):
            line += b" include " + self.column_list(8)
        if self.happens(0.5):
            column, kind = self.dice.choice(self.columns)
            column = self.name() if self.is_faulty() else column
            operator = self.dice.choice([b">", b"==", b""] if self.is_faulty(0.3) else [b"=", b"<", b">=", b">="])
            line += b" where " + column + b" " + operator + b" " + self.record([self.field(kind)])
        self.add(line)
        known = {column for column, _ in self.columns}
        is_valid = name != b"primary" and set(on.split(b",")) <= known and on.count(b",") < 4
        if is_valid and len(self.indexes) < MOST_INDEXES and name not in self.indexes:
            self.indexes[name] = on.split(b",")

    def build(self):
        number = self.dice.choice([0, 1, 2, 3, 5, 99, 999_999_999, 1_234_567_890]) if self.happens(0.7) else self.span
        self.add(b"build %b %d" % (self.index_name(), number))

    def build_whole(self):
        self.add(b"build %b 99999" % self.index_name())

    def drop(self):
        name = self.index_name()
        self.indexes.pop(name, None)
        self.add(b"drop " + name)

    def drain(self):
        self.add(b"drain " + self.tree())

    def rebuild(self):
        self.add(b"rebuild " + self.tree())

    def wrong(self):
        words = self.dice.choices(TOKENS, k=self.dice.randint(1, 6))
        self.add(b" ".join(words))


WEIGHTS = {
    "scan": 6, "sums": 6, "get": 4, "image": 4, "index": 7, "build": 9, "build_whole": 3, "drop": 1.5, "drain": 2, "rebuild": 2,
    "empty": 1, "wrong": 1,
}  # fmt: skip
OF_INDEXES = ("build", "build_whole", "drop")


def capacity(dice, counts, weights):
    """The word for how much a buffer holds: one of these counts of messages, or in some scripts one of these weights."""
    return b"%d" % dice.choice(counts) if dice.random() < 0.65 else b"%db" % dice.choice(weights)


def small_shape(dice):
    """The words of a table's shape."""
    buffer = capacity(dice, [1, 1, 2, 3, 4, 8], [1, 10, 25, 40, 60, 61, 80, 120, 200, 400])
    return b"%d" % dice.choice([4, 4, 4, 5, 6]), buffer, b"%d" % dice.choice([2, 2, 3, 4])


def small(dice):
    """Commands of the whole language over a small table."""
    maker = Maker(dice, dice.choice([0, 0, 0.004, 0.01, 0.03, 0.1]))
    if maker.is_faulty(2):
        maker.columns = [(b"id", b"int")]
        maker.wrong()
        getattr(maker, dice.choice(["scan", "sums", "get", "image", "index", "build", "drop", "drain", "rebuild"]))()
        maker.indexes = {}
    maker.table(small_shape(dice))
    if maker.happens(0.3):
        maker.load(dice.choice([0, 2, 5, 9, 20, 40]))
    for _ in range(dice.choice([3, 6, 10, 16, 24])):
        if maker.happens(0.4):
            maker.batch(dice.choice([0, 1, 1, 2, 3, 5, 8, 13, 20]))
        else:
            [command] = dice.choices([*WEIGHTS], [*WEIGHTS.values()])
            getattr(maker, command if maker.indexes or command not in OF_INDEXES else "index")()
        if maker.happens(0.4):
            maker.images()
    maker.images()
    return dressed(dice, maker.lines)


def dressed(dice, lines):
    """The lines of a script as one text, sometimes with other line breaks, with blank lines, or with spaces before lines."""
    manner = dice.choice(["plain", "plain", "plain", "carriage returns", "mixed", "cut"])
    if manner == "carriage returns":
        lines = [line.replace(b"\n", b"\r\n") for line in lines]
    elif manner == "mixed":
        lines = [line[:-1] + dice.choice([b"\n", b"\n", b"\r\n", b"\n \n", b"\n\n"]) for line in lines]
        lines = [b" " * (dice.random() < 0.05) + line for line in lines]
    elif manner == "cut" and lines:
        lines[-1] = lines[-1].removesuffix(b"\n") + dice.choice([b"", b"\r"])
    return b"".join(lines)


DEEP_TEXTS = [b"", b"x", b"yy", b"yy\0", b"z" * 25]


def deep(dice):
    """Few commands over many rows: deep trees, messages that stay pending on each level, and indexes of both."""
    maker = Maker(dice, 0)
    fanout, leaf = dice.choice([4, 4, 5]), dice.choice([2, 2, 2, 3])
    buffer = capacity(dice, [1, 1, 2, 3, 5, 20, 64, 4096], [1, 20, 50, 60, 100, 150, 500, 2_000, 1_048_576])
    key_kind = dice.choice([b"int", b"int", b"text"])
    maker.columns, maker.key_length = [(b"id", key_kind), (b"a", b"int"), (b"b", b"text")], 1
    maker.add(b"table %d %b %d 1 id:%b a:int b:text" % (fanout, buffer, leaf, key_kind))
    span = dice.choice([40, 150, 400, 1000])
    largest = dice.choice([30, 100, 100, 300])
    if maker.happens(0.5):
        maker.add(b"load\nid,a,b")
        for key in sorted(dice.sample(range(span), dice.randint(0, span))):
            maker.add(b"%d,%d,%b" % (key, key % 7, dice.choice(DEEP_TEXTS)))
        maker.add(b".")
    for name, words in ((b"i", b"on a"), (b"j", b"on b,a include a"), (b"k", b"on a,a include b where a >= 3")):
        if maker.happens(0.35):
            maker.indexes[name] = words
            maker.add(b"index " + name + b" " + words)
    for _ in range(dice.randint(1, 6)):
        deep_batch(maker, span, dice.randint(1, largest))
        for name in maker.indexes:
            if maker.happens(0.5):
                maker.add(b"build %b %d" % (name, dice.choice([1, 10, span // 2, span, 99_999])))
        if maker.happens(0.15):
            maker.add(dice.choice([b"drain ", b"drain ", b"rebuild "]) + maker.tree())
        if maker.happens(0.5):
            maker.images()
        if maker.happens(0.4):
            deep_read(maker, span)
    maker.images()
    return b"".join(maker.lines)


def deep_batch(maker, span, count):
    """A batch whose keys are random, or one after another, or in one narrow part of the keys."""
    dice = maker.dice
    start, width = dice.choice([(0, span), (0, span), (dice.randrange(span), 8), (dice.randrange(span), 40)])
    rises, deletes = maker.happens(0.2), dice.choice([0.05, 0.2, 0.7])
    maker.add(b"batch")
    for place in range(count):
        key = start + (place if rises else dice.randrange(width))
        if maker.happens(deletes):
            maker.add(b"del %d" % key)
        elif maker.happens(0.4):
            operation = b"add,a,%d" % dice.randint(-2, 3) if maker.happens(0.7) else b"set,b,%d" % dice.randrange(3)
            maker.add(b"ups %d,%b" % (key, operation))
        else:
            maker.add(b"put %d,%d,%b" % (key, dice.randrange(6), dice.choice(DEEP_TEXTS)))
    maker.add(b"end")


def deep_read(maker, span):
    """A scan or sums of the whole of a tree, or between bounds that may lie anywhere."""
    dice, name = maker.dice, maker.tree()
    maker.add(b"scan " + name if maker.happens(0.5) else b"sums %b 1 a" % name)
    width = span if name == b"primary" else 8
    for word in (b"from", b"to"):
        if maker.happens(0.5):
            maker.add(b"%b %d" % (word, dice.randrange(width)))
    maker.add(b"go")


def most_messages(dice):
    """A batch of as many messages as there may be, or one more, and sometimes a fault of less number among them."""
    count = dice.choice([65_535, 65_536, 65_537])
    lines = [b"del %d\n" % (place % 50) for place in range(count)]
    if dice.random() < 0.3:
        lines[dice.randrange(count)] = b"del x\n"
    return b"table 4 1 2 1 id:int\nbatch\n" + b"".join(lines) + b"end\nimage primary\n"


LARGE_TEXTS = [b"end", b"go", b".", b"end of it", b'"a,b"', b'""', b"x" * 40]


def large(dice):
    """Batches that workers read in pieces, and mostly in ranges of keys, each with a fault in a quarter of the cases, on a tree with or without an index."""
    first = [b"table 16 %b 64 1 id:int t:text\n" % dice.choice([b"64", b"4096b"])] + [b"index by_t on t\n", b"build by_t 9\n"] * dice.randrange(2)
    for _ in range(dice.choice([1, 2])):
        span = dice.choice([1, 50, 3_000, 1 << 40])
        lines = []
        for _ in range(dice.choice([5_000, 16_384, 17_000])):
            word, key = dice.choice([b"put", b"put", b"ups", b"del"]), dice.randrange(-span, span)
            text = {b"put": b",", b"ups": b",set,t,", b"del": b""}[word] + (dice.choice(LARGE_TEXTS) if word != b"del" else b"")
            lines.append(b"%b %d%b\n" % (word, key, text))
        if dice.random() < 0.25:
            lines[dice.randrange(-len(lines) // 4, len(lines))] = dice.choice([b"del x\n", b"put 1\n", b" end\n", b"del\n"])
        first += [b"batch\n", *lines, b"end\n"]
    first += [b"%b\n" % line for line in (b"sums primary 1 id", b"go", b"image primary", b"scan by_t", b"go")]
    return dressed(dice, first)


@cache
def stored():
    """The stored scripts that are not large, in the order of their names."""
    paths = [path for folder in STORED_FOLDERS for path in (TOP / folder).rglob("*")]
    paths = sorted(path for path in paths if path.with_name(path.name + ".stdout").is_file())
    texts = [path.read_bytes() for path in paths]
    return [text for text in texts if len(text) <= LARGEST_CHANGED]


def changed(dice):
    """A script with a few changes, which mostly leave the lines around them as they are."""
    text = small(dice) if dice.random() < 0.5 else dice.choice(stored())
    if dice.random() < 0.1:
        text = text[: dice.randint(0, len(text))] + dice.choice(stored())
    for _ in range(dice.choice([1, 1, 2, 3, 8])):
        text = dice.choice(CHANGES)(dice, text)
    return text


def with_other_byte(dice, text):
    if not text:
        return b"\0"
    place = dice.randrange(len(text))
    byte = text[place] ^ (1 << dice.randrange(8)) if dice.random() < 0.5 else dice.randrange(256)
    return text[:place] + bytes([byte]) + text[place + 1 :]


def with_piece(dice, text):
    place = dice.randint(0, len(text))
    return text[:place] + dice.choice(PIECES) + text[place + dice.choice([0, 0, 0, 1, 2]) :]


def with_other_number(dice, text):
    found = list(re.finditer(rb"\d+", text))
    if not found:
        return text
    number = dice.choice(found)
    other = dice.choice([b"0", b"1", b"2", b"4", b"%d" % (int(number[0][:18]) + 1), b"65536", b"1234567890", b"0" + number[0]])
    return text[: number.start()] + other + text[number.end() :]


def with_other_lines(dice, text):
    lines = text.splitlines(keepends=True)
    if not lines:
        return text
    first, second = dice.randrange(len(lines)), dice.randrange(len(lines))
    manner = dice.choice(["drop", "drop", "double", "swap", "move", "cut"])
    if manner == "drop":
        del lines[first]
    elif manner == "double":
        lines.insert(second, lines[first])
    elif manner == "swap":
        lines[first], lines[second] = lines[second], lines[first]
    elif manner == "move":
        lines.insert(second, lines.pop(first))
    else:
        del lines[first:]
    return b"".join(lines)


def with_token(dice, text):
    words = list(re.finditer(rb"[^ ,\r\n]+", text))
    if not words:
        return text
    word = dice.choice(words)
    return text[: word.start()] + dice.choice(TOKENS) + text[word.end() :]


CHANGES = [with_other_byte, with_piece, with_other_number, with_other_lines, with_other_lines, with_token]


def noise(dice):
    if dice.random() < 0.2:
        return dice.randbytes(dice.randint(0, 300))
    gaps = [b" ", b" ", b"\n", b"\n", b",", b"  ", b"\r\n"]
    words = b"".join([dice.choice(TOKENS) + dice.choice(gaps) for _ in range(dice.randint(0, 120))])
    return words if dice.random() < 0.3 else b"table 4 1 2 1 id:int a:text b:flag\n" + words


SHARES = {small: 580, deep: 80, changed: 290, noise: 50}
MOST_MESSAGES_SHARE, LARGE_SHARE = 1 / 10_000, 1 / 500


def script(seed, number):
    dice = random.Random(f"{seed} {number}")
    if (share := dice.random()) < MOST_MESSAGES_SHARE + LARGE_SHARE:
        return most_messages(dice) if share < MOST_MESSAGES_SHARE else large(dice)
    [make] = dice.choices([*SHARES], [*SHARES.values()])
    return make(dice)

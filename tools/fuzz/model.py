"""A plain model of the script language: which replies a script has, said a second time, from docs/SCRIPT.md and not from the code.

    replies(script: bytes) -> bytes

A table is a map from the code of a key to its row, and beside it trees that are flushed one child at a time; `get`, `scan` and
`sums` answer from the map and never from a tree, `image` prints the trees. Where docs/SCRIPT.md says what happens, the words
here are its words. No thread, no cut and no grain is known here: the replies of the program depend on none of them.
"""

import re
from bisect import bisect_left, bisect_right
from functools import partial
from operator import eq, ge, itemgetter, lt

NUMBERS = {
    "Syntax": 1, "Unfinished": 2, "NoTable": 3, "TableExists": 4, "BadSchema": 5, "BadField": 6, "BadLength": 7, "NoSuchTree": 8,
    "NameTaken": 9, "TooMany": 10, "Building": 11, "AlreadyComplete": 12, "NotEmpty": 13, "DuplicateKey": 14, "NoSuchColumn": 15,
    "NotInt": 16, "BadShape": 20,
}  # fmt: skip
NAMED_WITH_ITEM = ("BadField", "BadLength", "DuplicateKey")

FANOUTS, LEAVES = range(4, 65), range(2, 1025)
BUFFERS, BUFFERS_IN_BYTES = range(1, 4097), range(1, 1_048_577)
COLUMNS, KEY_COLUMNS = range(1, 17), range(1, 5)
MOST_MESSAGES, MOST_OPERATIONS, MOST_INDEXES, MOST_ON, MOST_INCLUDED = 65_536, 16, 16, 4, 8
LEAST_INT, GREATEST_INT = -(2**63), 2**63 - 1
MOST_TEXT_BYTES = 255
PRIMARY = b"primary"
MARK = b"\xef\xbb\xbf"

COMMA, QUOTE, LINE_BREAKS = ord(","), ord('"'), (ord("\r"), ord("\n"))


class Refused(Exception):
    """Why a command is refused. The item is 0 where there is none."""

    def __init__(self, name, item=0):
        self.name, self.item = name, item

    def reply(self):
        item = f" {self.item}" if self.name in NAMED_WITH_ITEM else ""
        return f"refused {NUMBERS[self.name]} {self.name}{item}".encode()


def refuse_least(faults):
    """Of several refusals, pairs of a name and an item, the one with the least number is answered, then the least item."""
    if faults:
        raise Refused(*min(faults, key=lambda fault: (NUMBERS[fault[0]], fault[1])))


def all_or_least(calls):
    """What calls give, or the least of their refusals; the item of each is its place among the calls, counted from 1."""
    given, faults = [], []
    for item, call in enumerate(calls, start=1):
        try:
            given.append(call())
        except Refused as refused:
            faults.append((refused.name, item))
    refuse_least(faults)
    return given


# Records and fields


def csv_records(text):
    """The records of a CSV text, each as the list of its fields.

    A quote opens a field only as its first byte. What follows a closing quote joins the field as it is, and a field
    that is never closed goes up to the end of the text.
    """
    if b'"' not in text:
        return [line.split(b",") for line in re.split(rb"[\r\n]", text) if line]
    records, fields, field = [], [], bytearray()
    state = "start"
    for byte in text:
        if state == "quoted":
            if byte == QUOTE:
                state = "after quote"
            else:
                field.append(byte)
        elif byte == QUOTE and state == "start":
            state = "quoted"
        elif byte == QUOTE and state == "after quote":
            field.append(byte)
            state = "quoted"
        elif byte == COMMA:
            fields.append(bytes(field))
            field.clear()
            state = "start"
        elif byte in LINE_BREAKS:
            if fields or state != "start":
                records.append([*fields, bytes(field)])
            fields, state = [], "start"
            field.clear()
        else:
            field.append(byte)
            state = "plain"
    if fields or state != "start":
        records.append([*fields, bytes(field)])
    return records


def fields_of_line(rest):
    """The fields of a record that ends a line; refused where it makes the line wrong."""
    record = rest.removeprefix(MARK)
    if not record or b"\r" in record or record.startswith(MARK):
        raise Refused("Syntax")
    return csv_records(record)[0]


def int_of(field):
    digits = field.removeprefix(b"-")
    if not digits.isdigit():
        return None
    digits = digits.lstrip(b"0") or b"0"
    if len(digits) > len(str(GREATEST_INT)):
        return None
    number = -int(digits) if field.startswith(b"-") else int(digits)
    return number if LEAST_INT <= number <= GREATEST_INT else None


def text_of(field):
    if len(field) > MOST_TEXT_BYTES:
        return None
    try:
        field.decode("utf-8")
    except UnicodeDecodeError:
        return None
    return field


def flag_of(field):
    return {b"true": True, b"false": False}.get(field.lower())


def bytes_of(field):
    if len(field) % 2 or len(field) > 2 * MOST_TEXT_BYTES or field.strip(b"0123456789abcdefABCDEF"):
        return None
    return bytes.fromhex(field.decode())


def code_of_bytes(value):
    return value.replace(b"\0", b"\0\xff") + b"\0\1"


READ = {b"int": int_of, b"text": text_of, b"flag": flag_of, b"bytes": bytes_of}
DEFAULT = {b"int": 0, b"text": b"", b"flag": False, b"bytes": b""}
PRINT = {
    b"int": lambda number: b"%d" % number,
    b"text": lambda text: text,
    b"flag": lambda flag: b"true" if flag else b"false",
    b"bytes": lambda value: value.hex().encode(),
}
CODE = {
    b"int": lambda number: (number + 2**63).to_bytes(8, "big"),
    b"text": code_of_bytes,
    b"flag": lambda flag: b"\1" if flag else b"\0",
    b"bytes": code_of_bytes,
}

# An int after an operation with a number.
MADE = {b"add": lambda old, number: max(LEAST_INT, min(GREATEST_INT, old + number)), b"max": max, b"min": min}


def values_of(kinds, fields):
    """The values of fields by their kinds; refused where they are not as many, or where a field is no value of its kind."""
    if len(fields) != len(kinds):
        raise Refused("BadLength")
    values = tuple([READ[kind](field) for kind, field in zip(kinds, fields)])
    if None in values:
        raise Refused("BadField")
    return values


def printed_field(field):
    if b"," in field or b'"' in field or b"\r" in field or b"\n" in field:
        return b'"' + field.replace(b'"', b'""') + b'"'
    return field


def printed_record(fields):
    return b'""' if fields == [b""] else b",".join([printed_field(field) for field in fields])


def printed_values(kinds, values):
    return printed_record([PRINT[kind](value) for kind, value in zip(kinds, values)])


def code_of(kinds, values):
    return b"".join([CODE[kind](value) for kind, value in zip(kinds, values)])


# Messages. Each is a tuple of the code of its key, its sign in an image, and what it carries: a put the new row, a del None,
# an upsert the pair of its operations and the row that a key without a row has before them.

PUT, DEL, UPSERT = b"+", b"-", b"~"
by_key = itemgetter(0)


def row_after(row, message):
    """What a key has after a message, where it had `row`, or None for no row."""
    _, sign, content = message
    if sign == PUT:
        return content
    if sign == DEL:
        return None
    operations, default_row = content
    values = list(default_row if row is None else row)
    for word, column, argument in operations:
        values[column] = argument if word == b"set" else MADE[word](values[column], argument)
    return tuple(values)


# Trees


def dealt(items, most):
    """The items in as few parts as hold at most `most` each, as even as can be, the longer ones first. No items are one part."""
    count = max(1, -(-len(items) // most))
    size, longer = divmod(len(items), count)
    parts, start = [], 0
    for place in range(count):
        end = start + size + (place < longer)
        parts.append(items[start:end])
        start = end
    return parts


class Leaf:
    """Rows by rising key, each a pair of its key and its value."""

    def __init__(self, rows):
        self.rows = rows


class Inner:
    """Children. The messages that are pending for all of them, one after the other, are its buffer."""

    def __init__(self, children):
        self.children = children


class Child:
    """A node below another, with the pivot before it; that of a first child is the one of the node above, and is never printed."""

    def __init__(self, pivot, node, pending):
        self.pivot, self.node, self.pending = pivot, node, pending


class Tree:
    """A tree of a shape. `kinds` are those of the values of its rows, which an image prints after the keys."""

    def __init__(self, shape, kinds):
        (self.fanout, self.buffer, self.is_in_bytes, self.leaf), self.kinds = shape, kinds
        self.root = Leaf([])

    def weight(self, message):
        """What a message weighs: a byte, its key's code and what it carries."""
        key, sign, content = message
        carried = 0
        if sign == PUT:
            carried = len(code_of(self.kinds, content))
        elif sign == UPSERT:
            carried = sum([2 + len(CODE[self.kinds[column]](argument)) for _, column, argument in content[0]])
        return 1 + len(key) + carried

    def load(self, messages):
        """How much of a buffer messages take: their number, or what they weigh."""
        return sum([self.weight(message) for message in messages]) if self.is_in_bytes else len(messages)

    def is_empty_leaf(self):
        return isinstance(self.root, Leaf) and not self.root.rows

    def pack(self, rows):
        """Builds the tree again of rows by rising key."""
        self.crown(self.leaves(b"", rows))

    def sink(self, messages):
        """Takes messages; those of one key are in order, the older first."""
        self.crown(self.absorbed(b"", self.root, sorted(messages, key=by_key)))

    def drain(self):
        self.crown(self.drained(b"", self.root, []))

    def crown(self, siblings):
        """Makes one root of siblings: they are dealt under inner nodes until only one is left."""
        while len(siblings) > 1:
            siblings = self.grouped([Child(pivot, node, []) for pivot, node in siblings])
        [(_, self.root)] = siblings

    def leaves(self, pivot, rows):
        """Leaves of these rows, each with its pivot: that of the place for the first, for others their least key."""
        parts = dealt(rows, self.leaf)
        return [(pivot if place == 0 else part[0][0], Leaf(part)) for place, part in enumerate(parts)]

    def grouped(self, children):
        """Inner nodes of these children, each with its pivot."""
        return [(part[0].pivot, Inner(part)) for part in dealt(children, self.fanout)]

    def absorbed(self, pivot, node, messages):
        """The siblings that take the place of a node to which messages come, each with its pivot."""
        if isinstance(node, Leaf):
            return self.leaves(pivot, rows_after(node.rows, messages))
        children = with_messages(node.children, messages)
        loads = [self.load(child.pending) for child in children]
        while sum(loads) > self.buffer:
            fullest = loads.index(max(loads))
            taken = children[fullest]
            parts = self.absorbed(taken.pivot, taken.node, taken.pending)
            children[fullest : fullest + 1] = [Child(pivot_of_part, part, []) for pivot_of_part, part in parts]
            loads[fullest : fullest + 1] = [0] * len(parts)
        return self.grouped(children)

    def drained(self, pivot, node, messages):
        """As `absorbed`, but every message goes down to its leaf."""
        if isinstance(node, Leaf):
            return self.leaves(pivot, rows_after(node.rows, messages))
        children = []
        for child in with_messages(node.children, messages):
            parts = self.drained(child.pivot, child.node, child.pending)
            children += [Child(pivot_of_part, part, []) for pivot_of_part, part in parts]
        return self.grouped(children)

    def height(self):
        node, height = self.root, 1
        while isinstance(node, Inner):
            node, height = node.children[0].node, height + 1
        return height

    def image(self, name, printed_operations):
        lines = [b"image %b height %d" % (name, self.height())]
        self.draw(self.root, b"", lines, printed_operations)
        return [*lines, b"end"]

    def draw(self, node, indent, lines, printed_operations):
        inside = indent + b"  "
        if isinstance(node, Leaf):
            lines.append(b"%bleaf %d" % (indent, len(node.rows)))
            for key, row in node.rows:
                lines.append(inside + b"= " + key.hex().encode() + self.behind_key(row))
            return
        pending = [message for child in node.children for message in child.pending]
        lines.append(b"%binner %d %d" % (indent, len(node.children), len(pending)))
        for key, sign, content in pending:
            line = inside + sign + b" " + key.hex().encode()
            if sign == PUT:
                line += self.behind_key(content)
            elif sign == UPSERT:
                line += b" " + printed_operations(content[0])
            lines.append(line)
        for place, child in enumerate(node.children):
            if place > 0:
                lines.append(inside + b"| " + child.pivot.hex().encode())
            self.draw(child.node, inside, lines, printed_operations)

    def behind_key(self, values):
        return b" " + printed_values(self.kinds, values) if values else b""


def rows_after(rows, messages):
    """The rows of a leaf after messages."""
    if not messages:
        return rows
    left = dict(rows)
    for message in messages:
        row = row_after(left.get(message[0]), message)
        if row is None:
            left.pop(message[0], None)
        else:
            left[message[0]] = row
    return sorted(left.items(), key=by_key)


def with_messages(children, messages):
    """Children like these, where each has the messages that belong to it after its older ones of the same key."""
    pivots = [child.pivot for child in children]
    shares = [[] for _ in children]
    for message in messages:
        shares[bisect_right(pivots, message[0]) - 1].append(message)
    return [
        Child(child.pivot, child.node, sorted(child.pending + share, key=by_key) if share else child.pending)
        for child, share in zip(children, shares)
    ]


# Tables


OPERATORS = {b"=": eq, b"<": lt, b">=": ge}


class Index:
    """An index: what it is of, how far it has been built, and its tree. `cover` is the last key that was read, or None."""

    def __init__(self, table, on, included, condition):
        self.table, self.on, self.included, self.condition = table, on, included, condition
        self.cover, self.is_complete = None, False
        self.tree = Tree(table.shape, [table.kinds[column] for column in included])

    def covers(self, key):
        return self.is_complete or (self.cover is not None and key <= self.cover)

    def entry(self, key, row):
        """The entry of a row, a pair of its key and its values, or None where the index is not for the row."""
        if row is None:
            return None
        if self.condition:
            column, operator, constant = self.condition
            if not OPERATORS[operator](row[column], constant):
                return None
        on = [CODE[self.table.kinds[column]](row[column]) for column in self.on]
        return b"".join(on) + key, tuple([row[column] for column in self.included])

    def entries(self):
        """The entries of all rows that it covers, by rising key."""
        found = [self.entry(key, row) for key, row in self.table.rows.items() if self.covers(key)]
        return sorted([entry for entry in found if entry], key=by_key)

    def messages(self, rows_before):
        """What a batch sends: `rows_before` has for each key that the batch names its row before the batch, or None."""
        sent = []
        for key, row in rows_before.items():
            if not self.covers(key):
                continue
            before, after = self.entry(key, row), self.entry(key, self.table.rows.get(key))
            if before == after:
                continue
            if before and not (after and after[0] == before[0]):
                sent.append((before[0], DEL, None))
            if after:
                sent.append((after[0], PUT, after[1]))
        return sent

    def columns_shown(self):
        """The columns of its rows as a scan prints them."""
        return [*self.on, *range(self.table.key_length), *self.included]

    def rows_shown(self):
        """Its rows as a scan prints them, each after its key."""
        columns = self.columns_shown()
        found = [(self.entry(key, row), row) for key, row in self.table.rows.items()]
        shown = [(entry[0], tuple([row[column] for column in columns])) for entry, row in found if entry]
        return sorted(shown, key=by_key)


class Table:
    """A map of rows, the tree of them, and indexes by their names, in order of creation."""

    def __init__(self, shape, key_length, names, kinds):
        self.shape, self.key_length, self.names, self.kinds = shape, key_length, names, kinds
        self.key_kinds = kinds[:key_length]
        self.rows = {}
        self.tree = Tree(shape, kinds)
        self.indexes = {}

    def key_of(self, row):
        return code_of(self.key_kinds, row)

    def sorted_rows(self):
        return sorted(self.rows.items())

    def tree_of(self, name):
        if name == PRIMARY:
            return self.tree
        return self.index_of(name).tree

    def index_of(self, name):
        if name not in self.indexes:
            raise Refused("NoSuchTree")
        return self.indexes[name]

    def apply(self, messages):
        """Applies a batch; gives for each index how many messages it was sent."""
        rows_before = {}
        for message in messages:
            key = message[0]
            row = self.rows.get(key)
            rows_before.setdefault(key, row)
            row = row_after(row, message)
            if row is None:
                self.rows.pop(key, None)
            else:
                self.rows[key] = row
        self.tree.sink(messages)
        counts = []
        for name, index in self.indexes.items():
            sent = index.messages(rows_before)
            index.tree.sink(sent)
            counts.append((name, len(sent)))
        return counts

    # Messages

    def message_of(self, word, fields):
        """The message of a line of a batch; refused with its least fault."""
        if word == b"ups":
            return self.upsert_of(fields)
        if word == b"del":
            return self.key_of(values_of(self.key_kinds, fields)), DEL, None
        row = values_of(self.kinds, fields)
        return self.key_of(row), PUT, row

    def upsert_of(self, fields):
        length = self.key_length
        count, rest = divmod(len(fields) - length, 3)
        if rest or count not in range(1, MOST_OPERATIONS + 1):
            raise Refused("BadLength")
        calls = [partial(values_of, self.key_kinds, fields[:length])]
        for start in range(length, len(fields), 3):
            calls.append(partial(self.operation_of, *fields[start : start + 3]))
        key, *operations = all_or_least(calls)
        defaults = [DEFAULT[kind] for kind in self.kinds[self.key_length :]]
        return self.key_of(key), UPSERT, (operations, (*key, *defaults))

    def operation_of(self, word, name, argument):
        if word != b"set" and word not in MADE:
            raise Refused("BadField")
        if name not in self.names or self.names.index(name) < self.key_length:
            raise Refused("NoSuchColumn")
        column = self.names.index(name)
        if word in MADE and self.kinds[column] != b"int":
            raise Refused("NotInt")
        value = READ[self.kinds[column]](argument)
        if value is None:
            raise Refused("BadField")
        return word, column, value

    def printed_operations(self, operations):
        fields = []
        for word, column, value in operations:
            fields += [word, self.names[column], PRINT[self.kinds[column]](value)]
        return printed_record(fields)

    # Ranges

    def range_of(self, rows, kinds, bounds):
        """The rows between two bounds, each a list of fields or None; `kinds` are those of the columns of the tree's key."""

        def values_of_bound(bound):
            return bound and values_of(kinds[: len(bound)], bound)

        first, last = all_or_least([partial(values_of_bound, bound) for bound in bounds])
        start = 0 if first is None else bisect_left(rows, code_of(kinds, first), key=by_key)
        end = len(rows) if last is None else bisect_left(rows, code_of(kinds, last), key=by_key)
        return rows[start:end]

    def shown(self, name, bounds):
        """What a scan of a tree between these bounds prints: the columns, how many of them are its key, and the rows."""
        if name == PRIMARY:
            return range(len(self.names)), self.key_length, self.range_of(self.sorted_rows(), self.key_kinds, bounds)
        index = self.index_of(name)
        columns = index.columns_shown()
        length = len(index.on) + self.key_length
        rows = self.range_of(index.rows_shown(), [self.kinds[column] for column in columns[:length]], bounds)
        if not index.is_complete:
            raise Refused("Building")
        return columns, length, rows


# Lines and blocks

NAME = rb"[a-z][a-z0-9_]{0,31}"
NUMBER = rb"[0-9]{1,9}"
LIST = rb"%b(?:,%b)*" % (NAME, NAME)


def form(pattern):
    return re.compile(b" *" + pattern.replace(b" ", b" +") + b" *", re.DOTALL)


# The pattern of the line of each command; a space matches one or more, and \x20 exactly one. The record of a `get` and
# the constant of an `index` follow exactly one, and go up to the end of the line.
FORMS = {
    b"table": form(rb"table (%b) (%b)(b?) (%b) (%b)((?: %b:(?:%b))+)" % (NUMBER, NUMBER, NUMBER, NUMBER, NAME, b"|".join(READ))),
    b"load": form(b"load"),
    b"batch": form(b"batch"),
    b"get": form(rb"get\x20(.*)"),
    b"scan": form(b"scan (%b)" % NAME),
    b"sums": form(b"sums (%b) (%b) (%b)" % (NAME, NUMBER, NAME)),
    b"image": form(b"image (%b)" % NAME),
    b"index": form(
        rb"index (%b) on (%b)(?: include (%b))?(?: where (%b) (=|<|>=)\x20(.*))?" % (NAME, LIST, LIST, NAME)
    ),
    b"build": form(b"build (%b) (%b)" % (NAME, NUMBER)),
    b"drop": form(b"drop (%b)" % NAME),
    b"drain": form(b"drain (%b)" % NAME),
    b"rebuild": form(b"rebuild (%b)" % NAME),
}
CLOSING_LINES = {b"load": b".", b"batch": b"end", b"scan": b"go", b"sums": b"go"}
BLOCK_LINE = re.compile(rb" *(put|del|ups|from|to) (.*)", re.DOTALL)


def first_word(line):
    return line.lstrip(b" ").partition(b" ")[0]


def block_lines(block, words):
    """The word and the record's fields of each line of a block that is not blank; refused if another word is there."""
    for piece in block:
        line = piece.removesuffix(b"\r")
        if first_word(line):
            found = BLOCK_LINE.fullmatch(line)
            if found is None or found[1] not in words:
                raise Refused("Syntax")
            yield found[1], fields_of_line(found[2])


def messages_of_block(block):
    return list(block_lines(block, (b"put", b"del", b"ups")))


def bounds_of_block(block):
    """The fields of the two bounds of a scan, None for one that is not there."""
    bounds = list(block_lines(block, (b"from", b"to")))
    if [word for word, _ in bounds] not in ([], [b"from"], [b"to"], [b"from", b"to"]):
        raise Refused("Syntax")
    return [dict(bounds).get(word) for word in (b"from", b"to")]


def parts_of_index(name, on, included, condition_column, operator, constant):
    """The name, the two lists, and the condition: a column, an operator and a field, or None."""
    condition = None
    if operator:
        fields = fields_of_line(constant)
        if len(fields) != 1:
            raise Refused("Syntax")
        condition = condition_column, operator, fields[0]
    return [name, on.split(b","), included.split(b",") if included else [], condition]


class Commands:
    """The commands of a script, one after the other."""

    def __init__(self, script):
        self.pieces = script.split(b"\n")
        if not self.pieces[-1]:
            self.pieces.pop()
        self.at = 0

    def next(self):
        """The first word and the parts of the next command, or None where none is left.

        Refused where the command is wrong or not finished. Where it has a block, this is read in any case.
        """
        while self.at < len(self.pieces):
            line = self.pieces[self.at].removesuffix(b"\r")
            self.at += 1
            word = first_word(line)
            if word in CLOSING_LINES:
                return word, self.parts_with_block(word, line, *self.block(CLOSING_LINES[word]))
            if word:
                return word, self.parts(word, line)
        return None

    def parts(self, word, line):
        found = FORMS[word].fullmatch(line) if word in FORMS else None
        if found is None:
            raise Refused("Syntax")
        if word == b"get":
            return [fields_of_line(found[1])]
        return parts_of_index(*found.groups()) if word == b"index" else found.groups()

    def parts_with_block(self, word, line, block, is_closed):
        parts = self.parts(word, line)
        if word == b"load":
            said = b"".join([piece + b"\n" for piece in block])
        else:
            said = messages_of_block(block) if word == b"batch" else bounds_of_block(block)
        if not is_closed:
            raise Refused("Unfinished")
        return [*parts, said]

    def block(self, closing_line):
        """The lines of a block up to its closing line, unchanged, and whether there is one."""
        start = self.at
        while self.at < len(self.pieces):
            self.at += 1
            if self.pieces[self.at - 1].removesuffix(b"\r") == closing_line:
                return self.pieces[start : self.at - 1], True
        return self.pieces[start:], False


# Commands


class Session:
    """What the commands of a script do. Each method is a command, and gives the lines of its reply."""

    def __init__(self):
        self.table = None

    def reply_to(self, word, parts):
        if word == b"table":
            return self.make_table(*parts)
        if self.table is None:
            raise Refused("NoTable")
        return getattr(self, word.decode())(*parts)

    def make_table(self, fanout, buffer, unit, leaf, key_length, columns):
        fanout, buffer, leaf, key_length = int(fanout), int(buffer), int(leaf), int(key_length)
        pairs = [column.split(b":") for column in columns.split()]
        names, kinds = [name for name, _ in pairs], [kind for _, kind in pairs]
        if self.table:
            raise Refused("TableExists")
        if len(names) not in COLUMNS or key_length not in KEY_COLUMNS or key_length > len(names):
            raise Refused("BadSchema")
        if len(set(names)) < len(names):
            raise Refused("BadSchema")
        if fanout not in FANOUTS or buffer not in (BUFFERS_IN_BYTES if unit else BUFFERS) or leaf not in LEAVES:
            raise Refused("BadShape")
        self.table = Table((fanout, buffer, bool(unit), leaf), key_length, names, kinds)
        return [b"table %d" % len(names)]

    def load(self, text):
        table = self.table
        records = csv_records(text.removeprefix(MARK))
        if not records or records[0] != table.names:
            raise Refused("BadSchema")
        rows = all_or_least([partial(values_of, table.kinds, fields) for fields in records[1:]])
        if not all(index.is_complete for index in table.indexes.values()):
            raise Refused("Building")
        if not table.tree.is_empty_leaf():
            raise Refused("NotEmpty")
        loaded = {}
        for item, row in enumerate(rows, start=1):
            if loaded.setdefault(table.key_of(row), row) is not row:
                raise Refused("DuplicateKey", item)
        table.rows = loaded
        table.tree.pack(table.sorted_rows())
        for index in table.indexes.values():
            index.tree.pack(index.entries())
        return [b"loaded %d" % len(rows)]

    def batch(self, lines):
        def check_number():
            if len(lines) > MOST_MESSAGES:
                raise Refused("TooMany")

        *messages, _ = all_or_least([*[partial(self.table.message_of, *line) for line in lines], check_number])
        sent = [b" %b:%d" % pair for pair in self.table.apply(messages)]
        return [b"batch %d" % len(messages) + b"".join(sent)]

    def get(self, fields):
        [key] = all_or_least([partial(values_of, self.table.key_kinds, fields)])
        row = self.table.rows.get(self.table.key_of(key))
        return [b"none" if row is None else b"row " + printed_values(self.table.kinds, row)]

    def scan(self, name, bounds):
        columns, _, rows = self.table.shown(name, bounds)
        kinds = [self.table.kinds[column] for column in columns]
        return [*[b"row " + printed_values(kinds, row) for _, row in rows], b"rows %d" % len(rows)]

    def sums(self, name, group_length, column_name, bounds):
        table = self.table
        columns, key_length, rows = table.shown(name, bounds)
        names = [table.names[column] for column in columns]
        group_length = int(group_length)
        if column_name not in names or group_length not in range(1, key_length + 1):
            raise Refused("NoSuchColumn")
        place = names.index(column_name)
        kinds = [table.kinds[column] for column in columns]
        if kinds[place] != b"int":
            raise Refused("NotInt")
        groups = {}
        for _, row in rows:
            count, total = groups.get(row[:group_length], (0, 0))
            groups[row[:group_length]] = count + 1, total + row[place]
        lines = [b"sum %d %d %b" % (*sums, printed_values(kinds, group)) for group, sums in groups.items()]
        return [*lines, b"sums %d" % len(groups)]

    def image(self, name):
        return self.table.tree_of(name).image(name, self.table.printed_operations)

    def index(self, name, on, included, condition):
        table, faults = self.table, []
        named = [*on, *included, *([condition[0]] if condition else [])]
        if condition and condition[0] in table.names:
            column, operator, field = table.names.index(condition[0]), *condition[1:]
            condition = column, operator, READ[table.kinds[column]](field)
            if condition[2] is None:
                faults.append(("BadField", 1))
        if name == PRIMARY or name in table.indexes:
            faults.append(("NameTaken", 0))
        if len(on) > MOST_ON or len(included) > MOST_INCLUDED or len(table.indexes) == MOST_INDEXES:
            faults.append(("TooMany", 0))
        if not set(named) <= set(table.names):
            faults.append(("NoSuchColumn", 0))
        refuse_least(faults)
        places = [[table.names.index(column) for column in columns] for columns in (on, included)]
        table.indexes[name] = Index(table, *places, condition)
        return [b"index " + name]

    def build(self, name, number):
        table, number = self.table, int(number)
        index = table.index_of(name)
        if index.is_complete:
            raise Refused("AlreadyComplete")
        left = [pair for pair in table.sorted_rows() if not index.covers(pair[0])]
        read = left[:number]
        entries = [entry for entry in [index.entry(*pair) for pair in read] if entry]
        index.tree.sink([(key, PUT, values) for key, values in entries])
        if read:
            index.cover = read[-1][0]
        index.is_complete = len(left) < number
        return [b"build %b %d %b" % (name, len(read), b"complete" if index.is_complete else b"building")]

    def drop(self, name):
        self.table.index_of(name)
        del self.table.indexes[name]
        return [b"dropped " + name]

    def drain(self, name):
        self.table.tree_of(name).drain()
        return [b"drained " + name]

    def rebuild(self, name):
        if name == PRIMARY:
            self.table.tree.pack(self.table.sorted_rows())
        else:
            index = self.table.index_of(name)
            index.tree.pack(index.entries())
        return [b"rebuilt " + name]


def replies(script):
    """The bytes that the program writes for a script."""
    session, commands, lines = Session(), Commands(script), []
    while True:
        try:
            command = commands.next()
            if command is None:
                return b"".join([line + b"\n" for line in lines])
            lines += session.reply_to(*command)
        except Refused as refused:
            lines.append(refused.reply())

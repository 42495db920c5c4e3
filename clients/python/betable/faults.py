"""Why a command of a script is refused: each fault of it, with its line, its column and the reason in a few words."""

import re
from collections.abc import Iterable, Iterator
from heapq import merge
from itertools import chain, islice
from typing import TypeAlias

from .forms import head_faults, no_block_word, record_reasons, spelled
from .language import (
    any_of, BLOCK_WORDS, BUFFERS, BUFFERS_IN_BYTES, Columns, Command, counted, FANOUTS, FIELD, fields, FORMS, has_line_breaks, index_of, KINDS, LEAVES, Line,
    MARK, MOST_COLUMNS, MOST_INCLUDED, MOST_INDEXES, MOST_KEY_COLUMNS, MOST_MESSAGES, MOST_ON, MOST_OPERATIONS, OPERATIONS, PRIMARY, printed_field,
    record_of_line, spans, visible,
)  # fmt: skip
from .reasons import SPACES_OF_BREAKS, Problem, Reason, empty_session, reason_of_value, value_fault
from .schema import Trees

# A line, or a record of a load, and its number, which the head line of a command has not.
NumberedLine: TypeAlias = tuple[int | None, bytes]

# The meaning of each refusal, by its number, and what to do about it.
MEANINGS = {
    1: "This is no command. See docs/SCRIPT.md for its form.",
    2: "The block was not closed before the script ended. Write its closing line.",
    3: "There is no table yet. A 'table' command has to come first, and has to be answered itself.",
    4: "There is a table already, and a run has one. Leave this command out, or run another script.",
    5: "The columns do not make a table: 1 to 16 of them with different names, and 1 to 4 key columns, the first ones.",
    6: "A field is no value of its column.",
    7: "The number of fields is wrong.",
    8: "The table itself is 'primary', which is not built or dropped.",
    9: "The name is taken.",
    10: f"This is over a limit, such as {MOST_MESSAGES:,} messages a batch. Divide it.",
    11: "An index that is building shows its rows once it has those of the whole table: repeat 'build NAME N', which reads the next N "
    "rows for it, until its reply ends with 'complete'. A load needs each index to be complete: in a table without rows 'build NAME 1' completes it.",
    12: "Leave this command out.",
    13: "A load needs a table whose tree of rows is one leaf without rows. Load before the first batch, or put the rows by batches. Where "
    "all rows were deleted, 'rebuild primary' makes the tree one leaf again.",
    14: "An earlier record of the load has the same key. Remove one of the two.",
    15: "No such column can be used here.",
    16: "The column is no int column, and only ints are added, or taken by max and min.",
    17: "Out of memory.",
    18: "The table was lost when memory ran out. Run the script again with more.",
    19: "The number of workers, or how their work is divided, is out of range.",
    20: "The ranges are: fanout 4 to 64, buffer 1 to 4096 messages, or with a 'b' after the number 1 to 1048576 bytes, leaf 2 to 1024.",
}

# The refusals whose meaning says what to do, even if the reason is known.
WITH_ADVICE = (8, 11, 12, 20)


class Fault:
    """A fault of a command: the reason, the place within a line, the line or None for the head line, and the bytes around it. Where one value is at fault,
    `column` is the name of its column, and `value` its field."""

    def __init__(
        self, reason: str, place: str = "", line: int | None = None, around: bytes | None = None, at: int = 0,
        column: bytes | None = None, value: bytes | None = None,
    ) -> None:  # fmt: skip
        self.reason, self.place, self.line, self.around, self.at = reason, place, line, around, at
        self.column, self.value = column, value

    def where(self) -> str:
        line = [] if self.line is None else [f"line {self.line}"]
        return ", ".join(line + [self.place] if self.place else line)

    def what(self) -> str:
        """The reason, and the bytes around the fault if the reason does not show them itself."""
        if self.around is None:
            return self.reason
        end = "¶" if self.at >= len(self.around) else ""
        return f"{self.reason}: {visible(self.around, 60, self.at)}{end}"


def column_place(columns: Columns, place: int) -> str:
    name, kind = columns[place]
    return f"column {place + 1} '{name.decode()}' ({kind.decode()})"


# ---- records ----

# A value of each kind.
EXAMPLES = {b"int": b"0", b"text": b"x", b"flag": b"true", b"bytes": b"00"}


class Records:
    """Records of a command, of which the engine says which are at fault, and why. Each ends a line that begins with a word, or else `word` says what it is. The
    engine is asked about some of them by a script: its head, the records and its end."""

    def __init__(self, table: Trees, head: bytes, end: bytes, word: bytes = b"", tree: bytes = PRIMARY) -> None:
        self.table, self.head, self.end, self.word, self.tree = table, head, end, word, tree
        self.engine = empty_session(table)

    def reason(self, records: list[bytes]) -> Reason | None:
        """Why one of the records is refused. They are in one line of a load, and their line breaks are spaces, so that no line is the one that ends it."""
        if self.word and has_line_breaks(records):
            records = [text.removesuffix(b"\n").translate(SPACES_OF_BREAKS) for text in records]
        return self.engine.explain(self.head + (b"\r" if self.word else b"\n").join(records) + self.end)

    def faults(self, records: Iterable[NumberedLine]) -> Iterator[Fault]:
        """Each fault of the records, in their order; of one record that comes first for which it is refused."""
        records = iter(records)
        while some := list(islice(records, MOST_MESSAGES)):
            for place, reason in self.reasons([text for _, text in some], 0):
                yield from self.faults_of(*some[place], reason)

    def reasons(self, records: list[bytes], first: int, known: Reason | None = None) -> Iterator[tuple[int, Reason]]:
        """The reason of each record at fault, with its place, by halves. The reason of all of them, which may be known, is that of one half too."""
        reason, middle = known or self.reason(records), len(records) // 2
        if reason and middle == 0:
            yield first, reason
        elif reason:
            is_first = reason.item <= middle
            yield from self.reasons(records[:middle], first, reason if is_first else None)
            yield from self.reasons(records[middle:], first + middle, None if is_first else reason._replace(item=reason.item - middle))

    def faults_of(self, number: int | None, text: bytes, reason: Reason | None) -> Iterator[Fault]:
        """The faults of one record. With right fields in the place of those at fault, the engine is asked for the next fault."""
        at = self.start(text)
        raw_fields = [text[at + start : at + end] for start, end in spans(text[at:])]
        for _ in range(len(raw_fields)):
            if reason is None:
                return
            fault, place, right = self.fault(number, text, reason)
            yield fault
            raw_fields[place : place + len(right)] = right
            reason = self.reason([text[:at] + b",".join(raw_fields)]) if right else None

    def start(self, text: bytes) -> int:
        """Where in its line a record begins."""
        return 0 if self.word else len(text) - len(record_of_line(text.partition(b" ")[2])[0])

    def fault(self, number: int | None, text: bytes, reason: Reason) -> tuple[Fault, int, list[bytes]]:
        """A fault of a record, its place among the fields, and right fields in its place: a value, a name or a whole operation, if one is known."""
        word, at, first = self.word or text.partition(b" ")[0], self.start(text), reason.field - 1
        columns = self.table.columns if word in (b"put", b"record", b"header") else self.table.key_of(self.tree)
        raw, values = text[at:], fields(text[at:])
        if reason.field == 0:
            of_text = columns if word in (b"put", b"del", b"record") else []
            return length_fault(raw, len(values), self.wanted(word, columns), number, text, at, of_text), 0, []
        value, start = values[first], at + spans(raw)[first][0]
        if word == b"header":
            name = self.table.names[first]
            return Fault(f"the header has '{visible(value, 40)}' there", f"column {reason.field} '{name.decode()}'", number), first, [name]
        if first < len(columns):
            name, kind = columns[first]
            what = reason_of_value(reason.problem, kind.decode(), value)
            return Fault(what, column_place(columns, first), number, None if value else text, start, name, value), first, [EXAMPLES[kind]]
        operation, part = divmod(first - len(columns), 3)
        word, name, value = values[first - part : first - part + 3]
        what, where = self.operation_fault(reason.problem, word, name, value)
        changed = (name, value) if part else (None, None)
        fault = Fault(what, f"operation {operation + 1}{where}", number, None if part == 2 and value else text, start, *changed)
        right = [[b"set", other, EXAMPLES[kind]] for other, kind in self.table.columns[len(columns) :]]
        return fault, first - part, right[0] if right else []

    def operation_fault(self, problem: Problem, word: bytes, name: bytes, value: bytes) -> tuple[str, str]:
        """What is wrong with an operation, and the place of its column if that is there."""
        columns, shown = dict(self.table.columns), f"'{visible(name, 40)}'"
        match problem:
            case Problem.NO_OPERATION:
                return f"'{visible(word, 40)}' is not {any_of(OPERATIONS)}", ""
            case Problem.NO_COLUMN:
                return f"{shown} is no column ({spelled(columns)})", ""
            case Problem.KEY_COLUMN:
                return f"{shown} is a column of the key, which no operation changes", ""
            case Problem.NO_INT_COLUMN:
                return f"{shown} is {columns[name].decode()}, and {word.decode()} needs an int", ""
        place = column_place(self.table.columns, self.table.names.index(name))
        return reason_of_value(problem, columns[name].decode(), value), f", {place}"

    def wanted(self, word: bytes, columns: Columns) -> str:
        """How many fields a record should have."""
        count, names = len(columns), spelled(name for name, _ in columns)
        match word:
            case b"ups":
                return f"an ups has {count} for the key ({names}) and then 3 for each operation, of which there are 1 to {MOST_OPERATIONS}"
            case b"from" | b"to":
                return f"a bound of {self.tree.decode()} has at most {count} ({names})"
            case b"header":
                return f"the table has {counted(count, 'column')}"
        return f"a {word.decode()} has {count} ({names})"


def length_fault(raw: bytes, count: int, wanted: str, line: int | None, around: bytes, at: int, columns: Columns) -> Fault:
    """A fault of the number of fields, with what may be the reason. Where there are more than the columns, a text may have lost its quotes."""
    if at == 0 and raw.strip(b" \t") == b".":
        return Fault(f"'{visible(raw, 20)}' does not close the block: a closing line is '.' exactly", line=line)
    other = next((mark for mark in (b";", b"\t", b"|") if mark in raw and b"," not in raw), None)
    hint = f"; fields are divided by commas, and not by '{visible(other)}'" if other else ""
    if count > len(columns) and b"text" in dict(columns).values():
        hint = "; put a text with a comma in double quotes" + (", as single quotes are letters" if b",'" in raw or raw.startswith(b"'") else "")
    return Fault(f"{counted(count, 'field')}, and {wanted}{hint}", line=line, around=around, at=at)


def load_records(table: Trees) -> Records:
    """Those of a load after its header."""
    return Records(table, b"load\n%b\r" % b",".join(table.names), b"\n.\n", b"record")


# ---- blocks ----


def batch_faults(lines: Iterable[Line], table: Trees) -> Iterator[Fault]:
    """The faults of the lines of a batch, in order, by a table or by none yet."""
    wrong, others = [], []
    for line in lines:
        if line.word not in BLOCK_WORDS[b"batch"]:
            wrong.append(Fault(no_block_word(line, b"batch"), line=line.number))
        elif line.rest is None:
            wrong.append(Fault(f"no record follows '{line.word.decode()}'", line=line.number))
        elif reason := record_of_line(line.rest)[1]:
            wrong.append(Fault(reason, line=line.number, around=line.text, at=len(line.word) + 1))
        else:
            others.append((line.number, line.text))
    found = Records(table, b"batch\n", b"\nend\n").faults(others) if table else []
    return iter(merge(wrong, found, key=lambda fault: fault.line or 0))


def number_faults(command: Command) -> Iterator[Fault]:
    """Why a batch has too many messages: the first one that is over the limit."""
    if command.block.count(b"\n") >= MOST_MESSAGES and len(lines := command.messages()) > MOST_MESSAGES:
        reason = f"message {MOST_MESSAGES + 1:,} of {len(lines):,}, and a batch has at most {MOST_MESSAGES:,}"
        yield Fault(reason, line=lines[MOST_MESSAGES].number)


def load_faults(command: Command, table: Trees) -> Iterator[Fault]:
    """The faults of the records of a load, after its header."""
    return load_records(table).faults(islice(command.records(), 1, None))


def header_faults(command: Command, table: Trees) -> list[Fault]:
    """Why the header of a load is none."""
    number, raw = next(command.records(), (None, b""))
    header = Records(table, b"load\n" + MARK, b"\n.\n", b"header")
    reason = header.reason([raw])
    if reason and reason.problem == Problem.NO_HEADER:
        return [Fault("the block has no header")]
    if reason and reason.problem == Problem.SECOND_MARK:
        return [Fault("a second byte order mark is before the header", line=number, around=raw)]
    return list(header.faults_of(number, raw, reason))


def key_pattern(key: Columns) -> re.Pattern[bytes]:
    """A pattern of a record, with its key as a group if the key is written as it is printed, so that no two groups are the same key."""
    printed, field = b",".join(KINDS[kind].as_printed for _, kind in key), FIELD.pattern
    rest = rb'(?:,[^"\r\n]*(?=[\r\n]|\Z)|(?:,%b)*)' % field
    return re.compile(rb"(?=[^\r\n])(?:(%b)(?=[,\r\n]|\Z)%b|%b(?:,%b)*)" % (printed, rest, field, field))


def printed_key(raw: bytes, key: Columns) -> bytes:
    return b",".join([printed_field(KINDS[kind].printed(field)) for (_, kind), field in zip(key, fields(raw))])


def key_faults(command: Command, table: Trees) -> Iterator[Fault]:
    """The records of a load, whose fields have no fault, whose keys earlier ones have, with their items."""
    block, pattern = command.block, key_pattern(table.key)
    at = len(MARK) if block.startswith(MARK) else 0
    keys: list[bytes] = pattern.findall(block, at)
    if b"" in keys[1:]:
        keys = [found[1] or (printed_key(found[0], table.key) if item else b"") for item, found in enumerate(pattern.finditer(block, at))]
    distinct: set[bytes] = set()
    again: set[bytes] = set()
    for key in islice(keys, 1, None):
        (again if key in distinct else distinct).add(key)
    first: dict[bytes, tuple[int, int]] = {}
    number, at = command.head.number + 1, 0
    for item, found in enumerate(pattern.finditer(block, at) if again else ()):
        if item and keys[item] in again:
            number, at = number + block.count(b"\n", at, found.start()), found.start()
            line = first.setdefault(keys[item], (item, number))
            if line[0] != item:
                yield Fault(f"key {visible(keys[item])} in line {number} is that of line {line[1]} too", f"14 DuplicateKey {item}")


def bound_faults(command: Command, table: Trees) -> Iterator[Fault]:
    """The faults of the bounds of a scan or of sums."""
    words = BLOCK_WORDS[command.head.word]
    numbers: dict[bytes, int] = {}
    tree = (command.head.words[1:2] or [b""])[0]
    for line in command.messages():
        if line.word not in words:
            yield Fault(no_block_word(line, command.head.word), line=line.number)
        elif line.word in numbers:
            yield Fault(f"a second '{line.word.decode()}', and each bound is given at most once", line=line.number, around=line.text)
        elif line.word == b"from" and b"to" in numbers:
            yield Fault(f"'from' comes after the 'to' of line {numbers[b'to']}: the order is from, then to", line=line.number, around=line.text)
        elif reasons := record_reasons(line):
            yield Fault(reasons[0], line=line.number, around=line.text, at=len(line.word) + 1)
        elif table.has_tree(tree):
            yield from Records(table, b"scan %b\n" % tree, b"\ngo\n", tree=tree).faults([(line.number, line.text)])
        numbers.setdefault(line.word, line.number)


# ---- refusals of one line ----


def sums_faults(command: Command, table: Trees) -> Iterator[Fault]:
    """Why the tree does not have the columns of sums."""
    _, tree, count, name = command.head.words
    if not table.has_tree(tree):
        return
    key, columns = table.key_of(tree), dict(table.columns_of(tree))
    if not 1 <= int(count) <= len(key):
        total = "; for all rows see docs/HOW_TO.md, A grand total" if int(count) == 0 else ""
        yield Fault(f"G is {int(count)}, and from 1 to {len(key)}: the key of {tree.decode()} is {spelled(name for name, _ in key)}{total}")
    if name not in columns:
        yield Fault(f"'{name.decode()}' is no column of {tree.decode()}: {spelled(columns)}")
    elif columns[name] != b"int":
        yield Fault(f"'{name.decode()}' is {columns[name].decode()}, and only ints are added")


def index_faults(command: Command, table: Trees) -> Iterator[Fault]:
    """Why an index cannot be made."""
    index, name = index_of(command.head), command.head.words[1]
    if name == PRIMARY or name in table.indexes:
        owner = "the tree of rows" if name == PRIMARY else "an index"
        yield Fault(f"'{name.decode()}' is the name of {owner}. Choose another, or drop that index first")
    for names, most, part in ((index.on, MOST_ON, "on"), (index.included, MOST_INCLUDED, "include")):
        if len(names) > most:
            yield Fault(f"{len(names)} columns after '{part}', and at most {most} are allowed")
    if len(table.indexes) == MOST_INDEXES:
        yield Fault(f"there are {MOST_INDEXES} indexes, the most that a table has: {spelled(table.indexes)}")
    condition = index.condition
    for name in dict.fromkeys([*index.on, *index.included, *([condition[0]] if condition else [])]):
        if name not in table.names:
            yield Fault(f"'{name.decode()}' is no column: {spelled(table.names)}")
    if condition and condition[0] in table.names:
        place = table.names.index(condition[0])
        if reason := value_fault(table.kinds[place].decode(), condition[2]):
            more = "; an index has one condition" if re.search(rb"(?i) (?:and|or) ", condition[2]) else ""
            yield Fault(reason + more, column_place(table.columns, place))


def table_faults(command: Command) -> Iterator[Fault]:
    """Why a table cannot have these columns, or this shape."""
    words = command.head.words
    names, key = [word.split(b":")[0] for word in words[5:]], int(words[4])
    if len(names) > MOST_COLUMNS:
        yield Fault(f"{len(names)} columns, and a table has at most {MOST_COLUMNS}")
    if not 1 <= key <= MOST_KEY_COLUMNS:
        yield Fault(f"{key} key columns, and a table has 1 to {MOST_KEY_COLUMNS}")
    elif key > len(names):
        yield Fault(f"{key} key columns, and there are only {counted(len(names), 'column')}")
    for name in dict.fromkeys(name for name in names if names.count(name) > 1):
        yield Fault(f"{names.count(name)} columns are named '{name.decode()}'")
    is_in_bytes = words[2].endswith(b"b")
    sizes = (("fanout", FANOUTS, ""), ("buffer", BUFFERS_IN_BYTES if is_in_bytes else BUFFERS, " bytes" if is_in_bytes else " messages"), ("leaf", LEAVES, ""))
    for word, (size, sizes_there, unit) in zip(words[1:4], sizes):
        if int(word.removesuffix(b"b")) not in sizes_there:
            yield Fault(f"the {size} is {word.decode()}, and from {sizes_there[0]} to {sizes_there[-1]}{unit}")


def tree_faults(command: Command, table: Trees) -> Iterator[Fault]:
    """Why a tree is not there, or not complete."""
    name = command.head.words[1]
    text = f"'{name.decode()}'"
    if name == PRIMARY:
        yield Fault(f"{text} is the tree of rows, which is not built or dropped")
    elif name in table.indexes:
        yield Fault(f"{text} is {'complete, and has nothing left to build' if table.indexes[name].is_complete else 'building'}")
    else:
        yield Fault(f"no tree is named {text}: there {'are' if table.indexes else 'is'} {spelled(table.by_name)}")


# ---- refusals ----


def block_faults(command: Command, table: Trees) -> Iterable[Fault]:
    """The faults of the lines of a block, in order."""
    if command.head.word == b"batch":
        return batch_faults(command.messages(), table)
    return bound_faults(command, table) if command.closing == b"go" else []


def faults_of_refusal(command: Command, number: int, table: Trees) -> Iterable[Fault]:
    """The faults of a refused command, in order; none where the meaning of the refusal says all. The table is as the command found it."""
    word = command.head.word
    if number in (1, 2):
        return chain(map(Fault, head_faults(command.head)), block_faults(command, table))
    # A program of another language may have commands of other forms.
    if head_faults(command.head):
        return []
    if word == b"table":
        return table_faults(command) if number in (5, 20) else []
    if not table:
        return []
    if number == 14:
        return key_faults(command, table)
    if number in (8, 12) or (number == 11 and word != b"load"):
        return tree_faults(command, table)
    if number == 11:
        return [Fault(f"'{tree.name}' is building") for tree in table if not tree.is_complete]
    if word == b"load":
        return header_faults(command, table) if number == 5 else load_faults(command, table) if number in (6, 7) else []
    if word == b"get":
        return Records(table, b"", b"\n").faults([(None, command.head.text)])
    if word == b"index":
        return index_faults(command, table)
    too_many = number_faults(command) if word == b"batch" else []
    return chain(too_many, block_faults(command, table), sums_faults(command, table) if word == b"sums" else [])


COMMAND_LINE = re.compile(rb"\n( *(?:%b)(?:[ \r][^\n]*)?)$" % b"|".join(FORMS), re.MULTILINE)


def swallowed_line(command: Command, table: Trees) -> Line | None:
    """The first line of a block that looks like a command, and of a load is no record of the table."""
    text, number, at = b"\n" + command.block, command.head.number, 0
    records = load_records(table) if table and command.head.word == b"load" else None
    for found in COMMAND_LINE.finditer(text):
        number, at = number + text.count(b"\n", at, found.start(1)), found.start(1)
        line = Line(number, found[1])
        if line.begins_command() and (records is None or records.reason([line.raw.removesuffix(b"\r")])):
            return line
    return None

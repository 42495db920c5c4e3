"""Batches: the changes of a call that are applied whole or not at all. Each kind of batch can be packed by the extension, and be written as the lines of a
script, which also say why the library has refused it."""

from __future__ import annotations

from collections.abc import Iterator, Sequence
from typing import Any, Protocol

from .errors import RowTypeError, RowValueError
from .language import counted
from .messages import Message, Shape, message_lines, plain_messages
from .packed import HEADER_BYTES, value_at
from .rows import FIELDS, Value, line_fault, plain_rows, records, rows_of_columns, shown, tuples_of_dicts
from .schema import Tree

# The first byte of a packed change, by the word of its line, and that of each operation.
WORDS = {"put": 0, "del": 1, "ups": 2}
OPERATIONS = {"set": 0, "add": 1, "max": 2, "min": 3}
MOST_BYTES = 255  # of a text, or of bytes


class Packer(Protocol):
    """What makes packed bytes of plain values: the extension. Each call returns None for values that it does not take."""

    def _pack_rows(self, rows: list[Any], /) -> bytes | None:
        ...

    def _pack_messages(self, messages: list[Any], /) -> bytes | None:
        ...

    def _pack_upserts(self, form: bytes, rows: list[Any], /) -> bytes | None:
        ...

    def _pack_columns(self, count: int, form: bytes, columns: list[Any], /) -> bytes | None:
        ...


class Batch(Protocol):
    """One batch. `items` are its rows, or its messages. `taken` is the number of items of the call before this batch."""

    @property
    def items(self) -> list[Any]:
        ...

    def packed(self, packer: Packer) -> bytes | None:
        """Its bytes, if its values are plain."""

    def plain(self, there: Tree, taken: int) -> Batch:
        """The same batch with plain values. Raises RowError for a value that its column does not take."""

    def lines(self, there: Tree, taken: int) -> str:
        """Its lines in a script. Raises RowError for a value that its column, or a line, does not take."""


class Rows:
    """Rows to put: tuples, lists or dicts."""

    def __init__(self, items: list[Any]) -> None:
        self.items = items

    def packed(self, packer: Packer) -> bytes | None:
        return packer._pack_rows(self.items)

    def plain(self, there: Tree, taken: int) -> Rows:
        return Rows(plain_rows(tuples_of_dicts(self.items, there.names), there.columns, taken))

    def lines(self, there: Tree, taken: int) -> str:
        return records(self.items, there.columns, "put ", taken + 1, taken)


class Messages:
    """Messages that `put`, `delete` and `upsert` have made."""

    def __init__(self, items: list[Any]) -> None:
        self.items = items

    def packed(self, packer: Packer) -> bytes | None:
        return packer._pack_messages(self.items)

    def plain(self, there: Tree, taken: int) -> Messages:
        return Messages(plain_messages(self.items, there, taken))

    def lines(self, there: Tree, taken: int) -> str:
        return message_lines(self.items, there, taken)


class UpsertRows:
    """Upserts of one shape, each a row of the values of its key and of its operations."""

    def __init__(self, shape: Shape, rows: list[Any], there: Tree) -> None:
        self.shape, self.rows, self._there = shape, rows, there

    @property
    def items(self) -> list[Any]:
        return [Message("ups", tuple(row), self.shape) for row in self.rows]

    def packed(self, packer: Packer) -> bytes | None:
        form = form_of("ups", self.shape, self._there)
        return None if form is None else packer._pack_upserts(form, self.rows)

    def plain(self, there: Tree, taken: int) -> Batch:
        return Messages(self._checked(taken)).plain(there, taken)

    def lines(self, there: Tree, taken: int) -> str:
        return Messages(self._checked(taken)).lines(there, taken)

    def _checked(self, taken: int) -> list[Any]:
        names = [column.name for column in self._there.key] + [name for _, *some in self.shape for name in some]
        for number, row in enumerate(self.rows, taken + 1):
            if not isinstance(row, (tuple, list)):
                reason = f"{shown(row)} is of type {type(row).__name__}, and a row is a tuple or a list: write ({', '.join(names)})"
                raise RowTypeError(reason, row=number, value=row, taken=taken)
            if len(row) != len(names):
                raise RowValueError(f"{counted(len(row), 'value')}, and a row has {len(names)} ({', '.join(names)})", row=number, value=row, taken=taken)
        return self.items


class Columns:
    """Changes by columns, all with one word and shape. The columns are those of the rows or the keys, and after them those of the operations. Each is a buffer
    of ints, a list of values, or one value for all changes."""

    def __init__(self, word: str, shape: Shape, columns: list[Any], count: int, there: Tree) -> None:
        self.word, self.shape, self.columns, self.count, self._there = word, shape, columns, count, there

    @property
    def items(self) -> list[Any]:
        rows = rows_of_columns(self.columns, self.count)
        return [*rows] if self.word == "put" else [Message(self.word, values, self.shape) for values in rows]

    def packed(self, packer: Packer) -> bytes | None:
        form = form_of(self.word, self.shape, self._there)
        return None if form is None else packer._pack_columns(self.count, form, self.columns)

    def plain(self, there: Tree, taken: int) -> Batch:
        return self._of_items().plain(there, taken)

    def lines(self, there: Tree, taken: int) -> str:
        return self._of_items().lines(there, taken)

    def _of_items(self) -> Batch:
        if self.word == "put":
            return Rows(self.items)
        return Messages(self.items)


def form_of(word: str, shape: Shape, there: Tree) -> bytes | None:
    """The word of packed changes, and their operations. None if these are not packed."""
    operations = operations_of(shape, there)
    return None if operations is None else bytes([WORDS[word]]) + operations


def operations_of(shape: Shape, there: Tree) -> bytes | None:
    """The operations of the upserts of a shape, each its code and the place of its column. None if there is no such column, or an operation is not for its
    kind: the library refuses such upserts."""
    places = {column.name: place for place, column in enumerate(there.columns)}
    found = [(OPERATIONS[operation], places.get(name, -1)) for operation, *names in shape for name in names]
    if any(place < 0 or code != OPERATIONS["set"] and there.kinds[place] != "int" for code, place in found):
        return None
    return bytes([number for one in found for number in one])


def script_of_changes(changes: bytes, there: Tree) -> bytes:
    """The script that makes packed changes, for what runs only scripts. ValueError if a text has a line break, which no line has."""
    words, operations = ({code: word for word, code in codes.items()} for codes in (WORDS, OPERATIONS))
    at, lines = HEADER_BYTES, ["batch\n"]

    def field(kind: str) -> str:
        nonlocal at
        value, at = value_at(changes, at, kind)
        written = FIELDS[kind](value)
        if reason := line_fault(value, written):
            raise ValueError(reason)
        return written

    while at < len(changes):
        word = words[changes[at]]
        at += 1
        fields = [field(kind) for kind in (there.kinds if word == "put" else there.key_kinds)]
        if word == "ups":
            count = changes[at]
            at += 1
            for _ in range(count):
                operation, place = operations[changes[at]], changes[at + 1]
                at += 2
                fields += [operation, there.names[place], field(there.kinds[place])]
        lines.append(f"{word} {','.join(fields)}\n")
    return "".join([*lines, "end\n"]).encode()


def rows_of_changes(puts: bytes, there: Tree) -> Iterator[tuple[Value, ...]]:
    """The rows of changes that are all puts."""
    at = HEADER_BYTES
    while at < len(puts):
        at, row = at + 1, []
        for kind in there.kinds:
            value, at = value_at(puts, at, kind)
            row.append(value)
        yield tuple(row)


def without_breaks(batch: Batch, there: Tree, taken: int) -> Batch:
    """A batch that the library has refused, with spaces in place of the line breaks of its texts, so that its lines say why."""
    items, found = batch.plain(there, taken).items, []
    if not isinstance(items[0], Message):
        return Rows([_without_breaks(row) for row in items])
    for one in items:
        found.append(Message(one.word, _without_breaks(one.values), one.shape))
    return Messages(found)


def first_too_long(batch: Batch) -> int:
    """The number of the first item that has a text, or bytes, of more than 255 bytes, or 0."""
    for number, item in enumerate(batch.items, 1):
        values = item.values if isinstance(item, Message) else item
        if any(len(value.encode() if isinstance(value, str) else value) > MOST_BYTES for value in values if isinstance(value, (str, bytes))):
            return number
    return 0


def _without_breaks(values: Sequence[Any]) -> tuple[Any, ...]:
    return tuple([value.replace("\n", " ").replace("\r", " ") if isinstance(value, str) else value for value in values])

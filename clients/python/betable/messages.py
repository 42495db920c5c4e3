"""The messages of a batch, and the lines that they are in a script."""

from __future__ import annotations

from collections.abc import Callable, Iterable, Mapping
from typing import Any

from . import language
from .errors import RowTypeError, RowValueError
from .rows import FIELDS, PLAIN_TEXT, as_iterator, as_tuple, check_key, line_fault, line_field, plain_value, shown
from .schema import Tree, TreeColumn

OPERATIONS = tuple(word.decode() for word in language.OPERATIONS)


# Each operation of an upsert with the names of its columns. A message that is no upsert has none.
Shape = tuple[tuple[str, ...], ...]


class Message:
    """A message of a batch, as `put`, `delete` and `upsert` make it. In a batch each value is written by the kind of its column; `str` gives the line as far
    as the values tell their kinds."""

    __slots__ = ("word", "shape", "values")

    def __init__(self, word: str, values: tuple[Any, ...], shape: Shape = ()) -> None:
        # The values are those of the row or of the key, and then those of the columns of the shape, in order.
        self.word, self.shape, self.values = word, shape, values

    def parts(self) -> tuple[tuple[Any, ...], list[tuple[str, str, Any]]]:
        """The row or the key, and each operation, column and value of an upsert."""
        places = [(operation, name) for operation, *names in self.shape for name in names]
        count = len(self.values) - len(places)
        return self.values[:count], [(operation, name, value) for (operation, name), value in zip(places, self.values[count:])]

    def __str__(self) -> str:
        key, changes = self.parts()
        return f"{self.word} {record([*key, *(part for change in changes for part in change)])}\n"

    def __repr__(self) -> str:
        key, changes = self.parts()
        found: dict[str, dict[str, Any]] = {}
        for operation, name, value in changes:
            found.setdefault(operation, {})[name] = value
        words = [*map(repr, key), *(f"{operation}={values!r}" for operation, values in found.items())]
        return f"{FUNCTIONS[self.word]}({', '.join(words)})"

    def __eq__(self, other: object) -> bool:
        return isinstance(other, Message) and (self.word, self.shape, self.values) == (other.word, other.shape, other.values)


# The functions that make messages, by the words of their lines.
FUNCTIONS = {"put": "put", "del": "delete", "ups": "upsert"}


def put(*row: Any) -> Message:
    """The message that a row takes the place of the one with its key."""
    return Message("put", row)


def delete(*key: Any) -> Message:
    """The message that a key has no row."""
    return Message("del", key)


# Shapes of earlier upserts, so that equal shapes are one object.
_shapes: dict[Shape, Shape] = {}
MOST_SHAPES = 1_000


def upsert(*key: Any, **operations: Mapping[str, Any]) -> Message:
    """The message that changes columns of the row of a key: `set`, `add`, `max` and `min` are each a dict of columns and the values to do it with."""
    shape, values = shape_of(operations, "upsert(*key, add={'qty': 1})")
    return Message("ups", (*key, *values), shape)


def upsert_form(**columns: Iterable[str]) -> Callable[..., Message]:
    """What makes the messages of upserts that change the same columns, in less time than `upsert`: `set`, `add`, `max` and `min` are each the names of columns.

        count = betable.upsert_form(add=["n", "total"], max=["highest"])
        session.batch([count(device, minute, 1, cents, cents) for device, minute, cents in readings])

    It is called with the values of the key, and those for the columns in the order set, add, max, min."""
    shape = shape_of_columns(columns, "upsert_form(add=['qty'])")

    def made(*values: Any) -> Message:
        return Message("ups", values, shape)

    return made


def shape_of_columns(columns: Mapping[str, Iterable[str]], example: str) -> Shape:
    """The shape of upserts, of lists of columns."""
    for operation, names in columns.items():
        if isinstance(names, (str, bytes)):
            raise TypeError(f"{operation} is a list of columns, and not {shown(names)}: write {operation}=[{shown(names)}]")
    return shape_of({operation: dict.fromkeys(names) for operation, names in columns.items()}, example)[0]


def shape_of(operations: Mapping[str, Mapping[str, Any]], example: str) -> tuple[Shape, list[Any]]:
    """The shape of upserts, and the values of their operations in its order."""
    shape: list[tuple[str, ...]] = []
    values: list[Any] = []
    for operation in OPERATIONS:
        if operation in operations:
            changes = operations[operation]
            if type(changes) is not dict and not isinstance(changes, Mapping):
                raise TypeError(f"{operation} is a dict of columns and values, and not {shown(changes)}: write {operation}={{'qty': 1}}")
            shape.append((operation, *changes))
            values += changes.values()
    if len(shape) < len(operations):
        unknown = min(operations.keys() - set(OPERATIONS))
        raise TypeError(f"an operation is one of {', '.join(OPERATIONS)}, and not {unknown!r}: write {example}")
    if not values:
        raise TypeError(f"an upsert changes a column or more: write {example}")
    found = tuple(shape)
    if len(_shapes) == MOST_SHAPES:
        _shapes.clear()
    return _shapes.setdefault(found, found), values


def field(value: Any) -> str:
    """A value as a field of a record, by its own type."""
    return record([value])


def record(values: Iterable[Any]) -> str:
    """Values as a record of a line, each by its own type. A text with a line break can only be loaded."""
    fields = []
    for value in as_iterator(values, "the values of a record", "a list of them"):
        kind = next((kind for kind, types in TYPES_OF_KINDS if isinstance(value, types)), None)
        if kind is None:
            raise TypeError(f"a value is an int, a str, a bool or bytes, and not {shown(value)} of type {type(value).__name__}")
        fields.append(FIELDS[kind](value))
        if reason := line_fault(value, fields[-1]):
            raise ValueError(reason)
    return ",".join(fields)


# A bool is an int of Python too.
TYPES_OF_KINDS: tuple[tuple[str, Any], ...] = (("flag", bool), ("int", int), ("text", str), ("bytes", (bytes, bytearray, memoryview)))


# ---- lines of a batch ----


class Form:
    """The line of messages that differ only in their values: a text with a place for each value, the columns of the values, and which of them are texts."""

    def __init__(self, text: str, columns: list[TreeColumn]) -> None:
        self.text, self.columns = text, columns
        self.texts = [place for place, column in enumerate(columns) if column.kind == "text"]


def message_lines(messages: list[Any], there: Tree, taken: int) -> str:
    """The lines of messages, each value by the kind of its column."""
    forms, found = there.forms, []
    for number, message in enumerate(messages, taken + 1):
        _check_message(message, number, taken)
        values = message.values
        form = forms.get((message.word, message.shape, *map(type, values)))
        if form is None or not all([PLAIN_TEXT.fullmatch(values[place]) for place in form.texts]):
            found.append(_message_line(message, there, number, taken))
            continue
        try:
            found.append(form.text % values)
        except ValueError:
            found.append(_message_line(message, there, number, taken))
    return "".join(found)


def plain_messages(messages: list[Any], there: Tree, taken: int) -> list[Message]:
    """Messages whose values have exactly the types of their kinds."""
    found = []
    for number, message in enumerate(messages, taken + 1):
        _check_message(message, number, taken)
        columns = _columns_of_message(message, there, number, taken)
        values = tuple([plain_value(value, column, number, taken) for value, column in zip(message.values, columns)])
        found.append(Message(message.word, values, message.shape))
    return found


def _check_message(message: Any, row: int, taken: int) -> None:
    if type(message) is not Message:
        reason = f"{shown(message)} is of type {type(message).__name__}, and a message is made by betable.put, betable.delete or betable.upsert"
        raise RowTypeError(reason, row=row, value=message, taken=taken)


def _columns_of_message(message: Message, there: Tree, row: int, taken: int) -> list[TreeColumn]:
    """The columns of the values of a message. The number that `add`, `max` and `min` take is that of an int, which the library refuses for other columns."""
    key, _ = message.parts()
    if message.word == "put":
        as_tuple(key, there.columns, row, taken)
        return list(there.columns)
    check_key(key, there.key, "a key", row=row, taken=taken)
    return [*there.key, *columns_of_shape(message.shape, there, row, taken)]


def columns_of_shape(shape: Shape, there: Tree, row: int | None = None, taken: int = 0) -> list[TreeColumn]:
    """The columns of the operations of a shape."""
    by_name = {column.name: column for column in there.columns}
    names = [name for _, *some in shape for name in some]
    for name in names:
        if name not in by_name:
            raise RowValueError(f"{shown(name)} is no column ({', '.join(by_name)})", row=row, value=name, taken=taken)
    return [by_name[name] for name in names]


def _message_line(message: Message, there: Tree, row: int, taken: int) -> str:
    """The line of one message. Its form is kept for others that are like it, where its values are ints and texts that need no look but at their letters."""
    key, changes = message.parts()
    columns = _columns_of_message(message, there, row, taken)
    parts = [",%s"] * len(key) + [f",{operation},{name},%s" for operation, name, _ in changes]
    form = Form(f"{message.word} {''.join(parts)[1:]}\n", columns)
    if all(type(value) is PLAIN_TYPES.get(column.kind) for value, column in zip(message.values, columns)):
        if len(there.forms) == MOST_SHAPES:
            there.forms.clear()
        there.forms[(message.word, message.shape, *map(type, message.values))] = form
    return form.text % tuple([line_field(value, column, row, taken) for value, column in zip(message.values, columns)])


# By kind, the type of the values whose text is their field without quotes; of texts, those that PLAIN_TEXT matches.
PLAIN_TYPES: dict[str, type] = {"int": int, "text": str}



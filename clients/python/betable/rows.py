"""Rows of Python as records of the script language, and records as rows. What each kind of column takes is here and nowhere else.

| Kind  | Python type                                                                        |
|-------|------------------------------------------------------------------------------------|
| int   | int, or what has `__index__` (an integer of NumPy, an `IntEnum`), but not a bool    |
| text  | str                                                                                 |
| flag  | bool                                                                                |
| bytes | bytes, bytearray or memoryview                                                      |

A value of another type is refused, since a guess could store what nobody meant.
"""

from __future__ import annotations

import csv
import operator
import re
from array import array
from collections.abc import Callable, Iterator, Mapping, Sequence, Set
from typing import Any, TypeAlias, TypeVar

from .errors import RowTypeError, RowValueError
from .language import GREATEST_INT, LEAST_INT, counted, int_of
from .reasons import value_fault
from .schema import TreeColumn

T = TypeVar("T")
Value = int | str | bool | bytes
# The values of a column: of one of kind int, or of another.
ColumnValues: TypeAlias = "array[int] | list[Any]"


# What a value of each kind is, as it is said to a user.
TYPES = {"int": "an int", "text": "a str", "flag": "a bool", "bytes": "bytes"}
# The type that a value of JSON has for each kind, and what it is in words. Bytes are in hexadecimal digits.
JSON_TYPES: dict[str, tuple[Any, str]] = {
    "int": (int, "a whole number"), "text": (str, "a string"), "flag": (bool, "true or false"), "bytes": (str, "a string of hexadecimal digits"),
}  # fmt: skip
# The types of arrays of NumPy that have the values of each kind.
ARRAY_TYPES = {"int": "int64", "text": "object", "flag": "bool", "bytes": "object"}
# What a text has that is written in quotes: also a byte order mark, which would be dropped at the start of a record, and what would be no record, or the end
# of a load, if it were alone in its line.
NEEDS_QUOTES = re.compile('[",\r\n\ufeff]|^[.]?$')
SPECIAL = re.compile('[",\r\n\ufeff]')
# A text that needs no quotes as a field.
PLAIN_TEXT = re.compile('(?![.]$)[^",\r\n\ufeff\ud800-\udfff]+')
# Of fewer rows each value is looked at by itself, which is quicker.
FEW_ROWS = 4


# ---- values ----


def _plain_int(value: Any) -> int:
    # NumPy 1 gives its bool an index.
    if isinstance(value, bool) or type(value).__name__ == "bool_":
        raise TypeError
    # Of a subclass, which may print in another way, the number itself.
    return int.__pos__(operator.index(value))


def _plain_flag(value: Any) -> bool:
    if not isinstance(value, bool):
        raise TypeError
    return value


def _plain_bytes(value: Any) -> bytes:
    if not isinstance(value, (bytes, bytearray, memoryview)):
        raise TypeError
    return bytes(value)


# By kind: a value as one of exactly the type that the kind has, for the extension. A TypeError means that the kind does not take the value.
PLAIN: dict[str, Callable[[Any], Value]] = {"int": _plain_int, "text": str.__str__, "flag": _plain_flag, "bytes": _plain_bytes}
EXACT_TYPES: dict[str, type] = {"int": int, "text": str, "flag": bool, "bytes": bytes}
VALUE_TYPES = frozenset(EXACT_TYPES.values())


def _int_field(value: Any) -> str:
    return str(_plain_int(value))


def _text_field(value: Any) -> str:
    text = str.__str__(value)
    return '"' + text.replace('"', '""') + '"' if NEEDS_QUOTES.search(text) else text


def _flag_field(value: Any) -> str:
    return "true" if _plain_flag(value) else "false"


def _bytes_field(value: Any) -> str:
    return _plain_bytes(value).hex() or '""'


# By kind: the field of a value, in quotes if it needs them. A TypeError means that the kind does not take the value.
FIELDS: dict[str, Callable[[Any], str]] = {"int": _int_field, "text": _text_field, "flag": _flag_field, "bytes": _bytes_field}
# By kind: the value of a field, as it is printed.
VALUES: dict[str, Callable[[str], Value]] = {"int": int, "text": str, "flag": lambda text: text == "true", "bytes": bytes.fromhex}


def shown(value: Any) -> str:
    """A value for a message, cut to a length that a line has."""
    try:
        text = repr(value)
    except Exception:
        text = f"<{type(value).__name__}>"
    return text if len(text) <= 60 else text[:57] + "..."


def type_reason(value: Any, column: TreeColumn) -> str:
    """Why a column does not take a value of this type, and what to write instead."""
    name = type(value).__name__
    said = f"{shown(value)} is {'None' if value is None else f'of type {name}'}, and a column of kind {column.kind} takes {TYPES[column.kind]}"
    advice = _advice(value, name, column.kind)
    return f"{said}: {advice}" if advice else said


def _advice(value: Any, name: str, kind: str) -> str:
    if value is None:
        return "there is no null, so choose a value that means it"
    if kind == "int":
        if isinstance(value, bool):
            return "write int(value), or make it a column of kind flag"
        if isinstance(value, str):
            return "write int(value)"
        if name in ("float", "Decimal", "Fraction") or name.startswith("float"):
            return "write int(value), or keep it in a smaller unit, as cents, with round(value * 100)"
        if hasattr(value, "isoformat"):
            return "write int(value.timestamp()), or make it a column of kind text with value.isoformat()"
        if name == "datetime64":
            return "write value.astype('datetime64[s]').astype('int64'), also of a whole array"
    elif kind == "text":
        if isinstance(value, (bytes, bytearray, memoryview)):
            return "write value.decode(), or make it a column of kind bytes"
        if hasattr(value, "isoformat"):
            return "write value.isoformat()"
        return "write str(value)"
    elif kind == "flag":
        return "write value == 'true'" if isinstance(value, str) else "write bool(value)"
    elif kind == "bytes":
        if isinstance(value, str):
            return "write value.encode(), or bytes.fromhex(value) for hexadecimal digits"
        if name == "UUID":
            return "write value.bytes"
        return "write bytes(value)" if hasattr(value, "__bytes__") or hasattr(value, "tobytes") else ""
    return ""


def field_of(value: Any, column: TreeColumn, row: int | None, taken: int = 0) -> str:
    """The field of a value of a column, in quotes where it needs them."""
    return _converted(FIELDS[column.kind], value, column, row, taken)


def plain_value(value: Any, column: TreeColumn, row: int | None = None, taken: int = 0) -> Value:
    """A value of a column as one of exactly the type of its kind."""
    return _converted(PLAIN[column.kind], value, column, row, taken)


def _converted(convert: Callable[[Any], T], value: Any, column: TreeColumn, row: int | None, taken: int) -> T:
    try:
        return convert(value)
    except TypeError:
        raise RowTypeError(type_reason(value, column), row=row, column=column.name, value=value, taken=taken) from None
    except MemoryError:
        raise
    except Exception as fault:
        raise RowValueError(f"{shown(value)}: {fault}", row=row, column=column.name, value=value, taken=taken) from None


def _fields_of(values: Sequence[Any], column: TreeColumn, row: int, taken: int) -> Sequence[Any]:
    """The fields of the values of one column, of rows whose first one has this number in the call."""
    types = set(map(type, values))
    if types == {int} and column.kind == "int":
        return values
    if types == {str} and column.kind == "text" and not (SPECIAL.search("x".join(values)) or "" in values or "." in values):
        return values
    return [field_of(value, column, number, taken) for number, value in enumerate(values, row)]


# ---- rows ----


def as_iterator(given: Any, what: str, instead: str) -> Iterator[Any]:
    """What gives rows or messages one after the other. A text, bytes or a dict would give its letters, numbers or names, so these are refused."""
    if not isinstance(given, (str, bytes, bytearray, memoryview, Mapping)):
        try:
            return iter(given)
        except TypeError:
            pass
    raise TypeError(f"{what} are an iterable, as a list, and not {shown(given)} of type {type(given).__name__}: write {instead}")


def as_tuple(row: Any, columns: Sequence[TreeColumn], number: int, taken: int) -> Sequence[Any]:
    """A row by its columns: a tuple or a list as it is, and a dict by their names."""
    names = [column.name for column in columns]
    if isinstance(row, Mapping):
        if reason := names_fault(row, names):
            raise RowValueError(f"{reason}: a dict has a value for each of the columns {', '.join(names)}", row=number, value=row, taken=taken)
        return [row[name] for name in names]
    if not isinstance(row, (tuple, list)):
        example = f"write [({', '.join(names)}{',' if len(names) == 1 else ''}), ..]"
        is_sequence = isinstance(row, Sequence) and not isinstance(row, (str, bytes, bytearray, memoryview)) or hasattr(row, "__array__")
        advice = "write tuple(row)" if is_sequence else example
        raise RowTypeError(
            f"{shown(row)} is of type {type(row).__name__}, and a row is a tuple, a list or a dict: {advice}", row=number, value=row, taken=taken
        )
    if len(row) != len(names):
        reason = f"{counted(len(row), 'value')}, and a row has {len(names)} ({', '.join(names)}): {shown(row)}"
        raise RowValueError(reason, row=number, value=row, taken=taken)
    return row


def _tuples(rows: list[Any], columns: Sequence[TreeColumn], row: int, taken: int) -> list[Any]:
    """Rows as tuples and lists, of which the first one has this number in the call."""
    if set(map(type, rows)) <= {tuple, list} and set(map(len, rows)) <= {len(columns)}:
        return rows
    return [as_tuple(one, columns, number, taken) for number, one in enumerate(rows, row)]


def tuples_of_dicts(rows: list[Any], names: Sequence[str]) -> list[Any]:
    """Rows as tuples, if all of them are dicts with these names; others as they are."""
    if type(rows[0]) is not dict or set(map(type, rows)) != {dict} or set(map(len, rows)) != {len(names)}:
        return rows
    try:
        return list(zip(*[[row[name] for row in rows] for name in names]))
    except KeyError:
        return rows


def names_fault(given: Mapping[Any, Any], names: list[str]) -> str | None:
    """Why the names of a dict are not those of the columns, or None."""
    wrong = [name for name in given if name not in names]
    missing = [name for name in names if name not in given]
    return " and ".join([f"{shown(name)} is no column" for name in wrong[:1]] + [f"'{name}' is missing" for name in missing[:1]]) or None


# ---- rows by columns ----


def values_by_column(given: Mapping[Any, Any], columns: Sequence[TreeColumn]) -> tuple[list[Any], int]:
    """The values of each column of rows, in the order of the columns, and the number of rows."""
    names = [column.name for column in columns]
    if reason := names_fault(given, names):
        raise RowValueError(f"{reason}: columns of rows are a dict from each of the names {', '.join(names)} to its values", value=given)
    found = [_column_values(given[name], name) for name in names]
    counts = list(map(len, found))
    for name, values, count in zip(names, found, counts):
        if count != counts[0]:
            raise RowValueError(f"{counted(count, 'value')}, and '{names[0]}' has {counts[0]:,}", column=name, value=values)
    return found, counts[0]


def _column_values(given: Any, name: str) -> Any:
    """The values of a column: a sequence that can be cut, as a list, an array, or an array of NumPy, which a column of pandas is too."""
    values = given.to_numpy() if hasattr(given, "to_numpy") else given
    if not isinstance(values, (str, bytes, bytearray, Mapping, Set)) and hasattr(values, "__getitem__"):
        try:
            len(values)
        except TypeError:
            pass
        else:
            return values
    said = f"{shown(given)} is of type {type(given).__name__}, and the values of a column are a list, a tuple or an array"
    raise RowTypeError(f"{said}: write {{'{name}': [..], ..}}, or [{{'{name}': ..}}] for rows", column=name, value=given)


def changes_by_column(given: Sequence[tuple[TreeColumn, Any]]) -> tuple[list[Any], int]:
    """The values of each column of changes, and the number of changes. A column has values for all of them, or one value for each."""
    found: list[Any] = []
    counts: list[tuple[int, str]] = []
    for column, values in given:
        if _is_sequence(values, column):
            found.append(_column_values(values, column.name))
            counts.append((len(found[-1]), column.name))
        else:
            found.append(plain_value(values, column))
    for count, name in counts:
        if count != counts[0][0]:
            raise RowValueError(f"{counted(count, 'value')}, and '{counts[0][1]}' has {counts[0][0]:,}", column=name)
    return found, counts[0][0] if counts else 1


def _is_sequence(given: Any, column: TreeColumn) -> bool:
    """Whether this has the values of a column, and is not one value."""
    if hasattr(given, "to_numpy") and not isinstance(given, type):
        return True
    if isinstance(given, (str, bytes, bytearray, Mapping, Set)) or (isinstance(given, memoryview) and column.kind == "bytes"):
        return False
    try:
        return hasattr(given, "__getitem__") and len(given) >= 0
    except TypeError:
        return False


# The kinds of arrays of NumPy whose `tolist` converts nothing: dates would be ints.
PLAIN_ARRAYS = "biufOUS"


def part_of_column(values: Any, kind: str, start: int, stop: int) -> Any:
    """The values of a column from one place to before another: a buffer of ints as it is, and a list of others."""
    part = values[start:stop]
    if kind == "int" and _is_of_ints(part):
        return part
    array_kind = getattr(getattr(part, "dtype", None), "kind", "O")
    if kind == "int" and array_kind in "iu" and part.ndim == 1 and part.dtype != "uint64":
        return part.astype("int64")
    if hasattr(part, "tolist") and array_kind in PLAIN_ARRAYS:
        return part.tolist()
    return part if type(part) is list else list(part)


def _is_of_ints(part: Any) -> bool:
    """Whether these are a buffer of ints of eight bytes, in the order of this machine."""
    try:
        with memoryview(part) as view:
            return view.ndim == 1 and view.itemsize == 8 and view.format.lstrip("@=") in ("q", "l")
    except (TypeError, ValueError, BufferError):
        return False


def rows_of_columns(columns: list[Any], count: int) -> list[tuple[Any, ...]]:
    """That many rows of columns that `part_of_column` made, or that are one value for all rows."""
    return list(zip(*[values if type(values) is list else values.tolist() if hasattr(values, "tolist") else [values] * count for values in columns]))


def plain_rows(rows: list[Any], columns: Sequence[TreeColumn], taken: int) -> list[tuple[Value, ...]]:
    """Rows whose values have exactly the types of their kinds. So many rows of the call were before them."""
    rows = _tuples(rows, columns, taken + 1, taken)
    found = []
    for values, column in zip(zip(*rows), columns):
        if set(map(type, values)) == {EXACT_TYPES[column.kind]}:
            found.append(values)
        else:
            found.append(tuple([plain_value(value, column, number, taken) for number, value in enumerate(values, taken + 1)]))
    return list(zip(*found))


def columns_of_rows(rows: list[tuple[Value, ...]], kinds: Sequence[str]) -> list[ColumnValues]:
    """The columns of rows that were read."""
    columns = list(zip(*rows)) if rows else [()] * len(kinds)
    return [array("q", values) if kind == "int" else list(values) for kind, values in zip(kinds, columns)]


def records(rows: list[Any], columns: Sequence[TreeColumn], word: str = "", row: int = 1, taken: int = 0, *, is_load: bool = False) -> str:
    """Lines with the records of rows, each after a word. `row` is the number of the first one in the call. Only a load takes texts with line breaks."""
    rows = _tuples(rows, columns, row, taken)
    if len(rows) < FEW_ROWS and not is_load:
        lines = [[line_field(value, column, number, taken) for value, column in zip(one, columns)] for number, one in enumerate(rows, row)]
        return "".join([f"{word}{','.join(line)}\n" for line in lines])
    fields = [_fields_of(values, column, row, taken) for values, column in zip(zip(*rows), columns)]
    form = word + ",".join(["%s"] * len(columns)) + "\n"
    try:
        text = "".join([form % line for line in zip(*fields)])
        text.isascii() or text.encode()
    except ValueError:
        text = ""
    if not text or not is_load and (text.count("\n") != len(rows) or "\r" in text):
        for number, values in enumerate(zip(*fields), row):
            for column, value, written in zip(columns, rows[number - row], values):
                if reason := line_fault(value, written, is_load):
                    raise RowValueError(reason, row=number, column=column.name, value=value, taken=taken)
    return text


def line_fault(value: Any, field: Any, is_load: bool = False) -> str | None:
    """Why the field of a value cannot be in a line, or None."""
    try:
        text = str(field)
        text.encode()
    except UnicodeEncodeError:
        return f"{shown(value)} has half of a surrogate pair, which UTF-8 does not have"
    except ValueError:
        return f"an int has at most 64 bits, and not {value.bit_length():,}"
    if not is_load and ("\n" in text or "\r" in text):
        return f"{shown(value)} has a line break, and only load takes a text with one"
    return None


def key_fields(values: Any, columns: Sequence[TreeColumn], what: str, *, row: int | None = None, taken: int = 0, is_prefix: bool = False) -> list[str]:
    """The fields of a key, or of the first values of one."""
    check_key(values, columns, what, row=row, taken=taken, is_prefix=is_prefix)
    return [line_field(value, column, row, taken) for value, column in zip(values, columns)]


def plain_key(values: Any, columns: Sequence[TreeColumn], what: str, *, row: int | None = None, taken: int = 0, is_prefix: bool = False) -> tuple[Value, ...]:
    """The values of a key, or of the first values of one, each of exactly the type of its kind."""
    check_key(values, columns, what, row=row, taken=taken, is_prefix=is_prefix)
    return tuple([plain_value(value, column, row, taken) for value, column in zip(values, columns)])


def check_key(values: Any, columns: Sequence[TreeColumn], what: str, *, row: int | None = None, taken: int = 0, is_prefix: bool = False) -> None:
    """That a key, or the first values of one, is a tuple with as many values as it can have."""
    if not isinstance(values, (tuple, list)):
        reason = f"{what} is a tuple, and not {shown(values)} of type {type(values).__name__}: write ({shown(values)},)"
        raise RowTypeError(reason, row=row, value=values, taken=taken)
    if not values or len(values) > len(columns) or (len(values) < len(columns) and not is_prefix):
        least = "1 to " if is_prefix and len(columns) > 1 else ""
        names = ", ".join(column.name for column in columns)
        reason = f"{counted(len(values), 'value')}, and {what} has {least}{len(columns)} ({names})"
        raise RowValueError(reason, row=row, value=values, taken=taken)


def line_field(value: Any, column: TreeColumn, row: int | None, taken: int = 0) -> str:
    """The field of a value of a column, for a line of a script."""
    if type(value) is str and column.kind == "text" and PLAIN_TEXT.fullmatch(value):
        return value
    if type(value) is int and column.kind == "int" and LEAST_INT <= value <= GREATEST_INT:
        return str(value)
    field = field_of(value, column, row, taken)
    if reason := line_fault(value, field):
        raise RowValueError(reason, row=row, column=column.name, value=value, taken=taken)
    return field


# ---- records as rows ----


def value_of_field(field: str, column: TreeColumn) -> Value:
    """The value of a field of a column. A ValueError says why it is none."""
    if reason := value_fault(column.kind, field.encode()):
        raise ValueError(f"column '{column.name}' ({column.kind}): {reason}")
    return values_of_fields([field], column.kind)[0]


def values_of_fields(fields: Sequence[str], kind: str) -> list[Value]:
    """The values of fields that are surely of a kind."""
    given = [field.lower() for field in fields] if kind == "flag" else fields
    try:
        return list(map(VALUES[kind], given))
    except ValueError:
        # Of thousands of digits, most of them zeros at the start.
        return [int_of(field.encode()) for field in given]


def rows_of(lines: list[str], kinds: Sequence[str]) -> list[tuple[Value, ...]]:
    """The rows of records as they are printed, by the kinds of their columns. Where no kind is known a value is its text."""
    if not lines:
        return []
    text = ",".join(lines)
    if len(lines) == 1:
        one = text.split(",") if '"' not in text else next(csv.reader(lines))
        return [tuple([VALUES[kind](field) for kind, field in zip(kinds or ["text"] * len(one), one)])]
    if '"' in text:
        columns: list[Any] = list(zip(*csv.reader(lines)))
    else:
        fields = text.split(",")
        count = len(fields) // len(lines)
        columns = [fields[place::count] for place in range(count)]
    return list(zip(*[column if kind == "text" else map(VALUES[kind], column) for kind, column in zip(kinds or ["text"] * len(columns), columns)]))


# ---- rows as they are printed ----


class _Lines(list[str]):
    """What a writer of CSV has written: a record at a time."""

    write = list.append


def printed_records(rows: list[tuple[Value, ...]], kinds: Sequence[str]) -> list[str]:
    """The records of rows, as the library prints them in a reply."""
    printed = [PRINTED.get(kind) for kind in kinds]
    if any(printed):
        rows = list(zip(*[values if write is None else map(write, values) for values, write in zip(zip(*rows), printed)]))
    lines = _Lines()
    # With this end of lines a text with either of its letters is in quotes.
    csv.writer(lines, lineterminator="\r\n").writerows(rows)
    return [line[:-2] for line in lines]


# By kind, how its values are printed where `str` does not do it.
PRINTED: dict[str, Callable[[Any], str]] = {"flag": _flag_field, "bytes": bytes.hex}

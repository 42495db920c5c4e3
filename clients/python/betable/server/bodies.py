"""Rows and upserts in the bodies of requests, as CSV or as JSON: the script of the batch that they are. What is wrong is a `Problem` that names its place."""

from __future__ import annotations

import json
import re
from collections.abc import Iterable, Sequence
from typing import Any, NamedTuple

from aiohttp import web

from ..batches import WORDS, operations_of as packed_operations_of
from ..language import MARK, QUOTED_FIELD, RECORD, SOUND_FIELD, broken_quotes, fields, matched, visible
from ..packed import HEADER, MAGIC, VALUE_BYTES, refusal_reply
from ..reasons import SPACES_OF_BREAKS, Reason, empty_session
from ..rows import JSON_TYPES, values_of_fields
from ..schema import Tree, TreeColumn, Trees
from .requests import Problem, checked_name

BLANK_LINES = re.compile(rb"^\r?\n|\n\r?\n")
# The types of a body that is JSON: one list of rows, or a row in each line.
JSON, JSON_LINES = ("application/json",), ("application/x-ndjson", "application/jsonl", "application/x-jsonlines")


def no_table() -> Problem:
    return Problem(409, "there is no table yet: POST /run takes its 'table' command")


class Batch(NamedTuple):
    """The script of a batch. `places` are those of its messages in the body, each the number of a `unit`; without them line N of the body is line N + 1 of the
    script. A batch whose texts have line breaks has `changes`, which are packed, or its `refusal`, with the value at fault. Its script then has spaces in their
    place, and is not run: it says why the batch is refused."""

    script: bytes
    places: Sequence[int] | None = None
    unit: str = "line"
    changes: bytes | None = None
    refusal: bytes = b""
    value: bytes | None = None


class Operation(NamedTuple):
    """An operation of upserts: its word, and the name of its column."""

    word: str
    column: str


def operations_of(pairs: Iterable[tuple[str, str]], words: Sequence[str]) -> list[Operation]:
    """The operations that a query names, in its order."""
    found = [Operation(word, checked_name(column)) for word, column in pairs if word in words]
    if not found:
        raise Problem(400, f"upserts name their operations and columns in the query, as add=qty: an operation is one of {', '.join(words)}")
    return found


def is_json_body(request: web.Request) -> bool:
    return request.content_type in JSON + JSON_LINES


# ---- rows ----


def rows_of_csv(body: bytes, has_header: bool, there: Tree) -> Batch:
    """The batch that puts rows of CSV. Columns under a header may be in any order."""
    line, rest, places = 0, body, list(range(len(there.columns)))
    if has_header:
        header, line, rest = _header_of(body)
        places = _places(header, there.names, line)
    is_in_order = places == list(range(len(places)))
    if _has_breaks(rest):
        records = _records_with_breaks(rest, line + 1)
        rows = [values if is_in_order else _reordered(values, places) for values in (fields(record) for _, record in records)]
        return Form("put", there.columns, there).batch(rows, [number for number, _ in records])
    if not is_in_order:
        rest = b"\n".join(_in_order(record, places) for record in rest.split(b"\n"))
    # A blank line for each line up to the header, so that lines keep their numbers.
    return Batch(batch_of(b"\n" * line + rest))


def rows_of_json(body: bytes, content_type: str, there: Tree) -> Batch:
    """The batch that puts rows of JSON: objects by the names of the columns, or lists in their order."""
    return _batch_of_json(body, content_type, Form("put", there.columns, there))


def batch_of(body: bytes) -> bytes:
    """The script of one batch that puts the rows of CSV lines. Line N of the body is line N + 1 of the script."""
    if BLANK_LINES.search(body):
        lines = re.sub(rb"^(?=.)(?!\r$)", b"put ", body, flags=re.MULTILINE)
    else:
        lines = b"put " + body.removesuffix(b"\n").replace(b"\n", b"\nput ") if body else b""
    return b"batch\n" + lines.removesuffix(b"\n") + b"\nend\n"


def header_hint(body: bytes, there: Tree) -> str:
    """What to do if the first record of rows without a header has the names of the columns, as the end of a sentence, or nothing."""
    names = [name.decode(errors="replace").strip().lower() for name in fields(body.partition(b"\n")[0].removesuffix(b"\r"))]
    return ". These are the names of the columns: leave the line out, or send it with header=1" if sorted(names) == sorted(there.names) else ""


# ---- upserts ----


def upserts_of_csv(body: bytes, has_header: bool, there: Tree, operations: list[Operation]) -> Batch:
    """The batch of upserts, each a line of CSV: the key, and the argument of each operation in order."""
    names = [*(column.name for column in there.key), *(operation.column for operation in operations)]
    first, places = 1, list(range(len(names)))
    if has_header:
        header, line, body = _header_of(body)
        first, places = line + 1, _places(header, names, line)
    has_breaks = _has_breaks(body)
    rows, numbers = [], []
    for number, line_of_body in _records_with_breaks(body, first) if has_breaks else enumerate(body.split(b"\n"), first):
        record = line_of_body.removesuffix(b"\r")
        if not record:
            continue
        values = fields(record)
        if len(values) != len(names):
            counted = f"{len(values)} field{'s' if len(values) != 1 else ''}, and an upsert here has {len(names)} ({', '.join(names)})"
            raise Problem(422, f"{counted}: {visible(record)}", line=number)
        rows.append([values[place] for place in places])
        numbers.append(number)
    form = _form_of_upserts(there, operations)
    return form.batch(rows, numbers) if has_breaks else Batch(form.script(rows), numbers)


def upserts_of_json(body: bytes, content_type: str, there: Tree, operations: list[Operation]) -> Batch:
    """The batch of upserts of JSON: objects with the columns of the key and those of the operations, or lists in the order of a line of CSV."""
    if unknown := next((one.column for one in operations if one.column not in there.names), None):
        raise Problem(422, f"'{unknown}' is no column: {', '.join(there.names)}")
    return _batch_of_json(body, content_type, _form_of_upserts(there, operations))


def _form_of_upserts(there: Tree, operations: list[Operation]) -> Form:
    by_name = {column.name: column for column in there.columns}
    # A column that is not there is refused with the upserts.
    columns = [by_name.get(operation.column, TreeColumn(operation.column, "text", False)) for operation in operations]
    return Form("ups", [*there.key, *columns], there, operations)


# ---- deletes ----


def delete_of(key: list[str], there: Tree) -> Batch:
    """The batch that deletes the row of a key."""
    form, fields_of_key = Form("del", there.key, there), [value.encode() for value in key]
    return form.batch([fields_of_key], [1]) if any(map(_is_broken, fields_of_key)) else Batch(form.script([fields_of_key]))


# ---- texts with line breaks ----


class Form:
    """What the messages of a batch have in common: the first word of their lines, the columns of their fields, and the operations of upserts, to which the last
    fields belong."""

    def __init__(self, word: str, columns: Sequence[TreeColumn], there: Tree, operations: Sequence[Operation] = ()) -> None:
        self.word, self.columns, self.operations = word, columns, operations
        self._key_length, self._there = len(columns) - len(operations), there
        # The operations of packed changes, or None if the library refuses them whatever their arguments are.
        self._packed_operations = packed_operations_of(tuple((one.word, one.column) for one in operations), there)

    def script(self, messages: Iterable[Sequence[bytes]]) -> bytes:
        """The batch of messages, each of which is given by the values of its fields."""
        return b"batch\n%bend\n" % b"".join(map(self._line, messages))

    def _line(self, values: Sequence[bytes]) -> bytes:
        quoted = list(map(_quoted, values))
        arguments = zip(self.operations, quoted[self._key_length :])
        written = quoted[: self._key_length] if self.operations else quoted
        written += [part for one, argument in arguments for part in (one.word.encode(), one.column.encode(), argument)]
        return b"%b %b\n" % (self.word.encode(), b",".join(written) or b'""')

    def batch(self, messages: Sequence[Sequence[bytes]], places: Sequence[int], unit: str = "line") -> Batch:
        """The batch of messages with texts that have line breaks."""
        if not self.columns:
            raise no_table()
        script = self.script([value.translate(SPACES_OF_BREAKS) for value in values] for values in messages)
        if self._packed_operations is None:
            return Batch(script, places, unit)
        if reason := empty_session(Trees([self._there])).explain(script):
            return Batch(script, places, unit, refusal=refusal_reply(reason.refusal, reason.item), value=self._value(messages, reason))
        return Batch(script, places, unit, HEADER.pack(MAGIC, len(messages)) + b"".join(map(self._packed, messages)))

    def _value(self, messages: Sequence[Sequence[bytes]], reason: Reason) -> bytes | None:
        """The value at fault, if it is one: the fields of an operation are its word, its column and its value."""
        key, place = self._key_length, reason.field - 1
        return messages[reason.item - 1][place if place < key or not self.operations else key + (place - key) // 3] if reason.field else None

    def _packed(self, values: Sequence[bytes]) -> bytes:
        """A message as a packed change."""
        found = [VALUE_BYTES[column.kind](values_of_fields([value.decode()], column.kind)[0]) for value, column in zip(values, self.columns)]
        head, operations = bytes([WORDS[self.word]]), self._packed_operations
        if self.word != "ups" or operations is None:
            return head + b"".join(found)
        count = self._key_length
        arguments = [operations[2 * place : 2 * place + 2] + argument for place, argument in enumerate(found[count:])]
        return b"".join([head, *found[:count], bytes([len(arguments)]), *arguments])


# The lines of a text in which each record has a line, and no quote looks broken.
ONE_LINE_RECORDS = re.compile(rb'(?>[^"\n]*+\n|(?>%b)?+%b(?>,%b)*+\r?\n)*+' % (MARK, SOUND_FIELD, SOUND_FIELD))


def _is_broken(value: bytes) -> bool:
    return b"\n" in value or b"\r" in value


def _has_breaks(body: bytes) -> bool:
    """Whether a quoted field of CSV has a line break, or looks broken."""
    if b'"' not in body:
        return False
    lines = body if body.endswith(b"\n") else body + b"\n"
    if matched(ONE_LINE_RECORDS, lines).end() < len(lines):
        return True
    return b"\r" in body and any(b"\r" in found[1] for found in QUOTED_FIELD.finditer(body))


def _records_with_breaks(body: bytes, number: int) -> list[tuple[int, bytes]]:
    """The records of a text whose first line has this number, each with the line in which it begins."""
    if broken := next(broken_quotes(body, number), None):
        raise Problem(400, str(broken), line=broken.first)
    found, at = [], 0
    for record in RECORD.finditer(body):
        number += body.count(b"\n", at, record.start())
        at = record.start()
        if body.startswith(b"\r", record.end()) and not body.startswith(b"\r\n", record.end()):
            raise Problem(422, f"a carriage return is outside of quotes: {visible(record[0])}", line=number)
        found.append((number, record[0].removeprefix(MARK)))
    return found


# ---- CSV ----


def _header_of(body: bytes) -> tuple[list[str], int, bytes]:
    """The names in the first line that is not blank, its number, and what follows it."""
    number = 0
    while body:
        line, _, body = body.partition(b"\n")
        number += 1
        if record := line.removeprefix(MARK).removesuffix(b"\r"):
            return [name.decode(errors="replace").strip() for name in fields(record)], number, body
    raise Problem(422, "the body has no header, and header=1 says that it has one")


def _places(header: list[str], names: list[str], line: int) -> list[int]:
    """Where a record has the value of each column, by its header."""
    wrong = [f"'{name[:40]}' is not one of them" for name in header if name not in names][:1]
    wrong += [f"'{name}' is missing" for name in names if name not in header][:1]
    wrong += [f"'{name}' is there twice" for name in header if header.count(name) > names.count(name) > 0][:1]
    if wrong:
        raise Problem(422, f"the header has the columns {', '.join(names)}, in any order: {' and '.join(wrong)}", line=line)
    return list(range(len(names))) if header == names else [header.index(name) for name in names]


def _in_order(record: bytes, places: list[int]) -> bytes:
    """A record with its fields in another order. One of another length stays, and is refused."""
    values = fields(record.removesuffix(b"\r"))
    return b",".join(map(_quoted, _reordered(values, places))) or b'""' if len(values) == len(places) else record


def _reordered(values: list[bytes], places: list[int]) -> list[bytes]:
    return [values[place] for place in places] if len(values) == len(places) else values


def _quoted(value: bytes) -> bytes:
    """A value as a field of a line, in quotes if it needs them: a byte order mark at the start of a record would be dropped."""
    return b'"' + value.replace(b'"', b'""') + b'"' if b'"' in value or b"," in value or value.startswith(MARK) else value


# ---- JSON ----


def _batch_of_json(body: bytes, content_type: str, form: Form) -> Batch:
    rows, places, unit = _json_rows(body, content_type)
    try:
        messages = [[value.encode() for value in _values(row, form.columns, {unit: place})] for row, place in zip(rows, places)]
    except UnicodeEncodeError:
        raise Problem(422, "a text has half of a surrogate pair, which UTF-8 does not have") from None
    has_breaks = any(_is_broken(value) for values in messages for value in values)
    return form.batch(messages, places, unit) if has_breaks else Batch(form.script(messages), places, unit)


def _json_rows(body: bytes, content_type: str) -> tuple[list[Any], Sequence[int], str]:
    """The rows of a body of JSON, and their places there."""
    if content_type in JSON_LINES:
        lines = [(number, line) for number, line in enumerate(body.split(b"\n"), 1) if line.strip()]
        return [_parsed(line, number) for number, line in lines], [number for number, _ in lines], "line"
    rows = _parsed(body, None)
    if not isinstance(rows, list):
        raise Problem(422, "a body of JSON is a list of rows: [{..}, {..}]. One row in each line has the type application/x-ndjson")
    return rows, range(1, len(rows) + 1), "row"


def _parsed(text: bytes, line: int | None) -> Any:
    try:
        return json.loads(text)
    except (ValueError, RecursionError) as fault:
        raise Problem(400, f"the body is no JSON: {fault}", **(dict[str, Any]() if line is None else {"line": line})) from None


def _values(row: Any, columns: Sequence[TreeColumn], place: dict[str, Any]) -> list[str]:
    """The values of the fields of a row of JSON."""
    names = [column.name for column in columns]
    if isinstance(row, dict):
        wrong = [f"'{name[:40]}' is no column here" for name in row if name not in names] + [f"'{name}' is missing" for name in names if name not in row]
        if wrong:
            raise Problem(422, f"{wrong[0]}: an object has the columns {', '.join(names)}", **place)
        row = [row[name] for name in names]
    elif not isinstance(row, list):
        raise Problem(422, f"{_shown(row)} is no row: a row is an object, or a list, of the columns {', '.join(names)}", **place)
    if len(row) != len(names):
        raise Problem(422, f"{len(row)} values, and a row here has {len(names)} ({', '.join(names)})", **place)
    return [_field(value, column, place) for value, column in zip(row, columns)]


def _field(value: Any, column: TreeColumn, place: dict[str, Any]) -> str:
    """The value of the field of a value of JSON."""
    kind, name = JSON_TYPES[column.kind]
    if type(value) is not kind:
        advice = ""
        if value is None:
            advice = ": there is no null, so send a value that means none"
        elif type(value) is float and kind is int:
            advice = ": decimals are stored as ints of a fixed unit, as 1250 for 12.50"
        reason = f"{_shown(value)} is not {name}{advice}"
        raise Problem(422, f"column '{column.name}' ({column.kind}): {reason}", column=column.name, value=value, **place)
    return value if isinstance(value, str) else str(value).lower()


def _shown(value: Any) -> str:
    text = json.dumps(value, ensure_ascii=False)
    return text if len(text) <= 60 else text[:57] + "..."

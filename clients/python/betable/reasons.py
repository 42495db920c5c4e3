"""Why the engine refuses a record: its reason, a session without rows that gives the same reasons as another table, and what is said of a field."""

from __future__ import annotations

import re
from enum import IntEnum
from typing import TYPE_CHECKING, NamedTuple

from .language import GREATEST_INT, INT, LEAST_INT, MOST_TEXT_BYTES, counted, int_of, reason_for_no_number, visible
from .schema import Trees

if TYPE_CHECKING:
    from .session import ScriptSession


class Problem(IntEnum):
    """What is wrong with a field, or with a record as a whole."""

    FIELD_COUNT = 1
    NO_INT = 2
    INT_RANGE = 3
    TOO_LONG = 4
    NO_TEXT = 5
    NO_FLAG = 6
    NO_HEX = 7
    ODD_DIGITS = 8
    NO_OPERATION = 9
    NO_COLUMN = 10
    KEY_COLUMN = 11
    NO_INT_COLUMN = 12
    MANY_MESSAGES = 13
    SECOND_MARK = 14
    NO_HEADER = 15
    OTHER_NAME = 16


class Reason(NamedTuple):
    """Why a command is refused because of its records: the number of the refusal, the item at fault, its field, or 0 if it is no single one, and what is wrong
    with it. Both are counted from 1. The header of a load is item 0, and the bounds of a range are 1 and 2."""

    refusal: int
    item: int
    field: int
    problem: Problem


# ---- the engine ----

# A line break in quotes would end the line of a record. With a space in its place the record has the same reason.
SPACES_OF_BREAKS = bytes.maketrans(b"\n\r", b"  ")


def empty_session(trees: Trees) -> ScriptSession:
    """A session with a table of the same columns and indexes, and without rows. Its reasons are those of the table."""
    from .session import ScriptSession  # whose calls have these reasons in their errors

    rows, session = trees.tree(), ScriptSession()
    script = [f"table 16 1024 256 {len(rows.key)} {' '.join(f'{column.name}:{column.kind}' for column in rows.columns)}\n"]
    for tree in trees[1:]:
        on, included = tree.names[: len(tree.key) - len(rows.key)], tree.names[len(tree.key) :]
        script.append(f"index {tree.name} on {','.join(on)}{' include ' + ','.join(included) if included else ''}\n")
    session.replies("".join(script))
    return session


# ---- fields ----

HEXADECIMAL = b"0123456789abcdefABCDEF"


def problem_of(kind: str, field: bytes) -> Problem | None:
    """What is wrong with a field that the engine has not read, as a value of a kind."""
    match kind:
        case "int" if not INT.fullmatch(field):
            return Problem.NO_INT
        case "int" if len(field.lstrip(b"-0")) > 19 or not LEAST_INT <= int_of(field) <= GREATEST_INT:
            return Problem.INT_RANGE
        case "text" if len(field) > MOST_TEXT_BYTES:
            return Problem.TOO_LONG
        case "text" if field.decode(errors="ignore").encode() != field:
            return Problem.NO_TEXT
        case "flag" if field.lower() not in (b"true", b"false"):
            return Problem.NO_FLAG
        case "bytes" if field.lstrip(HEXADECIMAL):
            return Problem.NO_HEX
        case "bytes" if len(field) % 2:
            return Problem.ODD_DIGITS
        case "bytes" if len(field) > 2 * MOST_TEXT_BYTES:
            return Problem.TOO_LONG
    return None


def value_fault(kind: str, field: bytes) -> str | None:
    """Why a field that the engine has not read is no value of a kind, or None."""
    problem = problem_of(kind, field)
    return None if problem is None else reason_of_value(problem, kind, field)


def reason_of_value(problem: Problem, kind: str, field: bytes) -> str:
    """What is wrong with a field that is no value of its kind."""
    shown = f"'{visible(field, 40)}'"
    match problem:
        case Problem.NO_INT:
            return reason_for_no_number(field)
        case Problem.INT_RANGE if field.startswith(b"-"):
            return f"{shown} is below the smallest int, {LEAST_INT}"
        case Problem.INT_RANGE:
            return f"{shown} is over the largest int, {GREATEST_INT}"
        case Problem.TOO_LONG:
            count, what = (len(field), "a text") if kind == "text" else (len(field) // 2, "a value")
            return f"{count:,} bytes, and {what} has at most {MOST_TEXT_BYTES}: {shown}"
        case Problem.NO_TEXT:
            place = len(re.split("[\udc80-\udcff]", field.decode(errors="surrogateescape"))[0].encode())
            return f"byte {place + 1} of '{visible(field, 40, place)}' is {field[place]:02X}, which is no UTF-8 there"
        case Problem.NO_FLAG:
            return f"{shown} is neither true nor false" if field else "the field is empty, and a flag is true or false"
        case Problem.NO_HEX:
            place = len(field) - len(field.lstrip(HEXADECIMAL))
            return f"letter {place + 1} of '{visible(field, 40, place)}' is no hexadecimal digit"
    return f"{shown} has {counted(len(field), 'digit')}, and bytes have two each"

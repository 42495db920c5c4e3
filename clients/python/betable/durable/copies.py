"""Copies of durable tables with other columns: `copy`, also by `python3 -m betable copy OLD NEW`.

The lines that made the old table are in a checkpoint of it, as docs/ENGINE.md describes one. The new file has its name once it was opened and is whole.
"""

from __future__ import annotations

import argparse
import os
import sys
from collections.abc import Iterable, Mapping
from typing import Any, NamedTuple

from ..calls import checked_kind, checked_name
from ..errors import Corrupt, InDoubt, IndexBuilding, InUse, NewerFormat, NotATable, OtherEngine, Refused, RolledBack, RowError
from ..language import INDEX, MOST_DIGITS, PRIMARY, Definitions, Line, index_of, matched
from ..rows import EXACT_TYPES, Value, plain_value, value_of_field
from ..schema import TreeColumn
from ..session import Session
from .file_requests import checkpoint_of
from .table import Durable, open as open_table, renamed_when_whole

PAGE_ROWS = 16_384
FAULTS = (
    OSError, ValueError, TypeError, Refused, RowError, Corrupt, InDoubt, IndexBuilding, InUse, NewerFormat, NotATable, OtherEngine, RolledBack, MemoryError,
)  # fmt: skip


class Plan(NamedTuple):
    """What a copy has: the lines that make it, its columns, the places of its rows' values in those of the old table, and the values that are added to each
    row."""

    definitions: Definitions
    columns: list[TreeColumn]
    places: list[int]
    added: tuple[Value, ...]


def copy(
    old: str | os.PathLike[str],
    new: str | os.PathLike[str],
    *,
    add: Mapping[str, str | tuple[str, Any]] | None = None,
    rename: Mapping[str, str] | None = None,
    drop: Iterable[str] = (),
) -> int:
    """Copies a table, which nobody may have open, to a new file with other columns, and returns the number of its rows.

    `add` has the kind of each new column, or its kind and the value that all rows get: the columns come after the others. `rename` has the new names of
    columns, and `drop` the names of those that are left out. Indexes are made again, with the new names. Request ids are kept. The old table gets a checkpoint
    first. ValueError says what cannot be done; then, and after any other fault, there is no new file."""
    old, new = (os.path.abspath(os.fsdecode(name)) for name in (old, new))
    if os.path.lexists(new):
        raise FileExistsError(f"{new} is there already: a copy is written to a new file")
    if not os.path.exists(old):
        raise FileNotFoundError(f"{old} is not there")
    with open_table(old) as source, renamed_when_whole(new) as part:
        if not source.trees():
            raise ValueError(f"{old} has no table yet")
        if (found := checkpoint_of(old)) is None:
            source.checkpoint()
            found = checkpoint_of(old)
        if found is None:
            raise Corrupt(old, None, "it does not begin with its checkpoint")
        definitions, requests = found
        count = _write(part, source, _plan(source, definitions, add or {}, rename or {}, [drop] if isinstance(drop, str) else [*drop]), requests)
        with open_table(part) as table:
            if (rows := table.count()) != count:
                raise Corrupt(part, None, f"it has {rows:,} rows, and not {count:,}")
    return count


def _plan(source: Durable, definitions: Definitions, add: Mapping[str, str | tuple[str, Any]], rename: Mapping[str, str], drop: list[str]) -> Plan:
    """What the copy has. ValueError if that is no table."""
    there = source.trees().tree()
    names = there.names
    for name in [*rename, *drop]:
        if name not in names:
            raise ValueError(f"there is no column '{name}': the columns are {', '.join(names)}")
    if both := set(rename) & set(drop):
        raise ValueError(f"the column '{min(both)}' is renamed and dropped")
    for name in drop:
        if name in names[: len(there.key)]:
            raise ValueError(f"the column '{name}' belongs to the key, so it cannot be dropped")
        for index, its in _columns_of_indexes(definitions).items():
            if name in its:
                raise ValueError(f"the index '{index}' needs the column '{name}': drop the index first")
    kept = [column for column in there.columns if column.name not in drop]
    added = [_added(name, given) for name, given in add.items()]
    columns = [column._replace(name=checked_name(rename.get(column.name, column.name), "a column")) for column in kept] + [column for column, _ in added]
    found = [column.name for column in columns]
    if twice := [name for name in found if found.count(name) > 1]:
        raise ValueError(f"two columns would have the name '{twice[0]}'")
    table = b" ".join([*definitions[PRIMARY].words[:5], *(f"{column.name}:{column.kind}".encode() for column in columns)])
    lines = Definitions({name: Line(head.number, table if name == PRIMARY else _renamed(head.text, rename)) for name, head in definitions.items()})
    return Plan(lines, columns, [names.index(column.name) for column in kept], tuple(value for _, value in added))


def _columns_of_indexes(definitions: Definitions) -> dict[str, set[str]]:
    """The names of the columns that each index needs."""
    found = {}
    for name, head in definitions.items():
        if name != PRIMARY:
            index = index_of(head)
            found[name.decode()] = {one.decode() for one in [*index.on, *index.included, *(index.condition or ())[:1]]}
    return found


def _added(name: str, given: Any) -> tuple[TreeColumn, Value]:
    """A new column, and its value in all rows."""
    kind, *values = given if isinstance(given, (tuple, list)) else (given,)
    column = TreeColumn(checked_name(name, "a column"), checked_kind(kind), False)
    if len(values) > 1:
        raise ValueError(f"column '{name}': a new column has a kind, or a kind and a value")
    return column, plain_value(values[0], column) if values else _default(kind)


def _default(kind: str) -> Value:
    """What a new column of a kind has in all rows unless you say it: 0, False, or nothing."""
    value: Value = EXACT_TYPES[kind]()
    return value


def _renamed(line: bytes, rename: Mapping[str, str]) -> bytes:
    """The line of an index, with the new names of its columns. Its constant stays as it is."""
    found = matched(INDEX, line)
    for group in (3, 2, 1):
        if found[group] is not None:
            begin, end = found.span(group)
            names = [rename.get(name.decode(), name.decode()).encode() for name in line[begin:end].split(b",")]
            line = line[:begin] + b",".join(names) + line[end:]
    return line


def _write(part: str, source: Durable, plan: Plan, requests: bytes) -> int:
    """Writes the copy, and returns the number of its rows."""
    lines = {name: line.text for name, line in plan.definitions.items()}
    with Session() as trial, open_table(part) as target:
        # What the library refuses, such as too many columns or a text that is too long, is refused by its reason.
        trial.run(b"\n".join([*lines.values(), b""]))
        if plan.added:
            trial.put([(*[_default(column.kind) for column in plan.columns[: len(plan.places)]], *plan.added)])
        target.run(lines.pop(PRIMARY) + b"\n")
        count = target.put(tuple([row[place] for place in plan.places]) + plan.added for row in source.iterate(page=PAGE_ROWS))
        target.run(b"".join(b"%b\nbuild %b %d\n" % (line, name, 10**MOST_DIGITS - 1) for name, line in lines.items()))
        target._bytes.run_frames(requests)
        target.checkpoint()
    return count


# ---- the command line ----

DESCRIPTION = """\
Copies a durable table, which has to be closed, to a new file with other columns. All of its indexes are made again, and its request ids are kept."""


def add_words(parser: argparse.ArgumentParser) -> None:
    parser.add_argument("old", metavar="OLD", help="the file of the table")
    parser.add_argument("new", metavar="NEW", help="the new file")
    parser.add_argument("--add", metavar="NAME:KIND[=VALUE]", action="append", default=[], help="a new column after the others, and its value in all rows")
    parser.add_argument("--rename", metavar="OLD=NEW", action="append", default=[], help="a new name of a column")
    parser.add_argument("--drop", metavar="NAME", action="append", default=[], help="a column that is left out")


def run(words: argparse.Namespace) -> int:
    try:
        add = dict(_new_column(word) for word in words.add)
        rename = dict(_pair(word, "=", "--rename takes OLD=NEW") for word in words.rename)
        if len(add) < len(words.add) or len(rename) < len(words.rename):
            raise ValueError("a column is named twice")
        count = copy(words.old, words.new, add=add, rename=rename, drop=words.drop)
    except FAULTS as fault:
        print(f"betable copy: {fault}", file=sys.stderr)
        return 1
    print(f"{words.new} has the {count:,} rows of {words.old}.")
    return 0


def _pair(word: str, separator: str, form: str) -> tuple[str, str]:
    first, found, second = word.partition(separator)
    if not found:
        raise ValueError(f"{form}, and not {word!r}")
    return first, second


def _new_column(word: str) -> tuple[str, str | tuple[str, Any]]:
    name, rest = _pair(word, ":", "--add takes NAME:KIND or NAME:KIND=VALUE")
    kind, found, value = rest.partition("=")
    return name, (kind, value_of_field(value, TreeColumn(name, checked_kind(kind), False))) if found else kind

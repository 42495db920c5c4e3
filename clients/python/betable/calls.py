"""The calls of a table on values of Python. Everything that runs scripts has them: a class derives from `Calls`, and defines `replies` and `trees`."""

from __future__ import annotations

import os
import re
import sys
from abc import ABC, abstractmethod
from array import array
from collections import Counter
from collections.abc import Callable, Iterable, Iterator, Mapping, Sequence
from contextlib import AbstractContextManager, nullcontext, suppress
from io import BytesIO
from itertools import islice
from typing import Any, NamedTuple, NoReturn

from . import language
from .batches import Batch, Columns, Messages, Rows, UpsertRows, without_breaks
from .csv_input import BLOCK, Part, WrongRecords, parts, rows_of_records, several_are_wrong, wrong_records, wrong_records_of_load
from .errors import Refused, RowTypeError, RowValueError, WrongRecord, told_with
from .faults import MEANINGS, Fault, faults_of_refusal
from .forms import OTHER_KINDS, name_fault
from .language import Command, has_line_breaks
from .messages import Message, Shape, columns_of_shape, delete, record, shape_of, shape_of_columns, upsert
from .packed import MOST_ROWS, Usage
from .ranges import delete_range
from .reasons import Reason
from .replies import Place, Reply, answered, kinds_of_rows, rows_of_reply
from .rows import (
    ARRAY_TYPES, VALUE_TYPES, VALUES, ColumnValues, Value, as_iterator, as_tuple, changes_by_column, columns_of_rows, key_fields, line_field, names_fault,
    part_of_column, plain_key, records, shown, values_by_column,
)  # fmt: skip
from .schema import UNKNOWN, Tree, TreeColumn, Trees, trees_after

MOST_MESSAGES = language.MOST_MESSAGES
CSV_ROWS = 10_000  # of a page that is written to a CSV file
Row = tuple[Value, ...]
# The first values of a key, or no bound.
Bound = tuple[Any, ...] | None


class Range(NamedTuple):
    """What a scan is of: a tree and its columns, the two bounds, the key of the row directly after which it begins, in place of the first bound, and whether the
    last row comes first. The values are plain."""

    name: str
    there: Tree
    start: Bound
    stop: Bound
    after: Bound = None
    newest_first: bool = False

    @property
    def script(self) -> str:
        """The scan in a script, which begins with the row of the key if there is one."""
        return f"scan {self.name}\n{bounds(self.there, self.start if self.after is None else self.after, self.stop)}go\n"

    def beyond(self, row: Row) -> Range:
        """The rest of the range after a row of it, in the order of the scan."""
        key = row[: len(self.there.key)]
        return self._replace(stop=key) if self.newest_first else self._replace(start=None, after=key)


# What calls a function with that which reads a table, and returns what it gives.
Read = Callable[[Callable[[Any], Any]], Any]


class Calls(ABC):
    """The calls on values. A class that derives from it gives `replies`, the bytes of the replies to a script, and `trees`, what its scripts have made."""

    def __init_subclass__(cls, **named: Any) -> None:
        super().__init_subclass__(**named)
        if "replies" in vars(cls) and "_replies_with_places" not in vars(cls):
            # The library does not know replies that a class has of its own.
            setattr(cls, "_replies_with_places", Calls._replies_with_places)

    @abstractmethod
    def replies(self, script: str | bytes) -> bytes:
        """The bytes of the replies to a script, whether commands are refused or not."""

    @abstractmethod
    def trees(self) -> Trees:
        """The trees of the table: that of its rows, and then its indexes in the order in which they were made. There are none before the table is made."""

    def run(self, script: str | bytes) -> list[Reply]:
        """The replies to the commands of a script. Each is a list of lines; its `rows` are the rows as tuples. After all commands are carried out, `Refused` is
        raised for the first command that was refused."""
        script = as_script(script)
        trees = self.trees()
        text, places = self._replies_with_places(script)
        found, refused = [], None
        for command, reply, is_refused in answered(language.commands(script), text, places):
            if refused is None and is_refused:
                refused = command, reply, trees
            found.append(Reply(reply.decode(), command.head.word, kinds_of_rows(trees, command)))
            trees = trees_after(trees, command, reply)
        if refused:
            raise refusal(*refused, found)
        return found

    def batch(self, messages: Iterable[Message], most: int = MOST_MESSAGES) -> int:
        """Applies messages of `put`, `delete` and `upsert` in order, and returns their number. More than `most` of them are several batches; each batch is
        applied whole or not at all."""
        given = as_iterator(messages, "messages", "[betable.put(..), betable.delete(..)]")
        return self._in_batches(given, most, Messages)

    def put(self, rows: Iterable[Any] | Mapping[str, Any], most: int = MOST_MESSAGES) -> int:
        """Puts rows, each a tuple or a list with a value for each column, or a dict by their names, and returns their number. More than `most` of them are
        several batches; each batch is applied whole or not at all. Rows may be given by columns too: a dict from the names of all columns to their values."""
        if isinstance(rows, Mapping):
            return self._put_columns(rows, most)
        if hasattr(rows, "columns") and hasattr(rows, "to_numpy"):
            raise TypeError("a data frame would give the names of its columns: write put_frame(frame)")
        given = as_iterator(rows, "rows", "[(1, ..), (2, ..)]")
        return self._in_batches(given, most, Rows)

    def put_frame(self, frame: Any, most: int = MOST_MESSAGES) -> int:
        """Puts the rows of a data frame of pandas, whose columns have the names of the table's, in any order, and returns their number. The index of the frame
        is left out."""
        columns = dict(frame.items())
        if len(columns) < len(frame.columns):
            raise ValueError(f"the data frame has columns of the same name: {', '.join(map(str, frame.columns))}")
        return self._put_columns(columns, most)

    def upsert_columns(self, key: Mapping[str, Any], most: int = MOST_MESSAGES, **operations: Mapping[str, Any]) -> int:
        """Applies upserts that are given by columns, in batches as `put` does, and returns their number. `key` is a dict from the names of the key columns to
        their values, and `set`, `add`, `max` and `min` are each a dict from columns to the values to do it with. The values of a column are a list, a tuple or
        an array, or one value for all upserts."""
        shape, values = shape_of(operations, "upsert_columns({'id': ids}, add={'qty': 1})")
        return self._apply_columns("ups", shape, key, values, most)

    def upsert_rows(self, rows: Iterable[Any], most: int = MOST_MESSAGES, **operations: Iterable[str]) -> int:
        """Applies an upsert for each row, in batches as `put` does, and returns their number. `set`, `add`, `max` and `min` are each a list of columns. A row
        is a tuple or a list of the values of the key, and those for the columns in the order set, add, max, min."""
        shape = shape_of_columns(operations, "upsert_rows([(1, 5)], add=['qty'])")
        columns_of_shape(shape, self._rows_tree())
        given = as_iterator(rows, "rows", "[(1, ..), (2, ..)]")
        return self._in_batches(given, most, lambda some: UpsertRows(shape, some, self._rows_tree()))

    def upsert_frame(self, frame: Any, most: int = MOST_MESSAGES, **operations: Iterable[str] | Mapping[str, Any]) -> int:
        """Applies an upsert for each row of a data frame of pandas, whose columns have the names of the key's, and returns their number. `set`, `add`, `max`
        and `min` are each a list of columns, which have the same names in the frame, or a dict from columns to those of the frame, or to one number for all
        rows."""
        found: dict[str, dict[str, Any]] = {}
        for operation, given in operations.items():
            pairs = given if isinstance(given, Mapping) else dict(zip(names := list(given), names))
            found[operation] = {name: _of_frame(frame, of) if isinstance(of, str) else of for name, of in pairs.items()}
        return self.upsert_columns({column.name: _of_frame(frame, column.name) for column in self._rows_tree().key}, most, **found)

    def delete_columns(self, key: Mapping[str, Any], most: int = MOST_MESSAGES) -> int:
        """Removes the rows of keys, as far as there are any, in batches as `put` does, and returns the number of keys. `key` is a dict from the names of the
        key columns to their values, which are a list, a tuple or an array, or one value for all keys."""
        return self._apply_columns("del", (), key, [], most)

    def upsert(self, *key: Any, **operations: Mapping[str, Any]) -> None:
        """Changes columns of the row of a key, as the message `betable.upsert` does: `set`, `add`, `max` and `min` are each a dict of columns and values."""
        self.batch([upsert(*key, **operations)])

    def delete(self, *key: Any) -> None:
        """Removes the row of a key, if there is one."""
        if key and all(isinstance(value, (tuple, list)) for value in key):
            advice = "the values of a key are given one by one, as delete(*key)"
            if len(key) > 1:
                advice = "a range is removed by delete_range('primary', start, stop)"
            raise RowTypeError(f"{shown(key[0])} is of type {type(key[0]).__name__}: {advice}", value=key[0])
        self.batch([delete(*key)])

    def delete_range(self, tree: str, start: Bound = None, stop: Bound = None, most: int = MOST_MESSAGES) -> int:
        """Removes the rows that a scan gives of a tree, `primary` or an index, from `start` to before `stop`, and returns how many there were. They are removed
        in batches of at most `most`, the first rows first. If the call ends in the middle, call it again."""
        _check_most(most)
        return delete_range(self, tree, start, stop, most)

    def load(self, rows: Iterable[Any]) -> int:
        """Fills a table that has no rows with these, all at once, and returns how many."""
        given = as_iterator(rows, "rows", "[(1, ..), (2, ..)]")
        columns = self._rows_tree().columns
        parts, taken = ["load\n", ",".join(column.name for column in columns), "\n"], 0
        while some := list(islice(given, MOST_MESSAGES)):
            part = records(some, columns, "", taken + 1, is_load=True)
            if ends_load(part.encode()):
                raise _with_point(some, columns, taken + 1)
            parts.append(part)
            taken += len(some)
        return self._loaded("".join([*parts, ".\n"]).encode())

    def load_csv(self, path: str | os.PathLike[str], progress: Callable[[int, int], object] | None = None) -> int:
        """Fills a table that has no rows with the records of a CSV file, which is UTF-8 and has a header of the table's columns, and returns how many. The
        bytes of the file are in memory once, and are handed over as they are. `put_csv` takes a file that is larger than memory allows. While the file is read,
        `progress` is called with the bytes that were read, and those of the file. The load itself is one call. If records are wrong, `Refused` names all."""
        self._table()
        written = BytesIO()
        written.write(b"load\n")
        with open(path, "rb") as file:
            size = os.fstat(file.fileno()).st_size
            _refuse_gzip(file.read(2), path)
            file.seek(0)
            while block := file.read(BLOCK):
                written.write(block)
                if progress is not None:
                    progress(file.tell(), size)
        end = written.tell()
        written.write(b"\n.\n")
        script = written.getvalue()
        if line := ends_load(script, len(b"load\n"), end):
            raise ValueError(f"{os.fspath(path)}, line {line}: a line that is a point alone would end the load")
        return self._loaded(script, os.fspath(path))

    def put_csv(
        self, path: str | os.PathLike[str], progress: Callable[[int, int], object] | None = None, most: int = MOST_MESSAGES,
        rejects: str | os.PathLike[str] | None = None,
    ) -> int:  # fmt: skip
        """Puts the records of a CSV file of any size, which is UTF-8 and has a header of the table's columns, in batches as `put` does, and returns how many
        were put. No more than a few batches of them are in memory. After each batch `progress` is called with the bytes that were read, and those of the file.

        If a record is wrong, its batch and those after it are not put, and `Refused` names all records of the file that are wrong. With the path of a new file
        as `rejects`, the wrong records are written there, after the header, and all others are put."""
        _check_most(most)
        table, taken, is_first = self._table(), 0, True
        with open(path, "rb") as file, WrongRecords(os.fsdecode(path), None if rejects is None else os.fsdecode(rejects)) as wrong:
            size = os.fstat(file.fileno()).st_size
            _refuse_gzip(file.read(2), path)
            file.seek(0)
            for part in parts(file, most):
                if is_first:
                    _check_header(part, table, path)
                    wrong.header, is_first = part.records[0], False
                    part = Part(part.records[1:], part.lines[1:], part.end)
                taken += self._put_part(part, taken, wrong)
                if progress is not None:
                    progress(part.end, size)
            wrong.refuse()
        return taken

    def to_csv(self, path: str | os.PathLike[str], tree: str = "primary", start: Bound = None, stop: Bound = None) -> int:
        """Writes the rows that a scan gives to a new CSV file, in UTF-8 and with a header, and returns their number. They are read and written a page at a
        time. Texts are in quotes where `load_csv` and `put_csv` need them. The file has its name once it is whole."""
        path = os.path.abspath(os.fsdecode(path))
        columns, rows = self.trees().tree(checked_name(tree, "a tree")).columns, self.iterate(tree, start, stop, CSV_ROWS)
        if os.path.lexists(path):
            raise FileExistsError(f"{path} is there already: rows are written to a new file")
        part, count = f"{path}.part", 0
        try:
            with open(part, "wb") as file:
                file.write(f"{','.join(column.name for column in columns)}\n".encode())
                while page := list(islice(rows, CSV_ROWS)):
                    file.write(records(page, columns, is_load=True).encode())
                    count += len(page)
            os.rename(part, path)
        except BaseException:
            with suppress(OSError):
                os.remove(part)
            raise
        return count

    def get(self, *key: Any) -> Row | None:
        """The row of a key, or None."""
        there = self._rows_tree(b"get 0\n")
        check_one_by_one(key)
        rows = self._rows(b"get", f"get {','.join(key_fields(key, there.key, 'a key'))}\n", there.kinds)
        return rows[0] if rows else None

    def scan(
        self, tree: str = "primary", start: Bound = None, stop: Bound = None, limit: int | None = None, after: Bound = None, *, newest_first: bool = False
    ) -> list[Row]:
        """The rows of a tree in ascending order of their keys, from those that begin with the values `start` to before those that begin with `stop`. If the key
        of a row is given as `after`, they begin directly after that row. With a limit they are the first ones, no more than that. With `newest_first` they
        are in descending order, from the last row of the range on, or from the one directly before that of `after`."""
        most, found = checked_limit(limit), self._range(tree, start, stop, after, newest_first)
        rows = self._rows(b"scan", found.script, found.there.kinds)
        if found.after is not None and rows and rows[0][: len(found.after)] == found.after:
            del rows[0]
        if found.newest_first:
            rows.reverse()
        return rows[:most]

    def iterate(
        self, tree: str = "primary", start: Bound = None, stop: Bound = None, page: int = 1_000, *, newest_first: bool = False
    ) -> Iterator[Row]:
        """The rows that a scan gives, which are read a page at a time as they are asked for. Each page begins directly after the last row of the one before, so
        no row comes twice; the rows that follow are those of the table when their page is read. What has only scripts reads all rows at once."""
        return self._iterated(lambda call: call(self), tree, start, stop, page, newest_first)

    def columns(self, tree: str = "primary") -> list[TreeColumn]:
        """The columns of the rows of a tree, each with its name, its kind, and whether it belongs to the key of the tree."""
        name = checked_name(tree, "a tree")
        there = self.trees().tree(name)
        if there is UNKNOWN:
            self._refuse_tree(name)
        return list(there.columns)

    def usage(self, tree: str = "primary") -> Usage:
        """How much a tree holds."""
        raise NotImplementedError("only a session, or a table over one, has 'usage': what has only scripts cannot tell it")

    def check(self, script: str | bytes) -> list[int]:
        """The places of the commands of a script that would be refused, counted from 0 as in the list that `run` returns."""
        raise NotImplementedError("only a session, or a table over one, has 'check': what has only scripts cannot tell it")

    def explain(self, script: str | bytes) -> Reason | None:
        """Why the first command of a script would be refused because of its records, or None."""
        raise NotImplementedError("only a session, or a table over one, has 'explain': what has only scripts cannot tell it")

    def sums(
        self, tree: str, columns: int, column: str, start: Bound = None, stop: Bound = None
    ) -> list[Row]:
        """For each group of rows that are equal in the tree's first columns: their number, the sum of a column, and the values of those columns. By 0 columns
        all rows are one group, even if there are none. Without a name for the column, as "", the sums are 0."""
        count, summed = checked_group(columns), checked_summed(column)
        name = checked_name(tree, "a tree")
        there = self.trees().tree(name)
        if summed or count > len(there.key) > 0:
            # A script has no group of 0 columns: the groups of one column are added up.
            script = f"sums {name} {max(count, 1)} {summed or there.names[0]}\n{bounds(there, start, stop)}go\n"
            groups: list[Any] = self._rows(b"sums", script, there.key_kinds[: max(count, 1)])
            return groups if count else [(sum(group[0] for group in groups), sum(group[1] for group in groups))]
        values = [row[:count] for row in self.scan(name, start, stop)]
        return [(number, 0, *group) for group, number in Counter(values).items()] if count else [(len(values), 0)]

    def count(self, tree: str = "primary", start: Bound = None, stop: Bound = None) -> int:
        """The number of rows that a scan gives. They are counted by the library: no row is made for it."""
        return int(self.sums(tree, 0, "", start, stop)[0][0])

    def scan_columns(
        self, tree: str = "primary", start: Bound = None, stop: Bound = None, limit: int | None = None, *, newest_first: bool = False
    ) -> dict[str, ColumnValues]:
        """The rows of `scan` by columns: a dict from their names to an `array` of ints, or to a list of other values."""
        rows = self.scan(tree, start, stop, limit, newest_first=newest_first)
        there = self.trees().tree(tree)
        return by_names(there, columns_of_rows(rows, there.kinds))

    def scan_frame(
        self, tree: str = "primary", start: Bound = None, stop: Bound = None, limit: int | None = None, *, newest_first: bool = False
    ) -> Any:
        """The rows of `scan` as a data frame of pandas."""
        import numpy
        import pandas  # type: ignore

        columns = self.scan_columns(tree, start, stop, limit, newest_first=newest_first)
        kinds = {column.name: column.kind for column in self.trees().tree(tree).columns}
        return pandas.DataFrame({name: numpy.asarray(values, dtype=ARRAY_TYPES[kinds[name]]) for name, values in columns.items()})

    def table(
        self, columns: str | Mapping[str, str] | Iterable[str | tuple[str, str]], keys: int = 1, fanout: int = 16, buffer: int | str = 1024, leaf: int = 256
    ) -> None:
        """Makes the table. Its columns are a text such as "id:int city:text", a dict from names to kinds, or a list of "id:int" or of pairs of a name and a
        kind. The first ones, as many as `keys`, are the key. The other numbers are those of `table` in a script: a buffer is a number of messages, or of bytes,
        as in "4096b"."""
        words = [f"{checked_name(name, 'a column')}:{checked_kind(kind)}" for name, kind in _columns_given(columns)]
        if isinstance(buffer, str) and not language.BUFFER.fullmatch(buffer.encode()):
            raise ValueError(f"a buffer is a number of messages, or of bytes, as in '4096b', and not {shown(buffer)}")
        numbers = [_checked_number(fanout, "a fanout"), buffer if isinstance(buffer, str) else _checked_number(buffer, "a buffer")]
        numbers += [_checked_number(leaf, "a leaf"), _checked_number(keys, "the number of key columns")]
        self.run(f"table {' '.join(numbers)} {' '.join(words)}\n")

    def index(
        self, name: str, on: str | Sequence[str], include: str | Sequence[str] = (), where: tuple[str, str, Any] | None = None, build: bool = True
    ) -> None:
        """Makes an index on columns, which includes others, and builds it: a list of names, or a text of them with commas between. `where` selects rows by a
        column, an operator (=, < or >=) and a value. Without `build` the index is made only, and the command `build` reads the rows in steps."""
        parts = [f"index {checked_name(name, 'an index')} on {_checked_names(on)}"]
        if include:
            parts.append(f"include {_checked_names(include)}")
        if where is not None:
            parts.append(f"where {self._condition(where)}")
        self.run(" ".join(parts) + "\n" + (f"build {name} {10**language.MOST_DIGITS - 1}\n" if build else ""))

    def rebuild(self, tree: str = "primary") -> None:
        """Packs a tree again in the order of its keys, with all that is pending in it. Its rows stay as they are; after puts in random order reads take less
        time."""
        script = f"rebuild {checked_name(tree, 'a tree')}\n".encode()
        self._refuse_if_refused(script, self.replies(script), 0, None)

    # What the calls share.

    def _without_others(self) -> AbstractContextManager[Any]:
        """A context in which no other thread makes a call. What has a lock of its own takes it."""
        return nullcontext()

    def _replies_with_places(self, script: bytes) -> tuple[bytes, list[Place] | None]:
        """The bytes of the replies to a script, and the place of each, or None where nothing but their text says that."""
        return self.replies(script), None

    def _iterated(self, read: Read, tree: str, start: Bound, stop: Bound, page: int, newest_first: bool) -> Iterator[Row]:
        """The rows of `iterate`. `read` calls what it is given with that which reads, a page at a time, if there are pages."""
        checked_page(page)
        return iter(self.scan(tree, start, stop, newest_first=newest_first))

    def _range(self, tree: Any, start: Bound, stop: Bound, after: Bound = None, newest_first: Any = False) -> Range:
        """What a scan is of, whose arguments are checked."""
        name = checked_name(tree, "a tree")
        if not isinstance(newest_first, bool):
            raise TypeError(f"'newest_first' is True or False, and not {shown(newest_first)}")
        there = self.trees().tree(name)
        if there is UNKNOWN:
            return Range(name, there, None, None)
        lower, upper = [None if values is None else plain_key(values, there.key, "a bound", is_prefix=True) for values in (start, stop)]
        if after is not None:
            key = plain_key(after, there.key, "the key of the row before")
            if newest_first:
                # The place directly before a row is the bound of its whole key.
                upper = key if upper is None or key[: len(upper)] < upper else upper
            elif lower is None or key[: len(lower)] >= lower:
                return Range(name, there, None, upper, key)
        return Range(name, there, lower, upper, None, newest_first)

    def _refuse_tree(self, name: str) -> NoReturn:
        """Raises the refusal, in words, of a call on a tree that is unknown."""
        self._rows(b"scan", f"scan {name}\ngo\n", [])
        raise RuntimeError(f"a call on the tree '{name}' is refused, and its rows are not")

    def _condition(self, where: Any) -> str:
        """The condition of an index."""
        if not isinstance(where, (tuple, list)) or len(where) != 3:
            raise TypeError(f"a condition is a tuple of a column, an operator and a value, and not {shown(where)}: write ('qty', '>=', 15)")
        name, operator, value = where
        checked_name(name, "a column")
        if operator not in (operators := [one.decode() for one in language.OPERATORS]):
            known = {">": f"of ints '> {value}' is '>= {value + 1}'", "<=": f"of ints '<= {value}' is '< {value + 1}'"} if type(value) is int else {}
            advice = f": {known[operator]}" if operator in known else ": write '='" if operator == "==" else ""
            raise ValueError(f"an operator is one of {', '.join(operators)}, and not {shown(operator)}{advice}")
        column = next((one for one in self._rows_tree().columns if one.name == name), None)
        return f"{name} {operator} {record([value]) if column is None else line_field(value, column, None)}"

    def _put_part(self, part: Part, taken: int, wrong: WrongRecords) -> int:
        """Puts the records of a part of a CSV file that are not wrong, and returns how many. Once nothing more is put, they are only looked at."""
        table, faults = self._table(), None
        if wrong.has_ended or has_line_breaks(part.records):
            faults = wrong_records(part, table)
        elif part.records:
            script = b"batch\nput %b\nend\n" % b"\nput ".join(part.records)
            with told_with(taken):
                reply = self.replies(script)
            if reply.startswith(b"refused "):
                faults = wrong_records(part, table)
                if not faults:
                    self._refuse_if_refused(script, reply, taken, None, wrong.path, part.lines)
        if faults:
            part = wrong.add(part, faults, taken)
            return 0 if wrong.has_ended else self._put_part(part, taken, wrong)
        if wrong.has_ended:
            return 0
        if faults is not None:
            self._put_values(part, table, taken, wrong.path)
        return len(part.records)

    def _put_values(self, part: Part, table: Trees, taken: int, path: str) -> None:
        """Puts records as rows of values, since texts of them have line breaks, which no script has."""
        try:
            self._apply_after(Rows(list(rows_of_records(part.records, table))), table.tree(), taken)
        except RowValueError as fault:
            place = (fault.row or taken + 1) - taken - 1
            reason = f"{path}, line {part.lines[place]}: {fault.reason}"
            raise RowValueError(reason, column=fault.column, value=fault.value, taken=taken) from None

    def _put_columns(self, rows: Mapping[Any, Any], most: int) -> int:
        """Puts rows that are given by columns, `most` at a time."""
        _check_most(most)
        there = self._rows_tree()
        columns = there.columns
        values, count = values_by_column(rows, columns)

        def batches() -> Iterator[tuple[Batch, Tree, int]]:
            for taken in range(0, count, most):
                parts = [part_of_column(one, column.kind, taken, taken + most) for one, column in zip(values, columns)]
                yield Columns("put", (), parts, min(most, count - taken), there), there, taken

        self._apply_all(batches())
        return count

    def _apply_columns(self, word: str, shape: Shape, key: Mapping[str, Any], values: list[Any], most: int) -> int:
        """Applies changes that are given by columns, `most` at a time: the values of the keys, and those of the operations of the shape."""
        _check_most(most)
        there = self._rows_tree()
        if not isinstance(key, Mapping):
            said = f"the values of a key are a dict by its columns, and not {shown(key)} of type {type(key).__name__}"
            raise TypeError(f"{said}: write {{'{there.names[0]}': [..]}}")
        names = [column.name for column in there.key]
        if reason := names_fault(key, names):
            raise RowValueError(f"{reason}: keys by columns are a dict from each of the names {', '.join(names)} to its values", value=key)
        given = [(column, key[column.name]) for column in there.key] + [*zip(columns_of_shape(shape, there), values)]
        found, count = changes_by_column(given)

        def batches() -> Iterator[tuple[Batch, Tree, int]]:
            for taken in range(0, count, most):
                parts = [_part_of_change(one, column, taken, most) for one, (column, _) in zip(found, given)]
                yield Columns(word, shape, parts, min(most, count - taken), there), there, taken

        self._apply_all(batches())
        return count

    def _table(self, command: bytes = b"batch\nend\n") -> Trees:
        """The trees of the table. If there is none, the command is refused, and the refusal says why."""
        trees = self.trees()
        if not trees:
            self._refuse_if_refused(command, self.replies(command), 0, None)
            raise RuntimeError("a command on the table is carried out, and there is no table")
        return trees

    def _rows_tree(self, command: bytes = b"batch\nend\n") -> Tree:
        return self._table(command).tree()

    def _in_batches(self, given: Iterator[Any], most: int, make: Callable[[list[Any]], Batch]) -> int:
        """Applies what is given, `most` at a time, as the batches that are made of it, and returns how many there were."""
        _check_most(most)
        taken = 0

        def batches() -> Iterator[tuple[Batch, Tree, int]]:
            nonlocal taken
            while True:
                some = list(islice(given, most))
                there = self._rows_tree()
                if some:
                    yield make(some), there, taken
                    taken += len(some)
                if len(some) < most:
                    return

        self._apply_all(batches())
        return taken

    def _apply_all(self, batches: Iterator[tuple[Batch, Tree, int]]) -> None:
        """Applies the batches of a call in order, each with its tree, and with how many rows of the call come before it."""
        for batch, there, taken in batches:
            self._apply_after(batch, there, taken)

    def _apply_after(self, batch: Batch, there: Tree, taken: int) -> None:
        """Applies one batch of a call, of which so many rows were applied before."""
        with told_with(taken):
            self._apply(batch, there, taken)

    def _apply(self, batch: Batch, there: Tree, taken: int) -> None:
        """Applies one batch: as packed bytes, or as a script if there are none."""
        packed = self._packed(batch, there, taken)
        if packed is None:
            script = f"batch\n{batch.lines(there, taken)}end\n".encode()
            self._refuse_if_refused(script, self.replies(script), taken, batch)
        elif refusal := self._apply_packed(packed):
            self._refuse_batch(refusal, batch, there, taken)

    def _refuse_batch(self, refusal: bytes, batch: Batch, there: Tree, taken: int) -> None:
        """Raises the refusal of packed changes. The script of the batch says why."""
        script = f"batch\n{without_breaks(batch, there, taken).lines(there, taken)}end\n".encode()
        self._refuse_if_refused(script, refusal, taken, batch)

    def _packed(self, batch: Batch, there: Tree, taken: int) -> bytes | None:
        """The bytes of a batch, or None where only scripts are run, or if a value cannot be packed. Raises RowError for a value that its column does not
        take."""
        return None

    def _apply_packed(self, changes: bytes) -> bytes:
        """Applies packed changes, all or none. The reply that a batch of a script has which is refused so, or no bytes."""
        raise NotImplementedError

    def _loaded(self, script: bytes, path: str | None = None) -> int:
        reply = self.replies(script)
        self._refuse_if_refused(script, reply, 0, None, path)
        return int(reply.split()[1])

    def _rows(self, word: bytes, script: str, kinds: Sequence[str]) -> list[Row]:
        given = script.encode()
        reply = self.replies(given)
        self._refuse_if_refused(given, reply, 0, None)
        return rows_of_reply(word, reply.decode(), kinds)

    def _refuse_if_refused(
        self, script: bytes, reply: bytes, taken: int, batch: Batch | None, path: str | None = None, lines: Sequence[int] = ()
    ) -> None:
        if reply.startswith(b"refused "):
            command = next(language.commands(script))
            items = None if batch is None else batch.items
            raise refusal(
                command, reply, self.trees(), [Reply(reply.decode(), command.head.word)], taken, items, path, lines, is_of_script=False
            )  # fmt: skip


def _part_of_change(values: Any, column: TreeColumn, taken: int, most: int) -> Any:
    """The values of a column of one batch, or the one value for all."""
    return values if type(values) in VALUE_TYPES else part_of_column(values, column.kind, taken, taken + most)


def _of_frame(frame: Any, name: str) -> Any:
    """A column of a data frame."""
    if name not in frame.columns:
        raise ValueError(f"the data frame has no column {name!r}: its columns are {', '.join(map(str, frame.columns))}")
    return frame[name]


def check_one_by_one(key: tuple[Any, ...]) -> None:
    """That a key to get is not given as one tuple."""
    if len(key) == 1 and isinstance(key[0], (tuple, list)):
        raise RowTypeError(f"{shown(key[0])} is of type {type(key[0]).__name__}: the values of a key are given one by one, as get(*key)", value=key[0])


def by_names(there: Tree, columns: list[ColumnValues]) -> dict[str, ColumnValues]:
    """The columns of rows by their names; bytes are those of ints. A column that is twice in the key of an index has the same values twice."""
    return {column.name: array("q", values) if isinstance(values, bytes) else values for column, values in zip(there.columns, columns)}


def bounds(there: Tree, start: Any, stop: Any) -> str:
    """The lines of the bounds of a scan."""
    if start is None and stop is None or there is UNKNOWN:
        return ""
    given = [(word, values) for word, values in (("from", start), ("to", stop)) if values is not None]
    return "".join(f"{word} {','.join(key_fields(values, there.key, 'a bound', is_prefix=True))}\n" for word, values in given)


def as_script(script: Any) -> bytes:
    """A script as bytes."""
    if isinstance(script, str):
        return script.encode()
    if isinstance(script, (bytes, bytearray, memoryview)):
        return bytes(script)
    raise TypeError(f"a script is a str or bytes, and not {shown(script)} of type {type(script).__name__}")


def checked_name(name: Any, what: str) -> str:
    """A name, which is data and never a piece of a script."""
    if not isinstance(name, str):
        raise TypeError(f"{what} is named by a str, and not by {shown(name)} of type {type(name).__name__}")
    encoded = name.encode("utf-8", "surrogatepass")
    if not language.NAME.fullmatch(encoded):
        raise ValueError(f"{what}: {name_fault(encoded)}")
    return name


def checked_limit(limit: Any) -> int:
    """The most rows of a scan."""
    return MOST_ROWS if limit is None else _checked_count(limit, "the limit of a scan", 0)


def checked_page(page: Any) -> int:
    """The most rows of a page."""
    return _checked_count(page, "the size of a page", 1)


def _checked_count(count: Any, what: str, least: int) -> int:
    if isinstance(count, bool) or not isinstance(count, int):
        raise TypeError(f"{what} is an int, and not {shown(count)}")
    if count < least:
        raise ValueError(f"{what} is {least} or more, and not {shown(count)}")
    return min(count, MOST_ROWS)


def checked_group(columns: Any) -> int:
    """The number of columns of a group, as far as a script can have it."""
    if isinstance(columns, bool) or not isinstance(columns, int):
        raise TypeError(f"the number of columns of a group is an int, and not {shown(columns)}: write sums('by_city', 1, 'qty')")
    if not 0 <= columns <= 999_999_999:
        raise ValueError(f"the number of columns of a group is 0 to 8, and not {shown(columns)}")
    return columns


def checked_summed(column: Any) -> str:
    """The name of the column to sum, or no letters for none."""
    return "" if column == "" else checked_name(column, "a column")


def _check_most(most: Any) -> None:
    if most is not MOST_MESSAGES:
        if isinstance(most, bool) or not isinstance(most, int):
            raise TypeError(f"the size of a batch is an int, and not {shown(most)}")
        if not 1 <= most <= MOST_MESSAGES:
            raise ValueError(f"a batch has 1 to {MOST_MESSAGES:,} messages, and not {most:,}")


def _checked_number(number: Any, what: str) -> str:
    if isinstance(number, bool) or not isinstance(number, int):
        raise TypeError(f"{what} is an int, and not {shown(number)}")
    if not 0 <= number < 10**language.MOST_DIGITS:
        raise ValueError(f"{what} has one to {language.MOST_DIGITS} digits, and not {shown(number)}")
    return str(number)


def _columns_given(columns: Any) -> list[tuple[Any, Any]]:
    """The columns of a table, each its name and its kind."""
    if isinstance(columns, str):
        columns = columns.split()
    elif isinstance(columns, Mapping):
        return list(columns.items())
    found = []
    for column in as_iterator(columns, "the columns of a table", EXAMPLE_OF_COLUMNS):
        if isinstance(column, str) and ":" in column:
            name, _, kind = column.partition(":")
            found.append((name, kind))
        elif isinstance(column, (tuple, list)) and len(column) == 2:
            found.append((column[0], column[1]))
        else:
            raise ValueError(f"a column is its name, a colon and its kind, and not {shown(column)}: write {EXAMPLE_OF_COLUMNS}")
    return found


EXAMPLE_OF_COLUMNS = "'id:int city:text'"


def checked_kind(kind: Any) -> str:
    """A kind of columns."""
    if not isinstance(kind, str) or kind not in VALUES:
        name = kind.__name__ if isinstance(kind, type) else str(kind)
        advice = f": {OTHER_KINDS[name.lower()]}" if name.lower() in OTHER_KINDS else ""
        raise ValueError(f"a kind is one of {', '.join(VALUES)}, and not {shown(kind)}{advice}")
    return kind


def _checked_names(names: Any) -> str:
    """The names of columns, in a list of a script."""
    return ",".join(checked_name(name, "a column") for name in (re.split(", *", names) if isinstance(names, str) else names))


def _refuse_gzip(start: bytes, path: str | os.PathLike[str]) -> None:
    if start.startswith(b"\x1f\x8b"):
        raise ValueError(f"{os.fspath(path)} is compressed by gzip: unpack it first, as by gunzip")


def _check_header(part: Part, table: Trees, path: str | os.PathLike[str]) -> None:
    """The first record names the columns of the table in order."""
    found = language.fields(part.records[0]) if part.records else []
    if found != table.names:
        names, given = (b",".join(some).decode(errors="replace") for some in (table.names, found))
        where = f"{os.fspath(path)}, line {part.lines[0]}" if part.records else os.fspath(path)
        raise RowValueError(f"{where}: the header is {shown(given)}, and the columns are {names}", value=given)


LINE_OF_POINT = re.compile(rb"^\.\r?$", re.MULTILINE)


def ends_load(text: bytes, start: int = 0, end: int = sys.maxsize) -> int:
    """The number of the line that would end a load, of the CSV text from one place of these bytes, where a line begins, to before another, or 0."""
    has_point = text.find(b"\n.", start, end) >= 0 or text.startswith(b".", start, end)
    found = LINE_OF_POINT.search(text, start, end) if has_point else None
    return text.count(b"\n", start, found.start()) + 1 if found else 0


def _with_point(rows: list[Any], columns: Sequence[TreeColumn], row: int) -> RowValueError:
    for number, values in enumerate(rows, row):
        for column, value in zip(columns, as_tuple(values, columns, number, 0)):
            if isinstance(value, str) and ends_load(value.encode()):
                return RowValueError(f"{shown(value)} has a line that is a point alone, which would end the load", row=number, column=column.name, value=value)
    return RowValueError("a line that is a point alone would end the load", row=row)


# ---- refusals ----


def fault_of(command: Command, number: int, item: int | None, table: Trees) -> Fault | None:
    """The fault that a refusal of a command names: of several lines the one of its item."""
    line = None if item is None or command.head.word not in (b"batch", b"load") else command.line_of(item)
    return next((fault for fault in faults_of_refusal(command, number, table) if line is None or fault.line == line), None)


def _given_value(row: Any, column: str, columns: Sequence[TreeColumn], otherwise: Any) -> Any:
    """The value of a column as a caller gave it, in a row or a message."""
    if isinstance(row, Message):
        key, changes = row.parts()
        found = {column.name: value for column, value in zip(columns, key)} | {name: value for _, name, value in changes}
        return found.get(column, otherwise)
    return dict(zip((column.name for column in columns), as_tuple(row, columns, 0, 0)))[column]


def refusal(
    command: Command, reply: bytes, table: Trees, replies: list[Reply], taken: int = 0, rows: list[Any] | None = None, path: str | None = None,
    lines: Sequence[int] = (), is_of_script: bool = True,
) -> Refused:  # fmt: skip
    """The exception of a command that was refused, with the reason. Of a batch of records of a file, `lines` are theirs in the file."""
    number, name, *rest = reply.decode().split()[1:]
    item = int(rest[0]) if rest else None
    fault = fault_of(command, int(number), item, table)
    column = fault.column.decode(errors="replace") if fault is not None and fault.column is not None else None
    value: Any = fault.value.decode(errors="replace") if fault is not None and fault.value is not None else None
    reason = MEANINGS.get(int(number), "") if fault is None else fault.what()
    if fault is not None and fault.place:
        reason = f"{fault.place}: {reason}"
    row = taken + item if item is not None and rows is not None else None
    if int(number) == 3 and not is_of_script:
        reason = "There is no table yet. Make it first, as by table('id:int city:text')"
    if rows is not None and item is not None and column is not None:
        value = _given_value(rows[item - 1], column, table.tree().columns, value)
    wrong: list[WrongRecord] = []
    wrong_count = 0
    if path is not None and command.head.word == b"load" and int(number) in (6, 7):
        wrong, wrong_count = wrong_records_of_load(faults_of_refusal(command, int(number), table), command.head.number)
    if wrong_count > 1 and path is not None:
        reason = several_are_wrong(path, wrong_count)
    elif path is not None:
        line = fault.line - 1 if fault is not None and fault.line is not None else None
        if lines and line is not None:
            line = lines[line - 1]
        reason = f"{path}{'' if line is None else f', line {line}'}: {reason}"
    return Refused(
        command.head.number, int(number), name, item, replies, reason=reason, column=column, value=value, row=row, taken=taken, wrong=wrong,
        wrong_count=wrong_count, is_of_script=is_of_script,
    )  # fmt: skip

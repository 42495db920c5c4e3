"""The files of the prompt: a CSV file that is put into a table, and one that its rows are written to."""

from __future__ import annotations

import os
import sys
import time
from collections.abc import Callable, Iterator
from itertools import islice
from pathlib import Path
from typing import BinaryIO, NamedTuple

from ..calls import Calls, ends_load
from ..csv_input import Part, rows_of_records, wrong_records
from ..errors import RowValueError
from ..faults import MEANINGS, header_faults
from ..language import (
    CLOSING, MARK, MOST_MESSAGES, MOST_SCRIPT_BYTES, NAME, RECORD, Command, Line, counted, fields, has_line_breaks, printed_record, records,
)  # fmt: skip
from ..reasons import problem_of
from ..replies import line_blocks
from ..schema import Tree, Trees

READ_BYTES = 4 << 20
MOST_RECORD_BYTES = 1 << 20  # no record that a table takes has as many
MOST_REFUSALS = 10  # whose reasons are kept
GUESSED_RECORDS = 1_000
BAR = 30  # letters
LOAD_ENDS = (b"load\n", b"\n.\n")
BATCH_ENDS = (b"batch\n", b"end\n")

# A part of a file that is done, and how many rows are in.
Progress = Callable[[float, int], None]
Record = tuple[int, bytes]


class FileFault(Exception):
    """Why a file cannot be imported, or not be written."""


class RefusedRecord(NamedTuple):
    """A record that was refused: the line of the file in which it begins, and why."""

    line: int
    reason: str


class Imported(NamedTuple):
    """What an import has done so far: the rows that are in, the batches it took, or 0 of a load, how many records were refused, the first of them, and whether
    it has come to the end of the file."""

    rows: int = 0
    batches: int = 0
    refused: int = 0
    refusals: tuple[RefusedRecord, ...] = ()
    is_end: bool = False


# ---- CSV in ----


def import_csv(table: Calls, there: Trees, path: str, progress: Progress, most_bytes: int = MOST_SCRIPT_BYTES) -> Iterator[Imported]:
    """Puts the records of a CSV file into a table, and gives what was done after each script, of at most `most_bytes`.

    A file that fits one script is loaded if the table has no rows. Otherwise, or if that is refused, the records are put in batches; each batch is applied
    whole: records that are refused are left out, and the others are put."""
    try:
        with open(path, "rb") as stream:
            size = os.fstat(stream.fileno()).st_size
            first = stream.read(MOST_RECORD_BYTES)
            _expect_header(first, there, path)
            if size <= most_bytes - sum(map(len, LOAD_ENDS)):
                loaded = _loaded(table, first + stream.read())
                if loaded is not None:
                    progress(1, loaded)
                    yield Imported(loaded, is_end=True)
                    return
            stream.seek(0)
            yield from _Batches(table, there, progress, size, most_bytes).put_all(stream)
    except OSError as fault:
        raise FileFault(f"{path}: {fault.strerror or fault}") from None


def _expect_header(text: bytes, there: Trees, path: str) -> None:
    """That a file begins with the names of the table's columns."""
    if text.startswith(b"\x1f\x8b"):
        raise FileFault(f"{path} is compressed by gzip: unpack it first, as by gunzip")
    faults = header_faults(Command(Line(0, b"load"), CLOSING[b"load"], text, True), there)
    if faults:
        expected = b",".join(there.names).decode()
        raise FileFault(f"{path}: {'; '.join(': '.join(part for part in (fault.where(), fault.what()) if part) for fault in faults)}. Expected: {expected}")


def _loaded(table: Calls, text: bytes) -> int | None:
    """How many rows a load of a text has put, or None if it is refused."""
    if ends_load(text):
        return None
    reply = table.replies(text.join(LOAD_ENDS))
    return int(reply.split()[1]) if reply.startswith(b"loaded ") else None


class _Batches:
    """The records of a file in batches."""

    def __init__(self, table: Calls, there: Trees, progress: Progress, size: int, most_bytes: int) -> None:
        self.table, self.there, self.progress, self.size = table, there, progress, max(size, 1)
        self.room = most_bytes - sum(map(len, BATCH_ENDS))
        self.done = 0
        self.so_far = Imported()

    def put_all(self, stream: BinaryIO) -> Iterator[Imported]:
        found = self.records(stream)
        next(found, None)
        some: list[Record] = []
        left = self.room
        for record in found:
            need = len(b"put \n") + len(record[1]) + record[1].startswith(MARK) * (2 + record[1].count(b'"'))
            if len(some) == MOST_MESSAGES or need > left:
                yield self.put(some)
                some, left = [], self.room
            some.append(record)
            left -= need
        self.done = self.size
        yield self.put(some)._replace(is_end=True)

    def records(self, stream: BinaryIO) -> Iterator[Record]:
        """The records of a file with their lines. What is read of it at once is cut after its last whole record."""
        text, number = stream.read(READ_BYTES).removeprefix(MARK), 1
        while text:
            more, at = stream.read(READ_BYTES), 0
            for found in RECORD.finditer(text):
                number += text.count(b"\n", at, found.start())
                at = found.start()
                if found.end() == len(text) and more:
                    break
                yield number, found[0]
            else:
                number += text.count(b"\n", at)
                at = len(text)
            if len(text) - at > MOST_RECORD_BYTES:
                self.refuse([RefusedRecord(number, "a quoted field of this record is not closed: was a quote forgotten? The rest of the file is not read")])
                return
            self.done += at
            text = text[at:] + more

    def put(self, some: list[Record]) -> Imported:
        """Puts records by one batch, without those that are refused."""
        refused: list[RefusedRecord] = []
        while some and (wrong := self.tried(some)):
            refused += [RefusedRecord(some[place][0], reason) for place, reason in wrong.items()]
            some = [record for place, record in enumerate(some) if place not in wrong]
        self.refuse(sorted(refused))
        if some:
            self.so_far = self.so_far._replace(rows=self.so_far.rows + len(some), batches=self.so_far.batches + 1)
        self.progress(self.done / self.size, self.so_far.rows)
        return self.so_far

    def refuse(self, some: list[RefusedRecord]) -> None:
        refusals = (self.so_far.refusals + tuple(some))[:MOST_REFUSALS]
        self.so_far = self.so_far._replace(refused=self.so_far.refused + len(some), refusals=refusals)

    def tried(self, some: list[Record]) -> dict[int, str]:
        """Runs a batch of records. If it is refused, the places of those at fault with the reasons. Texts with line breaks are put as values, which no line
        has."""
        lines, raws = zip(*some)
        part, reply = Part([*raws], [*lines], 0), b""
        if not has_line_breaks(raws):
            reply = self.table.replies(b"".join([b"put %b\n" % (unmarked(raw) if raw.startswith(MARK) else raw) for raw in raws]).join(BATCH_ENDS))
            if reply.startswith(b"batch "):
                return {}
        if faults := wrong_records(part, self.there):
            return {place: ": ".join(text for text in (fault.place, fault.what()) if text) for place, fault in faults.items()}
        if not reply:
            try:
                self.table.put(rows_of_records(raws, self.there))
            except RowValueError as fault:
                # Without the extension only a load takes such texts.
                return {place: fault.reason for place, raw in enumerate(raws) if has_line_breaks([raw])}
            return {}
        words = reply.split()
        if len(words) < 4:
            raise FileFault(f"a batch was refused: {reply.decode().strip()}: {MEANINGS.get(int(words[1]), '')}")
        return {int(words[3]) - 1: MEANINGS[int(words[1])]}


def unmarked(raw: bytes) -> bytes:
    """A record whose first field begins with a byte order mark, which a line of a batch keeps only in quotes."""
    first, *others = fields(raw)
    return b'"%b"%b' % (first.replace(b'"', b'""'), b"".join(b"," + printed_record([field]) for field in others))


def suggested_table(path: str) -> str:
    """The line of a table for a CSV file: its names, with the kinds of the first records, and the first column as the key."""
    try:
        with open(path, "rb") as stream:
            text = stream.read(READ_BYTES)
    except OSError as fault:
        raise FileFault(f"{path}: {fault.strerror}") from None
    found = [fields(raw) for _, raw in islice(records(text), GUESSED_RECORDS + 1)]
    if not found or not all(NAME.fullmatch(name) for name in found[0]):
        raise FileFault(f"{path}: its first record has no names that a table can have, as id or city_name: tools/from_csv --csv writes a file with such names")
    columns = []
    for name, *values in zip(*found):
        kind = next(kind for kind in ("int", "flag", "text") if kind == "text" or not any(problem_of(kind, value) for value in values))
        columns.append(f"{name.decode()}:{kind}")
    return f"table 16 1024 256 1 {' '.join(columns)}"


# ---- CSV out ----


def export_csv(table: Calls, tree: Tree, path: str, progress: Progress) -> int:
    """Writes the rows of a tree to a new CSV file with a header, and returns how many there are. The file has its name once it is whole."""
    if os.path.lexists(path):
        raise FileFault(f"{path} is there already: rows are written to a new file")
    replies = table.replies(f"scan {tree.name}\ngo\n")
    if replies.startswith(b"refused "):
        raise FileFault(f"scan {tree.name}: {replies.decode().strip()}: {MEANINGS.get(int(replies.split()[1]), '')}")
    part, rows = Path(f"{path}.part"), 0
    try:
        with open(part, "w", encoding="utf-8", newline="") as stream:
            stream.write(",".join(tree.names) + "\n")
            count = int(replies[replies.rindex(b" ") :])
            for lines in line_blocks(replies):
                stream.writelines(f"{line}\n" for line in lines)
                rows += len(lines)
                progress(rows / count, rows)
        os.replace(part, path)
    except OSError as fault:
        raise FileFault(f"{path}: {fault.strerror}") from None
    finally:
        part.unlink(missing_ok=True)
    return rows


# ---- progress ----


class ProgressBar:
    """A bar at the terminal of how much is done, with the rows so far and the seconds that are left."""

    def __init__(self) -> None:
        self.is_shown = sys.stderr.isatty()
        self.start = time.monotonic()
        self.last = self.start

    def __call__(self, part: float, rows: int) -> None:
        now = time.monotonic()
        if self.is_shown and now - self.last > 0.2:
            self.last = now
            full = round(BAR * part)
            left = f", {(now - self.start) * (1 - part) / part:.0f} s left" if 0 < part < 1 else ""
            print(f"\r\033[K[{'#' * full}{'.' * (BAR - full)}] {part:4.0%}, {counted(rows, 'row')}{left}", end="", file=sys.stderr, flush=True)

    def end(self) -> None:
        if self.is_shown:
            print("\r\033[K", end="", file=sys.stderr, flush=True)

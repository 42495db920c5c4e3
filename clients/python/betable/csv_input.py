"""CSV files that are put in batches: their records, in parts that a batch can take, as they are in the file, and which of them are no rows of a table."""

from __future__ import annotations

import csv
import os
from collections.abc import Iterable, Iterator, Sequence
from io import StringIO
from itertools import islice
from types import TracebackType
from typing import BinaryIO, NamedTuple

from .errors import Refused, WrongRecord
from .faults import Fault, load_records
from .language import MARK, RECORD, broken_quotes
from .rows import Value, values_of_fields
from .schema import Trees

# The bytes of a file that are read at once.
BLOCK = 1 << 22
MOST_WRONG = 100  # records whose faults are kept
# The refusals of a record that has another number of fields, and of one whose field is no value of its column.
BAD_FIELD, BAD_LENGTH = (6, "BadField"), (7, "BadLength")


class Part(NamedTuple):
    """Records of a file, the line in which each of them begins, and the number of bytes of the file that were read by then."""

    records: list[bytes]
    lines: list[int]
    end: int


def parts(file: BinaryIO, most: int) -> Iterator[Part]:
    """The records of a CSV file, the header first, at most so many at a time."""
    records: list[bytes] = []
    lines: list[int] = []
    for found, numbers in _blocks(file):
        records += found
        lines += numbers
        whole = len(records) // most * most
        for at in range(0, whole, most):
            yield Part(records[at : at + most], lines[at : at + most], file.tell())
        del records[:whole], lines[:whole]
    yield Part(records, lines, file.tell())


def _blocks(file: BinaryIO) -> Iterator[tuple[list[bytes], Sequence[int]]]:
    """The records of each block of a file, with their lines. One that may go on in the next block is left for that."""
    text, line, is_last = file.read(len(MARK)).removeprefix(MARK), 1, False
    while not is_last:
        block = file.read(BLOCK)
        text, is_last = text + block, not block
        has_quotes = b'"' in text or b"\r" in text
        records, lines, end = (_records if has_quotes else _lines)(text, line, is_last)
        yield records, lines
        line += text.count(b"\n", 0, end)
        text = text[end:]


def _lines(text: bytes, line: int, is_last: bool) -> tuple[list[bytes], Sequence[int], int]:
    """The lines of a text without quotes, each a record unless it is blank, their numbers, and where they end."""
    end = len(text) if is_last else text.rfind(b"\n") + 1
    records = text[:end].removesuffix(b"\n").split(b"\n")
    lines: Sequence[int] = range(line, line + len(records))
    if b"" in records:
        lines = [number for number, record in zip(lines, records) if record]
        records = list(filter(None, records))
    return records, lines, end


def _records(text: bytes, line: int, is_last: bool) -> tuple[list[bytes], Sequence[int], int]:
    """The records of a text, the lines in which they begin, and where they end."""
    found = list(RECORD.finditer(text))
    end = len(text) if is_last or not found else found.pop().start()
    lines, at = [], 0
    for match in found:
        line += text.count(b"\n", at, match.start())
        at = match.start()
        lines.append(line)
    return [match[0] for match in found], lines, end


# ---- records that are no rows ----


def wrong_records(part: Part, table: Trees) -> dict[int, Fault]:
    """Why records are no rows of a table: the first fault of each that is none, by its place in the part."""
    records = [record.removeprefix(MARK) for record in part.records]
    found: dict[int, Fault] = {}
    for place, record in enumerate(records):
        # A text with a line break may be the rest of the file after a quote that was forgotten.
        if b"\n" in record and (broken := next(broken_quotes(record, part.lines[place]), None)):
            found[place] = Fault(str(broken))
    for fault in load_records(table).faults(enumerate(records)):
        found.setdefault(fault.line or 0, fault)
    return dict(sorted(found.items()))


def rows_of_records(records: Iterable[bytes], table: Trees) -> list[tuple[Value, ...]]:
    """The rows that records are, none of which is wrong."""
    reader = csv.reader(StringIO(b"\n".join([record.removeprefix(MARK) for record in records]).decode(), newline=""))
    rows: list[tuple[Value, ...]] = []
    # Few at a time, since Python's collector of garbage looks through all lists that there are.
    while some := list(islice(reader, 1_000)):
        rows += zip(*[values_of_fields(fields, kind.decode()) for fields, kind in zip(zip(*some), table.kinds)])
    return rows


def wrong_records_of_load(faults: Iterable[Fault], line_before: int) -> tuple[list[WrongRecord], int]:
    """The first wrong records of a load, and how many there are, by its faults in order. The file begins after a line of the script."""
    found: list[WrongRecord] = []
    count, line = 0, None
    for fault in faults:
        if fault.line is not None and fault.line != line:
            count, line = count + 1, fault.line
            if count <= MOST_WRONG:
                found.append(_wrong_record(fault, line - line_before))
    return found, count


def several_are_wrong(path: str, count: int) -> str:
    return f"{path}: {count:,} records are wrong"


def _wrong_record(fault: Fault, line: int) -> WrongRecord:
    column, value = (None if one is None else one.decode(errors="replace") for one in (fault.column, fault.value))
    return WrongRecord(line, column, value, f"{fault.place}: {fault.what()}" if fault.place else fault.what())


class WrongRecords:
    """The wrong records of a CSV file: the first faults, and how many records have one. With the path of another file, they go to that."""

    def __init__(self, path: str, rejects: str | None) -> None:
        self.path, self.rejects, self.count = path, rejects, 0
        self.header = b""
        # The refusal of the first one, its place in its part, and how many were put before it.
        self._first: tuple[tuple[int, str], int, int] | None = None
        self._faults: list[WrongRecord] = []
        self._file: BinaryIO | None = None
        if rejects is not None and os.path.lexists(rejects):
            raise FileExistsError(f"{rejects} is there already: wrong records are written to a new file")

    def __enter__(self) -> WrongRecords:
        return self

    def __exit__(self, kind: type[BaseException] | None, fault: BaseException | None, trace: TracebackType | None) -> None:
        if self._file is not None:
            self._file.close()

    @property
    def has_ended(self) -> bool:
        """Whether a record was wrong, and wrong ones do not go to a file, so that nothing more is put."""
        return self.count > 0 and self.rejects is None

    def add(self, part: Part, wrong: dict[int, Fault], taken: int) -> Part:
        """Takes the wrong records of a part, of which `taken` records of the file were put, and returns the others."""
        for place, fault in wrong.items():
            number = BAD_LENGTH if fault.column is None else BAD_FIELD
            self._first = self._first or (number, place + 1, taken)
            if len(self._faults) < MOST_WRONG:
                self._faults.append(_wrong_record(fault, part.lines[place]))
        self.count += len(wrong)
        if self.rejects is not None:
            if self._file is None:
                self._file = open(self.rejects, "xb")
                self._file.write(self.header + b"\n")
            self._file.write(b"".join([part.records[place] + b"\n" for place in wrong]))
            self._file.flush()
        right = [place for place in range(len(part.records)) if place not in wrong]
        return Part([part.records[place] for place in right], [part.lines[place] for place in right], part.end)

    def refuse(self) -> None:
        """Raises what was wrong, if something was, and it did not go to a file."""
        if not self.has_ended or self._first is None:
            return
        (number, name), item, taken = self._first
        first = self._faults[0]
        reason = f"{self.path}, line {first.line}: {first.reason}" if self.count == 1 else several_are_wrong(self.path, self.count)
        raise Refused(
            1, number, name, item, reason=reason, column=first.column, value=first.value, taken=taken, wrong=self._faults, wrong_count=self.count,
            is_of_script=False,
        )  # fmt: skip

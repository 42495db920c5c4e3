"""A CSV file as it comes: its letters, its separator, the names of its columns, and quotes that look broken. For tools/from_csv."""

import bz2
import codecs
import csv
import gzip
import io
import lzma
import os
import re
import stat
import unicodedata
import zlib
from array import array
from itertools import islice
from typing import IO, Any, Iterable, Iterator, Sequence

from betable import language

SEPARATORS = {"comma": ",", "semicolon": ";", "tab": "\t", "bar": "|"}
SAMPLE = 65_536  # letters from which separator and names are found
MOST_WAITING = 2**28  # bytes of standard input, which is held since it may be read twice

# The start of an exponent of a decimal number, and its largest number of bytes.
EXPONENT = re.compile(rb"[0-9][eE][+-]?[0-9]")
MOST_EXPONENT = 5

# The first bytes of a compressed file, and the module that reads it.
COMPRESSED = ((rb"\x1f\x8b\x08", gzip), (rb"BZh[1-9]1AY&SY", bz2), (rb"\xfd7zXZ\x00", lzma))
UNPACKING_FAULTS = (gzip.BadGzipFile, EOFError, zlib.error, lzma.LZMAError)

# The first bytes of a file that is not CSV, what it is, and how to make a CSV file from it.
OTHER_FILES = (
    (b"PK\x03\x04", "a zip archive or a workbook (.xlsx, .ods): unpack it, or save its sheet as CSV"),
    (b"\xd0\xcf\x11\xe0", "a workbook or a document of an old form (.xls, .doc): save its sheet as CSV"),
    (b"\x28\xb5\x2f\xfd", "compressed by zstd: zstd -dc FILE | tools/from_csv - --key COLUMNS"),
    (b"SQLite format 3\0", "a database of SQLite: sqlite3 -header -csv FILE 'select * from TABLE' | tools/from_csv - --key COLUMNS"),
    (b"PAR1", "a Parquet file: save it as CSV by the program that wrote it"),
    (b'{"', "a JSON file: jq -r '[.id, .name] | @csv' FILE makes CSV of such objects"),
    (b"[{", "a JSON file: jq -r '.[] | [.id, .name] | @csv' FILE makes CSV of such an array"),
    (b"<?xml", "an XML file"),
    (b"<!DOCTYPE", "a web page"),
    (b"%PDF-", "a PDF file"),
    (b"\x89PNG", "a picture"),
    (b"\x7fELF", "a program"),
)

NAME = re.compile(language.NAME.pattern.decode())
LETTERS = str.maketrans({"ø": "o", "Ø": "o", "æ": "ae", "Æ": "ae", "œ": "oe", "ß": "ss", "ł": "l", "Ł": "l", "đ": "d", "Đ": "d", "ı": "i"})


class Faulty(Exception):
    """Words or a file that make no script: sentences."""


def shown(text: str, room: int = 60) -> str:
    """A text as it is shown in a sentence: its beginning, with what cannot be seen written as an escape."""
    text = text if len(text) <= room else text[: room - 1] + "…"
    return "'" + "".join(letter if letter.isprintable() else repr(letter)[1:-1] for letter in text) + "'"


class Source:
    """The text of a file, which can be read several times."""

    def __init__(self, path: str, encoding: str | None) -> None:
        self.path, self.size = path, 0
        self.contents: bytes | None = None
        self.unpacking: Any = None
        self.name = "standard input" if path == "-" else path
        try:
            self.read_pipe()
        except OSError as fault:
            raise Faulty(f"{self.name} cannot be read: {fault.strerror}") from fault
        start = self.start(16)
        self.unpacking = next((module for form, module in COMPRESSED if re.match(form, start)), None)
        if self.unpacking:
            start = self.start(16)
        if other := next((what for form, what in OTHER_FILES if start.startswith(form)), None):
            raise Faulty(f"{self.name} is no CSV file, but {other}")
        is_utf_16 = start.startswith((codecs.BOM_UTF16_LE, codecs.BOM_UTF16_BE))
        self.has_mark = is_utf_16 or start.startswith(codecs.BOM_UTF8)
        self.encoding = encoding or ("utf-16" if is_utf_16 else "utf-8-sig")
        self.separator, self.is_trimmed = ",", False

    def read_pipe(self) -> None:
        """Reads what can be read once only, as a pipe."""
        with open(0 if self.path == "-" else self.path, "rb") as stream:
            status = os.fstat(stream.fileno())
            if self.path != "-" and stat.S_ISREG(status.st_mode):
                self.size = status.st_size
                return
            self.contents = stream.read(MOST_WAITING + 1)
        self.size = len(self.contents)
        if self.size > MOST_WAITING:
            raise Faulty(f"{self.name} has more than {MOST_WAITING:,} bytes: write it to a file, and give the name of that")

    def opened(self) -> IO[bytes]:
        """The bytes from their start, unpacked."""
        stream: IO[bytes] = open(self.path, "rb") if self.contents is None else io.BytesIO(self.contents)
        unpacked: IO[bytes] = self.unpacking.open(stream) if self.unpacking else stream
        return unpacked

    def start(self, size: int) -> bytes:
        with self.opened() as stream:
            return stream.read(size)

    def is_surely_over(self, most: float, is_trimmed: bool, is_scaled: bool) -> bool:
        """Whether its records surely have more than `most` bytes, also without their quotes and line ends, blanks if they are trimmed, and if decimals are made
        ints their points, zeros, signs and exponents."""
        if self.encoding != "utf-8-sig" or not self.unpacking and self.size <= most:
            return False
        left_out = b'"\r\n' + (b" \t" if is_trimmed else b"") + (b".,0-" if is_scaled and self.separator != "," else b".0-" if is_scaled else b"")
        size = -len(codecs.BOM_UTF8)
        with self.opened() as stream:
            while size <= most and (piece := stream.read(2**20)):
                size += len(piece) - sum(map(piece.count, left_out))
                # One exponent may be divided between two pieces.
                size -= MOST_EXPONENT * (len(EXPONENT.findall(piece)) + 1) if is_scaled else 0
        return size > most

    def text(self) -> io.TextIOWrapper:
        """The text from its start, with its line ends as they are."""
        return io.TextIOWrapper(self.opened(), self.encoding, newline="")

    def sample(self) -> str:
        with self.text() as text:
            return text.read(SAMPLE)

    def reader(self, lines: Iterable[str], is_strict: bool = False) -> Any:
        return csv.reader(lines, delimiter=self.separator, skipinitialspace=self.is_trimmed, strict=is_strict)

    def undecoded(self) -> str:
        """The sentence about the first bytes that are no letter, or about a file that is not text."""
        if is_binary(self.start(SAMPLE)) and not self.has_mark:
            return f"{self.name} is a binary file and no CSV file: save the table as CSV by the program that wrote it"
        with self.opened() as stream:
            for number, line in enumerate(stream, 1):
                try:
                    line.decode("utf-8")
                except UnicodeDecodeError as fault:
                    bad = line[fault.start : fault.start + 1].hex().upper()
                    return f"line {number} is no UTF-8: byte {fault.start + 1} is {bad}; --encoding cp1252, latin-1 or another one reads such a file"
        return f"the file is not in {self.encoding}"

    def lines_of_records(self, number: int) -> Sequence[int]:
        """The line in which each record begins, of the first ones, the header first."""
        lines, before = array("L"), 0
        with self.text() as text:
            reader = self.reader(text)
            for record in reader:
                if record:
                    lines.append(before + 1)
                before = reader.line_num
                if len(lines) == number:
                    break
        return lines


def is_binary(start: bytes) -> bool:
    """Whether bytes are not a text: some are zero, or many are control characters that no text has."""
    controls = sum(start.count(byte) for byte in range(32) if byte not in b"\t\n\v\f\r\x1b")
    return b"\0" in start or controls * 50 > len(start)


def separator_of(sample: str) -> str:
    """The separator by which most of the first records have as many fields as the header, of equal ones the one with most fields."""
    best, best_rank = ",", (0.0, 0)
    for separator in SEPARATORS.values():
        lengths = [len(record) for record in islice(csv.reader(io.StringIO(sample, newline=""), delimiter=separator), 200) if record]
        if len(sample) == SAMPLE and len(lengths) > 1:
            lengths.pop()
        if lengths and lengths[0] > 1:
            rank = lengths.count(lengths[0]) / len(lengths), lengths[0]
            best, best_rank = (separator, rank) if rank > best_rank else (best, best_rank)
    return best


def line_end_of(sample: str) -> str:
    """The line end of the first line, by its name."""
    found = re.search(r"\r\n|\r|\n", sample)
    return {"\r\n": "CR LF", "\r": "CR"}.get(found[0] if found else "", "LF")


def legal_names(titles: list[str]) -> list[str]:
    """A name of the language for each title: the title itself if it is one, and otherwise its letters and digits. All are different."""
    names, given = [], {title for title in titles if NAME.fullmatch(title)}
    for place, title in enumerate(titles, 1):
        if NAME.fullmatch(title) and title not in names:
            names.append(title)
            continue
        plain = unicodedata.normalize("NFKD", title.translate(LETTERS)).encode("ascii", "ignore").decode().lower()
        name = re.sub("[^a-z0-9]+", "_", plain).strip("_") or f"column_{place}"
        name = (name if name[0].isalpha() else "column_" + name)[:32].rstrip("_")
        number, different = 1, name
        while different in given:
            number += 1
            different = f"{name[: 31 - len(str(number))]}_{number}"
        given.add(different)
        names.append(different)
    return names


class Titles:
    """The columns of a file: their titles there, and their names in the script."""

    def __init__(self, titles: list[str]) -> None:
        self.titles, self.names = titles, legal_names(titles)

    def place(self, word: str) -> int:
        for names in (self.titles, self.names, [title.strip().lower() for title in self.titles]):
            for sought in (word, word.strip().lower()):
                if sought in names:
                    return names.index(sought)
        known = ", ".join(title if title == name else f"{shown(title)} or {name}" for title, name in zip(self.titles, self.names))
        raise Faulty(f"the file has no column {shown(word)}; its columns are: {known}")

    def places(self, word: str) -> list[int]:
        """The places of several columns, with commas between."""
        if word in self.titles:
            return [self.titles.index(word)]
        return [self.place(name) for name in next(csv.reader([word]), []) if name]

    def settings(self, words: list[str], option: str) -> dict[int, str]:
        """The settings COLUMN=VALUE of an option, by the places of their columns."""
        found: dict[int, str] = {}
        for word in words:
            column, is_there, value = word.partition("=")
            if not is_there:
                raise Faulty(f"{option} wants COLUMN=VALUE and not {shown(word)}")
            place = self.place(column)
            if found.get(place, value) != value:
                raise Faulty(f"{option} is given twice for {self.names[place]}, with {shown(found[place])} and {shown(value)}")
            found[place] = value
        return found

    def null_words(self, words: list[str]) -> list[set[str]]:
        """The words that are taken as empty fields of each column, by its place, of WORDS for all columns, and COLUMN=WORDS for one."""
        found: list[set[str]] = [set() for _ in self.titles]
        for word in words:
            column, is_one, some = word.rpartition("=")
            named = set(next(csv.reader([some]), []))
            if not named:
                raise Faulty(f"--null wants WORDS, as NULL,n/a, or COLUMN=WORDS, and not {shown(word)}")
            for of_column in [found[self.place(column)]] if is_one else found:
                of_column |= named
        return found

    def flag_words(self, words: list[str], usual: dict[str, str]) -> dict[int, dict[str, str]]:
        """The words of flags and what they are, by the places of their columns: the usual ones, or those of COLUMN=TRUE,FALSE."""
        found = {}
        for word in words:
            column, is_there, value = word.partition("=")
            both = [name.lower() for name in next(csv.reader([value]), [])]
            if is_there and (len(both) != 2 or both[0] == both[1]):
                raise Faulty(f"--flag wants COLUMN, or COLUMN=TRUE,FALSE with two words, as open=ja,nein, and not {shown(word)}")
            for place in [self.place(column)] if is_there else self.places(word):
                found[place] = {both[0]: "true", both[1]: "false"} if is_there else usual
        return found


def broken_quotes(source: Source) -> Iterator[str]:
    """The quoted fields that go on after their closing quotes, or are never closed, as sentences."""
    ends = re.escape(source.separator) + r"\r\n"
    before, after = (" *", r"[ \t]*") if source.is_trimmed else ("", "")
    field = re.compile(rf'(?:{before}"((?:[^"]|"")*+)("?){after}([^{ends}]*)|[^{ends}]*)(?:[{ends}]|\Z)')
    lines_of_record: list[str] = []
    with source.text() as text:

        def lines() -> Iterator[str]:
            for line in text:
                lines_of_record.append(line)
                yield line

        reader = source.reader(lines())
        for _ in reader:
            record, start = "".join(lines_of_record), reader.line_num - len(lines_of_record) + 1
            for found in field.finditer(record) if '"' in record else ():
                if found[1] is not None and (found[3] or not found[2]):
                    first = start + line_breaks(record[: found.start()])
                    yield str(language.BrokenQuote(first, first + line_breaks(found[1].rstrip("\r\n")), bool(found[2])))
            lines_of_record.clear()


def line_breaks(text: str) -> int:
    return len(re.findall(r"\r\n|\r|\n", text))

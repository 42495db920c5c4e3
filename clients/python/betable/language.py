"""The script language as the tools know it. docs/SCRIPT.md describes it; here is one place for what tools have to know of it.

Bytes stay bytes: a script, a line, a name, a kind and a field are bytes, and what is said about them is text.

    for command in commands(script):             # the commands of a script, with their lines and blocks
        answer = reply(command.head.word, lines) # the lines that answer it, of lines = logical_lines(replies)
"""

import re
from functools import cached_property
from itertools import islice
from typing import Callable, Iterable, Iterator, Literal, NamedTuple, Sequence, TypeAlias

from .limits import *  # noqa: F403

# The names and kinds of columns, in order.
Columns: TypeAlias = list[tuple[bytes, bytes]]

# ---- commands ----


class Form(NamedTuple):
    """What tools have to know of a command."""

    text: str  # the form of its line
    reply: tuple[bytes, ...]  # the first words of the lines of its reply
    changes: Literal["nothing", "the table", "all trees", "its tree"] = "nothing"
    names: Literal["", "a tree", "an index"] = ""  # what its first argument names, of those that are there
    closing: bytes | None = None  # the closing line of its block
    block: tuple[bytes, ...] = ()  # the first words of the lines of its block; each bound is given at most once, in this order
    last: bytes | None = None  # the start of the last line of a reply with several lines
    words: tuple[int, int] | None = None  # the smallest and the largest number of words in its line, if that varies


COMMANDS = {
    b"table": Form("table F C L K name:kind ..", (b"table",), "the table", words=(6, 21)),
    b"load": Form("load", (b"loaded",), "all trees", closing=b"."),
    b"batch": Form("batch", (b"batch",), "all trees", closing=b"end", block=(b"put", b"del", b"ups")),
    b"get": Form("get record", (b"row", b"none"), words=(2, 99)),
    b"scan": Form("scan NAME", (b"row", b"rows"), names="a tree", closing=b"go", block=(b"from", b"to"), last=b"rows "),
    b"sums": Form("sums NAME G COLUMN", (b"sum", b"sums"), names="a tree", closing=b"go", block=(b"from", b"to"), last=b"sums "),
    b"image": Form("image NAME", (b"image",), names="a tree", last=b"end\n"),
    b"index": Form("index NAME on LIST [include LIST] [where COLUMN OP record]", (b"index",), "its tree", words=(4, 99)),
    b"build": Form("build NAME N", (b"build",), "its tree", "an index"),
    b"drop": Form("drop NAME", (b"dropped",), "the table", "an index"),
    b"drain": Form("drain NAME", (b"drained",), "its tree", "a tree"),
    b"rebuild": Form("rebuild NAME", (b"rebuilt",), "its tree", "a tree"),
}
FORMS = {word: form.text for word, form in COMMANDS.items()}
CLOSING = {word: form.closing for word, form in COMMANDS.items() if form.closing}
BLOCK_WORDS = {word: form.block for word, form in COMMANDS.items() if form.block}
# The smallest and the largest number of words in a line of each command.
WORDS = {word: form.words or (len(form.text.split()),) * 2 for word, form in COMMANDS.items()}
DEFINING = (b"table", b"index", b"build", b"drop")  # create or drop something
CHANGING = {word for word, form in COMMANDS.items() if form.changes != "nothing"}
# A line that may begin a command that changes the table.
CHANGING_LINE = re.compile(rb"^ *(?:%b)" % b"|".join(sorted(CHANGING)), re.MULTILINE)
OF_TREES = [word for word, form in COMMANDS.items() if form.names == "a tree"]
OF_INDEXES = [word for word, form in COMMANDS.items() if form.names == "an index"]

# The words of an upsert's operations, and the operators of `where`.
OPERATIONS = (b"set", b"add", b"max", b"min")
OPERATORS = (b"=", b"<", b">=")

NAME = re.compile(rb"[a-z][a-z0-9_]{0,31}")
NUMBER = re.compile(rb"[0-9]{1,9}")
INT = re.compile(rb"-?[0-9]+")  # the form of an int of any size
BUFFER = re.compile(rb"[0-9]{1,9}b?")
INDEX = re.compile(rb"index +\S+ +on +(\S+)(?: +include +(\S+))?(?: +where +(\S+) +(=|<|>=) (.*))? *\Z", re.DOTALL)

# ---- limits that the engine has no constant for ----

MOST_NAME_BYTES, MOST_DIGITS = 32, 9
LEAST_INT, GREATEST_INT = -(2**63), 2**63 - 1

PRIMARY = b"primary"  # the name of the tree of rows
MARK = b"\xef\xbb\xbf"  # is dropped once at the start of a record of a line, and of the text of a load

# ---- bytes for the eye ----


def visible(raw: bytes, room: int = 60, at: int = 0) -> str:
    """Bytes as a text of about that many letters around the byte `at`, with `…` where it is cut, and with its blanks made visible.

    A tab is →, a space at the start or the end is ·, a byte order mark is named, and what cannot be printed is \\x and its number.
    """
    start = 0 if len(raw) <= room else max(0, min(at - room // 2, len(raw) - room))
    end = len(raw) if len(raw) <= start + room + 4 else start + room
    # Not inside of a letter.
    start, end = outside_letter(raw, start), outside_letter(raw, end)
    text = raw[start:end].decode("utf-8", "backslashreplace")
    text = with_visible_ends(text, start == 0, end == len(raw)).replace("\t", "→").replace("\ufeff", "(byte order mark)")
    text = printable(text)
    # Bytes that cannot be printed take more letters.
    is_long = start == 0 and len(text) > room + 4
    return "…" * (start > 0) + (text[:room] if is_long else text) + "…" * (is_long or end < len(raw))


def outside_letter(raw: bytes, at: int) -> int:
    """The place, or the nearest one before it where no letter of UTF-8 is divided."""
    return next((place for place in range(at, max(0, at - 4), -1) if place >= len(raw) or raw[place] & 0xC0 != 0x80), at)


def with_visible_ends(text: str, is_start: bool, is_end: bool) -> str:
    """A text whose spaces at its start and at its end, also those before or after a tab there, are ·."""
    inside = text.lstrip(" \t") if is_start else text
    text = text[: len(text) - len(inside)].replace(" ", "·") + inside
    inside = text.rstrip(" \t") if is_end else text
    return inside + text[len(inside) :].replace(" ", "·")


def printable(text: str) -> str:
    if text.isprintable():
        return text
    return "".join(c if c.isprintable() else f"\\x{ord(c):02x}" for c in text)


def counted(number: int, one: str, many: str | None = None) -> str:
    """A number with what it counts: `1 field`, `2,000 fields`."""
    return f"{number:,} {one if number == 1 else many or one + 's'}"


# ---- kinds ----


def int_of(field: bytes) -> int:
    """The value of an int. A field may have any number of zeros, and Python reads at most 4,300 digits."""
    size = int(field.removeprefix(b"-").lstrip(b"0") or b"0")
    return -size if field.startswith(b"-") else size


# Words that other programs write for no value, and those of them that may also be texts.
NULL_WORDS = frozenset([
    b"NULL", b"null", b"Null", b"(null)", b"\\N", b"N/A", b"n/a", b"#N/A", b"#NULL!", b"<NA>", b"NaN", b"nan", b"NAN", b"-nan",
    b"NA", b"na", b"None", b"none", b"nil", b"-", b"--", b"?",
])  # fmt: skip
NULL_WORDS_OR_TEXTS = frozenset([b"NA", b"na", b"None", b"none", b"nil", b"-", b"--", b"?"])


def reason_for_no_number(field: bytes) -> str:
    if not field:
        return "the field is empty, and there is no null: write a number for it, as 0 or -1"
    text = f"'{visible(field, 40)}'"
    inside = field.removeprefix(MARK).strip(b" \t\xc2\xa0")
    if inside != field and INT.fullmatch(inside):
        return f"{text} has {blanks_named(field, inside)}, and nothing is trimmed"
    if field.startswith(b"+") and INT.fullmatch(field[1:]):
        return f"{text} has a '+', which an int has not"
    if re.fullmatch(rb"-?[0-9]+[.,][0-9]+", field):
        return f"{text} is no whole number: decimals are stored as ints of a fixed unit, as 1250 for 12.50"
    if field in NULL_WORDS:
        return f"{text} is no whole number, and there is no null: write a number for it, as 0 or -1"
    if field.startswith(b"'") and field.endswith(b"'"):
        return f"{text} is no whole number: single quotes are letters"
    if field.endswith(b";") and INT.fullmatch(field[:-1]):
        return f"{text} ends with a semicolon, which no line has"
    return f"{text} is no whole number"


def blanks_named(field: bytes, inside: bytes) -> str:
    """What is around the inside of a field."""
    names = ((MARK, "a byte order mark"), (b" ", "a space"), (b"\t", "a tab"), (b"\xa0", "a space that does not break"))
    around = field.replace(inside, b"", 1)
    return " and ".join(name for blank, name in names if blank in around) + (" before it" if field.endswith(inside) else " after it")


class Kind(NamedTuple):
    """A kind of a column: `printed` gives a field as it is printed, and `as_printed` is a pattern of fields that are printed as they are."""

    printed: Callable[[bytes], bytes]
    as_printed: bytes


KINDS = {
    b"int": Kind(lambda field: b"%d" % int_of(field), rb"(?:0|-?[1-9][0-9]{0,17})"),
    b"text": Kind(lambda field: field, rb'[^",\r\n]*'),
    b"flag": Kind(lambda field: field.lower(), rb"(?:true|false)"),
    b"bytes": Kind(lambda field: field.lower(), rb"(?:[0-9a-f]{2})*"),
}


def any_of(names: Iterable[bytes]) -> str:
    """Names as a list of words: `int, text or flag`."""
    *others, last = [name.decode() for name in names]
    return ", ".join(others) + " or " + last


def printed_field(value: bytes) -> bytes:
    """A value as it is in a record, in quotes if it has to be."""
    if b"," in value or b'"' in value or b"\r" in value or b"\n" in value:
        return b'"' + value.replace(b'"', b'""') + b'"'
    return value


def printed_record(values: Iterable[bytes]) -> bytes:
    printed = list(map(printed_field, values))
    return b'""' if printed == [b""] else b",".join(printed)


# ---- records and fields ----

QUOTED = rb'"[^"]*(?:""[^"]*)*'
QUOTED_START = re.compile(QUOTED)
FIELD = re.compile(rb'(?:%b(?:"[^,\r\n]*)?|[^,\r\n]*)' % QUOTED)
RECORD = re.compile(rb"(?=[^\r\n])%b(?:,%b)*" % (FIELD.pattern, FIELD.pattern))
# A CSV text, and the lines of a batch, in which no quote looks broken. A repeated part is also atomic itself, here and elsewhere,
# because Python 3.11.2 has an error if it is not.
SOUND_QUOTE = rb'"[^"]*+(?>""[^"]*+)*+"(?![^,\r\n])'
SOUND_TEXT = re.compile(rb'(?>[^"]++|(?<![^,\r\n])%b|(?<=[^,\r\n])")*+' % SOUND_QUOTE)
SOUND_FIELD = rb'(?:%b|(?!")[^,\n]*+)' % SOUND_QUOTE.replace(rb'[^"]', rb'[^"\n]')
SOUND_LINES = re.compile(rb'(?>[^"\n]*+\n| *+(?:put|del|ups) (?>%b)?+%b(?>,%b)*+\r?\n)*+' % (MARK, SOUND_FIELD, SOUND_FIELD))
QUOTED_FIELD = re.compile(rb'(?<![^,\r\n])(%b)("?)([^,\r\n]*)' % QUOTED)


def matched(pattern: re.Pattern[bytes], text: bytes, at: int = 0) -> re.Match[bytes]:
    """The match of a pattern that has to match at this place."""
    found = pattern.match(text, at)
    if found is None:
        raise ValueError(f"'{visible(text[at:])}' is of another form")
    return found


def spans(raw: bytes) -> list[tuple[int, int]]:
    """Where each field of a record begins and ends, with its quotes."""
    found, start = [], 0
    while True:
        end = matched(FIELD, raw, start).end()
        found.append((start, end))
        if end >= len(raw):
            return found
        start = end + 1


def fields(raw: bytes) -> list[bytes]:
    """The fields of a record, without the quotes around them."""
    if b'"' not in raw:
        return raw.split(b",")
    return [unquoted(raw[start:end]) for start, end in spans(raw)]


def unquoted(field: bytes) -> bytes:
    """A field without its quotes. What follows the closing quote joins it."""
    if not field.startswith(b'"'):
        return field
    end = matched(QUOTED_START, field).end()
    return field[1:end].replace(b'""', b'"') + field[end + 1 :]


def records(text: bytes, number: int = 1) -> Iterator[tuple[int, bytes]]:
    """The records of a CSV text whose first line has this number, as (line, bytes), the header first."""
    at = len(MARK) if text.startswith(MARK) else 0
    for found in RECORD.finditer(text, at):
        number += text.count(b"\n", at, found.start())
        at = found.start()
        yield number, found[0]


def has_line_breaks(records: Sequence[bytes]) -> bool:
    """Whether a text of a record has a line break."""
    together = b"".join(records)
    return b"\n" in together or b"\r" in together


def record_of_line(rest: bytes) -> tuple[bytes, str | None]:
    """The record that ends a line of a command, and why it makes the line wrong, or None."""
    record = rest.removeprefix(MARK)
    if not record:
        return record, "the record is empty"
    if b"\r" in record:
        return record, "the record holds a carriage return"
    if record.startswith(MARK):
        return record, "the record begins with a second byte order mark"
    return record, None


class BrokenQuote:
    """A quoted field that looks broken: the line in which it begins, that of its closing quote or of its end, and whether it is closed."""

    def __init__(self, first: int, last: int, is_closed: bool) -> None:
        self.first, self.last, self.is_closed = first, last, is_closed

    def __str__(self) -> str:
        breaks = self.last - self.first
        held = f" (it holds {counted(breaks, 'line break')})" if breaks else ""
        if self.is_closed:
            where = f" in line {self.last}" if breaks else ""
            return f"the quoted field that begins in line {self.first} goes on after its closing quote{where}: was a quote forgotten?{held}"
        on = f", and goes on to line {self.last}" if breaks else ""
        return f"the quoted field that begins in line {self.first} is not closed{on}: was a quote forgotten?{held}"


def broken_quotes(text: bytes, number: int = 1) -> Iterator[BrokenQuote]:
    """The quoted fields of a CSV text, whose first line has this number, that go on after their closing quotes, or are never closed."""
    text = text.removeprefix(MARK)
    at = 0
    while (start := matched(SOUND_TEXT, text, at).end()) < len(text):
        found = matched(QUOTED_FIELD, text, start)
        number += text.count(b"\n", at, start)
        inside = found[1] if found[2] else found[1].removesuffix(b"\n")
        yield BrokenQuote(number, number + inside.count(b"\n"), bool(found[2]))
        number, at = number + found[0].count(b"\n"), found.end()


def broken_quotes_of_lines(block: bytes, number: int = 1) -> Iterator[BrokenQuote]:
    """Those of the records of a batch's lines."""
    at = 0
    while (start := matched(SOUND_LINES, block, at).end()) < len(block):
        number += block.count(b"\n", at, start)
        end = block.find(b"\n", start)
        end = len(block) if end < 0 else end
        line = Line(number, block[start:end])
        yield from broken_quotes((line.rest or b"").removesuffix(b"\r"), number)
        number, at = number + 1, end + 1


# ---- lines and commands ----


class Line:
    """A line of the script, without its line break."""

    def __init__(self, number: int, raw: bytes) -> None:
        self.number, self.raw = number, raw
        self.text = raw.removesuffix(b"\r").lstrip(b" ")
        self.word = self.text.partition(b" ")[0]

    @cached_property
    def words(self) -> list[bytes]:
        """Its words, as the engine divides a line: by spaces, and by no other byte. The first one is `word`."""
        return [word for word in self.text.split(b" ") if word]

    def begins_command(self) -> bool:
        """Whether it has the first word of a command, and as many words."""
        least, most = WORDS.get(self.word, (1, 0))
        return least <= len(self.words) <= most

    @property
    def rest(self) -> bytes | None:
        """What follows the first word and one space, or None if no space follows it."""
        _, space, rest = self.text.partition(b" ")
        return rest if space else None


class Command:
    """A command of the script: its head line, the bytes of its block as they are, and whether that is closed."""

    def __init__(self, head: Line, closing: bytes | None = None, block: bytes = b"", is_closed: bool = False) -> None:
        self.head, self.closing, self.block, self.is_closed = head, closing, block, is_closed

    @cached_property
    def lines(self) -> list[Line]:
        """The lines of the block."""
        pieces = self.block.removesuffix(b"\n").split(b"\n") if self.block else []
        return [Line(number, raw) for number, raw in enumerate(pieces, self.head.number + 1)]

    def messages(self) -> list[Line]:
        """The lines of the block that are not blank."""
        return [line for line in self.lines if line.text]

    def records(self) -> Iterator[tuple[int, bytes]]:
        """The records of the block of a load, as (line, bytes), the header first."""
        return records(self.block, self.head.number + 1)

    def line_of(self, item: int | None) -> int:
        """The line of the item that a refusal names: of a message, or of a record after the header, and otherwise the first line."""
        if item is not None and self.head.word == b"batch":
            return self.messages()[item - 1].number
        if item is not None and self.head.word == b"load":
            return next((number for number, _ in islice(self.records(), item, None)), self.head.number)
        return self.head.number

    def broken_quotes(self) -> Iterable[BrokenQuote]:
        """What looks broken among the quotes of a load's block, or of the lines of a batch."""
        if b'"' not in self.block or self.closing == b"go":
            return ()
        find = broken_quotes if self.head.word == b"load" else broken_quotes_of_lines
        return find(self.block, self.head.number + 1)


def commands(script: bytes, closing: dict[bytes, bytes] = CLOSING) -> Iterator[Command]:
    """The commands of a script, one after the other. `closing` has the closing lines of the blocks that its reader knows."""
    start, number = 0, 0
    while start < len(script):
        end = script.find(b"\n", start)
        end = len(script) if end < 0 else end
        number += 1
        head = Line(number, script[start:end])
        start = end + 1
        if head.word in closing:
            last, following, is_closed = end_of_block(script, start, closing[head.word])
            block = script[start:last]
            yield Command(head, closing[head.word], block, is_closed)
            number += script.count(b"\n", start, following)
            start = following
        elif head.word:
            yield Command(head)


def end_of_block(script: bytes, start: int, closing: bytes) -> tuple[int, int, bool]:
    """Where the closing line begins, where the line after it begins, and whether there is one."""
    place = start - 1
    while 0 <= (place := script.find(b"\n" + closing, place)):
        end = place + 1 + len(closing)
        end += script.startswith(b"\r", end)
        if end >= len(script) or script.startswith(b"\n", end):
            return place + 1, min(end + 1, len(script)), True
        place += 1
    return max(start, len(script)), len(script), False


# ---- definitions ----


class Index(NamedTuple):
    """What the line of an index says: the columns that it is on, those that it includes, and its condition or None."""

    on: list[bytes]
    included: list[bytes]
    condition: tuple[bytes, bytes, bytes] | None


def index_of(line: Line) -> Index:
    """The index that a line makes which was answered."""
    on, included, column, operator, constant = matched(INDEX, line.text).groups()
    condition = (column, operator, fields(constant.removeprefix(MARK))[0]) if operator else None
    return Index(on.split(b","), included.split(b",") if included else [], condition)


class Definitions(dict[bytes, Line]):
    """The lines that made the table and the indexes that are there, by the names of their trees. A checkpoint begins with them."""

    def take(self, command: Command) -> None:
        """Goes on by a command that was carried out."""
        word, name = command.head.word, (command.head.words[1:2] or [b""])[0]
        if word in (b"table", b"index"):
            self[PRIMARY if word == b"table" else name] = command.head
        elif word == b"drop":
            self.pop(name, None)


# ---- replies ----


# The start of the last line of a reply with several lines.
LAST_LINES = {word: form.last for word, form in COMMANDS.items() if form.last}


def logical_lines(replies: Iterable[bytes]) -> Iterator[bytes]:
    """The lines of the replies. One whose text holds a line break in quotes is one line."""
    replies = iter(replies)
    for line in replies:
        while line.count(b'"') % 2 == 1:
            rest = next(replies, b"")
            if not rest:
                break
            line += rest
        yield line


def reply(word: bytes, lines: Iterator[bytes]) -> list[bytes]:
    """The lines of the reply to one command, from the replies that are left."""
    first = next(lines, None)
    found = [] if first is None else [first]
    if word in LAST_LINES and first is not None and not first.startswith(b"refused "):
        last = LAST_LINES[word]
        while not found[-1].startswith(last):
            line = next(lines, None)
            if line is None:
                break
            found.append(line)
    return found

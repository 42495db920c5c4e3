"""What to write instead: of words that are commands elsewhere, and of commands whose reply or refusal is not what their writer meant."""

import re
from typing import Any, Iterator

from .language import (
    BLOCK_WORDS, CLOSING, FORMS, GREATEST_INT, NAME, NULL_WORDS, Command, Line, any_of, counted, fields, int_of, printed_record, record_of_line, visible,
)  # fmt: skip
from .schema import Trees

# ---- words of other languages ----

PUT = "put rows by 'batch', a line 'put record' for each, and 'end'"
CHANGE = "change a row by 'batch', a line 'ups key,set,column,value' or 'put record', and 'end'"
READ = "read rows by 'get key', or by 'scan primary' and 'go', and groups of rows by 'sums'"
TABLE = "make the table by 'table 16 1024 256 1 id:int city:text': three sizes, the number of key columns, and the columns"
INDEX = "make an index by 'index by_city on city', and complete it by 'build by_city 999999999'"
LOAD = "load a CSV file by the script that tools/from_csv FILE --key COLUMNS writes"
STATE = "a script has no command for what there is: the table and the indexes are those of its lines"
END = "a script ends with its last line, and at a terminal with Ctrl-D"
WHOLE = "a batch is applied whole or not at all, and needs no other command around it"
ORDER = "rows come by rising key, and an index on another column has them in its order"
LIMIT = "a scan has no limit; bounds keep it short, and head and tail take some of the replies"
CONDITION = "a condition is part of an index, as in 'index by_qty on qty where qty >= 5', and bounds are lines of a scan"

INSTEAD = {
    "insert": PUT, "values": PUT, "into": PUT, "add": PUT, "append": PUT, "upsert": CHANGE, "update": CHANGE, "set": CHANGE, "merge": CHANGE,
    "replace": CHANGE, "incr": "count by 'batch', a line 'ups key,add,column,1' for each event, and 'end'",
    "delete": "delete rows by 'batch', a line 'del key' for each, and 'end'", "remove": "delete rows by 'batch', a line 'del key' for each, and 'end'",
    "truncate": "delete rows by 'batch', a line 'del key' for each, and 'end'; a run has one table, and ends with it",
    "select": READ, "find": READ, "count": "count rows by the last line of a scan, and those of groups by 'sums'",
    "group": "add up and count groups by 'sums NAME G COLUMN' and 'go'", "where": CONDITION, "having": CONDITION, "order": ORDER, "limit": LIMIT,
    "join": "there is no join: make one table of both before it is loaded",
    "create": f"{TABLE}; {INDEX}", "create table": TABLE, "create index": INDEX, "create unique": INDEX,
    "alter": "the columns of a table do not change: write its rows as CSV by tools/to_csv, and a new script by tools/from_csv",
    "begin": WHOLE, "start": WHOLE, "commit": WHOLE, "rollback": WHOLE, "transaction": WHOLE,
    "show": STATE, "describe": STATE, "desc": STATE, "list": STATE, "pragma": STATE, "use": STATE, ".tables": STATE, ".schema": STATE, "\\d": STATE,
    "vacuum": "pack a tree by 'rebuild NAME'", "analyze": "pack a tree by 'rebuild NAME'", "reindex": "pack an index by 'rebuild NAME'",
    "copy": LOAD, "\\copy": LOAD, "import": LOAD, ".import": LOAD, ".read": LOAD,
    "exit": END, "quit": END, "bye": END, "stop": END, "q": END, ".exit": END, ".quit": END, "\\q": END, ":q": END,
    **dict.fromkeys(("help", "?", ".help", "\\?", "\\h", "man", "usage"), f"the commands are {any_of(FORMS)}, and docs/SCRIPT.md describes each"),
}  # fmt: skip


def instead_of(line: Line) -> str | None:
    """Why the first word of a line is no command, and what to write, if it is a command of another language or ends with a semicolon."""
    words = [word.rstrip(b";").lower().decode("utf-8", "replace") for word in line.text.split()[:2]]
    if line.word.endswith(b";"):
        plain = line.word.rstrip(b";").lower()
        if plain in FORMS:
            return f"'{visible(line.word, 20)}' ends with a semicolon, which no line has: write '{plain.decode()}'"
        if plain in CLOSING.values():
            return f"'{visible(line.word, 20)}' closes no block: a closing line is '{plain.decode()}' exactly, without a semicolon"
    advice = INSTEAD.get(" ".join(words)) or INSTEAD.get(words[0].partition("(")[0]) if words else None
    return f"'{visible(line.word, 20)}' is not a command here: {advice}" if advice else None


# ---- words too many ----


def reason_for_more_words(line: Line, words: list[bytes]) -> str:
    """Why these words, which follow those of a command, do not belong there."""
    shown, first = f"'{visible(words[0], 40)}' is one word too many", words[0].rstrip(b";").lower()
    if line.word in BLOCK_WORDS and CLOSING[line.word] == b"go":
        if first in BLOCK_WORDS[line.word]:
            return f"{shown}: bounds are lines of their own before 'go', {', then '.join(bounds_among(words))}"
        advice = {b"limit": LIMIT, b"top": LIMIT, b"where": CONDITION, b"order": ORDER, b"asc": ORDER, b"desc": ORDER}.get(first)
        return f"{shown}: {advice or 'bounds are lines of their own before ' + repr('go') + ', as ' + repr('from ' + visible(words[0], 40))}"
    kind = line.words[1]
    if line.word == b"drop" and kind in (b"table", b"index"):
        return f"{shown}: {'write ' + repr('drop ' + visible(words[0].rstrip(b';'), 40)) if kind == b'index' else 'a run has one table, and ends with it'}"
    return shown


def bounds_among(words: list[bytes]) -> list[str]:
    """The lines of bounds that are written as words of one line."""
    found: list[list[bytes]] = []
    for word in words:
        if word.lower() in (b"from", b"to") or not found:
            found.append([word.lower()])
        else:
            found[-1].append(word.rstrip(b";"))
    return [f"'{visible(b' '.join(line), 40)}'" for line in found[:2]]


# ---- commands and their table ----


def advice_for(command: Command, number: int, table: Trees) -> str | None:
    """What to write instead of a command that is refused with this number, if another command does what it asks for."""
    if not table:
        return None
    if command.head.word == b"get" and number == 6:
        return advice_for_get(command.head, table)
    return advice_for_sums(command.head, table) if command.head.word == b"sums" and number == 1 else None


def advice_for_get(head: Line, table: Trees) -> str | None:
    """That a get is by the key, if its record looks like a text of another column, or names its columns."""
    values = fields(record_of_line(head.rest or b"")[0])
    key, others = [name.decode() for name, _ in table.key], [name.decode() for name, kind in table.columns[len(table.key) :] if kind == b"text"]
    is_text = re.match(rb"(?i)[a-z\x80-\xff]", values[0]) and values[0] not in NULL_WORDS
    if not is_text or table.key[0][1] not in (b"int", b"flag"):
        return None
    if re.match(rb"(?i)(?:where +)?%b *=" % table.key[0][0], values[0]):
        return f"get has the values of the key alone, {', '.join(key)}: 'get {visible(values[0].partition(b'=')[2].strip(), 40)}'"
    if not others:
        return None
    one = others[0] if len(others) == 1 else "another column"
    return f"get finds a row by its key, {', '.join(key)}. By {one}: an index on it, and a scan (docs/HOW_TO.md, The rows of one value)"


def advice_for_sums(head: Line, table: Trees) -> str | None:
    """The sums that were meant by a column for a group in place of a number of columns."""
    words = head.words
    if len(words) < 3 or not table.has_tree(words[1]) or words[2] not in table.names:
        return None
    tree, group, name = words[1], words[2], words[2].decode()
    number = words[3].decode() if len(words) > 3 and NAME.fullmatch(words[3]) else "COLUMN"
    trees = [tree, *table.indexes]
    there = next((tree.decode() for tree in trees if table.key_of(tree)[0][0] == group), None)
    lines = [f"'sums {there or 'by_' + name} 1 {number}'"]
    if there is None:
        lines = [f"'index by_{name} on {name} include {number}'", f"'build by_{name} 999999999'", *lines]
    return f"G is the number of columns of a group. By {name}: {', '.join(lines)}"


# ---- warnings ----

SINGLE_QUOTED = re.compile(rb"(?m)(?:^|(?<=[ ,]))'[^'\",\r\n]*'(?=[,\r\n]|\Z)")


def single_quotes(command: Command) -> Iterator[str]:
    """A warning of fields that have single quotes around them, which are letters."""
    head = SINGLE_QUOTED.search(command.head.text, len(command.head.word)) if command.head.word in (b"get", b"index") else None
    found = SINGLE_QUOTED.search(command.block)
    first, number = (head, command.head.number) if head else (found, 0)
    if first is None:
        return
    if head is None:
        number = command.head.number + 1 + command.block.count(b"\n", 0, first.start())
    more = sum(1 for _ in SINGLE_QUOTED.finditer(command.block)) - (head is None)
    others = f", and so {'does' if more == 1 else 'do'} {counted(more, 'other field')}" if more else ""
    yield f"{visible(first[0], 40)} in line {number} has single quotes, which are letters of the text{others}: a text needs no quotes, or double ones"


def value_of(kind: bytes, field: bytes) -> Any:
    """A value that orders as keys do."""
    if kind == b"int":
        return int_of(field)
    return field.lower() == b"true" if kind == b"flag" else bytes.fromhex(field.decode()) if kind == b"bytes" else field


def empty_ranges(command: Command, table: Trees) -> Iterator[str]:
    """A warning of bounds between which there is no key."""
    lines, words = {line.word: line for line in command.messages()}, command.head.words
    if {b"from", b"to"} - lines.keys() or not table.has_tree(words[1]):
        return
    key = table.key_of(words[1])
    given = {word: fields(record_of_line(lines[word].rest or b"")[0]) for word in (b"from", b"to")}
    start, stop = ([value_of(kind, field) for field, (_, kind) in zip(given[word], key)] for word in (b"from", b"to"))
    shown = {word: f"'{visible(lines[word].text, 40)}'" for word in lines}
    if start > stop:
        yield f"{shown[b'from']} comes after {shown[b'to']} of line {lines[b'to'].number}, so the range is empty: exchange the bounds"
    elif start == stop:
        following, kind = given[b"to"], key[len(stop) - 1][1]
        advice = "see docs/HOW_TO.md, The rows of one value"
        if kind == b"int" and stop[-1] < GREATEST_INT:
            advice = f"write 'to {printed_record([*following[:-1], b'%d' % (stop[-1] + 1)]).decode('utf-8', 'backslashreplace')}'"
        yield f"{shown[b'from']} is equal to {shown[b'to']} of line {lines[b'to'].number}, which is not in the range, so the range is empty: {advice}"


def warnings(command: Command, table: Trees, is_answered: bool) -> Iterator[str]:
    """Warnings of what may not be meant in a command, even if it is not refused."""
    for quote in command.broken_quotes():
        yield str(quote)
    if b"'" in command.block or b"'" in command.head.text:
        yield from single_quotes(command)
    if is_answered and command.closing == b"go" and command.block:
        yield from empty_ranges(command, table)

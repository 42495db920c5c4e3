"""Why a line has not the form of a command, or of a line of a block: reasons in a few words."""

import re
from difflib import get_close_matches
from typing import Iterable

from .advice import instead_of, reason_for_more_words
from .language import (
    BLOCK_WORDS, BUFFER, CLOSING, COMMANDS, FORMS, INT, KINDS, Line, MARK, MOST_DIGITS, MOST_NAME_BYTES, NAME, NUMBER, OF_TREES, OPERATORS, any_of, fields, int_of, record_of_line, visible,
)  # fmt: skip

TAB = b"\t"


def spelled(names: Iterable[bytes]) -> str:
    return ", ".join(name.decode() for name in names)


# ---- words ----


def name_fault(word: bytes) -> str | None:
    """Why a word is no name, or None."""
    text = f"'{visible(word, 40)}'"
    if NAME.fullmatch(word):
        return None
    if NAME.fullmatch(word.lower()):
        return f"{text} is no name: names are in small letters, as '{word.lower().decode()}'"
    if NAME.fullmatch(word.rstrip(b";").lower()):
        return f"{text} ends with a semicolon, which no line has: write '{word.rstrip(b';').lower().decode()}'"
    if len(word) > MOST_NAME_BYTES and re.fullmatch(rb"[a-z][a-z0-9_]*", word):
        return f"{text} has {len(word):,} bytes, and a name has at most {MOST_NAME_BYTES}"
    if not word:
        return "a name is empty"
    if re.fullmatch(rb"[a-z0-9_]+", word):
        return f"{text} is no name: the first letter is one of a to z"
    return f"{text} is no name: a name has only a to z, 0 to 9 and _"


def number_fault(word: bytes, name: str) -> str | None:
    """Why a word is no number, or None."""
    if NUMBER.fullmatch(word):
        return None
    if re.fullmatch(rb"[0-9]+", word):
        return f"'{visible(word, 40)}' has {len(word)} digits, and {name} has at most {MOST_DIGITS}"
    all_rows = ", and 999999999 reads all rows" if name == "N" else ""
    semicolon = " and a line no semicolon" if NUMBER.fullmatch(word.rstrip(b";")) else ""
    return f"'{visible(word, 40)}' is no number: {name} has 1 to {MOST_DIGITS} digits{semicolon or all_rows}"


# The words after the first one, of the commands that have a fixed number of them.
FIXED_WORDS = {word: form.text.split()[1:] for word, form in COMMANDS.items() if form.words is None}
ALL_ROWS = ": the rows are 'primary', and an index has its own name"


def head_faults(line: Line) -> list[str]:
    """Why a line is no command, in reasons."""
    if line.word not in FORMS:
        return [no_command(line)]
    if line.word == b"table":
        return table_word_faults(line.words[1:])
    if line.word == b"index":
        return index_word_faults(line)
    if line.word == b"get":
        return record_reasons(line)
    return fixed_word_faults(line)


def record_reasons(line: Line) -> list[str]:
    if line.rest is None:
        return [f"no record follows '{line.word.decode()}'"]
    _, reason = record_of_line(line.rest)
    return [reason] if reason else []


def fixed_word_faults(line: Line) -> list[str]:
    names, words = FIXED_WORDS[line.word], line.words[1:]
    found = [number_fault(word, name) if name in ("N", "G") else name_fault(word) for name, word in zip(names, words)]
    found += [f"{name} is missing{ALL_ROWS if name == 'NAME' and line.word in OF_TREES else ''}" for name in names[len(words) :]]
    if len(words) > len(names):
        found.append(reason_for_more_words(line, words[len(names) :]))
    return [reason for reason in found if reason]


def no_command(line: Line) -> str:
    """Why the first word of a line is no command."""
    word = line.word
    shown, plain = visible(word, 20), re.split(rb"[\t\v\f\r\xa0]", word)[0].removeprefix(MARK)
    openers = [head.decode() for head, closing in CLOSING.items() if closing == word]
    blocks = [head.decode() for head, block_words in BLOCK_WORDS.items() if word in block_words]
    if openers:
        return f"'{shown}' closes the block of a {' or '.join(openers)}, and no block is open here"
    if blocks:
        return f"'{shown}' belongs in the block of a {' or '.join(blocks)}, and no block is open here"
    if word.startswith(MARK) and plain in FORMS:
        return "a byte order mark is before the command"
    if word.lower() in FORMS:
        return f"commands are in small letters: '{word.lower().decode()}'"
    if plain in FORMS:
        return f"{'a tab' if word[len(plain):].startswith(TAB) else 'another byte'} follows '{plain.decode()}', where a space belongs"
    if word.startswith((b"#", b"//", b"--")):
        return "a script has no comments: leave the line out"
    if instead := instead_of(line):
        return instead
    near = get_close_matches(word.lower().decode("utf-8", "replace")[:40], [name.decode() for name in FORMS], 1)
    return f"'{shown}' is not a command" + (f": did you mean '{near[0]}'?" if near else ". The commands are " + spelled(FORMS))


SIZES = {"fanout": NUMBER, "buffer": BUFFER, "leaf": NUMBER, "number of key columns": NUMBER}


def table_word_faults(words: list[bytes]) -> list[str]:
    """Why the words of a table are none: its sizes, and its columns."""
    found, columns = [], words[len(SIZES) :]
    for word, (name, form) in zip(words, SIZES.items()):
        if b":" in word:
            instead = f": write table 16 1024 256 1 {visible(b' '.join(words), 200)}" if word is words[0] else ""
            found.append(f"'{visible(word, 40)}' is no {name}: F, C, L and K come before the columns{instead}")
            columns = words[words.index(word) :]
            break
        if name == "fanout" and NAME.fullmatch(word):
            return [f"'{visible(word, 40)}' is no fanout: a table has no name, and begins with three sizes, as 16 1024 256, and the number of key columns"]
        if not form.fullmatch(word):
            unit = ", those of a buffer in bytes with a 'b' after them" if name == "buffer" else ""
            found.append(f"'{visible(word, 40)}' is no {name}: write 1 to 9 digits{unit}.")
    if len(words) < len(SIZES) and not found:
        return [f"the {list(SIZES)[len(words)]} is missing"]
    found += [reason for word in columns if (reason := column_fault(word))]
    return found if columns else [*found, "no column follows the number of key columns"]


# Kinds of other programs, and what to write for them.
OTHER_KINDS = {
    **dict.fromkeys(("integer", "bigint", "int64", "int32", "long", "timestamp", "datetime"), "write int, for times as seconds"),
    **dict.fromkeys(("float", "float64", "double", "real", "decimal", "numeric"), "write int, for decimals in a fixed unit, as cents"),
    **dict.fromkeys(("str", "string", "varchar", "char", "date", "json"), "write text"),
    **dict.fromkeys(("bool", "boolean"), "write flag"),
    **dict.fromkeys(("blob", "binary", "uuid"), "write bytes"),
}


def column_fault(word: bytes) -> str | None:
    """Why a word is no column of a table, or None."""
    text = f"'{visible(word, 40)}'"
    name, colon, kind = word.partition(b":")
    if b"," in word:
        return f"{text}: columns are divided by spaces alone"
    if not colon:
        return f"{text} is no column, which has a name, a colon and a kind"
    if reason := name_fault(name):
        return reason if name else f"{text} has no name before the colon"
    if not kind:
        return f"{text}: the kind follows the colon without a space, as '{visible(name, 40)}:int'; a kind is {any_of(KINDS)}"
    if kind in KINDS:
        return None
    instead = OTHER_KINDS.get(kind.decode(errors="replace").lower())
    return f"{text}: a kind is {any_of(KINDS)}" + (f": {instead}" if instead else "")


# ---- index ----


def index_word_faults(line: Line) -> list[str]:
    """Why the words are no index: each part, up to the first that is missing."""
    words = line.words[1:]
    if not words:
        return ["NAME is missing"]
    found = [name_fault(words[0])]
    if words[1:2] != [b"on"]:
        instead = f", and not '{visible(words[1], 40)}'" if len(words) > 1 else ""
        return [reason for reason in found if reason] + [f"'on' must follow the name{instead}"]
    place = 1
    for part in (b"on", b"include"):
        if words[place : place + 1] == [part]:
            reasons = list_faults(words[place + 1 : place + 3], part)
            found += reasons
            place += 2
            if any("blank" in reason or "missing" in reason for reason in reasons):
                return [reason for reason in found if reason]
    if words[place : place + 1] == [b"where"]:
        found += where_faults(line, words[place + 1 :])
    elif len(words) > place:
        found.append(f"'{visible(words[place], 40)}' is where only 'include' or 'where' may follow")
    return [reason for reason in found if reason]


def list_faults(words: list[bytes], part: bytes) -> list[str]:
    """Why the first of these words is no list of names, where the second one may show that it has a blank."""
    if not words:
        return [f"the list after '{part.decode()}' is missing"]
    if words[0].startswith(b"("):
        return [f"a list has no brackets: '{visible(words[0], 40)}', and names have commas between them and no blanks"]
    if words[0].endswith(b",") or words[1:2] and words[1].startswith(b","):
        return [f"a list has no blanks: '{visible(b' '.join(words), 40)}'"]
    return [reason for name in words[0].split(b",") if (reason := name_fault(name))]


CONSTANT = re.compile(rb" where +\S+ +(?:=|<|>=)( ?)(.*)", re.DOTALL)


def where_faults(line: Line, words: list[bytes]) -> list[str | None]:
    """Why the condition of an index is none. A record follows exactly one space."""
    if not words:
        return ["COLUMN is missing after 'where'"]
    if operator := re.search(rb"[=<>!]+", words[0]):
        return [f"'{visible(words[0], 40)}': put spaces around the operator '{operator[0].decode()}'"]
    found = [name_fault(words[0])]
    if len(words) == 1:
        return [*found, "OP and the record are missing: an operator is =, < or >="]
    if words[1] not in OPERATORS:
        number = int_of(words[2]) if len(words) == 3 and INT.fullmatch(words[2]) else None
        following = {b">": f"of ints '> {number}' is '>= {(number or 0) + 1}'", b"<=": f"of ints '<= {number}' is '< {(number or 0) + 1}'"}.get(words[1])
        advice = f"; {following}" if following and number is not None else ""
        return [*found, f"'{visible(words[1], 40)}' is no operator: =, < or >={advice}"]
    constant = CONSTANT.search(line.text)
    return [*found, constant_fault(words[1].decode(), constant[1], constant[2])] if constant else found


def constant_fault(operator: str, space: bytes, rest: bytes) -> str | None:
    """Why what follows an operator is no record of one field, or None."""
    record, reason = record_of_line(rest)
    if not space or not rest:
        return f"no record follows '{operator}'; the empty text is \"\""
    if reason:
        return reason
    count = len(fields(record))
    if count == 1:
        return None
    if record.lstrip(b" ").startswith(b'"'):
        return f"a second space after '{operator}' belongs to the field, so that its quotes are ordinary letters: '{visible(record, 40)}'"
    return f"{count} fields, and a constant has one; put a text with a comma in double quotes: '{visible(record, 40)}'"


# ---- lines of a block ----

# Words of other languages, and what they are in a block.
MEANT = {b"insert": b"put", b"replace": b"put", b"upsert": b"ups", b"update": b"ups", b"delete": b"del", b"remove": b"del", b"start": b"from", b"until": b"to"}


def no_block_word(line: Line, head: bytes) -> str:
    """Why the first word of a line of a block is none of the block's words."""
    words, closing = BLOCK_WORDS[head], CLOSING[head]
    raw = line.raw.removesuffix(b"\r")
    if raw.strip(b" \t\r;").lower() == closing:
        return f"'{visible(raw, 20)}' does not close the block: a closing line is '{closing.decode()}' exactly"
    if line.word.lower() in words:
        return f"words are in small letters: '{line.word.lower().decode()}'"
    if any(line.word.startswith(word + b"\t") for word in words):
        return f"a tab is where a space belongs: '{visible(line.text, 40)}'"
    meant = MEANT.get(line.word.lower())
    if meant in words:
        return f"'{visible(line.word, 20)}' is '{meant.decode()}' in a {head.decode()}: '{visible(line.text, 40)}'"
    return f"a line of a {head.decode()} begins with {' or '.join(word.decode() for word in words)}: '{visible(line.text, 40)}'"

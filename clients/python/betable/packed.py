"""Packed bytes beside those of rows, which the extension makes and reads: names of trees, and the replies that describe trees (docs/C.md has the layout)."""

from __future__ import annotations

import struct
from collections.abc import Callable, Sequence
from typing import Any, NamedTuple

from .rows import Value
from .schema import Tree, TreeColumn, Trees

MAGIC = b"BTV\x01"
HEADER = struct.Struct("<4sI")
HEADER_OF_NONE, HEADER_OF_ONE = (HEADER.pack(MAGIC, number) for number in range(2))
HEADER_BYTES = HEADER.size
PUT = b"\0"  # begins a change that puts a row
USAGE = struct.Struct("<4s3Q")
# The state of a tree, and the numbers of its key columns and of all.
TREE = struct.Struct("<B2Q")
# The most rows of a page.
MOST_ROWS = 2**32 - 1
KINDS = {0: "int", 1: "text", 2: "flag", 4: "bytes"}
# The refusals of changes, by their numbers, and those whose reply has the number of an item.
REFUSALS = {1: b"Syntax", 3: b"NoTable", 6: b"BadField", 7: b"BadLength", 10: b"TooMany", 15: b"NoSuchColumn", 16: b"NotInt", 18: b"Failed"}
BAD_FIELD = 6
WITH_ITEM = (BAD_FIELD, 7)
CODES = {kind: code for code, kind in KINDS.items()}


class Usage(NamedTuple):
    """How much a tree holds: the rows in its leaves, the messages in the buffers of its inner nodes, and its height. A message can add a row, or delete one of
    a leaf, so `rows` is not the number of the tree's rows."""

    rows: int
    messages: int
    height: int


def name_bytes(tree: str) -> bytes:
    """The request for what a tree of this name is."""
    return HEADER_OF_ONE + _text(tree)


def description(tree: Tree) -> bytes:
    """A tree as the extension takes it: the number of its key columns, that of its columns, their kinds, and its name."""
    return bytes([len(tree.key), len(tree.columns), *(CODES[kind] for kind in tree.kinds)]) + _text(tree.name)


def _text(text: str) -> bytes:
    encoded = text.encode()
    return bytes([len(encoded)]) + encoded


# By kind: the bytes of a value.
VALUE_BYTES: dict[str, Callable[[Any], bytes]] = {
    "int": struct.Struct("<q").pack, "text": _text, "flag": struct.Struct("<?").pack, "bytes": lambda value: bytes([len(value)]) + bytes(value),
}  # fmt: skip


def puts_of_rows(rows: Sequence[Sequence[Value]], kinds: Sequence[str]) -> bytes:
    """The changes that put rows, which the extension makes in less time."""
    writers = [VALUE_BYTES[kind] for kind in kinds]
    parts = [HEADER.pack(MAGIC, len(rows))]
    for row in rows:
        parts.append(PUT)
        parts += [write(value) for write, value in zip(writers, row)]
    return b"".join(parts)


def value_at(packed: bytes, at: int, kind: str) -> tuple[Value, int]:
    """The value of a column of this kind at a place, and the place after it."""
    if kind == "int":
        return int.from_bytes(packed[at : at + 8], "little", signed=True), at + 8
    if kind == "flag":
        return packed[at] != 0, at + 1
    end = at + 1 + packed[at]
    found = packed[at + 1 : end]
    return found.decode() if kind == "text" else found, end


def change_count(changes: bytes) -> int:
    """The number of packed changes."""
    count: int = HEADER.unpack_from(changes)[1]
    return count


def refusal_reply(number: int, item: int) -> bytes:
    """The reply to a batch of a script that is refused as packed changes were."""
    return b"refused %d %b%b\n" % (number, REFUSALS[number], b" %d" % item if number in WITH_ITEM else b"")


def usage_of_reply(reply: bytes) -> Usage:
    """How much a tree holds, by a reply."""
    return Usage(*USAGE.unpack(reply)[1:])


def columns_of_reply(reply: bytes) -> list[TreeColumn]:
    """The columns of a reply, of which the first are those of the key."""
    keys = int.from_bytes(reply[len(MAGIC) : len(MAGIC) + 8], "little")
    at = len(MAGIC) + 8
    found: list[TreeColumn] = []
    while at < len(reply):
        column, at = _column_at(reply, at, len(found) < keys)
        found.append(column)
    return found


def trees_of_reply(reply: bytes) -> Trees:
    """The trees of a reply without their use."""
    at, found = len(MAGIC), []
    while at < len(reply):
        name, at = _text_at(reply, at)
        state, keys, count = TREE.unpack_from(reply, at)
        at += TREE.size
        columns = []
        for place in range(count):
            column, at = _column_at(reply, at, place < keys)
            columns.append(column)
        found.append(Tree(name, tuple(columns), state == 0))
    return Trees(found)


def _column_at(reply: bytes, at: int, is_key: bool) -> tuple[TreeColumn, int]:
    """The column at a place, and the place after it."""
    name, end = _text_at(reply, at + 1)
    return TreeColumn(name, KINDS[reply[at]], is_key), end


def _text_at(packed: bytes, at: int) -> tuple[str, int]:
    end = at + 1 + packed[at]
    return packed[at + 1 : end].decode(), end

"""What the prompt prints: rows as aligned tables, and trees in characters."""

from __future__ import annotations

from collections.abc import Iterator, Sequence
from itertools import islice
from typing import Any

from ..figures import Drawing, one_line, width_of
from ..language import counted
from ..replies import line_blocks
from ..rows import rows_of
from ..schema import Tree, Trees
from ..trees import image_of_reply

MOST_TREE_BYTES = 16 << 20  # of an image that is drawn
TREE_COLUMNS, TREE_LINES = 12, 6  # leaves of a drawing, and rows or messages of a node
RIGHT = ("int", "count", "sum")  # the kinds whose values end below each other


def aligned(names: Sequence[str], kinds: Sequence[str], rows: Sequence[Sequence[str]]) -> Iterator[str]:
    """The lines of a table: the names, a rule, and the rows."""
    cells = [list(names), *([one_line(value) for value in row] for row in rows)]
    widths = [max(map(width_of, column)) for column in zip(*cells)]
    cells.insert(1, ["-" * width for width in widths])
    for row in cells:
        parts = []
        for value, width, kind in zip(row, widths, kinds):
            space = " " * (width - width_of(value))
            parts.append(space + value if kind in RIGHT else value + space)
        yield "  ".join(parts).rstrip()


def columns_of_reply(word: bytes, words: Sequence[bytes], trees: Trees) -> list[tuple[str, str]]:
    """The names and kinds of what a `get`, a `scan` or `sums` prints."""
    tree = trees.tree() if word == b"get" else trees.by_name[words[1]]
    columns = tree.key[: int(words[2])] if word == b"sums" else tree.columns
    groups = [("count", "count"), ("sum", "sum")] if word == b"sums" else []
    return groups + [(column.name, column.kind) for column in columns]


def records_of_reply(word: bytes, reply: bytes) -> Iterator[str]:
    """The records of a reply: the row of a `get`, or the rows or groups of a `scan` or of `sums`."""
    if word == b"get":
        if reply.startswith(b"row "):
            yield reply[4:-1].decode()
        return
    for lines in line_blocks(reply):
        yield from (line.replace(" ", ",", 2) for line in lines) if word == b"sums" else lines


def table_of_reply(word: bytes, words: Sequence[bytes], reply: bytes, trees: Trees, most: int | None) -> list[str]:
    """The lines of the table that shows the first `most` rows of a reply, or all of them, and how many more there are."""
    columns = columns_of_reply(word, words, trees)
    lines = list(islice(records_of_reply(word, reply), most))
    if not lines:
        return []
    rows: list[tuple[Any, ...]] = rows_of(lines, ["text"] * len(columns))
    found = list(aligned([name for name, _ in columns], [kind for _, kind in columns], rows))
    left = 0 if word == b"get" else int(reply[reply.rindex(b" ") :]) - len(lines)
    if left:
        found.append(f".. {left:,} more: .limit off shows all, and .export FILE writes all rows to a file")
    return found


def count_of_reply(word: bytes, reply: bytes) -> str:
    """How many rows or groups a reply has."""
    number = int(reply.startswith(b"row ")) if word == b"get" else int(reply[reply.rindex(b" ") :])
    return counted(number, "group" if word == b"sums" else "row")


def drawn_tree(reply: bytes, tree: Tree) -> Iterator[str]:
    """The lines of a drawing of a tree: each node with its first rows or messages, the nodes below it, and the pivots between these."""
    image = image_of_reply(reply.decode(), tree)
    yield image.title()
    yield from _drawn_box(Drawing(image, TREE_COLUMNS, TREE_LINES).root, "", "")


def _drawn_box(box: Any, first: str, other: str) -> Iterator[str]:
    """The lines of a box; the first one begins with `first`, the others with `other`."""
    head, *lines = box.lines
    yield first + head.text
    for line in lines:
        yield f"{other}{'│ ' if box.below else '  '}{line.sign}{line.text}"
    for place, below in enumerate(box.below):
        is_last = place == len(box.below) - 1
        yield from _drawn_box(below, other + ("└─ " if is_last else "├─ "), other + ("   " if is_last else "│  "))
        if not is_last:
            yield f"{other}│ {box.pivots[place].sign}{box.pivots[place].text}"

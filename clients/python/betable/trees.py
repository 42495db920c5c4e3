"""Trees as 'image' prints them: their nodes, the values in their keys, and the differences from an earlier image."""

from __future__ import annotations

import itertools
import re
from collections import Counter
from collections.abc import Iterator, Sequence

from .schema import Tree

HEAD = re.compile(r"image (\S+) height (\d+)")
NODE = re.compile(r"leaf (\d+)|inner (\d+) (\d+)")
ITEM = re.compile(r"([=+~]) ([0-9a-f]+)(?: (.*))?|(-) ([0-9a-f]+)|(\|) ([0-9a-f]+)", re.DOTALL)
PRIMARY = "primary"


# A row or a message: its sign, its key and its text.
Item = tuple[str, str, str]


class Node:
    """A node of an image: its items, which are rows or messages as (sign, key, text), and its children and pivots.

    `lower` is the pivot before it, that of the node above for a first child, and `level` counts from the leaves.
    """

    def __init__(self, line: str, is_leaf: bool, counts: list[int]) -> None:
        self.line, self.is_leaf, self.counts = line, is_leaf, counts
        self.items: list[Item] = []
        self.children: list[Node] = []
        self.pivots: list[str] = []
        self.lower, self.is_changed = "", False
        self.new_items: set[int] = set()
        # What is at this node and below, by `measure`.
        self.leaves = self.rows = self.pending = self.level = 0

    def nodes(self) -> Iterator[Node]:
        yield self
        for child in self.children:
            yield from child.nodes()

    def measure(self, lower: str = "") -> None:
        """Works out, once, the leaves, rows, messages and levels of what is at this node and below."""
        self.lower = lower
        for child, pivot in zip(self.children, [lower, *self.pivots]):
            child.measure(pivot)
        self.leaves = sum(child.leaves for child in self.children) or 1
        self.rows = sum(child.rows for child in self.children) + (len(self.items) if self.is_leaf else 0)
        self.pending = sum(child.pending for child in self.children) + (0 if self.is_leaf else len(self.items))
        self.level = 1 + max((child.level for child in self.children), default=0)

    def changed_nodes(self) -> int:
        return sum(node.is_changed for node in self.nodes())


class KeyColumns:
    """The columns of a tree's key: their names and kinds, and where in the key each name is first.

    The names are None where only the kinds are known.
    """

    def __init__(self, kinds: Sequence[str], names: Sequence[str] | None = None) -> None:
        self.kinds, self.names = tuple(kinds), names
        self.places: Sequence[int] = range(len(self.kinds))
        if names:
            self.places = [place for place, name in enumerate(names) if name not in names[:place]]

    def names_once(self) -> list[str]:
        """The names of the columns of the key, each once."""
        return [self.names[place] for place in self.places] if self.names else []

    def values_once(self, key: str) -> list[str] | None:
        """The values of the columns of a key, each column once, or None where the key is no code of such."""
        values = values_of(key, self.kinds) if self.kinds else None
        return values and [values[place] for place in self.places]


class Image:
    """A tree as it was printed, with the tree's name and the reply before it. Without its key's columns their kinds are inferred from the rows."""

    def __init__(self, name: str, height: int, before: str, root: Node, key_columns: KeyColumns | None = None) -> None:
        self.name, self.height, self.before, self.root = name, height, before, root
        self.nodes_gone = 0  # since the image before
        root.measure()
        self.key_columns = key_columns or KeyColumns(() if self.is_index() else kinds_of_keys(root))

    def is_index(self) -> bool:
        return self.name != PRIMARY

    def title(self) -> str:
        names = ", ".join(self.key_columns.names_once())
        return f"{self.name} ({names}), height {self.height}" if names else f"{self.name}, height {self.height}"

    def mark_changes(self, before: Image) -> None:
        """Marks the nodes that have other items or pivots than the node in their place in the image before, and the items that are new at their level."""
        nodes_before = {(node.level, node.lower): node for node in before.root.nodes()}
        items_before = Counter((node.level, item) for node in nodes_before.values() for item in node.items)
        for node in self.root.nodes():
            same = nodes_before.get((node.level, node.lower))
            node.is_changed = same is None or (same.items, same.pivots) != (node.items, node.pivots)
            new_items = set()
            for place, item in enumerate(node.items):
                items_before[node.level, item] -= 1
                if items_before[node.level, item] < 0:
                    new_items.add(place)
            node.new_items = new_items
        self.nodes_gone = len(nodes_before.keys() - {(node.level, node.lower) for node in self.root.nodes()})


# ---- images in replies ----


class Broken(Exception):
    """An image that is not what the program prints. Its text ends a sentence that names the image."""


def logical_lines(text: str) -> Iterator[str]:
    """The lines of the replies. One whose text holds a line break in quotes is one line."""
    lines = iter(text.split("\n"))
    for line in lines:
        while line.count('"') % 2 == 1:
            rest = next(lines, None)
            if rest is None:
                break
            line += "\n" + rest
        yield line


def images_of(text: str) -> Iterator[Image]:
    """All images of the replies, each with the last line of the reply before it."""
    lines, before, number = logical_lines(text), "", 0
    for line in lines:
        if not HEAD.fullmatch(line):
            before = line or before
            continue
        number += 1
        yield image_of(itertools.chain([line], lines), number, before)
        before = ""


def image_of_reply(reply: str, tree: Tree) -> Image:
    """The image that the text of a reply prints. Its keys are shown as their values if the columns of the tree are known."""
    return image_of(logical_lines(reply), 1, "", key_columns_of(tree))


def key_columns_of(tree: Tree) -> KeyColumns | None:
    """The columns of the key of a tree, or None where the tree is unknown."""
    return KeyColumns(tree.key_kinds, tree.names[: len(tree.key)]) if tree.key else None


def image_of(lines: Iterator[str], number: int, before: str = "", key_columns: KeyColumns | None = None) -> Image:
    """The image whose first line is the next one. It takes the lines up to its last one, and its number names it where it is broken."""
    head = HEAD.fullmatch(next(lines))
    assert head
    try:
        root = tree_of(block_of(lines))
        expect_height(root, int(head[2]), 1)
    except Broken as broken:
        raise Broken(f"image {number}, of {head[1]}, is broken: {broken}") from None
    return Image(head[1], int(head[2]), before, root, key_columns)


def block_of(lines: Iterator[str]) -> list[str]:
    """The lines between the first and the last one of an image."""
    block: list[str] = []
    for line in lines:
        if line == "end":
            return block
        if HEAD.fullmatch(line):
            raise Broken("the next image begins before its line 'end'")
        block.append(line)
    raise Broken("its line 'end' is missing, so the replies were cut inside of it")


def tree_of(block: list[str]) -> Node:
    """The tree that the lines between the first and the last one of an image print."""
    root: Node | None = None
    path: list[Node] = []
    for line in block:
        words = line.lstrip(" ")
        indent = len(line) - len(words)
        depth, node, item = indent // 2, NODE.fullmatch(words), ITEM.fullmatch(words)
        if indent % 2 or depth > len(path) or not (node or item) or (depth == 0) != (root is None):
            raise Broken(f"'{line[:80]}' is none of its lines")
        if node:
            found = Node(words, bool(node[1]), [int(count) for count in node.groups() if count])
            if depth:
                path[depth - 1].children.append(found)
            root = root or found
            path[depth:] = [found]
        elif item:
            add_item(path[depth - 1], item)
            del path[depth:]
    if root is None:
        raise Broken("it has no node")
    for one in root.nodes():
        expect_counts(one)
    return root


def add_item(node: Node, item: re.Match[str]) -> None:
    """Adds a row, a message or a pivot to the node above its line."""
    sign = item[1] or item[4] or item[6]
    if (sign == "=") != node.is_leaf:
        raise Broken(f"below its line '{node.line}' is '{item[0][:80]}', which belongs to {'an inner node' if node.is_leaf else 'a leaf'}")
    if sign == "|":
        node.pivots.append(item[7])
    else:
        node.items.append((sign, item[2] or item[5], item[3] or ""))


def expect_counts(node: Node) -> None:
    """That a node has as much as its first line says."""
    wanted: list[tuple[str, str, int, Sequence[object]]]
    if node.is_leaf:
        wanted = [("row or entry", "rows or entries", node.counts[0], node.items), ("child", "children", 0, node.children)]
    else:
        children, messages = node.counts
        wanted = [("child", "children", children or 1, node.children), ("message", "messages", messages, node.items)]
        wanted += [("pivot", "pivots", children - 1, node.pivots)]
    for one, many, count, found in wanted:
        if len(found) != count:
            raise Broken(f"its line '{node.line}' has {len(found)} {one if len(found) == 1 else many} below it, and has to have {count}")


def expect_height(node: Node, height: int, depth: int) -> None:
    """That each leaf is as deep as the height says."""
    if node.is_leaf and depth != height:
        raise Broken(f"its height is {height}, and a leaf of it, '{node.line}', is at height {depth}")
    for child in node.children:
        expect_height(child, height, depth + 1)


# ---- keys ----

TEXT_CODE = re.compile(r"((?:(?!00)..|00ff)*)0001", re.DOTALL)


def fields_of(text: str) -> list[str]:
    """The fields of a record."""
    found = re.findall(r'(?:^|,)(?:"((?:[^"]|"")*)"|([^,]*))', text)
    return [quoted.replace('""', '"') if quoted else plain for quoted, plain in found]


def values_of(key: str, kinds: Sequence[str]) -> list[str] | None:
    """The values that a key codes, where its columns have these kinds, or None."""
    values: list[str] = []
    for kind in kinds:
        if kind == "int" and len(key) >= 16:
            value, key = str(int(key[:16], 16) - 2**63), key[16:]
        elif kind == "flag" and key[:2] in ("00", "01"):
            value, key = ("false", "true")[int(key[:2])], key[2:]
        elif kind in ("text", "bytes") and (code := TEXT_CODE.match(key)):
            held = bytes.fromhex(re.sub("(00)ff|(..)", r"\1\2", code[1]))
            value, key = held.hex() if kind == "bytes" else held.decode("utf-8", "replace"), key[code.end() :]
        else:
            return None
        values.append(value)
    return values if key == "" else None


def kinds_of_keys(root: Node) -> tuple[str, ...]:
    """The kinds of the key's columns, where all rows of the tree begin with the values of one way to read their keys."""
    rows = [item for node in root.nodes() for item in node.items if item[0] in "=+"]
    samples = [(key, fields_of(text)) for _, key, text in rows[:200]]
    for length in range(1, 5):
        for kinds in itertools.product(("int", "text", "flag", "bytes"), repeat=length):
            if samples and all(values_of(key, kinds) == fields[:length] for key, fields in samples):
                return kinds
    return ()

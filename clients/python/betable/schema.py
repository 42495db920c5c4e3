"""The trees of a table, as the library describes them, and as they are after a command of a script that is reported on."""

from __future__ import annotations

from collections.abc import Iterable
from functools import cached_property
from typing import Any, NamedTuple

from .language import PRIMARY, Columns, Command, index_of


class TreeColumn(NamedTuple):
    """A column of the rows of a tree: its name, its kind, and whether it belongs to the key of the tree."""

    name: str
    kind: str
    is_key: bool


class _Tree(NamedTuple):
    name: str
    columns: tuple[TreeColumn, ...]
    is_complete: bool


class Tree(_Tree):
    """A tree: its name, the columns of its rows, which begin with those of its key, and whether it is complete. The tree of rows is called primary."""

    @cached_property
    def key(self) -> tuple[TreeColumn, ...]:
        """The columns of its key."""
        return tuple([column for column in self.columns if column.is_key])

    @cached_property
    def names(self) -> list[str]:
        return [column.name for column in self.columns]

    @cached_property
    def kinds(self) -> list[str]:
        return [column.kind for column in self.columns]

    @cached_property
    def key_kinds(self) -> list[str]:
        return self.kinds[: len(self.key)]

    @cached_property
    def pairs(self) -> Columns:
        """The names and kinds of its columns, as scripts have them."""
        return [(column.name.encode(), column.kind.encode()) for column in self.columns]

    @cached_property
    def forms(self) -> dict[tuple[Any, ...], Any]:
        """The lines of messages that are alike, which `messages` keeps here."""
        return {}

    def __reduce__(self) -> tuple[Any, ...]:
        return Tree, tuple(self)


# What stands for a tree that is not there.
UNKNOWN = Tree("", (), False)


class Trees(tuple[Tree, ...]):
    """The trees of a table: that of its rows, and then its indexes in the order in which they were made. There are none before the table is made.

    What a script names is named by bytes here, and columns are pairs of a name and a kind."""

    @cached_property
    def by_name(self) -> dict[bytes, Tree]:
        return {tree.name.encode(): tree for tree in self}

    def tree(self, name: str = "primary") -> Tree:
        """The tree of a name, or UNKNOWN."""
        return self.by_name.get(name.encode(), UNKNOWN)

    @cached_property
    def indexes(self) -> dict[bytes, Tree]:
        return {name: tree for name, tree in self.by_name.items() if name != PRIMARY}

    @property
    def columns(self) -> Columns:
        return self.columns_of(PRIMARY)

    @property
    def key(self) -> Columns:
        return self.key_of(PRIMARY)

    @property
    def names(self) -> list[bytes]:
        return [name for name, _ in self.columns]

    @property
    def kinds(self) -> list[bytes]:
        return [kind for _, kind in self.columns]

    @property
    def building(self) -> list[str]:
        """The names of the indexes that are not complete."""
        return [tree.name for tree in self if not tree.is_complete]

    def has_tree(self, name: bytes) -> bool:
        return name in self.by_name

    def key_of(self, tree: bytes) -> Columns:
        """The columns of a tree's key."""
        return self.columns_of(tree)[: len(self.by_name[tree].key)]

    def columns_of(self, tree: bytes) -> Columns:
        """The columns of the rows that a scan of a tree prints."""
        return self.by_name[tree].pairs

    def __reduce__(self) -> tuple[Any, ...]:
        return Trees, (tuple(self),)


def trees_after(trees: Trees, command: Command, reply: bytes) -> Trees:
    """The trees after a command that had this reply, if these were the trees before it. A report on a script needs those of each of its commands; the library
    describes those after the last one."""
    word, words = command.head.word, command.head.words
    name = (words[1:2] or [b""])[0]
    if word == b"table" and reply.startswith(b"table %d\n" % (len(words) - 5)):
        pairs = [column.decode().partition(":") for column in words[5:]]
        return Trees([_tree(PRIMARY, [(name, kind) for name, _, kind in pairs], int(words[4]), True)])
    if word == b"index" and reply.startswith(b"index %b\n" % name) and trees:
        index = index_of(command.head)
        kinds, key = dict(trees.columns), [one for one, _ in trees.key]
        names = [*index.on, *key, *index.included]
        if not kinds.keys() >= set(names):  # as only another program makes it
            return trees
        return Trees([*trees, _tree(name, [(one.decode(), kinds[one].decode()) for one in names], len(index.on) + len(key), False)])
    if word == b"drop" and reply.startswith(b"dropped "):
        return Trees([tree for tree in trees if tree.name.encode() != name])
    if word == b"build" and reply.startswith(b"build ") and name in trees.by_name:
        is_complete = reply.endswith(b" complete\n")
        return Trees([tree._replace(is_complete=is_complete) if tree.name.encode() == name else tree for tree in trees])
    return trees


def _tree(name: bytes, columns: Iterable[tuple[str, str]], keys: int, is_complete: bool) -> Tree:
    return Tree(name.decode(), tuple([TreeColumn(*column, place < keys) for place, column in enumerate(columns)]), is_complete)

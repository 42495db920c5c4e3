"""Deletes of the rows of a range, a page at a time."""

from __future__ import annotations

from typing import TYPE_CHECKING, Any

from .batches import Columns

if TYPE_CHECKING:
    from .calls import Bound, Calls


def delete_range(table: Calls, tree: str, start: Bound, stop: Bound, most: int) -> int:
    """Removes the rows of a range of a tree, in batches of at most so many, and returns how many there were. A page is read and removed with no call of another
    thread in between, which might put its rows out of the range."""
    count = 0
    while True:
        with table._without_others():
            columns = table.scan_columns(tree, start, stop, most)
            trees = table.trees()
            there = trees.tree()
            keys: list[Any] = [columns[column.name] for column in there.key]
            found = len(keys[0])
            if found:
                table._apply_after(Columns("del", (), keys, found, there), there, count)
        count += found
        if found < most:
            return count
        # The next page begins at the place of the last row, and not before all those that are gone.
        start = tuple([columns[column.name][-1] for column in trees.tree(tree).key])

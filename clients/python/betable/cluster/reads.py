"""Reads of a replica. They change nothing, so nothing of them is in the log: they are the calls of the session that has the table, on packed bytes. A layer
over sessions replies to scripts alone, so reads go to it by scripts."""

from __future__ import annotations

from abc import abstractmethod
from collections.abc import Callable, Iterator
from typing import Any, Protocol, TypeVar

from ..calls import Bound, Calls, Row
from ..packed import Usage
from ..reasons import Reason
from ..rows import ColumnValues
from ..schema import TreeColumn, Trees
from ..session import ScriptSession

T = TypeVar("T")


class Reads(Calls):
    """The calls that only read. What they do is said where a session has them."""

    @abstractmethod
    def _read(self, call: Callable[[Calls], T]) -> T:
        """What a call gives of the reader of the table, which `reader_of` finds."""

    def get(self, *key: Any) -> Row | None:
        return self._read(lambda reader: reader.get(*key))

    def scan(
        self, tree: str = "primary", start: Bound = None, stop: Bound = None, limit: int | None = None, after: Bound = None, *, newest_first: bool = False
    ) -> list[Row]:
        return self._read(lambda reader: reader.scan(tree, start, stop, limit, after, newest_first=newest_first))

    def iterate(
        self, tree: str = "primary", start: Bound = None, stop: Bound = None, page: int = 1_000, *, newest_first: bool = False
    ) -> Iterator[Row]:
        return self._read(lambda reader: reader._iterated(self._read, tree, start, stop, page, newest_first))

    def scan_columns(
        self, tree: str = "primary", start: Bound = None, stop: Bound = None, limit: int | None = None, *, newest_first: bool = False
    ) -> dict[str, ColumnValues]:
        return self._read(lambda reader: reader.scan_columns(tree, start, stop, limit, newest_first=newest_first))

    def scan_frame(
        self, tree: str = "primary", start: Bound = None, stop: Bound = None, limit: int | None = None, *, newest_first: bool = False
    ) -> Any:
        call: Callable[[Calls], Any] = lambda reader: reader.scan_frame(tree, start, stop, limit, newest_first=newest_first)  # noqa: E731
        return self._read(call)

    def sums(
        self, tree: str, columns: int, column: str, start: Bound = None, stop: Bound = None
    ) -> list[Row]:
        return self._read(lambda reader: reader.sums(tree, columns, column, start, stop))

    def trees(self) -> Trees:
        return self._read(lambda reader: reader.trees())

    def columns(self, tree: str = "primary") -> list[TreeColumn]:
        return self._read(lambda reader: reader.columns(tree))

    def usage(self, tree: str = "primary") -> Usage:
        return self._read(lambda reader: reader.usage(tree))

    def check(self, script: str | bytes) -> list[int]:
        return self._read(lambda reader: reader.check(script))

    def explain(self, script: str | bytes) -> Reason | None:
        return self._read(lambda reader: reader.explain(script))


class Runner(Protocol):
    """What runs the scripts of a table: a session, or a layer over sessions."""

    def replies(self, script: bytes) -> bytes:
        ...

    def trees(self) -> Trees:
        ...

    def close(self) -> None:
        ...


class ByScripts(Calls):
    """The calls on a table, whose scripts a layer runs."""

    def __init__(self, table: Calls, layer: Runner) -> None:
        self._owner, self._layer = table, layer

    def replies(self, script: str | bytes) -> bytes:
        return self._owner.replies(script)

    def trees(self) -> Trees:
        return self._layer.trees()


def reader_of(table: Calls, runner: Runner) -> Calls:
    """What reads a table: the session that runs its scripts, or the calls by scripts if that is a layer."""
    return runner if isinstance(runner, ScriptSession) else ByScripts(table, runner)

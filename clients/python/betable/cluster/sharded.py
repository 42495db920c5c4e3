"""A table that is divided among shards by ranges of its key, for more memory than one machine has.

    shards = [cluster.ProcessShard() for _ in range(3)]
    with cluster.Sharded(shards, [(250_000,), (500_000,)]) as table:
        table.table("id:int city:text qty:int")
        table.put({"id": ids, "city": cities, "qty": quantities})

Each bound is a tuple of values for the first columns of the key: the first shard has the keys before the first bound, the second those from there to before the
second bound, and so on. A call gives what it gives of one session. Rows are put by each shard for itself, so if a shard refuses a row, those of others may have
been put. If a shard is lost, the table is.
"""

from __future__ import annotations

import heapq
import os
import subprocess
import sys
from array import array
from bisect import bisect_right
from collections.abc import Iterable, Iterator, Mapping, Sequence
from contextlib import contextmanager, suppress
from functools import reduce
from itertools import chain, islice
from multiprocessing.connection import Connection
from operator import add
from pathlib import Path
from threading import Timer
from typing import Any

from ..calls import MOST_MESSAGES, Bound, Row
from ..errors import OutOfMemory, Refused, RowError
from ..language import counted
from ..rows import ColumnValues, as_iterator
from ..session import Session

PATIENCE = 30.0  # seconds
SECONDS_TO_END = 10


class ShardLost(Exception):
    """A shard failed, so that the table is lost. `shard` is its place among the shards, counted from 0, and `__cause__` is what failed."""

    def __init__(self, shard: int, reason: str) -> None:
        super().__init__(shard, reason)
        self.shard, self.reason = shard, reason

    def __str__(self) -> str:
        return f"shard {self.shard} is lost, and the table with it: {self.reason}. Make a new table"


class ShardEnded(Exception):
    """The process of a shard has ended, or was killed since it was silent for too long."""


class ProcessShard:
    """A shard in a process, which `command` starts, and which ends with this one. On another machine it is
    `ProcessShard(["ssh", "machine", "python3", "-m", "betable.cluster.shard"])`. `patience` is for how many seconds the process may be silent in a call: it
    gives a sign of life each second while it works. One that is silent for longer is killed, and lost."""

    def __init__(self, command: Sequence[str] | None = None, *, patience: float = PATIENCE) -> None:
        if not 2 <= patience < float("inf"):
            raise ValueError(f"the patience is a number of seconds, at least 2, and not {patience!r}")
        self._patience = patience
        # The process finds the package in the same folder as this one.
        folders = [str(Path(__file__).resolve().parents[2]), os.environ.get("PYTHONPATH", "")]
        environment = {**os.environ, "PYTHONPATH": os.pathsep.join(filter(None, folders))}
        words = command or [sys.executable, "-P", "-m", "betable.cluster.shard"]
        self.process = subprocess.Popen(words, stdin=subprocess.PIPE, stdout=subprocess.PIPE, bufsize=0, env=environment)
        assert self.process.stdin and self.process.stdout
        with self.process.stdin as requests, self.process.stdout as replies:
            self._requests, self._replies = Connection(os.dup(requests.fileno()), readable=False), Connection(os.dup(replies.fileno()), writable=False)

    @contextmanager
    def _watched(self) -> Iterator[None]:
        """Kills a process that does not take or give anything within the patience, which ends the wait for it."""
        timer = Timer(self._patience, self.process.kill)
        timer.daemon = True
        timer.start()
        try:
            yield
        except (EOFError, OSError) as fault:
            silent = "" if timer.is_alive() else f": it gave no sign of life for {self._patience:g} s"
            raise ShardEnded(f"the process {self.process.pid} of a shard has ended{silent}") from fault
        finally:
            timer.cancel()

    def send(self, name: str, *arguments: Any, **named: Any) -> None:
        """Sends a call, which the process carries out while others work."""
        with self._watched():
            self._requests.send((name, arguments, named))

    def receive(self) -> Any:
        """What the call gives, or the exception that it raises."""
        outcome = None
        while outcome is None:
            with self._watched():
                outcome = self._replies.recv()
        if outcome[0] not in ("gives", "raises"):
            raise ShardEnded(f"the process {self.process.pid} is no shard")
        return outcome[1]

    def close(self) -> None:
        """Ends the process, whose standard input ends."""
        with suppress(OSError):
            self._requests.close()
        with suppress(OSError):
            self._replies.close()
        for _ in range(2):
            try:
                self.process.wait(SECONDS_TO_END)
                break
            except subprocess.TimeoutExpired:
                self.process.kill()


class Sharded:
    """A table among shards, which are new and belong to it from now on. It is used by one thread at a time."""

    def __init__(self, shards: Sequence[ProcessShard], bounds: Sequence[Sequence[Any]]) -> None:
        if not shards or len(bounds) != len(shards) - 1:
            raise ValueError(f"{counted(len(shards), 'shard')} and {counted(len(bounds), 'bound')}: between two shards there is one bound")
        self._shards, self._bounds = list(shards), [tuple(bound) for bound in bounds]
        if any(low >= high for low, high in zip([(), *self._bounds], self._bounds)):
            raise ValueError(f"the bounds are values of the first columns of the key, in ascending order, and not {self._bounds}")
        self._key: list[str] = []
        self._lost: ShardLost | None = None
        self._is_closed = False

    def __enter__(self) -> Sharded:
        return self

    def __exit__(self, *_: object) -> None:
        self.close()

    @property
    def is_lost(self) -> bool:
        """Whether a shard was lost, and the table with it."""
        return self._lost is not None

    def close(self) -> None:
        """Gives all shards up. A table that is closed stays so."""
        self._is_closed = True
        for shard in self._shards:
            shard.close()

    def table(
        self, columns: str | Mapping[str, str] | Iterable[str | tuple[str, str]], keys: int = 1, fanout: int = 16, buffer: int | str = 1024, leaf: int = 256
    ) -> None:
        """Makes the table, as `Session.table` does."""
        columns = columns if isinstance(columns, (str, Mapping)) else list(columns)
        with Session() as session:
            session.table(columns, keys, fanout, buffer, leaf)
            for bound in self._bounds:
                session.scan("primary", bound)  # refused if it is no beginning of a key
            key = [column.name for column in session.columns() if column.is_key]
        self._of_each("table", columns, keys, fanout, buffer, leaf)
        self._key = key

    def index(self, name: str, on: str | Sequence[str], include: str | Sequence[str] = (), where: tuple[str, str, Any] | None = None) -> None:
        """Makes and builds an index, as `Session.index` does."""
        self._of_each("index", name, on, include, where)

    def put(self, rows: Iterable[Any] | Mapping[str, Any]) -> int:
        """Puts rows, or rows by columns, as `Session.put` does, and returns their number. The rows of each shard are in batches of their own. If one refuses a
        row, the exception is that of the first row at fault, and those of other batches may have been put."""
        if isinstance(rows, Mapping):
            return self._put(*self._parts_of_columns(rows))
        given, count = as_iterator(rows, "rows", "[(1, ..), (2, ..)]"), 0
        while some := list(islice(given, len(self._shards) * MOST_MESSAGES)):
            places = [self._shard_of(key_of(row, self._key)) for row in some]
            positions = [[at for at, place in enumerate(places) if place == shard] for shard in range(len(self._shards))]
            count += self._put([[some[at] for at in part] for part in positions], [[count + at for at in part] for part in positions])
        return count

    def get(self, *key: Any) -> Row | None:
        """The row of a key, or None."""
        shard = self._shard_of(key)
        return self._given({shard: ("get", *key)})[0]  # type: ignore[no-any-return]

    def scan(
        self, tree: str = "primary", start: Bound = None, stop: Bound = None, limit: int | None = None, after: Bound = None, *, newest_first: bool = False
    ) -> list[Row]:
        """The rows of a tree in a range, as `Session.scan` gives them."""
        parts = self._of_each("scan", tree, start, stop, limit, after, newest_first=newest_first)
        if tree == "primary":
            return list(islice(chain(*parts[:: -1 if newest_first else 1]), limit))
        # The rows of an index begin with its key, and no two are equal in that.
        return list(islice(heapq.merge(*parts, reverse=newest_first), limit))

    def scan_columns(
        self, tree: str = "primary", start: Bound = None, stop: Bound = None, limit: int | None = None, *, newest_first: bool = False
    ) -> dict[str, ColumnValues]:
        """The rows of `scan` by columns, as `Session.scan_columns` gives them."""
        parts = self._of_each("scan_columns", tree, start, stop, limit, newest_first=newest_first)
        found = {name: reduce(add, (part[name] for part in parts[:: -1 if newest_first else 1])) for name in parts[0]}
        if tree == "primary":
            return {name: values[:limit] for name, values in found.items()}
        rows = list(zip(*found.values()))
        order = sorted(range(len(rows)), key=rows.__getitem__, reverse=newest_first)[:limit]
        return {name: taken(values, order) for name, values in found.items()}

    def sums(self, tree: str, columns: int, column: str, start: Bound = None, stop: Bound = None) -> list[Row]:
        """The groups of a tree, as `Session.sums` gives them."""
        totals: dict[Row, tuple[int, int]] = {}
        for count, total, *group in chain(*self._of_each("sums", tree, columns, column, start, stop)):
            before = totals.get(tuple(group), (0, 0))
            totals[tuple(group)] = before[0] + count, before[1] + total
        return [(*totals[group], *group) for group in sorted(totals)]

    def count(self, tree: str = "primary", start: Bound = None, stop: Bound = None) -> int:
        """The number of rows in a range, as `Session.count` gives it."""
        return self.sums(tree, 0, "", start, stop)[0][0]  # type: ignore[return-value]

    # ---- what the calls share ----

    def _ask(self, requests: Mapping[int, tuple[Any, ...]], **named: Any) -> list[Any]:
        """What shards, which work at the same time, give or raise for a call."""
        if self._is_closed:
            raise ValueError("the table is closed")
        if self._lost:
            raise self._lost
        found, at = [], 0
        try:
            for at, request in requests.items():
                self._shards[at].send(*request, **named)
            for at in requests:
                found.append(self._shards[at].receive())
                if isinstance(found[-1], OutOfMemory):
                    raise found[-1]
        except BaseException as fault:
            # Replies of other shards may still arrive, and it is not known what was applied.
            self._lost = ShardLost(at, f"{type(fault).__name__}: {fault}")
            if isinstance(fault, OutOfMemory):
                raise OutOfMemory(is_lost=True) from fault
            if isinstance(fault, Exception):
                raise self._lost from fault
            raise
        return found

    def _given(self, requests: Mapping[int, tuple[Any, ...]], **named: Any) -> list[Any]:
        """What shards give for a call that all of them refuse if one does."""
        found = self._ask(requests, **named)
        for outcome in found:
            if isinstance(outcome, Exception):
                raise outcome
        return found

    def _of_each(self, *request: Any, **named: Any) -> list[Any]:
        return self._given(dict.fromkeys(range(len(self._shards)), request), **named)

    def _shard_of(self, key: tuple[Any, ...]) -> int:
        """The shard of a key. What is no key is refused by any shard."""
        try:
            return bisect_right(self._bounds, key)
        except TypeError:
            return 0

    def _parts_of_columns(self, columns: Mapping[str, Any]) -> tuple[list[dict[str, Any]], list[Any]]:
        """The columns of the rows of each shard, and the places of these rows."""
        keys = [columns[name] for name in self._key if name in columns]
        if len(self._shards) == 1 or len(keys) < len(self._key) or len({len(values) for values in columns.values()}) != 1:
            return [dict(columns)], [range(1 << 62)]
        if hasattr(keys[0], "searchsorted") and all(len(bound) == 1 for bound in self._bounds) and not hasattr(columns[self._key[0]], "iloc"):
            import numpy

            places: Any = numpy.searchsorted(numpy.array([bound[0] for bound in self._bounds]), keys[0], side="right")
            positions: list[Any] = [numpy.flatnonzero(places == shard) for shard in range(len(self._shards))]
        else:
            places = [self._shard_of(key) for key in zip(*keys)]
            positions = [[at for at, place in enumerate(places) if place == shard] for shard in range(len(self._shards))]
        return [{name: taken(values, part) for name, values in columns.items()} for part in positions], positions

    def _put(self, parts: Sequence[Any], positions: Sequence[Any]) -> int:
        """Puts a part by each shard. `positions` has the place of each of its rows in the call."""
        requests = {shard: ("put", part) for shard, part in enumerate(parts) if len(positions[shard])} or {0: ("put", parts[0])}
        faults, count = [], 0
        for shard, outcome in zip(requests, self._ask(requests)):
            if isinstance(outcome, Exception):
                row = getattr(outcome, "row", None)
                place = None if row is None else int(positions[shard][row - 1]) + 1
                faults.append((place or 0, outcome))
            else:
                count += outcome
        if faults:
            raise renumbered(*min(faults, key=lambda fault: fault[0]))
        return count


def key_of(row: Any, names: Sequence[str]) -> tuple[Any, ...]:
    """The values of a row's key. What is no row has none."""
    if isinstance(row, Mapping):
        return tuple(row[name] for name in names if name in row)
    return tuple(row[: len(names)]) if isinstance(row, (tuple, list)) else ()


def taken(values: Any, places: Any) -> Any:
    """The values of a column at some places."""
    if hasattr(values, "take") and not isinstance(places, list):
        return values.take(places)
    found = [values[place] for place in places]
    return array(values.typecode, found) if isinstance(values, array) else found


def renumbered(row: int, fault: Exception) -> Exception:
    """The exception of a shard, whose row is that of the call."""
    if isinstance(fault, RowError) and fault.row is not None:
        return type(fault)(fault.reason, row=row, column=fault.column, value=fault.value)
    if isinstance(fault, Refused) and fault.row is not None:
        item = row if fault.item == fault.row else fault.item
        return Refused(
            fault.line, fault.number, fault.name, item, reason=fault.reason, column=fault.column, value=fault.value, row=row, is_of_script=False
        )  # fmt: skip
    return fault

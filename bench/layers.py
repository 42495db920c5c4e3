#!/usr/bin/python3
"""What a table among shards and a table on replicas do in a second, beside one session.

    bench/layers.py [--rows N] [--rounds N]

Rows are an int, a city of 1,000 and a quantity, in random order, and the table has an index on the city that includes the quantity. Shards are processes, of
which the bounds take equal parts; columns of NumPy are put into them, and into one session, a fourth of the rows at a time. The replicas are two in this
process, of which one runs scripts of one batch, and the other runs what the log has at the end; the scripts are made before the clock runs. The logs are
redis-server with an append-only file that is synced always, and PostgreSQL, both on this machine with their files in a temporary folder. Rounds take all
in turn; printed is the middle one, by the clock, and the load of the machine before and after. The library is that of BETABLE_LIBRARY, or of out/ of this
repository.
"""

from __future__ import annotations

import argparse
import os
import random
import sys
import time
from collections.abc import Callable, Iterable, Iterator
from contextlib import contextmanager
from functools import partial
from importlib.machinery import SourceFileLoader
from importlib.util import module_from_spec, spec_from_loader
from pathlib import Path
from statistics import median
from typing import Any

sys.dont_write_bytecode = True
TOP = Path(__file__).resolve().parents[1]
sys.path.insert(0, str(TOP / "clients/python"))

from betable import Session
from betable.cluster import ProcessShard, Replicas, Sharded

HEAD = "table 16 1024 256 1 id:int city:text qty:int\nindex by_city on city include qty\nbuild by_city 1\n"
SHARDS = (1, 2, 4)
BATCHES = (100, 1_000, 10_000)
LOGS = ("redis", "postgresql")
PARTS = 4  # in which the columns are put
READS: dict[str, Callable[[Any], Any]] = {
    "sums of the cities": lambda table: table.sums("by_city", 1, "qty"),
    "columns of the rows": lambda table: table.scan_columns(),
    "columns of the index": lambda table: table.scan_columns("by_city"),
}


def scripts_of(rows: list[tuple[int, str, int]], size: int) -> list[bytes]:
    lines = ["put %d,%s,%d\n" % row for row in rows]
    return ["".join(["batch\n", *lines[at : at + size], "end\n"]).encode() for at in range(0, len(lines), size)]


def seconds(call: Callable[[], Any]) -> float:
    begin = time.perf_counter()
    call()
    return time.perf_counter() - begin


def run_all(table: Any, scripts: Iterable[bytes]) -> None:
    for script in scripts:
        table.replies(script)


def measured(table: Any, columns: dict[str, Any], has_index: bool) -> tuple[list[float], list[Any]]:
    """The rows a second, and the seconds of each read, with what the reads gave."""
    count = len(columns["id"])
    parts = [{name: values[count * part // PARTS : count * (part + 1) // PARTS] for name, values in columns.items()} for part in range(PARTS)]
    with table:
        table.table("id:int city:text qty:int")
        if has_index:
            table.index("by_city", "city", "qty")
        found, given = [count / seconds(lambda: [table.put(part) for part in parts])], []
        for read in READS.values() if has_index else ():
            found.append(seconds(lambda: given.append(read(table))))
    return found, given


def sharded(count: int, span: int) -> Sharded:
    return Sharded([ProcessShard() for _ in range(count)], [(span * place // count,) for place in range(1, count)])


def shards(rows: list[tuple[int, str, int]], rounds: int) -> None:
    """One session, and tables among shards, without an index and with one."""
    import numpy

    span = max(row[0] for row in rows) + 1
    columns = {name: numpy.array(values) for name, values in zip(("id", "city", "qty"), zip(*rows))}
    results: dict[str, list[list[float]]] = {}
    for _ in range(rounds):
        wanted = None
        for name, made in {"one session": Session, **{counted(count): partial(sharded, count, span) for count in SHARDS}}.items():
            (plain, _), (found, given) = measured(made(), columns, False), measured(made(), columns, True)
            wanted = wanted or given
            if given != wanted:
                sys.exit("layers: shards give other rows")
            results.setdefault(name, []).append([*plain, *found])
    print(f"| {len(rows):,} rows | puts a second | with an index | {' | '.join(READS)} |\n|---|---|---|---|---|---|")
    for name, lines in results.items():
        found = [median(parts) for parts in zip(*lines)]
        rates, reads = found[:2], found[2:]
        cells = [f"{round(rate, -3):,.0f}" for rate in rates] + [f"{1_000 * read:.0f} ms" for read in reads]
        print(f"| {name} | {' | '.join(cells)} |")


def counted(count: int) -> str:
    return f"{count} shard" + "s" * (count > 1)


def replicas(rows: list[tuple[int, str, int]], rounds: int) -> None:
    """One session, and two replicas over each log."""
    loader = SourceFileLoader("crash_replicas", str(TOP / "tools/crash/replicas"))
    crash = module_from_spec(spec_from_loader("crash_replicas", loader))  # type: ignore[arg-type]
    loader.exec_module(crash)
    results: dict[tuple[str, int], list[tuple[float, float]]] = {}
    for turn in range(rounds):
        for log in (None, *LOGS):
            for size in BATCHES:
                # Fewer rows if each script waits for the disk.
                scripts = scripts_of(rows[: min(len(rows), 500 * size)], size)
                count = sum(script.count(b"\n") - 2 for script in scripts)
                with tables(crash, log) as (one, other):
                    one.replies(HEAD)
                    writes = seconds(lambda: run_all(one, scripts))
                    follows = seconds(other.catch_up) if log else 0
                results.setdefault((log or "one session", size), []).append((count / writes, count / follows if log else 0))
    print(f"\n| Rows a second | {' | '.join(f'batches of {size:,}' for size in BATCHES)} |\n|---|{'---|' * len(BATCHES)}")
    for log in ("one session", *LOGS):
        cells = []
        for size in BATCHES:
            rate, follow = [median(parts) for parts in zip(*results[log, size])]
            cells.append(f"{round(rate, -2):,.0f}" + (f", another replica {round(follow, -3):,.0f}" if follow else ""))
        print(f"| {log} | {' | '.join(cells)} |")


@contextmanager
def tables(crash: Any, log: str | None) -> Iterator[tuple[Any, Any]]:
    if log is None:
        with Session() as session:
            yield session, None
        return
    with crash.server(log) as server, Replicas(server.url) as one, Replicas(server.url) as other:
        yield one, other


def main() -> None:
    parser = argparse.ArgumentParser(description=__doc__, formatter_class=argparse.RawDescriptionHelpFormatter)
    parser.add_argument("--rows", type=int, default=400_000)
    parser.add_argument("--rounds", type=int, default=3)
    words = parser.parse_args()
    before = os.getloadavg()[0]
    rows = [(number, f"city{number % 1_000:04}", number * 48_271 % 1_000_003) for number in range(words.rows)]
    random.Random(1).shuffle(rows)
    shards(rows, words.rounds)
    replicas(rows, words.rounds)
    print(f"\nthe load was {before:.1f} before and {os.getloadavg()[0]:.1f} after, {os.cpu_count()} processors")


if __name__ == "__main__":
    main()

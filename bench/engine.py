#!/usr/bin/env python3
"""Clock time of calls from Python on an engine with several workers beside those on a session.

    bench/engine.py [--workers N] [--rows N] [--rounds N]

Both tables get the same N rows of three ints by one `put` of columns, without an index and with two, and then further ones in batches of several sizes, the
sums of an index over all rows, and single gets. Each round makes new tables. Printed is the time on a session, and that over the time on the engine, each the
middle one of all rounds. The columns are arrays of NumPy if it is installed, or else of the standard library. The last line tells the load of the machine.
"""

import argparse
import os
import random
import sys
import time
from array import array
from collections import defaultdict
from collections.abc import Callable
from pathlib import Path
from statistics import median

sys.path.insert(0, str(Path(__file__).resolve().parents[1] / "clients/python"))

import betable  # noqa: E402

try:
    from numpy import array as numpy_array
except ImportError:
    numpy_array = None

SIZES = (1_000, 3_000, 10_000, 65_536)
BATCH_ROWS, GETS = 131_072, 500
Columns = dict[str, object]


def columns(dice: random.Random, count: int) -> Columns:
    made = {name: array("q", [dice.randrange(most) for _ in range(count)]) for name, most in (("id", 1 << 40), ("value", 1 << 40), ("group", 1_000))}
    return {name: numpy_array(values) if numpy_array else values for name, values in made.items()}


def seconds(call: Callable[[], object]) -> float:
    begin = time.perf_counter()
    call()
    return time.perf_counter() - begin


def measured(table: betable.Session | betable.Engine, indexes: int, first: Columns, batches: dict[int, list[Columns]]) -> dict[str, float]:
    """The seconds that each kind of call took."""
    table.table("id:int value:int group:int")
    for column in ("value", "group")[:indexes]:
        table.index(f"by_{column}", on=column)
    found = {f"put of {len(first['id']):,} rows": seconds(lambda: table.put(first))}
    for size, parts in batches.items():
        found[f"batch of {size:,} rows"] = seconds(lambda: [table.put(part) for part in parts]) / len(parts)
    if indexes:
        found["sums of all rows by an index"] = seconds(lambda: table.sums("by_group", 1, "id"))
    found["get"] = median([seconds(lambda: table.get(key)) for key in range(GETS)])
    return found


def main() -> None:
    parser = argparse.ArgumentParser(description=__doc__.splitlines()[0])
    parser.add_argument("--workers", type=int, default=4)
    parser.add_argument("--rows", type=int, default=1_000_000)
    parser.add_argument("--rounds", type=int, default=5)
    words = parser.parse_args()
    dice = random.Random(1)
    first = columns(dice, words.rows)
    batches = {size: [columns(dice, size) for _ in range(BATCH_ROWS // size)] for size in SIZES}
    for indexes in (0, 2):
        times: dict[str, list[tuple[float, float]]] = defaultdict(list)
        for _ in range(words.rounds):
            with betable.Session() as session:
                alone = measured(session, indexes, first, batches)
            with betable.Engine(words.workers) as engine:
                shared = measured(engine, indexes, first, batches)
            for call, took in alone.items():
                times[call].append((took, shared[call]))
        for call, pairs in times.items():
            ratios = sorted(one / other for one, other in pairs)
            took = median([one for one, _ in pairs])
            print(f"{indexes} indexes, {call}: {1e3 * took:.4g} ms, {median(ratios):.2f} ({ratios[0]:.2f} to {ratios[-1]:.2f})", flush=True)
    print(f"load {os.getloadavg()[0]:.1f}, {words.workers} workers, columns of {'NumPy' if numpy_array else 'the standard library'}")


if __name__ == "__main__":
    main()

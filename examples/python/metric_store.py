#!/usr/bin/env python3
"""A store of metrics on disk: for each device and minute the number of its readings, their total, the smallest and the largest, and how many were alarms.

    python3 examples/python/metric_store.py metrics.table 100000

Readings are ints, here hundredths of a degree. One upsert takes a reading in, whether its minute has a row or not. A row starts with zeros, so the smallest
and the largest reading are kept as their distances from a number that is beyond all of them (docs/HOW_TO.md, The smallest number so far).
"""

import random
import sys
from collections.abc import Iterator, Sequence
from typing import Any, NamedTuple

from betable import durable

BEYOND, ALARM = 1_000_000, 9_000
COLUMNS = {"device": "int", "minute": "int", "n": "int", "total": "int", "least": "int", "most": "int", "alarms": "int"}


class Reading(NamedTuple):
    device: int
    minute: int
    value: int


class Summary(NamedTuple):
    minute: int
    n: int
    mean: float
    least: int
    most: int


def open_store(path: str) -> durable.Durable:
    """The store of a file. A new one gets its table and its indexes, all or none of them."""
    store = durable.open(path)
    if not store.trees():
        with store.group():
            store.table(COLUMNS, keys=2)
            store.index("by_minute", on="minute", include=["n", "total"])
            store.index("with_alarms", on=["minute", "device"], include="alarms", where=("alarms", ">=", 1))
    return store


def ingest(store: durable.Durable, readings: Sequence[Reading]) -> int:
    """Takes readings in, and returns how many. Once it returns they are on disk."""
    devices, minutes, values = zip(*readings) if readings else ((), (), ())
    return store.upsert_columns(
        {"device": devices, "minute": minutes},
        add={"n": 1, "total": values, "alarms": [int(value >= ALARM) for value in values]},
        max={"least": [BEYOND - value for value in values], "most": [BEYOND + value for value in values]},
    )


def summaries(store: durable.Durable, device: int, start: int, stop: int) -> Iterator[Summary]:
    """What a device measured in each minute, from `start` to before `stop`."""
    rows: Iterator[Any] = store.iterate("primary", (device, start), (device, stop))
    for _, minute, n, total, least, most, _ in rows:
        yield Summary(minute, n, total / n, BEYOND - least, most - BEYOND)


def means(store: durable.Durable, start: int, stop: int) -> dict[int, float]:
    """The mean of all devices in each minute: the index adds them up."""
    groups: list[list[Any]] = [store.sums("by_minute", 1, column, (start,), (stop,)) for column in ("n", "total")]
    return {minute: total / n for (_, n, minute), (_, total, _) in zip(*groups)}


def expire(store: durable.Durable, minute: int) -> int:
    """Deletes the rows before a minute, and returns how many."""
    passed = store.scan_columns("by_minute", None, (minute,))
    return store.delete_columns({"device": passed["device"], "minute": passed["minute"]})


if __name__ == "__main__":
    with open_store(sys.argv[1]) as opened:
        ingest(opened, [Reading(random.randrange(500), random.randrange(1_440), random.randrange(-2_000, 9_500)) for _ in range(int(sys.argv[2]))])
        print(*summaries(opened, 7, 600, 605), sep="\n")
        print(f"mean at noon: {means(opened, 720, 721)}, alarms before one o'clock: {len(opened.scan('with_alarms', None, (60,)))}")

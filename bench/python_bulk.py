#!/usr/bin/env python3
"""What bulk changes and reads take from Python, of betable and of SQLite through the module sqlite3, in memory and on disk.

    bench/python_bulk.py [--rows N] [--rounds N] [--folder FOLDER]

    upserts    readings of 500 devices go into a row for each device and minute by four operations, with two indexes, one of them on a part of the rows:
               `upsert_columns` of arrays of NumPy; `executemany` of INSERT .. ON CONFLICT DO UPDATE, with the same values as lists
    by rows    the same by `upsert_rows`, by `batch` of the messages of `betable.upsert_form`, and of those of `betable.upsert`
    put        rows of an int, a text and an int in random order: `put` of columns, whose ints are arrays of NumPy; `executemany` of INSERT OR REPLACE
    put_csv    the same rows from a CSV file: `put_csv`; csv.reader and `executemany`
    get, page  single rows, and a hundred rows from a key on

Changes go in by batches, each a transaction. In memory SQLite has no journal; on disk it has WAL, synchronous=FULL and a cache of 400 MB, and the durable table
syncs each batch too. Each round does all of them with new tables, and every second round begins with the other engine. The answers are compared. Printed is the
processor time of betable, and SQLite's over it in the same round, the middle ones of all rounds. NumPy is needed. The library is that of BETABLE_LIBRARY, or of
out/ of this repository.
"""

import argparse
import csv
import sqlite3
import sys
import tempfile
import time
from collections.abc import Callable
from pathlib import Path
from statistics import median
from typing import Any

import numpy

sys.path.insert(0, str(Path(__file__).resolve().parents[1] / "clients/python"))

import betable
from betable import durable

DEVICES, MINUTES, BATCH, PAGE, HIGH = 500, 1_440, 50_000, 100, 9_900
READS, PAGES = 50_000, 2_000
METRICS = "device:int minute:int n:int total:int hi:int lo:int"
UPSERT = """INSERT INTO metrics VALUES(?, ?, 1, ?, max(0, ?), min(0, ?)) ON CONFLICT DO UPDATE
    SET n = n + 1, total = total + excluded.total, hi = max(hi, excluded.hi), lo = min(lo, excluded.lo)"""
Readings = tuple[Any, Any, Any]


class Betable:
    def __init__(self, folder: str | None) -> None:
        self.table: Any = betable.Session() if folder is None else durable.open(f"{folder}/table")
        self.close = self.table.close

    def make_metrics(self) -> None:
        self.table.table(METRICS, keys=2)
        self.table.index("by_minute", on="minute", include="n")
        self.table.index("high", on="hi", where=("hi", ">=", HIGH))

    def upserts(self, readings: Readings) -> None:
        device, minute, value = readings
        self.table.upsert_columns(
            {"device": device, "minute": minute}, BATCH, add={"n": 1, "total": value}, max={"hi": value}, min={"lo": value}
        )

    def upserts_by_messages(self, readings: Readings) -> None:
        rows = zip(*[column.tolist() for column in readings])
        self.table.batch((betable.upsert(a, b, add={"n": 1, "total": v}, max={"hi": v}, min={"lo": v}) for a, b, v in rows), BATCH)

    def upserts_by_rows(self, readings: Readings) -> None:
        rows = zip(*[column.tolist() for column in readings])
        self.table.upsert_rows(((a, b, 1, v, v, v) for a, b, v in rows), BATCH, add=["n", "total"], max=["hi"], min=["lo"])

    def upserts_by_form(self, readings: Readings) -> None:
        reading, rows = betable.upsert_form(add=["n", "total"], max=["hi"], min=["lo"]), zip(*[column.tolist() for column in readings])
        self.table.batch((reading(a, b, 1, v, v, v) for a, b, v in rows), BATCH)

    def metrics(self) -> list[Any]:
        return [self.table.scan(), self.table.scan("high"), self.table.scan("by_minute", (5,), (9,))]

    def make_rows(self) -> None:
        self.table.table("id:int name:text qty:int")

    def put(self, ids: Any, names: list[str], quantities: Any) -> None:
        self.table.put({"id": ids, "name": names, "qty": quantities}, BATCH)

    def put_csv(self, path: str) -> None:
        self.table.put_csv(path, most=BATCH)

    def get(self, key: int) -> Any:
        return self.table.get(key)

    def page(self, key: int) -> list[Any]:
        found: list[Any] = self.table.scan("primary", (key,), None, PAGE)
        return found


class Sqlite:
    def __init__(self, folder: str | None) -> None:
        self.db = sqlite3.connect(":memory:" if folder is None else f"{folder}/sqlite", isolation_level=None)
        if folder is None:
            self.db.executescript("PRAGMA journal_mode=OFF; PRAGMA synchronous=OFF;")
        else:
            self.db.executescript("PRAGMA journal_mode=WAL; PRAGMA synchronous=FULL; PRAGMA locking_mode=EXCLUSIVE; PRAGMA cache_size=-400000;")
        self.close = self.db.close

    def make_metrics(self) -> None:
        columns = ", ".join(f"{word.partition(':')[0]} INTEGER NOT NULL" for word in METRICS.split())
        self.db.execute(f"CREATE TABLE metrics({columns}, PRIMARY KEY(device, minute)) WITHOUT ROWID")
        self.db.execute("CREATE INDEX by_minute ON metrics(minute, device, n)")
        self.db.execute(f"CREATE INDEX high ON metrics(hi, device, minute) WHERE hi >= {HIGH}")

    def _apply(self, sql: str, rows: list[Any]) -> None:
        for at in range(0, len(rows), BATCH):
            self.db.execute("BEGIN")
            self.db.executemany(sql, rows[at : at + BATCH])
            self.db.execute("COMMIT")

    def upserts(self, readings: Readings) -> None:
        device, minute, value = [column.tolist() for column in readings]
        self._apply(UPSERT, list(zip(device, minute, value, value, value)))

    def metrics(self) -> list[Any]:
        queries = ["SELECT * FROM metrics", f"SELECT hi, device, minute FROM metrics WHERE hi >= {HIGH} ORDER BY 1, 2, 3",
                   "SELECT minute, device, minute, n FROM metrics INDEXED BY by_minute WHERE minute >= 5 AND minute < 9 ORDER BY 1, 2"]  # fmt: skip
        return [self.db.execute(query).fetchall() for query in queries]

    def make_rows(self) -> None:
        self.db.execute("CREATE TABLE t(id INTEGER PRIMARY KEY, name TEXT NOT NULL, qty INTEGER NOT NULL)")

    def put(self, ids: Any, names: list[str], quantities: Any) -> None:
        self._apply("INSERT OR REPLACE INTO t VALUES(?, ?, ?)", list(zip(ids.tolist(), names, quantities.tolist())))

    def put_csv(self, path: str) -> None:
        with open(path, encoding="utf-8", newline="") as file:
            rows = csv.reader(file)
            next(rows)
            self._apply("INSERT OR REPLACE INTO t VALUES(?, ?, ?)", list(rows))

    def get(self, key: int) -> Any:
        return self.db.execute("SELECT id, name, qty FROM t WHERE id = ?", (key,)).fetchone()

    def page(self, key: int) -> list[Any]:
        return self.db.execute("SELECT id, name, qty FROM t WHERE id >= ? ORDER BY id LIMIT ?", (key, PAGE)).fetchall()


class Input:
    """What goes in, the same in all rounds."""

    def __init__(self, count: int, folder: str) -> None:
        dice = numpy.random.default_rng(1)
        self.readings: Readings = (dice.integers(0, DEVICES, count), dice.integers(0, MINUTES, count), dice.integers(-10_000, 10_000, count))
        self.ids, self.quantities = dice.permutation(count) * 7, dice.integers(0, 1_000, count)
        self.names = [f"item {number}" for number in dice.integers(0, 100_000, count).tolist()]
        self.keys = dice.choice(self.ids, READS).tolist()
        self.path = f"{folder}/rows.csv"
        with open(self.path, "w", encoding="utf-8") as file:
            file.write("id,name,qty\n")
            file.writelines(f"{one},{name},{qty}\n" for one, name, qty in zip(self.ids.tolist(), self.names, self.quantities.tolist()))


def measured(engine: type[Any], given: Input, on_disk: bool, folder: str) -> tuple[dict[str, float], list[Any]]:
    """The seconds of each step, and all answers."""
    seconds: dict[str, float] = {}
    answers: list[Any] = []

    def opened() -> Any:
        return engine(tempfile.mkdtemp(dir=folder) if on_disk else None)

    def lap(name: str, call: Callable[[], Any]) -> Any:
        begin = time.process_time()
        found = call()
        seconds[name] = time.process_time() - begin
        return found

    for name in ("upserts", "upserts_by_rows", "upserts_by_form", "upserts_by_messages"):
        if hasattr(engine, name):
            table = opened()
            table.make_metrics()
            lap(name, lambda: getattr(table, name)(given.readings))
            metrics = table.metrics()
            table.close()
            if name != "upserts" and metrics != answers[0]:
                sys.exit(f"python_bulk: {name} leaves other rows")
            answers[:1] = [metrics]
    for name, arguments in (("put_csv", (given.path,)), ("put", (given.ids, given.names, given.quantities))):
        table = opened()
        table.make_rows()
        lap(name, lambda: getattr(table, name)(*arguments))
        answers.append(table.page(0))
        if name == "put":
            # What is read is dropped as it comes.
            lap("get", lambda: [None for key in given.keys if table.get(key) is None])
            lap("page", lambda: [None for key in given.keys[:PAGES] if not table.page(key)])
            answers.append([table.get(key) for key in given.keys[:100]])
        table.close()
    return seconds, answers


def main() -> None:
    parser = argparse.ArgumentParser(description=__doc__, formatter_class=argparse.RawDescriptionHelpFormatter)
    parser.add_argument("--rows", type=int, default=1_000_000)
    parser.add_argument("--rounds", type=int, default=5)
    parser.add_argument("--folder")
    words = parser.parse_args()
    if words.rows < READS or words.rounds < 1:
        parser.error(f"from {READS:,} rows on, and one round or more")
    found: dict[tuple[str, bool], tuple[list[float], list[float]]] = {}
    with tempfile.TemporaryDirectory(dir=words.folder) as folder:
        given = Input(words.rows, folder)
        for turn in range(words.rounds):
            for on_disk in (False, True):
                engines: list[type[Any]] = [Betable, Sqlite]
                results = {engine: measured(engine, given, on_disk, folder) for engine in (engines if turn % 2 == 0 else engines[::-1])}
                (own, ours), (other, theirs) = results[Betable], results[Sqlite]
                if ours != theirs:
                    sys.exit("python_bulk: the engines answer differently")
                for name, seconds in own.items():
                    times, ratios = found.setdefault((name, on_disk), ([], []))
                    times.append(seconds)
                    ratios.append(other[name if name in other else "upserts"] / seconds)
    print(f"{words.rows:,} rows, the middle of {words.rounds} rounds\n")
    print("| Call | session, s | sqlite3 in memory | durable, s | sqlite3 on disk |\n|---|---|---|---|---|")
    for name in dict.fromkeys(name for name, _ in found):
        cells = [f"{median(times):.3f} | {median(ratios):.2f}" for times, ratios in (found[name, False], found[name, True])]
        print(f"| {name.replace('_', ' ')} | {' | '.join(cells)} |")


if __name__ == "__main__":
    main()

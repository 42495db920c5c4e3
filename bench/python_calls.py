#!/usr/bin/env python3
"""What one call takes from Python, of betable through clients/python and of SQLite through the module sqlite3.

    bench/python_calls.py [--rows N] [--rounds N]

The calls are those of bench/c_calls.c: puts of one row, batches of a hundred, gets of a row, scans of the hundred rows from a key on, and sums of the rows of
a city over an index that is made when all rows are there. Rows are tuples of an int, a str and an int, before a call and after it. Both are in memory, SQLite
without journal; each round gives each of them new, empty tables, and begins with another one, and both are compared by what they answer. Printed is the
processor time of a call of betable, and that of sqlite3 over it in the same round, the middle one of all rounds. The library is that of BETABLE_LIBRARY, or of
out/ of this repository; the first line says whether calls go by the extension or, where that is not built, by scripts.
"""

import argparse
import random
import sqlite3
import sys
import time
from pathlib import Path
from statistics import median

sys.path.insert(0, str(Path(__file__).resolve().parents[1] / "clients/python"))

import betable

CITIES, BATCH = 1000, 100
STEPS = ("put of one row", "batch of a hundred puts", "get of a row", "scan of a hundred rows", "sums of a city")


class Betable:
    def __init__(self):
        self.session = betable.Session()
        self.session.run("table 16 1024 256 1 id:int city:text qty:int\n")
        self.put, self.get, self.close = self.session.put, self.session.get, self.session.close

    def put_one(self, row):
        self.session.put((row,))

    def page(self, key):
        return self.session.scan("primary", (key,), None, BATCH)

    def make_index(self):
        self.session.run("index by_city on city include qty\nbuild by_city 100000000\n")

    def sums(self, city, next_city):
        return self.session.sums("by_city", 1, "qty", (city,), (next_city,))


class Sqlite:
    PUT = "INSERT OR REPLACE INTO t VALUES(?,?,?)"

    def __init__(self):
        # Each statement outside of BEGIN and COMMIT is a transaction.
        self.db = sqlite3.connect(":memory:", isolation_level=None)
        self.db.executescript("PRAGMA journal_mode=OFF; PRAGMA synchronous=OFF;")
        self.db.execute("CREATE TABLE t(id INTEGER PRIMARY KEY, city TEXT NOT NULL, qty INTEGER NOT NULL)")
        self.close = self.db.close

    def put(self, rows):
        self.db.execute("BEGIN")
        self.db.executemany(self.PUT, rows)
        self.db.execute("COMMIT")

    def put_one(self, row):
        self.db.execute(self.PUT, row)

    def get(self, key):
        return self.db.execute("SELECT id,city,qty FROM t WHERE id=?", (key,)).fetchone()

    def page(self, key):
        return self.db.execute("SELECT id,city,qty FROM t WHERE id>=? ORDER BY id LIMIT ?", (key, BATCH)).fetchall()

    def make_index(self):
        self.db.execute("CREATE INDEX by_city ON t(city,qty)")

    def sums(self, city, next_city):
        sql = "SELECT COUNT(*),SUM(qty),city FROM t INDEXED BY by_city WHERE city>=? AND city<? GROUP BY city"
        return self.db.execute(sql, (city, next_city)).fetchall()


ENGINES = (Betable, Sqlite)


def city(number):
    return f"city{number % 10_000:04}"


def measured(engine, rows):
    """The seconds of a call of each step, and all answers."""
    engine, chance, half = engine(), random.Random(1), len(rows) // 2
    batches = [rows[place : place + BATCH] for place in range(half, len(rows), BATCH)]
    keys = [row[0] for row in chance.choices(rows, k=len(rows))]
    numbers = chance.choices(range(CITIES), k=len(rows) // 20)
    ranges = [(city(number), city(number + 1)) for number in numbers]
    clock, seconds = time.process_time, []

    begin = clock()
    for row in rows[:half]:
        engine.put_one(row)
    seconds.append((clock() - begin) / half)

    begin = clock()
    for batch in batches:
        engine.put(batch)
    seconds.append((clock() - begin) / len(batches))

    begin = clock()
    found = [engine.get(key) for key in keys]
    seconds.append((clock() - begin) / len(keys))

    # Their rows are dropped as they come: to keep them all would measure how the system gives memory.
    begin = clock()
    for key in keys[: len(keys) // 20]:
        engine.page(key)
    seconds.append((clock() - begin) / (len(keys) // 20))
    pages = [engine.page(key) for key in keys[:200]]

    engine.make_index()
    begin = clock()
    sums = [engine.sums(*bounds) for bounds in ranges]
    seconds.append((clock() - begin) / len(ranges))
    engine.close()
    return seconds, (found, pages, sums)


def main():
    parser = argparse.ArgumentParser(description=__doc__, formatter_class=argparse.RawDescriptionHelpFormatter)
    parser.add_argument("--rows", type=int, default=100_000)
    parser.add_argument("--rounds", type=int, default=7)
    words = parser.parse_args()
    if words.rows < 10 * CITIES or words.rounds < 1:
        parser.error("from 10,000 rows on, and one round or more")
    count = words.rows - words.rows % (2 * BATCH)
    rows = [(number * 2_654_435_761 % 2**32, city(number % CITIES), number * 48_271 % 1_000_003) for number in range(count)]
    own, ratios = [], []
    for turn in range(words.rounds):
        order = ENGINES if turn % 2 == 0 else ENGINES[::-1]
        found = {engine: measured(engine, rows) for engine in order}
        if found[Betable][1] != found[Sqlite][1]:
            sys.exit("python_calls: the engines answer differently")
        own.append(found[Betable][0])
        ratios.append([theirs / ours for ours, theirs in zip(*(found[engine][0] for engine in ENGINES))])
    by = "scripts" if betable.session._packed is None else "the extension"
    print(f"{count} rows, the middle of {words.rounds} rounds, calls by {by}\n\n| Call | betable | sqlite3 |\n|---|---|---|")
    for step, times, shares in zip(STEPS, zip(*own), zip(*ratios)):
        print(f"| {step} | {1e6 * median(times):.2f} µs | {median(shares):.2f} |")


if __name__ == "__main__":
    main()

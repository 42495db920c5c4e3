#!/usr/bin/env python3
"""What it costs to keep a table on disk: the durable table of clients/python beside SQLite and Redis, each with a sync before a call returns.

    bench/durable.py [--rounds N] [--start-rows N] [--folder FOLDER]

Rows are an int, which is the key and comes in random order, a text of five cities and an int. They go in by batches. Each round does all of them one after the
other and begins with another one:

    put          betable, `put` of tuples
    script       betable, scripts that are written before the clock runs, each in a call of its own
    group        the same scripts, 16 of them kept by one sync
    kept_put     an engine that keeps its table (`betable_engine --keep`), `put` of tuples
    kept_script  the same with the scripts
    sqlite       the module sqlite3, `executemany` of tuples in one transaction for a batch, WAL, synchronous=FULL, locking_mode=EXCLUSIVE, a cache of 400 MB
    redis        redis-server, if it is installed: a hash for a row, in one MULTI for a batch, written before the clock runs; appendonly, appendfsync always

Printed are rows a second by the clock, and the ratios to SQLite in the same round, the middle ones of all rounds. Then the time to open a table of many rows,
from its batches and from a checkpoint, beside SQLite's to open a file of the same rows and read each of them once, and how long a put takes that writes a
checkpoint. Then the processor time of single reads of a durable table, of a session with the same rows, and of SQLite. The files are in a folder that is made
in FOLDER, or where temporary files are. The library is that of BETABLE_LIBRARY, or of out/ of this repository.
"""

import argparse
import os
import random
import shutil
import socket
import sqlite3
import subprocess
import sys
import tempfile
import time
from collections.abc import Callable, Iterator
from contextlib import closing, contextmanager, nullcontext
from pathlib import Path
from statistics import median

sys.path.insert(0, str(Path(__file__).resolve().parents[1] / "clients/python"))

from betable import Engine, Session, durable

HEAD = "table 16 1024 256 1 id:int city:text qty:int\n"
INDEX = "index by_city on city include qty\nbuild by_city 1\n"
CITIES = ["Oslo", "Bergen", "Trondheim", "Stavanger", "Molde"]
# Rows of a batch, and of all batches.
SIZES = {1: 2_000, 100: 200_000, 1_000: 400_000, 10_000: 400_000}
GROUP, LARGE_BATCH = 16, 10_000
DUE = 1 << 24  # bytes of a file at which a checkpoint is due
READS, PAGE = 2_000, 100  # calls of each kind of read, and rows of a page
Row = tuple[int, str, int]
Way = Callable[[str, list[Row], int], float]


def rows_of(count: int) -> list[Row]:
    dice = random.Random(1)
    numbers = list(range(count))
    dice.shuffle(numbers)
    return [(number, dice.choice(CITIES), dice.randrange(1_000)) for number in numbers]


def script_of(rows: list[Row]) -> bytes:
    return ("batch\n" + "".join(f"put {number},{city},{quantity}\n" for number, city, quantity in rows) + "end\n").encode()


def parts(rows: list[Row], size: int) -> list[list[Row]]:
    return [rows[at : at + size] for at in range(0, len(rows), size)]


def seconds_of_put(folder: str, rows: list[Row], size: int) -> float:
    batches = parts(rows, size)
    with durable.open(f"{folder}/put") as table:
        table.run(HEAD)
        begin = time.perf_counter()
        for batch in batches:
            table.put(batch)
        return time.perf_counter() - begin


def seconds_of_scripts(folder: str, rows: list[Row], size: int, group: int = 1) -> float:
    scripts = [script_of(batch) for batch in parts(rows, size)]
    with durable.open(f"{folder}/script") as table:
        table.run(HEAD)
        begin = time.perf_counter()
        for at in range(0, len(scripts), group):
            with table.group() if group > 1 else nullcontext():
                for script in scripts[at : at + group]:
                    table.replies(script)
        return time.perf_counter() - begin


def seconds_of_groups(folder: str, rows: list[Row], size: int) -> float:
    return seconds_of_scripts(folder, rows, size, GROUP)


def seconds_of_kept_put(folder: str, rows: list[Row], size: int) -> float:
    batches = parts(rows, size)
    with Engine(1 if size < LARGE_BATCH else 4, keep=f"{folder}/kept") as table:
        table.run(HEAD)
        begin = time.perf_counter()
        for batch in batches:
            table.put(batch)
        return time.perf_counter() - begin


def seconds_of_kept_scripts(folder: str, rows: list[Row], size: int) -> float:
    scripts = [script_of(batch) for batch in parts(rows, size)]
    with Engine(1 if size < LARGE_BATCH else 4, keep=f"{folder}/kept") as table:
        table.run(HEAD)
        begin = time.perf_counter()
        for script in scripts:
            table.replies(script)
        return time.perf_counter() - begin


def sqlite_file(path: str) -> sqlite3.Connection:
    db = sqlite3.connect(path, isolation_level=None)
    db.executescript("PRAGMA locking_mode=EXCLUSIVE; PRAGMA journal_mode=WAL; PRAGMA synchronous=FULL; PRAGMA cache_size=-400000")
    db.execute("CREATE TABLE IF NOT EXISTS t(id INTEGER PRIMARY KEY, city TEXT NOT NULL, qty INTEGER NOT NULL)")
    return db


def seconds_of_sqlite(folder: str, rows: list[Row], size: int) -> float:
    batches, db = parts(rows, size), sqlite_file(f"{folder}/sqlite")
    begin = time.perf_counter()
    for batch in batches:
        db.execute("BEGIN")
        db.executemany("INSERT OR REPLACE INTO t VALUES(?, ?, ?)", batch)
        db.execute("COMMIT")
    seconds = time.perf_counter() - begin
    db.close()
    return seconds


def words_of_redis(*words: object) -> bytes:
    encoded = [str(word).encode() for word in words]
    return b"*%d\r\n" % len(encoded) + b"".join(b"$%d\r\n%b\r\n" % (len(word), word) for word in encoded)


@contextmanager
def redis_server(folder: str) -> Iterator[socket.socket]:
    words = ["redis-server", "--port", "0", "--unixsocket", f"{folder}/socket", "--dir", folder, "--save", "", "--appendonly", "yes", "--appendfsync", "always"]
    server = subprocess.Popen(words, stdout=subprocess.DEVNULL)
    try:
        while not os.path.exists(f"{folder}/socket"):
            time.sleep(0.01)
        with socket.socket(socket.AF_UNIX) as stream:
            stream.connect(f"{folder}/socket")
            yield stream
    finally:
        server.terminate()
        server.wait()


def seconds_of_redis(folder: str, rows: list[Row], size: int) -> float:
    requests = []
    for batch in parts(rows, size):
        commands = [words_of_redis("HSET", f"row:{number}", "city", city, "qty", quantity) for number, city, quantity in batch]
        requests.append(b"".join([words_of_redis("MULTI"), *commands, words_of_redis("EXEC")]))
    with redis_server(folder) as stream:
        begin = time.perf_counter()
        for request, batch in zip(requests, parts(rows, size)):
            stream.sendall(request)
            # OK, QUEUED for each row, and a list with a number for each.
            wanted = len("+OK\r\n") + len("+QUEUED\r\n") * len(batch) + len(f"*{len(batch)}\r\n") + len(":2\r\n") * len(batch)
            while wanted > 0:
                wanted -= len(stream.recv(1 << 20))
        return time.perf_counter() - begin


def seconds_of_sync(folder: str) -> float:
    """What the disk takes for 4 KiB and a sync, the middle of a hundred."""
    file, found = os.open(f"{folder}/sync", os.O_CREAT | os.O_WRONLY), []
    for number in range(100):
        begin = time.perf_counter()
        os.pwrite(file, bytes(4_096), 4_096 * number)
        os.fdatasync(file)
        found.append(time.perf_counter() - begin)
    os.close(file)
    return median(found)


def ingest(folder: str, rounds: int) -> None:
    ways: dict[str, Way] = {"put": seconds_of_put, "script": seconds_of_scripts, "group": seconds_of_groups}
    ways |= {"kept_put": seconds_of_kept_put, "kept_script": seconds_of_kept_scripts, "sqlite": seconds_of_sqlite}
    if shutil.which("redis-server"):
        ways["redis"] = seconds_of_redis
    names = [*ways]
    print(f"| Rows a batch | a sync | {' | '.join(names)} | {' | '.join(f'{name} : sqlite' for name in names if name != 'sqlite')} |")
    print("|---" * (2 * len(names) + 1) + "|")
    for size, count in SIZES.items():
        rows, found, syncs = rows_of(count), [], []
        for turn in range(rounds):
            order, seconds = names[turn % len(names) :] + names[: turn % len(names)], {}
            for name in order:
                place = tempfile.mkdtemp(dir=folder)
                syncs.append(seconds_of_sync(place))
                seconds[name] = ways[name](place, rows, size)
                shutil.rmtree(place)
            found.append(seconds)
        rates = [f"{count / median(one[name] for one in found):,.0f}" for name in names]
        ratios = [f"{median(one['sqlite'] / one[name] for one in found):.1f}" for name in names if name != "sqlite"]
        print(f"| {size:,} | {1e3 * median(syncs):.2f} ms | {' | '.join(rates + ratios)} |", flush=True)


def opened(path: str) -> float:
    """How long a copy takes to open, which a checkpoint at its end may change."""
    copy = f"{path}.copy"
    shutil.copyfile(path, copy)
    begin = time.perf_counter()
    with durable.open(copy):
        seconds = time.perf_counter() - begin
    os.remove(copy)
    return seconds


def read(path: str, query: str) -> float:
    begin = time.perf_counter()
    db = sqlite_file(path)
    db.execute(query).fetchall()
    seconds = time.perf_counter() - begin
    db.close()
    return seconds


def size_of(path: str) -> str:
    return f"{os.path.getsize(path) / 1e6:.0f} MB"


def seconds_with_checkpoint(path: str) -> float:
    """How long a put takes before which a checkpoint is due."""
    with durable.open(path) as table:
        count, most = table.checkpoint_count, 4 * table.file_bytes + DUE
        while True:
            rows = [(number, "Oslo", 1) for number in range(10_000)]
            begin = time.perf_counter()
            table.put(rows)
            if table.checkpoint_count > count:
                return time.perf_counter() - begin
            if table.file_bytes > most:
                sys.exit("durable: no checkpoint was written")


def starts(folder: str, count: int, rounds: int) -> None:
    rows, found, notes = rows_of(count), {}, {}
    for size, index in ((1, ""), (100, ""), (LARGE_BATCH, ""), (LARGE_BATCH, INDEX)):
        path, name = f"{folder}/table", f"replay of batches of {size:,}{', with an index' if index else ''}"
        with durable.open(path) as table:
            # In a group no checkpoint is made, and the copy has none either.
            with table.group():
                table.run(HEAD + index)
                table.put(rows, most=size)
            table.backup(f"{path}.batches")
            table.run("rebuild primary\n")
            images = table.replies("image primary\n")
            begin = time.perf_counter()
            table.checkpoint()
            seconds = time.perf_counter() - begin
            if table.replies("image primary\n") != images:
                sys.exit("durable: the table is another one after a checkpoint")
        found[name], notes[name] = [opened(f"{path}.batches") for _ in range(rounds)], size_of(f"{path}.batches")
        os.remove(f"{path}.batches")
        name = f"checkpoint{', with an index' if index else ''}"
        found[f"{name}, written"] = [seconds]
        found[f"{name}, by a put"] = [seconds_with_checkpoint(path)]
        found[f"{name}, opened"], notes[f"{name}, opened"] = [opened(path) for _ in range(rounds)], size_of(path)
        os.remove(path)
    seconds_of_sqlite(folder, rows, LARGE_BATCH)
    for name, query in (("one row", "SELECT * FROM t WHERE id = 7"), ("each row", "SELECT sum(id), sum(length(city)), sum(qty) FROM t")):
        found[f"sqlite opened, {name} read"] = [read(f"{folder}/sqlite", query) for _ in range(rounds)]
    notes["sqlite opened, each row read"] = size_of(f"{folder}/sqlite")
    print(f"\n| {count:,} rows | seconds | rows a second | file |\n|---|---|---|---|")
    for name, seconds in found.items():
        print(f"| {name} | {median(seconds):.4f} | {count / median(seconds):,.0f} | {notes.get(name, '')} |")


def reads(folder: str, count: int, rounds: int) -> None:
    rows, dice, found = rows_of(count), random.Random(2), {}
    keys = [dice.randrange(count) for _ in range(READS)]
    path = f"{folder}/reads"
    with durable.open(path) as table, Session() as session, closing(sqlite_file(f"{path}.sqlite")) as db:
        for one in (table, session):
            one.run(HEAD + INDEX)
            one.put(rows)
        db.execute("CREATE INDEX by_city ON t(city, id, qty)")
        with db:
            db.execute("BEGIN")
            db.executemany("INSERT INTO t VALUES(?, ?, ?)", rows)
        ways: dict[str, tuple[Callable[[int], object], ...]] = {
            "a row": (table.get, session.get, lambda key: db.execute("SELECT * FROM t WHERE id = ?", (key,)).fetchone()),
            f"{PAGE} rows from a key on": (
                lambda key: table.scan("primary", (key,), None, PAGE), lambda key: session.scan("primary", (key,), None, PAGE),
                lambda key: db.execute("SELECT * FROM t WHERE id >= ? ORDER BY id LIMIT ?", (key, PAGE)).fetchall(),
            ),
            f"{PAGE} rows of a city after a key": (
                lambda key: table.scan("by_city", None, ("Oslo\0",), PAGE, ("Oslo", key)),
                lambda key: session.scan("by_city", None, ("Oslo\0",), PAGE, ("Oslo", key)),
                lambda key: db.execute("SELECT city, id, qty FROM t WHERE city = 'Oslo' AND id > ? ORDER BY id LIMIT ?", (key, PAGE)).fetchall(),
            ),
        }  # fmt: skip
        for name, calls in ways.items():
            if len({repr(call(keys[0])) for call in calls}) > 1:
                sys.exit(f"durable: {name} differs")
            seconds: list[list[float]] = [[] for _ in calls]
            for _ in range(rounds):
                for call, times in zip(calls, seconds):
                    begin = time.process_time()
                    for key in keys:
                        call(key)
                    times.append(time.process_time() - begin)
            found[name] = [1e6 * median(times) / READS for times in seconds]
    print(f"\n| one read of {count:,} rows, in microseconds | durable | session | sqlite |\n|---|---|---|---|")
    for name, figures in found.items():
        print(f"| {name} | {' | '.join(f'{figure:.1f}' for figure in figures)} |")


def main() -> None:
    parser = argparse.ArgumentParser(description=__doc__, formatter_class=argparse.RawDescriptionHelpFormatter)
    parser.add_argument("--rounds", type=int, default=5)
    parser.add_argument("--start-rows", type=int, default=1_000_000)
    parser.add_argument("--folder")
    words = parser.parse_args()
    if words.rounds < 1 or words.start_rows < 1_000:
        parser.error("one round or more, and 1,000 rows or more")
    Session().close()  # the library is loaded before a clock runs
    print(f"load {', '.join(f'{load:.1f}' for load in os.getloadavg())}, the middle of {words.rounds} rounds\n")
    with tempfile.TemporaryDirectory(dir=words.folder) as folder:
        ingest(folder, words.rounds)
        starts(folder, words.start_rows, words.rounds)
        reads(folder, words.start_rows, words.rounds)
    print(f"\nload {', '.join(f'{load:.1f}' for load in os.getloadavg())}")


if __name__ == "__main__":
    main()

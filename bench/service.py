#!/usr/bin/env python3
"""Measures the server of the Python package beside Redis with appendfsync always: rows a second by requests of 1 to 10,000 rows, over 1 and 100 connections.

    bench/service.py [--seconds S] [--rows N] [--workers N]

Both get the same rows, in the same order: a key of which many come at random, a city of five, and an int. betable puts them into a table with an index on the
city, which includes the int; Redis sets a hash for each row and adds its key to a sorted set of city and key, in one transaction a request. Both have synced
what they have answered. The client is the same: one process, which has encoded all requests before, and sends the next one over a connection when the last one
is answered. Then the server alone: single rows, a page and sums of a table of N rows. With --workers the table is in an engine with so many workers. The first
line tells the load of the machine.
"""

import argparse
import asyncio
import os
import random
import re
import shutil
import socket
import subprocess
import sys
import tempfile
import time
from collections.abc import Callable, Iterator
from pathlib import Path

TOP = Path(__file__).resolve().parents[1]
sys.dont_write_bytecode = True
sys.path[:0] = [str(TOP), str(TOP / "clients/python")]

from tools.tests import service  # noqa: E402

TABLE = b"table 16 1024 256 1 id:int city:text qty:int\nindex by_city on city include qty\nbuild by_city 1\n"
CITIES = ("Oslo", "Bergen", "Trondheim", "Stavanger", "Molde")
SIZES, CONNECTIONS = (1, 100, 1_000, 10_000), (1, 100)
Row = tuple[int, str, int]


def http_request(method: str, path: str, body: bytes = b"") -> bytes:
    return f"{method} {path} HTTP/1.1\r\nHost: localhost\r\nContent-Length: {len(body)}\r\n\r\n".encode() + body


def put_by_http(rows: list[Row]) -> bytes:
    return http_request("POST", "/rows", b"".join(b"%d,%b,%d\n" % (key, city.encode(), quantity) for key, city, quantity in rows))


def put_by_redis(rows: list[Row]) -> bytes:
    parts = [b"*1\r\n$5\r\nMULTI\r\n"]
    for key, city, quantity in rows:
        for words in (("HSET", f"row:{key}", "city", city, "qty", str(quantity)), ("ZADD", "by_city", "0", f"{city}:{key}")):
            parts.append(f"*{len(words)}\r\n".encode() + b"".join(f"${len(word)}\r\n{word}\r\n".encode() for word in words))
    return b"".join([*parts, b"*1\r\n$4\r\nEXEC\r\n"])


def is_http_answer(received: bytes, rows: int) -> bool:
    """Whether an answer is whole. One that is no success raises."""
    head, end, body = received.partition(b"\r\n\r\n")
    if not end:
        return False
    if not received.startswith(b"HTTP/1.1 200 "):
        raise RuntimeError(received[:300].decode())
    length = re.search(rb"Content-Length: (\d+)", head)
    return len(body) >= int(length[1]) if length else body.endswith(b"0\r\n\r\n")


def is_redis_answer(received: bytes, rows: int) -> bool:
    """Of a transaction: two lines for each of its two commands a row, and those of MULTI and EXEC."""
    if b"-ERR" in received:
        raise RuntimeError(received[:300].decode())
    return received.count(b"\r\n") >= 4 * rows + 2


class Connection(asyncio.Protocol):
    """Sends one request after the other."""

    def __init__(self, load: "Load") -> None:
        self.load, self.received, self.begin = load, bytearray(), 0.0

    def connection_made(self, transport: asyncio.BaseTransport) -> None:
        assert isinstance(transport, asyncio.Transport)
        self.transport = transport
        self.send()

    def send(self) -> None:
        request = self.load.next_request()
        if request is None:
            self.transport.close()
            self.load.leave()
        else:
            self.begin = time.perf_counter()
            self.transport.write(request)

    def data_received(self, data: bytes) -> None:
        self.received += data
        try:
            if self.load.is_answer(self.received, self.load.size):
                self.load.times.append(time.perf_counter() - self.begin)
                self.received = bytearray()
                self.send()
        except Exception as fault:
            self.load.fail(fault)

    def connection_lost(self, fault: Exception | None) -> None:
        if fault:
            self.load.fail(fault)


class Load:
    """A load of requests over some connections for some seconds, or until all are sent."""

    def __init__(self, requests: Iterator[bytes], size: int, is_answer: Callable[[bytes, int], bool]) -> None:
        self.requests, self.size, self.is_answer = requests, size, is_answer
        self.times: list[float] = []
        self.end, self.open = 0.0, 0

    def next_request(self) -> bytes | None:
        return next(self.requests, None) if time.perf_counter() < self.end else None

    def leave(self) -> None:
        self.open -= 1
        if not self.open and not self.done.done():
            self.done.set_result(None)

    def fail(self, fault: Exception) -> None:
        if not self.done.done():
            self.done.set_exception(fault)

    async def run(self, port: int, connections: int, seconds: float) -> float:
        """How long it took."""
        loop = asyncio.get_running_loop()
        self.done, self.open = loop.create_future(), connections
        begin = time.perf_counter()
        self.end = begin + seconds
        for _ in range(connections):
            await loop.create_connection(lambda: Connection(self), "127.0.0.1", port)
        await self.done
        return time.perf_counter() - begin

    def line(self, seconds: float) -> str:
        times = sorted(self.times)
        middle, late = times[len(times) // 2], times[int(len(times) * 0.99)]
        return f"{len(times) * self.size / seconds:>9,.0f} rows/s, {1e3 * middle:7.2f} ms in the middle, {1e3 * late:7.2f} ms at 99%"


def some_rows(count: int) -> list[Row]:
    numbers = random.Random(1)
    return [(numbers.randrange(10_000_000), CITIES[numbers.randrange(5)], numbers.randrange(1_000)) for _ in range(count)]


def measured(name: str, port: int, requests: list[bytes], size: int, connections: int, seconds: float, is_answer: Callable[[bytes, int], bool]) -> None:
    load = Load(iter(requests), size, is_answer)
    took = asyncio.run(load.run(port, connections, seconds))
    print(f"{name:8} {size:>6} rows a request, {connections:>3} connections: {load.line(took)}", flush=True)


def redis(folder: str, port: int) -> subprocess.Popen[bytes]:
    words = ["redis-server", "--port", str(port), "--dir", folder, "--appendonly", "yes", "--appendfsync", "always", "--save", "", "--bind", "127.0.0.1"]
    process = subprocess.Popen(words, stdout=subprocess.DEVNULL)
    service.until(lambda: not service.is_closed(port))
    return process


def compare(rows: list[Row], seconds: float, options: list[str]) -> None:
    for size in SIZES:
        chunks = [rows[at : at + size] for at in range(0, len(rows), size)][:100_000]
        by_http, by_redis = [put_by_http(chunk) for chunk in chunks], [put_by_redis(chunk) for chunk in chunks]
        for connections in CONNECTIONS:
            with service.server(*options, script=TABLE) as found:
                measured("betable", found.port, by_http, size, connections, seconds, is_http_answer)
                scripts, commits = found.metric("betable_scripts_total"), found.metric("betable_commits_total")
                print(f"         {scripts / commits:.1f} requests a commit, {1e3 * found.metric('betable_commit_seconds_sum') / commits:.2f} ms a commit")
            with tempfile.TemporaryDirectory() as folder:
                with socket.create_server(("127.0.0.1", 0)) as free:
                    port = free.getsockname()[1]
                process = redis(folder, port)
                try:
                    measured("Redis", port, by_redis, size, connections, seconds, is_redis_answer)
                finally:
                    process.terminate()
                    process.wait()


def reads(rows: list[Row], seconds: float, options: list[str]) -> None:
    with service.server(*options, script=TABLE) as found:
        for at in range(0, len(rows), 50_000):
            found.ask("POST", "/rows", b"".join(b"%d,%b,%d\n" % (key, city.encode(), quantity) for key, city, quantity in rows[at : at + 50_000]))
        for what, path in [
            ("a row by its key", "/row?key={key}"),
            ("the first 50 of all rows", "/rows/primary?limit=50"),
            ("50 rows of a range of 500 keys", "/rows/primary?from={key}&to={to}&limit=50"),
            ("sums of all rows by city", "/sums/by_city?of=qty"),
        ]:
            requests = (http_request("GET", path.format(key=key, to=key + 500)) for key, _, _ in rows)
            load = Load(requests, 1, is_http_answer)
            took = asyncio.run(load.run(found.port, 1, seconds))
            times = sorted(load.times)
            print(f"{what}, of {len(rows):,} put: {len(times) / took:,.0f} a second, {1e3 * times[len(times) // 2]:.2f} ms in the middle", flush=True)


def main() -> None:
    parser = argparse.ArgumentParser(description=__doc__, formatter_class=argparse.RawDescriptionHelpFormatter)
    parser.add_argument("--seconds", type=float, default=4, help="of each measure (%(default)s)")
    parser.add_argument("--rows", type=int, default=1_000_000, help="how many rows there are to send (%(default)s)")
    parser.add_argument("--workers", help="of an engine of the server (none, if not given)")
    words = parser.parse_args()
    options = ["--workers", words.workers] if words.workers else []
    if service.python() is None or shutil.which("redis-server") is None:
        sys.exit("aiohttp or redis-server is not installed")
    print(f"load {os.getloadavg()[0]:.1f} on {os.cpu_count()} processors; {words.seconds:g} s a measure", flush=True)
    rows = some_rows(words.rows)
    compare(rows, words.seconds, options)
    reads(rows, words.seconds, options)
    print(f"load at the end {os.getloadavg()[0]:.1f}")


if __name__ == "__main__":
    main()

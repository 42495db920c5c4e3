"""Tests of the server of the Python package: each endpoint, bad requests, shared commits, requests that run once, tokens, readers that are slow, and ends.

Each test has a server of its own, on a free port of 127.0.0.1. The server is run by a Python that has aiohttp and prometheus_client, which may be another one
than runs the tests; where there is none, the tests are skipped. The library is that of BETABLE_LIBRARY, or bin/build_c builds it.
"""

import base64
import gzip
import hashlib
import json
import os
import re
import resource
import select
import signal
import socket
import subprocess
import sys
import tempfile
import time
import xml.etree.ElementTree as xml
from concurrent.futures import ThreadPoolExecutor
from contextlib import ExitStack, contextmanager
from functools import cache, wraps
from html import unescape
from http.client import HTTPConnection
from itertools import product
from pathlib import Path
from unittest import TestCase
from urllib.parse import quote

from .clients import betable, library, places_between, WORKED
from .common import boxes, SECONDS, texts, TOP, needs
from .draw import browser

TABLE = b"table 4 8 4 1 id:int city:text qty:int\nindex by_city on city include qty\nbuild by_city 1\n"
TOKEN = "0123456789abcdef0123456789abcdef"
HEAD = 40  # bytes of the head of a file


@cache
def python():
    """A Python that has what the server needs, or None."""
    for path in (sys.executable, "/usr/bin/python3"):
        if Path(path).exists() and subprocess.run([path, "-c", "import aiohttp, prometheus_client"], capture_output=True).returncode == 0:
            return path
    return None


def with_aiohttp(test):
    @wraps(test)
    def run(case):
        if python() is None:
            case.skipTest("no Python here has aiohttp and prometheus_client")
        test(case)

    return run


# ---- a server ----


class Server:
    """A server of the table in a folder. What it prints on standard error is shown where a test fails."""

    def __init__(self, folder, *words, files=None):
        self.path = Path(folder) / "stock.table"
        self.process = process_of(self.path, *words, files=files)
        line = self.process.stdout.readline()
        if not line:
            raise RuntimeError(f"no server: {self.process.stderr.read()}")
        self.port = int(line.rsplit(":", 1)[1])

    def ask(self, method, path, body=None, headers=(), seconds=SECONDS):
        """The status, the headers and the body of an answer."""
        connection = HTTPConnection("127.0.0.1", self.port, timeout=seconds)
        try:
            connection.request(method, path, body, dict(headers))
            response = connection.getresponse()
            return response.status, response.headers, response.read()
        finally:
            connection.close()

    def run(self, script, **headers):
        """The replies to a script, which is answered with success."""
        status, _, body = self.ask("POST", "/run", script, {name.replace("_", "-"): value for name, value in headers.items()})
        if status != 200:
            raise AssertionError((status, body))
        return body

    def json(self, path):
        status, _, body = self.ask("GET", path, headers={"Accept": "application/json"})
        if status != 200:
            raise AssertionError((status, body))
        return json.loads(body)

    def metric(self, name):
        text = self.ask("GET", "/metrics")[2].decode()
        return float(re.search(rf"^{re.escape(name)} (\S+)$", text, re.MULTILINE)[1])

    def engine(self):
        """The id of the engine's process."""
        return int(Path(f"/proc/{self.process.pid}/task/{self.process.pid}/children").read_text().split()[0])

    @contextmanager
    def stopped_engine(self):
        """The engine's process does nothing while this lasts."""
        process = self.engine()
        os.kill(process, signal.SIGSTOP)
        try:
            yield process
        finally:
            if Path(f"/proc/{process}").exists():
                os.kill(process, signal.SIGCONT)

    def await_metric(self, name, value):
        until(lambda: self.metric(name) == value)

    def raw(self, sent, is_kept_open=False):
        """What is received of a connection after these bytes are sent, until it ends."""
        with socket.create_connection(("127.0.0.1", self.port), SECONDS) as connection:
            connection.sendall(sent)
            if not is_kept_open:
                connection.shutdown(socket.SHUT_WR)
            return received(connection)

    def end(self, number=signal.SIGTERM):
        """The status with which it ends at a signal."""
        self.process.send_signal(number)
        return self.process.wait(SECONDS)

    def printed(self):
        """What it has printed on standard error, once it has ended."""
        if status := self.end():
            raise AssertionError(f"the server ended with status {status}")
        return self.process.stderr.read()


def received(connection):
    found = b""
    try:
        while part := connection.recv(1 << 20):
            found += part
    except ConnectionError:
        pass
    return found


def process_of(path, *words, environment=None, files=None):
    """The process of a server, which may open that many files."""
    library()
    words = [python(), "-m", "betable", "serve", path, "--port", "0", *map(str, words)]
    words = words if files is None else ["prlimit", f"--nofile={files}", *words]
    environment = {**os.environ, "PYTHONPATH": str(TOP / "clients/python"), "PYTHONDONTWRITEBYTECODE": "1", **(environment or {})}
    return subprocess.Popen(words, stdout=subprocess.PIPE, stderr=subprocess.PIPE, text=True, env=environment)


@contextmanager
def server(*words, script=TABLE):
    with tempfile.TemporaryDirectory() as folder:
        with server_in(folder, *words) as found:
            if script:
                found.run(script)
            yield found


@contextmanager
def server_in(folder, *words, files=None):
    found = Server(folder, *words, files=files)
    try:
        yield found
    finally:
        if found.process.poll() is None:
            found.process.kill()
        found.process.communicate()


def until(is_so):
    """Waits until something is so."""
    end = time.monotonic() + SECONDS
    while not is_so():
        if time.monotonic() > end:
            raise TimeoutError("it did not come to be")
        time.sleep(0.01)


def adds(key):
    """A script that counts how often it was run."""
    return b"batch\nups %d,add,qty,1\nend\n" % key


def quantities(server):
    return {key: quantity for key, _, quantity in server.json("/rows/primary")["rows"]}


# ---- endpoints ----


def most_memory(process):
    """The most memory that a process has had, in KiB."""
    return int(re.search(r"VmHWM:\s+(\d+)", Path(f"/proc/{process}/status").read_text())[1])


@contextmanager
def events_of(test, server):
    """The lines of the events of a server that are not empty."""
    connection = HTTPConnection("127.0.0.1", server.port, timeout=SECONDS)
    connection.request("GET", "/events")
    response = connection.getresponse()
    test.assertEqual((response.status, response.headers["Content-Type"]), (200, "text/event-stream"))
    try:
        yield (line for line in (line.decode().rstrip("\n") for line in response) if line)
    finally:
        connection.close()


def start_of(lines):
    """The next event that the worker was started."""
    while next(lines) != "event: start":
        pass
    return json.loads(next(lines).removeprefix("data: "))


# In place of a server: it is away at first, and then has 120 rows, a tree that is too large, and a script with a refusal.
PAGE_ANSWERS = """<script>
"use strict";
window.isAway = true;
const table = {columns: [{name: "id", kind: "int"}, {name: "city", kind: "text"}], key: ["id"], trees: {primary: {columns: ["id", "city"], key: ["id"]}}};
const json = (found, status = 200) => new Response(JSON.stringify(found), {status});
window.fetch = async (path, options = {}) => {
  const url = new URL(path, "http://localhost/"), after = Number(url.searchParams.get("after") || -1), limit = Number(url.searchParams.get("limit"));
  const ids = [...Array(120).keys()].filter(id => id > after);
  if (isAway) throw new TypeError("Failed to fetch");
  switch (url.pathname) {
    case "/trees": return json(table);
    case "/rows/primary": return new Response(ids.slice(0, limit).map(id => `${id},"a, ${id}"\\n`).join(""), {headers: {"Betable-More": ids.length > limit}});
    case "/tree/primary.svg": return json({reason: "height 3"}, 422);
    case "/run": return json({refused: 1, replies: [{reply: ["none"]}, {refused: {number: 6, name: "BadField", item: 1, line: 2, reason: "no int"}}]});
    case "/events": return new Promise(() => {});
    default: return json({reason: "nothing here"}, 404);
  }
};
</script>"""
PAGE_STEPS = """<script>
"use strict";
(async () => {
  const seen = [], text = id => document.getElementById(id).textContent, pause = () => new Promise(done => setTimeout(done, 3000));
  const see = (...ids) => seen.push(ids.map(text));
  const shown = () => seen.push([document.querySelectorAll("#rows tr").length, text("rows-note"), document.querySelector("#rows td").textContent,
    ["first", "next"].filter(id => !document.getElementById(id).hidden).join()]);
  const press = async id => { document.getElementById(id).focus(); document.getElementById(id).click(); await pause(); };
  await pause(); see("state"); await press("run"); see("replies", "ran", "rows-note");
  window.isAway = false; await pause();
  const enter = new KeyboardEvent("keydown", {key: "Enter", ctrlKey: true});
  document.getElementById("script").dispatchEvent(enter); await pause(); seen.push(text("ran").includes("1 refused")); see("replies", "tree-note", "sums-note");
  shown(); await press("next"); shown(); await press("next"); shown(); seen.push(document.activeElement.id); await press("first"); shown();
  const name = element => element.ariaLabel || text(element.getAttribute("aria-labelledby"));
  seen.push([...document.querySelectorAll("section, .scroll, table")].map(element => [element.tagName, element.tabIndex, name(element)].join(" ")).join("; "));
  seen.push([...document.querySelectorAll("[aria-live], [role=status]")].map(element => element.id || element.ariaLabel).join("; "));
  seen.push([...document.querySelectorAll("th")].map(head => head.scope).join(), document.documentElement.scrollWidth <= innerWidth);
  document.body.dataset.seen = JSON.stringify(seen);
})();
</script>"""


def setUpModule() -> None:
    library()


class Endpoints(TestCase):
    @with_aiohttp
    def test_scripts_have_the_replies_of_a_session(self):
        for name in ("building_index", "adds_saturate", "lines_and_blocks", "load_blocks"):
            with self.subTest(name=name):
                script = WORKED / name
                text = script.read_bytes()
                places = places_between(text)
                with server(script=b"") as found:
                    parts = [found.run(text[low:high]) for low, high in zip(places, places[1:])]
                self.assertEqual(b"".join(parts), Path(f"{script}.stdout").read_bytes())

    @with_aiohttp
    def test_replies_come_as_json_with_their_commands(self):
        with server() as found:
            script = b'batch\nput 1,Oslo,x\nend\nbatch\nput 2,"a,b",4\nend\nget 2\nfoo\n'
            status, headers, body = found.ask("POST", "/run", script, {"Accept": "application/json"})
            self.assertEqual((status, headers["Betable-Refused"], headers["Content-Type"]), (200, "2", "application/json; charset=utf-8"))
            said = json.loads(body)
            self.assertEqual((said["refused"], said["number"]), (2, 2))
            first, second, third, fourth = said["replies"]
            self.assertEqual(
                {**first["refused"], "reason": ""}, {"number": 6, "name": "BadField", "line": 2, "item": 1, "column": "qty", "value": "x", "reason": ""}
            )
            self.assertIn("qty", first["refused"]["reason"])
            self.assertEqual(second, {"line": 4, "command": "batch", "reply": ["batch 1 by_city:1"]})
            self.assertEqual(third, {"line": 7, "command": "get", "reply": ['row 2,"a,b",4']})
            self.assertEqual((fourth["line"], fourth["refused"]["number"]), (8, 1))
            self.assertEqual(found.ask("POST", "/run", script)[1]["Betable-Refused"], "2")

    @with_aiohttp
    def test_long_json_of_replies_comes_in_parts(self):
        """Its server needs no memory for the whole of it, and the first refusals have their reasons."""
        count = 40_000
        with server() as found:
            found.ask("POST", "/run", b"x\n" * 1_000, {"Accept": "application/json"})
            before = most_memory(found.process.pid)
            status, _, body = found.ask("POST", "/run", b"x\n" * count, {"Accept": "application/json"})
            self.assertEqual((status, most_memory(found.process.pid) - before < 20_000), (200, True))
            said = json.loads(body)
            self.assertEqual((said["refused"], said["explained"], len(said["replies"])), (count, 1_000, count))
            self.assertEqual(["reason" in reply["refused"] for reply in said["replies"]], [place < 1_000 for place in range(count)])
            self.assertEqual(said["replies"][-1], {"line": count, "command": "x", "refused": {"number": 1, "name": "Syntax", "line": count}})
            # A reply of many lines, with line breaks in texts.
            table = b"table 16 1024 256 1 id:int note:text\nload\nid,note\n" + b"".join(b'%d,"a\nrow %d"\n' % (key, key) for key in range(9_000)) + b".\n"
        with server(script=table) as found:
            body = found.ask("POST", "/run", b"scan primary\ngo\nget 3\n", {"Accept": "application/json"})[2]
            lines = [reply["reply"] for reply in json.loads(body)["replies"]]
            self.assertEqual(lines, [[*(f'row {key},"a\nrow {key}"' for key in range(9_000)), "rows 9000"], ['row 3,"a\nrow 3"']])

    @with_aiohttp
    def test_rows_go_in_and_come_out(self):
        hard = ["Oslo", "a,b", 'say "so"', "", "  ", ".", "end", "row 1", "æøå", "\ufeffx"]
        with server() as found:
            lines = [betable().record((key, city, key * 10)) for key, city in enumerate(hard)]
            body = "\r\n" + "\r\n\n".join(lines)
            status, headers, replies = found.ask("POST", "/rows", body.encode(), {"Content-Type": "text/csv"})
            self.assertEqual((status, replies), (200, b"batch %d by_city:%d\n" % (len(hard), len(hard))))
            rows = found.json("/rows/primary")
            self.assertEqual(rows, {"columns": ["id", "city", "qty"], "more": False, "rows": [[key, city, key * 10] for key, city in enumerate(hard)]})
            self.assertEqual(found.ask("GET", "/rows/primary?limit=3&format=csv")[2], b'0,Oslo,0\n1,"a,b",10\n2,"say ""so""",20\n')
            self.assertEqual(found.ask("GET", "/rows/primary?limit=3")[1]["Betable-More"], "true")
            self.assertEqual(found.ask("GET", f"/rows/primary?limit={len(hard)}")[1]["Betable-More"], "false")
            for city in hard:
                with self.subTest(city=city):
                    bound = "from=" + quote(city)
                    self.assertEqual(found.json(f"/rows/by_city?{bound}&limit=1")["rows"], [[city, hard.index(city), hard.index(city) * 10]])
            self.assertEqual(found.json("/rows/by_city?from=Oslo&from=1&to=P")["rows"], [])
            self.assertEqual(found.json("/rows/by_city?from=Oslo&from=0&to=P")["rows"], [["Oslo", 0, 0]])
            self.assertEqual(found.ask("GET", "/row?key=1")[2], b'1,"a,b",10\n')
            self.assertEqual(found.json("/row?key=2"), {"columns": ["id", "city", "qty"], "more": False, "rows": [[2, 'say "so"', 20]]})
            # Another 65,536 rows, as many as a batch has: they come back in more than one piece.
            many = b"".join(b'%d,"x\x22\x22y",1\n' % key for key in range(100, 65_636))
            self.assertEqual(found.ask("POST", "/rows", many)[0], 200)
            self.assertEqual(found.ask("GET", "/rows/primary?from=100")[2], many)
            self.assertEqual([row[0] for row in found.json("/rows/primary?from=100")["rows"]], list(range(100, 65_636)))

    @with_aiohttp
    def test_a_page_after_a_key_begins_with_the_next_row(self):
        """Pages of any size are all rows, byte for byte, also if the row of the key is gone by then."""
        hard = ["Oslo", "a,b", 'say "so"', "", "  ", ".", "end", "row 1", "æøå", "\ufeffx", "Oslo", "Oslo"]
        with server() as found:
            found.ask("POST", "/rows", "".join(betable().record((key, city, key * 10)) + "\n" for key, city in enumerate(hard)).encode())
            for tree, keys in (("primary", 1), ("by_city", 2)):
                whole, wanted = found.json(f"/rows/{tree}")["rows"], found.ask("GET", f"/rows/{tree}")[2]
                self.assertEqual(len(whole), len(hard))
                for limit, order in product((1, 5, len(hard) - 1, len(hard), len(hard) + 1), ("", "&newest_first=1")):
                    with self.subTest(tree=tree, limit=limit, order=order):
                        rows, text, after, is_more, pages = [], b"", "", True, 0
                        while is_more:
                            path = f"/rows/{tree}?limit={limit}{after}{order}"
                            page = found.json(path)
                            status, headers, part = found.ask("GET", path + "&format=csv")
                            self.assertEqual((status, headers["Betable-More"]), (200, str(page["more"]).lower()))
                            rows, text, is_more, pages = rows + page["rows"], text + part, page["more"], pages + 1
                            after = "".join(f"&after={quote(str(value))}" for value in rows[-1][:keys])
                        if order:
                            rows, text = rows[::-1], b"".join(text.splitlines(keepends=True)[::-1])
                        self.assertEqual((rows, text, pages), (whole, wanted, -(-len(hard) // limit)))
                    # No row is beyond the last one.
                    self.assertEqual(found.json(f"/rows/{tree}?limit=1{after}{order}")["rows"], [])
            self.assertEqual(found.json("/rows/by_city?after=Oslo&after=0")["rows"][0], ["Oslo", 10, 100])
            self.assertEqual(found.json("/rows/by_city?after=Oslo&after=5&limit=1")["rows"], [["Oslo", 10, 100]])
            found.run(b"batch\ndel 10\nend\n")
            self.assertEqual(found.json("/rows/by_city?after=Oslo&after=10&limit=1")["rows"], [["Oslo", 11, 110]])
            self.assertEqual(found.json("/rows/by_city?from=Oslo&to=P&after=Oslo&after=0")["rows"], [["Oslo", 11, 110]])
            self.assertEqual(found.json("/rows/by_city?after=Oslo&after=10&limit=1&newest_first=1")["rows"], [["Oslo", 0, 0]])
            self.assertEqual(found.json("/rows/by_city?from=Oslo&to=P&after=Oslo&after=11&newest_first=1")["rows"], [["Oslo", 0, 0]])
            # The earlier one of the two is the end.
            self.assertEqual(found.json("/rows/by_city?to=Oslo&after=Oslo&after=11&limit=1&newest_first=1")["rows"], found.json("/rows/by_city?to=Oslo")["rows"][-1:])
            self.assertEqual(found.json("/rows/by_city?to=end&after=Oslo&after=11&limit=1&newest_first=1")["rows"], [["Oslo", 0, 0]])
            # The later one of the two is the first.
            self.assertEqual(found.json("/rows/by_city?from=end&after=Oslo&after=11&limit=1")["rows"], [["end", 6, 60]])
            self.assertEqual(found.json("/rows/by_city?from=O&after=Oslo&after=0&limit=1")["rows"], [["Oslo", 11, 110]])
            self.assertEqual(
                found.json("/rows/primary?after=-9&to=2&limit=9"), {"columns": ["id", "city", "qty"], "more": False, "rows": [[0, "Oslo", 0], [1, "a,b", 10]]}
            )

    def test_pages_are_read_without_a_script(self):
        """The worker asks for no more rows than the page has, and one to see whether more follow."""
        betable()
        engine = __import__("betable.server.engine").server.engine
        with tempfile.TemporaryDirectory() as folder:
            worker = engine.Worker(f"{folder}/table")
            with worker.table as table:
                table.run("table 4 8 4 2 on:flag id:int data:bytes note:text\nindex i on note\nbuild i 1\nindex late on data\n")
                table.put([(number % 2 == 1, number, bytes([number]), f"n,{number}") for number in range(8)])
                scan, limits = table.scan, []
                table.scan = lambda tree, start, stop, limit, after, **order: limits.append(limit) or scan(tree, start, stop, limit, after, **order)
                table.replies = None

                def page(*words, most=2):
                    [answer] = worker.run_group([engine.Work(f"scan {words[0]}\ngo\n".encode(), None, most, page=engine.Page(*words))]).answers
                    return answer

                found = page("primary", None, None, ["FALSE", "004"])
                self.assertEqual((found.replies, found.is_cut, limits), (b'row false,6,06,"n,6"\nrow true,1,01,"n,1"\nrows 2\n', True, [3]))
                self.assertEqual(found.columns, [("on", "flag"), ("id", "int"), ("data", "bytes"), ("note", "text")])
                self.assertEqual(page("primary", ["true"], ["true", "5"], None).replies, b'row true,1,01,"n,1"\nrow true,3,03,"n,3"\nrows 2\n')
                self.assertEqual(page("i", None, None, ["n,5", "true", "5"]).replies, b'row "n,6",false,6\nrow "n,7",true,7\nrows 2\n')
                self.assertEqual(page("i", ["o"], None, None).replies, b"rows 0\n")
                for key, part in ((["true"], "1 value, and the key has 2 (on, id)"), (["true", "x"], "'after': column 'id' (int): 'x' is no whole number")):
                    fault = page("primary", None, None, key)
                    self.assertEqual(type(fault), engine.WrongKey)
                    self.assertIn(part, str(fault))
                # What is refused is run, so that its reply says why.
                table.replies = lambda script: b"refused 11 Building\n"
                refused = [
                    ("none", None, None, ["x"]),
                    ("late", None, None, None),
                    ("primary", ["x"], None, None),
                    ("primary", None, ["true", "1", "2"], ["x"]),
                ]
                for words in refused:
                    with self.subTest(words=words):
                        self.assertEqual(page(*words).replies, b"refused 11 Building\n")

    @with_aiohttp
    def test_values_of_each_kind_are_written(self):
        table = b"table 4 8 4 2 on:flag id:int data:bytes note:text\nload\non,id,data,note\n"
        table += b'true,-9223372036854775808,00ff,"a\nrow b"\nfalse,9223372036854775807,,x\n.\n'
        with server(script=table) as found:
            rows = [[False, 2**63 - 1, "", "x"], [True, -(2**63), "00ff", "a\nrow b"]]
            self.assertEqual(found.json("/rows/primary")["rows"], rows)
            self.assertEqual(found.json("/row?key=true&key=-9223372036854775808")["rows"], rows[1:])
            for path in ("/rows/primary", "/rows/primary?limit=2"):
                self.assertEqual(found.ask("GET", path)[2], b'false,9223372036854775807,,x\ntrue,-9223372036854775808,00ff,"a\nrow b"\n')
                self.assertEqual(found.json(path)["rows"], rows)

    @with_aiohttp
    def test_sums_are_of_groups(self):
        with server() as found:
            found.ask("POST", "/rows", b'1,Oslo,3\n2,"a, b",9223372036854775807\n3,Oslo,4\n4,"a, b",1\n')
            self.assertEqual(
                found.json("/sums/by_city?of=qty"), {"columns": ["count", "sum", "city"], "more": False, "rows": [[2, 7, "Oslo"], [2, 2**63, "a, b"]]}
            )
            self.assertEqual(found.ask("GET", "/sums/by_city?of=qty&columns=2&from=a")[2], b'1,9223372036854775807,"a, b",2\n1,1,"a, b",4\n')
            self.assertEqual(
                found.json("/sums/by_city?of=qty&columns=2&limit=1"), {"columns": ["count", "sum", "city", "id"], "more": True, "rows": [[1, 3, "Oslo", 1]]}
            )

    @with_aiohttp
    def test_trees_are_told_and_drawn(self):
        with server(script=b"") as found:
            self.assertEqual(found.json("/trees"), {"columns": [], "key": [], "trees": {}})
            found.run(TABLE + b"batch\nput 1,Oslo,3\nend\nindex b on qty,qty\n")
            columns = [{"name": "id", "kind": "int"}, {"name": "city", "kind": "text"}, {"name": "qty", "kind": "int"}]
            trees = {
                "primary": {"columns": ["id", "city", "qty"], "key": ["id"], "complete": True},
                "by_city": {"columns": ["city", "id", "qty"], "key": ["city", "id"], "complete": True},
                "b": {"columns": ["qty", "qty", "id"], "key": ["qty", "qty", "id"], "complete": False},
            }
            self.assertEqual(found.json("/trees"), {"columns": columns, "key": ["id"], "trees": trees})
            found.run(b"build b 9\n")
            self.assertEqual(found.json("/trees")["trees"]["b"]["complete"], True)
            status, headers, body = found.ask("GET", "/tree/by_city.svg?columns=4&lines=2")
            self.assertEqual((status, headers["Content-Type"]), (200, "image/svg+xml; charset=utf-8"))
            picture = xml.fromstring(body)
            self.assertEqual((texts(picture, "title"), texts(boxes(picture, "leaf")[0], "row")), (["by_city (city, id), height 1"], ["Oslo 1 → 3"]))
            # A tree of few large rows, and then one of many rows, is not drawn. The answer says how much it holds.
            for count, length in ((10_000, 100), (65_600, 1)):
                for start in range(0, count, 60_000):
                    lines = b"".join(b"%d,%b,1\n" % (key, b"x" * length) for key in range(start, min(count, start + 60_000)))
                    self.assertEqual(found.ask("POST", "/rows", lines)[0], 200)
                found.run(b"rebuild primary\n")
                height = int(found.run(b"image primary\n").split(b"\n", 1)[0].split()[3])
                status, _, body = found.ask("GET", "/tree/primary.svg")
                said = json.loads(body)
                self.assertEqual((status, said["rows"], said["messages"], said["height"]), (422, count, 0, height))
                self.assertIn(f"height {height}, {count:,} rows in leaves", said["reason"])

    @with_aiohttp
    def test_events_tell_which_scripts_were_kept(self):
        with server() as found:
            with events_of(self, found) as lines:
                self.assertEqual([next(lines) for _ in range(2)], ["id: 1", "event: start"])
                start = json.loads(next(lines).removeprefix("data: "))
                self.assertEqual((start["number"], time.time() - SECONDS < start["since"] < time.time()), (1, True))
                found.run(b'get 1\nbatch\nput 1,"batch 9",2\nend\nbatch\nput x\nend\n')
                found.run(b"get 1\n")
                found.run(b"drop by_city\n")
                self.assertEqual(next(lines), "id: 2")
                self.assertEqual(json.loads(next(lines).removeprefix("data: ")), {"number": 2, "replies": ["batch 1 by_city:1"], "more": False})
                self.assertEqual(next(lines), "id: 3")
                self.assertEqual(json.loads(next(lines).removeprefix("data: ")), {"number": 3, "replies": ["dropped by_city"], "more": False})
                self.assertEqual(found.end(), 0)
                self.assertEqual(list(lines), [])

    @with_aiohttp
    def test_readers_of_events_that_have_gone_free_their_places(self):
        asked = b"GET /events HTTP/1.1\r\nHost: localhost\r\n\r\n"
        with server() as found, ExitStack() as stay:
            for _ in range(64):
                reader = stay.enter_context(socket.create_connection(("127.0.0.1", found.port), SECONDS))
                reader.sendall(asked)
                self.assertEqual(reader.recv(65_536)[:13], b"HTTP/1.1 200 ")
            self.assertEqual((found.metric("betable_event_readers"), found.ask("GET", "/events")[0]), (64, 429))
            stay.close()
            with events_of(self, found) as lines:
                self.assertEqual(next(lines), "id: 1")

    @with_aiohttp
    def test_page_needs_no_network(self):
        with server() as found:
            status, headers, body = found.ask("GET", "/")
            self.assertEqual((status, headers["Content-Type"]), (200, "text/html; charset=utf-8"))
            text = body.decode()
            self.assertEqual(re.findall(r"https?://|//[a-z]+\.|<link|src=|@import", text), [])
            # The policy allows only the page's script and style.
            for tag, name in (("script", "script-src"), ("style", "style-src")):
                part = re.search(f"<{tag}>(.*?)</{tag}>", text, re.DOTALL)[1]
                digest = base64.b64encode(hashlib.sha256(part.encode()).digest()).decode()
                self.assertIn(f"{name} 'sha256-{digest}'", headers["Content-Security-Policy"])
            # Each metric that the page shows is one of the server's.
            for name in re.findall(r'(?:value|mean)\("(\w+)"\)', text):
                self.assertGreaterEqual(found.metric(name if re.search(rf'value\("{name}"\)', text) else f"{name}_count"), 0)

    def test_page_says_what_happens_in_a_browser(self):
        """In headless Chromium, without a server: its answers are made in the page."""
        if browser() is None:
            self.skipTest("no Chromium is installed")
        text = (TOP / "clients/python/betable/server/page.html").read_text(encoding="utf-8")
        with tempfile.TemporaryDirectory() as folder:
            page = Path(folder) / "page.html"
            page.write_text(text.replace("<body>", "<body>" + PAGE_ANSWERS).replace("</body>", PAGE_STEPS + "</body>"))
            words = ["--headless", "--no-sandbox", "--disable-gpu", f"--user-data-dir={folder}/user", "--window-size=500,800", "--virtual-time-budget=40000"]
            ended = subprocess.run([browser(), *words, "--dump-dom", f"file://{page}"], capture_output=True, timeout=SECONDS)
        away, refused = "the server does not answer", "refused 6 BadField 1 (line 2): no int"
        seen = json.loads(unescape(re.search('data-seen="([^"]*)"', ended.stdout.decode())[1]))
        self.assertEqual(seen[:2], [[away], [away, "no answer: the script may have been kept", away]])
        self.assertEqual(seen[2:4], [True, ["none" + refused, "height 3", "nothing here"]])
        more = "50 are shown, and more follow"
        self.assertEqual(seen[4:9], [[51, more, "0", "next"], [51, more, "50", "first,next"], [21, "", "100", "first"], "first", [51, more, "0", "next"]])
        self.assertEqual({part for part in seen[9].split("; ")}, {
            "SECTION -1 Figures", "SECTION -1 Script", "DIV 0 Replies", "SECTION -1 Rows", "DIV 0 Rows", "TABLE -1 Rows", "SECTION -1 Sums", "DIV 0 Sums",
            "TABLE -1 Sums", "SECTION -1 Tree", "DIV 0 Tree",
        })  # fmt: skip
        self.assertEqual(seen[10:], ["state; ran; Replies; rows-note", "col,col", True])


# ---- bad requests ----


# The request, with headers and a body, and the status and a part of the reason.
BAD_REQUESTS = [
    ("GET", "/run", {}, None, 405, "GET /run"),
    ("PUT", "/rows", {}, b"1,a,1\n", 405, "PUT /rows"),
    ("POST", "/rows/primary", {}, b"", 405, "POST"),
    ("HEAD", "/rows/primary", {}, None, 405, ""),
    ("DELETE", "/", {}, None, 405, "DELETE /"),
    ("GET", "/nothing", {}, None, 404, "/nothing"),
    ("GET", "/rows/", {}, None, 404, "/rows/"),
    ("GET", "/rows/none", {}, None, 404, "none"),
    ("GET", "/tree/none.svg", {}, None, 404, "none"),
    ("GET", "/rows/building", {}, None, 409, "building"),
    ("GET", "/rows/primary%0aimage%20primary", {}, None, 400, "no name"),
    ("GET", "/rows/primary%20x", {}, None, 400, "no name"),
    ("GET", "/rows/Primary", {}, None, 400, "primary"),
    ("GET", "/rows/" + "a" * 33, {}, None, 400, "32"),
    ("GET", "/rows/%ff", {}, None, 400, "no name"),
    ("GET", "/rows/primary?from=1%0ago", {}, None, 400, "column 'id' (int)"),
    ("GET", "/rows/primary?to=1%0dgo", {}, None, 400, "column 'id' (int)"),
    ("GET", "/rows/primary?from=%ff", {}, None, 400, "utf-8"),
    ("GET", "/rows/primary?from=x", {}, None, 422, "id"),
    ("GET", "/rows/primary?from=1&from=2", {}, None, 422, "2"),
    ("GET", "/rows/primary?from=x&limit=1", {}, None, 422, "id"),
    ("GET", "/rows/primary?from=x&after=1", {}, None, 422, "id"),
    ("GET", "/rows/primary?after=x", {}, None, 400, "'after': column 'id' (int): 'x' is no whole number"),
    ("GET", "/rows/primary?after=1&after=2", {}, None, 400, "'after': 2 values, and the key has 1 (id)"),
    ("GET", "/rows/by_city?after=Oslo", {}, None, 400, "'after': 1 value, and the key has 2 (city, id)"),
    ("GET", "/rows/none?after=x", {}, None, 404, "none"),
    ("GET", "/rows/building?limit=1", {}, None, 409, "building"),
    ("GET", "/sums/primary?of=qty&after=1", {}, None, 400, "'after' is no parameter"),
    ("GET", "/rows/primary?newest_first=yes", {}, None, 400, "'newest_first' is 1 or 0, and not 'yes'"),
    ("GET", "/rows/primary?newest_first", {}, None, 400, "'newest_first'"),
    ("GET", "/rows/primary?newest_first=1&after=x", {}, None, 400, "'after': column 'id' (int): 'x' is no whole number"),
    ("GET", "/rows/building?newest_first=1", {}, None, 409, "building"),
    ("GET", "/sums/primary?of=qty&newest_first=1", {}, None, 400, "'newest_first' is no parameter"),
    ("GET", "/rows/primary?limit=abc", {}, None, 400, "'limit' is a number from 1 to 999999999, and not 'abc'"),
    ("GET", "/rows/primary?limit=0", {}, None, 400, "limit"),
    ("GET", "/rows/primary?limit=-1", {}, None, 400, "limit"),
    ("GET", "/rows/primary?limit=1234567890", {}, None, 400, "limit"),
    ("GET", "/rows/primary?limit=%D9%A1", {}, None, 400, "limit"),
    ("GET", "/rows/primary?form=1", {}, None, 400, "'form'"),
    ("GET", "/rows/primary?format=xml", {}, None, 400, "format"),
    ("GET", "/rows/primary?" + "&".join(["from=1"] * 65), {}, None, 400, "query"),
    ("GET", "/row", {}, None, 400, "key"),
    ("GET", "/row?key=7", {}, None, 404, "no row"),
    ("GET", "/row?key=1&key=2", {}, None, 422, "2"),
    ("GET", "/sums/primary", {}, None, 400, "'of'"),
    ("GET", "/sums/primary?of=city", {}, None, 422, "city"),
    ("GET", "/sums/primary?of=none", {}, None, 422, "none"),
    ("GET", "/sums/primary?of=qty%0ago", {}, None, 400, "no name"),
    ("GET", "/sums/primary?of=qty&columns=9", {}, None, 422, ""),
    ("GET", "/sums/primary?of=qty&columns=x", {}, None, 400, "columns"),
    ("POST", "/run", {"Content-Type": "application/json"}, b"{}", 415, "application/json"),
    ("POST", "/rows", {"Content-Type": "multipart/form-data; boundary=x"}, b"", 415, "multipart"),
    ("POST", "/rows", {"Content-Encoding": "gzip"}, gzip.compress(b"1,a,1\n"), 415, "Content-Encoding"),
    ("POST", "/run", {"Idempotency-Key": ""}, b"get 1\n", 400, "Idempotency-Key"),
    ("POST", "/run", {"Idempotency-Key": "a b"}, b"get 1\n", 400, "Idempotency-Key"),
    ("POST", "/run", {"Idempotency-Key": "a" * 201}, b"get 1\n", 400, "Idempotency-Key"),
    ("POST", "/run", {}, b"x" * 2_000_001, 413, "2,000,000"),
    ("POST", "/rows", {}, iter([b"x" * 1_000_000] * 3), 413, "2,000,000"),
    ("POST", "/rows", {}, b"1,a,1\n2,b\n", 422, "2 fields"),
    ("POST", "/rows", {}, b"1,a,1\n2,b\xff,1\n", 422, "UTF-8"),
    ("POST", "/rows", {}, b"1,a\rb,1\n", 422, ""),
    ("POST", "/rows", {}, b'1,"a\nb,1\n', 400, "line break"),
    ("POST", "/rows", {}, b"".join(b"%d,a,1\n" % key for key in range(65_537)), 422, "65,53"),
    ("POST", "/checkpoint", {}, b"", 409, "building"),
    ("GET", "/healthz", {"Long": "x" * 9_000}, None, 400, "too long"),
]
# Bytes that are no request of HTTP.
NO_REQUESTS = [
    b"\x00\xff\r\n\r\n",
    b"GET / HTTP/x\r\n\r\n",
    b"GET\r\n\r\n",
    b"POST /run HTTP/1.1\r\nContent-Length: x\r\n\r\n",
    b"\x16\x03\x01\x02\x00",
]
# Heads with bytes that are no UTF-8, or no ASCII, and the status.
ODD_BYTES = [
    (b"/\xd8", 404),
    (b"/rows/\xd8", 400),
    (b"/rows/\xc3\xa5", 400),
    (b"/tree/\xff.svg", 400),
    (b"/rows/primary?from=\xd8", 400),
    (b"/rows/primary?\xd8=1", 400),
    (b"/rows/by_city?from=\xc3\xa5", 200),
    (b"/rows/primary HTTP/1.1\r\nAccept: \xff\r\nX-\xc3:", 400),
]


class BadRequests(TestCase):
    @with_aiohttp
    def test_bad_requests_are_told_and_change_nothing(self):
        with server("--most-body", 2_000_000) as found:
            found.run(b"batch\nput 1,Oslo,2\nend\nindex building on qty\n")
            before = found.run(b"image primary\nimage by_city\nimage building\n")
            for method, path, headers, body, wanted, part in BAD_REQUESTS:
                with self.subTest(method=method, path=path, headers=headers):
                    status, given, answer = found.ask(method, path, body, headers)
                    self.assertEqual(status, wanted)
                    if part is not None and method != "HEAD":
                        said = json.loads(answer)
                        self.assertEqual((said["status"], given["Content-Type"]), (wanted, "application/json; charset=utf-8"))
                        self.assertEqual("line" in said, method == "POST" and path == "/rows" and ("item" in said or status == 400))
                        self.assertIn(part, said["reason"])
                    if status == 405:
                        self.assertEqual(bool(given["Allow"]), True)
            for raw in NO_REQUESTS:
                with self.subTest(raw=raw):
                    self.assertIn(found.raw(raw)[:13], (b"", b"HTTP/1.0 400 ", b"HTTP/1.1 400 "))
            for path, wanted in ODD_BYTES:
                with self.subTest(path=path):
                    answer = found.raw(b"GET %b HTTP/1.1\r\nHost: localhost\r\nConnection: close\r\n\r\n" % path, is_kept_open=True)
                    self.assertEqual((int(answer.split()[1]), b"Content-Type: application/json" in answer), (wanted, wanted != 200))
            self.assertEqual(found.run(b"image primary\nimage by_city\nimage building\n"), before)
            self.assertEqual((found.metric("betable_waiting_requests"), found.metric("betable_held_bytes")), (0, 0))
            self.assertEqual(found.printed(), "")

    @with_aiohttp
    def test_refused_rows_have_line_and_item(self):
        with server() as found:
            status, _, body = found.ask("POST", "/rows", b'\n1,a,1\r\n\n2,"b, c",x\n3,d,4\n')
            said = json.loads(body)
            self.assertEqual((status, said.pop("reason") != ""), (422, True))
            self.assertEqual(said, {"status": 422, "number": 6, "name": "BadField", "line": 4, "item": 2, "column": "qty", "value": "x"})
            self.assertEqual(found.json("/rows/primary")["rows"], [])
            status, _, body = found.ask("POST", "/rows", b'1,a,1\n2,"b\nc,3\n')
            self.assertEqual((status, json.loads(body)["line"]), (400, 2))

    @with_aiohttp
    def test_limits_are_kept(self):
        with server("--most-waiting", 2, "--most-body", 100_000, "--most-held", 100_000) as found:
            with found.stopped_engine(), ThreadPoolExecutor(2) as pool:
                asked = [pool.submit(found.run, adds(key)) for key in range(2)]
                found.await_metric("betable_queued_scripts", 2)
                status, headers, _ = found.ask("POST", "/run", adds(2))
                self.assertEqual((status, headers["Retry-After"]), (429, "1"))
                self.assertEqual(found.ask("GET", "/rows/primary")[0], 429)
                os.kill(found.engine(), signal.SIGCONT)
                self.assertEqual([answer.result() for answer in asked], [b"batch 1 by_city:1\n"] * 2)
            with socket.create_connection(("127.0.0.1", found.port), SECONDS) as connection:
                connection.sendall(b"POST /run HTTP/1.1\r\nHost: localhost\r\nContent-Length: 90000\r\n\r\n" + b"x" * 60_000)
                found.await_metric("betable_held_bytes", 60_000)
                self.assertEqual(found.ask("POST", "/run", b"x" * 60_000)[0], 429)
            found.await_metric("betable_held_bytes", 0)
            self.assertEqual(quantities(found), {0: 1, 1: 1})
            self.assertEqual((found.metric("betable_waiting_requests"), found.metric("betable_held_bytes")), (0, 0))

    @with_aiohttp
    def test_bodies_that_stop_coming_are_told(self):
        with server("--client-seconds", 1) as found, socket.create_connection(("127.0.0.1", found.port), SECONDS) as connection:
            connection.sendall(b"POST /run HTTP/1.1\r\nHost: localhost\r\nContent-Length: 100\r\n\r\nbatch\n")
            self.assertEqual(connection.recv(65_536).split(b" ")[1], b"408")
            self.assertEqual(found.metric("betable_held_bytes"), 0)

    @with_aiohttp
    def test_idle_connections_keep_nobody_out(self):
        """A server that may open 128 files has 300 connections that send nothing, or half of a head."""
        with tempfile.TemporaryDirectory() as folder, server_in(folder, files=128) as found, ExitStack() as stay:
            for number in range(300):
                connection = stay.enter_context(socket.create_connection(("127.0.0.1", found.port), SECONDS))
                connection.sendall(b"GET /he" * (number % 2))
            self.assertEqual(found.ask("GET", "/healthz")[0], 200)
            self.assertEqual(found.run(TABLE + adds(1)).splitlines()[-1], b"batch 1 by_city:1")
            self.assertEqual(found.metric("betable_connections"), 64)
            self.assertEqual(found.printed(), "")

    @with_aiohttp
    def test_connections_that_are_all_in_use_are_told(self):
        head = b"POST /run HTTP/1.1\r\nHost: localhost\r\nExpect: 100-continue\r\nConnection: close\r\nContent-Length: 6\r\n\r\n"
        with server("--most-connections", 2) as found, ExitStack() as stay:
            busy = [stay.enter_context(socket.create_connection(("127.0.0.1", found.port), SECONDS)) for _ in range(2)]
            for connection in busy:
                connection.sendall(head)
                self.assertEqual(connection.recv(65_536)[:13], b"HTTP/1.1 100 ")
            answer = found.raw(b"", is_kept_open=True)
            self.assertEqual((answer[:13], json.loads(answer.split(b"\r\n\r\n")[1])["status"]), (b"HTTP/1.1 503 ", 503))
            for connection in busy:
                connection.sendall(b"get 1\n")
            self.assertEqual([received(connection)[-5:] for connection in busy], [b"none\n"] * 2)
            self.assertEqual(found.metric('betable_requests_total{endpoint="none",status="503"}'), 1)

    @with_aiohttp
    def test_connections_without_a_whole_head_are_closed(self):
        with server("--client-seconds", 1) as found:
            self.assertEqual(found.raw(b"", is_kept_open=True), b"")
            self.assertEqual(found.raw(b"GET /healthz HTTP/1.1\r\nHost: local", is_kept_open=True), b"")
            self.assertEqual(found.raw(b"GET /healthz HTTP/1.1\r\nHost: localhost\r\n\r\n", is_kept_open=True)[:13], b"HTTP/1.1 200 ")

    @with_aiohttp
    def test_clients_that_go_away_are_no_fault(self):
        head = b"POST /rows HTTP/1.1\r\nHost: localhost\r\nContent-Type: text/csv\r\n"
        with server() as found:
            for length in (b"Content-Length: 100", b"Transfer-Encoding: chunked"):
                found.raw(head + length + b"\r\n\r\n2\r\n1,\r\n")
            # A chunk that is none.
            self.assertEqual(found.raw(head + b"Transfer-Encoding: chunked\r\n\r\nz\r\n", is_kept_open=True)[8:13], b" 400 ")
            found.await_metric('betable_requests_total{endpoint="/rows",status="499"}', 2)
            self.assertEqual((found.metric("betable_waiting_requests"), found.metric("betable_held_bytes"), found.json("/rows/primary")["rows"]), (0, 0, []))
            self.assertEqual(found.printed(), "")

    @with_aiohttp
    def test_nothing_of_a_head_is_printed(self):
        with tempfile.TemporaryDirectory() as folder:
            path = Path(folder) / "token"
            path.write_text(TOKEN + "\n")
            with server_in(folder, "--token", path) as found:
                token = TOKEN.encode()
                for sent in (
                    b"GET /trees HTTP/1.1\r\nAuthorization: Bearer %b%b\r\n\r\n" % (token, b"x" * 9_000),
                    b"GET /trees HTTP/1.1\r\nAuthorization: Bearer %b\x01\r\n\r\n" % token,
                    b"Authorization: Bearer %b\r\n\r\n" % token,
                ):
                    answer = found.raw(sent, is_kept_open=True)
                    self.assertEqual((answer[8:13], token in answer), (b" 400 ", False))
                metrics = found.ask("GET", "/metrics", headers={"Authorization": f"Bearer {TOKEN}"})[2]
                self.assertIn(b'betable_requests_total{endpoint="none",status="400"} 3.0', metrics)
                self.assertEqual(found.printed(), "")


# ---- who may ask ----


class WhoMayAsk(TestCase):
    @with_aiohttp
    def test_token_is_wanted(self):
        with tempfile.TemporaryDirectory() as folder:
            path = Path(folder) / "token"
            path.write_text(TOKEN + "\nsecond line\n")
            with server_in(folder, "--token", path) as found:
                for asked in ("/run", "/rows/primary", "/metrics", "/events", "/trees", "/checkpoint", "/nothing"):
                    for given in (None, TOKEN, f"Basic {TOKEN}", f"Bearer {TOKEN}x", f"Bearer {TOKEN[:-1]}", "Bearer æ", "Bearer"):
                        with self.subTest(asked=asked, given=given):
                            status, headers, _ = found.ask("GET", asked, None, {"Authorization": given.encode("latin-1")} if given else {})
                            self.assertEqual((status, headers["WWW-Authenticate"]), (401, "Bearer"))
                self.assertEqual([found.ask("GET", asked)[0] for asked in ("/", "/healthz")], [200, 200])
                self.assertEqual(found.ask("POST", "/run", TABLE, {"Authorization": f"Bearer {TOKEN}"})[0], 200)
                elsewhere = {"Authorization": f"bearer {TOKEN}", "Host": "table.example", "Origin": "https://a.example"}
                self.assertEqual(found.ask("GET", "/rows/primary", None, elsewhere)[0], 200)

    @with_aiohttp
    def test_other_sites_cannot_use_a_server_without_a_token(self):
        with server() as found:
            own = f"http://127.0.0.1:{found.port}"
            for headers, wanted in [
                ({"Origin": own}, 200),
                ({"Host": f"localhost:{found.port}"}, 200),
                ({"Host": f"[::1]:{found.port}"}, 200),
                ({"Origin": "https://a.example"}, 403),
                ({"Origin": "null"}, 403),
                ({"Origin": f"http://localhost:{found.port}"}, 403),
                ({"Sec-Fetch-Site": "cross-site"}, 403),
                ({"Sec-Fetch-Site": "same-site"}, 403),
                ({"Host": "a.example"}, 421),
                ({"Host": f"a.example:{found.port}", "Origin": f"http://a.example:{found.port}"}, 421),
                ({"Host": "127.0.0.1.a.example"}, 421),
                ({"Host": "[::1].a.example"}, 421),
                ({"Host": "[::1]a.example:80"}, 421),
            ]:
                with self.subTest(headers=headers):
                    self.assertEqual(found.ask("POST", "/run", adds(1), headers)[0], wanted)
            self.assertEqual(quantities(found), {1: 3})

    @with_aiohttp
    def test_read_only_servers_change_nothing(self):
        with tempfile.TemporaryDirectory() as folder:
            with server_in(folder) as found:
                found.run(TABLE + b"batch\nput 1,batch,2\nend\n")
                self.assertEqual(found.end(), 0)
            with server_in(folder, "--read-only") as found:
                rows = found.run(b"scan primary\ngo\n")
                changes = [adds(1), b"get 1\nrebuild primary\n", b"  drop by_city\n", b"batch\n", b"load\n", b"table 4 8 4 1 id:int\n", b"index a on qty\n"]
                for script in [*changes, b"drain primary\r\n", b"scan primary\nfrom 1\ngo\nbuild by_city 1\n", b"scan primary\nbatch\n"]:
                    with self.subTest(script=script):
                        status, _, body = found.ask("POST", "/run", script)
                        self.assertEqual((status, "read-only" in json.loads(body)["reason"]), (403, True))
                self.assertEqual([found.ask("POST", path, b"1,a,1\n")[0] for path in ("/rows", "/checkpoint")], [403, 403])
                self.assertEqual(found.run(b"scan primary\ngo\nget 1\nput batch\n"), rows + b"row 1,batch,2\nrefused 1 Syntax\n")
                self.assertEqual(found.json("/rows/by_city")["rows"], [["batch", 1, 2]])
                self.assertEqual(found.metric("betable_kept_scripts"), 0)

    @with_aiohttp
    def test_read_only_servers_write_nothing(self):
        with tempfile.TemporaryDirectory() as folder:
            with server_in(folder) as found:
                found.run(TABLE + b"batch\nput 1,batch,2\nend\n")
                self.assertEqual(found.end(), 0)
            before = found.path.read_bytes()
            with server_in(folder, "--read-only") as found:
                for number in range(20):
                    found.run(b"scan primary\ngo\nget %d\n" % number, Idempotency_Key=str(number))
                self.assertTrue(found.path.read_bytes() == before)
                self.assertEqual(found.end(), 0)
            self.assertEqual((found.path.read_bytes() == before, os.listdir(folder)), (True, [found.path.name]))

    @with_aiohttp
    def test_scripts_that_only_read_are_not_stored(self):
        with server() as found:
            script, refused = b"scan primary\ngo\n", b"batch\nput 1,a,1\nend\nbuild later 1\n"
            self.assertEqual(found.run(script, Idempotency_Key="read"), b"rows 0\n")
            first = found.run(refused, Idempotency_Key="write")
            self.assertEqual(found.run(b"index later on qty\n"), b"index later\n")
            # A read sees what is there now. A script that may change something has the replies that it had, refusals among them.
            self.assertEqual(found.run(script, Idempotency_Key="read"), b"row 1,a,1\nrows 1\n")
            self.assertEqual((first.splitlines()[-1][:8], found.run(refused, Idempotency_Key="write")), (b"refused ", first))


# ---- commits, crashes and ends ----


def commits_of(path):
    """How many groups of requests are in the file of a table: each is a frame that begins with its length, and zeros may come after the last one."""
    data, at, count = path.read_bytes(), HEAD, 0
    while size := int.from_bytes(data[at : at + 8], "little"):
        at, count = at + size, count + 1
    return count


def command_line(process):
    return Path(f"/proc/{process}/cmdline").read_bytes()


def is_closed(port):
    try:
        socket.create_connection(("127.0.0.1", port), SECONDS).close()
    except ConnectionError:
        return True
    return False


# Options with values that they do not take, and a program that prints the status with which the command ends for each.
WRONG_VALUES = [
    ("--port", "65536"), ("--port", "-1"), ("--most-body", "-1"), ("--most-waiting", "0"), ("--most-held", "x"), ("--most-connections", "0"),
    ("--client-seconds", "nan"), ("--client-seconds", "0"), ("--client-seconds", "inf"),
]  # fmt: skip
STATUSES = """
import sys
from betable.__main__ import main
for place in range(1, len(sys.argv), 2):
    words, sys.argv = sys.argv, ["betable", "serve", "none/stock.table", *sys.argv[place : place + 2]]
    try:
        print(main())
    except SystemExit as fault:
        print(fault.code)
    sys.argv = words
"""


class CommitsCrashesAndEnds(TestCase):
    @with_aiohttp
    def test_requests_that_wait_share_a_commit(self):
        count = 40
        with server() as found, ThreadPoolExecutor(count) as pool:
            before, counted = commits_of(found.path), found.metric("betable_commits_total")
            with found.stopped_engine():
                asked = [pool.submit(found.run, adds(key % 7)) for key in range(count)]
                found.await_metric("betable_queued_scripts", count)
            self.assertEqual({answer.result().split(b":")[0] for answer in asked}, {b"batch 1 by_city"})
            # The first was sent alone, since nothing ran; the others waited.
            self.assertTrue(1 <= commits_of(found.path) - before <= 2)
            self.assertEqual(found.metric("betable_commits_total") - counted, commits_of(found.path) - before)
            self.assertEqual(found.metric("betable_kept_scripts"), 1 + count)
            self.assertEqual(sum(quantities(found).values()), count)

    @with_aiohttp
    def test_requests_run_once_over_a_kill(self):
        with server() as found, ThreadPoolExecutor(8) as pool:
            first = found.run(adds(0), Idempotency_Key="first")
            self.assertEqual(found.run(adds(0), Idempotency_Key="first"), first)
            self.assertEqual(found.ask("POST", "/run", adds(1), {"Idempotency-Key": "first"})[0], 422)
            self.assertEqual(
                found.ask("POST", "/rows", b"9,a,1\n", {"Idempotency-Key": "rows"})[2], found.ask("POST", "/rows", b"9,a,1\n", {"Idempotency-Key": "rows"})[2]
            )
            with found.stopped_engine() as engine:
                keys = [*range(1, 8), "rows"]
                asked = [pool.submit(found.ask, "POST", "/run", adds(key), {"Idempotency-Key": str(key)}) for key in keys[:-1]]
                asked.append(pool.submit(found.ask, "POST", "/rows", b"9,a,1\n", {"Idempotency-Key": "rows"}))
                found.await_metric("betable_queued_scripts", len(keys))
                os.kill(engine, signal.SIGKILL)
                lost = [answer.result() for answer in asked]
            self.assertEqual({(status, headers["Retry-After"]) for status, headers, _ in lost}, {(503, "1")})
            until(lambda: found.ask("GET", "/healthz")[0] == 200)
            for _ in range(2):
                for key in keys[:-1]:
                    found.run(adds(key), Idempotency_Key=str(key))
            self.assertEqual(found.run(adds(0), Idempotency_Key="first"), first)
            self.assertEqual(quantities(found), {**{key: 1 for key in range(8)}, 9: 1})
            self.assertEqual(found.metric("betable_engine_starts"), 2)

    @with_aiohttp
    def test_numbers_go_on_when_the_worker_ends_and_begin_again_with_the_server(self):
        """A worker that ended in a script may have kept it: the next number is another one then, so that a reader of events reads again."""
        with tempfile.TemporaryDirectory() as folder:
            with server_in(folder) as found, ThreadPoolExecutor(1) as pool:
                found.run(TABLE + adds(1))
                found.run(adds(1))
                with events_of(self, found) as lines:
                    starts = [start_of(lines)]
                    for is_asked in (False, True):
                        with found.stopped_engine() as engine:
                            asked = pool.submit(found.ask, "POST", "/run", adds(1)) if is_asked else None
                            if asked:
                                found.await_metric("betable_queued_scripts", 1)
                            os.kill(engine, signal.SIGKILL)
                        self.assertEqual(asked and asked.result()[0], 503 if is_asked else None)
                        starts.append(start_of(lines))
                self.assertEqual([start["number"] for start in starts], [2, 2, 3])
                self.assertEqual(len({start["since"] for start in starts}), 1)
                self.assertEqual(found.ask("POST", "/run", adds(1))[1]["Betable-Number"], "4")
                self.assertEqual(found.end(), 0)
            with server_in(folder) as found:
                with events_of(self, found) as lines:
                    start = start_of(lines)
                self.assertEqual((start["number"], start["since"] > starts[0]["since"]), (0, True))
                self.assertEqual(found.ask("POST", "/run", adds(1))[1]["Betable-Number"], "1")

    @with_aiohttp
    def test_requests_run_once_over_a_kill_of_the_server(self):
        with tempfile.TemporaryDirectory() as folder:
            with server_in(folder) as found, ThreadPoolExecutor(1) as pool:
                found.run(TABLE)
                engine = found.engine()
                with found.stopped_engine():
                    asked = pool.submit(found.ask, "POST", "/run", adds(1), {"Idempotency-Key": "a"})
                    found.await_metric("betable_queued_scripts", 1)
                    count = commits_of(found.path)
                    os.kill(found.process.pid, signal.SIGSTOP)
                # The engine has kept the script when it is in the file and it waits again; nobody reads its reply.
                until(lambda: commits_of(found.path) > count and " S " in Path(f"/proc/{engine}/stat").read_text())
                found.process.kill()
                self.assertIsInstance(asked.exception(), (ConnectionError, OSError))
                found.process.wait()
                until(lambda: not Path(f"/proc/{engine}").exists())
            with server_in(folder) as found:
                self.assertEqual(found.run(adds(1), Idempotency_Key="a"), b"batch 1 by_city:1\n")
                self.assertEqual(quantities(found), {1: 1})

    @with_aiohttp
    def test_disk_that_is_full_is_told(self):
        with server() as found:
            engine = found.engine()
            found.run(adds(1))
            resource.prlimit(engine, resource.RLIMIT_FSIZE, (100_000, resource.RLIM_INFINITY))
            script = b"batch\n" + b"".join(b"put %d,%b,1\n" % (key, os.urandom(50).hex().encode()) for key in range(10, 10_000)) + b"end\n"
            status, _, body = found.ask("POST", "/run", script)
            self.assertEqual((status in (503, 507), "reason" in json.loads(body)), (True, True))
            if Path(f"/proc/{engine}").exists():
                resource.prlimit(engine, resource.RLIMIT_FSIZE, (resource.RLIM_INFINITY, resource.RLIM_INFINITY))
            until(lambda: found.ask("GET", "/row?key=1")[0] == 200)
            rows = quantities(found)
            self.assertEqual((rows.pop(1), len(rows) in ((0,) if status == 507 else (0, 9_990))), (1, True))
            self.assertEqual(found.run(adds(2)), b"batch 1 by_city:1\n")

    @with_aiohttp
    def test_slow_readers_hold_nothing_up(self):
        with server("--client-seconds", 4) as found:
            for start in range(0, 120_000, 60_000):
                found.ask("POST", "/rows", b"".join(b"%d,%b,1\n" % (key, b"x" * 200) for key in range(start, start + 60_000)))
            with socket.socket() as slow:
                slow.setsockopt(socket.SOL_SOCKET, socket.SO_RCVBUF, 4_096)
                slow.connect(("127.0.0.1", found.port))
                slow.sendall(b"GET /rows/primary?limit=999999999 HTTP/1.1\r\nHost: localhost\r\n\r\n")
                until(lambda: found.metric("betable_held_bytes") > 20_000_000)
                self.assertEqual(found.run(adds(-1)), b"batch 1 by_city:1\n")
                # It is cut off, and does not get the end of its rows.
                found.await_metric("betable_held_bytes", 0)
                self.assertLess(len(received(slow)), 20_000_000)

    @with_aiohttp
    def test_signals_end_it_after_what_came_in(self):
        for number in (signal.SIGTERM, signal.SIGINT):
            with self.subTest(number=number):
                with tempfile.TemporaryDirectory() as folder:
                    with server_in(folder) as found, ThreadPoolExecutor(20) as pool:
                        found.run(TABLE)
                        with found.stopped_engine() as engine:
                            asked = [pool.submit(found.ask, "POST", "/run", adds(key)) for key in range(20)]
                            found.await_metric("betable_queued_scripts", 20)
                            # As a service manager or a terminal does, to all processes.
                            for process in (engine, found.process.pid):
                                os.kill(process, number)
                            until(lambda: is_closed(found.port))
                        self.assertEqual({answer.result()[0] for answer in asked}, {200})
                        self.assertEqual((found.process.wait(SECONDS), found.process.stderr.read()), (0, ""))
                    with server_in(folder) as found:
                        self.assertEqual(quantities(found), {key: 1 for key in range(20)})

    @with_aiohttp
    def test_signals_end_it_while_the_table_opens(self):
        with tempfile.TemporaryDirectory() as folder:
            while True:
                process = process_of(Path(folder) / "stock.table")
                children = Path(f"/proc/{process.pid}/task/{process.pid}/children")
                until(lambda: process.poll() is not None or children.read_text())
                engine = int(children.read_text())
                # A child that is stopped before it runs its program would block its parent.
                until(lambda: command_line(engine) != command_line(process.pid))
                os.kill(engine, signal.SIGSTOP)
                if not select.select([process.stdout], [], [], 0)[0]:
                    break
                # The table was open already.
                process.kill()
                process.communicate()
            process.send_signal(signal.SIGTERM)
            self.assertEqual((process.wait(SECONDS), *process.communicate()), (0, "", ""))
            until(lambda: not Path(f"/proc/{engine}").exists())

    @with_aiohttp
    def test_checkpoints_take_the_place_of_the_requests(self):
        with tempfile.TemporaryDirectory() as folder:
            with server_in(folder) as found:
                found.run(TABLE + adds(1), Idempotency_Key="a")
                found.run(b"batch\n" + b"put 2,%b,1\n" % (b"x" * 200) * 5_000 + b"end\n")
                before = found.metric("betable_file_bytes")
                status, _, body = found.ask("POST", "/checkpoint")
                self.assertEqual((status, json.loads(body)), (200, {"number": 2, "file_bytes": found.path.stat().st_size}))
                self.assertLess(found.metric("betable_file_bytes"), before)
                found.run(b"batch\ndel 2\nend\n")
                image = found.run(b"image primary\nimage by_city\n")
                self.assertEqual(found.end(), 0)
            with server_in(folder) as found:
                self.assertEqual(found.run(b"image primary\nimage by_city\n"), image)
                self.assertEqual(found.run(TABLE + adds(1), Idempotency_Key="a").splitlines()[-1], b"batch 1 by_city:1")
                self.assertEqual(quantities(found), {1: 1})

    @with_aiohttp
    def test_wrong_values_of_options_are_told(self):
        words = [python(), "-c", STATUSES, *(word for pair in WRONG_VALUES for word in pair)]
        environment = {**os.environ, "PYTHONPATH": str(TOP / "clients/python"), "PYTHONDONTWRITEBYTECODE": "1"}
        ended = subprocess.run(words, capture_output=True, text=True, env=environment, timeout=SECONDS)
        self.assertEqual(ended.stdout.split(), ["2"] * len(WRONG_VALUES))
        self.assertEqual(re.findall(r"error: argument (--[a-z-]+): ", ended.stderr), [option for option, _ in WRONG_VALUES])

    @with_aiohttp
    def test_what_cannot_be_served_is_told(self):
        with tempfile.TemporaryDirectory() as folder:
            path, short = Path(folder) / "free.table", Path(folder) / "short"
            short.write_text("secret\n")
            other = Path(folder) / "other.table"
            other.write_text("this is no table, and has been here before\n" * 100)
            without = Path(folder) / "without"
            without.mkdir()
            (without / "aiohttp.py").write_text("raise ModuleNotFoundError('none', name='aiohttp')\n")
            environment = {"PYTHONPATH": f"{without}:{TOP / 'clients/python'}"}
            wrong = [
                ([path, "--host", "0.0.0.0"], 2, "--token"),
                ([path, "--token", short], 2, "16 bytes"),
                ([path, "--token", Path(folder) / "none"], 2, "No such file"),
                ([other], 1, "is no table"),
                ([folder], 1, folder),
                ([Path(folder) / "none" / "stock.table"], 1, "none"),
                ([path, "--most-held", "1000"], 2, "--most-body"),
                ([path, "--most-connections", "999999999"], 2, "1,000,000,063 open files"),
            ]
            for process, (words, status, part) in [(process_of(*words), (words, status, part)) for words, status, part in wrong]:
                with self.subTest(words=words):
                    out, errors = process.communicate(timeout=SECONDS)
                    self.assertEqual((process.returncode, out), (status, ""))
                    self.assertIn(part, errors)
                    self.assertEqual((errors.startswith("betable serve: "), errors.count("\n")), (True, 1))
            process = process_of(path, environment=environment)
            errors = process.communicate(timeout=SECONDS)[1]
            self.assertEqual(errors, "betable serve: aiohttp is not installed: 'apt-get install python3-aiohttp python3-prometheus-client'\n")
            with server_in(folder) as found:
                for words, part in (([found.path], "open already"), ([path, "--port", found.port], "address already in use")):
                    with self.subTest(words=words):
                        process = process_of(*words)
                        _, errors = process.communicate(timeout=SECONDS)
                        self.assertEqual(process.returncode, 1)
                        self.assertIn(part, errors)

    @needs("curl")
    @with_aiohttp
    def test_quick_start_of_the_document_runs(self):
        """The commands of docs/SERVICE.md, with a free port in place of theirs; what they print is what it says."""
        text = (TOP / "docs/SERVICE.md").read_text(encoding="utf-8")
        commands, printed = re.search(r"```sh\n(.*?)```\n+```text\n(.*?)```", text, re.DOTALL).groups()
        with socket.create_server(("127.0.0.1", 0)) as free:
            port = str(free.getsockname()[1])
        script = commands.replace("8470", port).replace("python3 -m betable", f"{python()} -m betable")
        with tempfile.TemporaryDirectory() as folder:
            environment = {**os.environ, "PYTHONPATH": str(TOP / "clients/python"), "PYTHONDONTWRITEBYTECODE": "1"}
            ended = subprocess.run(["bash", "-eu", "-c", script], capture_output=True, text=True, cwd=folder, env=environment, timeout=SECONDS)
        self.assertEqual((ended.returncode, ended.stdout), (0, printed.replace("8470", port)))

    def test_endpoints_and_statuses_of_the_document_are_those_of_the_server(self):
        package = TOP / "clients/python/betable/server"
        code = "".join((package / name).read_text(encoding="utf-8") for name in ("serve.py", "requests.py", "answers.py", "bodies.py", "backups.py"))
        text, of_operators = ((TOP / "docs" / name).read_text(encoding="utf-8") for name in ("SERVICE.md", "OPERATING.md"))
        routes = {(method.upper(), path.replace("{tree}", "TREE")) for method, path in re.findall(r'web\.(get|post|delete)\("([^"]+)"', code)}
        self.assertEqual({tuple(found) for found in re.findall(r"^\| `(GET|POST|DELETE) ([^`?]+)", text, re.MULTILINE)}, routes)
        statuses = {
            *re.findall(r"Problem\((\d{3})", code),
            *re.findall(r"\b(4\d\d|5\d\d) if", code),
            *re.findall(r": (4\d\d|5\d\d)[,}]", code),
            "507",
            "405",
            "417",
        }
        self.assertEqual({status for line in re.findall(r"^\| (\d{3}(?:, \d{3})*) \|", text, re.MULTILINE) for status in line.split(", ")}, statuses)
        options = set(re.findall(r'add_argument\("(--[a-z-]+)"', code))
        self.assertEqual(set(re.findall(r"`(--[a-z-]+)", text + of_operators)) - {"--help"}, options - {"--port"})

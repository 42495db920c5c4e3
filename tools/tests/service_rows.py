"""Tests of the rows that the server gives: all rows of a range, a page at a time, and a header line if it is asked for."""

import csv
import io
import json
import os
import signal
import socket
import tempfile
import unittest
from http.client import HTTPConnection, IncompleteRead
from typing import Any
from urllib.parse import quote

from .clients import library
from .service import most_memory, python, server, until

TABLE = b"table 16 1024 256 2 city:text id:int note:text\nindex by_note on note\nbuild by_note 1\n"


def setUpModule() -> None:
    library()


@unittest.skipIf(python() is None, "aiohttp is not installed: the server is not tested")
class AllRows(unittest.TestCase):
    def rows(self, count: int) -> list[tuple[str, int, str]]:
        """Rows in the order of their keys, of two pages and one more row if there are 20,001."""
        return sorted((f"city, {number % 7}", number, f'"{number}" ') for number in range(count))

    def put(self, found: Any, rows: list[tuple[str, int, str]]) -> None:
        for at in range(0, len(rows), 60_000):
            text = io.StringIO(newline="")
            csv.writer(text, lineterminator="\n").writerows(rows[at : at + 60_000])
            self.assertEqual(found.ask("POST", "/rows", text.getvalue().encode())[0], 200)

    def test_pages_together_are_the_rows_of_one_scan(self) -> None:
        for count in (0, 1, 9_999, 10_000, 10_001, 20_000, 20_001):
            rows = self.rows(count)
            with server(script=TABLE) as found:
                self.put(found, rows)
                for tree in ("primary", "by_note"):
                    status, headers, whole = found.ask("GET", f"/rows/{tree}?limit=999999999")
                    self.assertEqual((status, headers["Betable-More"]), (200, "false"))
                    status, headers, body = found.ask("GET", f"/rows/{tree}", headers={"Accept": "text/csv"})
                    self.assertEqual((status, headers["Betable-More"], headers["Content-Type"]), (200, "false", "text/csv; charset=utf-8; header=absent"))
                    self.assertTrue(body == whole, (count, tree))
                    found_rows = found.json(f"/rows/{tree}")
                    self.assertEqual((len(found_rows["rows"]), found_rows["more"]), (count, False))
                    self.assertTrue(found_rows == found.json(f"/rows/{tree}?limit=999999999"))
                    newest_first = found.json(f"/rows/{tree}?newest_first=1")
                    self.assertTrue(newest_first == found_rows | {"rows": found_rows["rows"][::-1]}, (count, tree))
                read = [(city, int(number), note) for city, number, note in csv.reader(io.StringIO(found.ask("GET", "/rows/primary")[2].decode(), newline=""))]
                self.assertTrue(read == rows)
                middle = [row for row in rows if ("city, 2",) <= row < ("city, 5",)]
                self.assertEqual(len(found.json("/rows/primary?from=city,%202&to=city,%205")["rows"]), len(middle))

    def test_pages_go_on_after_keys_with_line_breaks(self) -> None:
        keys = sorted(f"{'line' if number % 2 else 'a'}\n{number:06}\r\n\"," for number in range(20_010))
        script = b"table 16 1024 256 1 name:text n:int\nload\nname,n\n"
        script += "".join(f'"{key.replace(chr(34), chr(34) * 2)}",7\n' for key in keys).encode() + b".\n"
        with server(script=script) as found:
            self.assertTrue([key for key, _ in found.json("/rows/primary")["rows"]] == keys)
            page = found.json(f"/rows/primary?limit=2&after={quote(keys[5])}")
            self.assertEqual((page["rows"], page["more"]), ([[keys[6], 7], [keys[7], 7]], True))
            self.assertEqual(found.json(f"/rows/primary?from={quote(keys[5])}&limit=1")["rows"], [[keys[5], 7]])
            self.assertTrue([key for key, _ in found.json("/rows/primary?newest_first=1")["rows"]] == keys[::-1])
            page = found.json(f"/rows/primary?limit=2&after={quote(keys[5])}&newest_first=1")
            self.assertEqual((page["rows"], page["more"]), ([[keys[4], 7], [keys[3], 7]], True))

    def test_a_header_line_comes_if_it_is_asked_for(self) -> None:
        with server(script=TABLE + b'batch\nput Oslo,1,"a,b"\nput Oslo,2,x\nend\n') as found:
            for path, wanted in (
                ("/rows/primary?header=1", b'city,id,note\nOslo,1,"a,b"\nOslo,2,x\n'),
                ("/rows/primary?header=0", b'Oslo,1,"a,b"\nOslo,2,x\n'),
                ("/rows/by_note?header=1&limit=1", b'note,city,id\n"a,b",Oslo,1\n'),
                ("/rows/primary?header=1&from=P", b"city,id,note\n"),
                ("/row?key=Oslo&key=2&header=1", b"city,id,note\nOslo,2,x\n"),
                ("/sums/primary?of=id&header=1", b"count,sum,city\n2,3,Oslo\n"),
                ("/rows/primary?header=1&format=csv", b'city,id,note\nOslo,1,"a,b"\nOslo,2,x\n'),
            ):
                status, headers, body = found.ask("GET", path)
                present = "present" if "header=1" in path else "absent"
                self.assertEqual((path, status, body, headers["Content-Type"]), (path, 200, wanted, f"text/csv; charset=utf-8; header={present}"))
            self.assertEqual(json.loads(found.ask("GET", "/rows/primary?header=1&format=json")[2])["columns"], ["city", "id", "note"])
            status, _, body = found.ask("GET", "/rows/primary?header=yes")
            self.assertEqual((status, json.loads(body)["reason"]), (400, "'header' is 1 or 0, and not 'yes'"))

    def test_rows_of_any_size_need_the_memory_of_a_page(self) -> None:
        rows = [("x" * 200, number, "y" * 200) for number in range(150_000)]
        with server(script=TABLE.split(b"index")[0]) as found:
            self.put(found, rows)
            found.ask("GET", "/rows/primary?limit=10000")
            before = most_memory(found.process.pid)
            connection = HTTPConnection("127.0.0.1", found.port, timeout=200)
            connection.request("GET", "/rows/primary")
            response, size = connection.getresponse(), 0
            while part := response.read(1 << 20):
                size += len(part)
            connection.close()
            self.assertEqual(size, sum(len(f"{city},{number},{note}\n") for city, number, note in rows))
            self.assertLess(most_memory(found.process.pid) - before, 20_000)
            until(lambda: found.metric("betable_held_bytes") == 0)

    def test_other_requests_are_answered_while_a_client_is_slow(self) -> None:
        rows = [("x" * 200, number, "y" * 200) for number in range(60_000)]
        with server(script=TABLE.split(b"index")[0]) as found:
            self.put(found, rows)
            with socket.create_connection(("127.0.0.1", found.port), 60) as slow:
                slow.sendall(b"GET /rows/primary HTTP/1.1\r\nHost: localhost\r\n\r\n")
                slow.recv(1_000)
                found.run(b"batch\nput a,0,new\nput z,0,new\nend\n")
                # What is changed in the part that is not read yet comes with it.
                text = b""
                while not text.endswith(b"\r\n0\r\n\r\n"):
                    text += slow.recv(1 << 20)
            self.assertIn(b"z,0,new\n", text)
            self.assertNotIn(b"a,0,new\n", text)

    def test_a_tree_that_is_dropped_meanwhile_cuts_the_answer_off(self) -> None:
        rows = [("x" * 200, number, f"{number:06}" + "y" * 200) for number in range(60_000)]
        for script in (b"drop by_note\n", b"drop by_note\nindex by_note on id include note\nbuild by_note 999999999\n"):
            with server(script=TABLE) as found:
                self.put(found, rows)
                connection = HTTPConnection("127.0.0.1", found.port, timeout=60)
                connection.request("GET", "/rows/by_note")
                response = connection.getresponse()
                response.read(1_000)
                found.run(script)
                with self.assertRaises((IncompleteRead, ConnectionError)):
                    while response.read(1 << 20):
                        pass
                connection.close()
                self.assertEqual(found.json("/row?key=" + "x" * 200 + "&key=5")["rows"][0][1], 5)

    def test_a_worker_that_ends_meanwhile_cuts_the_answer_off(self) -> None:
        rows = [("x" * 200, number, "y" * 200) for number in range(60_000)]
        with tempfile.TemporaryDirectory(), server(script=TABLE.split(b"index")[0]) as found:
            self.put(found, rows)
            connection = HTTPConnection("127.0.0.1", found.port, timeout=60)
            connection.request("GET", "/rows/primary")
            response = connection.getresponse()
            response.read(1_000)
            os.kill(found.engine(), signal.SIGKILL)
            with self.assertRaises((IncompleteRead, ConnectionError)):
                while response.read(1 << 20):
                    pass
            connection.close()
            until(lambda: found.ask("GET", "/healthz")[0] == 200)
            self.assertEqual(len(found.json("/rows/primary?limit=5")["rows"]), 5)


if __name__ == "__main__":
    unittest.main()

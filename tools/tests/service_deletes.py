"""Tests of deletes of a range of rows by the server: which rows go, that other requests run in between, and that a delete that ended early goes on."""

import json
import os
import random
import signal
import unittest
from concurrent.futures import ThreadPoolExecutor
from http.client import HTTPConnection
from typing import Any
from urllib.parse import quote

from .clients import library
from .service import events_of, python, server, until

TABLE = b"table 16 1024 256 2 city:text id:int qty:int\nindex by_qty on qty,id include city\nbuild by_qty 1\n"
BATCH = 5_000  # rows


def setUpModule() -> None:
    library()


def numbered(start: int, stop: int) -> bytes:
    return b"".join(b"x,%d,1\n" % number for number in range(start, stop))


@unittest.skipIf(python() is None, "aiohttp is not installed: the server is not tested")
class Deletes(unittest.TestCase):
    def delete(self, found: Any, path: str, **headers: str) -> tuple[int, Any]:
        status, _, body = found.ask("DELETE", path, headers={name.replace("_", "-"): value for name, value in headers.items()})
        return status, json.loads(body)

    def rows(self, found: Any, path: str = "/rows/primary") -> list[tuple[Any, ...]]:
        return [tuple(row) for row in found.json(path)["rows"]]

    def test_the_rows_of_a_range_are_removed_and_no_others(self) -> None:
        dice = random.Random(21)
        texts = ["Alta", "Bergen", "a,b", "line\nbreak", "", "Å"]
        rows = {(dice.choice(texts), number, dice.randrange(6)) for number in range(120)}
        with server(script=TABLE) as found:
            for place in range(40):
                if place % 10 == 0:
                    found.ask("DELETE", "/rows/primary?all=1")
                    body = "".join(json.dumps(row) + "\n" for row in rows).encode()
                    self.assertEqual(found.ask("POST", "/rows", body, {"Content-Type": "application/x-ndjson"})[0], 200)
                    there = set(rows)
                tree, key = dice.choice([("primary", lambda row: (row[0].encode(), row[1])), ("by_qty", lambda row: (row[2], row[1], row[0].encode()))])
                bounds, given = [None, None], []
                for side, word in enumerate(("from", "to")):
                    if dice.random() < 0.7 or (side and not given):
                        full = key(dice.choice(sorted(rows)))
                        bounds[side] = full[: dice.randrange(1, len(full) + 1)]
                        given += [f"{word}={quote(value if isinstance(value, bytes) else str(value))}" for value in bounds[side]]
                low, high = bounds
                wanted = {row for row in there if (low is None or key(row)[: len(low)] >= low) and (high is None or key(row)[: len(high)] < high)}
                status, said = self.delete(found, f"/rows/{tree}?{'&'.join(given)}")
                self.assertEqual((status, said["deleted"], said["number"]), (200, len(wanted), found.metric("betable_kept_scripts")), given)
                there -= wanted
                self.assertEqual(self.rows(found), sorted(there, key=lambda row: (row[0].encode(), row[1])))
                entries = [(qty, number, city) for city, number, qty in there]
                self.assertEqual([row[:3] for row in self.rows(found, "/rows/by_qty")], sorted(entries, key=lambda row: (*row[:2], row[2].encode())))

    def test_large_ranges_go_in_batches_and_events_tell_of_each(self) -> None:
        for count in (BATCH - 1, BATCH, BATCH + 1, 2 * BATCH + 1):
            with server(script=TABLE) as found:
                self.assertEqual(found.ask("POST", "/rows", numbered(0, count + 3))[0], 200)
                with events_of(self, found) as lines:
                    while not next(lines).startswith("data: "):
                        pass
                    status, said = self.delete(found, f"/rows/primary?to=x&to={count}")
                    batches = -(-count // BATCH)
                    self.assertEqual((status, said), (200, {"deleted": count, "number": 2 + batches}))
                    found.run(b"batch\nput z,0,0\nend\n")
                    events = []
                    while not events or "number" not in events[-1] or events[-1]["number"] < 3 + batches:
                        line = next(lines)
                        events += [json.loads(line[6:])] if line.startswith("data: ") else []
                self.assertEqual(sum(int(event["replies"][0].split()[1]) for event in events[:-1]), count)
                self.assertEqual(len(self.rows(found)), 4)
                # Nothing is left to remove, and nothing is kept of that.
                self.assertEqual(self.delete(found, f"/rows/primary?to=x&to={count}"), (200, {"deleted": 0, "number": 3 + batches}))

    def test_a_forgotten_bound_removes_nothing(self) -> None:
        with server(script=TABLE + b"batch\nput x,1,1\nput y,2,2\nend\nindex building on qty\n") as found:
            before = self.rows(found)
            for path, status, part in (
                ("/rows/primary", 400, "to remove all rows write all=1"),
                ("/rows/primary?all=0", 400, "to remove all rows write all=1"),
                ("/rows/primary?all=yes", 400, "'all' is 1 or 0"),
                ("/rows/primary?all=1&from=x", 400, "write all=1 in their place"),
                ("/rows/primary?form=x", 400, "'form' is no parameter here"),
                ("/rows/primary?from=x&limit=1", 400, "'limit' is no parameter here"),
                ("/rows/primary?from=x&from=z", 422, "'z' is no whole number"),
                ("/rows/primary?from=x&from=1&from=1", 422, "3"),
                ("/rows/primary?from=x%0A&from=z", 400, "'z' is no whole number"),
                ("/rows/none?all=1", 404, "none"),
                ("/rows/building?all=1", 409, "building"),
                ("/rows/Primary?all=1", 400, "primary"),
            ):
                found_status, said = self.delete(found, path)
                self.assertEqual((path, found_status), (path, status))
                self.assertIn(part, said["reason"])
            status, said = self.delete(found, "/rows/primary?all=1", Idempotency_Key="a")
            self.assertEqual(status, 400)
            self.assertIn("no Idempotency-Key", said["reason"])
            self.assertEqual(self.rows(found), before)
            self.assertEqual(self.delete(found, "/rows/primary?all=1"), (200, {"deleted": 2, "number": 2}))
            self.assertEqual(self.rows(found), [])
        with server("--read-only", script=b"") as found:
            self.assertEqual(self.delete(found, "/rows/primary?all=1")[0], 403)
        with server(script=b"") as found:
            self.assertEqual(self.delete(found, "/rows/primary?all=1")[0], 409)

    def test_other_requests_run_between_the_batches(self) -> None:
        with server(script=TABLE) as found:
            for start in range(0, 200_000, 50_000):
                self.assertEqual(found.ask("POST", "/rows", numbered(start, start + 50_000))[0], 200)
            with ThreadPoolExecutor(1) as pool:
                asked = pool.submit(self.delete, found, "/rows/primary?all=1")
                until(lambda: found.metric("betable_kept_scripts") > 6)
                # A row before the place of the delete stays, and one after it goes.
                found.run(b"batch\nput a,1,1\nput z,1,1\nend\n")
                self.assertFalse(asked.done())
                status, said = asked.result()
            self.assertEqual((status, said["deleted"], self.rows(found)), (200, 200_001, [("a", 1, 1)]))

    def test_a_delete_that_ended_early_goes_on_when_it_is_sent_again(self) -> None:
        with server(script=TABLE) as found:
            for start in range(0, 200_000, 50_000):
                self.assertEqual(found.ask("POST", "/rows", numbered(start, start + 50_000))[0], 200)
            with ThreadPoolExecutor(1) as pool:
                asked = pool.submit(self.delete, found, "/rows/by_qty?from=1&to=2")
                until(lambda: found.metric("betable_kept_scripts") > 6)
                os.kill(found.engine(), signal.SIGKILL)
                status, said = asked.result()
            self.assertEqual((status, said["deleted"] % BATCH), (503, 0))
            until(lambda: found.metric("betable_engine_starts") == 2 and found.ask("GET", "/healthz")[0] == 200)
            left = len(self.rows(found))
            self.assertIn(200_000 - left - said["deleted"], (0, BATCH))
            # A client that goes away ends it too.
            connection = HTTPConnection("127.0.0.1", found.port)
            number = found.metric("betable_kept_scripts")
            connection.request("DELETE", "/rows/by_qty?from=1&to=2")
            until(lambda: found.metric("betable_kept_scripts") > number)
            connection.close()
            until(lambda: found.metric("betable_waiting_requests") == 0)
            some = len(self.rows(found))
            self.assertTrue(0 < some < left, (some, left))
            self.assertEqual(self.delete(found, "/rows/by_qty?from=1&to=2")[1]["deleted"], some)
            self.assertEqual(self.rows(found), [])


if __name__ == "__main__":
    unittest.main()

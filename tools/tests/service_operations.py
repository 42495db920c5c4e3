"""Tests of what the server tells whoever runs it: a worker that ended, the log of requests, slow requests, health while changes fail, and metrics."""

import json
import os
import re
import resource
import signal
import socket
import tempfile
import unittest
from contextlib import ExitStack
from pathlib import Path

from .clients import library
from .service import TABLE, TOKEN, Server, adds, python, server, server_in, until

DUE = 1 << 24  # bytes of a file at which a checkpoint is due


def setUpModule() -> None:
    library()


@unittest.skipIf(python() is None, "aiohttp is not installed: the server is not tested")
class Operations(unittest.TestCase):
    def test_a_worker_that_ended_is_told_with_its_end_and_its_start(self) -> None:
        with server() as found:
            found.run(adds(1))
            os.kill(found.engine(), signal.SIGKILL)
            until(lambda: found.metric("betable_engine_starts") == 2 and found.ask("GET", "/healthz")[0] == 200)
            self.assertEqual(found.run(adds(1)), b"batch 1 by_city:1\n")
            self.assertEqual(found.printed().splitlines(), [
                "betable serve: the worker ended by the signal SIGKILL; requests get 503 until it is started again",
                "betable serve: the worker was started again, and has the table open",
            ])  # fmt: skip

    def test_an_end_that_was_asked_for_is_not_told(self) -> None:
        with server() as found:
            found.run(adds(1))
            self.assertEqual(found.printed(), "")

    def test_the_log_has_a_line_for_each_request_and_nothing_secret_of_it(self) -> None:
        with tempfile.TemporaryDirectory() as folder:
            log, token = Path(folder) / "requests.log", Path(folder) / "token"
            token.write_text(TOKEN)
            log.write_text("before\n")
            with server_in(folder, "--access-log", log, "--token", token) as found:
                headers = {"Authorization": f"Bearer {TOKEN}"}
                found.ask("POST", "/run", TABLE, headers)
                for path in ("/row?key=4711", "/none/%C3%B8%0A?x=" + TOKEN, "/healthz"):
                    found.ask("GET", path, headers=headers)
                found.ask("GET", "/rows/primary?from=4711", headers={"Authorization": "Bearer wrong"})
                self.assertEqual(found.printed(), "")
            first, *lines = log.read_text().splitlines()
            forms = ["POST /run 200", "GET /row 404", "GET /none/%C3%B8%0A 404", "GET /healthz 200", "GET /rows/primary 401"]
            self.assertEqual((first, len(lines)), ("before", len(forms)))
            for line, form in zip(lines, forms):
                self.assertRegex(line, rf"^20\d\d-\d\d-\d\dT\d\d:\d\d:\d\dZ 127\.0\.0\.1 {form} \d+\.\d{{4}}$")
            self.assertIsNone(re.search(f"4711|{TOKEN}|wrong", "".join(lines)))

    def test_a_log_that_cannot_be_opened_ends_the_start(self) -> None:
        with tempfile.TemporaryDirectory() as folder, self.assertRaisesRegex(RuntimeError, "none/requests.log: No such file or directory"):
            with server_in(folder, "--access-log", Path(folder) / "none/requests.log"):
                pass

    def test_only_slow_requests_are_printed(self) -> None:
        with server("--slow-seconds", 0.5) as found:
            found.run(adds(1))
            with found.stopped_engine(), socket.create_connection(("127.0.0.1", found.port), 60) as slow:
                slow.sendall(b"GET /row?key=4711 HTTP/1.1\r\nHost: localhost\r\n\r\n")
                found.await_metric("betable_queued_scripts", 1)
                signal.sigtimedwait([], 0.7)
            until(lambda: found.metric("betable_queued_scripts") == 0)
            lines = found.printed().splitlines()
            self.assertEqual(len(lines), 1)
            self.assertRegex(lines[0], r"^betable serve: slow: 127\.0\.0\.1 GET /row (404|499) \d+\.\d{4}$")

    def test_health_tells_that_changes_fail_until_one_succeeds(self) -> None:
        with server() as found:
            found.run(adds(1))
            engine = found.engine()
            resource.prlimit(engine, resource.RLIMIT_FSIZE, (100_000, resource.RLIM_INFINITY))
            body = b"".join(b"%d,%b,1\n" % (key, b"x" * 200) for key in range(10, 10_000))
            status = found.ask("POST", "/rows", body)[0]
            if status == 507:
                status, _, said = found.ask("GET", "/healthz")
                self.assertEqual((status, json.loads(said)["status"]), (503, "changes fail"))
                # Reads go on, and do not make it well.
                self.assertEqual(found.ask("GET", "/row?key=1")[0], 200)
                self.assertEqual(found.ask("GET", "/healthz")[0], 503)
            if Path(f"/proc/{engine}").exists():
                resource.prlimit(engine, resource.RLIMIT_FSIZE, (resource.RLIM_INFINITY, resource.RLIM_INFINITY))
            until(lambda: found.ask("POST", "/run", adds(2))[0] == 200)
            self.assertEqual(json.loads(found.ask("GET", "/healthz")[2]), {"status": "open"})

    def fill(self, found: Server) -> None:
        """Puts rows again and again until the file has so many bytes that a checkpoint is due."""
        body = b"".join(b"%d,%b,1\n" % (key % 1_000, b"x" * 250) for key in range(60_000))
        while found.metric("betable_file_bytes") < DUE:
            self.assertEqual(found.ask("POST", "/rows", body)[0], 200)

    def test_checkpoints_are_written_by_themselves_and_counted(self) -> None:
        def of(cause: str, what: str) -> float:
            return found.metric(f'betable_checkpoint_seconds_{what}{{cause="{cause}"}}')

        with server() as found:
            self.fill(found)
            self.assertEqual((of("size", "count"), found.metric("betable_checkpoint_time")), (0, 0))
            found.run(adds(1))
            self.assertEqual((of("size", "count"), of("size", "sum") > 0, of("request", "count")), (1, True, 0))
            self.assertGreater(found.metric("betable_checkpoint_time"), 1_700_000_000)
            self.assertLess(found.metric("betable_file_bytes"), 1_000_000)
            self.assertEqual(found.ask("POST", "/checkpoint")[0], 200)
            self.assertEqual((of("size", "count"), of("request", "count"), found.metric("betable_checkpoint_failed")), (1, 1, 0))
            self.assertEqual(found.json("/row?key=1")["rows"], [[1, "x" * 250, 2]])

    def test_a_checkpoint_that_fails_is_told_and_the_change_is_kept(self) -> None:
        with server() as found:
            self.fill(found)
            # It is written there.
            blocked = Path(f"{found.path}.new")
            blocked.mkdir()
            found.run(adds(1))
            self.assertEqual((found.metric("betable_checkpoint_failed"), found.json("/row?key=1")["rows"]), (1, [[1, "x" * 250, 2]]))
            self.assertEqual(found.ask("POST", "/checkpoint")[0], 507)
            blocked.rmdir()
            self.assertEqual((found.ask("POST", "/checkpoint")[0], found.metric("betable_checkpoint_failed")), (200, 0))
            self.assertEqual((found.metric("betable_engine_starts"), found.run(adds(1))), (1, b"batch 1 by_city:1\n"))
            self.assertRegex(found.printed(), "stock.table: no checkpoint was made: Is a directory")

    def test_metrics_have_refused_connections_and_the_last_checkpoint(self) -> None:
        with server("--most-connections", 1) as found, ExitStack() as stay:
            self.assertEqual((found.metric("betable_refused_connections_total"), found.metric("betable_checkpoint_time")), (0, 0))
            self.assertEqual(found.ask("POST", "/checkpoint")[0], 200)
            self.assertGreater(found.metric("betable_checkpoint_time"), 1_700_000_000)
            reader = stay.enter_context(socket.create_connection(("127.0.0.1", found.port), 60))
            reader.sendall(b"GET /events HTTP/1.1\r\nHost: localhost\r\n\r\n")
            self.assertEqual(reader.recv(13), b"HTTP/1.1 200 ")
            with socket.create_connection(("127.0.0.1", found.port), 60) as refused:
                refused.sendall(b"GET /healthz HTTP/1.1\r\nHost: localhost\r\n\r\n")
                self.assertEqual(refused.recv(13), b"HTTP/1.1 503 ")
            stay.close()
            until(lambda: found.ask("GET", "/healthz")[0] == 200)
            self.assertGreater(found.metric("betable_refused_connections_total"), 0)

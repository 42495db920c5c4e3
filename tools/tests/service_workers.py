"""Tests of a server whose table is in the program betable_engine: the same answers as of one without it, its processes and threads, and the end of any of
them."""

import fcntl
import json
import os
import random
import signal
import subprocess
import sys
import tempfile
import time
import unittest
from concurrent.futures import ThreadPoolExecutor
from pathlib import Path

from .clients import library
from .engine import has_ended, memory_of, program, threads_of
from .service import TABLE, adds, events_of, process_of, python, quantities, server, server_in, until


def setUpModule() -> None:
    library()
    if program() is None:
        raise unittest.SkipTest("the program betable_engine is not built")


def table_process(found) -> int:
    """The number of the process of the table, which the worker of a server has started."""
    worker = found.engine()
    return int(Path(f"/proc/{worker}/task/{worker}/children").read_text().split()[0])


def rows_of(dice, count) -> bytes:
    return b"".join(b'%d,"%b",%d\n' % (dice.randrange(5_000), dice.choice([b"Oslo", b"Bergen, west", b"a\nb"]), dice.randrange(100)) for _ in range(count))


@unittest.skipIf(python() is None, "aiohttp is not installed: the server is not tested")
class Workers(unittest.TestCase):
    def test_answers_are_those_of_a_server_without_workers(self) -> None:
        dice = random.Random(1)
        bodies = [rows_of(dice, count) for count in (1, 3_000, 20_000, 7)]
        answers = []
        for words in ((), ("--workers", 1), ("--workers", 4)):
            with server(*words, script=TABLE + b"index by_qty on qty\nbuild by_qty 1\n") as found:
                some = [found.ask("POST", "/rows", body)[::2] for body in bodies]
                some.append(found.ask("POST", "/upserts?add=qty", b"1,5\n2,5\n")[::2])
                some.append(found.ask("POST", "/rows", b"1,Oslo,x\n")[::2])
                some.append(found.ask("POST", "/run", b"get 1\nget x\nscan by_city\nto P\ngo\nimage by_qty\n")[::2])
                some.append(found.ask("DELETE", "/rows/by_city?from=Oslo")[::2])
                for path in ("/rows/primary", "/rows/by_qty?limit=9&newest_first=1", "/sums/by_city?of=qty", "/row?key=1", "/row?key=9999999", "/trees"):
                    some.append(found.ask("GET", path)[::2])
                answers.append(some)
        self.assertEqual([one[0] for one in answers[0]], [200] * 5 + [422] + [200] * 6 + [404, 200])
        self.assertEqual((answers[1], answers[2]), (answers[0], answers[0]))

    def test_the_table_is_in_a_process_of_that_many_threads(self) -> None:
        dice = random.Random(2)
        for workers in (1, 3):
            with server("--workers", workers) as found:
                process, most = table_process(found), 0
                self.assertEqual(Path(f"/proc/{process}/exe").resolve(), program().resolve())
                self.assertEqual(found.metric("betable_table_process_resident_memory_bytes") > 0, True)
                body = rows_of(dice, 60_000)
                asked = process_of_requests(found, body)
                while asked.poll() is None:
                    most = max(most, threads_of(process))
                    time.sleep(0.0002)
                self.assertEqual((asked.returncode, most in ((1,) if workers == 1 else (workers, workers + 1))), (0, True), most)
                self.assertGreater(memory_of(process, "VmHWM"), 4 << 10)

    def test_a_killed_table_is_made_again_from_the_file_and_the_request_is_answered(self) -> None:
        """Its rows, and requests that run once, are those that were answered before. The worker goes on, and standard error tells the end."""
        with server("--workers", 2) as found:
            for number in range(3):
                found.run(adds(1), Idempotency_Key=f"a{number}")
                killed = table_process(found)
                os.kill(killed, signal.SIGKILL)
                self.assertEqual(found.run(adds(2), Idempotency_Key=f"b{number}"), b"batch 1 by_city:1\n")
                self.assertEqual(found.run(adds(2), Idempotency_Key=f"b{number}"), b"batch 1 by_city:1\n")
                self.assertNotEqual(table_process(found), killed)
            os.kill(table_process(found), signal.SIGKILL)
            self.assertEqual(quantities(found), {1: 3, 2: 3})
            self.assertEqual(found.metric("betable_engine_starts"), 1)
            line = "betable serve: the engine ended by the signal SIGKILL: the table is opened again from the file"
            self.assertEqual(found.printed().splitlines(), [line] * 4)

    def test_what_ran_when_the_table_was_killed_is_run_again_if_that_is_safe(self) -> None:
        """A read, and a request with an id. Another one may have been kept: it gets 503, and readers of events are told of a start with another number."""
        with server("--workers", 2) as found, ThreadPoolExecutor(1) as pool, events_of(self, found) as lines:
            found.run(adds(1))
            sent = (
                ("GET", "/row?key=1", None, {}, 200), ("POST", "/run", adds(2), {"Idempotency-Key": "a"}, 200), ("POST", "/run", adds(3), {}, 503),
                ("POST", "/rows", b'4,"a\nb",1\n', {"Idempotency-Key": "b"}, 200), ("POST", "/rows", b'5,"a\nb",1\n', {}, 503),
                ("DELETE", "/rows/primary?from=9", None, {}, 503),
            )  # fmt: skip
            for method, path, body, headers, status in sent:
                process = table_process(found)
                os.kill(process, signal.SIGSTOP)
                asked = pool.submit(found.ask, method, path, body, headers)
                found.await_metric("betable_queued_scripts", 1)
                until(lambda: " S " in Path(f"/proc/{found.engine()}/stat").read_text())
                os.kill(process, signal.SIGKILL)
                self.assertEqual((method, path, asked.result()[0]), (method, path, status))
            self.assertEqual({key: quantity for key, quantity in quantities(found).items() if key not in (3, 5)}, {1: 1, 2: 1, 4: 1})
            self.assertEqual(found.metric("betable_engine_starts"), 1)
            self.assertEqual(found.ask("POST", "/run", adds(2), {"Idempotency-Key": "a"})[0], 200)
            self.assertEqual(quantities(found)[2], 1)
            self.assertEqual(found.end(), 0)
            events = " ".join(line for line in lines if not line.startswith("data: "))
            self.assertEqual(events.replace(" event: start", "!"), "id: 1! id: 2 id: 3 id: 4! id: 5 id: 6! id: 7! id: 8")

    def test_checkpoints_are_written_by_the_engine_alone(self) -> None:
        with server("--workers", 2) as found:
            body = b"".join(b"%d,%b,1\n" % (key % 1_000, b"x" * 250) for key in range(60_000))
            for _ in range(2):
                self.assertEqual(found.ask("POST", "/rows", body)[0], 200)
            self.assertEqual(found.run(b"get 1000\n"), b"none\n")
            self.assertLess(found.metric("betable_file_bytes"), 1_000_000)
            status, _, said = found.ask("POST", "/checkpoint")
            self.assertEqual((status, "the engine writes checkpoints by itself" in json.loads(said)["reason"]), (409, True))
            self.assertEqual(found.run(b"get 999\n"), b"row 999,%b,1\n" % (b"x" * 250))

    def test_backups_are_the_table_and_are_checked(self) -> None:
        with tempfile.TemporaryDirectory() as folder, server("--workers", 2, "--backup-folder", folder) as found:
            found.run(adds(1), Idempotency_Key="a")
            said = json.loads(found.ask("POST", "/backup?name=stock.table")[2])
            self.assertEqual((said["path"], said["number"], os.listdir(folder)), (f"{folder}/stock.table", 2, ["stock.table"]))
            found.run(adds(1))
            for words in ((), ("--workers", 1)):
                with server_in(folder, *words) as backup:
                    self.assertEqual(backup.run(adds(1), Idempotency_Key="a"), b"batch 1 by_city:1\n")
                    self.assertEqual((quantities(backup), quantities(found)), ({1: 1}, {1: 2}))

    def test_what_no_engine_opens_is_told_as_without_workers(self) -> None:
        with tempfile.TemporaryDirectory() as folder:
            other, taken = Path(folder) / "other.table", Path(folder) / "stock.table"
            other.write_bytes(b"SQLite format 3\0" + bytes(99))
            with server_in(folder):
                for path in (other, taken):
                    errors = {process_of(path, *words).communicate()[1] for words in ((), ("--workers", "2"))}
                    self.assertEqual(len(errors), 1, errors)
                    self.assertIn(str(path), errors.pop())

    def test_a_worker_that_is_killed_ends_its_table_and_another_one_has_the_rows(self) -> None:
        with server("--workers", 2) as found:
            found.run(adds(1))
            process = table_process(found)
            os.kill(found.engine(), signal.SIGKILL)
            until(lambda: has_ended(process))
            until(lambda: found.metric("betable_engine_starts") == 2 and found.ask("GET", "/healthz")[0] == 200)
            found.run(adds(1))
            self.assertEqual((quantities(found), table_process(found) != process), ({1: 2}, True))

    def test_a_worker_waits_for_the_table_of_the_one_before_it(self) -> None:
        """Which has the file until the end of its request. Here this process has it."""
        with server("--workers", 2) as found, found.path.open("rb") as file:
            found.run(adds(1))
            os.kill(found.engine(), signal.SIGKILL)
            fcntl.flock(file, fcntl.LOCK_EX)
            until(lambda: found.metric("betable_engine_starts") == 2)
            time.sleep(1)
            self.assertEqual(found.ask("GET", "/healthz")[0], 503)
            file.close()
            until(lambda: found.ask("GET", "/healthz")[0] == 200)
            self.assertEqual((quantities(found), found.metric("betable_engine_starts")), ({1: 1}, 2))

    def test_a_server_that_ends_leaves_no_process(self) -> None:
        for number in (signal.SIGTERM, signal.SIGKILL):
            with server("--workers", 2) as found:
                found.run(adds(1))
                process = table_process(found)
                self.assertEqual(found.end(number), 0 if number == signal.SIGTERM else -number)
                until(lambda: has_ended(process))

    def test_a_table_may_be_served_with_other_numbers_of_workers(self) -> None:
        with tempfile.TemporaryDirectory() as folder:
            for number, words in enumerate(((), ("--workers", 4), ("--workers", 1), ())):
                with server_in(folder, *words) as found:
                    if number == 0:
                        found.run(TABLE)
                    found.run(adds(1))
                    self.assertEqual((quantities(found), found.end()), ({1: number + 1}, 0))

    def test_a_wrong_number_of_workers_is_refused(self) -> None:
        for words in ("0", "65", "x"):
            process = process_of("unused.table", "--workers", words)
            errors = process.communicate()[1]
            self.assertEqual((process.returncode, "--workers" in errors), (2, True))


def process_of_requests(found, body):
    """A process that sends these rows four times, and ends with status 0 if all were put."""
    code = (
        "import sys\nfrom http.client import HTTPConnection\nbody = sys.stdin.buffer.read()\nfor _ in range(4):\n"
        f"    connection = HTTPConnection('127.0.0.1', {found.port})\n    connection.request('POST', '/rows', body)\n"
        "    assert connection.getresponse().status == 200\n"
    )
    process = subprocess.Popen([sys.executable, "-c", code], stdin=subprocess.PIPE)
    process.stdin.write(body)
    process.stdin.close()
    return process

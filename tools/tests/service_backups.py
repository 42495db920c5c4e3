"""Tests of the backups that the server writes while it runs: what they have, what refuses them, and that nothing half is left if one fails."""

import json
import os
import re
import resource
import signal
import tempfile
import time
import unittest
from concurrent.futures import Future, ThreadPoolExecutor
from contextlib import contextmanager, suppress
from pathlib import Path
from typing import Any, Iterator

from .clients import betable, library
from .durable import durable
from .service import adds, python, quantities, server, server_in, until


def setUpModule() -> None:
    library()
    betable()


def checkers(found: Any) -> list[int]:
    """The processes of a server that open a backup."""
    processes = Path(f"/proc/{found.process.pid}/task/{found.process.pid}/children").read_text().split()
    running = []
    for process in processes:
        with suppress(OSError):
            if b"import check" in Path(f"/proc/{process}/cmdline").read_bytes():
                running.append(int(process))
    return running


@unittest.skipIf(python() is None, "aiohttp is not installed: the server is not tested")
class Backups(unittest.TestCase):
    def setUp(self) -> None:
        self.folder = Path(self.enterContext(tempfile.TemporaryDirectory()))

    def backup(self, found: Any, words: str = "") -> tuple[int, Any]:
        status, _, body = found.ask("POST", f"/backup{words}")
        return status, json.loads(body)

    def files(self) -> list[str]:
        return sorted(os.listdir(self.folder))

    def rows_of(self, path: str) -> dict[int, int]:
        with durable().open(path) as table:
            return {key: quantity for key, _, quantity in table.scan()}

    @contextmanager
    def stopped_check(self, found: Any, words: str = "") -> Iterator[tuple[int, "Future[tuple[int, Any]]"]]:
        """The process that opens a backup, before it does so, and the answer to come. It goes on at the end."""
        with ThreadPoolExecutor(1) as pool:
            asked = pool.submit(self.backup, found, words)
            until(lambda: checkers(found) or asked.done())
            (process,) = checkers(found)
            os.kill(process, signal.SIGSTOP)
            try:
                yield process, asked
            finally:
                with suppress(ProcessLookupError):
                    os.kill(process, signal.SIGCONT)

    def test_a_backup_is_the_table_at_its_number(self) -> None:
        with server("--backup-folder", self.folder) as found:
            found.run(adds(1))
            found.run(b"batch\nups 2,add,qty,1\nend\n", Idempotency_Key="a")
            before = time.time()
            status, first = self.backup(found)
            self.assertEqual((status, first["number"], found.metric("betable_kept_scripts")), (200, 3, 3))
            path = Path(first["path"])
            self.assertRegex(path.name, r"^stock-20\d{6}T\d{6}Z-3\.table$")
            self.assertEqual((path.parent, path.stat().st_size, self.files()), (self.folder, first["bytes"], [path.name]))
            self.assertGreater(found.metric("betable_backup_time"), before - 1)
            self.assertGreater(found.metric("betable_backup_seconds"), 0)
            found.run(adds(1))
            # After a checkpoint, and not opened.
            found.ask("POST", "/checkpoint")
            for words in ("?name=b-1_2.table", "?name=c&check=0"):
                status, other = self.backup(found, words)
                self.assertEqual((status, other["number"], Path(other["path"]).name), (200, 4, words[6:].partition("&")[0]))
                self.assertEqual(self.rows_of(other["path"]), {1: 2, 2: 1})
            self.assertEqual(quantities(found), {1: 2, 2: 1})
        self.assertEqual(self.rows_of(first["path"]), {1: 1, 2: 1})
        # It has the ids of requests, and is served like any table.
        path.rename(self.folder / "stock.table")
        with server_in(self.folder) as found:
            self.assertEqual(found.run(b"batch\nups 2,add,qty,1\nend\n", Idempotency_Key="a"), b"batch 1 by_city:1\n")
            self.assertEqual(quantities(found), {1: 1, 2: 1})

    def test_a_backup_without_a_folder_is_refused(self) -> None:
        with server() as found:
            status, said = self.backup(found)
            self.assertEqual((status, said["reason"]), (403, "this server writes no backups: start it with --backup-folder DIR"))
        for folder in (self.folder / "none", Path(__file__)):
            with self.assertRaisesRegex(RuntimeError, "no folder that backups can be written into"):
                with server_in(self.folder, "--backup-folder", folder):
                    pass

    def test_names_are_those_of_new_files_in_the_folder(self) -> None:
        (self.folder / "taken").write_text("x")
        with server("--backup-folder", self.folder) as found:
            before = self.files()
            for name in ("", "../x", "a/b", "a%2Fb", ".x", "-x", "x.new", "x.part", "x.unchecked", "x%0A", "x%20y", "%C3%B8", "x" * 101, "x%00"):
                status, said = self.backup(found, f"?name={name}")
                self.assertEqual((name, status), (name, 400))
                self.assertIn("'name' is that of a file in the folder of backups", said["reason"])
            for words in ("?check=2", "?names=x"):
                self.assertEqual(self.backup(found, words)[0], 400)
            status, said = self.backup(found, "?name=taken")
            self.assertEqual((status, "is there already: a backup is written to a new file" in said["reason"]), (409, True))
            self.assertEqual((self.files(), found.metric("betable_failed_backups_total"), found.metric("betable_backup_time")), (before, 0, 0))

    def test_a_server_that_only_reads_writes_backups(self) -> None:
        with tempfile.TemporaryDirectory() as folder:
            with server_in(folder) as found:
                found.run(b"table 4 8 4 1 id:int city:text qty:int\n")
                found.run(adds(5))
            with server_in(folder, "--read-only", "--backup-folder", self.folder) as found:
                status, said = self.backup(found)
                self.assertEqual((status, self.rows_of(said["path"])), (200, {5: 1}))

    def test_requests_are_answered_while_a_backup_is_opened(self) -> None:
        with server("--backup-folder", self.folder) as found:
            with self.stopped_check(found) as (process, asked):
                self.assertEqual(found.run(adds(7)), b"batch 1 by_city:1\n")
                # No file has the name of a backup before it was opened.
                self.assertEqual([name for name in self.files() if not name.startswith("stock.table.unchecked")], [])
                status, said = self.backup(found)
                self.assertEqual((status, said["reason"]), (409, "a backup is being written: wait until it is done"))
                # A name that is taken meanwhile.
                (self.folder / "x").write_text("x")
            self.assertEqual((asked.result()[0], asked.result()[1]["number"]), (200, 1))
            self.assertEqual(self.rows_of(asked.result()[1]["path"]), {})
            with self.stopped_check(found, "?name=late") as (process, asked):
                (self.folder / "late").write_text("mine")
            self.assertEqual((asked.result()[0], (self.folder / "late").read_text()), (409, "mine"))
            self.assertEqual([name for name in self.files() if "unchecked" in name], [])

    def test_a_backup_that_cannot_be_opened_is_not_left(self) -> None:
        def damage(part: Path) -> None:
            data = part.read_bytes()
            part.write_bytes(data[:100] + bytes(byte ^ 255 for byte in data[100:110]) + data[110:])

        def another(part: Path) -> None:
            part.unlink()
            with durable().open(part) as table:
                table.table("id:int")

        def cut_off(part: Path) -> None:
            """Without the last group."""
            data, ends = part.read_bytes(), [40]
            while size := int.from_bytes(data[ends[-1] : ends[-1] + 8], "little"):
                ends.append(ends[-1] + size)
            part.write_bytes(data[: ends[-2]])

        with server("--backup-folder", self.folder) as found:
            found.run(adds(1))
            cut = "it has another table: primary: 0 rows, 0 messages, height 1; by_city: 0 rows, 0 messages, height 1, and not primary: 1 row, "
            cases = [
                (500, "could not be opened", damage), (500, "it has another table: primary: 0 rows", another), (500, "no table, and not primary: 1", os.remove),
                (500, cut, cut_off),
            ]  # fmt: skip
            for count, (status, part_of_reason, spoil) in enumerate(cases, 1):
                with self.stopped_check(found) as (process, asked):
                    spoil(self.folder / "stock.table.unchecked")
                found_status, said = asked.result()
                self.assertEqual((found_status, self.files()), (status, []))
                self.assertIn(part_of_reason, said["reason"])
                self.assertEqual((found.metric("betable_failed_backups_total"), found.metric("betable_backup_time")), (count, 0))
            # Its process was ended, as when memory runs out.
            with self.stopped_check(found) as (process, asked):
                os.kill(process, signal.SIGKILL)
            self.assertEqual((asked.result()[0], self.files()), (507, []))
            self.assertIn("there was no memory to open it", asked.result()[1]["reason"])
            # Changes do not fail, and a later backup is written.
            self.assertEqual(found.ask("GET", "/healthz")[0], 200)
            self.assertEqual((self.backup(found)[0], found.metric("betable_failed_backups_total")), (200, 5))
            self.assertEqual(len(re.findall("no backup was written", found.printed())), 5)

    def test_a_full_disk_and_a_worker_that_ends_leave_nothing(self) -> None:
        with server("--backup-folder", self.folder) as found:
            found.run(adds(1))
            body = b"".join(b"%d,%b,1\n" % (key, b"x" * 200) for key in range(10, 5_000))
            self.assertEqual(found.ask("POST", "/rows", body)[0], 200)
            resource.prlimit(found.engine(), resource.RLIMIT_FSIZE, (100_000, resource.RLIM_INFINITY))
            status, said = self.backup(found)
            self.assertEqual((status, self.files()), (507, []))
            self.assertIn("no backup was written", said["reason"])
            resource.prlimit(found.engine(), resource.RLIMIT_FSIZE, (resource.RLIM_INFINITY, resource.RLIM_INFINITY))
            self.assertEqual((found.ask("GET", "/healthz")[0], found.run(adds(2))), (200, b"batch 1 by_city:1\n"))
            with found.stopped_engine() as engine, ThreadPoolExecutor(1) as pool:
                asked = pool.submit(self.backup, found)
                found.await_metric("betable_queued_scripts", 1)
                (self.folder / "stock.table.unchecked.part").write_text("half")
                os.kill(engine, signal.SIGKILL)
                self.assertEqual((asked.result()[0], self.files()), (503, []))
            until(lambda: found.metric("betable_engine_starts") == 2 and found.ask("GET", "/healthz")[0] == 200)
            # What a server that was killed has left is gone with the next one.
            (self.folder / "stock.table.unchecked").write_text("half")
            status, said = self.backup(found)
            self.assertEqual((status, self.files()), (200, [Path(said["path"]).name]))
            self.assertEqual(self.rows_of(said["path"]).keys(), quantities(found).keys())

    def test_a_server_that_is_ended_leaves_nothing(self) -> None:
        with server("--backup-folder", self.folder, "--client-seconds", 1) as found:
            with ThreadPoolExecutor(1) as pool:
                asked = pool.submit(self.backup, found)
                until(lambda: checkers(found) or asked.done())
                (process,) = checkers(found)
                os.kill(process, signal.SIGSTOP)
                self.assertEqual((found.end(), self.files()), (0, []))
                self.assertFalse(Path(f"/proc/{process}").exists())
                with suppress(OSError):
                    asked.result()


if __name__ == "__main__":
    unittest.main()

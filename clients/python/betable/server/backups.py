"""Backups that the server writes into a folder. The worker copies the table to a file whose name no backup has, another process opens that file to check it,
and then the file gets its name. So a file with the name of a backup is one that was opened.

`Backups` is the server's side, and `check` the process that opens a backup, which has the memory of a second table meanwhile.
"""

from __future__ import annotations

import asyncio
import ctypes
import os
import re
import signal
import sys
import time
from contextlib import suppress
from pathlib import Path
from typing import NamedTuple

from ..durable.table import open as open_table, sync_path
from ..errors import Corrupt
from .engine import PR_SET_PDEATHSIG, Closed, Engine, Lost, Work, contents_of, package_environment
from .requests import Problem

NAME = re.compile(r"[A-Za-z0-9_][A-Za-z0-9_.-]{0,99}")
# The ends of the names of what is written beside a table by a checkpoint, and of backups that are not done.
ENDS_BESIDE = (".new", ".part", ".unchecked")
CHECK = "import sys; from betable.server.backups import check; sys.exit(check())"
NICENESS = 10  # of the process that checks, so that it takes no time from requests
FAILED_CHECK, NO_MEMORY = 1, 3


class Backup(NamedTuple):
    """A backup that was written: its path, its bytes, and the number of the last script in it."""

    path: str
    bytes: int
    number: int


class Backups:
    """The backups of the table of a server in a folder, one at a time. `time` is when the last one was done, or 0, and `seconds` how long it took."""

    def __init__(self, folder: Path | None, table: str) -> None:
        self.folder, self._table = folder, Path(table)
        self.time, self.seconds = 0.0, 0.0
        self._is_writing = False

    async def write(self, engine: Engine, name: str | None, is_checked: bool) -> Backup:
        """Writes a backup under this name, or one of the time and the number of the last script. If it fails, nothing of it is left."""
        folder = self.folder
        if folder is None:
            raise Problem(403, "this server writes no backups: start it with --backup-folder DIR")
        if name is not None:
            _expect_free(folder, name)
        if self._is_writing:
            raise Problem(409, "a backup is being written: wait until it is done", {"Retry-After": "10"})
        self._is_writing, begin = True, time.monotonic()
        part = folder / f"{self._table.name}.unchecked"
        try:
            # What a server that was killed has left.
            _remove(part)
            done = await self._written(engine, part, name, is_checked)
        except OSError as fault:
            raise Problem(507, f"no backup was written: {fault.strerror or fault}") from None
        except (Lost, Closed):
            raise Problem(503, "no backup was written: the worker ended, or is starting", {"Retry-After": "1"}) from None
        finally:
            self._is_writing = False
            _remove(part)
        self.time, self.seconds = time.time(), time.monotonic() - begin
        return done

    async def _written(self, engine: Engine, part: Path, name: str | None, is_checked: bool) -> Backup:
        answer = await engine.run(Work(None, backup=str(part)))
        number = answer.number
        if is_checked:
            await _check(part, answer.replies.decode())
        name = name or f"{self._table.stem}-{time.strftime('%Y%m%dT%H%M%SZ', time.gmtime())}-{number}{self._table.suffix}"
        path = part.with_name(name)
        _expect_free(part.parent, name)
        try:
            os.link(part, path)  # which takes the place of no file
        except FileExistsError:
            _expect_free(part.parent, name)
        except OSError:
            os.rename(part, path)  # where a file has one name
        sync_path(str(part.parent))
        return Backup(str(path), path.stat().st_size, number)


def checked_name(name: str) -> str:
    """A name of a file, without a folder."""
    if not NAME.fullmatch(name) or name.endswith(ENDS_BESIDE):
        rule = f"1 to 100 letters, digits, '_', '-' and '.', begins with none of the last two, and does not end with {', '.join(ENDS_BESIDE)}"
        raise Problem(400, f"'name' is that of a file in the folder of backups: it has {rule}")
    return name


def _expect_free(folder: Path, name: str) -> None:
    if os.path.lexists(folder / name):
        raise Problem(409, f"{folder / name} is there already: a backup is written to a new file")


def _remove(part: Path) -> None:
    for end in ("", ".new", ".part"):
        with suppress(OSError):
            os.remove(f"{part}{end}")


async def _check(path: Path, contents: str) -> None:
    """Opens a backup in another process, where it has to have the same contents."""
    process = await asyncio.create_subprocess_exec(
        sys.executable, "-P", "-c", CHECK, path, str(os.getpid()), stdout=asyncio.subprocess.PIPE, env=package_environment()
    )  # fmt: skip
    try:
        said, _ = await process.communicate()
    except BaseException:
        with suppress(ProcessLookupError):
            process.kill()
        await process.wait()
        raise
    status = process.returncode
    if status not in (0, FAILED_CHECK):
        raise Problem(507, "no backup was written: there was no memory to open it. With check=0 it is not opened")
    found = said.decode(errors="replace").strip()
    if status == FAILED_CHECK:
        raise Problem(500, f"no backup was written, since it could not be opened: {found}")
    if found != contents:
        raise Problem(500, f"no backup was written, since it has another table: {found}, and not {contents}")


def check() -> int:
    """Opens the table of a file, and prints what its trees hold, or why it cannot be opened."""
    path, parent = sys.argv[1:]
    os.nice(NICENESS)
    ctypes.CDLL(None).prctl(PR_SET_PDEATHSIG, signal.SIGKILL)
    if os.getppid() != int(parent):
        return FAILED_CHECK
    with suppress(OSError):
        # If memory runs out, this process is to end first.
        Path("/proc/self/oom_score_adj").write_text("1000")
    status = 0
    try:
        with open_table(path) as table:
            said = contents_of(table)
    except MemoryError:
        return NO_MEMORY
    except Exception as fault:
        status, said = FAILED_CHECK, fault.reason if isinstance(fault, Corrupt) else str(fault)
    sync_path(path)
    print(said)
    return status

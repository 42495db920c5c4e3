"""Histories of a durable table under faults: the process is killed, the power is lost, operations on files fail.

What is in this module runs in a process into which faults.c is preloaded: `main` starts it so. Each history runs in a fork of it, on files below a folder of
its own. Each check counts what it has looked at and what was wrong, with the first faults in words.
"""

from __future__ import annotations

import ctypes
import errno
import os
import random
import shutil
import signal
import subprocess
import sys
import tempfile
from collections.abc import Callable, Iterator
from itertools import chain, combinations
from pathlib import Path
from typing import Any, NamedTuple

from history import PROBE, Backup, Once, Step, expected

from betable import durable

HERE = Path(__file__).resolve().parent
NOTHING, HALF, ALL_BUT_A_BYTE, WHOLE = range(4)
SECTOR = 512
IN_DOUBT, FAILED = -1, -2  # notes that a step may be kept or not, and that a call failed
MOST_FAILURES = 100  # of the calls of a client that goes on
MOST_SUBSETS = 10  # for at most this many writes that are not synced, all subsets of them are checked


class Operation(NamedTuple):
    """An operation of a trace, by its letter."""

    letter: str
    path: str
    offset: int
    data: bytes


class Count:
    """What a check has looked at."""

    def __init__(self, name: str) -> None:
        self.name, self.looks, self.wrong, self.ahead, self.faults, self.doubts = name, 0, 0, 0, 0, 0
        self.reasons: list[str] = []

    def look(self, what: str, check: Callable[[], int | None]) -> None:
        """One look. The check gives how many steps more than those answered were there, or an exception that says what is wrong."""
        self.looks += 1
        try:
            self.ahead += check() or 0
        except Exception as fault:
            self.wrong += 1
            if len(self.reasons) < 5:
                self.reasons.append(f"{what}: {type(fault).__name__}: {fault}")

    def __str__(self) -> str:
        parts = [f"{self.name}: {self.looks:,} looked at", f"{self.wrong:,} wrong"]
        parts += [f"{self.ahead:,} kept though not answered"] if self.ahead else []
        parts += [f"{self.faults:,} calls failed, {self.doubts:,} of them in doubt"] if self.faults else []
        return "\n".join([", ".join(parts), *self.reasons])


class Wrong(Exception):
    """A table is not what it has to be."""


# ---- a history in a fork ----


def library() -> Any:
    """The functions of faults.c in this process."""
    return ctypes.CDLL(None)


def status_of_fork(work: Callable[[], None], folder: str, *, has_bytes: bool = False, kill_at: int = -1, fails: tuple[int, int] = (-1, -1),
           part: int = WHOLE, fault: int = errno.ENOSPC, files: dict[str, bytes] = {}) -> int:  # fmt: skip
    """The status of a fork that did a work on files below a folder, which has only those given at first, with a trace beside the folder."""
    put_files(folder, files)
    child = os.fork()
    if child == 0:
        status = 1
        try:
            signal.alarm(100)
            library().faults_begin(folder.encode(), f"{folder}.trace".encode(), has_bytes, ctypes.c_long(kill_at), *map(ctypes.c_long, fails), part, fault)
            work()
            status = 0
        except Exception as failed:
            Path(f"{folder}.fault").write_text(f"{type(failed).__name__}: {failed}")
        finally:
            os._exit(status)
    return os.waitstatus_to_exitcode(os.waitpid(child, 0)[1])


def put_files(folder: str, files: dict[str, bytes]) -> None:
    """A folder with just these files."""
    shutil.rmtree(folder, ignore_errors=True)
    os.makedirs(folder)
    for name, data in files.items():
        Path(folder, name).write_bytes(data)


def trace_of(folder: str) -> list[Operation]:
    data, at, found = Path(f"{folder}.trace").read_bytes(), 0, []
    while at < len(data):
        ends = [data.index(b"\0", at)]
        for _ in range(2):
            ends.append(data.index(b"\0", ends[-1] + 1))
        path, offset, length = data[at + 1 : ends[0]].decode(), int(data[ends[0] + 1 : ends[1]]), int(data[ends[1] + 1 : ends[2]])
        found.append(Operation(chr(data[at]), path, offset, data[ends[2] + 1 : ends[2] + 1 + length]))
        at = ends[2] + 1 + length
    return found


def answered_steps(trace: list[Operation]) -> int:
    """How many steps were answered."""
    return max([0, *(operation.offset for operation in trace if operation.letter == "n")])


def table_of(folder: str) -> durable.Durable:
    return durable.open(f"{folder}/table")


def go(folder: str, steps: list[Step]) -> None:
    """A client: its steps, each noted when it is answered. Half way it closes the table and opens it again."""
    middle = len(steps) // 2
    for first, last in ((0, middle), (middle, len(steps))):
        with table_of(folder) as table:
            for number in range(first, last):
                steps[number].make(table, number)
                library().faults_note(ctypes.c_long(number + 1))


def go_before_answers(folder: str, steps: list[Step]) -> None:
    """A control: a client that takes steps for answered before they are kept."""
    with table_of(folder) as table, table.group():
        for number, step in enumerate(steps):
            if isinstance(step, Once):
                step.make(table, number)
                library().faults_note(ctypes.c_long(number + 1))


def state_of(table: Any, want: list[bytes], least: int, most: int) -> int:
    """After how many steps the table is as it is found."""
    found = table.replies(PROBE)
    for state in range(least, min(most + 1, len(want))):
        if found == want[state]:
            return state
    states = [state for state, probe in enumerate(want) if probe == found]
    raise Wrong(f"{least} steps were answered, and the table is that after {states or 'none of them'}")


def check_after_crash(folder: str, steps: list[Step], want: list[bytes], least: int, most: int) -> int:
    """Checks that the table has what was answered and no half of a step, goes on with the steps that were not answered, and checks the end. Gives how many
    steps more than the answered ones were there."""
    with table_of(folder) as table:
        state = state_of(table, want, least, most)
        for number in range(least, len(steps)):
            # A step that is made by `once` is sent again because there was no reply, even if it was kept.
            if number >= state or steps[number].is_repeatable:
                steps[number].make(table, number)
        state_of(table, want, len(steps), len(steps))
    with table_of(folder) as table:
        state_of(table, want, len(steps), len(steps))
    check_backup(folder, steps, want)
    return state - least


def check_backup(folder: str, steps: list[Step], want: list[bytes]) -> None:
    for number, step in enumerate(steps):
        if isinstance(step, Backup):
            with durable.open(f"{folder}/backup") as table:
                state_of(table, want, number, number + 1)


# ---- the checks ----


def kills(folder: str, steps: list[Step], *, every: int = 1, parts: tuple[int, ...] = (HALF, ALL_BUT_A_BYTE, WHOLE), is_control: bool = False) -> Count:
    """The process is killed at each operation, after a part of it is carried out."""
    want, count = list(expected(steps)), Count("control of kills" if is_control else "killed")
    work = (lambda: go_before_answers(folder, steps)) if is_control else (lambda: go(folder, steps))
    if status_of_fork(work, folder) != 0:
        raise Wrong("the history does not go through")
    operations = [operation for operation in trace_of(folder) if operation.letter != "n"]
    for part in parts:
        for number in range(part % every, len(operations), every):
            if status_of_fork(work, folder, kill_at=number, part=part) != -signal.SIGKILL:
                raise Wrong(f"operation {number} was not come to")
            done = answered_steps(trace_of(folder))
            count.look(f"killed at operation {number}, part {part}", lambda: check_after_crash(folder, steps, want, done, done + 1))
    return count


def power_losses(folder: str, steps: list[Step], *, subsets: int = MOST_SUBSETS, mixes: int = 2, is_control: bool = False, seed: int = 1) -> Count:
    """The power is lost: of what was not synced each subset is on disk, and some with writes of which sectors are there, old, or zeros. The control is a
    process that syncs nothing."""
    want, count, dice = list(expected(steps)), Count("control of power lost" if is_control else "power lost"), random.Random(seed)
    if status_of_fork(lambda: go(folder, steps), folder, has_bytes=True) != 0:
        raise Wrong("the history does not go through")
    trace = [operation for operation in trace_of(folder) if not is_control or operation.letter != "s"]
    seen = set()
    for what, found, done in disks(folder, trace, dice, subsets, mixes):
        key = done, frozenset(found.items())
        if key not in seen:
            seen.add(key)
            count.look(what, lambda: check_on_disk(found, folder, steps, want, done, done + 1))
    return count


def check_on_disk(files: dict[str, bytes], folder: str, steps: list[Step], want: list[bytes], least: int, most: int) -> int:
    """Checks the table of files that a power loss has left."""
    place = f"{folder}.disk"
    put_files(place, files)
    with table_of(place) as table:
        state = state_of(table, want, least, most)
    if any(isinstance(step, Backup) for step in steps[:least]) or "backup" in files:
        check_backup(place, steps, want)
    return state - least


class Disk:
    """What is on a disk before a place of a trace: the files by number with what is synced, and of all else the operations that are not synced. What a sync that
    failed had to write is lost for good, or all of it is there."""

    def __init__(self, *, loses: bool = True) -> None:
        self.names: dict[str, int] = {}  # as they are synced
        self.current: dict[str, int] = {}  # as the process sees them
        self.files: list[bytes] = []
        self.loses = loses
        self.pending: list[tuple[int, Operation]] = []  # by number of the file, or -1 for names

    def take(self, operation: Operation, folder: str) -> None:
        letter, name = operation.letter, os.path.basename(operation.path)
        if letter == "f" and not self.loses:
            self.take(operation._replace(letter="s"), folder)
        elif letter == "f":
            # The data of a failed sync may be lost for good, because a kernel does not write it again. It writes names again.
            self.pending = [entry for entry in self.pending if operation.path == folder or entry[0] != self.current.get(name)]
        elif letter == "s" and operation.path == folder:
            for _, one in [entry for entry in self.pending if entry[0] < 0]:
                self._rename(self.names, one)
            self.pending = [entry for entry in self.pending if entry[0] >= 0]
        elif letter == "s":
            file = self.current[name]
            self.files[file] = self.data(file, [one for number, one in self.pending if number == file])
            self.pending = [entry for entry in self.pending if entry[0] != file]
        elif letter in "crm":
            if letter == "c":
                self.files.append(b"")
                operation = operation._replace(offset=len(self.files) - 1)
            self._rename(self.current, operation)
            self.pending.append((-1, operation))
        else:
            self.pending.append((self.current[name], operation))

    def _rename(self, names: dict[str, int], operation: Operation) -> None:
        name = os.path.basename(operation.path)
        if operation.letter == "c":
            names[name] = operation.offset
        elif operation.letter == "r":
            names.pop(name, None)
        elif name in names:
            names[os.path.basename(operation.data.decode())] = names.pop(name)

    def data(self, file: int, operations: list[Operation]) -> bytes:
        data = bytearray(self.files[file])
        for operation in operations:
            if operation.letter == "t":
                del data[operation.offset :]
                data.extend(bytes(operation.offset - len(data)))
            else:
                data.extend(bytes(max(0, operation.offset - len(data))))
                data[operation.offset : operation.offset + len(operation.data)] = operation.data
        return bytes(data)

    def found_files(self, there: list[tuple[int, Operation]]) -> dict[str, bytes]:
        """The files after a power loss, if of what is pending this is on disk."""
        names = dict(self.names)
        for _, operation in (entry for entry in there if entry[0] < 0):
            self._rename(names, operation)
        return {name: self.data(file, [one for number, one in there if number == file]) for name, file in names.items()}


def last_disks(folder: str, trace: list[Operation], dice: random.Random, manners: tuple[bool, ...] = (True, False)) -> Iterator[tuple[str, dict[str, bytes]]]:
    """Some of what may be on disk at the end of a trace, if a sync that fails loses what it had to write, and if it does not."""
    for loses in manners:
        disk = Disk(loses=loses)
        for operation in trace:
            if operation.letter != "n":
                disk.take(operation, folder)
        for subset in subsets_of(disk.pending, dice, 1):
            yield f"{len(subset)} of {len(disk.pending)} there, {'nothing' if loses else 'all'} of failed syncs", disk.found_files(subset)


def disks(folder: str, trace: list[Operation], dice: random.Random, most: int, mixes: int) -> Iterator[tuple[str, dict[str, bytes], int]]:
    """What may be on disk, for each place of a trace before a sync, and at its end: what it is, the files, and how many steps were answered."""
    disk, done = Disk(), 0
    for number, operation in enumerate([*trace, Operation("s", folder, 0, b"")]):
        if operation.letter == "n":
            done = operation.offset
            continue
        if operation.letter == "s":
            for subset in subsets_of(disk.pending, dice, most):
                yield f"operation {number}, {len(subset)} of {len(disk.pending)} there", disk.found_files(subset), done
            for _ in range(mixes if disk.pending else 0):
                yield f"operation {number}, sectors mixed", disk.found_files(mixed_sectors(disk.pending, dice)), done
        disk.take(operation, folder)


def subsets_of(pending: list[tuple[int, Operation]], dice: random.Random, most: int) -> Iterator[list[tuple[int, Operation]]]:
    """All subsets, or of many operations some: none, all, all but one, the first ones, and others at random. Of names the first ones are there, as file systems
    keep their order."""
    names = [entry for entry in pending if entry[0] < 0]
    size = len(pending)
    if size <= most:
        chosen: Any = chain.from_iterable(combinations(range(size), length) for length in range(size + 1))
    else:
        places = range(size)
        chosen = [(), tuple(places), *(tuple(place for place in places if place != left) for left in places), *(tuple(range(length)) for length in places)]
        chosen += [tuple(place for place in places if dice.random() < 0.5) for _ in range(1 << max(0, most - 2))]
    for places in chosen:
        subset = [pending[place] for place in places]
        found = [entry for entry in subset if entry[0] < 0]
        if found == names[: len(found)]:
            yield subset


def mixed_sectors(pending: list[tuple[int, Operation]], dice: random.Random) -> list[tuple[int, Operation]]:
    """Of each write some sectors, some zeros in place of sectors, or a first part. Of names the first ones."""
    kept = dice.randint(0, sum(file < 0 for file, _ in pending))
    found: list[tuple[int, Operation]] = []
    for file, operation in pending:
        if file < 0:
            kept -= 1
            if kept < 0:
                continue
        elif operation.letter == "w" and dice.random() < 0.7:
            if dice.random() < 0.3:
                found.append((file, operation._replace(data=operation.data[: dice.randrange(len(operation.data) + 1)])))
                continue
            for at in range(0, len(operation.data), SECTOR):
                sector, fate = operation.data[at : at + SECTOR], dice.random()
                if fate < 0.6:
                    found.append((file, operation._replace(offset=operation.offset + at, data=sector if fate < 0.45 else bytes(len(sector)))))
            continue
        found.append((file, operation))
    return found


def failures(folder: str, steps: list[Step], *, every: int = 1, lengths: tuple[int, ...] = (1, 3), is_control: bool = False) -> Count:
    """Each operation fails, and some after it: writes with ENOSPC or EIO, of which half may be carried out, and all others with EIO. A client makes each step
    again until it is answered, and loses its power at the end. Another one is killed as soon as a step has failed, and a third one loses its power there:
    nothing of that step may be found."""
    want, count, dice = list(expected(steps)), Count("control of faults" if is_control else "faults"), random.Random(1)
    if status_of_fork(lambda: go(folder, steps), folder) != 0:
        raise Wrong("the history does not go through")
    total = sum(operation.letter != "n" for operation in trace_of(folder))
    manners = [(NOTHING, errno.ENOSPC), (HALF, errno.ENOSPC), (WHOLE, errno.EIO)]
    for length in lengths:
        for number in range(length % every, total, every):
            part, fault = manners[number % len(manners)]
            words: dict[str, Any] = {"fails": (number, number + length - 1), "part": part, "fault": fault}
            status = status_of_fork(lambda: go_on(folder, steps, want, is_control), folder, has_bytes=True, **words)
            trace = trace_of(folder)
            count.faults, count.doubts = count.faults + note_count(trace, FAILED) + note_count(trace, IN_DOUBT), count.doubts + note_count(trace, IN_DOUBT)
            # After a sync that failed a table may be opened again with what the kernel shows, and the disk does not have (docs/DURABLE.md, InDoubt).
            for what, files in last_disks(folder, trace, dice, (False,) if note_count(trace, IN_DOUBT) else (True, False)):
                count.look(f"operation {number} failed and {what} at the end", lambda: check_on_disk(files, folder, steps, want, len(steps), len(steps)))
            count.look(f"operations {number} to {number + length - 1} fail", lambda: check_at_end(folder, steps, want, status))
            if not is_control:
                status_of_fork(lambda: stop(folder, steps), folder, has_bytes=True, **words)
                trace = trace_of(folder)
                done = answered_steps(trace)
                most = done + note_count(trace, IN_DOUBT)
                for what, files in last_disks(folder, trace, dice):
                    count.look(f"operation {number} failed, {what}", lambda: check_on_disk(files, folder, steps, want, done, most))
                count.look(f"killed when operation {number} failed", lambda: check_after_crash(folder, steps, want, done, most))
    return count


def note_count(trace: list[Operation], note: int) -> int:
    return sum(operation.letter == "n" and operation.offset == note for operation in trace)


def check_at_end(folder: str, steps: list[Step], want: list[bytes], status: int) -> int:
    if status != 0:
        raise Wrong(f"the client ended with status {status}: {Path(f'{folder}.fault').read_text() if status == 1 else ''}")
    return check_after_crash(folder, steps, want, len(steps), len(steps))


def go_on(folder: str, steps: list[Step], want: list[bytes], is_control: bool) -> None:
    """A client that makes each step again until it is answered."""
    note = library().faults_note
    table, number = None, 0
    for _ in range(len(steps) + MOST_FAILURES):
        if number == len(steps):
            break
        try:
            if table is None:
                table = table_of(folder)
                if is_control:
                    setattr(table._bytes, "_roll_back", lambda: True)
                # In doubt, the table shows whether the step was kept. A step that was made by `once` is sent again.
                if not steps[number].is_repeatable and table.replies(PROBE) == want[number + 1]:
                    number += 1
                    continue
            steps[number].make(table, number)
            number += 1
        except durable.InDoubt:
            note(ctypes.c_long(IN_DOUBT))
            table = None
        except (durable.RolledBack, OSError):
            # No fault of another name may occur.
            note(ctypes.c_long(FAILED))
    if table is not None:
        state_of(table, want, len(steps), len(steps))
        table.close()


def stop(folder: str, steps: list[Step]) -> None:
    """A client that is gone as soon as a step has failed."""
    try:
        go(folder, steps)
    except durable.InDoubt:
        library().faults_note(ctypes.c_long(IN_DOUBT))
        os.kill(os.getpid(), signal.SIGKILL)
    except Exception:
        os.kill(os.getpid(), signal.SIGKILL)


# ---- the process ----


def faults_library(folder: str) -> str:
    """faults.c as a library in a folder."""
    path = f"{folder}/faults.so"
    words = ["cc", "-std=c11", "-O1", "-Wall", "-Wextra", "-Werror", "-shared", "-fPIC", str(HERE / "faults.c"), "-o", path]
    subprocess.run(words, check=True)
    return path


def status_with_faults(script: str | Path, *words: str) -> int:
    """Runs a script of Python with faults.c, in this folder, and gives its status."""
    with tempfile.TemporaryDirectory(dir=folder_in_memory()) as folder:
        environment = {**os.environ, "LD_PRELOAD": faults_library(folder), "TMPDIR": folder}
        return subprocess.run([sys.executable, "-B", script, *words], env=environment).returncode


def folder_in_memory() -> str | None:
    return "/dev/shm" if os.access("/dev/shm", os.W_OK) else None

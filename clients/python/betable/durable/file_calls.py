"""The calls on the file of a table, by those of include/betable_file.h: requests, groups, checkpoints, and what is certain after a call that failed."""

from __future__ import annotations

import ctypes
import errno
import logging
import os
import time
import weakref
from collections.abc import Callable
from enum import Enum, auto
from functools import cache, partial
from typing import Any, NoReturn

from .. import library
from ..byte_calls import Outcome, PackedFault, Request
from ..errors import Corrupt, InDoubt, InUse, NewerFormat, NotATable, OtherEngine, OutOfMemory, RolledBack
from ..frames import HEAD, MAGIC, MARK, FramedCalls, outcome_of

FORKED = "is used by the process that opened it alone"
AGAIN = "open the table again"
# The calls that only read packed bytes, by what they ask. A change is a request.
QUESTIONS = {request: name.replace("betable_", "betable_file_") for request, name in library.PACKED_CALLS.items() if request != Request.APPLY}
SQLITE = b"SQLite format 3\0"  # begins the file of a durable table of an earlier version
# What became of a request: the status, the number of the fault of the system, how many checkpoints were made, the number of the fault of the last one that was
# due, and the kind and the payload of the reply, which there is if the status is DONE.
Exchanged = tuple[int, int, int, int, int, bytes]

notices = logging.getLogger("betable.durable")


@cache
def loaded_library() -> Any:
    """The library again, with the number of the fault of the system, and with `exchange`, which makes a request."""
    loaded: Any = ctypes.CDLL(library.library_path(), use_errno=True)
    file, size = ctypes.POINTER(library.Handle), ctypes.c_size_t
    calls: list[tuple[str, list[Any], Any]] = [
        ("betable_file_open", [file, ctypes.c_char_p], ctypes.c_uint),
        ("betable_file_run", [file, ctypes.c_char_p, size], ctypes.c_uint),
        ("betable_file_replies_length", [file], size),
        ("betable_file_copy_replies", [file, size, ctypes.c_char_p, size], size),
        *((name, [file, ctypes.c_char_p, size, ctypes.POINTER(library.Fault)], ctypes.c_uint) for name in QUESTIONS.values()),
        *((f"betable_file_{name}", [file], ctypes.c_uint) for name in ("begin", "commit", "roll_back", "checkpoint", "close")),
        ("betable_file_checkpoint_count", [file], size),
        ("betable_file_checkpoint_fault", [file], ctypes.c_int),
    ]
    library.declare(loaded, calls)
    loaded.exchange = exchange_of(loaded, library._packed is not None)
    return loaded


def exchange_of(loaded: Any, has_extension: bool) -> Callable[[library.Handle, int, bytes], Exchanged]:
    """What makes a request of a number and a payload by the calls of a library. With the extension it takes less time."""
    if has_extension:
        return library._packed.exchange_by(library.addresses(loaded, library._packed.FILE_CALLS))
    return partial(_exchanged, loaded)


def _exchanged(loaded: Any, file: library.Handle, request: int, payload: bytes) -> Exchanged:
    frame = HEAD.pack(MAGIC, len(payload), request) + payload
    status, number = loaded.betable_file_run(file, frame, len(frame)), ctypes.get_errno()
    about = status, number, loaded.betable_file_checkpoint_count(file), loaded.betable_file_checkpoint_fault(file)
    if status != library.DONE:
        return *about, 0, b""
    room = ctypes.create_string_buffer(library.SHORT_REPLIES)
    reply = library.copied_replies(loaded.betable_file_copy_replies, loaded.betable_file_replies_length, file, room)
    magic, length, kind = HEAD.unpack_from(reply) if len(reply) >= HEAD.size else (b"", 0, 0)
    if magic != MAGIC or HEAD.size + length != len(reply):
        raise RuntimeError(f"{library.LIBRARY} is of another version than this package")
    return *about, kind, reply[HEAD.size :]


class Group(Enum):
    """The state of a group."""

    NONE = auto()
    OPEN = auto()  # if the file is not, an interrupt has left the group, which is to be rolled back
    FAILED = auto()  # a call of it failed, and it was rolled back


class FileCalls(FramedCalls):
    """The calls on bytes of a table in a file. A call that changes the table has a sync of its own, except in a group."""

    most_ahead = 0  # a call returns with its outcome
    is_lost = False

    def __init__(self, path: str | os.PathLike[str]) -> None:
        name = os.fsencode(path)
        if b"\0" in name:
            raise ValueError("a path has no zero byte")
        self.path = os.path.abspath(os.fsdecode(path))
        self.group, self.is_forked, self._is_failed = Group.NONE, False, False
        # How many calls and batches have changed the table, and how many had before the group.
        self.number = self._number_before = 0
        self.checkpoint_count = self._checkpoint_errno = 0
        self.checkpoint_time: float | None = None
        self.checkpoint_seconds: float | None = None
        # The second field says whether the extension may read the table.
        self._library, self.file, self._fault = loaded_library(), library.Handle(), library.Fault()
        self._room = ctypes.create_string_buffer(library.SHORT_REPLIES)
        # What is dropped, or still there at the end of the program, is closed too, also after an interrupt that follows the opening.
        self._release = weakref.finalize(self, self._library.betable_file_close, self.file)
        status = self._library.betable_file_open(self.file, name)
        if status != library.DONE:
            raise _fault_of_opening(status, ctypes.get_errno(), self.path)
        _OPEN.add(self)

    # ---- what can be used ----

    def expect_owner(self) -> None:
        """That it is not used by a forked child."""
        if self.is_forked:
            raise RuntimeError(f"{self.path} {FORKED}")

    def make_ready(self) -> bool:
        """Makes it ready for a call, which the caller makes next. Whether it was rolled back since the last call."""
        if self.file.is_open:
            return False
        self.expect_owner()
        if self._is_failed:
            raise InDoubt(f"{self.path}: the table was closed, since an earlier call failed: {AGAIN}")
        if self.group is Group.FAILED:
            fault = RolledBack(f"{self.path}: a call of the group failed before, and nothing of the group is kept")
            fault.of_group = True
            raise fault
        if self.group is Group.OPEN:
            self._roll_back()
            return self.make_ready()
        self.file.is_open = True
        return True

    # ---- requests ----

    def _exchange(self, request: int, payload: bytes) -> tuple[int, bytes]:
        begin = time.monotonic()
        status, number, count, fault, kind, reply = self._library.exchange(self.file, request, payload)
        if status != library.DONE:
            self._fail(status, number)
        if count != self.checkpoint_count or fault != self._checkpoint_errno:
            self._note_checkpoint(begin, count, fault)
        return kind, reply

    def run(self, script: bytes) -> bytes:
        return self._counted(super().run(script))

    def run_once(self, request_id: str, script: bytes) -> bytes:
        return self._counted(super().run_once(request_id, script))

    def _counted(self, replies: bytes) -> bytes:
        """The replies to a script, which is counted if a command has changed something."""
        self.number += library.CHANGED in self._marks[MARK.size - 1 :: MARK.size]
        return replies

    def ask(self, request: Request, packed: bytes) -> Outcome:
        question = QUESTIONS.get(request)
        if question is None:
            return self._counted_changes(outcome_of(self._answered(request, packed)))
        status = getattr(self._library, question)(self.file, packed, len(packed), self._fault)
        if status == library.REFUSED:
            return PackedFault(self._fault.refusal, self._fault.item, self._fault.column)
        if status == library.OUT_OF_MEMORY:
            raise OutOfMemory
        self._expect_done(status)
        return library.copied_replies(self._library.betable_file_copy_replies, self._library.betable_file_replies_length, self.file, self._room)

    def send(self, changes: bytes) -> Callable[[], Outcome]:
        outcome = self.ask(Request.APPLY, changes)
        return lambda: outcome

    def apply_once(self, request_id: str, changes: bytes) -> Outcome:
        """Applies packed changes, unless a request with this id was made before. The outcome is that of the first time."""
        return self._counted_changes(outcome_of(self._answered_once(request_id, Request.APPLY, changes)))

    def _counted_changes(self, outcome: Outcome) -> Outcome:
        """The outcome of packed changes, which are counted if they were applied."""
        self.number += outcome == b""
        return outcome

    def run_frames(self, frames: bytes) -> None:
        """Carries out requests that are frames already."""
        self._expect_done(self._library.betable_file_run(self.file, frames, len(frames)))

    # ---- groups ----

    def begin_group(self) -> None:
        self.group, self._number_before, begin = Group.OPEN, self.number, time.monotonic()
        self._expect_done(self._library.betable_file_begin(self.file))
        self._look_for_checkpoint(begin)

    def commit_group(self) -> None:
        self._expect_done(self._library.betable_file_commit(self.file))
        self.group = Group.NONE

    def drop_group(self) -> None:
        """Undoes a group, if it is open."""
        if self.group is Group.OPEN and self._release.alive:
            self._roll_back()

    def leave_group(self) -> None:
        """Called at the end of each group. One that is still open is rolled back by the next call."""
        if self.group is Group.OPEN:
            self.file.is_open = False
        else:
            self.group = Group.NONE

    # ---- failures ----

    def _expect_done(self, status: int) -> None:
        if status != library.DONE:
            self._fail(status, ctypes.get_errno())

    def _fail(self, status: int, number: int) -> NoReturn:
        """Raises why a call was not done. The table is as before that call, or before its group, or is closed."""
        cause: Exception | None = None
        if status == library.OUT_OF_MEMORY:
            cause = OutOfMemory()
        elif status in (library.FILE_FAILED, library.FILE_TOO_LONG):
            number = number if status == library.FILE_FAILED else errno.EFBIG
            cause = OSError(number, os.strerror(number), self.path)
        reason, is_in_group = cause or "an earlier call failed", self.group is not Group.NONE
        what = "the group" if is_in_group else "the call"
        if is_in_group:
            self.group = Group.FAILED
        is_certain = self._roll_back()
        fault: InDoubt | RolledBack = RolledBack(f"{self.path}: nothing of {what} was kept: {reason}")
        if not is_certain:
            fault = InDoubt(f"{self.path}: {reason}: {AGAIN} to see whether {what} was kept")
        fault.of_group = is_in_group
        raise fault from cause

    def _roll_back(self) -> bool:
        """Undoes the group, or the call that failed. Whether it is certain that nothing of it is kept: otherwise the table is closed."""
        self.file.is_open = False
        is_certain: bool = self._library.betable_file_roll_back(self.file) == library.DONE
        if self.group is not Group.NONE:
            self.number = self._number_before
        if self.group is not Group.FAILED:
            self.group = Group.NONE
        if not is_certain:
            self._is_failed = True
            self.close()
        return is_certain

    # ---- checkpoints ----

    def checkpoint(self) -> None:
        begin = time.monotonic()
        self._expect_done(self._library.betable_file_checkpoint(self.file))
        self._look_for_checkpoint(begin)

    def _look_for_checkpoint(self, begin: float) -> None:
        self._note_checkpoint(begin, self._library.betable_file_checkpoint_count(self.file), self._library.betable_file_checkpoint_fault(self.file))

    def _note_checkpoint(self, begin: float, count: int, number: int) -> None:
        """Notes whether a call that began then has made a checkpoint, or could not make one that was due, by how many there are and the number of the fault."""
        if count != self.checkpoint_count:
            self.checkpoint_count, self.checkpoint_time, self.checkpoint_seconds = count, time.time(), time.monotonic() - begin
        if number != self._checkpoint_errno:
            self._checkpoint_errno = number
            if number not in (0, errno.EAGAIN):
                notices.warning("%s: no checkpoint was made: %s", self.path, os.strerror(number))

    @property
    def checkpoint_fault(self) -> OSError | None:
        number = self._checkpoint_errno
        if number == 0:
            return None
        return OSError(number, "the table cannot be compacted now, as while an index is building" if number == errno.EAGAIN else os.strerror(number), self.path)

    # ---- the end ----

    def close(self) -> None:
        self.file.is_open = False
        self._release()

    def leave_to_parent(self) -> None:
        """In a forked child: closes its descriptors, which would keep the file locked after the parent."""
        self.is_forked = True
        self.close()


def _fault_of_opening(status: int, number: int, path: str) -> Exception:
    match status:
        case library.OUT_OF_MEMORY:
            return OutOfMemory()
        case library.FILE_IN_USE:
            return InUse(f"{path} is open already, by another process or by this one")
        case library.NOT_A_TABLE if _begins_with(path, SQLITE):
            return NotATable(f"{path} is a SQLite database, as tables of earlier versions are: 'python3 -m betable convert {path} NEW' makes a table of it")
        case library.NOT_A_TABLE:
            return NotATable(f"{path} is no table")
        case library.OTHER_FORMAT:
            return NewerFormat(f"{path} has a format that this version of betable does not read: open it with the one that wrote it")
        case library.OTHER_ENGINE:
            return OtherEngine(f"{path} was written by another engine: open it with the version that wrote it")
        case library.DAMAGED:
            return Corrupt(path, None, "it is damaged, so use a backup")
    number = errno.EFBIG if status == library.FILE_TOO_LONG else number
    return OSError(number, os.strerror(number), path)


def _begins_with(path: str, first: bytes) -> bool:
    with open(path, "rb") as file:
        return file.read(len(first)) == first


_OPEN: weakref.WeakSet[FileCalls] = weakref.WeakSet()


def _leave_to_parent() -> None:
    for calls in _OPEN:
        calls.leave_to_parent()


os.register_at_fork(after_in_child=_leave_to_parent)

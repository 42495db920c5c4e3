"""A durable table: a session whose table is in a file, and any thread of its process may use it.

The library has the table, and makes the calls of the file before it gives a reply (include/betable_file.h). `betable_engine --keep` opens the same file."""

from __future__ import annotations

import io
import os
import shutil
from collections.abc import Iterator
from contextlib import contextmanager, suppress
from typing import Any, NoReturn

from ..byte_calls import ByteCalls, PackedFault
from ..errors import IndexBuilding, RequestReused, RolledBack, check_request_id
from ..frames import FramedSession
from ..packed import refusal_reply
from ..replies import Place, Reply
from ..schema import Trees
from .file_calls import FileCalls, Group, loaded_library

PIECE_BYTES = 1 << 20  # that a backup reads at a time
# After these the table can be used.
FAULTS = (RolledBack, IndexBuilding, RequestReused)


class Durable(FramedSession):
    """A table in a file, with the calls of a session: what a call has changed is on the disk when it returns, and a crash leaves each batch, each script and
    each group whole or not at all. A call waits until those of other threads, and their groups, have ended."""

    _name, _waits = "table", True
    _bytes: FileCalls

    def __init__(self, path: str | os.PathLike[str]) -> None:
        super().__init__(FileCalls(path))
        self._take_trees(None)  # the file may have some

    def __enter__(self) -> Durable:
        return self

    def __repr__(self) -> str:
        return f"<betable.durable.Durable {self.path!r}{'' if self._is_open else ', closed'}>"

    def __reduce__(self) -> NoReturn:
        raise TypeError("a durable table cannot be pickled: open it where it is used")

    # ---- threads ----

    def _calls(self) -> Any:
        # A forked child has nothing to wait for.
        self._bytes.expect_owner()
        return self._lock

    def _without_others(self) -> Any:
        self._bytes.expect_owner()
        return self._lock.hold() if hasattr(self._lock, "hold") else self._lock

    def _opened(self) -> ByteCalls:
        calls = super()._opened()
        if self._bytes.make_ready():
            self._earlier = list(self._trees or self._earlier)
            self._take_trees(None)
        return calls

    def trees(self) -> Trees:
        with self._without_others():
            return super().trees()

    def run(self, script: str | bytes) -> list[Reply]:
        with self._without_others():
            return super().run(script)

    def _connect_calls(self) -> None:
        self._connect_library(loaded_library(), self._bytes.file, "betable_file_")

    def _places(self) -> list[Place]:
        return self._bytes.places()  # the calls on a file do not have them

    # ---- requests that run once ----

    def _apply_once(self, request_id: str, changes: bytes, done: bytes) -> bytes:
        """Like `once`, for packed changes: the reply is their refusal, or `done`."""
        check_request_id(request_id)
        with self._calls():
            self._opened()
            outcome = self._bytes.apply_once(request_id, changes)
        return refusal_reply(outcome.refusal, outcome.item) if isinstance(outcome, PackedFault) else done

    # ---- groups ----

    @contextmanager
    def group(self) -> Iterator[None]:
        """What is run in this context is kept together at its end, by one sync, and is to be answered only then. An exception rolls all of it back. The calls
        of other threads wait until it ends."""
        calls = self._bytes
        with self._without_others():
            self._opened()
            if calls.group is not Group.NONE:
                raise RuntimeError("a group is open already, and groups cannot be nested")
            try:
                calls.begin_group()
                yield
                self._opened()
                calls.commit_group()
            except BaseException:
                calls.drop_group()
                raise
            finally:
                calls.leave_group()

    def _expect_no_group(self, what: str) -> None:
        self._opened()
        if self._bytes.group is not Group.NONE:
            raise RuntimeError(f"{what} cannot be made in a group: end the group first")

    # ---- checkpoints and backups ----

    def checkpoint(self) -> None:
        """Puts the state in the place of the requests in the file, which is also done by itself. IndexBuilding while an index is building."""
        with self._without_others():
            self._expect_no_group("a checkpoint")
            if building := self.trees().building:
                raise IndexBuilding(building)
            with self._calls():
                self._bytes.checkpoint()

    def backup(self, path: str | os.PathLike[str]) -> None:
        """Copies the table as it is to a new file, which is whole as soon as it is there. Other calls wait while the file is copied, not while it is synced."""
        path = os.path.abspath(os.fsdecode(path))
        if os.path.lexists(path):
            raise FileExistsError(f"{path} is there already: a backup is written to a new file")
        with renamed_when_whole(path) as part:
            with self._without_others():
                self._expect_no_group("a backup")
                with io.open(self.path, "rb") as file, io.open(part, "wb") as copied:
                    shutil.copyfileobj(file, copied, PIECE_BYTES)

    # ---- the table as an object ----

    @property
    def path(self) -> str:
        return self._bytes.path

    @property
    def number(self) -> int:
        """How many calls and batches have changed the table since it was opened. One of `once` is counted each time it is made."""
        return self._bytes.number

    @property
    def file_bytes(self) -> int:
        """The size of the file."""
        return os.stat(self.path).st_size

    @property
    def checkpoint_count(self) -> int:
        """How many checkpoints were made since the table was opened."""
        return self._bytes.checkpoint_count

    @property
    def checkpoint_time(self) -> float | None:
        """When the last of them ended, in seconds as of `time.time`, or None."""
        return self._bytes.checkpoint_time

    @property
    def checkpoint_seconds(self) -> float | None:
        """How long the call took that made the last of them, during which other calls waited, or None."""
        return self._bytes.checkpoint_seconds

    @property
    def checkpoint_fault(self) -> OSError | None:
        """Why the last checkpoint that was due was not made, or None if one was made since."""
        return self._bytes.checkpoint_fault

    def close(self) -> None:
        """Closes the file. A table that is closed stays so, and a group that is open is rolled back."""
        if not self._bytes.is_forked:
            super().close()


def open(path: str | os.PathLike[str]) -> Durable:
    """The table in a file, which is made if there is none."""
    return Durable(path)


@contextmanager
def renamed_when_whole(path: str) -> Iterator[str]:
    """The path of a file that gets its name at the end, when it is on the disk. It is removed if that fails."""
    made = part = f"{path}.part"
    with suppress(FileNotFoundError):
        os.remove(part)
    try:
        yield part
        sync_path(part)
        os.rename(part, path)
        made = path
        sync_path(os.path.dirname(path))
    except BaseException:
        with suppress(OSError):
            os.remove(made)
        raise


def sync_path(path: str) -> None:
    """A file, or the names in a folder, on disk."""
    file = os.open(path, os.O_RDONLY)
    try:
        os.fsync(file)
    finally:
        os.close(file)

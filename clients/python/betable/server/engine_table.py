"""A table that the program betable_engine keeps in its file, with the calls of a durable table that a server makes. It has no groups: each call that changes
the table is kept by itself. The engine writes checkpoints by itself, and none when it is asked."""

from __future__ import annotations

import os
import shutil
from collections.abc import Callable

from ..byte_calls import Outcome, Request
from ..durable.table import sync_path
from ..engine import Engine
from ..frames import MARK, outcome_of
from ..library import CHANGED
from ..packed import HEADER_OF_NONE
from ..replies import Place


class EngineTable(Engine):
    """The table of a file, in an engine with that many workers. After EngineEnded and OutOfMemory it cannot be used, and a call without a reply was kept or
    not. `number` is how many calls and batches have changed the table."""

    # What is not known of checkpoints.
    checkpoint_count, checkpoint_seconds, checkpoint_fault = 0, None, None

    def __init__(self, path: str, workers: int) -> None:
        self.path, self.number = path, 0
        super().__init__(workers, keep=path)

    def __enter__(self) -> EngineTable:
        return self

    @property
    def file_bytes(self) -> int:
        return os.path.getsize(self.path)

    def expect_running(self) -> None:
        """Raises EngineEnded if the process has ended."""
        if self._bytes.process.poll() is not None:
            self._ask(Request.TREES, HEADER_OF_NONE)

    def _apply_once(self, request_id: str, changes: bytes, done: bytes) -> bytes:
        """Like `once`, for packed changes: the reply is their refusal, or `done`."""
        return self._refusal_of(lambda: outcome_of(self._bytes._answered_once(request_id, Request.APPLY, changes))) or done

    def backup(self, path: str) -> None:
        """Copies the file to a new one. No request changes it meanwhile, and a checkpoint puts another one in its place."""
        shutil.copyfile(self.path, path)
        sync_path(path)

    # ---- what has changed ----

    def _ran(self, script: bytes, with_places: bool, run: Callable[[bytes], bytes] | None = None) -> tuple[bytes, list[Place] | None]:
        found = super()._ran(script, with_places, run)
        self.number += CHANGED in self._bytes._marks[MARK.size - 1 :: MARK.size]
        return found

    def _ask(self, request: Request, packed: bytes) -> bytes | None:
        reply = super()._ask(request, packed)
        self.number += request == Request.APPLY and reply is not None
        return reply

    def _refusal_of(self, outcome: Callable[[], Outcome]) -> bytes:
        refusal = super()._refusal_of(outcome)
        self.number += not refusal
        return refusal

"""A table that several machines have, each a replica, through one ordered log: a stream of Redis, or a table of PostgreSQL.

    with cluster.Replicas("postgresql://server/stock") as table:
        table.run("table 16 1024 256 1 id:int city:text qty:int\\n")
        table.put([(1, "Oslo", 30)])

A script that may change the table goes into the log, and so do the packed changes of a batch of values. Every replica runs the scripts of the log in its order,
so every replica gives the same replies and has the same trees; a caller gets those of its own replica. A request id makes a script run once, however often it
is sent. Scripts that only read are run on the replica alone.

A replica has its table in memory, and begins with the last checkpoint of the log and the scripts after it. If running a script fails, it begins again with the
next call.

Once the log is long, the call that has added to it writes a checkpoint. Before that, the replica appends an empty script: the replica whose script comes first
writes the checkpoint, and others that were about to do so leave it to that one. If it fails to, another one writes it when the log has grown by as much again.

The log and the replica each have a hash of all scripts up to a position, the chain. The two are compared before the replica runs anything, and before the log
appends anything. So a replica that has run scripts which the log has lost stops, and the log and the other replicas go on.
"""

from __future__ import annotations

import json
import logging
import time
import uuid
import zlib
from collections.abc import Callable, Iterable, Iterator
from contextlib import suppress
from functools import partial
from typing import Any, Literal, NamedTuple, TypeVar

from ..batches import Batch
from ..calls import as_script
from ..errors import IndexBuilding, RequestReused
from ..language import CHANGING_LINE, Definitions, commands
from ..packed import MAGIC
from ..replies import answered
from ..schema import Tree, Trees
from ..session import Session
from .checkpoints import (
    CHECKPOINT_BYTES, DEFINED, ENGINE, REFUSED, AutomaticCheckpoints, Part, applied, check_checkpoint_bytes, parts_of, puts_of, scripts_of,
)  # fmt: skip
from .logs import ANOTHER_CHECKPOINT, LONGEST_WAIT, Checkpoint, Entry, Log, Unreachable, UnusableLog, check_request_id, log_of
from .reads import Reads, Runner, reader_of

T = TypeVar("T")
# The number of last requests that a replica knows, the same for all replicas of a log, and the largest size of their replies.
MOST_OUTCOMES, MOST_REPLY_LETTERS = 1_000, 1 << 24
FIRST_PAUSE, LONGEST_PAUSE = 0.02, 1.0
# What the request ids of checkpoints begin with. A script of another caller with such an id would only make replicas write their checkpoints later.
CHECKPOINT_ID = "betable checkpoint "
OTHER_PAST = "it and those before it are not those that this replica has run"

notices = logging.getLogger("betable.cluster")


class Unanswered(Exception):
    """A script got no reply: its log could not be reached, or this replica could not run it. It may be in the log, and other replicas may have run it.
    `once(request_id, script)` with the `request_id` and the `script` of this exception gives its reply, and runs it if it was not. Of a batch of values the
    script is its packed changes."""

    def __init__(self, request_id: str, reason: str, script: bytes) -> None:
        super().__init__(request_id, reason, script)
        self.request_id, self.reason, self.script = request_id, reason, script

    def __str__(self) -> str:
        return f"{self.reason}. The script may run all the same: once({self.request_id!r}, script) gives its reply, and runs it if it was not"


class PackedChanges(bytes):
    """Packed changes, which `once` takes in place of a script."""


class ReplyForgotten(Exception):
    """The script of a request was run, but its reply is no longer there."""

    def __init__(self, request_id: str) -> None:
        super().__init__(request_id)
        self.request_id = request_id

    def __str__(self) -> str:
        return f"the script of request {self.request_id!r} was run, and this replica does not have its reply any more: read what it changed"


class Diverged(Exception):
    """This replica has run other scripts than the log has, as after a server has lost its last ones. `position` is that of the script at which it shows. The
    log and the other replicas are as they were."""

    def __init__(self, position: int, reason: str) -> None:
        super().__init__(position, reason)
        self.position, self.reason = position, reason

    def __str__(self) -> str:
        return f"script {self.position} of the log: {self.reason}. Close this replica and open it again: it then has what the log has"


class Outcome(NamedTuple):
    """What a request gave: the checksum of its script, and its replies, or None if they are not kept."""

    script: int
    replies: str | None

    def given(self) -> bytes | None:
        return None if self.replies is None else self.replies.encode()


class Outcomes:
    """What the last requests gave. All replicas know the same ones at a position."""

    def __init__(self, found: dict[str, list[Any]] | None = None) -> None:
        self.found = {request_id: Outcome(*parts) for request_id, parts in (found or {}).items()}
        self._length = sum(len(outcome.replies or "") for outcome in self.found.values())

    def add(self, request_id: str, outcome: Outcome) -> None:
        self.found[request_id] = outcome
        self._length += len(outcome.replies or "")
        if len(self.found) > MOST_OUTCOMES:
            self._length -= len(self.found.pop(next(iter(self.found))).replies or "")
        for earlier, of in self.found.items():
            if self._length <= MOST_REPLY_LETTERS or earlier == request_id:
                break
            self._length -= len(of.replies or "")
            self.found[earlier] = of._replace(replies=None)


class Replicas(AutomaticCheckpoints, Reads):
    """A replica of a table, which the log of a name has. It is used by the thread that opened it alone.

    With the reads `latest`, a script that only reads sees every script that was answered before, by any replica. With `local` it sees what this replica has run
    so far, and needs no server. `patience` is for how many seconds a call goes on trying to reach the server. A checkpoint is written after the script with
    which the log has more than `checkpoint_bytes`, and more than the last checkpoint: None leaves it to you. `make` gives what runs the scripts, which has no
    table yet: a session unless said otherwise.
    """

    def __init__(
        self,
        url: str | Log,
        name: str = "betable",
        *,
        reads: Literal["latest", "local"] = "latest",
        patience: float = 30,
        checkpoint_bytes: int | None = CHECKPOINT_BYTES,
        make: Callable[[], Runner] = Session,
    ) -> None:
        check_checkpoint_bytes(checkpoint_bytes)
        super().__init__(checkpoint_bytes, notices)
        if reads not in ("latest", "local"):
            raise ValueError(f"reads are 'latest' or 'local', and not {reads!r}")
        self._are_reads_local, self._patience, self._make, self._name = reads == "local", patience, make, name
        self._runner: Runner | None = None
        self._definitions, self._position, self._chain, self._outcomes = Definitions(), 0, b"", Outcomes()
        self._begun_checkpoints = 0  # requests of checkpoints that were run
        self._divergence: Diverged | None = None
        self._is_closed = False
        self._log: Log = url if not isinstance(url, str) else log_of(url, name, patience)
        try:
            self._open()
            self.catch_up()
        except BaseException:
            self.close()
            raise

    def __enter__(self) -> Replicas:
        return self

    def __exit__(self, *_: object) -> None:
        self.close()

    @property
    def is_lost(self) -> bool:
        """Whether the replica has diverged. One whose session is lost begins again with the next call."""
        return self._divergence is not None

    @property
    def position(self) -> int:
        """The position of the last script of the log that this replica has run."""
        return self._position

    def close(self) -> None:
        """Closes the replica. The log stays."""
        self._is_closed = True
        self._drop()
        self._log.close()

    # ---- scripts ----

    def replies(self, script: str | bytes) -> bytes:
        """The bytes of the replies to a script, which goes into the log if it may change the table."""
        text = as_script(script)
        if CHANGING_LINE.search(text):
            return self.once(uuid.uuid4().hex, text)
        self._see()
        return self._kept(lambda runner: runner.replies(text))

    def _read(self, call: Callable[[Any], T]) -> T:
        """What a call gives of the session, which sees what a read is to see. After a failed request for memory the session goes."""
        self._see()
        try:
            return call(reader_of(self, self._ready()))
        except MemoryError:
            self._drop()
            raise

    def _see(self) -> None:
        """Runs what a read is to see."""
        if self._are_reads_local:
            self._ready()
        else:
            self.catch_up()

    def once(self, request_id: str, script: str | bytes) -> bytes:
        """Like `replies`, but always by the log. A script that comes again with the same request id is not run again: the call returns its replies. So a caller
        that got no reply sends the request again. RequestReused if another script had the id."""
        check_request_id(request_id)
        text = script if isinstance(script, PackedChanges) else _entry_of(as_script(script))
        self._run_by_log(request_id, text)
        outcome = self._outcomes.found.get(request_id)
        if outcome and outcome.script != zlib.crc32(text):
            raise RequestReused(request_id)
        replies = outcome and outcome.given()
        if replies is None:
            raise ReplyForgotten(request_id)
        if self._is_checkpoint_due:
            self._try_without_patience()
        return replies

    def _packed(self, batch: Batch, there: Tree, taken: int) -> bytes | None:
        return reader_of(self, self._ready())._packed(batch, there, taken)

    def _apply_packed(self, changes: bytes) -> bytes:
        return self.once(uuid.uuid4().hex, PackedChanges(changes))

    def _run_by_log(self, request_id: str, script: bytes) -> int:
        """The position of a request in the log, after this replica has run it."""
        self._ready()
        position = self._appended(request_id, script)
        try:
            self._run_to(position)
        except Diverged:
            raise
        except Exception as fault:
            raise Unanswered(request_id, f"{type(fault).__name__}: {fault}", _script_of(script)) from fault
        if self._position <= position and request_id not in self._outcomes.found:
            raise Unanswered(request_id, f"the log has lost it, which was script {position}", _script_of(script))
        return position

    def _appended(self, request_id: str, script: bytes) -> int:
        """The position of a request in the log, which has it after what this replica has run."""
        while True:
            try:
                position = self._reached(lambda: self._log.append(request_id, script, self._position, self._chain, ENGINE))
            except Exception as fault:
                raise Unanswered(request_id, f"{type(fault).__name__}: {fault}", _script_of(script)) from fault
            if position is not None:
                return position
            # Nothing was appended. The log is of another engine or another past, or has trimmed the script that this replica has run last.
            self._run_to(self._end())

    def catch_up(self, seconds: float = 0) -> int:
        """Runs what the log has, and if that is nothing new waits up to these seconds for a script. The position afterwards."""
        self._ready()
        begin = time.monotonic()
        while (end := self._end()) == self._position and (left := begin + seconds - time.monotonic()) > 0:
            self._reached(partial(self._log.wait, end + 1, min(left, LONGEST_WAIT)))
        self._run_to(end)
        return self._position

    # ---- checkpoints ----

    def checkpoint(self) -> int:
        """Rebuilds all trees on every replica, by the log, and keeps the definitions and the rows as they are then beside the log. The position of that."""
        self.catch_up()
        while True:
            trees = self._trees()
            position = self._run_by_log(_checkpoint_id(), b"".join(b"rebuild %b\n" % name for name in trees.by_name))
            # Another replica may have changed the indexes before it, or have written a checkpoint after it that this one has begun with.
            if trees == self._trees() and self._position == position:
                break
        parts = self._kept(lambda runner: list(parts_of(self._definitions, puts_of(runner))))
        about = {"outcomes": self._outcomes.found, "parts": [(len(part), is_packed) for part, is_packed in parts]}
        text = b"\n".join([json.dumps(about).encode(), b"".join([part for part, _ in parts])])
        if not self._reached(lambda: self._log.keep(Checkpoint(self._position, self._chain, text))):
            raise self._diverged(self._position, OTHER_PAST)
        self._stored_bytes = len(text)
        self._set_most_log_bytes()
        self._checkpoint_count, self._checkpoint_fault = self._checkpoint_count + 1, None
        return self._position

    def _try_without_patience(self) -> None:
        """Writes a checkpoint that is due, without a second call of a server that cannot be reached: the caller is waiting, and has its reply."""
        patience, self._patience = self._patience, 0
        try:
            self._try_checkpoint(self._name, self._write_checkpoint_before_others)
        finally:
            self._patience = patience

    def _write_checkpoint_before_others(self) -> None:
        """Writes a checkpoint, unless another replica does, or has written a large one. The log keeps the scripts after the checkpoint before it, so that
        replicas which are not far behind run them, and do not begin again."""
        trees = self._kept(lambda runner: runner.trees())
        if not trees or trees.building:
            return
        self._stored_bytes = self._reached(self._log.checkpoint_bytes)
        self._most_log_bytes = max(self._most_log_bytes, self._stored_bytes)
        if not self._is_checkpoint_due:
            return
        begun = self._begun_checkpoints
        self._run_by_log(_checkpoint_id(), b"")
        if self._begun_checkpoints == begun + 1:
            self.trim()
            self.checkpoint()

    def trim(self) -> None:
        """Removes the scripts before the last checkpoint from the log. A replica that has not run them begins with the checkpoint again."""
        self._reached(self._log.trim)

    def _trees(self) -> Trees:
        """All trees, which are complete."""
        trees = self._kept(lambda runner: runner.trees())
        if not trees:
            raise ValueError("a checkpoint is of a table, and there is none so far")
        if trees.building:
            raise IndexBuilding(trees.building)
        return trees

    # ---- the replica ----

    def _reached(self, call: Callable[[], T]) -> T:
        """What a call of the log gives, which is made again for a while if the server cannot be reached."""
        begin, pause = time.monotonic(), FIRST_PAUSE
        while True:
            try:
                return call()
            except Unreachable:
                if time.monotonic() - begin + pause > self._patience:
                    raise
            time.sleep(pause)
            pause = min(2 * pause, LONGEST_PAUSE)

    def _ready(self) -> Runner:
        """What runs the scripts. If there is none it begins with the last checkpoint, and runs what the log has after it."""
        if self._is_closed:
            raise ValueError("the replica is closed")
        if self._divergence:
            raise self._divergence
        if self._runner is None:
            self._begin(self._reached(self._log.checkpoint))
            self._run_to(self._end())
        assert self._runner
        return self._runner

    def _open(self) -> None:
        """Opens the log for the engine of this package."""
        engine = self._reached(lambda: self._log.open(ENGINE))
        if engine != ENGINE:
            older = "open it with the version that wrote it, write a checkpoint, close all replicas, and update"
            reason = f"its scripts were run by engine {engine}, and engine {ENGINE} may reply otherwise"
            raise UnusableLog(self._name, f"{reason}: {older if engine < ENGINE else 'use a version of this package with that engine'}")

    def _end(self) -> int:
        """The position of the last script of the log, which has run up to this replica's position what the replica has run. If the log does not know that any
        more, the replica begins with the checkpoint."""
        end = self._reached(lambda: self._log.end(self._position))
        if end.position < self._position:
            raise self._diverged(end.position, f"it is the last, and this replica has run {self._position} scripts, so the log has lost some")
        if end.engine != ENGINE:
            self._open()
        if end.chain is None:
            self._begin_later()
        elif end.chain != self._chain:
            raise self._diverged(self._position, OTHER_PAST)
        return end.position

    def _begin(self, checkpoint: Checkpoint | None) -> None:
        """Begins with a checkpoint, or without one."""
        self._drop()
        self._definitions, self._position, self._chain, self._outcomes = Definitions(), 0, b"", Outcomes()
        self._log_bytes, self._stored_bytes = 0, len(checkpoint.text) if checkpoint else 0
        if self._checkpoint_fault is None:
            self._set_most_log_bytes()
        self._runner = self._make()
        if checkpoint:
            try:
                head, text = checkpoint.text.split(b"\n", 1)
                about = json.loads(head)
                # A log of before there were parts has one script.
                for script, is_packed in scripts_of(_divided(text, about.get("parts", [(len(text), False)])), self._runner):
                    replies = applied(self._runner, script) if is_packed else self._runner.replies(script)
                    if REFUSED.search(replies):
                        raise UnusableLog(self._name, f"its checkpoint at {checkpoint.position} was refused: {replies.decode()!r}. {ANOTHER_CHECKPOINT}")
                    self._note(script, replies)
                self._outcomes = Outcomes(about["outcomes"])
            except BaseException:
                self._drop()
                raise
            self._position, self._chain = checkpoint.position, checkpoint.chain

    def _begin_later(self) -> None:
        """Begins with a checkpoint in place of the next script of the log, which is not there: it was trimmed, or is lost."""
        checkpoint = self._reached(self._log.checkpoint)
        if checkpoint is None or checkpoint.position <= self._position:
            raise UnusableLog(self._name, f"script {self._position + 1} is missing, or was changed since it was appended. {ANOTHER_CHECKPOINT}")
        self._begin(checkpoint)

    def _diverged(self, position: int, reason: str) -> Diverged:
        """The exception of this call and of all that follow."""
        self._drop()
        self._divergence = Diverged(position, reason)
        return self._divergence

    def _drop(self) -> None:
        runner, self._runner = self._runner, None
        if runner is not None:
            with suppress(Exception):
                runner.close()

    def _kept(self, call: Callable[[Runner], T]) -> T:
        """What a call of the runner gives. One that fails leaves it in an unknown state, so that it goes."""
        try:
            return call(self._ready())
        except BaseException:
            self._drop()
            raise

    def _run_to(self, last: int) -> None:
        """Runs the scripts of the log up to a position."""
        while self._position < last:
            before = self._position
            for entry in self._reached(lambda: self._log.entries(before + 1, last)):
                if entry.position != self._position + 1 or entry.chain != self._log.link(self._chain, entry.request_id, entry.script):
                    break
                self._run(entry)
            if self._position == before:
                # The server may have been started again meanwhile, without its last scripts.
                last = min(last, self._end())
                if self._position == before < last:
                    self._begin_later()

    def _run(self, entry: Entry) -> None:
        try:
            # A request comes again if the server has lost its id. All replicas know the same requests at a position, so that all leave the script out.
            if entry.request_id not in self._outcomes.found:
                self._outcomes.add(entry.request_id, self._outcome(entry.script))
            self._position, self._chain = entry.position, entry.chain
            self._log_bytes += len(entry.script)
            if entry.request_id.startswith(CHECKPOINT_ID):
                self._begun_checkpoints, self._log_bytes = self._begun_checkpoints + 1, 0
                self._set_most_log_bytes()
        except BaseException:
            # It is not known whether the script was run.
            self._drop()
            raise

    def _outcome(self, script: bytes) -> Outcome:
        replies = applied(self._ready(), script) if script.startswith(MAGIC) else self._ready().replies(script)
        self._note(script, replies)
        return Outcome(zlib.crc32(script), replies.decode())

    def _note(self, script: bytes, replies: bytes) -> None:
        """Takes what a script defines."""
        if DEFINED.search(replies):
            for command, _, is_refused in answered(commands(script), replies):
                if not is_refused:
                    self._definitions.take(command)


def _divided(text: bytes, sizes: Iterable[tuple[int, bool]]) -> Iterator[Part]:
    """The parts of a checkpoint, by their sizes."""
    at = 0
    for size, is_packed in sizes:
        yield text[at : at + size], is_packed
        at += size


def _checkpoint_id() -> str:
    return f"{CHECKPOINT_ID}{uuid.uuid4().hex}"


def _script_of(entry: bytes) -> bytes:
    """What `once` takes for an entry of the log."""
    return PackedChanges(entry) if entry.startswith(MAGIC) else entry


def _entry_of(script: bytes) -> bytes:
    """A script as an entry of the log, in which packed changes begin with their first bytes. An empty line before a script changes nothing else."""
    return b"\n" + script if script.startswith(MAGIC) else script

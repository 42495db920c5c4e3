"""An engine: a table in a process of the program betable_engine, whose workers share the work (docs/ENGINE.md).

`EngineCalls` sends requests to the process and takes its replies, each in a frame, by a pair of pipes. `Engine` has the calls of a session over them.

An interrupt (Ctrl-C) may come between any two steps of Python. So a request is one object, with lists of what was sent of its frame and of what has arrived of
its reply, and each list grows in the same call of C that writes or reads. The next call sends and takes what the one before has left.

A request is written while replies are read: neither process waits for the other one to take what it writes. A call that has sent all waits in a read.
"""

from __future__ import annotations

import fcntl
import os
import select
import subprocess
import weakref
from collections import deque
from collections.abc import Callable
from contextlib import suppress
from typing import Any, NoReturn

from .byte_calls import ByteCalls, Outcome, Request
from .errors import EngineEnded, OutOfMemory
from .frames import HEAD, MAGIC, FramedCalls, FramedSession, outcome_of, taken
from .installed import path_of
from .packed import HEADER_OF_NONE

PROGRAM = "betable_engine"
MOST_WORKERS, DEEPEST_CUT, LARGEST_GRAIN, LARGEST_FRAME = 64, 6, 65_536, 1 << 40
# The C library of the process keeps the memory that a batch frees, unless the variable is set, as bin/betable has it (tools/run_program.sh).
ENVIRONMENT = {"GLIBC_TUNABLES": "glibc.malloc.hugetlb=1:glibc.malloc.top_pad=67108864"}
# Bytes that a first read asks for, and those of a pipe, which later ones ask for at most.
FIRST_READ, PIPE_BYTES = 1 << 12, 1 << 20
END_SECONDS = 10  # that a process has to end once its output is closed
MOST_SAID = 500  # bytes of what it has written on its standard error
OUT_OF_MEMORY = (1, "betable: out of memory")


class _Asked:
    """A request: its frame, the counts of its bytes that were sent, and what has arrived of its reply."""

    __slots__ = ("head", "payload", "sent", "arrived")

    def __init__(self, request: int, payload: bytes) -> None:
        self.head, self.payload = HEAD.pack(MAGIC, len(payload), request), payload
        self.sent: list[int] = []
        self.arrived: list[bytes] = []

    def rest(self) -> list[bytes | memoryview]:
        """What was not sent."""
        if not self.sent:
            return [self.head, self.payload]
        count = sum(self.sent)
        self.sent[:] = (count,)
        if count < HEAD.size:
            return [self.head[count:], self.payload]
        return [memoryview(self.payload)[count - HEAD.size :]] if count < HEAD.size + len(self.payload) else []

    def missing(self, is_alone: bool) -> int:
        """How many bytes to read next, or 0 if the reply is there. If no other reply can follow, more may be asked for than it has."""
        arrived = self.arrived
        if not arrived:
            return FIRST_READ if is_alone else HEAD.size
        count = len(arrived[0]) if len(arrived) == 1 else sum(map(len, arrived))
        if len(arrived[0]) < HEAD.size:
            if count < HEAD.size:
                return HEAD.size - count
            arrived[:] = (b"".join(arrived),)
        magic, length, _ = HEAD.unpack_from(arrived[0])
        if magic != MAGIC:
            raise RuntimeError(f"what the engine has written is no reply, but begins with {arrived[0][:MOST_SAID]!r}: is {PROGRAM} another program?")
        return min(HEAD.size + int(length) - count, PIPE_BYTES)

    def reply(self) -> tuple[int, bytes]:
        """The status and the payload of the reply, which is there."""
        first, *others = self.arrived
        return first[HEAD.size - 1], b"".join([first[HEAD.size :], *others]) if others else first[HEAD.size :]


class EngineCalls(FramedCalls):
    """The calls on bytes of a process that it starts."""

    most_ahead = 1

    def __init__(self, words: list[str], most_frame: int, kept: str | None = None) -> None:
        self._most_frame, self._kept = most_frame, kept
        self._asked: deque[_Asked] = deque()
        self.answered = 0
        self._end: tuple[int, str] | None = None  # how the process has ended, and what it has said
        self._is_forked = False
        self._said = os.memfd_create(PROGRAM)
        try:
            # A group of its own: an interrupt from the terminal is for this process.
            pipe, environment = subprocess.PIPE, ENVIRONMENT | os.environ
            self.process = process = subprocess.Popen(
                words, bufsize=0, stdin=pipe, stdout=pipe, stderr=self._said, env=environment, process_group=0
            )  # fmt: skip
        except BaseException:
            os.close(self._said)
            raise
        assert process.stdin is not None and process.stdout is not None
        self._input, self._output = process.stdin.fileno(), process.stdout.fileno()
        self._release = weakref.finalize(self, _end, process, self._said, os.getpid())
        _RUNNING.add(self)
        os.set_blocking(self._input, False)
        for descriptor in (self._input, self._output):
            # The system limits how many bytes the pipes of a user hold.
            with suppress(OSError):
                fcntl.fcntl(descriptor, fcntl.F_SETPIPE_SZ, PIPE_BYTES)
        # That it is an engine, and runs.
        self.ask(Request.TREES, HEADER_OF_NONE)

    # ---- requests and replies ----

    def expect_running(self) -> None:
        """That it can be asked: an engine belongs to the process that has started it, and has not ended."""
        if self._is_forked:
            raise RuntimeError("an engine is used by the process that started it alone")
        if self._end is not None:
            raise self._fault_of_end(*self._end)

    def _add(self, request: int, payload: bytes) -> _Asked:
        self.expect_running()
        if len(payload) > self._most_frame:
            raise ValueError(f"a request of {len(payload):,} bytes was not sent: this engine takes at most {self._most_frame:,} ('most_frame')")
        asked = _Asked(request, payload)
        self._asked.append(asked)
        return asked

    def _send(self) -> None:
        """Sends all requests. Replies are taken while the pipe is full."""
        for asked in tuple(self._asked):
            while rest := asked.rest():
                try:
                    asked.sent.extend(map(os.writev, (self._input,), (rest,)))
                except BlockingIOError:
                    self._wait_for_room()
                except BrokenPipeError:
                    self._raise_end()

    def _wait_for_room(self) -> None:
        """Waits until more can be sent, or has arrived, which is then taken."""
        poll = select.poll()
        poll.register(self._input, select.POLLOUT)
        first = self._first()
        if first is not None and not first.rest():
            poll.register(self._output, select.POLLIN)
        if any(descriptor == self._output for descriptor, _ in poll.poll()) and first is not None:
            self._read(first)

    def _first(self) -> _Asked | None:
        """The first request whose reply is not there."""
        while self._asked:
            first = self._asked[0]
            if first.missing(False):
                return first
            self._asked.popleft()
            self.answered += 1
        return None

    def _read(self, asked: _Asked) -> None:
        """Reads of a reply what is there, or waits for it."""
        asked.arrived.extend(map(os.read, (self._output,), (asked.missing(len(self._asked) == 1),)))
        if not asked.arrived[-1]:
            self._raise_end()

    def _reply(self, asked: _Asked) -> tuple[int, bytes]:
        """The reply to a request that the engine has taken."""
        return taken(self._answer(asked))

    def _exchange(self, request: int, payload: bytes) -> tuple[int, bytes]:
        return self._answer(self._add(request, payload))

    def _answer(self, asked: _Asked) -> tuple[int, bytes]:
        """The reply to a request. Those to the requests before it come first."""
        if asked.missing(False):
            self.expect_running()
            self._send()
            while asked.missing(False) and (first := self._first()):
                self._read(first)
        self._first()
        return asked.reply()

    def _raise_end(self) -> NoReturn:
        """Finds out how the process has ended, after the replies that it had written."""
        with suppress(RuntimeError, OSError):
            while (first := self._first()) and (not first.arrived or first.arrived[-1]):
                first.arrived.extend(map(os.read, (self._output,), (first.missing(False),)))
        try:
            status = self.process.wait(END_SECONDS)
        except subprocess.TimeoutExpired:
            self.process.kill()
            status = self.process.wait()
        self._end = status, os.pread(self._said, MOST_SAID, 0).decode(errors="replace").strip()
        self._release()
        raise self._fault_of_end(*self._end)

    def _fault_of_end(self, status: int, said: str) -> Exception:
        if (status, said) == OUT_OF_MEMORY:
            return OutOfMemory(b"", False, True)
        return EngineEnded(None if status < 0 else status, -status if status < 0 else None, self.answered, said, kept=self._kept)

    # ---- the calls ----

    @property
    def is_lost(self) -> bool:
        return self._end is not None

    def run_once(self, request_id: str, script: bytes) -> bytes:
        if self._kept is None:
            raise ValueError("only an engine that keeps its table ('keep') runs a request once")
        return super().run_once(request_id, script)

    def send(self, changes: bytes) -> Callable[[], Outcome]:
        asked = self._add(Request.APPLY, changes)
        self._send()
        return lambda: outcome_of(self._reply(asked))

    # ---- the end ----

    def close(self) -> None:
        """Ends the input, at which the process ends, and waits for that. If a request is left that nobody waits for, it is ended in its middle."""
        if self._is_forked or self._end is not None:
            return
        _close_pipes(self.process)
        if self._asked:
            self.process.kill()
        self.process.wait()
        self._end = self.process.returncode, ""
        self._release()

    def leave_to_parent(self) -> None:
        """In a forked child: closes its copies of the pipes, which would keep the engine running after the parent."""
        self._is_forked = True
        if self._end is None:
            self.process.returncode = 0
            _close_pipes(self.process)
            os.close(self._said)


def _close_pipes(process: subprocess.Popen[bytes]) -> None:
    for pipe in (process.stdin, process.stdout):
        if pipe is not None:
            pipe.close()


def _end(process: subprocess.Popen[bytes], said: int, owner: int) -> None:
    """Ends a process that was not closed, as when its engine is dropped or the program ends."""
    if os.getpid() == owner:
        _close_pipes(process)
        if process.returncode is None:
            process.kill()
            process.wait()
        os.close(said)


_RUNNING: weakref.WeakSet[EngineCalls] = weakref.WeakSet()


def _leave_to_parent() -> None:
    for calls in _RUNNING:
        calls.leave_to_parent()


os.register_at_fork(after_in_child=_leave_to_parent)


class Engine(FramedSession):
    """A table, or none so far, in a process of its own, which works on each call with several threads. It has the calls of a session. The process ends when the
    engine is closed or dropped, and when this process ends, however it does. If it ends by itself or is killed, a call raises EngineEnded."""

    _name = "engine"
    _bytes: EngineCalls

    def __init__(
        self, workers: int = 4, *, cut: int = 2, grain: int = 64, most_frame: int | None = None, keep: str | os.PathLike[str] | None = None
    ) -> None:  # fmt: skip
        """Starts the process. `workers`, `cut` and `grain` say how it divides its work, and change no reply. A request of more than `most_frame` bytes, such as
        a long script, is not sent. `keep` is the path of a file that has the table: what a call has changed is on the disk when it returns."""
        options = {
            "workers": _number("workers", workers, MOST_WORKERS),
            "cut": _number("cut", cut, DEEPEST_CUT),
            "grain": _number("grain", grain, LARGEST_GRAIN),
            "most-frame": LARGEST_FRAME if most_frame is None else _number("most_frame", most_frame, LARGEST_FRAME),
        }
        program = path_of(PROGRAM, "BETABLE_ENGINE", f"crates/{PROGRAM}/out", f"it is built in crates/{PROGRAM} of the repository")
        words = [str(program), *(word for name, value in options.items() for word in (f"--{name}", str(value)))]
        kept = None if keep is None else os.fspath(keep)
        if kept is not None:
            words.append(f"--keep={kept}")
        super().__init__(EngineCalls(words, options["most-frame"], kept))
        if kept is not None:
            self._take_trees(None)  # the file may have some

    def __enter__(self) -> Engine:
        return self

    @property
    def pid(self) -> int:
        """The number of its process."""
        return self._bytes.process.pid

    @property
    def is_lost(self) -> bool:
        """Whether the process has ended, and its table with it, as far as a call has found out."""
        with self._calls():
            super()._opened()
            return self._bytes.is_lost

    def _opened(self) -> ByteCalls:
        calls = super()._opened()
        self._bytes.expect_running()
        return calls


def _number(name: str, number: Any, most: int) -> int:
    if isinstance(number, bool) or not isinstance(number, int):
        raise TypeError(f"'{name}' is an int, and not {number!r}")
    if not 1 <= number <= most:
        raise ValueError(f"'{name}' is between 1 and {most:,}, and not {number:,}")
    return number

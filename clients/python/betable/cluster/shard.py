"""A shard in a process: `python3 -m betable.cluster.shard` carries out the calls on standard input, which `ProcessShard` sends, until that ends."""

from __future__ import annotations

import os
import signal
import sys
import time
from contextlib import suppress
from multiprocessing.connection import Connection
from threading import Lock, Thread
from typing import Any

from ..session import Session

CALLS = ("table", "index", "put", "get", "scan", "scan_columns", "sums")
SIGN_SECONDS = 1


class Shard:
    """A session, and the stream of what its calls give, on which a thread gives signs of life while one is carried out."""

    def __init__(self, replies: Connection) -> None:
        self._session, self._replies, self._lock, self._is_working = Session(), replies, Lock(), False
        Thread(target=self._give_signs, daemon=True).start()

    def _give_signs(self) -> None:
        with suppress(OSError):
            while True:
                time.sleep(SIGN_SECONDS)
                with self._lock:
                    if self._is_working:
                        self._replies.send(None)

    def answer(self, name: str, arguments: tuple[Any, ...], named: dict[str, Any]) -> None:
        self._is_working = True
        try:
            if name not in CALLS:
                raise ValueError(f"{name} is no call of a shard")
            outcome: tuple[str, Any] = "gives", self._carried_out(name, arguments, named)
        except Exception as fault:
            outcome = "raises", fault
        with self._lock:
            self._is_working = False
            self._replies.send(outcome)

    def _carried_out(self, name: str, arguments: tuple[Any, ...], named: dict[str, Any]) -> Any:
        return getattr(self._session, name)(*arguments, **named)


def main() -> int:
    # An interrupt at the terminal is for the process that asks, which ends this one.
    signal.signal(signal.SIGINT, signal.SIG_IGN)
    requests, shard = Connection(os.dup(0), writable=False), Shard(Connection(os.dup(1), readable=False))
    # What anything else prints is not to be taken for a reply.
    os.dup2(2, 1)
    with suppress(EOFError, BrokenPipeError):
        while True:
            shard.answer(*requests.recv())
    return 0


if __name__ == "__main__":
    sys.exit(main())

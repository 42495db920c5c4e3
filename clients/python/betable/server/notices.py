"""What the server prints on standard error: nothing of a request but its path, since the rest may be a secret, and the same thing once a minute at most. And
its log of requests, if it keeps one."""

from __future__ import annotations

import logging
import sys
import time
import traceback
from collections.abc import Callable
from pathlib import Path

PAUSE_SECONDS = 60  # between two lines of a kind
MOST_PATH = 200  # letters of a path in a line


class Notices(logging.Handler):
    """Prints lines, of each kind one a minute. As a handler it takes what aiohttp and asyncio log: their own lines quote the bytes of a head."""

    def __init__(self) -> None:
        super().__init__(logging.WARNING)
        self._last: dict[str, float] = {}

    def emit(self, record: logging.LogRecord) -> None:
        fault = record.exc_info[1] if record.exc_info else None
        self.tell(f"{record.name}: {name_of(fault)}" if fault else f"{record.name}: {record.msg}".partition("\n")[0])

    def fault(self, fault: BaseException) -> None:
        """A fault of the server: its name and its places in the code, and not its text, which may quote a request."""
        places = traceback.format_tb(fault.__traceback__)
        self.tell(f"a fault, {name_of(fault)}, at\n{''.join(places)}".rstrip("\n"))

    def tell(self, line: str) -> None:
        now = time.monotonic()
        if now - self._last.get(line, -PAUSE_SECONDS) >= PAUSE_SECONDS:
            self._last[line] = now
            print(f"betable serve: {line}", file=sys.stderr, flush=True)


class RequestLog:
    """A line for each request in a file, and on standard error one for each that took long: time, address, method, path, status, and seconds."""

    def __init__(self, file: Path | None, slow_seconds: float | None, tell: Callable[[str], None]) -> None:
        self.slow_seconds, self.tell = slow_seconds, tell
        self._stream = None if file is None else file.open("a", encoding="utf-8")

    def take(self, address: str | None, method: str, path: str, status: int, seconds: float) -> None:
        line = f"{address or '-'} {method} {path.encode('ascii', 'backslashreplace').decode()[:MOST_PATH]} {status} {seconds:.4f}"
        if self._stream is not None:
            try:
                self._stream.write(f"{time.strftime('%Y-%m-%dT%H:%M:%SZ', time.gmtime())} {line}\n")
                self._stream.flush()
            except OSError as fault:
                self.tell(f"the log of requests cannot be written: {name_of(fault)}")
        if self.slow_seconds is not None and seconds >= self.slow_seconds:
            print(f"betable serve: slow: {line}", file=sys.stderr, flush=True)

    def close(self) -> None:
        if self._stream is not None:
            self._stream.close()


def name_of(fault: BaseException) -> str:
    reason = f" ({fault.strerror})" if isinstance(fault, OSError) and fault.strerror else ""
    return type(fault).__name__ + reason

"""The calls of a table on bytes: scripts, and changes and questions in packed bytes (docs/C.md has their layout). Three classes have them: `LibraryCalls`, of
the library in this process, `FileCalls`, of a durable table, and `EngineCalls`, of a process of the program betable_engine. What a session does over them is
in session.py, once for all."""

from __future__ import annotations

from collections.abc import Callable
from enum import IntEnum
from typing import NamedTuple, Protocol

from .reasons import Reason
from .replies import Place


class Request(IntEnum):
    """What is asked, by its number in the frame of a request to the engine."""

    SCRIPT = 1
    CHECK = 2
    APPLY = 3
    GET = 4
    PAGE = 5
    LAST_PAGE = 6
    SUMS = 7
    COLUMNS = 8
    USAGE = 9
    TREES = 10
    EXPLAIN = 11
    ONCE = 12


class PackedFault(NamedTuple):
    """Why packed bytes are refused: the number of the refusal, the item and its column, each 0 if it does not apply."""

    refusal: int
    item: int
    column: int


# The reply to packed bytes, or why they are refused.
Outcome = bytes | PackedFault


class ByteCalls(Protocol):
    """A table, or none so far. One call at a time is made. OutOfMemory is raised if memory runs out."""

    @property
    def most_ahead(self) -> int:
        """How many changes may be sent whose outcome is not known yet."""

    @property
    def is_lost(self) -> bool:
        """Whether the table was lost."""

    def run(self, script: bytes) -> bytes:
        """The replies to a script."""

    def check(self, script: bytes) -> None:
        """Judges each command of a script by itself, and carries out none."""

    def places(self) -> list[Place]:
        """The places of the replies to the last script, which was run or checked."""

    def explain(self, script: bytes) -> Reason | None:
        """Why the first command of a script would be refused because of its records."""

    def ask(self, request: Request, packed: bytes) -> Outcome:
        """The reply to packed bytes."""

    def send(self, changes: bytes) -> Callable[[], Outcome]:
        """Begins to apply packed changes. What is returned waits for the outcome."""

    def close(self) -> None:
        """Drops the table."""

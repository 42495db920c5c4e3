"""When a replica writes a checkpoint by itself, and the parts of one: a script that makes the table, the puts of its rows in the order of their keys, and a
script that makes the indexes and rebuilds all trees. So the table that they make is that of a `rebuild` of each tree, byte for byte. Neither writing nor reading
needs all rows at once.

Rows are packed changes, since a script cannot have all texts: a line that is a point alone ends a load. Earlier checkpoints are one script with a load, which
is divided among the parts."""

from __future__ import annotations

import logging
import operator
import re
from collections.abc import Callable, Iterable, Iterator
from itertools import groupby
from typing import Any

from ..batches import rows_of_changes, script_of_changes
from ..calls import Row
from ..language import DEFINING, MOST_DIGITS, PRIMARY, Definitions
from ..packed import puts_of_rows
from ..replies import line_blocks
from ..rows import records, rows_of
from ..session import ScriptSession
from .reads import Runner

ENGINE = 1  # raised when a script may give other replies, or other trees, than before
PART_ROWS = 16_384
CHECKPOINT_BYTES, LARGEST_CHECKPOINT_BYTES = 1 << 24, 1 << 60  # of a log that is replayed in some seconds
# The start of a reply to a command that defines something, and of one that is a refusal.
DEFINED = re.compile(rb"^(?:%b)" % b"|".join(sorted(DEFINING)), re.MULTILINE)
REFUSED = re.compile(rb"^refused ", re.MULTILINE)
# A part, and whether it is packed changes.
Part = tuple[bytes, bool]


def check_checkpoint_bytes(number: Any) -> None:
    if number is None:
        return
    if isinstance(number, bool) or not isinstance(number, int):
        raise TypeError(f"checkpoint_bytes is an int, and not {number!r}")
    if not 1 <= number <= LARGEST_CHECKPOINT_BYTES:
        raise ValueError(f"checkpoint_bytes is between 1 and {LARGEST_CHECKPOINT_BYTES:,}, and not {number:,}")


class AutomaticCheckpoints:
    """The checkpoints that a replica writes by itself: once its log has more than `checkpoint_bytes`, and more than the last checkpoint, so that checkpoints
    are no larger than all logs. With None it writes none."""

    def __init__(self, checkpoint_bytes: int | None, notices: logging.Logger) -> None:
        # A checkpoint is due when the log has more bytes than the last of these.
        self._checkpoint_bytes, self._log_bytes, self._stored_bytes, self._most_log_bytes = checkpoint_bytes, 0, 0, 0
        self._checkpoint_count = 0
        self._checkpoint_fault: Exception | None = None
        self._notices = notices

    @property
    def checkpoint_count(self) -> int:
        """How many checkpoints were written since the replica was opened."""
        return self._checkpoint_count

    @property
    def checkpoint_fault(self) -> Exception | None:
        """Why the last checkpoint that was to be written by itself was not, or None if one was written since."""
        return self._checkpoint_fault

    @property
    def _is_checkpoint_due(self) -> bool:
        return self._checkpoint_bytes is not None and self._log_bytes > self._most_log_bytes

    def _set_most_log_bytes(self) -> None:
        self._most_log_bytes = self._log_bytes + max(self._checkpoint_bytes or 0, self._stored_bytes)

    def _try_checkpoint(self, name: str, write: Callable[[], None]) -> None:
        """Writes a checkpoint that is due. If that fails, nothing is lost, and it is tried again when the log has grown by as much again."""
        size = self._log_bytes
        try:
            write()
        except Exception as fault:
            # The frames of a traceback would keep the table when it is dropped.
            for one in (fault, fault.__cause__, fault.__context__):
                if one is not None:
                    one.__traceback__ = None
            self._checkpoint_fault = fault
            self._set_most_log_bytes()
            self._notices.warning("%s: no checkpoint was written, and the log has %s bytes: %s", name, f"{size:,}", fault)


def parts_of(definitions: Definitions, puts: Iterable[bytes]) -> Iterator[Part]:
    """The parts of a checkpoint: of the definitions of a table, whose indexes are all complete, and the puts of its rows."""
    yield b"%b\n" % definitions[PRIMARY].text, False
    for some in puts:
        yield some, True
    lines = [line for name, head in definitions.items() if name != PRIMARY for line in (head.text, b"build %b %d" % (name, 10**MOST_DIGITS - 1))]
    yield b"\n".join([*lines, *(b"rebuild %b" % name for name in definitions), b""]), False


def puts_of(runner: Runner) -> Iterator[bytes]:
    """The changes that put all rows."""
    there = runner.trees().tree()
    if hasattr(runner, "_puts_after"):
        key: Row | None = None
        while page := runner._puts_after(key, PART_ROWS):
            puts, row = page
            yield puts
            key = row[: len(there.key)]
    else:
        # What has only scripts reads all rows at once.
        for lines in line_blocks(runner.replies(b"scan primary\ngo\n")):
            yield puts_of_rows(rows_of(lines, there.kinds), there.kinds)


def scripts_of(parts: Iterable[Part], runner: Runner) -> Iterator[Part]:
    """The scripts and the packed changes of the parts of a checkpoint, each of which is run before the next one is asked for. A layer over sessions takes the
    rows by one load, as far as that can have their texts."""
    for is_packed, some in groupby(parts, key=operator.itemgetter(1)):
        if not is_packed:
            yield b"".join([script for script, _ in some]), False
        elif isinstance(runner, ScriptSession):
            yield from some
        else:
            there = runner.trees().tree()
            rows = [records(list(rows_of_changes(puts, there)), there.columns, is_load=True) for puts, _ in some]
            yield "".join(["load\n", ",".join(there.names), "\n", *rows, ".\n"]).encode(), False


def applied(runner: Runner, changes: bytes) -> bytes:
    """No bytes if packed changes were applied, or their refusal. A layer over sessions runs them as a script."""
    if isinstance(runner, ScriptSession):
        return runner._apply_packed(changes)
    reply = runner.replies(script_of_changes(changes, runner.trees().tree()))
    return reply if reply.startswith(b"refused ") else b""

"""The requests in the file of a table, as docs/ENGINE.md describes it, and the lines that made the table and its indexes, which the library does not tell."""

from __future__ import annotations

from collections.abc import Iterator
from itertools import islice

from ..byte_calls import Request
from ..frames import HEAD, ID_BYTES, LENGTH_BYTES, MAGIC
from ..language import Definitions, commands
from ..session import Session, defines_trees

# Bytes of the head of a file, and of a frame of the file before its payload.
FILE_HEAD, FRAME_HEAD = 40, 16
RESTORE, KNOWN = 14, 15  # the kinds of the requests of a checkpoint


def definitions_of(path: str) -> Definitions:
    """The lines of a file, which this process has open, or nobody. Commands that were refused are left out: they are refused by a table without rows too."""
    found = Definitions()
    with Session() as trial:
        for script in (script for group in _groups_of(path) for kind, payload in group if (script := _script_of(kind, payload))):
            for command in commands(script) if defines_trees(script) else ():
                if command.head.word in (b"table", b"index", b"drop") and not trial.replies(command.head.text + b"\n").startswith(b"refused "):
                    found.take(command)
    return found


def checkpoint_of(path: str) -> tuple[Definitions, bytes] | None:
    """The lines of a file that has only a checkpoint, and the requests in it which say what is known of those that ran once. None if the file has more."""
    groups = [*islice(_groups_of(path), 2)]
    if len(groups) != 1 or any(kind not in (KNOWN, RESTORE) for kind, _ in groups[0]):
        return None
    found = Definitions()
    for kind, payload in groups[0]:
        for command in commands(_script_of(kind, payload)):
            found.take(command)
    return found, b"".join(HEAD.pack(MAGIC, len(payload), kind) + payload for kind, payload in groups[0] if kind == KNOWN)


def _groups_of(path: str) -> Iterator[list[tuple[int, bytes]]]:
    """The requests of each group in a file, each its kind and its payload. Zeros may come after the last group."""
    with open(path, "rb") as file:
        file.seek(FILE_HEAD)
        while length := int.from_bytes(file.read(LENGTH_BYTES), "little"):
            group, at, found = file.read(length - LENGTH_BYTES), FRAME_HEAD - LENGTH_BYTES, []
            while at < len(group):
                _, size, kind = HEAD.unpack_from(group, at)
                begin = at + HEAD.size
                at = begin + size
                found.append((kind, group[begin:at]))
            yield found


def _script_of(kind: int, payload: bytes) -> bytes:
    """The script that a request runs, or no bytes."""
    if kind == Request.ONCE:
        kind, payload = payload[ID_BYTES], payload[ID_BYTES + 1 :]
    if kind == RESTORE:
        return payload[LENGTH_BYTES : LENGTH_BYTES + int.from_bytes(payload[:LENGTH_BYTES], "little")]
    return payload if kind == Request.SCRIPT else b""

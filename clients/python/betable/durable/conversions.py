"""Tables of the files of earlier versions, which are SQLite databases: `convert`, also by `python3 -m betable convert OLD NEW`.

Such a file has a log of the scripts and the packed changes that changed the table, each with a checksum of itself and its replies, after a checkpoint. They are
carried out again on a new table. What the file has of request ids cannot be kept: it has no sums of the scripts by which a table knows them.
"""

from __future__ import annotations

import argparse
import fcntl
import os
import sys
import zlib
from collections.abc import Iterable, Iterator
from contextlib import closing, contextmanager
from itertools import islice
from pathlib import Path
from typing import TYPE_CHECKING, Any

from ..errors import Corrupt, InUse, NewerFormat, NotATable
from .copies import FAULTS
from .table import Durable, open as open_table, renamed_when_whole

if TYPE_CHECKING:
    import sqlite3

APPLICATION_ID, NEWEST_FORMAT = 0x6274626C, 4
PACKED_LOGS, PACKED_CHECKPOINTS = 3, 4  # the first formats whose logs, and whose checkpoints, may have packed changes
GROUP_ENTRIES = 1_000  # of the log, which are kept together


def convert(old: str | os.PathLike[str], new: str | os.PathLike[str]) -> int:
    """Makes a new file with the table of one of an earlier version, which stays as it is, and returns the number of its rows. Nobody may have it open, and it
    has to be closed: InUse otherwise. Request ids are not kept. Corrupt if its scripts or their replies are not those that were kept; then, and after any other
    fault, there is no new file."""
    old, new = (os.path.abspath(os.fsdecode(name)) for name in (old, new))
    if os.path.lexists(new):
        raise FileExistsError(f"{new} is there already: a table is written to a new file")
    with _opened(old) as db, renamed_when_whole(new) as part, open_table(part) as table:
        version = _checked_format(db, old)
        _replay(db, version, old, table)
        if table.trees() and not table.trees().building:
            table.checkpoint()
        count = table.count() if table.trees() else 0
    return count


@contextmanager
def _opened(path: str) -> Iterator[sqlite3.Connection]:
    """The file, which nobody changes meanwhile."""
    import sqlite3

    with open(path, "rb") as file:
        try:
            fcntl.flock(file, fcntl.LOCK_SH | fcntl.LOCK_NB)
        except BlockingIOError as fault:
            raise InUse(f"{path} is open already, by another process or by this one") from fault
        if os.path.exists(f"{path}-wal") and os.path.getsize(f"{path}-wal") > 0:
            raise InUse(f"{path} was not closed, so that part of it is in {path}-wal: open and close it with the version that wrote it")
        try:
            with closing(sqlite3.connect(f"{Path(path).as_uri()}?mode=ro&immutable=1", uri=True)) as db:
                yield db
        except (sqlite3.Error, UnicodeDecodeError) as fault:
            if getattr(fault, "sqlite_errorcode", None) == sqlite3.SQLITE_NOTADB:
                raise NotATable(f"{path} is no SQLite database") from fault
            raise Corrupt(path, None, f"{fault}, so use a backup") from fault


def _checked_format(db: sqlite3.Connection, path: str) -> int:
    version: int = _value(db, "PRAGMA user_version")
    if _value(db, "PRAGMA application_id") != APPLICATION_ID or version < 1:
        raise NotATable(f"{path} is no table of an earlier version")
    if version > NEWEST_FORMAT:
        raise NewerFormat(f"{path} has format {version}, and formats 1 to {NEWEST_FORMAT} are known")
    if (found := _value(db, "PRAGMA integrity_check(1)")) != "ok":
        raise Corrupt(path, None, f"{found}, so use a backup")
    return version


def _replay(db: sqlite3.Connection, version: int, path: str, table: Durable) -> None:
    number, checksum = db.execute("SELECT number, checksum FROM about").fetchone() or (0, None)
    parts = f"SELECT text, {'is_packed' if version >= PACKED_CHECKPOINTS else '0'} FROM checkpoint ORDER BY part"
    found = 0
    for part, _ in db.execute(parts):
        # A changed byte may make a value one of another type.
        found = zlib.crc32(part, found) if isinstance(part, bytes) else -1
        if found < 0:
            break
    if not isinstance(number, int) or found != checksum:
        raise Corrupt(path, 0, "its bytes are not those that were written, so use a backup")
    for part, is_packed in db.execute(parts):
        replies = _carried_out(table, part, is_packed)
        if replies.startswith(b"refused ") or b"\nrefused " in replies:
            raise Corrupt(path, 0, f"it was refused: {replies.decode()}")
    log = db.execute(f"SELECT number, script, checksum, {'is_packed' if version >= PACKED_LOGS else '0'} FROM log ORDER BY number")
    while entries := list(islice(log, GROUP_ENTRIES)):
        with table.group():
            _replay_some(entries, number, path, table)
        number = entries[-1][0]


def _replay_some(entries: Iterable[tuple[Any, ...]], before: int, path: str, table: Durable) -> None:
    """Carries out the next scripts and packed changes of the log, which follow that of a number."""
    for expected, (number, script, checksum, is_packed) in enumerate(entries, before + 1):
        if number != expected:
            raise Corrupt(path, expected, "it is missing, so use a backup")
        if not isinstance(script, bytes):
            raise Corrupt(path, number, "it is not the script that was kept, so use a backup")
        if zlib.crc32(_carried_out(table, script, is_packed), zlib.crc32(script)) != checksum:
            raise Corrupt(path, number, "it or its replies are not those that were kept: the file is damaged, so use a backup")


def _carried_out(table: Durable, script: bytes, is_packed: Any) -> bytes:
    """The replies to a script, or no bytes if packed changes were applied."""
    return table._apply_packed(script) if is_packed else table.replies(script)


def _value(db: sqlite3.Connection, query: str) -> Any:
    return db.execute(query).fetchone()[0]


# ---- the command line ----

DESCRIPTION = """\
Makes a new file with the durable table of a file of an earlier version, which has to be closed and stays as it is. Its request ids are not kept."""


def add_words(parser: argparse.ArgumentParser) -> None:
    parser.add_argument("old", metavar="OLD", help="the file of an earlier version")
    parser.add_argument("new", metavar="NEW", help="the new file")


def run(words: argparse.Namespace) -> int:
    try:
        count = convert(words.old, words.new)
    except FAULTS as fault:
        print(f"betable convert: {fault}", file=sys.stderr)
        return 1
    print(f"{words.new} has the {count:,} rows of {words.old}, and none of its request ids.")
    return 0

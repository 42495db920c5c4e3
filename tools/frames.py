"""Frames of requests to betable_engine and of its replies, which docs/ENGINE.md describes."""

import struct

MAGIC = b"BTF\1"
SCRIPT, CHECK, APPLY, GET, PAGE, LAST_PAGE, SUMS, COLUMNS, USAGE, TREES, EXPLAIN, ONCE = range(1, 13)
RESTORE, KNOWN = 14, 15
DONE, REFUSED, INVALID = range(3)


def frame(kind, payload=b"", length=None):
    return MAGIC + struct.pack("<QB", len(payload) if length is None else length, kind) + payload


def once(number, payload, kind=SCRIPT):
    """A request that runs once, with this number as its id."""
    return frame(ONCE, number.to_bytes(16, "little") + bytes([kind]) + payload)


def snapshot(script, rows):
    """The payload of a request that restores a table: a script that makes it, and its rows as a CSV text."""
    return struct.pack("<Q", len(script)) + script + rows


def frames_of(output):
    """The frames that bytes are: of each its kind and its payload."""
    found, at = [], 0
    while at < len(output):
        magic, length, kind = struct.unpack_from("<4sQB", output, at)
        if magic != MAGIC or at + 13 + length > len(output):
            raise ValueError(f"no frame at byte {at}: {output[at : at + 50]}")
        found.append((kind, output[at + 13 : at + 13 + length]))
        at += 13 + length
    return found


def text_of(replies):
    """The text of the replies to a script."""
    return replies[: int.from_bytes(replies[-8:], "little")]


def packed(count, items=b""):
    """The payload of a request in packed bytes, with this number."""
    return b"BTV\1" + struct.pack("<I", count) + items

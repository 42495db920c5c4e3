"""The library for C in this process, by ctypes."""

from __future__ import annotations

import ctypes
from collections.abc import Callable, Iterable
from typing import TYPE_CHECKING, Any

from .byte_calls import Outcome, PackedFault, Request
from .errors import OutOfMemory
from .installed import path_of
from .reasons import Problem, Reason
from .replies import Place

# The extension, or None if it is not built.
if TYPE_CHECKING:
    from . import _packed as _packed
else:
    try:
        from . import _packed
    except ImportError:
        _packed = None

DONE, OUT_OF_MEMORY, REPLY_CUT, NOT_OPEN, ALREADY_OPEN, REFUSED = range(6)
NOT_KEPT, FILE_TOO_LONG, NOT_A_TABLE, OTHER_FORMAT, OTHER_ENGINE, DAMAGED, FILE_FAILED, FILE_IN_USE = range(6, 14)
# What became of a command, or would.
READ, CHANGED, COMMAND_REFUSED = range(3)
# Replies of fewer bytes are copied by one call.
SHORT_REPLIES = 4_096
LIBRARY = "libbt_c.so"
# The calls on packed bytes, by what they ask.
PACKED_CALLS = {
    Request.APPLY: "betable_apply", Request.GET: "betable_get", Request.PAGE: "betable_page", Request.LAST_PAGE: "betable_last_page",
    Request.SUMS: "betable_sums", Request.COLUMNS: "betable_columns", Request.USAGE: "betable_usage", Request.TREES: "betable_trees",
}  # fmt: skip


class Handle(ctypes.Structure):
    _fields_ = [("at", ctypes.c_void_p), ("is_open", ctypes.c_bool)]


class Fault(ctypes.Structure):
    _fields_ = [("refusal", ctypes.c_uint64), ("item", ctypes.c_uint64), ("column", ctypes.c_uint64)]


class _Reason(ctypes.Structure):
    _fields_ = [("refusal", ctypes.c_uint64), ("item", ctypes.c_uint64), ("field", ctypes.c_uint64), ("problem", ctypes.c_uint32)]


class _ReplyPlace(ctypes.Structure):
    _fields_ = [("offset", ctypes.c_uint64), ("length", ctypes.c_uint64), ("kind", ctypes.c_uint32)]


def library_path() -> str:
    return str(path_of(LIBRARY, "BETABLE_LIBRARY", "out", "a package of betable has it, bin/build_c of the repository builds it"))


def _loaded_library() -> ctypes.CDLL:
    library = ctypes.CDLL(library_path())
    handle, size = ctypes.POINTER(Handle), ctypes.c_size_t
    of_packed = [handle, ctypes.c_char_p, size, ctypes.POINTER(Fault)]
    calls: list[tuple[str, list[Any], Any]] = [
        ("betable_open", [handle], ctypes.c_uint),
        ("betable_run", [handle, ctypes.c_char_p, size], ctypes.c_uint),
        ("betable_check", [handle, ctypes.c_char_p, size], ctypes.c_uint),
        ("betable_explain", [handle, ctypes.c_char_p, size, ctypes.POINTER(_Reason)], ctypes.c_uint),
        *((name, of_packed, ctypes.c_uint) for name in PACKED_CALLS.values()),
        ("betable_replies_length", [handle], size),
        ("betable_copy_replies", [handle, size, ctypes.c_char_p, size], size),
        ("betable_reply_count", [handle], size),
        ("betable_reply", [handle, size, ctypes.POINTER(_ReplyPlace)], ctypes.c_bool),
        ("betable_is_lost", [handle], ctypes.c_bool),
        ("betable_close", [handle], ctypes.c_uint),
    ]
    declare(library, calls)
    return library


def declare(library: ctypes.CDLL, calls: list[tuple[str, list[Any], Any]]) -> None:
    """Gives calls of the library, by their names, the types of their arguments and of their results."""
    for name, arguments, result in calls:
        function = getattr(library, name)
        function.argtypes, function.restype = arguments, result


def addresses(library: Any, names: Iterable[str]) -> tuple[int, ...]:
    """Those of calls of the library, by their names, for the extension: 0 for a call that it does not have."""
    calls = (getattr(library, name, None) for name in names)
    return tuple(0 if call is None else ctypes.cast(call, ctypes.c_void_p).value or 0 for call in calls)


def copied_replies(copy: Callable[..., int], length: Callable[..., int], handle: ctypes.Structure, room: ctypes.Array[ctypes.c_char]) -> bytes:
    """The replies of the last call, by these two calls of the library. The room has SHORT_REPLIES bytes."""
    count = copy(handle, 0, room, SHORT_REPLIES)
    if count == SHORT_REPLIES:
        size = length(handle)
        room = ctypes.create_string_buffer(size)
        count = copy(handle, 0, room, size)
    return room.raw[:count]


_library: ctypes.CDLL | None = None


class LibraryCalls:
    """The calls of the library on a session of its own. The replies to a call are kept until the next one."""

    most_ahead = 0  # a call returns with its outcome

    def __init__(self) -> None:
        global _library
        self.handle, self.fault, self.place = Handle(), Fault(), _ReplyPlace()
        self._room = ctypes.create_string_buffer(SHORT_REPLIES)
        _library = _library or _loaded_library()
        self.library: Any = _library
        self._is_open = False
        if self.library.betable_open(self.handle) != DONE:
            raise OutOfMemory
        self._is_open = True

    def __del__(self) -> None:
        if self.__dict__.get("_is_open"):
            self.library.betable_close(self.handle)

    @property
    def is_lost(self) -> bool:
        return bool(self.library.betable_is_lost(self.handle))

    def run(self, script: bytes) -> bytes:
        status = self.library.betable_run(self.handle, script, len(script))
        replies = self.copied()
        if status != DONE:
            raise OutOfMemory(replies, status == REPLY_CUT, self.is_lost)
        return replies

    def check(self, script: bytes) -> None:
        if self.library.betable_check(self.handle, script, len(script)) != DONE:
            raise OutOfMemory(b"", False, self.is_lost)

    def places(self) -> list[Place]:
        library, handle, place = self.library, self.handle, self.place
        found = []
        for number in range(library.betable_reply_count(handle)):
            library.betable_reply(handle, number, place)
            found.append((place.offset, place.offset + place.length, place.kind == COMMAND_REFUSED))
        return found

    def explain(self, script: bytes) -> Reason | None:
        reason = _Reason()
        status = self.library.betable_explain(self.handle, script, len(script), reason)
        if status == OUT_OF_MEMORY:
            raise OutOfMemory(b"", False, self.is_lost)
        return Reason(reason.refusal, reason.item, reason.field, Problem(reason.problem)) if status == REFUSED else None

    def ask(self, request: Request, packed: bytes) -> Outcome:
        status = getattr(self.library, PACKED_CALLS[request])(self.handle, packed, len(packed), self.fault)
        if status == OUT_OF_MEMORY:
            raise OutOfMemory(b"", False, self.is_lost)
        if status != DONE:
            return PackedFault(self.fault.refusal, self.fault.item, self.fault.column)
        return b"" if request == Request.APPLY else self.copied()

    def send(self, changes: bytes) -> Callable[[], Outcome]:
        outcome = self.ask(Request.APPLY, changes)
        return lambda: outcome

    def close(self) -> None:
        if self._is_open:
            self._is_open = False
            self.library.betable_close(self.handle)

    def copied(self) -> bytes:
        """The replies of the last call."""
        library = self.library
        return copied_replies(library.betable_copy_replies, library.betable_replies_length, self.handle, self._room)

"""Requests and replies in frames, which docs/ENGINE.md describes. `FramedCalls` has the calls on bytes by them, and `FramedSession` what a session has over
these beside the calls of every session."""

from __future__ import annotations

import struct
from functools import partial
from hashlib import blake2b
from typing import Protocol

from .byte_calls import ByteCalls, Outcome, PackedFault, Request
from .calls import as_script
from .errors import RequestReused, check_request_id
from .reasons import Problem, Reason
from .replies import Place
from .session import PackedSession

MAGIC = b"BTF\x01"
HEAD = struct.Struct("<4sQB")
# Replies: the status, the numbers of a refusal, the place where the reply to a command ends and what it did, and the length of the replies.
DONE, REFUSED, INVALID = range(3)
FAULT, REASON, MARK, LENGTH_BYTES = struct.Struct("<3Q"), struct.Struct("<4Q"), struct.Struct("<QB"), 8
COMMAND_REFUSED = 2
ID_BYTES = 16  # of a request that runs once


class FramedCalls:
    """The calls on bytes, each by a request."""

    _marks = b""

    def _exchange(self, request: int, payload: bytes) -> tuple[int, bytes]:
        """The status and the payload of the reply to a request."""
        raise NotImplementedError

    def _answered(self, request: int, payload: bytes) -> tuple[int, bytes]:
        return taken(self._exchange(request, payload))

    def run(self, script: bytes) -> bytes:
        return self._take_marks(self._answered(Request.SCRIPT, script)[1])

    def run_once(self, request_id: str, script: bytes) -> bytes:
        return self._take_marks(self._answered_once(request_id, Request.SCRIPT, script)[1])

    def _answered_once(self, request_id: str, request: int, payload: bytes) -> tuple[int, bytes]:
        """The reply to a request, which is that of the first time if there was one with this id."""
        identity = blake2b(request_id.encode(), digest_size=ID_BYTES).digest()
        reply = self._exchange(Request.ONCE, identity + bytes((request,)) + payload)
        if reply == (INVALID, b"RequestReused"):
            raise RequestReused(request_id)
        return taken(reply)

    def check(self, script: bytes) -> None:
        self._take_marks(self._answered(Request.CHECK, script)[1])

    def _take_marks(self, payload: bytes) -> bytes:
        """The text of the replies to a script, after which the marks of its commands come."""
        length = int.from_bytes(payload[-LENGTH_BYTES:], "little")
        self._marks = payload[length:-LENGTH_BYTES]
        return payload[:length]

    def places(self) -> list[Place]:
        begin, found = 0, []
        for end, kind in MARK.iter_unpack(self._marks):
            found.append((begin, end, kind == COMMAND_REFUSED))
            begin = end
        return found

    def explain(self, script: bytes) -> Reason | None:
        payload = self._answered(Request.EXPLAIN, script)[1]
        if not payload:
            return None
        refusal, item, field, problem = REASON.unpack(payload)
        return Reason(refusal, item, field, Problem(problem))

    def ask(self, request: Request, packed: bytes) -> Outcome:
        return outcome_of(self._answered(request, packed))


def taken(reply: tuple[int, bytes]) -> tuple[int, bytes]:
    """The reply to a request that the engine has taken."""
    status, payload = reply
    if status == INVALID:
        raise RuntimeError(f"the engine has not taken a request: {payload.decode(errors='replace')}")
    return reply


def outcome_of(reply: tuple[int, bytes]) -> Outcome:
    status, payload = reply
    return PackedFault(*FAULT.unpack(payload)) if status == REFUSED else payload


class OnceCalls(ByteCalls, Protocol):
    def run_once(self, request_id: str, script: bytes) -> bytes:
        """The replies to a script, which is run if no script with this id was run before."""


class FramedSession(PackedSession):
    _bytes: OnceCalls

    def once(self, request_id: str, script: str | bytes) -> bytes:
        """Like `replies`, but a script that comes again with the same request id is not run again: the call returns the replies of the first time, also after
        a crash. So a caller that got no reply sends the request again. The last 100,000 requests are known. RequestReused if another script had the id. The
        table has to be in a file."""
        check_request_id(request_id)
        return self._ran(as_script(script), False, partial(self._bytes.run_once, request_id))[0]

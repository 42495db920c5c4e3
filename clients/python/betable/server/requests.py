"""Requests of the server: their parameters, names, ids and rows, each checked before it goes into a script. What is wrong is a `Problem`."""

from __future__ import annotations

import ipaddress
import re
from typing import Any
from urllib.parse import parse_qsl

from aiohttp import web

from ..errors import IndexBuilding, Refused, RequestReused
from ..forms import name_fault
from ..language import CHANGING_LINE, NUMBER
from ..messages import record
from .engine import Closed, Lost, Page, WrongKey

REQUEST_ID = re.compile(r"[!-~]{1,200}")
SPACES = {ord("\n"): " ", ord("\r"): " "}
HOST = re.compile(r"(?:\[([^\[\]]*)\]|([^:\[\]]*))(?::\d*)?")
# The statuses of refusals outside of /run, by their numbers; of the others it is 422.
STATUSES = {3: 409, 8: 404, 11: 409, 18: 503}


# ---- problems ----


class Problem(Exception):
    """An answer that is no success: its status, the reason, further fields, and headers."""

    def __init__(self, status: int, reason: str, headers: dict[str, str] | None = None, **fields: Any) -> None:
        super().__init__(reason)
        self.status, self.headers, self.fields = status, headers or {}, {"status": status, "reason": reason, **fields}


def problem_of(fault: Exception) -> Problem:
    """The problem that a fault of the engine is to a client."""
    if isinstance(fault, Refused):
        fields = {name: value for name, value in refusal_fields(fault).items() if name != "line"}  # which is that of a script that the client has not sent
        return Problem(STATUSES.get(fault.number, 422), fault.reason or str(fault), **fields)
    if isinstance(fault, Lost):
        reason = "the engine's process ended before it had answered: the script was kept or it was not. Send it again with the same Idempotency-Key"
        return Problem(503, reason, {"Retry-After": "1"})
    if isinstance(fault, Closed):
        return Problem(503, "the engine is starting: nothing was done, so try again", {"Retry-After": "1"})
    for kind, status in ((WrongKey, 400), (IndexBuilding, 409), (RequestReused, 422)):
        if isinstance(fault, kind):
            return Problem(status, str(fault))
    return Problem(507, str(fault))


def refusal_fields(fault: Refused) -> dict[str, Any]:
    fields = {"number": fault.number, "name": fault.name, "line": fault.line, "item": fault.item, "column": fault.column, "value": fault.value}
    return {name: value for name, value in fields.items() if value is not None}


# ---- parameters ----


def pairs_of(request: web.Request, *names: str) -> list[tuple[str, str]]:
    """The parameters of a request and their values, in order."""
    query = request.rel_url.raw_query_string
    if not query:
        return []
    try:
        query.encode()  # bytes that are no UTF-8 are refused
        pairs = parse_qsl(query, keep_blank_values=True, strict_parsing=True, errors="strict", max_num_fields=64)
    except ValueError as fault:
        raise Problem(400, f"the query cannot be read: {fault}") from None
    if unknown := next((name for name, _ in pairs if name not in names), None):
        raise Problem(400, f"'{unknown[:40]}' is no parameter here: there are {', '.join(names)}")
    return pairs


def query_of(request: web.Request, *names: str) -> dict[str, list[str]]:
    """The parameters of a request, each with its values in order."""
    found: dict[str, list[str]] = {}
    for name, value in pairs_of(request, *names):
        found.setdefault(name, []).append(value)
    return found


def number_of(query: dict[str, list[str]], name: str, otherwise: int) -> int:
    if name not in query:
        return otherwise
    word = query[name][0]
    if not NUMBER.fullmatch(word.encode("utf-8", "replace")) or int(word) == 0:
        raise Problem(400, f"'{name}' is a number from 1 to 999999999, and not '{word[:40]}'")
    return int(word)


def checked_name(word: str) -> str:
    """A name of a tree or a column, which may be put into a command."""
    if reason := name_fault(word.encode("utf-8", "replace")):
        raise Problem(400, reason)
    return word


def tree_of(request: web.Request) -> str:
    return checked_name(request.match_info["tree"])


def record_of(values: list[str]) -> str:
    """The record of values. No line has a line break, so one in a text is a space here: such values are read by a `Page`."""
    return record([value.translate(SPACES) for value in values])


def key_of(query: dict[str, list[str]]) -> list[str]:
    """The values of the key that is given."""
    if "key" not in query:
        raise Problem(400, "a key has a parameter 'key' for each of its columns")
    return query["key"]


def bounds_of(query: dict[str, list[str]]) -> str:
    """The lines of a block that bound a range: a parameter has a value for each column."""
    return "".join(f"{word} {record_of(query[word])}\n" for word in ("from", "to") if word in query)


def flag_of(query: dict[str, list[str]], name: str) -> bool:
    word = query.get(name, ["0"])[0]
    if word not in ("0", "1"):
        raise Problem(400, f"'{name}' is 1 or 0, and not '{word[:40]}'")
    return word == "1"


def page_of(tree: str, query: dict[str, list[str]]) -> Page:
    """The page that is asked for."""
    return Page(tree, query.get("from"), query.get("to"), query.get("after"), newest_first=flag_of(query, "newest_first"))


def request_id(request: web.Request) -> str | None:
    """The id under which a script is run exactly once, or None."""
    given = request.headers.get("Idempotency-Key")
    if given is not None and not REQUEST_ID.fullmatch(given):
        raise Problem(400, "an Idempotency-Key has 1 to 200 visible letters of ASCII")
    return given


def is_json(request: web.Request, wanted: str) -> bool:
    if wanted not in ("", "csv", "json"):
        raise Problem(400, "'format' is csv or json")
    return wanted == "json" or (not wanted and "application/json" in request.headers.get("Accept", ""))


def host_name(host: str) -> str:
    """The name in a Host header, without its port, or nothing where the header has another form."""
    found = HOST.fullmatch(host)
    return (found[1] or found[2]) if found else ""


def is_loopback(name: str) -> bool:
    try:
        return name == "localhost" or ipaddress.ip_address(name).is_loopback
    except ValueError:
        return False


def changing_word(script: bytes) -> str | None:
    """The word of the first line that may begin a command that changes the table, on any line, or None."""
    found = CHANGING_LINE.search(script)
    return found[0].strip().decode() if found else None

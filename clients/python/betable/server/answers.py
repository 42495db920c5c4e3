"""Answers of the server: replies of the engine as CSV, as JSON, as events and as pictures."""

from __future__ import annotations

import base64
import hashlib
import json
import re
from collections.abc import Iterator
from itertools import islice
from typing import Any

from ..calls import refusal
from ..figures import picture
from ..language import CHANGING, Command, commands, counted
from ..packed import Usage
from ..replies import BLOCK_BYTES, answered, line_blocks, whole_lines
from ..rows import rows_of
from ..schema import Trees, trees_after
from ..trees import image_of_reply
from .engine import Answer
from .bodies import Batch
from .requests import Problem, problem_of, refusal_fields

MOST_CHANGES = 100  # replies in an event
MOST_EXPLAINED = 1_000  # refusals of a script whose reasons are given
MOST_REASON = 1_000  # letters of a reason in a header


def content_policy(page: str) -> str:
    """The policy of the page: its own script and style, this server, and nothing else."""
    script, style = (re.search(f"<{tag}>(.*?)</{tag}>", page, re.DOTALL) for tag in ("script", "style"))
    hashes = [base64.b64encode(hashlib.sha256(part[1].encode()).digest()).decode() if part else "" for part in (script, style)]
    return f"default-src 'none'; script-src 'sha256-{hashes[0]}'; style-src 'sha256-{hashes[1]}'; img-src blob:; connect-src 'self'; frame-ancestors 'none'"


def refused_count(script: bytes, replies: bytes) -> int:
    if b"refused " not in replies:
        return 0
    return sum(is_refused for _, _, is_refused in answered(commands(script), replies))


_json_text = json.JSONEncoder(ensure_ascii=False).encode


def json_replies(script: bytes, answer: Answer, trees: Trees, refused: int) -> Iterator[bytes]:
    """Each reply with its command as JSON, in parts: the lines of the reply, or the refusal. The first refusals have their reasons."""
    return _in_blocks(_json_replies(script, answer, trees, refused))


def _json_replies(script: bytes, answer: Answer, trees: Trees, refused: int) -> Iterator[str]:
    explained, separator = 0, ""
    yield f'{{"refused": {refused}, "explained": {min(refused, MOST_EXPLAINED)}, "number": {answer.number}, "replies": ['
    for command, reply, is_refused in answered(commands(script), answer.replies):
        said: dict[str, Any] = {"line": command.head.number, "command": command.head.word.decode(errors="replace")}
        if is_refused:
            said["refused"] = _explained(command, reply, trees) if explained < MOST_EXPLAINED else _unexplained(command, reply)
            explained += 1
            yield separator + _json_text(said)
        else:
            yield separator + _json_text(said)[:-1] + ', "reply": ['
            comma = ""
            for lines in _blocks_of_lines(reply):
                yield comma + _json_text(lines)[1:-1]
                comma = ", "
            yield "]}"
        separator = ",\n"
        trees = trees_after(trees, command, reply)
    yield "]}\n"


def _explained(command: Command, reply: bytes, trees: Trees) -> dict[str, Any]:
    fault = refusal(command, reply, trees, [])
    return {**refusal_fields(fault), "line": command.line_of(fault.item), "reason": fault.reason}


def _unexplained(command: Command, reply: bytes) -> dict[str, Any]:
    _, number, name, *item = reply.decode().split()
    known = {"item": int(item[0])} if item else {}
    return {"number": int(number), "name": name, "line": command.line_of(known.get("item")), **known}


def _blocks_of_lines(reply: bytes) -> Iterator[list[str]]:
    """The lines of a reply, in blocks. A text with a line break is in quotes, and in one line."""
    at = 0
    while at < len(reply):
        end = reply.find(b"\n", min(at + BLOCK_BYTES, len(reply) - 1)) + 1 or len(reply)
        while end < len(reply) and reply.count(b'"', at, end) % 2:
            end = reply.find(b"\n", end) + 1 or len(reply)
        yield whole_lines(reply[at : end - 1].decode(), "\n")
        at = end


def _in_blocks(texts: Iterator[str]) -> Iterator[bytes]:
    """Texts together, about as many as a block has."""
    block, size = [], 0
    for text in texts:
        block.append(text)
        size += len(text)
        if size >= BLOCK_BYTES:
            yield "".join(block).encode("utf-8", "replace")
            block, size = [], 0
    yield "".join(block).encode("utf-8", "replace")


def refusal_of_batch(batch: Batch, replies: bytes, trees: Trees) -> Problem:
    """The problem of a batch that was refused, with the place in the body."""
    command = next(commands(batch.script))
    fault = refusal(command, replies, trees, [])
    problem = problem_of(fault)
    if fault.item is not None:
        problem.fields[batch.unit] = command.line_of(fault.item) - 1 if batch.places is None else batch.places[fault.item - 1]
    if batch.value is not None:
        problem.fields["value"] = batch.value.decode(errors="replace")
    return problem


def first_reason(script: bytes, replies: bytes, trees: Trees) -> str:
    """The line and the reason of the first command of a script that was refused, in letters that a header may have."""
    for command, reply, is_refused in answered(commands(script), replies):
        if is_refused:
            fault = refusal(command, reply, trees, [])
            reason = " ".join(f"line {command.line_of(fault.item)}: {fault.reason}".split())
            return reason.encode("ascii", "backslashreplace").decode()[:MOST_REASON]
        trees = trees_after(trees, command, reply)
    return ""


def start_event(number: int, since: float) -> str:
    """The event that the engine was started, or that a reader has come: the number of the last script that is kept, and when the numbers began, in seconds
    since 1970."""
    return f"id: {number}\nevent: start\ndata: {json.dumps({'number': number, 'since': since})}\n\n"


def event_of(script: bytes, answer: Answer) -> str:
    """The event that a script was kept: its number, and the replies to those of its commands that changed the table, as far as an event has them."""
    with_replies = answered(commands(script), answer.replies)
    changes = (reply for command, reply, is_refused in with_replies if command.head.word in CHANGING and not is_refused)
    found = [reply[:-1].decode() for reply in islice(changes, MOST_CHANGES + 1)]
    said = {"number": answer.number, "replies": found[:MOST_CHANGES], "more": len(found) > MOST_CHANGES}
    return f"id: {answer.number}\ndata: {json.dumps(said)}\n\n"


class RowsAnswer:
    """How rows are written: what comes before them, the rows of each answer of the engine, and what comes after them. A group has its count and its sum before
    the values that it is of."""

    content_type = ""

    def __init__(self, answer: Answer, is_sums: bool, is_cut: bool) -> None:
        self.is_sums, self.is_cut = is_sums, is_cut
        self.names = (["count", "sum"] if is_sums else []) + [name for name, _ in answer.columns]

    def begin(self) -> bytes:
        return b""

    def rows(self, answer: Answer) -> Iterator[bytes]:
        raise NotImplementedError

    def end(self) -> bytes:
        return b""


class CsvRows(RowsAnswer):
    """Rows as CSV."""

    content_type = "text/csv; charset=utf-8; header=absent"

    def rows(self, answer: Answer) -> Iterator[bytes]:
        for lines in line_blocks(answer.replies):
            if self.is_sums:
                lines = [line.replace(" ", ",", 2) for line in lines]
            yield "".join(line + "\n" for line in lines).encode()


class CsvRowsWithHeader(CsvRows):
    """Rows as CSV after a line with the names of the columns."""

    content_type = "text/csv; charset=utf-8; header=present"

    def begin(self) -> bytes:
        return f"{','.join(self.names)}\n".encode()


class JsonRows(RowsAnswer):
    """Rows as JSON. Bytes are in hexadecimal digits, as in a script."""

    content_type = "application/json"
    comma = ""

    def begin(self) -> bytes:
        return f'{{"columns": {json.dumps(self.names)}, "more": {json.dumps(self.is_cut)}, "rows": ['.encode()

    def rows(self, answer: Answer) -> Iterator[bytes]:
        kinds = tuple(kind for _, kind in answer.columns)
        for lines in line_blocks(answer.replies):
            counts: list[list[int]] = [[] for _ in lines]
            if self.is_sums:
                groups = [line.split(" ", 2) for line in lines]
                counts, lines = [[int(count), int(total)] for count, total, _ in groups], [values for _, _, values in groups]
            rows = ([*count, *(value.hex() if isinstance(value, bytes) else value for value in row)] for count, row in zip(counts, rows_of(lines, kinds)))
            yield (self.comma + ",\n".join(_json_text(row) for row in rows)).encode()
            self.comma = ",\n"

    def end(self) -> bytes:
        return b"]}\n"


def trees_of(trees: Trees) -> dict[str, Any]:
    """The table as JSON: its columns, and its trees with the columns of their rows and of their keys."""
    rows = trees.tree()
    columns = [{"name": column.name, "kind": column.kind} for column in rows.columns]
    found = {tree.name: {"columns": tree.names, "key": tree.names[: len(tree.key)], "complete": tree.is_complete} for tree in trees}
    return {"columns": columns, "key": rows.names[: len(rows.key)], "trees": found}


def picture_of(replies: bytes, tree: str, trees: Trees, columns: int, lines: int) -> str:
    """The picture of the image of a tree. Its keys are shown as their values."""
    image = image_of_reply(replies.decode(), trees.tree(tree))
    return picture([image], columns, lines, [image.title()])


def too_large(usage: Usage) -> Problem:
    """The problem of a tree that is not drawn, with how much it holds."""
    holds = f"{counted(usage.rows, 'row')} in leaves, and {counted(usage.messages, 'message')} in buffers"
    return Problem(422, f"the tree is too large to be drawn: height {usage.height}, {holds}", **usage._asdict())

"""Replies cut into those of each command, with their rows."""

from __future__ import annotations

from collections.abc import Iterable, Iterator, Sequence
from typing import Any

from .language import LAST_LINES, NUMBER, Command
from .rows import Value, rows_of
from .schema import Trees

# The word of a line that has a row or a group, by the command.
ROW_WORDS = {b"get": "row ", b"scan": "row ", b"sums": "sum "}
BLOCK_BYTES = 65_536  # of a reply that are taken at once
# Where a reply begins and ends among those of its script, and whether its command was refused, as the library says.
Place = tuple[int, int, bool]


def reply_end(word: bytes, replies: bytes, at: int) -> int:
    """Where the reply ends that begins at a place and is that of a command with this word, or -1 where it is not whole."""
    last = LAST_LINES.get(word)
    if last is not None and not replies.startswith((b"refused ", last), at):
        before = _outside_quotes(replies, b"\n" + last, at)
        if before < 0:
            return -1
        at = before + 1
    end = _outside_quotes(replies, b"\n", at)
    return end + 1 if end >= 0 else -1


def _outside_quotes(replies: bytes, part: bytes, at: int) -> int:
    """The first place from `at` on where these bytes are outside of quotes, or -1. A text with a line break is in quotes."""
    quotes, end = 0, replies.find(part, at)
    while end >= 0:
        quotes += replies.count(b'"', at, end)
        if quotes % 2 == 0:
            return end
        at, end = end, replies.find(part, end + 1)
    return -1


def answered(commands: Iterable[Command], replies: bytes, places: Iterable[Place] | None = None) -> Iterator[tuple[Command, bytes, bool]]:
    """Each command with its reply, and whether it was refused. Without places, where replies come from elsewhere than a session or memory ran out, their text
    says where they end, up to the last one that is whole."""
    if places is not None:
        for command, (begin, end, is_refused) in zip(commands, places):
            yield command, replies[begin:end], is_refused
        return
    at = 0
    for command in commands:
        end = reply_end(command.head.word, replies, at)
        if end < 0:
            return
        yield command, replies[at:end], replies.startswith(b"refused ", at)
        at = end


def whole_lines(text: str, separator: str) -> list[str]:
    """The parts of a text between separators that are not inside of quotes."""
    parts = text.split(separator)
    if '"' not in text:
        return parts
    found: list[str] = []
    begun: list[str] = []
    for part in parts:
        begun.append(part)
        if part.count('"') % 2 == (len(begun) > 1):
            found.append(separator.join(begun))
            begun = []
    return found + ([separator.join(begun)] if begun else [])


def line_blocks(replies: bytes) -> Iterator[list[str]]:
    """The lines of a reply to a `scan` or to `sums` that have rows or groups, in blocks, without the words before the records."""
    at, last = 0, replies.rfind(b"\n", 0, -1) + 1
    while at < last:
        end = replies.find(b"\n", min(at + BLOCK_BYTES, last - 1), last) + 1 or last
        while end < last and replies.count(b'"', at, end) % 2:
            end = replies.find(b"\n", end, last) + 1 or last
        yield [line[4:] for line in whole_lines(replies[at : end - 1].decode(), "\n")]
        at = end


class Reply(list[str]):
    """The lines of a reply. `rows` has a tuple for each row or group: of a group the number of its rows, the sum, and then the values that it is of."""

    def __init__(self, text: str, word: bytes = b"", kinds: tuple[str, ...] = ()) -> None:
        super().__init__(whole_lines(text[:-1], "\n"))
        self._word, self._kinds = word, kinds

    @property
    def is_refused(self) -> bool:
        return self[0].startswith("refused ")

    @property
    def rows(self) -> list[tuple[Value, ...]]:
        if self.is_refused:
            return []
        return _rows(self._word, [line[4:] for line in self if line.startswith(ROW_WORDS.get(self._word, "\n"))], self._kinds)

    def __reduce__(self) -> tuple[Any, ...]:
        return Reply, ("".join(line + "\n" for line in self), self._word, self._kinds)


def rows_of_reply(word: bytes, text: str, kinds: Sequence[str]) -> list[tuple[Value, ...]]:
    """The rows of a reply that is not refused, without a list of its lines."""
    prefix = ROW_WORDS[word]
    if not text.startswith(prefix):
        return []
    body = text[4:-1] if word == b"get" else text[4 : text.rindex("\n", 0, -1)]
    return _rows(word, whole_lines(body, "\n" + prefix), kinds)


def _rows(word: bytes, lines: list[str], kinds: Sequence[str]) -> list[tuple[Value, ...]]:
    if word != b"sums":
        return rows_of(lines, kinds)
    groups = [line.split(" ", 2) for line in lines]
    values = rows_of([group[2] for group in groups], kinds)
    return [(int(count), int(total), *value) for (count, total, _), value in zip(groups, values)]


def kinds_of_rows(trees: Trees, command: Command) -> tuple[str, ...]:
    """The kinds of the columns that the rows of a command's reply have. Empty where the tree is unknown, or the command has another form."""
    word, words = command.head.word, command.head.words
    if word == b"get":
        return tuple(trees.tree().kinds)
    if word not in ROW_WORDS or len(words) < 2 or not trees.has_tree(words[1]):
        return ()
    tree = trees.by_name[words[1]]
    if word == b"scan":
        return tuple(tree.kinds)
    return tuple(tree.key_kinds[: int(words[2])]) if len(words) > 2 and NUMBER.fullmatch(words[2]) else ()

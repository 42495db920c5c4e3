"""Where the prompt reads its lines: a terminal, with history and completion by the readline library, or a stream."""

from __future__ import annotations

import os
import re
import sys
from collections.abc import Callable, Iterable
from contextlib import suppress
from glob import glob
from io import TextIOWrapper
from pathlib import Path
from typing import BinaryIO, Protocol

from ..language import BLOCK_WORDS, CLOSING, FORMS, KINDS, OF_INDEXES, OF_TREES, OPERATIONS, OPERATORS
from ..schema import Trees

HISTORY_LINES = 10_000
FILE_COMMANDS = (".import", ".export", ".read")


class Lines(Protocol):
    """What gives lines, without their ends. `is_terminal` says whether someone types them."""

    is_terminal: bool

    def next(self, prompt: str) -> bytes | None:
        """The next line, or None at the end."""

    def close(self) -> None:
        ...


class Stream:
    """The lines of a pipe or a file."""

    is_terminal = False

    def __init__(self, stream: BinaryIO) -> None:
        self._stream = stream

    def next(self, prompt: str) -> bytes | None:
        line = self._stream.readline()
        return line.removesuffix(b"\n") if line else None

    def close(self) -> None:
        pass


class Terminal:
    """Lines that are typed. `words` returns the completions: for the text of the line before the cursor, the words that can follow it."""

    is_terminal = True

    def __init__(self, words: Callable[[str], Iterable[str]]) -> None:
        import readline

        # Bytes that are no letters of the terminal's encoding go to the table unchanged; it reports why it does not take them.
        if isinstance(sys.stdin, TextIOWrapper):
            sys.stdin.reconfigure(errors="surrogateescape")
        self._readline, self._words = readline, words
        self._history = os.environ.get("BETABLE_HISTORY") or str(Path.home() / ".betable_history")
        self._found: list[str] = []
        with suppress(OSError):
            readline.read_history_file(self._history)
        readline.set_history_length(HISTORY_LINES)
        readline.set_completer_delims(" ,:")
        readline.set_completer(self._complete)
        readline.parse_and_bind("tab: complete")

    def _complete(self, text: str, place: int) -> str | None:
        if place == 0:
            before = self._readline.get_line_buffer()[: self._readline.get_begidx()]
            self._found = [word for word in self._words(before) if word.startswith(text)]
            if not text and not before:
                self._found = [word for word in self._found if not word.startswith(".")]
            if not before and len(self._found) == 1:
                self._found = [with_space(self._found[0])]
        return self._found[place] if place < len(self._found) else None

    def next(self, prompt: str) -> bytes | None:
        try:
            return input(prompt).encode(sys.stdin.encoding, "surrogateescape")
        except EOFError:
            print()
            return None

    def close(self) -> None:
        with suppress(OSError):
            self._readline.write_history_file(self._history)


# ---- completion ----

# The words that are a whole line.
WHOLE_LINES = {form.encode() for form in FORMS.values() if " " not in form} | set(CLOSING.values())


def with_space(word: str) -> str:
    """The first word of a line, with a space if more words follow it."""
    return word if word.encode() in WHOLE_LINES else f"{word} "


def _texts(names: Iterable[bytes]) -> list[str]:
    return [name.decode() for name in names]


def completions(before: str, there: Trees, block: bytes | None, dot_commands: Iterable[str]) -> list[str]:
    """The words that can follow the text of a line. `block` is the command whose block is open, or None."""
    columns, trees = there.tree().names, [tree.name for tree in there]
    words = [word for word in before.split(" ") if word]
    if block is not None:
        if not words:
            return _texts([*BLOCK_WORDS.get(block, ()), CLOSING[block]])
        return [*_texts(OPERATIONS), *columns] if words[0] == "ups" and "," in before else []
    if not words:
        return [*_texts(FORMS), *dot_commands]
    word, place = words[0].encode(errors="surrogateescape"), len(words)
    if word.startswith(b"."):
        return _after_dot_command(words, trees)
    if word in OF_TREES and place == 1:
        return trees
    if word in OF_INDEXES and place == 1:
        return trees[1:]
    if word == b"sums" and place == 3:
        return columns
    if word == b"table":
        return _texts(KINDS) if before.endswith(":") else []
    return _in_index(before, words, columns) if word == b"index" else []


def _after_dot_command(words: list[str], trees: list[str]) -> list[str]:
    if words[0] in FILE_COMMANDS and len(words) == 1:
        return sorted(f"{path}/" if os.path.isdir(path) else path for path in [*glob("*"), *glob("*/*")])
    if words[0] in (".tree", ".export"):
        return trees
    if words[0] in (".timer", ".limit"):
        return ["on", "off"] if words[0] == ".timer" else ["off"]
    return _texts(FORMS) if words[0] == ".help" else []


def _in_index(before: str, words: list[str], columns: list[str]) -> list[str]:
    """What follows in the line of an index: its words, and columns after them."""
    if len(words) == 2:
        return ["on"]
    if re.search(r"(?:on|include) +(?:[a-z0-9_]+,)*$", before) or words[-1] == "where":
        return columns
    if words[-2:-1] == ["where"]:
        return _texts(OPERATORS)
    return ["include", "where"] if len(words) > 2 and "where" not in words else []

"""Tests of the syntax files of editors/: each word of the language is in both, and where Vim is installed it takes the words of a script for what they are."""

import json
import re
import subprocess
import tempfile
from collections.abc import Iterator
from pathlib import Path
from typing import Any
from unittest import TestCase

from .common import SECONDS, TOP, needs

from betable import language

VIM, TEXTMATE = TOP / "editors/vim", TOP / "editors/textmate/betable.tmLanguage.json"
# The words of each part of the language, by the group of Vim and by the scope of TextMate that they belong to.
BLOCK_WORDS = [word for words in language.BLOCK_WORDS.values() for word in words]
CLOSING = [word for word in language.CLOSING.values() if word.isalpha()]
PARTS = {
    "keyword.control": [*language.FORMS, *CLOSING],
    "keyword.other": [*BLOCK_WORDS, b"on", b"include", b"where"],
    "keyword.operator": [*language.OPERATIONS, *language.OPERATORS],
    "storage.type": list(language.KINDS),
    "variable.language": [language.PRIMARY],
    "constant.language": [b"true", b"false"],
}
SCRIPT = """table 16 98304b 256 1 id:int city:text
load
id,city
1,"a ""b"
.
batch
put 1,batch
ups 1,add,qty,5
end
scan primary
from 3
go
index c on city include id where id >= 5
sums c 1 qty
go
"""


def words_in(pattern: str) -> set[str]:
    """The words that a pattern has as alternatives, or as all of it."""
    return {word for word in re.split(r"[^a-z<>=]+", re.sub(r"\\(?:%\(|z[es]|r|b|@\d?<?[=!]|[ab])|\(\?<?[=!][^)]*\)", " ", pattern)) if word}


def patterns_of(node: Any) -> Iterator[tuple[str, str]]:
    """The scopes of a grammar of TextMate, each with the pattern that gives it."""
    if isinstance(node, list):
        for item in node:
            yield from patterns_of(item)
    elif isinstance(node, dict):
        for pattern, captures in (("match", "captures"), ("begin", "beginCaptures"), ("end", "endCaptures")):
            if pattern in node:
                for scope in [node.get("name", ""), *(group["name"] for group in node.get(captures, {}).values())]:
                    yield scope.removesuffix(".betable"), node[pattern]
        for value in node.values():
            yield from patterns_of(value)


class Editors(TestCase):
    def test_the_grammar_of_textmate_has_all_words(self) -> None:
        grammar = json.loads(TEXTMATE.read_text())
        found: dict[str, set[str]] = {}
        for scope, pattern in patterns_of(grammar):
            found.setdefault(scope, set()).update(words_in(pattern))
        self.assertEqual(
            {scope: sorted(found[scope]) for scope in PARTS}, {scope: sorted(word.decode() for word in set(words)) for scope, words in PARTS.items()}
        )
        included = set(re.findall(r'"#(\w+)"', TEXTMATE.read_text()))
        self.assertEqual(included, set(grammar["repository"]))

    def test_the_syntax_of_vim_has_all_words(self) -> None:
        text = (VIM / "syntax/betable.vim").read_text()
        found = words_in(" ".join(re.findall(r"/(.*?)/", "\n".join(line for line in text.splitlines() if line.startswith("syntax "))))) | set(text.split())
        missing = [word.decode() for words in PARTS.values() for word in words if word not in language.OPERATORS and word.decode() not in found]
        self.assertEqual(missing, [])

    @needs("vim")
    def test_vim_takes_the_words_of_a_script_for_what_they_are(self) -> None:
        """Of each line the group of its first letter and of its last one."""
        with tempfile.TemporaryDirectory() as folder:
            script, groups = Path(folder) / "a.betable", Path(folder) / "groups"
            script.write_text(SCRIPT)
            ask = "synIDattr(synID(v:val, 1, 1), 'name') . ' ' . synIDattr(synID(v:val, col([v:val, '$']) - 1, 1), 'name')"
            write = f"call writefile(map(range(1, line('$')), \"{ask}\"), '{groups}')"
            commands = [f"set runtimepath^={VIM}", "filetype on", "syntax on", f"edit {script}", write, "qall!"]
            words = [part for command in commands for part in ("-c", command)]
            subprocess.run(["vim", "-es", "-N", "-u", "NONE", "-i", "NONE", *words], stdin=subprocess.DEVNULL, capture_output=True, timeout=SECONDS)
            self.assertEqual([line.replace("betable", "") for line in groups.read_text().splitlines()], [
                "Command Kind", "Command Command", "Load Load", "Number String", "Command Command",
                "Command Command", "Message Record", "Message Number", "Command Command",
                "Command Tree", "Bound Number", "Command Command",
                "Command Number", "Command Scan", "Command Command",
            ])  # fmt: skip

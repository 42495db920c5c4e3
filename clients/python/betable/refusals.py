"""A refused command in words: each fault with its place and its reason, and what to write instead. tools/explain and the prompt print these lines."""

from __future__ import annotations

import re
from itertools import islice, takewhile

from .advice import advice_for
from .faults import MEANINGS, WITH_ADVICE, Fault, faults_of_refusal, swallowed_line
from .language import FORMS, Command, Line, counted, visible
from .schema import Trees

MOST_FAULTS = 10  # of a command


class Refusal:
    """A refused command: its number, name and item, and the lines that say why."""

    def __init__(self, command: Command, answer: bytes, table: Trees, is_all: bool) -> None:
        words = answer.split()
        self.command, self.number = command, int(words[1])
        self.name = " ".join([words[1].decode(), words[2].decode()])
        self.label = " ".join([self.name, *(word.decode() for word in words[3:])])
        self.swallowed = self.swallowed_line(table)
        self.lines: list[str] = []
        self.first: Fault | None = None
        self.explain(table, None if is_all else MOST_FAULTS)

    def swallowed_line(self, table: Trees) -> Line | None:
        is_load = self.command.head.word == b"load"
        if self.command.closing and (self.number in (1, 2) or (is_load and self.number in (6, 7))):
            return swallowed_line(self.command, table)
        return None

    def explain(self, table: Trees, most: int | None) -> None:
        faults = iter(faults_of_refusal(self.command, self.number, table))
        if self.swallowed:
            # What follows it is wrong only because of it.
            end = self.swallowed.number
            faults = takewhile(lambda fault: fault.line is None or fault.line < end, faults)
        first = list(islice(faults, most))
        self.first, self.count = first[0] if first else None, max(1, len(first))
        self.lines += [self.fault_line(fault) for fault in first]
        left = sum(1 for _ in faults)
        self.count += left
        if left:
            self.lines.append(f"{counted(left, 'more fault')} {'is' if left == 1 else 'are'} left out; --all prints each")
        if not first and not self.swallowed:
            self.lines.append(f"{self.label}: {MEANINGS.get(self.number, 'See docs/SCRIPT.md.')}")
        self.lines += self.advice(first, table)

    def fault_line(self, fault: Fault) -> str:
        where = fault.where() or (None if self.number in (1, 2) else self.label)
        advice = f". {MEANINGS[self.number]}" if self.number in WITH_ADVICE else ""
        return (f"{where}: " if where else "") + fault.what() + advice

    def advice(self, faults: list[Fault], table: Trees) -> list[str]:
        """What to write: the form of a command, another command, the expected header of a load, or the closing line of a block."""
        head, closing = self.command.head, (self.command.closing or b"").decode()
        found = []
        if self.number == 1 and head.word in FORMS and any(not fault.where() for fault in faults):
            found.append(f"the form: {FORMS[head.word]}")
        if advice := advice_for(self.command, self.number, table):
            found.append(advice)
        if self.number == 5 and head.word == b"load" and table:
            found.append(f"the expected header: {b','.join(table.names).decode()}")
        if self.swallowed:
            found.append(f"The block began in line {head.number}, and line {self.swallowed.number} inside it looks like a command:")
            found += [f"  {visible(self.swallowed.text)}", f"Was the line '{closing}' forgotten before it?"]
        if closing and not self.command.is_closed:
            found.append(f"The block that began in line {head.number} is open until the script ends: no line is '{closing}' exactly.")
        return found

    def group(self) -> tuple[str, ...]:
        """What it has in common with other refusals: its number, and the first reason without the values and numbers in it."""
        if self.first is None:
            return self.name, self.lines[0] if self.lines else ""
        return self.name, self.first.place, re.sub(r"'.*'|[0-9][0-9,]*", "", self.first.reason)

    def line(self) -> int:
        """The line at fault, or that where the command begins."""
        return self.first.line if self.first and self.first.line else self.command.head.number

    def reason(self) -> str:
        if self.first is None:
            return self.lines[0].removeprefix(f"{self.label}: ") if self.lines else ""
        return ": ".join(text for text in (self.first.place, self.first.reason) if text)

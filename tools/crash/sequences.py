"""Random scripts through a durable table, in parts, with reopenings, checkpoints, groups, backups and rollbacks between them. Each reply is that of one session,
byte for byte."""

from __future__ import annotations

import os
import random
import shutil
import sys
from collections import Counter
from pathlib import Path

from history import Plain

from betable import durable
from betable.language import commands

sys.path.append(str(Path(__file__).resolve().parents[1] / "fuzz"))

from scripts import script


class Different(Exception):
    """A reply that is not that of a session."""


def parts_of(text: bytes, dice: random.Random) -> list[bytes]:
    """A script cut at some places between its commands."""
    lines = text.split(b"\n")
    starts = [0]
    for line in lines:
        starts.append(starts[-1] + len(line) + 1)
    places = [starts[command.head.number - 1] for command in commands(text)]
    cuts = [0, *sorted(dice.sample(places, min(len(places), dice.choice([1, 3, 8])))), len(text)]
    return [text[begin:end] for begin, end in zip(cuts, cuts[1:])]


class Pair:
    """A durable table and a session, which go the same way."""

    def __init__(self, folder: str, dice: random.Random, count: Counter[str]) -> None:
        self.folder, self.dice, self.count, self.requests = folder, dice, count, 0
        self.name = "table"
        self.plain, self.table = Plain(), self.opened()

    def opened(self) -> durable.Durable:
        return durable.open(f"{self.folder}/{self.name}")

    def close(self) -> None:
        self.plain.close()
        self.table.close()

    def expect(self, what: str, found: object, wanted: object) -> None:
        self.count[what] += 1
        if found != wanted:
            raise Different(f"{what}: found {found!r} and not {wanted!r}")

    def run(self, part: bytes) -> None:
        wanted = self.plain.replies(part)
        if self.dice.random() < 0.3:
            self.requests += 1
            for _ in range(self.dice.choice([1, 2])):
                self.expect("requests", self.table.once(f"{self.requests}", part), wanted)
        else:
            self.expect("scripts", self.table.replies(part), wanted)

    def run_group(self, parts: list[bytes]) -> None:
        with self.table.group():
            for part in parts:
                self.run(part)

    def roll_back(self, parts: list[bytes]) -> None:
        """A group that ends by an exception leaves no trace."""
        number = self.table.number
        try:
            with self.table.group():
                for part in parts:
                    self.table.replies(part)
                raise KeyError
        except KeyError:
            self.expect("rollbacks", self.table.number, number)

    def between(self, parts: list[bytes]) -> None:
        """What no reply shows."""
        match self.dice.choice(["", "", "open", "checkpoint", "backup", "roll back"]):
            case "open":
                self.table.close()
                self.table = self.opened()
                self.count["reopenings"] += 1
            case "checkpoint":
                is_building = not all(tree.is_complete for tree in self.plain.trees())
                try:
                    self.table.checkpoint()
                except durable.IndexBuilding:
                    self.expect("checkpoints refused", is_building, True)
                else:
                    self.expect("checkpoints", is_building, False)
                    self.plain.checkpoint()
            case "backup":
                self.name = "copy" if self.name == "table" else "table"
                if os.path.exists(f"{self.folder}/{self.name}"):
                    os.remove(f"{self.folder}/{self.name}")
                self.table.backup(f"{self.folder}/{self.name}")
                self.table.close()
                self.table = self.opened()
                self.count["backups"] += 1
            case "roll back":
                self.roll_back(parts)


def comparison(folder: str, seed: int, first: int, count: int) -> Counter[str]:
    """Runs scripts of a seed, by their numbers, and counts what was compared."""
    found: Counter[str] = Counter()
    for number in range(first, first + count):
        dice = random.Random(f"durable {seed} {number}")
        shutil.rmtree(folder, ignore_errors=True)
        os.makedirs(folder)
        parts = parts_of(script(seed, number), dice)
        pair = Pair(folder, dice, found)
        try:
            while parts:
                some, parts = parts[:1], parts[1:]
                if parts and dice.random() < 0.3:
                    some, parts = some + parts[:2], parts[2:]
                    pair.run_group(some)
                else:
                    pair.run(some[0])
                pair.between(some)
        except Exception as fault:
            fault.add_note(f"script {number} of seed {seed}")
            raise
        finally:
            pair.close()
    return found

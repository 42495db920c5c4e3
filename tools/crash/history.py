"""The histories that the crash tests go through, and what is right after each of their steps.

A step is a call of a durable table with its own number. Most are made by `once`, as by a client that sends again what was not answered. What is right after a
step is what a session says that went through the same steps: the images and the rows of all trees.
"""

from __future__ import annotations

import os
import random
from abc import ABC, abstractmethod
from collections.abc import Iterator
from contextlib import AbstractContextManager, nullcontext
from typing import Any

from betable import Session

PROBE = "".join(f"image {name}\nscan {name}\ngo\n" for name in ("primary", "q", "c", "b"))

class Plain(Session):
    """A session with the calls of a durable table that keeps nothing."""

    path = ""

    def once(self, request_id: str, script: str | bytes) -> bytes:
        return self.replies(script)

    def group(self) -> AbstractContextManager[None]:
        return nullcontext()

    def checkpoint(self) -> None:
        if trees := self.trees():
            self.replies(b"".join(b"rebuild %b\n" % name for name in trees.by_name))

    def backup(self, path: str) -> None:
        pass


class Step(ABC):
    """A call, or a group of calls. One that `is_repeatable` is sent again if it was not answered, whether it was kept or not."""

    is_repeatable = False

    @abstractmethod
    def make(self, table: Any, number: int) -> None:
        """Makes it, as the step of a number."""


class Once(Step):
    is_repeatable = True

    def __init__(self, script: str) -> None:
        self.script = script

    def make(self, table: Any, number: int) -> None:
        table.once(f"step {number}", self.script)


class Group(Step):
    def __init__(self, *scripts: str) -> None:
        self.scripts = scripts

    def make(self, table: Any, number: int) -> None:
        with table.group():
            for script in self.scripts:
                table.replies(script)


class Values(Step):
    """Rows and upserts of values, some with line breaks, which are kept as packed changes."""

    def make(self, table: Any, number: int) -> None:
        with table.group():
            table.put([("a\nb", number, 5, True, b"\0\n"), ("Oslo", number, 6, False, b"")])
            table.upsert_columns({"city": ["a\nb", "c\rd"], "id": number}, add={"qty": 1}, set={"tag": [b"", b"\n"]})


class Checkpoint(Step):
    def make(self, table: Any, number: int) -> None:
        table.checkpoint()


class Backup(Step):
    """A file beside the table's, in place of one that was left by an attempt that was not answered."""

    is_repeatable = True

    def make(self, table: Any, number: int) -> None:
        path = os.path.join(os.path.dirname(table.path), "backup")
        if table.path and os.path.exists(path):
            os.remove(path)
        table.backup(path)


CITIES = ["Oslo", "Bergen", '"a,b"', ""]
TABLE = "table 4 6 3 2 city:text id:int qty:int seen:flag tag:bytes\n"
LOAD = 'load\ncity,id,qty,seen,tag\n"a\nb ""x""\rrow 1,2",1,4,true,00ff\nOslo,2,7,FALSE,\n"\ufeffmark",3,9,true,ab\n.\n'
ADD = "batch\nups Oslo,2,add,qty,1\nups new,7,add,qty,5,set,tag,0a\nend\n"


def short_history() -> list[Step]:
    return [
        Once(TABLE),
        Once("index q on qty include tag where qty >= 5\nbuild q 1\nindex c on seen,qty\nbuild c 1\n"),
        Once(LOAD),
        Once(ADD),
        Group(ADD, "batch\nput 1\nend\nget Oslo,2\nscan q\ngo\n", ADD),
        Values(),
        Checkpoint(),
        Once(ADD),
        Values(),
        Once("drop q\nindex b on city include qty where city < Z \nbuild b 99\n"),
        Backup(),
        Group(ADD, ADD),
    ]


def long_history() -> list[Step]:
    """All commands, indexes that are built in steps, scripts that are refused and cut off, larger batches, checkpoints and a backup."""
    dice = random.Random(7)
    steps = short_history()
    for number in range(12):
        steps.append(Once(batch(dice, dice.randint(1, 30))))
        if number == 2:
            steps += [Once("batch\nput 1,1\nend\nget Oslo,2\nbatch\nput x,1,1,true,00\n"), Checkpoint()]
        if number == 4:
            steps += [Once("index q on tag\nbuild q 4\n"), Once("build q 4\n")]
        if number == 6:
            steps += [Group(batch(dice, 5), "build q 99\n", batch(dice, 5)), Checkpoint()]
        if number == 8:
            steps += [Once("drain primary\ndrop b\n"), Once(batch(dice, 600)), Checkpoint(), Checkpoint()]
        if number == 10:
            steps += [Once("batch\n" + "".join(f"del {key}\n" for key in ("Oslo,2", "new,7")) + "end\nrebuild primary\n"), Group()]
    return steps


def batch(dice: random.Random, count: int) -> str:
    lines = []
    for _ in range(count):
        key = f"{dice.choice(CITIES)},{dice.randrange(3 * count)}"
        lines.append(dice.choice([f"put {key},{dice.randint(-9, 9)},true,0{dice.randrange(10)}", f"del {key}", f"ups {key},add,qty,{dice.randint(1, 5)}"]))
    return "batch\n" + "\n".join(lines) + "\nend\n"


def expected(steps: list[Step]) -> Iterator[bytes]:
    """What the probe gives after no step, one step, and so on."""
    with Plain() as session:
        yield session.replies(PROBE)
        for number, step in enumerate(steps):
            step.make(session, number)
            yield session.replies(PROBE)

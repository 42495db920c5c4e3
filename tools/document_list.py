"""What the tools share that print a list of what is in the sources, which bin/site makes a page of."""

import argparse
import sys
import textwrap
from collections.abc import Callable, Iterator
from pathlib import Path

WIDTH = 160
TOP = Path(__file__).resolve().parents[1]


class Fault(Exception):
    """Why a list cannot be made."""


def item(text: str) -> Iterator[str]:
    """An item of a list, in lines that are not too long."""
    yield from textwrap.wrap(f"- {text}", WIDTH, subsequent_indent="  ", break_long_words=False, break_on_hyphens=False)


def add_top(words: argparse.ArgumentParser) -> None:
    """The option for another repository than this one."""
    words.add_argument("--top", type=Path, default=TOP, metavar="FOLDER", help="a folder with crates/ and crates.txt")


def status_of(tool: str, work: Callable[[], int]) -> int:
    """The status of the work, or 1 with a line on the standard error if it ends in a fault."""
    try:
        return work()
    except (Fault, OSError) as fault:
        print(f"{tool}: {fault}", file=sys.stderr)
        return 1

"""A prompt over a table: `python3 -m betable shell [PATH]`.

A line is a command of the language, whose block goes on until its closing line, or a command of the prompt, which begins with a point.
"""

from __future__ import annotations

import argparse
import os
import shlex
import signal
import sys
import time
from collections.abc import Callable, Iterator
from contextlib import contextmanager
from difflib import get_close_matches
from io import TextIOWrapper
from types import FrameType
from typing import NamedTuple

from ..advice import warnings
from ..calls import Calls
from ..durable.file_requests import definitions_of
from ..durable.table import Durable, open as open_table
from ..errors import Corrupt, InDoubt, InUse, NewerFormat, NotATable, OtherEngine, OutOfMemory, RolledBack
from ..faults import MEANINGS, WITH_ADVICE, Fault, batch_faults, bound_faults
from ..forms import head_faults
from ..language import (
    BLOCK_WORDS, CLOSING, FORMS, KINDS, MOST_SCRIPT_BYTES, OPERATIONS, Command, Definitions, Line, any_of, commands, counted, index_of, visible,
)  # fmt: skip
from ..refusals import Refusal
from ..replies import ROW_WORDS, answered
from ..schema import Tree, Trees, trees_after
from ..session import Session
from .files import FileFault, Imported, ProgressBar, export_csv, import_csv, suggested_table
from .input import Lines, Stream, Terminal, completions
from .text import MOST_TREE_BYTES, aligned, count_of_reply, drawn_tree, table_of_reply

SHOWN_ROWS = 100  # at a terminal
PIECE_BYTES = 1 << 20  # of a script that is read from a file: Ctrl-C is noticed after each

# Words of other prompts, and the command of this one.
MEANT = {
    **dict.fromkeys(("help", "?", "\\?", "\\h", "man", "usage"), ".help"),
    **dict.fromkeys(("exit", "quit", "bye", "q", "\\q", ":q", "logout", ".exit", ".q"), ".quit"),
    **dict.fromkeys(("show", "describe", "desc", "list", "pragma", "tables", "\\d", ".tables", ".columns", ".databases"), ".schema"),
    **dict.fromkeys(("import", "copy", "\\copy", ".load"), ".import"),
    **dict.fromkeys(("export", ".dump", ".output", ".once", ".save"), ".export"),
    **dict.fromkeys(("source", "\\i", ".source", ".run"), ".read"),
    **dict.fromkeys((".index", ".indices", "\\di"), ".indexes"),
    **dict.fromkeys((".image", ".draw"), ".tree"),
    "explain": ".explain", "\\timing": ".timer",
}  # fmt: skip


# What `.help` says of a command beside its form, and of the lines of a block.
MORE_HELP = {
    b"table": [
        "as table 16 1024 256 1 id:int city:text qty:int, whose numbers are good ones for most tables",
        "F: the most children of a node; C: messages of a buffer; L: rows of a leaf; K: how many of the columns are the key",
        f"a kind is {any_of(KINDS)}",
    ],
    b"put": ["in a batch: puts a row, with the values of all columns, as put 3,Oslo,12. It takes the place of the row with its key"],
    b"del": ["in a batch: removes the row of a key, as del 3"],
    b"ups": [
        "in a batch: changes columns of the row of a key, which may be a new one, as ups 3,add,qty,-5,set,city,Oslo",
        f"after the key come an operation ({any_of(OPERATIONS)}), a column and a value, as often as you like",
    ],
    b"from": ["in a scan or sums: the first values of a key, as from Oslo,3: the range begins with them"],
    b"to": ["in a scan or sums: the first values of a key, as to P: the range ends before them"],
}


class PromptFault(Exception):
    """Why a command of the prompt is not carried out."""


class Interrupted(Exception):
    """Ctrl-C ended a command of the prompt between two of its steps."""


FAULTS = (OSError, ValueError, OutOfMemory, FileFault, Corrupt, InDoubt, InUse, NewerFormat, NotATable, OtherEngine, RolledBack)


@contextmanager
def noticed_interrupts() -> Iterator[Callable[[], bool]]:
    """Notes Ctrl-C in this context, so that no call of the table is torn apart. What it gives says whether it came."""
    came = False

    def take(number: int, frame: FrameType | None) -> None:
        nonlocal came
        came = True

    before = signal.signal(signal.SIGINT, take)
    try:
        yield lambda: came
    finally:
        signal.signal(signal.SIGINT, before)


class Shell:
    """A prompt over a table. `status` is 1 once a command was refused."""

    def __init__(self, table: Calls, lines: Lines, *, stops: bool = False) -> None:
        self.table, self.lines, self.stops = table, lines, stops
        self.block: list[bytes] = []  # the lines of the command whose block is open
        self.is_ended, self.status = False, 0
        self.has_times, self.most_rows = lines.is_terminal, SHOWN_ROWS if lines.is_terminal else None
        self.refusal: tuple[Refusal, bytes] | None = None
        # The definitions among the commands of this prompt, which are all of a table in memory.
        self.typed = Definitions()

    # ---- lines ----

    def run(self) -> int:
        """Takes lines until they end, or `.quit`."""
        while not self.is_ended:
            try:
                line = self.lines.next(self.prompt())
                if line is not None:
                    self.take(line)
                    continue
                self.is_ended = True
                if self.block:
                    self.execute_block()
            except KeyboardInterrupt:
                print("\n" + ("the block is given up, and nothing of it was carried out" if self.block else ".quit or Ctrl-D ends"))
                self.block = []
        return self.status

    def prompt(self) -> str:
        return f"{'(' + CLOSING[self.word()].decode() + ')':>7}> " if self.block else "betable> "

    def word(self) -> bytes:
        """The command whose block is open."""
        return Line(1, self.block[0]).word

    def completions(self, before: str) -> list[str]:
        """The words that can follow the text of a line."""
        return completions(before, self.table.trees(), self.word() if self.block else None, DOT_COMMANDS)

    def take(self, raw: bytes) -> None:
        """Takes a line: of the block that is open, of the prompt, or a command."""
        line = Line(1, raw)
        if self.block:
            self.take_of_block(raw)
        elif line.word.startswith(b".") and line.text.strip() != b".":
            self.carry_out(line.text.decode(errors="replace"))
        elif line.word in CLOSING:
            self.block = [raw]
            # A mistake in a command is reported before its block is typed.
            if self.lines.is_terminal and head_faults(line):
                self.block.append(CLOSING[line.word])
                self.execute_block()
        elif line.word:
            self.execute([Command(line)])

    def take_of_block(self, raw: bytes) -> None:
        if raw.removesuffix(b"\r") == CLOSING[self.word()]:
            self.block.append(raw)
            self.execute_block()
            return
        faults = self.faults_of_line(raw) if self.lines.is_terminal else []
        if faults:
            print(f"  not taken: {': '.join(part for part in (faults[0].place, faults[0].what()) if part)}")
        else:
            self.block.append(raw)

    def faults_of_line(self, raw: bytes) -> list[Fault]:
        """The mistakes in a line of a block, so that they are reported when it is typed."""
        line, word = Line(len(self.block) + 1, raw), self.word()
        if not line.text or word not in BLOCK_WORDS:
            return []
        if word == b"batch":
            return list(batch_faults([line], self.table.trees()))
        command = Command(Line(1, self.block[0]), CLOSING[word], b"".join(one + b"\n" for one in [*self.block[1:], raw]), True)
        return [fault for fault in bound_faults(command, self.table.trees()) if fault.line == line.number]

    # ---- commands of the language ----

    def execute_block(self) -> None:
        script = b"\n".join(self.block) + b"\n"
        self.block = []
        self.execute(list(commands(script)))

    def execute(self, some: list[Command]) -> bool:
        """Runs commands, and shows their replies. Whether Ctrl-C came meanwhile: the commands are carried out all the same."""
        script, fault = b"".join(map(bytes_of, some)), None
        begin = time.perf_counter()
        try:
            trees = self.table.trees()
            with noticed_interrupts() as is_interrupted:
                try:
                    replies, places = self.table._replies_with_places(script)
                except OutOfMemory as found:
                    replies, places, fault = found.replies, None, found
        except FAULTS as found:
            self.fail(found)
            return False
        seconds = time.perf_counter() - begin
        if is_interrupted():
            print(f"interrupted: {'the command was' if len(some) == 1 else f'{len(some):,} commands were'} carried out, and no reply is shown")
        for command, reply, is_refused in answered(some, replies, places):
            if is_refused:
                self.show_refusal(command, reply, trees)
            else:
                self.typed.take(command)
                if not is_interrupted():
                    self.show(command, reply, trees, f" ({seconds:.3f} s)" if self.has_times else "")
                    for warning in warnings(command, trees, True) if self.lines.is_terminal else ():
                        print(f"  warning: {warning}")
            trees = trees_after(trees, command, reply)
        if fault:
            self.fail(fault)
        return is_interrupted()

    def show(self, command: Command, reply: bytes, trees: Trees, time_taken: str) -> None:
        """Shows a reply: rows as a table, and others as they are."""
        word = command.head.word
        if word in ROW_WORDS:
            for line in table_of_reply(word, command.head.words, reply, trees, self.most_rows):
                print(line)
            print(f"{count_of_reply(word, reply)}{time_taken}")
            return
        lines = reply[:-1].decode(errors="replace").split("\n")
        for line in lines[: self.most_rows]:
            print(line + (time_taken if len(lines) == 1 else ""))
        if self.most_rows is not None and len(lines) > self.most_rows:
            print(f".. {len(lines) - self.most_rows:,} more lines: .limit off shows all, and .tree draws the tree")

    def show_refusal(self, command: Command, reply: bytes, trees: Trees) -> None:
        refusal = Refusal(command, reply, trees, False)
        word = visible(command.head.word, 20)
        meant = MEANT.get(command.head.word.rstrip(b";").lower().decode(errors="replace")) if refusal.number == 1 else None
        if meant:
            refusal.lines[0] = f"'{word}' is not a command: write {meant}"
        self.refusal, self.status = (refusal, command.head.text), 1
        print(f"refused {refusal.label}")
        print(f"  {refusal.lines[0].removeprefix(f'{refusal.label}: ')}")
        if len(refusal.lines) > 1 and self.lines.is_terminal:
            print("  (.explain says more)")
        self.is_ended = self.is_ended or self.stops

    def fail(self, fault: Exception | str) -> None:
        """Says why something was not carried out."""
        sys.stdout.flush()
        said = f"{fault.filename}: {fault.strerror}" if isinstance(fault, OSError) and fault.filename else fault
        print(f"error: {said}", file=sys.stderr)
        self.status = 1
        self.is_ended = self.is_ended or self.stops

    # ---- commands of the prompt ----

    def carry_out(self, text: str) -> None:
        """Carries out a command of the prompt."""
        try:
            words = shlex.split(text)
            command = DOT_COMMANDS.get(words[0])
            if command is None:
                raise PromptFault(reason_for_no_command(words[0]))
            if not command.least <= len(words) - 1 <= command.most:
                raise PromptFault(f"the form: {words[0]} {command.form}".rstrip())
            command.method(self, *words[1:])
        except PromptFault as fault:
            self.fail(fault)
        except Interrupted as interrupted:
            print(interrupted)
        except BrokenPipeError:
            raise
        except FAULTS as fault:
            self.fail(fault)

    def the_table(self) -> Trees:
        table = self.table.trees()
        if not table:
            raise PromptFault("there is no table yet: make one by 'table', as 'table 16 1024 256 1 id:int city:text qty:int'")
        return table

    def tree(self, name: str) -> Tree:
        """A tree that is there."""
        table = self.the_table()
        if not table.has_tree(name.encode()):
            raise PromptFault(f"no tree is named '{name}': there {'are' if table.indexes else 'is'} {', '.join(tree.name for tree in table)}")
        return table.tree(name)

    def help(self, word: str | None = None) -> None:
        if word is None:
            width = max(len(f"{name} {command.form}") for name, command in DOT_COMMANDS.items())
            for name, command in DOT_COMMANDS.items():
                print(f"{f'{name} {command.form}':{width}}  {command.help}")
            print(f"The commands of the language: {any_of(FORMS).replace(' or ', ' and ')}.")
            print("The prompt of a block shows the line that closes it; Ctrl-C gives it up. docs/SCRIPT.md has the language, and docs/HOW_TO.md recipes.")
        elif (encoded := word.encode()) in FORMS or encoded in MORE_HELP:
            print(FORMS.get(encoded) or f"{word} record")
            for line in MORE_HELP.get(encoded, ()):
                print(f"  {line}")
            if encoded in BLOCK_WORDS:
                print(f"  lines that begin with {any_of(BLOCK_WORDS[encoded])}, and then '{CLOSING[encoded].decode()}'")
            elif encoded in CLOSING:
                print(f"  the lines of a CSV text with a header, and then '{CLOSING[encoded].decode()}'")
        elif (name := "." + word.removeprefix(".")) in DOT_COMMANDS:
            print(f"{name} {DOT_COMMANDS[name].form}".rstrip() + f"\n  {DOT_COMMANDS[name].help}")
        else:
            near = get_close_matches(word, [one.decode() for one in [*FORMS, *MORE_HELP]] + list(DOT_COMMANDS), 1)
            raise PromptFault(f"'{word}' is not a command" + (f": did you mean '{near[0]}'?" if near else "; .help lists them"))

    def explain(self) -> None:
        if self.refusal is None:
            print("no command was refused")
            return
        refusal, head = self.refusal
        print(visible(head))
        print(f"refused {refusal.label}")
        for line in refusal.lines:
            print(f"  {line}")
        meaning = MEANINGS.get(refusal.number, "")
        if refusal.number not in (1, *WITH_ADVICE) and meaning not in refusal.lines[0]:
            print(f"  {meaning}")

    def definitions(self) -> Definitions:
        return definitions_of(self.table.path) if isinstance(self.table, Durable) else self.typed

    def schema(self) -> None:
        self.the_table()
        for line in self.definitions().values():
            print(line.text.decode(errors="replace"))

    def indexes(self) -> None:
        rows, table = [], self.the_table()
        for name, definition in self.definitions().items():
            if name in table.indexes:
                index = index_of(definition)
                condition = b" ".join(index.condition).decode(errors="replace") if index.condition else ""
                lists = [b",".join(names).decode() for names in (index.on, index.included)]
                rows.append([name.decode(), *lists, condition, "yes" if table.indexes[name].is_complete else "building"])
        for line in aligned(["name", "on", "include", "where", "complete"], ["text"] * 5, rows) if rows else ():
            print(line)
        print(counted(len(rows), "index", "indexes"))

    def draw(self, name: str = "primary") -> None:
        with noticed_interrupts() as is_interrupted:
            tree = self.tree(name)
            reply = self.table.replies(f"image {name}\n")
        if is_interrupted():
            raise Interrupted("interrupted: the tree is not drawn")
        if len(reply) > MOST_TREE_BYTES:
            raise PromptFault(f"the image of {name} has {len(reply) >> 20} MiB, and at most {MOST_TREE_BYTES >> 20} are drawn")
        for line in drawn_tree(reply, tree):
            print(line)

    def import_file(self, path: str) -> None:
        path = os.path.expanduser(path)
        if not self.table.trees():
            line = suggested_table(path)
            raise PromptFault(f"there is no table yet. Make one that has the columns of the file, as\n  {line}\nwith the kinds that its first records show")
        done, bar = Imported(), ProgressBar()
        with noticed_interrupts() as is_interrupted:
            try:
                for done in import_csv(self.table, self.the_table(), path, bar, self.most_script_bytes):
                    if is_interrupted():
                        break
            except FAULTS as fault:
                bar.end()
                raise PromptFault(str(fault) + (f"; {counted(done.rows, 'row')} before it stay" if done.rows else "")) from None
        bar.end()
        for refusal in done.refusals:
            print(f"line {refusal.line}: {refusal.reason}")
        if done.refused > len(done.refusals):
            print(f".. {counted(done.refused - len(done.refusals), 'more record')}")
        how = f"put by {counted(done.batches, 'batch', 'batches')}" if done.batches or done.refused else "loaded"
        print(f"{counted(done.rows, 'row')} {how}{', and ' + counted(done.refused, 'record') + ' refused' if done.refused else ''}")
        if done.refused:
            self.status = 1
            self.is_ended = self.is_ended or self.stops
        if not done.is_end:
            raise Interrupted("interrupted: these rows stay, and the records after them were not read")

    most_script_bytes = MOST_SCRIPT_BYTES

    def export_file(self, path: str, tree: str = "primary") -> None:
        path, bar = os.path.expanduser(path), ProgressBar()
        with noticed_interrupts() as is_interrupted:

            def progress(part: float, rows: int) -> None:
                if is_interrupted():
                    raise Interrupted(f"interrupted: {path} was not written")
                bar(part, rows)

            try:
                rows = export_csv(self.table, self.tree(tree), path, progress)
            finally:
                bar.end()
        print(f"{counted(rows, 'row')} written to {path}")

    def read(self, path: str) -> None:
        path = os.path.expanduser(path)
        with open(path, "rb") as stream:
            script = stream.read(MOST_SCRIPT_BYTES + 1)
        if len(script) > MOST_SCRIPT_BYTES:
            raise PromptFault(f"{path} has more than {MOST_SCRIPT_BYTES:,} bytes, the most of a script: divide it, or put a CSV file in by .import")
        some: list[Command] = []
        size = 0
        for command in commands(script):
            some.append(command)
            size += len(command.head.raw) + len(command.block)
            if size > PIECE_BYTES:
                if self.execute(some):
                    raise Interrupted(f"the commands after line {command.head.number} are not carried out")
                some, size = [], 0
            if self.is_ended:
                return
        if some:
            self.execute(some)

    def timer(self, word: str) -> None:
        if word not in ("on", "off"):
            raise PromptFault("the form: .timer on|off")
        self.has_times = word == "on"

    def limit(self, word: str) -> None:
        if word != "off" and not (word.isascii() and word.isdigit() and 0 < int(word) <= 10**9):
            raise PromptFault("the form: .limit N|off")
        self.most_rows = None if word == "off" else int(word)

    def quit(self) -> None:
        self.is_ended = True


class DotCommand(NamedTuple):
    """A command of the prompt: the words after it, how many there are at least and at most, its help, and its method."""

    form: str
    least: int
    most: int
    help: str
    method: Callable[..., None]


DOT_COMMANDS = {
    ".help": DotCommand("[COMMAND]", 0, 1, "lists the commands, or shows the form of one", Shell.help),
    ".explain": DotCommand("", 0, 0, "says why the last refused command was refused, and what to write", Shell.explain),
    ".schema": DotCommand("", 0, 0, "prints the lines that made the table and its indexes", Shell.schema),
    ".indexes": DotCommand("", 0, 0, "lists the indexes, and whether each is complete", Shell.indexes),
    ".tree": DotCommand("[TREE]", 0, 1, "draws a tree: primary, or an index", Shell.draw),
    ".import": DotCommand("FILE", 1, 1, "puts the records of a CSV file of any size into the table", Shell.import_file),
    ".export": DotCommand("FILE [TREE]", 1, 2, "writes the rows to a new CSV file", Shell.export_file),
    ".read": DotCommand("FILE", 1, 1, "runs a script", Shell.read),
    ".timer": DotCommand("on|off", 1, 1, "shows how long each command took, or does not", Shell.timer),
    ".limit": DotCommand("N|off", 1, 1, "shows the first N rows of a reply, or all", Shell.limit),
    ".quit": DotCommand("", 0, 0, "ends, as Ctrl-D does", Shell.quit),
}


def reason_for_no_command(word: str) -> str:
    """Why a word that begins with a point is no command of the prompt."""
    plain = word.rstrip(";").lower()
    if plain in DOT_COMMANDS:
        return f"'{word}' {'ends with a semicolon, which no line has' if word.endswith(';') else 'has capitals'}: write {plain}"
    found = MEANT.get(plain) or next(iter(get_close_matches(plain, list(DOT_COMMANDS), 1)), None)
    return f"'{word}' is not a command" + (f": did you mean {found}?" if found else "; .help lists them")


def bytes_of(command: Command) -> bytes:
    """A command as the lines of a script."""
    end = (command.closing or b"") + b"\n" if command.is_closed else b""
    return b"%b\n%b%b" % (command.head.raw, command.block, end)


# ---- the command line ----


def add_words(parser: argparse.ArgumentParser) -> None:
    parser.add_argument("path", metavar="PATH", nargs="?", help="the file of a durable table, which is created if it is not there")
    parser.add_argument("--bail", action="store_true", help="ends at the first command that is refused or fails")


DESCRIPTION = """\
A prompt over a table in memory, or over the durable table of a file. Where standard input is no terminal its lines are carried out without prompts, and the
exit status is 1 if a command was refused or failed; the commands after it are carried out, unless --bail is given."""


def run(words: argparse.Namespace) -> int:
    if isinstance(sys.stdout, TextIOWrapper):
        sys.stdout.reconfigure(errors="backslashreplace")
    try:
        table: Session | Durable = open_table(words.path) if words.path else Session()
    except FAULTS as fault:
        print(f"betable shell: {fault}", file=sys.stderr)
        return 1
    with table:
        is_terminal = sys.stdin.isatty() and sys.stdout.isatty()
        lines: Terminal | Stream = Terminal(lambda before: shell.completions(before)) if is_terminal else Stream(sys.stdin.buffer)
        shell = Shell(table, lines, stops=words.bail)
        if is_terminal:
            kept = f"the table of {words.path}: each change is on disk when it is answered" if words.path else "a table in memory, which is gone after .quit"
            print(f"betable: {kept}. .help lists the commands.")
        try:
            status = shell.run()
            sys.stdout.flush()
        except BrokenPipeError:
            # Nobody reads, also what Python has left to write at its end.
            os.dup2(os.open(os.devnull, os.O_WRONLY), sys.stdout.fileno())
            status = 1
        finally:
            lines.close()
    return 0 if is_terminal else status

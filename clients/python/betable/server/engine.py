"""The engine of a server: a durable table in a separate process, which runs all waiting scripts and keeps them with one commit. With a number of workers the
program betable_engine, which the separate process starts, has the table and keeps it in the same file.

`Engine` is the server's side: it starts the process, hands it works and gives their answers. `main` is the process. It is started from scratch, since the
library does not allow calls in the forked child of a process with threads, and it ends with its server. Both talk by frames through a pair of pipes: eight
bytes of length, and then an object that pickle has written.
"""

from __future__ import annotations

import asyncio
import ctypes
import os
import pickle
import signal
import sys
import time
from collections import deque
from collections.abc import Callable, Sequence
from pathlib import Path
from typing import Any, BinaryIO, NamedTuple

from ..calls import Row
from ..durable.table import FAULTS, Durable, open as open_table
from ..errors import EngineEnded, OutOfMemory, Refused, RequestReused, RolledBack, RowError, ending
from ..language import CHANGING_LINE, counted
from ..messages import delete
from ..packed import Usage, change_count
from ..replies import reply_end
from ..rows import Value, printed_records, value_of_field
from ..schema import UNKNOWN, Tree, TreeColumn, Trees
from .engine_table import EngineTable

# The largest number of requests in a group, and the bytes of scripts that close one.
MOST_GROUP, GROUP_BYTES = 256, 16 << 20
ALL_ROWS = sys.maxsize
MOST_IMAGE_BYTES = 1 << 20  # of a tree that is drawn
MOST_IMAGE_ITEMS = MOST_IMAGE_BYTES >> 4  # rows and messages of a tree whose image is made: one of them takes about 16 bytes at least
# How often in a row the process may end before the table is open, and the seconds between two starts, times the number of failures.
MOST_FAILURES, FAILURE_SECONDS = 5, 0.2
REFUSED_FILE = 2  # the status of a program betable_engine that does not open the file
START = "import sys; from betable.server.engine import main; sys.exit(main())"
PR_SET_PDEATHSIG = 1
# A read that is refused, also with a bound that no script has.
REFUSALS = (Refused, RowError)
# The first word of a line of a row or of a group, and that of the line after the last one.
LAST_WORDS = {b"row ": b"rows", b"sum ": b"sums"}
Table = Durable | EngineTable


class Page(NamedTuple):
    """Rows of a tree: from a key to before another, and after the key of a row. Each is given by the fields of its values, or is None. The key of a row may be
    given by its values too, as `Answer` has it. With `newest_first` the last row comes first. With `group` they are the groups of that many columns, with the
    sums of that column, and with `is_row` the row of the key at which they start."""

    tree: str
    start: list[str] | None
    stop: list[str] | None = None
    after: list[str] | tuple[Value, ...] | None = None
    newest_first: bool = False
    group: tuple[int, str] | None = None
    is_row: bool = False

    @property
    def has_breaks(self) -> bool:
        """Whether a text of a bound has a line break, so that no script reads it."""
        return any("\n" in field or "\r" in field for field in (*(self.start or ()), *(self.stop or ())))


class Work(NamedTuple):
    """A script to be run. If there is none, a backup to be written to a path, or else a checkpoint. A script with the id of a request is run exactly once. A
    script with `most_rows` is one `get`, `scan` or `sums`: at most that many rows or groups of its reply are returned, and their columns. A script with `page`
    is the read of that range, and the page is read in its place unless it is refused; if it `deletes`, the rows of the page are removed. A script with
    `image_of` is the `image` of that tree. A script with `changes` is an empty batch, and these packed changes are applied in its place."""

    script: bytes | None
    request: str | None = None
    most_rows: int | None = None
    image_of: str | None = None
    page: Page | None = None
    changes: bytes | None = None
    deletes: bool = False
    backup: str | None = None

    @property
    def size(self) -> int:
        return len(self.script or b"") + len(self.changes or b"")

    @property
    def may_run_again(self) -> bool:
        """Whether it changes nothing, or runs once also if it was kept."""
        return self.request is not None or not (self.deletes or self.changes is not None or CHANGING_LINE.search(self.script or b""))


class Answer(NamedTuple):
    """The replies to a script, and the number of the last script that was kept after it. `is_cut` says whether rows were left out, and `columns` are the names
    and kinds of the rows' columns, if `most_rows` was given. A page has the key of its last row as `last`. A tree whose image is too large has its `usage` in
    place of replies. A backup has what `contents_of` says in place of them."""

    replies: bytes
    number: int
    is_cut: bool = False
    columns: list[tuple[str, str]] = []
    usage: Usage | None = None
    last: tuple[Value, ...] | None = None


class Result(NamedTuple):
    """The results of works: for each its answer or its fault, the time of its scripts and that of its commit. `number` is that of the last script that
    is kept, `file_bytes` are those of the file, and `trees` are those of the table if they have changed. If a checkpoint was written, `checkpoint_seconds` is
    how long the last one took. `checkpoint_failed` says whether none can be written by itself. `table_process` is the number of the process betable_engine, or
    0 if there is none."""

    answers: list[Answer | Exception]
    run_seconds: float = 0
    commit_seconds: float = 0
    number: int = 0
    file_bytes: int = 0
    trees: Trees | None = None
    checkpoint_seconds: float | None = None
    checkpoint_failed: bool = False
    table_process: int = 0


class WrongKey(Exception):
    """A page has no such bound, or cannot begin after this key, as the tree has no such keys."""


class Lost(Exception):
    """The process of the engine, or that of the table, ended before it replied: the script may be kept or not, and is counted. The worker gives its number."""


class Closed(Exception):
    """The engine is not open, as while its process starts: nothing was begun."""


# ---- the process ----


def main() -> int:
    """Runs groups of works until the server closes its pipe. Signals to end are the server's, which then replies to what waits."""
    for number in (signal.SIGINT, signal.SIGTERM):
        signal.signal(number, signal.SIG_IGN)
    path, parent, workers, before, starts = sys.argv[1:]
    ctypes.CDLL(None).prctl(PR_SET_PDEATHSIG, signal.SIGKILL)
    if os.getppid() != int(parent):
        return 1
    # What is printed goes to standard error, as standard output has the frames.
    works, results = os.fdopen(os.dup(0), "rb"), os.fdopen(os.dup(1), "wb")
    os.dup2(2, 1)
    try:
        worker = Worker(path, int(workers), int(before), is_restart=int(starts) > 1)
    except EngineEnded as fault:
        _told(fault, "the worker ends with it")
        return 1
    except Exception as fault:
        _send(results, fault)
        return 1
    try:
        worker.serve(works, results)
    except EngineEnded as fault:
        _told(fault, "the worker ends with it")
        return 1
    finally:
        worker.table.close()
    return 0


def _told(fault: EngineEnded | OutOfMemory, follows: str) -> str:
    """Prints that the program of the table has ended, and returns the reason."""
    if isinstance(fault, OutOfMemory):
        reason = "the engine ended: out of memory"
    else:
        how = ending(-fault.signal if fault.signal is not None else fault.status or 0)
        reason = f"the engine ended by {how}{f' ({fault.said})' if fault.said else ''}"
    print(f"betable serve: {reason}: {follows}", file=sys.stderr, flush=True)
    return reason


class Worker:
    """The table of a server: a durable one, or that of an engine with that many workers. `before` is the number of scripts that workers before it have kept."""

    def __init__(self, path: str, workers: int = 0, before: int = 0, *, is_restart: bool = False) -> None:
        self._path, self._workers, self._before = path, workers, before
        self.table = self._opened(is_restart)

    def _opened(self, is_again: bool) -> Table:
        """The table of the file. The engine of a worker that was killed has the file until the end of its last request."""
        if not self._workers:
            return open_table(self._path)
        while True:
            try:
                return EngineTable(self._path, self._workers)
            except EngineEnded as fault:
                if fault.status != REFUSED_FILE:
                    raise
                if not (is_again and fault.said.endswith("in use")):
                    open_table(self._path).close()  # which raises why
                    raise
            time.sleep(FAILURE_SECONDS)

    def _open_again(self) -> None:
        self._before += self.table.number
        self.table.close()
        self.table = self._opened(True)

    @property
    def number(self) -> int:
        """The number of the last script that was kept."""
        return self._before + self.table.number

    def serve(self, works: BinaryIO, results: BinaryIO) -> None:
        """Runs groups of works until there are no more. The first result, of no works, says that the table is open."""
        known: Trees | None = None
        group: list[Work] | None = []
        while group is not None:
            count = self.table.checkpoint_count
            result = self.run_group(group)
            table, before = self.table, known
            known = table.trees()
            result = result._replace(number=self.number, file_bytes=table.file_bytes, checkpoint_failed=table.checkpoint_fault is not None)
            if known != before:
                result = result._replace(trees=known)
            if table.checkpoint_count != count and table.checkpoint_seconds is not None:
                # One that was due was written before the scripts.
                run_seconds = max(0, result.run_seconds - table.checkpoint_seconds)
                result = result._replace(checkpoint_seconds=table.checkpoint_seconds, run_seconds=run_seconds)
            _send(results, result._replace(table_process=table.pid if isinstance(table, EngineTable) else 0))
            group = _received(works)

    def run_group(self, group: list[Work]) -> Result:
        """Runs works and keeps what they changed by one commit. If one of them fails, nothing of the group is kept, and each is run by itself. An engine has no
        groups: each is run by itself."""
        if isinstance(self.table, EngineTable) and len(group) > 1:
            return self._run_alone(group)
        begin = end = time.perf_counter()
        answers: list[Answer | Exception] = []
        try:
            if isinstance(self.table, EngineTable):
                answers = [self._answer_of_engine(work) for work in group]
                end = time.perf_counter()
            elif [work.script for work in group] == [None]:
                answers = [self._answer_alone(group[0])]
            else:
                with self.table.group():
                    answers = [self._answer(work) for work in group]
                    end = time.perf_counter()
        except FAULTS as fault:
            if len(group) > 1:
                return self._run_alone(group)
            answers = [fault]
        return Result(answers, end - begin, time.perf_counter() - end)

    def _run_alone(self, group: list[Work]) -> Result:
        alone = [self.run_group([work]) for work in group]
        return Result([one.answers[0] for one in alone], sum(one.run_seconds for one in alone), sum(one.commit_seconds for one in alone))

    def _answer_of_engine(self, work: Work) -> Answer | Exception:
        """The answer to a work by an engine. If that ends, another one opens the file, and runs the work again unless it may have been kept."""
        reason = ""
        for _ in range(MOST_FAILURES + 1):
            is_begun = False
            try:
                assert isinstance(self.table, EngineTable)
                self.table.expect_running()
                is_begun = True
                return self._answer_alone(work) if work.script is None else self._answer(work)
            except (EngineEnded, OutOfMemory) as fault:
                reason = _told(fault, "the table is opened again from the file")
                self._open_again()
                if is_begun and not work.may_run_again:
                    return self._lost()
                if isinstance(fault, OutOfMemory):
                    break
        return RolledBack(reason) if work.request is None else self._lost()

    def _lost(self) -> Lost:
        """What is answered to a work that may be kept, which is counted so that readers of events see that they may have missed it."""
        self._before += 1
        return Lost(self.number)

    def _answer_alone(self, work: Work) -> Answer | Exception:
        """The answer to a backup or to a checkpoint."""
        if work.backup is None:
            assert isinstance(self.table, Durable)
            self.table.checkpoint()
            return Answer(b"", self.number)
        try:
            self.table.backup(work.backup)
        except OSError as fault:
            return fault
        return Answer(contents_of(self.table).encode(), self.number)

    def _answer(self, work: Work) -> Answer | Exception:
        table, script = self.table, work.script or b""
        if work.image_of is not None and (usage := self._usage(work.image_of)) and usage.rows + usage.messages > MOST_IMAGE_ITEMS:
            return Answer(b"", self.number, usage=usage)
        try:
            if work.page is not None and (answer := self._page(work.page, work.most_rows or ALL_ROWS, work.deletes)):
                return answer
            if work.changes is not None:
                replies = self._applied(work.changes, work.request)
            else:
                replies = table.replies(script) if work.request is None else table.once(work.request, script)
        except (RequestReused, WrongKey) as fault:
            return fault  # nothing was run, and the group goes on
        if work.image_of is not None and len(replies) > MOST_IMAGE_BYTES:
            return Answer(b"", self.number, usage=self._usage(work.image_of))
        if work.most_rows is None:
            return Answer(replies, self.number)
        rows, is_cut = first_rows(replies, work.most_rows)
        return Answer(rows, self.number, is_cut, _columns(table.trees(), script))

    def _applied(self, changes: bytes, request: str | None) -> bytes:
        """The reply to a batch that is given by packed changes. It does not count what was sent to each index."""
        done = b"batch %d\n" % change_count(changes)
        return (self.table._apply_packed(changes) or done) if request is None else self.table._apply_once(request, changes, done)

    def _usage(self, tree: str) -> Usage | None:
        """How much a tree holds, if there is one of this name."""
        return None if self.table.trees().tree(tree) is UNKNOWN else self.table.usage(tree)

    def _page(self, page: Page, most: int, deletes: bool) -> Answer | None:
        """At most that many rows of a page, written as the reply to a scan of them, or the reply to the batch that deletes them. None if the scan would be
        refused."""
        there = self.table.trees().tree(page.tree)
        if there is UNKNOWN:
            return None
        try:
            start, stop = (_key_values(fields, there, len(there.key) if page.is_row else 1) for fields in (page.start, page.stop))
        except ValueError as fault:
            if page.has_breaks:
                raise WrongKey(str(fault)) from None
            return None
        if page.is_row:
            row = self.table.get(*(start or ()))
            return Answer(_reply_of_get(row, there), self.number, columns=_named_columns(there.columns))
        if page.group is not None:
            return self._groups(page, start, stop, there, most)
        try:
            after = page.after if isinstance(page.after, tuple) else _key_values(page.after, there, len(there.key))
        except ValueError as fault:
            raise WrongKey(f"'after': {fault}") from None
        try:
            rows = self.table.scan(page.tree, start, stop, None if most == ALL_ROWS else most + 1, after, newest_first=page.newest_first)
        except REFUSALS:
            return None
        is_cut = len(rows) > most
        rows = rows[:most]
        if deletes:
            last = rows[-1][: len(there.key)] if rows else None
            return Answer(b"batch %d\n" % delete_rows(self.table, rows, there), self.number, is_cut, last=last)
        found = printed_records(rows, there.kinds)
        replies = "".join([f"row {line}\n" for line in found]) + f"rows {len(found)}\n"
        last = rows[-1][: len(there.key)] if rows else None
        return Answer(replies.encode(), self.number, is_cut, _named_columns(there.columns), last=last)

    def _groups(self, page: Page, start: tuple[Value, ...] | None, stop: tuple[Value, ...] | None, there: Tree, most: int) -> Answer | None:
        """At most that many groups of a range, written as the reply to the sums of them. None if the sums would be refused."""
        assert page.group is not None
        count, of = page.group
        try:
            groups = self.table.sums(page.tree, count, of, start, stop)
        except REFUSALS:
            return None
        found = printed_records([group[2:] for group in groups[:most]], there.key_kinds[:count])
        lines = [f"sum {int(group[0])} {int(group[1])} {line}\n" for group, line in zip(groups, found)]
        replies = "".join(lines) + f"sums {len(lines)}\n"
        return Answer(replies.encode(), self.number, len(groups) > most, _named_columns(there.key[:count]))


def contents_of(table: Table) -> str:
    """How much each tree of a table holds, as the table of its backup does."""
    found = [(tree.name, table.usage(tree.name)) for tree in table.trees()]
    return "; ".join(f"{name}: {counted(of.rows, 'row')}, {counted(of.messages, 'message')}, height {of.height}" for name, of in found) or "no table"


def delete_rows(table: Table, rows: list[Row], there: Tree) -> int:
    """Deletes rows that were read of a tree, and returns their number. The key of a tree ends with that of the table."""
    key, end = table.trees().tree().key, len(there.key)
    start = end - len(key)
    if rows:
        table.batch([delete(*row[start:end]) for row in rows])
    return len(rows)


def _named_columns(columns: Sequence[TreeColumn]) -> list[tuple[str, str]]:
    return [(column.name, column.kind) for column in columns]


def _reply_of_get(row: Row | None, there: Tree) -> bytes:
    if row is None:
        return b"none\n"
    (line,) = printed_records([row], there.kinds)
    return f"row {line}\n".encode()


def _key_values(fields: list[str] | None, there: Tree, least: int = 1) -> tuple[Value, ...] | None:
    """The values of the fields of a key, or of the first ones of it. A ValueError says why there are none."""
    if fields is None:
        return None
    if not least <= len(fields) <= len(there.key):
        raise ValueError(f"{counted(len(fields), 'value')}, and the key has {len(there.key)} ({', '.join(column.name for column in there.key)})")
    return tuple([value_of_field(field, column) for field, column in zip(fields, there.key)])


def _columns(trees: Trees, script: bytes) -> list[tuple[str, str]]:
    """The names and kinds of the columns of the reply to a script of one command."""
    word, *words = script.decode().split("\n", 1)[0].split()
    tree = trees.tree("primary" if word == "get" else words[0])
    return _named_columns(tree.key[: int(words[1])] if word == "sums" else tree.columns)


def first_rows(replies: bytes, most: int) -> tuple[bytes, bool]:
    """The reply to a scan, or to sums, with at most that many rows, and whether there were more."""
    word, at, count = replies[:4], 0, 0
    if most == ALL_ROWS or word not in LAST_WORDS:
        return replies, False
    while count < most and replies.startswith(word, at):
        at, count = reply_end(b"get", replies, at), count + 1
    return b"%b%b %d\n" % (replies[:at], LAST_WORDS[word], count), replies.startswith(word, at)


def _send(stream: BinaryIO, sent: Any) -> None:
    stream.write(_frame(sent))
    stream.flush()


def _received(stream: BinaryIO) -> Any:
    """The next object, or None at the end."""
    head = stream.read(8)
    return pickle.loads(stream.read(int.from_bytes(head, "big"))) if len(head) == 8 else None


def _frame(sent: Any) -> bytes:
    body = pickle.dumps(sent)
    return len(body).to_bytes(8, "big") + body


# ---- the server's side ----


class Engine:
    """The engine's process, as its server sees it. `trees` are the table's, `number` that of the last script that is kept, counted from the first one of the
    server, and `starts` how often the process was started.

    `on_result` is called with the works and the result of each group, before their answers are given, and `on_notice` with a line when the process has ended,
    and when another one has taken its place. The table has that many workers, in a process `table_process`, or with 0 it is in the engine's process.
    """

    def __init__(
        self, path: str | os.PathLike[str], on_result: Callable[[list[Work], Result], None] = lambda group, result: None,
        on_notice: Callable[[str], None] = lambda line: None, workers: int = 0,
    ) -> None:  # fmt: skip
        self.path, self.on_result, self.on_notice = os.fspath(path), on_result, on_notice
        self.workers, self.table_process = workers, 0
        self.trees, self.number, self.file_bytes, self.starts = Trees(), 0, 0, 0
        self.is_open = False
        self._waiting: deque[tuple[Work, asyncio.Future[Answer]]] = deque()
        self._group: list[tuple[Work, asyncio.Future[Answer]]] = []
        self._process: asyncio.subprocess.Process | None = None
        self._stdin: asyncio.StreamWriter
        self._stdout: asyncio.StreamReader
        self._is_ending = False

    @property
    def waiting(self) -> int:
        """The number of works that wait for their answers."""
        return len(self._waiting) + len(self._group)

    @property
    def pid(self) -> int:
        return self._process.pid if self._process else 0

    async def serve(self, opened: asyncio.Event) -> None:
        """Keeps the process running until `end`. It raises the fault of a table that cannot be opened, and Lost if the process ends again and again before."""
        failures = 0
        while not self._is_ending:
            try:
                await self._start()
            except Lost:
                if self._is_ending:
                    return
                failures += 1
                if not opened.is_set() or failures == MOST_FAILURES:
                    raise
                await asyncio.sleep(failures * FAILURE_SECONDS)
                continue
            failures = 0
            opened.set()
            if self.starts > 1:
                self.on_notice("the worker was started again, and has the table open")
            try:
                while True:
                    self._take(await self._receive())
            except (asyncio.IncompleteReadError, ConnectionError):
                self._fail()
            status = await self._process_end()
            if not self._is_ending:
                self.on_notice(f"the worker ended by {ending(status)}; requests get 503 until it is started again")

    def end(self) -> None:
        """Ends `serve`. The process replies to the works that were sent to it before; one that is still opening the table is killed."""
        is_open, self.is_open, self._is_ending = self.is_open, False, True
        if self._process is not None and is_open:
            self._stdin.close()
        elif self._process is not None and self._process.returncode is None:
            self._process.kill()

    async def run(self, work: Work) -> Answer:
        """The answer to a work, once it is on disk."""
        if not self.is_open:
            raise Closed
        future: asyncio.Future[Answer] = asyncio.get_running_loop().create_future()
        self._waiting.append((work, future))
        if not self._group:
            self._send_group()
        return await future

    async def _start(self) -> None:
        self.starts += 1
        process = await asyncio.create_subprocess_exec(
            sys.executable, "-P", "-c", START, self.path, str(os.getpid()), str(self.workers), str(self.number), str(self.starts),
            stdin=asyncio.subprocess.PIPE, stdout=asyncio.subprocess.PIPE, limit=1 << 20, env=package_environment(),
        )  # fmt: skip
        assert process.stdin is not None and process.stdout is not None
        self._process, self._stdin, self._stdout = process, process.stdin, process.stdout
        if self._is_ending:
            process.kill()
        try:
            self._take(await self._receive())
        except asyncio.IncompleteReadError:
            raise Lost(f"the engine's process ended with status {await self._process_end()} before the table was open") from None
        except Exception:
            # The process ends after a fault. It has to have ended before the loop of events is closed.
            await self._process_end()
            raise
        self.is_open = not self._is_ending

    async def _process_end(self) -> int:
        """The status of the process, once it has ended."""
        assert self._process is not None
        return await self._process.wait()

    async def _receive(self) -> Result:
        head = await self._stdout.readexactly(8)
        found: Result | Exception = pickle.loads(await self._stdout.readexactly(int.from_bytes(head, "big")))
        if isinstance(found, Exception):
            raise found
        return found

    def _send_group(self) -> None:
        """Sends the works that wait, as far as they make a group. A checkpoint and a backup are one by themselves."""
        size = 0
        while self._waiting and len(self._group) < MOST_GROUP and size < GROUP_BYTES:
            work, future = self._waiting[0]
            if future.cancelled():
                self._waiting.popleft()
                continue
            if work.script is None and self._group:
                break
            self._group.append(self._waiting.popleft())
            size += work.size
            if work.script is None:
                break
        if self._group:
            self._stdin.write(_frame([work for work, _ in self._group]))

    def _take(self, result: Result) -> None:
        group, self._group = self._group, []
        self.on_result([work for work, _ in group], result)
        self.trees, self.number = self.trees if result.trees is None else result.trees, result.number
        self.file_bytes, self.table_process = result.file_bytes, result.table_process
        self._send_group()
        for (_, future), answer in zip(group, result.answers):
            if future.cancelled():
                continue
            if isinstance(answer, Exception):
                future.set_exception(answer)
            else:
                future.set_result(answer)

    def _fail(self) -> None:
        """The process has ended: what it was given may be kept, and is counted, and what still waited was not begun."""
        self.is_open = False
        self.number += bool(self._group)
        faults: list[tuple[asyncio.Future[Answer], Exception]] = [(future, Lost()) for _, future in self._group]
        faults += [(future, Closed()) for _, future in self._waiting]
        self._group, self._waiting = [], deque()
        for future, fault in faults:
            if not future.done():
                future.set_exception(fault)


def package_environment() -> dict[str, str]:
    """The environment of a process that finds the package in the same folder as this one."""
    folders = [str(Path(__file__).resolve().parents[2]), os.environ.get("PYTHONPATH", "")]
    return {**os.environ, "PYTHONPATH": os.pathsep.join(filter(None, folders))}

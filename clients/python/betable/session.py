"""A session: a table in this process, by the library for C. What it does over the calls on bytes is here for an engine too, whose table is in another process.

`ScriptSession` runs scripts, applies packed changes, and asks for columns and usage, by the calls on bytes that it is given. `PackedSession` is that with the
calls of the extension `_packed`, which go from values to packed bytes and back. What the extension does not take as it is goes to the calls of `CheckedCalls`,
which make values plain, and find out why a call is refused. Where the extension is not built, calls on values go by scripts. `Session` has the library.
"""

from __future__ import annotations

import ctypes
import re
import threading
import warnings
from collections import deque
from collections.abc import Callable, Iterator
from functools import cache
from types import TracebackType
from typing import TYPE_CHECKING, Any, NamedTuple

from .batches import Batch, first_too_long, operations_of, without_breaks
from .byte_calls import ByteCalls, Outcome, PackedFault, Request
from .calls import (
    Bound, Calls, Range, Read, Row, as_script, by_names, check_one_by_one, checked_group, checked_limit, checked_name, checked_page, checked_summed,
)  # fmt: skip
from .errors import OutOfMemory, Refused, told_with
from .language import DEFINING, counted
from .library import LibraryCalls, _packed, addresses
from .messages import Message, Shape
from .packed import BAD_FIELD, HEADER_OF_NONE, Usage, columns_of_reply, description, name_bytes, refusal_reply, trees_of_reply, usage_of_reply
from .reasons import Reason
from .replies import Place
from .rows import ColumnValues, plain_key
from .schema import UNKNOWN, Tree, TreeColumn, Trees

# A line that may begin a command after which the library describes other trees.
DEFINING_LINE = re.compile(rb"^ *(?:%b) " % b"|".join(DEFINING), re.MULTILINE)
DROPPED = re.compile(rb"^ *drop +([a-z0-9_]+)", re.MULTILINE)


def defines_trees(script: bytes) -> bool:
    """Whether a script may have a command after which the library describes other trees."""
    for word in DEFINING:
        # In less time than `in`, which first takes the word as a number.
        if script.find(word) >= 0:
            return DEFINING_LINE.search(script) is not None
    return False


class ScriptSession(Calls):
    """A table, or none so far, that lives between scripts. Any thread may use it, one call at a time: a call during another one raises RuntimeError. A closed
    session raises ValueError."""

    _name = "session"  # what messages call it
    _waits = False  # whether a call waits until that of another thread has ended

    def __init__(self, calls: ByteCalls | None = None) -> None:
        # While the lock is taken, a call is being made.
        self._lock, self._is_open = self._made_lock(), False
        # The trees, or None if they may have changed since they were described, and those of the description before that are still there.
        self._trees: Trees | None = Trees()
        self._earlier: list[Tree] = []
        self._bytes = LibraryCalls() if calls is None else calls
        self._is_open = True

    def __enter__(self) -> ScriptSession:
        return self

    def __exit__(self, kind: type[BaseException] | None, fault: BaseException | None, trace: TracebackType | None) -> None:
        self.close()

    def __reduce__(self) -> tuple[Any, ...]:
        raise TypeError(f"{self._a_name} cannot be copied or pickled: it is the owner of its table")

    def __repr__(self) -> str:
        return f"<betable.{self._name.capitalize()}, {self._state()}>"

    @property
    def _a_name(self) -> str:
        return f"an {self._name}" if self._name[0] in "aeiou" else f"a {self._name}"

    def _state(self) -> str:
        """What it is at this moment, in words."""
        if not self._is_open:
            return "closed"
        if self._lock.locked():
            return "open, in a call"
        trees = self.trees()
        if not trees:
            return "open, without a table"
        indexes = [f"{tree.name} ({'complete' if tree.is_complete else 'building'})" for tree in trees[1:]]
        return f"open, {counted(len(trees.columns), 'column')}{', indexes: ' + ', '.join(indexes) if indexes else ''}"

    def _made_lock(self) -> Any:
        return threading.RLock() if self._waits else threading.Lock()

    def _calls(self) -> Any:
        """The lock, for a `with` in which calls on bytes that belong together are made. After `with` no interrupt leaves it taken."""
        if self._lock.locked():
            raise RuntimeError(f"the {self._name} is in a call, of another thread or of this one: one call at a time may use it, so hold a lock during each")
        return self._lock

    def _opened(self) -> ByteCalls:
        if not self._is_open:
            raise ValueError(f"the {self._name} is closed")
        return self._bytes

    def trees(self) -> Trees:
        """The trees of the table: that of its rows, and then its indexes in the order in which they were made. There are none before the table is made, and
        after it was lost."""
        calls, trees = self._opened(), self._trees
        if trees is not None:
            return trees
        with self._calls():
            reply = calls.ask(Request.TREES, HEADER_OF_NONE)
            earlier = {tree: tree for tree in self._earlier}
            trees = Trees([earlier.get(tree, tree) for tree in trees_of_reply(reply)] if isinstance(reply, bytes) else [])
            self._take_trees(trees)
        return trees

    def _take_trees(self, trees: Trees | None) -> None:
        """Takes the trees, or that they are to be asked for."""
        self._trees = trees

    def close(self) -> None:
        """Drops the table. What is closed stays closed."""
        if self._is_open:
            with self._calls():
                self._is_open = False
                self._bytes.close()

    def replies(self, script: str | bytes) -> bytes:
        """The bytes of the replies to a script, whether commands are refused or not."""
        return self._ran(as_script(script), False)[0]

    def check(self, script: str | bytes) -> list[int]:
        """The places of the commands of a script that would be refused, counted from 0 as in the list that `run` returns. Each is judged by itself on the table
        as it is: none is carried out, and nothing changes. So no command is judged with the effects of those before it."""
        given = as_script(script)
        with self._calls():
            self._opened().check(given)
            places = self._places()
        return [number for number, (_, _, is_refused) in enumerate(places) if is_refused]

    def explain(self, script: str | bytes) -> Reason | None:
        """Why the first command of a script would be refused because of its records, on the table as it is: the lines of a batch, the key of a get, the text of
        a load, or the bounds of a scan or of sums. None if it would not be. Of several faults it is that of the refusal in the reply, and of these the first.
        The command is not carried out, and the replies are kept."""
        given = as_script(script)
        with self._calls():
            return self._opened().explain(given)

    def _replies_with_places(self, script: bytes) -> tuple[bytes, list[Place] | None]:
        return self._ran(script, True)

    def _ran(self, script: bytes, with_places: bool, run: Callable[[bytes], bytes] | None = None) -> tuple[bytes, list[Place] | None]:
        """The bytes of the replies to a script, which `run` runs if it is given, and their places if they are wanted."""
        defines = defines_trees(script)
        with self._calls():
            calls = self._opened()
            if defines:
                # Before the run, which an interrupt may follow. A tree that is made again is another one, even if it has the same columns.
                dropped = DROPPED.findall(script)
                self._earlier = [tree for tree in self._trees or self._earlier if tree.name.encode() not in dropped]
                self._take_trees(None)
            replies = (run or calls.run)(script)
            return replies, self._places() if with_places else None

    def _places(self) -> list[Place]:
        """The places of the replies to the last script, which was done or checked."""
        return self._bytes.places()

    @property
    def is_lost(self) -> bool:
        """Whether the table was lost as memory ran out."""
        with self._calls():
            return self._opened().is_lost

    # ---- packed bytes ----

    def columns(self, tree: str = "primary") -> list[TreeColumn]:
        """The columns of the rows of a tree, each with its name, its kind, and whether it belongs to the key of the tree."""
        return columns_of_reply(self._reply_on_tree(Request.COLUMNS, checked_name(tree, "a tree")))

    def usage(self, tree: str = "primary") -> Usage:
        """How much a tree holds. All of its nodes are read."""
        return usage_of_reply(self._reply_on_tree(Request.USAGE, checked_name(tree, "a tree")))

    def _reply_on_tree(self, request: Request, name: str) -> bytes:
        """The reply to a request on the name of a tree, which is refused only if there is no such tree."""
        reply = self._ask(request, name_bytes(name))
        if reply is None:
            self._refuse_tree(name)
        return reply

    def _ask(self, request: Request, packed: bytes) -> bytes | None:
        """The reply to packed bytes. If they are refused it is None, and nothing has changed."""
        with self._calls():
            reply = self._opened().ask(request, packed)
        return reply if isinstance(reply, bytes) else None

    def _apply_packed(self, changes: bytes) -> bytes:
        return self._refusal_of(self._sent(changes))

    def _sent(self, changes: bytes) -> Callable[[], Outcome]:
        """Begins to apply packed changes."""
        with self._calls():
            return self._opened().send(changes)

    def _refusal_of(self, outcome: Callable[[], Outcome]) -> bytes:
        """The reply to the batch of a script that is refused as changes were that have been sent, or no bytes if they were applied."""
        with self._calls():
            found = outcome()
        return refusal_reply(found.refusal, found.item) if isinstance(found, PackedFault) else b""

    def _apply_all(self, batches: Iterator[tuple[Batch, Tree, int]]) -> None:
        """Applies the batches of a call in order. Where changes may be sent ahead, the next batch is made while those of the one before are applied."""
        ahead: deque[Sent] = deque()
        try:
            for batch, there, taken in batches:
                with told_with(taken):
                    packed = self._packed(batch, there, taken)
                    if packed is None:
                        self._take_all(ahead)
                        self._apply(batch, there, taken)
                        continue
                    ahead.append(Sent(batch, there, taken, self._sent(packed)))
                while len(ahead) > self._bytes.most_ahead:
                    self._take_first(ahead)
        except Exception:
            # A batch that is refused is told before what follows it.
            self._take_all(ahead)
            raise
        self._take_all(ahead)

    def _take_all(self, ahead: deque[Sent]) -> None:
        while ahead:
            self._take_first(ahead)

    def _take_first(self, ahead: deque[Sent]) -> None:
        """Waits for the outcome of the batch that was sent first. If it is refused, later ones were sent already, and how many rows of them were applied is
        told."""
        batch, there, taken, outcome = ahead.popleft()
        try:
            with told_with(taken):
                refusal = self._refusal_of(outcome)
        except Exception:
            ahead.clear()
            raise
        if not refusal:
            return
        after = 0
        while ahead:
            later = ahead.popleft()
            after += 0 if self._refusal_of(later.outcome) else len(later.batch.items)
        try:
            self._refuse_batch(refusal, batch, there, taken)
        except Refused as fault:
            raise fault.with_later(after) from None

    def _raise_out_of_memory(self) -> None:
        """Raises what the extension was told by the library."""
        raise OutOfMemory(b"", False, self.is_lost)


class Sent(NamedTuple):
    """A batch that was sent: its tree, how many rows of its call were sent before it, and what waits for its outcome."""

    batch: Batch
    there: Tree
    taken: int
    outcome: Callable[[], Outcome]


class CheckedCalls(ScriptSession):
    """What the extension leaves to Python: calls whose arguments have values of other types than the plain ones, and those that the library refuses. Each call
    makes the values plain and goes back to the extension. If that does not take them either, a script has the same fault, and says what it is."""

    if TYPE_CHECKING:
        # What the extension has. Each returns None if the library refuses it.
        def _pack_rows(self, rows: list[Any], /) -> bytes | None: ...
        def _pack_messages(self, messages: list[Any], /) -> bytes | None: ...
        def _pack_upserts(self, form: bytes, rows: list[Any], /) -> bytes | None: ...
        def _pack_columns(self, count: int, form: bytes, columns: list[Any], /) -> bytes | None: ...
        def _rows_between(self, tree: str, start: Bound, stop: Bound, limit: int, after: Bound, newest_first: bool, /) -> list[Row] | None: ...
        def _columns_between(self, tree: str, start: Bound, stop: Bound, limit: int, after: Bound, newest_first: bool, /) -> list[Any] | None: ...
        def _groups_between(self, tree: str, columns: int, column: str, start: Bound, stop: Bound, /) -> list[Row] | None: ...

    def get(self, *key: Any) -> Row | None:
        """The row of a key, or None."""
        there = self.trees().tree()
        if there is not UNKNOWN and len(key) == len(there.key):
            check_one_by_one(key)
            values = plain_key(key, there.key, "a key")
            rows = self._rows_between("primary", values, None, 1, None, False)
            if rows is not None:
                return rows[0] if rows and rows[0][: len(values)] == values else None
        return super().get(*key)

    def scan(
        self, tree: str = "primary", start: Bound = None, stop: Bound = None, limit: int | None = None, after: Bound = None, *, newest_first: bool = False
    ) -> list[Row]:
        """The rows of a tree in ascending order of their keys, from those that begin with the values `start` to before those that begin with `stop`. If the key
        of a row is given as `after`, they begin directly after that row. With a limit they are the first ones, no more than that, and the library reads no
        others. With `newest_first` they are in descending order, from the last row of the range on, or from the one directly before that of `after`."""
        return self._page(self._range(tree, start, stop, after, newest_first), checked_limit(limit))

    def _iterated(self, read: Read, tree: str, start: Bound, stop: Bound, page: int, newest_first: bool) -> Iterator[Row]:
        most, found = checked_page(page), self._range(tree, start, stop, None, newest_first)
        return _rows_of_pages(self, read, found, most) if found.there is not UNKNOWN else iter(self._page(found, most))

    def sums(
        self, tree: str, columns: int, column: str, start: Bound = None, stop: Bound = None
    ) -> list[Row]:
        """For each group of rows that are equal in the tree's first columns: their number, the sum of a column, and the values of those columns. By 0 columns
        all rows are one group, even if there are none. Without a name for the column, as "", the sums are 0."""
        found, count, summed = self._range(tree, start, stop), checked_group(columns), checked_summed(column)
        groups = self._groups_between(found.name, count, summed, found.start, found.stop)
        return super().sums(tree, columns, column, start, stop) if groups is None else groups

    def scan_columns(
        self, tree: str = "primary", start: Bound = None, stop: Bound = None, limit: int | None = None, *, newest_first: bool = False
    ) -> dict[str, ColumnValues]:
        """The rows of `scan` by columns: a dict from their names to an `array` of ints, or to a list of other values."""
        most, found = checked_limit(limit), self._range(tree, start, stop, None, newest_first)
        columns = self._columns_between(found.name, found.start, found.stop, most, None, newest_first)
        return super().scan_columns(tree, start, stop, limit, newest_first=newest_first) if columns is None else by_names(found.there, columns)

    def _packed(self, batch: Batch, there: Tree, taken: int) -> bytes | None:
        packed = batch.packed(self) or batch.plain(there, taken).packed(self)
        if packed is None:
            # A value is too long, or none that UTF-8 or 64 bits have. In a line it has the same fault.
            written = without_breaks(batch, there, taken)
            script = f"batch\n{written.lines(there, taken)}end\n".encode()
            if item := first_too_long(written):
                self._refuse_if_refused(script, refusal_reply(BAD_FIELD, item), taken, batch)
        return packed

    def _page(self, found: Range, most: int) -> list[Row]:
        """The first rows of a range. If the library refuses it, the script of the scan takes its place."""
        rows = self._rows_between(found.name, found.start, found.stop, most, found.after, found.newest_first)
        if rows is None:
            return super().scan(found.name, found.start, found.stop, most, found.after, newest_first=found.newest_first)
        return rows

    def _next_page(self, before: CheckedCalls, found: Range, most: int) -> tuple[Range, list[Row]]:
        """The range with its next page. The pages before were read by this session, or by one of the same table that this one has taken the place of."""
        there = self.trees().tree(found.name)
        is_same = there is found.there or (self is not before and (there.columns, there.key) == (found.there.columns, found.there.key))
        if not is_same:
            raise RuntimeError(f"the tree '{found.name}' was dropped, or made again, while its rows were read")
        found = found._replace(there=there)
        return found, self._page(found, most)


def _rows_of_pages(session: CheckedCalls, read: Read, found: Range, most: int) -> Iterator[Row]:
    """The rows of a range, page after page. `read` may read one by a session that has taken the place of the one before."""

    def page(now: CheckedCalls) -> list[Row]:
        nonlocal session, found
        found, rows = now._next_page(session, found, most)
        session = now
        return rows

    while rows := read(page):
        yield from rows
        if len(rows) < most:
            return
        found = found.beyond(rows[-1])


if TYPE_CHECKING or _packed is not None:
    if not TYPE_CHECKING:
        _packed.prepare(CheckedCalls, Message)

    class PackedSession(_packed.Caller, CheckedCalls):
        __doc__ = ScriptSession.__doc__

        def __init__(self, calls: ByteCalls) -> None:
            super().__init__(calls)
            self._connect_calls()

        def _connect_calls(self) -> None:
            """Lets the extension ask by `_ask`."""
            self._connect(None, 0, None, self._lock)

        def _connect_library(self, library: Any, handle: ctypes.Structure, prefix: str) -> None:
            """Gives the extension the calls of the library that ctypes has loaded, whose names begin so: as many as there are."""
            calls = addresses(library, [name.replace("betable_", prefix) for name in _packed.CALLS])
            self._connect(handle, ctypes.addressof(handle), calls, self._lock)

        def _made_lock(self) -> Any:
            return _packed.Lock(self._waits)

        def _take_trees(self, trees: Trees | None) -> None:
            super()._take_trees(trees)
            self._know({tree.name: description(tree) for tree in trees or ()})

        def _plan(self, shape: Shape) -> bytes | None:
            """The operations of the upserts of a shape, each its code and the place of its column, or None if they are not packed."""
            return operations_of(shape, self.trees().tree())

else:

    class PackedSession(ScriptSession):
        __doc__ = ScriptSession.__doc__

        def __init__(self, calls: ByteCalls) -> None:
            super().__init__(calls)
            _warn_of_scripts()

        def _connect_library(self, library: Any, handle: ctypes.Structure, prefix: str) -> None:
            pass


class Session(PackedSession):
    __doc__ = ScriptSession.__doc__

    _bytes: LibraryCalls

    def __init__(self) -> None:
        super().__init__(LibraryCalls())

    def __enter__(self) -> Session:
        return self

    def _connect_calls(self) -> None:
        self._connect_library(self._bytes.library, self._bytes.handle, "betable_")


@cache
def _warn_of_scripts() -> None:
    """Warns once of what takes longer without the extension."""
    reason = "the extension betable._packed is not built, so calls on values go by scripts, which take several times as long, and refuse texts with line breaks"
    warnings.warn(f"{reason} (docs/PYTHON.md, 'The extension')", RuntimeWarning, stacklevel=4)

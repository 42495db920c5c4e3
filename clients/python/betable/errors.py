"""The exceptions of the package. Each has fields, says in its message what to do, and can be pickled."""

from __future__ import annotations

import signal
from collections.abc import Iterator, Sequence
from contextlib import contextmanager
from typing import Any, NamedTuple

from .language import counted

MOST_SHOWN = 10  # wrong records in a message


def before(taken: int) -> str:
    """The end of a message of a call that had applied earlier batches."""
    return f" ({counted(taken, 'row')} of this call {'was' if taken == 1 else 'were'} applied before it, in earlier batches)" if taken else ""


class WrongRecord(NamedTuple):
    """A record of a CSV file that is no row of the table: the line in which it begins, the name of the column at fault and its field, or None where no single
    field is, and the reason in words."""

    line: int
    column: str | None
    value: str | None
    reason: str


class Refused(Exception):
    """A command that was refused. It changed nothing, and the other commands of its script were carried out.

    `line` is the line of the script where the command begins, counted from 1; `number` and `name` are those of the refusal, and `item` is its item or None.
    `reason` says why in words. `column` and `value` are those at fault, or None where no single value is; `row` is the number of the row or the message in
    the call, counted from 1, or None. `taken` is how many rows of the call were applied before it, in earlier batches, and `replies` are the replies to all
    commands of the script. `later` is how many rows of the call an engine has applied after it, in a batch that was sent ahead; it is 0 for a session. Of a
    CSV file `wrong` has its first wrong records, at most a hundred, and `wrong_count` is the number of all.
    """

    later = 0

    def __init__(
        self,
        line: int,
        number: int,
        name: str,
        item: int | None = None,
        replies: Any = (),
        *,
        reason: str | None = None,
        column: str | None = None,
        value: Any = None,
        row: int | None = None,
        taken: int = 0,
        wrong: Sequence[WrongRecord] = (),
        wrong_count: int = 0,
        is_of_script: bool = True,
    ) -> None:
        self.line, self.number, self.name, self.item, self.replies = line, number, name, item, replies
        self.reason, self.column, self.value, self.row, self.taken = reason, column, value, row, taken
        self.wrong, self.wrong_count = list(wrong), wrong_count
        refusal = (f"line {line}: " if is_of_script else "") + f"refused {number} {name}" + ("" if item is None else f" {item}")
        place = "" if row is None else f"row {row}: "
        lines = [f"\n  line {one.line}: {one.reason}" for one in self.wrong[:MOST_SHOWN]] if wrong_count > 1 else []
        if lines and wrong_count > len(lines):
            lines.append(f"\n  and {wrong_count - len(lines):,} more")
        super().__init__(refusal + (f": {place}{reason}" if reason else "") + before(taken) + "".join(lines))

    def with_later(self, count: int) -> Refused:
        """This exception, of a call that had sent that many more rows, which were applied."""
        if count:
            self.later = count
            self.args = (f"{self} ({counted(count, 'row')} of this call {'was' if count == 1 else 'were'} applied after it, in a batch that was sent ahead)",)
        return self

    def __reduce__(self) -> tuple[Any, ...]:
        return _unpickled, (type(self), self.args, self.__dict__)


class OutOfMemory(MemoryError):
    """A request for memory was refused. `replies` are the bytes of the replies to the first commands, which were carried out; `is_cut` says whether the last
    of them is incomplete, `is_lost` whether the table is lost, and `taken` how many rows of the call were applied before it, in earlier batches."""

    def __init__(self, replies: bytes = b"", is_cut: bool = False, is_lost: bool = False, taken: int = 0) -> None:
        super().__init__("betable: out of memory" + (", and the table is lost: close this session and open a new one" if is_lost else "") + before(taken))
        self.replies, self.is_cut, self.is_lost, self.taken = replies, is_cut, is_lost, taken

    def with_taken(self, taken: int) -> OutOfMemory:
        return OutOfMemory(self.replies, self.is_cut, self.is_lost, taken)

    def __reduce__(self) -> tuple[Any, ...]:
        return _unpickled, (type(self), self.args, self.__dict__)


class EngineEnded(Exception):
    """The process of an engine has ended, and its table is gone unless it is in the file `kept`. `status` is its exit status, or None if `signal`, the number of
    a signal, has ended it. `answered` is how many requests it had answered, `said` what it has written on its standard error, and `taken` how many rows of the
    call were applied before, in earlier batches."""

    def __init__(self, status: int | None, signal: int | None, answered: int, said: str = "", taken: int = 0, kept: str | None = None) -> None:
        self.status, self.signal, self.answered, self.said, self.taken, self.kept = status, signal, answered, said, taken, kept
        how = ending(-signal if signal is not None else status or 0)
        said = f" ({said})" if said else ""
        left = "and its table is gone" if kept is None else f"and what was answered is in {kept}"
        super().__init__(f"the engine ended by {how}{said}, after {counted(answered, 'request')}, {left}: make another one{before(taken)}")

    def with_taken(self, taken: int) -> EngineEnded:
        return EngineEnded(self.status, self.signal, self.answered, self.said, taken, self.kept)

    def __reduce__(self) -> tuple[Any, ...]:
        return _unpickled, (type(self), self.args, self.__dict__)


class RequestReused(Exception):
    """A request id came again with another script, which was not run."""

    def __init__(self, request_id: str) -> None:
        super().__init__(request_id)
        self.request_id = request_id

    def __str__(self) -> str:
        return f"request {self.request_id!r} was made before with another script: use a new id for each script"


class NotATable(Exception):
    """The file is no table of this kind."""


class NewerFormat(Exception):
    """The file was written by another version of this package, in a format that this one cannot read."""


class OtherEngine(Exception):
    """The file was written by an engine that may give other replies than this one."""


class InUse(Exception):
    """Another process, or another object of this one, has the table open."""


class RolledBack(Exception):
    """A call or a group failed, and nothing of it was kept: it can be made again. `__cause__` is what failed. `taken` is how many rows of a call of several
    batches were kept before it, in earlier batches; in a group none are."""

    taken, of_group = 0, False

    def __str__(self) -> str:
        return super().__str__() + before(self.taken)


class Corrupt(Exception):
    """What the file has is not what was kept. `number` is that of the script at fault in a file that is converted, 0 for its checkpoint, or None if it is
    neither."""

    def __init__(self, path: str, number: int | None, reason: str) -> None:
        super().__init__(path, number, reason)
        self.path, self.number, self.reason = path, number, reason

    def __str__(self) -> str:
        place = "" if self.number is None else "the checkpoint: " if self.number == 0 else f"script {self.number}: "
        return f"{self.path}: {place}{self.reason}"


class InDoubt(Exception):
    """The disk failed, so that it is not known whether the call or group was kept. The table is closed; opening it again shows which. `__cause__` is what
    failed. `taken` is how many rows of a call of several batches were kept before it, in earlier batches."""

    taken, of_group = 0, False

    def __str__(self) -> str:
        return super().__str__() + before(self.taken)


class IndexBuilding(Exception):
    """A checkpoint cannot be written while an index is being built, since rows alone don't say how far it is. `names` are those of the indexes."""

    def __init__(self, names: list[str]) -> None:
        super().__init__(names)
        self.names = names

    def __str__(self) -> str:
        return f"no checkpoint is written while an index is being built: complete {', '.join(self.names)} by build, or drop it"


def check_request_id(request_id: str) -> None:
    """That it can be the id of a request."""
    if not isinstance(request_id, str):
        raise TypeError(f"a request id is a str, and not {request_id!r}")
    request_id.encode()


class RowError(Exception):
    """What `RowTypeError` and `RowValueError` share: a value that its column does not take. Nothing of its batch was applied.

    `row` is the number of the row or the message in the call, counted from 1, or None where the call takes one key; `column` is the name of the column, or
    None where the row as a whole is at fault; `value` is the value or the row; `taken` is how many rows of the call were applied before, in earlier batches.
    """

    def __init__(self, reason: str, *, row: int | None = None, column: str | None = None, value: Any = None, taken: int = 0) -> None:
        self.reason, self.row, self.column, self.value, self.taken = reason, row, column, value, taken
        places = [] if row is None else [f"row {row}"]
        places += [] if column is None else [f"column '{column}'"]
        super().__init__((", ".join(places) + ": " if places else "") + reason + before(taken))

    def __reduce__(self) -> tuple[Any, ...]:
        return _unpickled, (type(self), self.args, self.__dict__)


class RowTypeError(RowError, TypeError):
    """A value, or a row, of a type that cannot be there."""


class RowValueError(RowError, ValueError):
    """A value, or a row, of the right type that cannot be written: a row of the wrong length, or a text that a script cannot carry."""


@contextmanager
def told_with(taken: int) -> Iterator[None]:
    """A context in which a batch of a call is applied. A fault of memory or of the disk, and the end of an engine, say how many rows of the call were applied
    before."""
    try:
        yield
    except (OutOfMemory, EngineEnded) as fault:
        raise fault.with_taken(taken) from None
    except (InDoubt, RolledBack) as fault:
        fault.taken = 0 if fault.of_group else taken
        raise


def ending(status: int) -> str:
    """How a process has ended, in words, by its status or by a signal as a negative number."""
    try:
        return f"the signal {signal.Signals(-status).name}" if status < 0 else f"itself, with status {status}"
    except ValueError:
        return f"signal {-status}"


def _unpickled(kind: type[BaseException], arguments: tuple[Any, ...], fields: dict[str, Any]) -> BaseException:
    fault = kind.__new__(kind, *arguments)
    fault.args = arguments
    fault.__dict__.update(fields)
    return fault

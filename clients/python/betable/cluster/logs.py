"""Ordered logs of scripts for replicas: a stream of Redis, and a table of PostgreSQL.

A log gives each script the next position, counted from 1 without gaps, and gives a request id that it has had the position of the first time. Beside the
scripts it keeps the last checkpoint: the bytes from which a replica begins at a position, instead of with the first script.

A log is a chain: with each script is a hash of the chain before it, the request id and the script. So logs that have the same chain at a position have the same
scripts up to there. The hash finds accidents, such as a server that has lost its last scripts. It does not protect from anyone who may write to the log.
"""

from __future__ import annotations

import hashlib
import math
import select
import uuid
from collections.abc import Callable
from contextlib import suppress
from types import ModuleType
from typing import Any, NamedTuple, Protocol, TypeVar
from urllib.parse import urlsplit

from ..language import NAME

T = TypeVar("T")
FORMAT = 2  # of a log: raised when an older version of this package could not read it
# The shortest time that a log keeps a request id, and the longest request id, in bytes: an index of PostgreSQL has values of at most 2,704.
REQUEST_SECONDS, LONGEST_REQUEST_ID = 86_400, 1_000
# The number of scripts that are read from a log at a time.
MOST_ENTRIES = 64
PART_BYTES = 1 << 24
# The times after which a silent server counts as unreachable, unless the patience is shorter or the URL sets others, and the longest wait for a script.
SECONDS_TO_CONNECT, SECONDS_TO_REPLY, LONGEST_WAIT = 10, 30, 10
ANOTHER_CHECKPOINT = "Write another checkpoint with a replica that is open, or restore the data of the server"


class Unreachable(ConnectionError):
    """The server of the log cannot be reached. What was asked of it may have been done."""


class UnusableLog(Exception):
    """The log of a name cannot be used as it is on its server. `reason` says why, and what to do."""

    def __init__(self, name: str, reason: str) -> None:
        super().__init__(name, reason)
        self.name, self.reason = name, reason

    def __str__(self) -> str:
        return f"the log {self.name!r}: {self.reason}"


class Entry(NamedTuple):
    """A script of the log, and the chain after it."""

    position: int
    request_id: str
    script: bytes
    chain: bytes


class End(NamedTuple):
    """The position of the last script of a log, or 0; the chain at the position that was asked for, or None if the log does not have that any more; and the
    number of the engine of the log."""

    position: int
    chain: bytes | None
    engine: int


class Checkpoint(NamedTuple):
    """What a replica begins with, instead of the scripts up to a position, and the chain there."""

    position: int
    chain: bytes
    text: bytes


class Log(Protocol):
    """An ordered log. Each call raises Unreachable if the server cannot be reached. The chain at position 0 is b"", of every log.

    It has the number of an engine, since replicas of two engines that reply differently must not run its scripts.
    """

    def open(self, engine: int) -> int:
        """The number of the engine of the log. A new log takes the given one, and so does one whose engine is older and whose last script is that of its
        checkpoint, so that no script that the older engine has run is run again."""

    def link(self, chain: bytes, request_id: str, script: bytes) -> bytes:
        """The chain after a script, from the one before it. `linked` gives it from a hash."""

    def append(self, request_id: str, script: bytes, position: int, chain: bytes, engine: int) -> int | None:
        """The position of the request, which is appended if it is new. None, and nothing is appended, if the log has another engine, or does not have this
        chain at this position: the server compares them, and links the script, in the step that appends."""

    def end(self, position: int) -> End:
        """The end of the log, and the chain at a position."""

    def entries(self, first: int, last: int) -> list[Entry]:
        """The first scripts of those from one position to another."""

    def wait(self, position: int, seconds: float) -> None:
        """Waits until a position has a script, or for some time, which is at most these seconds."""

    def checkpoint(self) -> Checkpoint | None:
        """The last checkpoint."""

    def checkpoint_bytes(self) -> int:
        """The size of the last checkpoint, or 0 if there is none."""

    def keep(self, checkpoint: Checkpoint) -> bool:
        """Keeps a checkpoint, unless there is one of the same position or a later one. False, and it is not kept, if the log has another chain there."""

    def trim(self) -> None:
        """Removes the scripts before the last checkpoint. The chain at the checkpoint stays."""

    def close(self) -> None:
        ...


def log_of(url: str, name: str, patience: float = SECONDS_TO_REPLY) -> Log:
    """The log of a name on the server of a URL, which counts as unreachable if it is silent for as long as the patience of a caller."""
    if not NAME.fullmatch(name.encode()):
        raise ValueError(f"{name!r} is no name of a log: names have 1 to 32 letters a to z, digits and _, and begin with a letter")
    scheme, seconds = urlsplit(url).scheme, min(max(1, math.ceil(patience)), SECONDS_TO_REPLY)
    if scheme in ("redis", "rediss", "unix"):
        return RedisLog(url, name, seconds)
    if scheme in ("postgresql", "postgres"):
        return PostgresLog(url, name, seconds)
    raise ValueError(f"the URL of a log begins with redis:// or postgresql://, and not with {scheme or url!r}")


def linked(hash_of: Callable[[bytes], bytes], chain: bytes, request_id: str, script: bytes) -> bytes:
    """The chain after a script. All hashes have one length, so that no other chain, request id and script give the same text."""
    return hash_of(chain + hash_of(request_id.encode()) + hash_of(script))


def check_request_id(request_id: str) -> None:
    """Raises ValueError for a request id that not every log can have."""
    with suppress(UnicodeEncodeError):
        if "\0" not in request_id and len(request_id.encode()) <= LONGEST_REQUEST_ID:
            return
    shown = repr(request_id) if len(request_id) <= LONGEST_REQUEST_ID else f"one of {len(request_id)} letters"
    raise ValueError(f"a request id is text of at most {LONGEST_REQUEST_ID} bytes in UTF-8, without NUL, and not {shown}")


def parts_of(checkpoint: bytes) -> list[bytes]:
    return [checkpoint[at : at + PART_BYTES] for at in range(0, len(checkpoint), PART_BYTES)]


def other_format(name: str, number: int) -> UnusableLog:
    older = "scan the rows with the version that wrote it, and load them into a log of another name with this one"
    reason = f"it has format {number}, and this version of betable reads format {FORMAT}. Nothing was changed"
    return UnusableLog(name, f"{reason}: {older if number < FORMAT else 'use the version that wrote it'}")


def replied(name: str, fault: Exception, way: str = "") -> UnusableLog:
    """What the server of a log replied, without the lines that repeat the query, and what to do."""
    return UnusableLog(name, f"its server replied: {str(fault).strip().splitlines()[0].rstrip('.')}{way}")


def imported(name: str, package: str) -> ModuleType:
    try:
        return __import__(name)
    except ImportError as fault:
        raise ImportError(f"replicas over this log need the module {name}: install {package}") from fault


class RedisLog:
    """A stream of Redis, and a hash with the end of the log. The keys have one hash tag, so that one node of a cluster has them all."""

    # What other scripts begin with. Their first keys are those of the end, the stream and the checkpoint.
    HEAD = """
        local format, engine, last, chain = unpack(redis.call('hmget', KEYS[1], 'format', 'engine', 'position', 'chain'))
        last = last or '0'
        local function chain_at(position)
            if position == '0' then return '' end
            if position == last then return chain end
            local entry = redis.call('xrange', KEYS[2], position .. '-0', position .. '-0')[1]
            if entry then return entry[2][6] end
            local last_kept, chain_kept = unpack(redis.call('hmget', KEYS[3], 'position', 'chain'))
            return position == last_kept and chain_kept
        end
    """
    OPEN = """
        if not format then
            -- The first format did not have a number.
            if redis.call('xlen', KEYS[2]) > 0 or redis.call('exists', KEYS[3]) == 1 then return {1, 0} end
            redis.call('hset', KEYS[1], 'format', ARGV[1], 'engine', ARGV[2], 'position', 0, 'chain', '')
            return {tonumber(ARGV[1]), tonumber(ARGV[2])}
        end
        if format == ARGV[1] and tonumber(engine) < tonumber(ARGV[2]) and last == (redis.call('hget', KEYS[3], 'position') or '0') then
            redis.call('hset', KEYS[1], 'engine', ARGV[2])
            engine = ARGV[2]
        end
        return {tonumber(format), tonumber(engine)}
    """
    APPEND = """
        if engine ~= ARGV[5] or chain_at(ARGV[3]) ~= ARGV[4] then return false end
        local known = redis.call('get', KEYS[4])
        -- A request id may be left of a log that was deleted.
        if known and tonumber(known) <= tonumber(last) then return tonumber(known) end
        local position = tonumber(last) + 1
        chain = redis.sha1hex(chain .. redis.sha1hex(ARGV[1]) .. redis.sha1hex(ARGV[2]))
        redis.call('xadd', KEYS[2], position .. '-0', 'request', ARGV[1], 'script', ARGV[2], 'chain', chain)
        redis.call('hset', KEYS[1], 'position', position, 'chain', chain)
        redis.call('set', KEYS[4], position, 'ex', ARGV[6])
        return position
    """
    END = "return {tonumber(last), chain_at(ARGV[1]), tonumber(engine or 0)}"
    # If the server was killed it may have lost parts that were sent to it.
    KEEP = """
        local position, parts = unpack(redis.call('hmget', KEYS[3], 'position', 'parts'))
        local is_older, is_other = position and tonumber(position) >= tonumber(ARGV[1]), chain_at(ARGV[1]) ~= ARGV[2]
        local is_cut = redis.call('llen', KEYS[4]) ~= tonumber(ARGV[4])
        if is_older or is_other or is_cut then
            if parts ~= KEYS[4] then redis.call('del', KEYS[4]) end
            return is_older and 'kept' or is_other and 'other' or 'cut'
        end
        redis.call('hset', KEYS[3], 'position', ARGV[1], 'chain', ARGV[2], 'bytes', ARGV[3], 'parts', KEYS[4])
        redis.call('persist', KEYS[4])
        if parts then redis.call('del', parts) end
        return 'kept'
    """

    def __init__(self, url: str, name: str, seconds: int) -> None:
        self._redis, self._name, self._prefix = imported("redis", "python3-redis, or redis of PyPI"), name, f"{{{name}}}:"
        # A replica calls again by itself.
        retry = self._redis.retry.Retry(self._redis.backoff.NoBackoff(), 0)
        times = {"socket_timeout": seconds}
        if urlsplit(url).scheme != "unix":
            times["socket_connect_timeout"] = min(seconds, SECONDS_TO_CONNECT)
        self._client = self._redis.Redis.from_url(url, retry=retry, **times)
        # A wait has to end before the socket's time, which the URL may set.
        self._longest_wait = float(self._client.get_connection_kwargs()["socket_timeout"] or LONGEST_WAIT) / 2
        self._log, self._last = f"{self._prefix}log", f"{self._prefix}checkpoint"
        self._keys = [f"{self._prefix}end", self._log, self._last]
        scripts = (self.OPEN, self.APPEND, self.END, self.KEEP)
        self._open, self._append, self._end, self._keep = [self._client.register_script(self.HEAD + script) for script in scripts]

    def _reached(self, call: Callable[..., T], *given: Any, **named: Any) -> T:
        """The reply to a call of the client."""
        try:
            return call(*given, **named)
        except (self._redis.ConnectionError, self._redis.TimeoutError, self._redis.exceptions.ReadOnlyError) as fault:
            raise Unreachable(f"the server of the log: {fault}") from fault
        except self._redis.exceptions.NoPermissionError as fault:
            raise replied(self._name, fault, f". So give its user the keys {self._prefix}* and the commands that CLUSTER.md lists") from fault
        except self._redis.RedisError as fault:
            raise replied(self._name, fault) from fault

    def open(self, engine: int) -> int:
        self._check_eviction()
        number, found = self._reached(self._open, self._keys, [FORMAT, engine])
        if number != FORMAT:
            raise other_format(self._name, number)
        return int(found)

    def _check_eviction(self) -> None:
        """Raises UnusableLog if the server may remove keys of the log. A server that does not show its settings is taken as right."""
        try:
            memory = self._reached(self._client.info, "memory")
        except UnusableLog:
            return
        policy = memory.get("maxmemory_policy", "noeviction")
        if memory.get("maxmemory") and policy != "noeviction":
            reason = f"its server has maxmemory and the policy {policy}, by which it removes keys when it is full: set maxmemory-policy to noeviction"
            raise UnusableLog(self._name, reason)

    def link(self, chain: bytes, request_id: str, script: bytes) -> bytes:
        return linked(lambda text: hashlib.sha1(text, usedforsecurity=False).hexdigest().encode(), chain, request_id, script)

    def append(self, request_id: str, script: bytes, position: int, chain: bytes, engine: int) -> int | None:
        keys = [*self._keys, f"{self._prefix}request:{request_id}"]
        found: int | None = self._reached(self._append, keys, [request_id, script, position, chain, engine, REQUEST_SECONDS])
        return found

    def end(self, position: int) -> End:
        return End(*self._reached(self._end, self._keys, [position]))

    def entries(self, first: int, last: int) -> list[Entry]:
        found = self._reached(self._client.xrange, self._log, f"{first}-0", f"{last}-0", MOST_ENTRIES)
        # One that an older version of this package has appended meanwhile has no chain.
        return [Entry(int(name.split(b"-")[0]), of[b"request"].decode(), of[b"script"], of.get(b"chain", b"")) for name, of in found]

    def wait(self, position: int, seconds: float) -> None:
        most = max(1, round(1_000 * min(seconds, self._longest_wait)))
        self._reached(self._client.xread, {self._log: f"{position - 1}-0"}, 1, most)

    def checkpoint(self) -> Checkpoint | None:
        before = None
        while about := self._reached(self._client.hgetall, self._last):
            text = b"".join(self._reached(self._client.lrange, about[b"parts"], 0, -1))
            if len(text) == int(about[b"bytes"]):
                return Checkpoint(int(about[b"position"]), about[b"chain"], text)
            # Another one may have taken its place meanwhile.
            if about == before:
                raise UnusableLog(self._name, f"parts of its checkpoint at {int(about[b'position'])} are gone. {ANOTHER_CHECKPOINT}")
            before = about
        return None

    def checkpoint_bytes(self) -> int:
        return int(self._reached(self._client.hget, self._last, "bytes") or 0)

    def keep(self, checkpoint: Checkpoint) -> bool:
        list_of_parts, parts = f"{self._prefix}checkpoint:{uuid.uuid4().hex}", parts_of(checkpoint.text)
        for part in parts:
            self._reached(self._client.rpush, list_of_parts, part)
            # What is not kept in the end expires.
            self._reached(self._client.expire, list_of_parts, 3_600)
        values = [checkpoint.position, checkpoint.chain, len(checkpoint.text), len(parts)]
        found = self._reached(self._keep, [*self._keys, list_of_parts], values)
        if found == b"cut":
            raise Unreachable("the server of the log has lost parts of a checkpoint while they were sent")
        return bool(found == b"kept")

    def trim(self) -> None:
        if position := self._reached(self._client.hget, self._last, "position"):
            self._reached(self._client.xtrim, self._log, minid=int(position), approximate=False)

    def close(self) -> None:
        self._client.close()


class PostgresLog:
    """A table of PostgreSQL, and a table of one row with the end of the log, whose lock orders the scripts."""

    SCHEMA = """
        BEGIN;
        SELECT pg_advisory_xact_lock(hashtext('NAME'));
        CREATE TABLE IF NOT EXISTS NAME_log(position bigint PRIMARY KEY, request_id text NOT NULL UNIQUE, script bytea, chain bytea NOT NULL,
            appended timestamptz NOT NULL DEFAULT now());
        CREATE TABLE IF NOT EXISTS NAME_checkpoint(position bigint, part int, chain bytea NOT NULL, bytes bytea NOT NULL, PRIMARY KEY (position, part));
        CREATE TABLE IF NOT EXISTS NAME_end(position bigint NOT NULL, chain bytea NOT NULL, format int NOT NULL, engine int NOT NULL);
        INSERT INTO NAME_end SELECT 0, '', %s, %s WHERE NOT EXISTS (SELECT FROM NAME_end);
        COMMIT
    """
    TAKE_OVER = """
        UPDATE NAME_end SET engine = %(engine)s
        WHERE engine < %(engine)s AND position = (SELECT coalesce(max(position), 0) FROM NAME_checkpoint)
    """
    CHAIN = """
        CASE given.position WHEN 0 THEN '' WHEN NAME_end.position THEN NAME_end.chain
        ELSE (SELECT chain FROM NAME_log WHERE NAME_log.position = given.position) END
    """
    APPEND = f"""
        WITH given AS (
            SELECT %s::text AS request_id, %s::bytea AS script, %s::bigint AS position, %s::bytea AS chain, %s::int AS engine
        ), next AS (
            UPDATE NAME_end SET position = NAME_end.position + 1,
                chain = sha256(NAME_end.chain || sha256(convert_to(given.request_id, 'UTF8')) || sha256(given.script))
            FROM given WHERE NAME_end.engine = given.engine AND given.chain = {CHAIN} RETURNING NAME_end.position, NAME_end.chain
        )
        INSERT INTO NAME_log(position, request_id, script, chain) SELECT next.position, request_id, script, next.chain FROM next, given
        RETURNING position, pg_notify('NAME', '')
    """
    END = f"SELECT NAME_end.position, {CHAIN}, engine FROM NAME_end, (SELECT %s::bigint AS position) AS given"
    ENTRIES = """
        SELECT position, request_id, script, chain FROM NAME_log
        WHERE position BETWEEN %s AND %s AND script IS NOT NULL ORDER BY position LIMIT %s
    """
    CHECKPOINT = """
        SELECT position, chain, bytes FROM NAME_checkpoint
        WHERE position = (SELECT max(position) FROM NAME_checkpoint) ORDER BY part
    """
    # A request id, and the chain at it, stay for a time when the script goes.
    TRIM = """
        UPDATE NAME_log SET script = NULL WHERE script IS NOT NULL AND position < (SELECT max(position) FROM NAME_checkpoint);
        DELETE FROM NAME_log WHERE script IS NULL AND appended < now() - interval 'SECONDS seconds'
    """

    def __init__(self, url: str, name: str, seconds: int) -> None:
        self._psycopg2, self._name = imported("psycopg2", "python3-psycopg2, or psycopg2 of PyPI"), name
        # In seconds, and the last one in milliseconds.
        times: dict[str, Any] = {
            "connect_timeout": min(seconds, SECONDS_TO_CONNECT), "keepalives_idle": math.ceil(seconds / 3), "keepalives_interval": math.ceil(seconds / 3),
            "keepalives_count": 2, "tcp_user_timeout": 1_000 * seconds,
        }  # fmt: skip
        self._options = {**times, **self._psycopg2.extensions.parse_dsn(url), "client_encoding": "UTF8"}
        self._connection: Any = None

    def _rows(self, query: str, values: Any = None) -> list[tuple[Any, ...]]:
        """The rows of a query, which is a transaction by itself unless it says otherwise."""
        errors = self._psycopg2.errors
        try:
            if self._connection is None:
                self._connection = self._psycopg2.connect(**self._options)
                self._connection.autocommit = True
                # An answered script is on disk, and on that of the standby that synchronous_standby_names names.
                self._rows('SET synchronous_commit = on; LISTEN "NAME"')
            with self._connection.cursor() as cursor:
                cursor.execute(query.replace("NAME", self._name).replace("SECONDS", str(REQUEST_SECONDS)), values)
                found: list[tuple[Any, ...]] = cursor.fetchall() if cursor.description else []
                return found
        except (errors.UniqueViolation, errors.UndefinedColumn):
            raise
        except self._psycopg2.Error as fault:
            self.close()
            if isinstance(fault, (self._psycopg2.OperationalError, self._psycopg2.InterfaceError)):
                raise Unreachable(f"the server of the log: {fault}") from fault
            raise replied(self._name, fault, self._way(fault)) from fault

    def _way(self, fault: Exception) -> str:
        if not isinstance(fault, self._psycopg2.errors.InsufficientPrivilege):
            return ""
        tables = ", ".join(f"{self._name}_{table}" for table in ("end", "log", "checkpoint"))
        return f". So let its user create tables in the schema, or SELECT, INSERT, UPDATE and DELETE on {tables}, which another user has created"

    def open(self, engine: int) -> int:
        if self._rows("SELECT to_regclass('NAME_end')") == [(None,)]:
            self._rows(self.SCHEMA, (FORMAT, engine))
        try:
            number = self._rows("SELECT format FROM NAME_end")[0][0]
        except self._psycopg2.errors.UndefinedColumn:
            # The first format did not have a number.
            number = 1
        if number != FORMAT:
            raise other_format(self._name, number)
        self._rows(self.TAKE_OVER, {"engine": engine})
        return self.end(0).engine

    def link(self, chain: bytes, request_id: str, script: bytes) -> bytes:
        return linked(lambda text: hashlib.sha256(text).digest(), chain, request_id, script)

    def append(self, request_id: str, script: bytes, position: int, chain: bytes, engine: int) -> int | None:
        values = (request_id, self._psycopg2.Binary(script), position, self._psycopg2.Binary(chain), engine)
        try:
            found = self._rows(self.APPEND, values)
        except self._psycopg2.errors.UniqueViolation:
            # The transaction is rolled back, and the position with it.
            found = self._rows("SELECT position FROM NAME_log WHERE request_id = %s", (request_id,))
        return found[0][0] if found else None

    def end(self, position: int) -> End:
        last, chain, engine = self._rows(self.END, (position,))[0]
        return End(last, None if chain is None else bytes(chain), engine)

    def entries(self, first: int, last: int) -> list[Entry]:
        found = self._rows(self.ENTRIES, (first, last, MOST_ENTRIES))
        return [Entry(position, request_id, bytes(script), bytes(chain)) for position, request_id, script, chain in found]

    def wait(self, position: int, seconds: float) -> None:
        if self._connection is not None:
            self._connection.notifies.clear()
        # What is appended meanwhile is notified with the reply, or after it.
        if self.end(0).position < position and not self._connection.notifies:
            select.select([self._connection], [], [], seconds)
            with suppress(self._psycopg2.OperationalError):
                self._connection.poll()

    def checkpoint(self) -> Checkpoint | None:
        found = self._rows(self.CHECKPOINT)
        return Checkpoint(found[0][0], bytes(found[0][1]), b"".join(bytes(part) for _, _, part in found)) if found else None

    def checkpoint_bytes(self) -> int:
        return int(self._rows("SELECT coalesce(sum(octet_length(bytes)), 0) FROM NAME_checkpoint")[0][0])

    def keep(self, checkpoint: Checkpoint) -> bool:
        position, chain, text = checkpoint
        try:
            self._rows("BEGIN; LOCK TABLE NAME_checkpoint IN EXCLUSIVE MODE")
            is_kept = is_older = bool(self._rows("SELECT position FROM NAME_checkpoint WHERE position >= %s", (position,)))
            if not is_older and (is_kept := self.end(position).chain == chain):
                self._rows("DELETE FROM NAME_checkpoint")
                for number, part in enumerate(parts_of(text)):
                    values = (position, number, self._psycopg2.Binary(chain), self._psycopg2.Binary(part))
                    self._rows("INSERT INTO NAME_checkpoint VALUES(%s, %s, %s, %s)", values)
            self._rows("COMMIT")
        except BaseException:
            # The transaction goes with the connection.
            self.close()
            raise
        return is_kept

    def trim(self) -> None:
        self._rows(self.TRIM)

    def close(self) -> None:
        connection, self._connection = self._connection, None
        if connection is not None:
            with suppress(Exception):
                connection.close()

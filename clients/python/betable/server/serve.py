"""A durable table by HTTP: `python3 -m betable serve PATH --port N`. docs/SERVICE.md has its endpoints, and what is promised.

This process speaks HTTP, and hands scripts to the engine's process (engine.py). The handlers of the endpoints are methods of `Service`; an answer that is no
success is a `Problem`.
"""

from __future__ import annotations

import argparse
import asyncio
import hmac
import json
import logging
import os
import signal
import sys
import time
from collections.abc import AsyncIterator, Awaitable, Callable, Iterator
from contextlib import contextmanager
from pathlib import Path
from typing import Any, NamedTuple

from aiohttp import web
from prometheus_client import CollectorRegistry, Counter, Gauge, Histogram, ProcessCollector, generate_latest

from ..calls import refusal
from ..durable.table import FAULTS
from ..engine import MOST_WORKERS
from ..errors import Refused
from ..language import MOST_SCRIPT_BYTES, commands
from ..messages import OPERATIONS
from ..replies import BLOCK_BYTES
from ..schema import Trees
from .answers import (
    CsvRows, CsvRowsWithHeader, JsonRows, RowsAnswer, content_policy, event_of, first_reason, json_replies, picture_of, refusal_of_batch, refused_count,
    start_event, too_large, trees_of,
)  # fmt: skip
from .backups import Backups, checked_name as checked_backup_name
from .bodies import (
    JSON, JSON_LINES, Batch, delete_of, header_hint, is_json_body, no_table, operations_of, rows_of_csv, rows_of_json, upserts_of_csv, upserts_of_json,
)  # fmt: skip
from .connections import FILES_BESIDE, Connections, client_of, raised_limit_of_files
from .engine import ALL_ROWS, Answer, Closed, Engine, Lost, Page, Result, Work, WrongKey
from .notices import Notices, RequestLog
from .requests import (
    Problem, bounds_of, changing_word, checked_name, flag_of, host_name, is_json, is_loopback, key_of, number_of, page_of, pairs_of, problem_of, query_of,
    record_of, request_id, tree_of,
)  # fmt: skip

Handler = Callable[[web.Request], Awaitable[web.StreamResponse]]
MOST_EVENTS, MOST_WATCHERS = 256, 64  # that wait for a reader; readers
PAGE_ROWS = 10_000  # of a page of all rows of a range
DELETED_ROWS = 5_000  # that a batch removes of a range
FAILED_CHANGE_SECONDS = 60  # how long /healthz tells that a change has failed, so that whoever heeds it tries again
EVENT_SECONDS = 15  # seconds after which a reader of events gets a comment, so that proxies keep the connection
ENDING_SECONDS = 1  # seconds after which a server that is ending gives up a body whose next bytes do not arrive
LEAST_TOKEN_BYTES = 16
CAUSES = ("size", "request")  # of a checkpoint
EMPTY_BATCH = b"batch\nend\n"  # stands for packed changes
BODY_TYPES = ("text/", "application/octet-stream", "application/x-www-form-urlencoded")
SECONDS = (0.0003, 0.001, 0.003, 0.01, 0.03, 0.1, 0.3, 1, 3, 10, 30)
COMMON_HEADERS = {"Cache-Control": "no-store", "X-Content-Type-Options": "nosniff"}


class Limits(NamedTuple):
    """Bytes of a body, requests that wait, bytes of bodies and replies that are held for them, the seconds that a client has for its next bytes, and
    connections."""

    body: int = MOST_SCRIPT_BYTES
    waiting: int = 1_024
    held: int = 256 << 20
    seconds: float = 60
    connections: int = 1_024


class Metrics:
    """What a server measures, for Prometheus."""

    def __init__(self, engine: Engine, service: Service) -> None:
        registry = self.registry = CollectorRegistry()
        self.requests = Counter("betable_requests", "Requests that were answered", ["endpoint", "status"], registry=registry)
        self.request_seconds = Histogram("betable_request_seconds", "From the head of a request to its answer", buckets=SECONDS, registry=registry)
        self.scripts = Counter("betable_scripts", "Scripts that were run", registry=registry)
        self.refused = Counter("betable_refused_commands", "Commands that were refused", registry=registry)
        self.commits = Counter("betable_commits", "Commits of scripts that changed the table", registry=registry)
        self.group = Histogram("betable_group_scripts", "Scripts that were run as a group", buckets=(1, 2, 4, 8, 16, 32, 64, 128, 256), registry=registry)
        self.run_seconds = Histogram("betable_run_seconds", "A group in the engine", buckets=SECONDS, registry=registry)
        self.commit_seconds = Histogram("betable_commit_seconds", "A commit", buckets=SECONDS, registry=registry)
        self.failed_backups = Counter("betable_failed_backups", "Backups that were not written", registry=registry)
        self.checkpoint_seconds = Histogram(
            "betable_checkpoint_seconds", "A checkpoint, by itself as the file was long (size), or by POST /checkpoint (request)", ["cause"], buckets=SECONDS,
            registry=registry,
        )  # fmt: skip
        for cause in CAUSES:
            self.checkpoint_seconds.labels(cause)
        self.refused_connections = Counter("betable_refused_connections", "Connections that got 503, as each was in use", registry=registry)
        for name, help_text, value in (
            ("betable_kept_scripts", "The number of the last script that is kept, counted since the start", lambda: engine.number),
            ("betable_file_bytes", "Bytes of the file of the table", lambda: engine.file_bytes),
            ("betable_checkpoint_time", "When the last checkpoint was written, in seconds since 1970, or 0 if none was since the start",
             lambda: service.checkpoint_time),
            ("betable_checkpoint_failed", "1 if the last checkpoint that was due by the size of the file was not written", lambda: service.checkpoint_failed),
            ("betable_backup_time", "When the last backup was written, in seconds since 1970, or 0 if none was since the start", lambda: service.backups.time),
            ("betable_backup_seconds", "From the request for the last backup to its end", lambda: service.backups.seconds),
            ("betable_waiting_requests", "Requests that wait for the engine, or for the rest of their bodies", lambda: service.waiting),
            ("betable_queued_scripts", "Scripts that the engine has not answered", lambda: engine.waiting),
            ("betable_held_bytes", "Bytes of bodies and replies in memory", lambda: service.held),
            ("betable_event_readers", "Readers of /events", lambda: len(service.watchers)),
            ("betable_connections", "Connections that are open", lambda: len(service.connections)),
            ("betable_engine_open", "1 if the engine takes scripts", lambda: engine.is_open),
            ("betable_engine_starts", "How often the engine's process was started", lambda: engine.starts),
        ):
            Gauge(name, help_text, registry=registry).set_function(value)
        ProcessCollector("betable_engine", lambda: engine.pid, registry=registry)
        if engine.workers:
            ProcessCollector("betable_table", lambda: engine.table_process, registry=registry)
        ProcessCollector("betable_http", registry=registry)

    def count(self, endpoint: str, status: int) -> None:
        self.requests.labels(endpoint, status).inc()

    def count_refused_connection(self) -> None:
        self.refused_connections.inc()
        self.count("none", 503)

    def take(self, group: list[Work], result: Result, before: int) -> None:
        self.scripts.inc(len(group))
        self.group.observe(len(group))
        self.run_seconds.observe(result.run_seconds)
        if result.number != before:
            self.commits.inc(result.number - before if result.table_process else 1)
            self.commit_seconds.observe(result.commit_seconds)
        if result.checkpoint_seconds is not None:
            self.checkpoint_seconds.labels(CAUSES[group[0].script is None]).observe(result.checkpoint_seconds)


class Service:
    """The handlers of the endpoints over an engine."""

    def __init__(
        self, path: str, limits: Limits = Limits(), token: bytes | None = None, is_read_only: bool = False, log: Path | None = None,
        slow_seconds: float | None = None, backup_folder: Path | None = None, workers: int = 0,
    ) -> None:  # fmt: skip
        self.notices = Notices()
        self.engine = Engine(path, self.take, self.notices.tell, workers)
        self.limits, self.token, self.is_read_only = limits, token, is_read_only
        self.log = RequestLog(log, slow_seconds, self.notices.tell)
        # When a change failed because memory or disk ran out, if none has succeeded since, and why.
        self.failed_change: tuple[float, str] | None = None
        self.checkpoint_time, self.checkpoint_failed = 0.0, False
        self.since = round(time.time(), 3)
        self.backups = Backups(backup_folder, path)
        self.waiting, self.held, self.is_ending = 0, 0, False
        self.watchers: set[asyncio.Queue[str | None]] = set()
        self.metrics = Metrics(self.engine, self)
        self.connections = Connections(limits.connections, limits.seconds, self.notices, self.answer_to_no_head, self.metrics.count_refused_connection)
        self.page = Path(__file__).with_name("page.html").read_text(encoding="utf-8")

    def application(self) -> web.Application:
        @web.middleware
        async def answer(request: web.Request, handler: Handler) -> web.StreamResponse:
            return await self.answer(request, handler)

        application = web.Application(middlewares=[answer])
        application.add_routes([
            web.get("/", self.get_page),
            web.get("/healthz", self.get_health),
            web.get("/metrics", self.get_metrics),
            web.post("/run", self.post_run),
            web.post("/rows", self.post_rows),
            web.post("/upserts", self.post_upserts),
            web.get("/row", self.get_row, allow_head=False),
            web.delete("/row", self.delete_row),
            web.get("/rows/{tree}", self.get_rows, allow_head=False),
            web.delete("/rows/{tree}", self.delete_rows),
            web.get("/sums/{tree}", self.get_sums, allow_head=False),
            web.get("/trees", self.get_trees),
            web.get("/tree/{tree}.svg", self.get_picture),
            web.get("/events", self.get_events, allow_head=False),
            web.post("/checkpoint", self.post_checkpoint),
            web.post("/backup", self.post_backup),
        ])  # fmt: skip
        application.on_shutdown.append(self.end_events)
        return application

    # ---- what all requests share ----

    async def answer(self, request: web.Request, handler: Handler) -> web.StreamResponse:
        """The answer to a request: that of its handler, or a problem as JSON."""
        resource, client = request.match_info.route.resource, client_of(request)
        begin, request["held"], request["done"] = time.perf_counter(), 0, {}
        self.connections.begin_request(client)
        try:
            if request.path not in ("/", "/healthz"):
                self.expect_permission(request)
            response = await handler(request)
        except web.HTTPException as fault:
            allowed = {"Allow": fault.headers["Allow"]} if "Allow" in fault.headers else {}
            response = response_of(Problem(fault.status, f"{fault.reason}: {request.method} {request.path}", allowed))
        except Problem as problem:
            response = response_of(problem)
        except (Refused, Lost, Closed, WrongKey, *FAULTS) as fault:
            found = problem_of(fault)
            found.fields |= request["done"]
            response = response_of(found)
            if response.status == 507 and request.method != "GET":
                self.failed_change = time.monotonic(), str(fault)
        except web.RequestPayloadError:
            response = response_of(Problem(400, "the body cannot be read: its chunks are not those of HTTP/1.1"))
        except ConnectionError:
            response = response_of(Problem(499, "the client has gone"))
        except Exception as fault:
            self.notices.fault(fault)
            response = response_of(Problem(500, "a fault of the server, which its standard error tells"))
        finally:
            self.held -= request["held"]
            self.connections.end_request(client)
        seconds = time.perf_counter() - begin
        self.metrics.count(resource.canonical if resource else "none", response.status)
        self.metrics.request_seconds.observe(seconds)
        self.log.take(request.remote, request.method, request.rel_url.raw_path, response.status, seconds)
        return response

    def answer_to_no_head(self) -> web.Response:
        self.metrics.count("none", 400)
        return response_of(Problem(400, "the head of the request cannot be read: it is not that of HTTP/1.1, or one of its lines is too long"))

    def expect_permission(self, request: web.Request) -> None:
        """That a request has the token. Where there is none, a page of another site must not use the server through a browser on this machine."""
        if self.token is not None:
            scheme, _, given = request.headers.get("Authorization", "").partition(" ")
            if scheme.lower() != "bearer" or not hmac.compare_digest(given.strip().encode("utf-8", "surrogateescape"), self.token):
                raise Problem(401, "this server needs its token: 'Authorization: Bearer TOKEN'", {"WWW-Authenticate": "Bearer"})
            return
        origin, site = request.headers.get("Origin"), request.headers.get("Sec-Fetch-Site", "none")
        if not is_loopback(host_name(request.host)):
            raise Problem(421, "a server without a token is asked by a name of this machine: localhost, 127.0.0.1 or [::1]")
        if site not in ("none", "same-origin") or origin not in (None, f"{request.scheme}://{request.host}"):
            raise Problem(403, "a page of another site may not use a server without a token")

    @contextmanager
    def place(self) -> Iterator[None]:
        """A place among the requests that wait."""
        if self.waiting >= self.limits.waiting or self.held >= self.limits.held:
            raise Problem(429, "too many requests wait, or too many bytes of them: try again", {"Retry-After": "1"})
        self.waiting += 1
        try:
            yield
        finally:
            self.waiting -= 1

    def hold(self, request: web.Request, count: int) -> None:
        """Counts bytes that are held for a request until it is answered."""
        request["held"] += count
        self.held += count

    async def body(self, request: web.Request, types: tuple[str, ...] = ()) -> bytes:
        if request.headers.get("Content-Encoding", "identity") != "identity":
            raise Problem(415, "a body is sent as it is, without a Content-Encoding")
        if not request.content_type.startswith((*BODY_TYPES, *types)):
            forms = "lines of CSV, or JSON" if types else "a script"
            raise Problem(415, f"a body here is {forms}, and not {request.content_type}")
        parts, length, size = [], 0, request.content_length or 0
        while size <= self.limits.body and length <= self.limits.body and not request.content.at_eof():
            parts.append(await self.next_part(request))
            length += len(parts[-1])
            self.hold(request, len(parts[-1]))
            if self.held > self.limits.held:
                raise Problem(429, "too many bytes of requests wait: try again", {"Retry-After": "1"})
        if max(size, length) > self.limits.body:
            raise Problem(413, f"a body has at most {self.limits.body:,} bytes")
        return b"".join(parts)

    async def next_part(self, request: web.Request) -> bytes:
        """The next bytes of a body. A server that is ending takes in no more of them, so it does not wait for them either."""
        loop = asyncio.get_running_loop()
        end = loop.time() + self.limits.seconds
        while True:
            try:
                async with asyncio.timeout_at(min(end, loop.time() + ENDING_SECONDS)):
                    return await request.content.readany()
            except TimeoutError:
                if self.is_ending:
                    raise Problem(503, "the server is ending, and nothing was done", {"Retry-After": "1"}) from None
                if loop.time() >= end:
                    raise Problem(408, f"the next bytes of the body did not come within {self.limits.seconds:g} seconds") from None

    async def response_in_parts(self, request: web.Request, parts: AsyncIterator[bytes], headers: dict[str, str]) -> web.StreamResponse:
        """An answer in parts. A client that does not take them in time is cut off, and so is one whose parts cannot be made."""
        response = web.StreamResponse(headers={**COMMON_HEADERS, **headers})
        await response.prepare(request)
        try:
            async for part in parts:
                async with asyncio.timeout(self.limits.seconds):
                    await response.write(part)
            async with asyncio.timeout(self.limits.seconds):
                await response.write_eof()
        except (TimeoutError, ConnectionError):
            abort(request)
        except BaseException:
            abort(request)
            raise
        return response

    def take(self, group: list[Work], result: Result) -> None:
        """Takes the results of a group of scripts: measures it, and reports to the readers of events which scripts were kept."""
        before = self.engine.number
        self.checkpoint_failed = result.checkpoint_failed
        if result.checkpoint_seconds is not None:
            self.checkpoint_time = time.time()
        if not group:
            return self.tell(start_event(result.number, self.since))
        if result.number > before:
            self.failed_change = None
        self.metrics.take(group, result, before)
        for work, answer in zip(group, result.answers):
            if isinstance(answer, Answer) and answer.number > before:
                before = answer.number
                if self.watchers and work.script is not None:
                    self.tell(event_of(EMPTY_BATCH if work.deletes else work.script, answer))
            elif isinstance(answer, Lost):
                (before,) = answer.args
                self.tell(start_event(before, self.since))

    def tell(self, event: str) -> None:
        for watcher in list(self.watchers):
            if watcher.full():
                # It is too slow. The end of its stream shows that it has missed something.
                self.end_watcher(watcher)
            else:
                watcher.put_nowait(event)

    def end_watcher(self, watcher: asyncio.Queue[str | None]) -> None:
        """Frees the place of a reader of events, and ends its stream."""
        self.watchers.discard(watcher)
        if watcher.full():
            watcher.get_nowait()
        watcher.put_nowait(None)

    async def end_events(self, application: web.Application) -> None:
        """Ends the streams of events, and those that begin later, so that the server can end."""
        self.is_ending = True
        for watcher in list(self.watchers):
            self.end_watcher(watcher)

    # ---- endpoints: changes ----

    async def post_run(self, request: web.Request) -> web.StreamResponse:
        with self.place():
            script, trees, once = await self.body(request), self.engine.trees, request_id(request)
            if self.is_read_only or once:
                word = await in_thread_if_large(len(script), changing_word, script)
                if self.is_read_only and word:
                    raise Problem(403, f"'{word}' changes the table, and this server is read-only")
                # A script that only reads may run again: nothing is stored for it.
                once = once if word else None
            answer = await self.engine.run(Work(script, once))
        return await self.replies(request, script, answer, trees)

    async def post_rows(self, request: web.Request) -> web.StreamResponse:
        has_header = flag_of(query_of(request, "header"), "header")
        if is_json_body(request):
            return await self.change(request, True, rows_of_json, request.content_type)
        return await self.change(request, has_header, rows_of_csv, has_header)

    async def post_upserts(self, request: web.Request) -> web.StreamResponse:
        pairs = pairs_of(request, "header", *OPERATIONS)
        operations, has_header = operations_of(pairs, OPERATIONS), flag_of({name: [value] for name, value in pairs}, "header")
        if is_json_body(request):
            return await self.change(request, True, upserts_of_json, request.content_type, operations)
        return await self.change(request, True, upserts_of_csv, has_header, operations)

    async def change(self, request: web.Request, needs_table: bool, batch_of_body: Callable[..., Batch], form: Any, *more: Any) -> web.StreamResponse:
        """The reply to the batch that a body is. A body of rows in the order of the columns is a batch without a look at the table."""
        self.expect_writable()
        with self.place():
            body, trees = await self.body(request, JSON + JSON_LINES), self.engine.trees
            there = trees.tree()
            if needs_table and not trees:
                raise no_table()
            batch = await in_thread_if_large(len(body), batch_of_body, body, form, there, *more)
            answer = await self.answer_to_batch(request, batch)
        if answer.replies.startswith(b"refused "):
            self.metrics.refused.inc()
            problem = await asyncio.to_thread(refusal_of_batch, batch, answer.replies, trees)
            if problem.fields.get("line") == 1 and batch_of_body is rows_of_csv:
                problem.fields["reason"] = f"{problem.fields['reason']}{header_hint(body, there)}"
            raise problem
        return await self.replies(request, batch.script, answer, trees)

    async def answer_to_batch(self, request: web.Request, batch: Batch) -> Answer:
        """The answer to a batch, which may be a refusal."""
        if batch.refusal:
            return Answer(batch.refusal, self.engine.number)
        script = batch.script if batch.changes is None else EMPTY_BATCH
        return await self.engine.run(Work(script, request_id(request), changes=batch.changes))

    async def delete_row(self, request: web.Request) -> web.StreamResponse:
        self.expect_writable()
        key, trees = key_of(query_of(request, "key")), self.engine.trees
        batch = delete_of(key, trees.tree())
        with self.place():
            answer = await self.answer_to_batch(request, batch)
        if answer.replies.startswith(b"refused "):
            self.metrics.refused.inc()
            raise refusal(next(commands(batch.script)), answer.replies, trees, [])
        return await self.replies(request, batch.script, answer, trees)

    async def delete_rows(self, request: web.Request) -> web.StreamResponse:
        """Removes the rows of a range, some at a time. Other requests run in between."""
        self.expect_writable()
        query, tree = query_of(request, "from", "to", "all"), tree_of(request)
        if ("from" in query or "to" in query) == flag_of(query, "all"):
            raise Problem(400, "'from' or 'to', or both, bound the rows that are removed; to remove all rows write all=1 in their place")
        if request_id(request) is not None:
            raise Problem(400, "a range is removed by many batches, which have no Idempotency-Key: send the request again without it, and it goes on")
        script, done = f"scan {tree}\n{bounds_of(query)}go\n".encode(), request["done"]
        work, done["deleted"] = Work(script, None, DELETED_ROWS, page=page_of(tree, query), deletes=True), 0
        with self.place():
            while True:
                try:
                    answer = await self.engine.run(work)
                except Lost:
                    reason = f"the engine's process ended: up to {DELETED_ROWS:,} more rows were removed. Send the request again, and it goes on"
                    raise Problem(503, reason, {"Retry-After": "1"}, **done) from None
                if answer.replies.startswith(b"refused "):
                    raise refusal(next(commands(script)), answer.replies, self.engine.trees, [])
                done["deleted"] += int(answer.replies.split()[1])
                if not answer.is_cut:
                    return json_response({**done, "number": answer.number})
                if self.is_ending:
                    raise Problem(503, "the server is ending: send the request again, and it goes on", {"Retry-After": "1"}, **done)
                if request.transport is None or request.transport.is_closing():
                    raise ConnectionResetError
                assert work.page is not None
                work = work._replace(page=work.page._replace(after=answer.last))

    async def post_checkpoint(self, request: web.Request) -> web.StreamResponse:
        self.expect_writable()
        if self.engine.workers:
            raise Problem(409, "with --workers the engine writes checkpoints by itself, and none when it is asked")
        with self.place():
            answer = await self.engine.run(Work(None))
        return json_response({"number": answer.number, "file_bytes": self.engine.file_bytes})

    async def post_backup(self, request: web.Request) -> web.StreamResponse:
        query = query_of(request, "name", "check")
        name = checked_backup_name(query["name"][0]) if "name" in query else None
        is_checked = "check" not in query or flag_of(query, "check")
        try:
            with self.place():
                backup = await self.backups.write(self.engine, name, is_checked)
        except Problem as problem:
            if problem.status >= 500:
                self.metrics.failed_backups.inc()
                self.notices.tell(str(problem))
            raise
        return json_response(backup._asdict())

    def expect_writable(self) -> None:
        if self.is_read_only:
            raise Problem(403, "this server is read-only")

    async def replies(self, request: web.Request, script: bytes, answer: Answer, trees: Trees) -> web.StreamResponse:
        """The replies to a script: their bytes, or as JSON each with its command."""
        self.hold(request, len(answer.replies))
        refused = await in_thread_if_large(len(answer.replies), refused_count, script, answer.replies)
        self.metrics.refused.inc(refused)
        headers = {"Betable-Refused": str(refused), "Betable-Number": str(answer.number)}
        if refused:
            headers["Betable-Reason"] = await in_thread_if_large(len(script), first_reason, script, answer.replies, trees)
        if is_json(request, ""):
            headers["Content-Type"] = "application/json; charset=utf-8"
            return await self.response_in_parts(request, made_in_thread(json_replies(script, answer, trees, refused)), headers)
        headers |= {"Content-Type": "text/plain; charset=utf-8", "Content-Length": str(len(answer.replies))}
        if len(answer.replies) <= BLOCK_BYTES:
            return web.Response(body=answer.replies, headers={**COMMON_HEADERS, **headers})
        parts = (answer.replies[at : at + BLOCK_BYTES] for at in range(0, len(answer.replies), BLOCK_BYTES))
        return await self.response_in_parts(request, made_in_turn(parts), headers)

    # ---- endpoints: reads ----

    async def get_row(self, request: web.Request) -> web.StreamResponse:
        query = query_of(request, "key", "format", "header")
        key = key_of(query)
        return await self.rows(request, f"get {record_of(key)}\n", query, Page("primary", key, is_row=True))

    async def get_rows(self, request: web.Request) -> web.StreamResponse:
        query, tree = query_of(request, "from", "to", "after", "limit", "newest_first", "format", "header"), tree_of(request)
        return await self.rows(request, f"scan {tree}\n{bounds_of(query)}go\n", query, page_of(tree, query))

    async def get_sums(self, request: web.Request) -> web.StreamResponse:
        query = query_of(request, "columns", "of", "from", "to", "limit", "format", "header")
        if "of" not in query:
            raise Problem(400, "'of' names the column whose sum is asked for")
        tree, columns, of = tree_of(request), number_of(query, "columns", 1), checked_name(query["of"][0])
        page = page_of(tree, query)._replace(group=(columns, of))
        return await self.rows(request, f"sums {tree} {columns} {of}\n{bounds_of(query)}go\n", query, page)

    async def rows(self, request: web.Request, text: str, query: dict[str, list[str]], page: Page) -> web.StreamResponse:
        """The rows of a `get`, of a `scan` or a page of it, or of `sums`, as CSV or as JSON. Without a limit the rows of a scan are read a page at a time. A
        `get` and `sums` are run as scripts, unless a text of a bound has a line break."""
        script, as_json, has_header = text.encode(), is_json(request, query.get("format", [""])[0]), flag_of(query, "header")
        is_scan = script.startswith(b"scan ")
        is_in_pages = is_scan and "limit" not in query
        most = PAGE_ROWS if is_in_pages else number_of(query, "limit", ALL_ROWS)
        work = Work(script, None, most, page=page if is_scan or page.has_breaks else None)
        with self.place():
            answer = await self.engine.run(work)
        self.hold(request, len(answer.replies))
        if answer.replies.startswith(b"refused "):
            raise refusal(next(commands(script)), answer.replies, self.engine.trees, [])
        if script.startswith(b"get "):
            if answer.replies == b"none\n":
                raise Problem(404, "no row has this key")
            answer = answer._replace(replies=answer.replies + b"rows 1\n")
        is_cut = answer.is_cut and not is_in_pages
        written = (JsonRows if as_json else CsvRowsWithHeader if has_header else CsvRows)(answer, script.startswith(b"sums "), is_cut)
        headers = {"Content-Type": written.content_type, "Betable-More": "true" if is_cut else "false"}
        return await self.response_in_parts(request, self.pages(request, work, answer, written, is_in_pages), headers)

    async def pages(self, request: web.Request, work: Work, answer: Answer, written: RowsAnswer, is_in_pages: bool) -> AsyncIterator[bytes]:
        """The rows of an answer, and those of the pages after it. Each page is read once the client has taken the one before, which is held no longer."""
        yield written.begin()
        while True:
            async for part in made_in_turn(written.rows(answer)):
                yield part
            if not (is_in_pages and answer.is_cut):
                break
            assert work.page is not None and answer.last is not None
            self.hold(request, -len(answer.replies))
            work, columns = work._replace(page=work.page._replace(after=answer.last)), answer.columns
            answer = await self.engine.run(work)
            self.hold(request, len(answer.replies))
            if answer.columns != columns:
                raise WrongKey("the tree was dropped, or made again, while its rows were read")
        yield written.end()

    async def get_trees(self, request: web.Request) -> web.StreamResponse:
        return json_response(trees_of(self.engine.trees))

    async def get_picture(self, request: web.Request) -> web.StreamResponse:
        query, tree = query_of(request, "columns", "lines"), tree_of(request)
        columns, lines = max(2, min(32, number_of(query, "columns", 8))), max(1, min(64, number_of(query, "lines", 6)))
        script = f"image {tree}\n".encode()
        with self.place():
            answer = await self.engine.run(Work(script, image_of=tree))
        self.hold(request, len(answer.replies))
        trees = self.engine.trees
        if answer.usage is not None:
            raise too_large(answer.usage)
        if answer.replies.startswith(b"refused "):
            raise refusal(next(commands(script)), answer.replies, trees, [])
        drawn = await asyncio.to_thread(picture_of, answer.replies, tree, trees, columns, lines)
        return web.Response(text=drawn, content_type="image/svg+xml", headers=COMMON_HEADERS)

    async def get_events(self, request: web.Request) -> web.StreamResponse:
        if len(self.watchers) >= MOST_WATCHERS:
            raise Problem(429, f"at most {MOST_WATCHERS} clients read events", {"Retry-After": "10"})
        if self.is_ending:
            raise Problem(503, "the server is ending", {"Retry-After": "1"})
        watcher: asyncio.Queue[str | None] = asyncio.Queue(MOST_EVENTS)
        self.watchers.add(watcher)
        client_of(request).on_lost = lambda: self.end_watcher(watcher)
        response = web.StreamResponse(headers={**COMMON_HEADERS, "Content-Type": "text/event-stream"})
        event: str | None = start_event(self.engine.number, self.since)
        try:
            await response.prepare(request)
            while event is not None:
                async with asyncio.timeout(self.limits.seconds):
                    await response.write(event.encode())
                try:
                    async with asyncio.timeout(EVENT_SECONDS):
                        event = await watcher.get()
                except TimeoutError:
                    event = ":\n\n"
        except (TimeoutError, ConnectionError):
            abort(request)
        finally:
            self.watchers.discard(watcher)
            client_of(request).on_lost = None
        return response

    async def get_metrics(self, request: web.Request) -> web.StreamResponse:
        return web.Response(body=generate_latest(self.metrics.registry), headers={**COMMON_HEADERS, "Content-Type": "text/plain; version=0.0.4; charset=utf-8"})

    async def get_health(self, request: web.Request) -> web.StreamResponse:
        if not self.engine.is_open:
            return json_response({"status": "starting"}, status=503)
        if self.failed_change is not None and time.monotonic() - self.failed_change[0] < FAILED_CHANGE_SECONDS:
            return json_response({"status": "changes fail", "reason": self.failed_change[1]}, status=503)
        return json_response({"status": "open"})

    async def get_page(self, request: web.Request) -> web.StreamResponse:
        return web.Response(text=self.page, content_type="text/html", headers={**COMMON_HEADERS, "Content-Security-Policy": content_policy(self.page)})


def abort(request: web.Request) -> None:
    """Cuts off a client that was not sent all of its answer."""
    if request.transport is not None:
        request.transport.abort()


async def made_in_turn(parts: Iterator[bytes]) -> AsyncIterator[bytes]:
    """Parts that are made quickly. Other tasks run between them."""
    for part in parts:
        yield part
        await asyncio.sleep(0)


async def made_in_thread(parts: Iterator[bytes]) -> AsyncIterator[bytes]:
    while (part := await asyncio.to_thread(lambda: next(parts, None))) is not None:
        yield part


async def in_thread_if_large(size: int, function: Callable[..., Any], *arguments: Any) -> Any:
    """The result of a function on that many bytes: if they are many, it runs in a thread, so that other requests are handled meanwhile."""
    return await asyncio.to_thread(function, *arguments) if size > BLOCK_BYTES else function(*arguments)


def json_response(found: Any, headers: dict[str, str] | None = None, status: int = 200) -> web.Response:
    headers = {**COMMON_HEADERS, **(headers or {})}
    # A reason may quote a path, and so bytes that are no UTF-8.
    text = (json.dumps(found, ensure_ascii=False) + "\n").encode("utf-8", "replace")
    return web.Response(body=text, status=status, headers=headers, content_type="application/json", charset="utf-8")


def response_of(problem: Problem) -> web.Response:
    return json_response(problem.fields, problem.headers, problem.status)


# ---- the command ----


def add_words(parser: argparse.ArgumentParser) -> None:
    """The words of `python3 -m betable serve`."""
    limits = Limits()
    parser.add_argument("path", metavar="PATH", help="the file of the table, which is made if there is none")
    parser.add_argument("--host", default="127.0.0.1", help="the address that is listened on (%(default)s); any other than a loopback one needs --token")
    parser.add_argument("--port", metavar="N", type=number_from(0, 65_535), default=8470, help="the port (%(default)s); with 0 one that is free")
    parser.add_argument("--token", metavar="FILE", type=Path, help=f"a file whose first line, of at least {LEAST_TOKEN_BYTES} bytes, each request has to have")
    parser.add_argument("--read-only", action="store_true", help="refuses what would change the table; backups are written all the same")
    parser.add_argument("--backup-folder", metavar="DIR", type=Path, help="the folder into which POST /backup writes; without it there are no backups")
    number, seconds = number_from(1), number_from(0.001, 86_400, float)
    of_workers = "leaves the table to the program betable_engine, which works in N threads and keeps each request by itself; without it there is one thread"
    parser.add_argument("--workers", metavar="N", type=number_from(1, MOST_WORKERS), default=0, help=of_workers)
    parser.add_argument("--most-body", metavar="BYTES", type=number, default=limits.body, help="the most bytes of a body (%(default)s)")
    parser.add_argument("--most-waiting", metavar="N", type=number, default=limits.waiting, help="the most requests that wait (%(default)s)")
    parser.add_argument("--most-held", metavar="BYTES", type=number, default=limits.held, help="the most bytes of bodies and replies in memory (%(default)s)")
    of_files = f"{limits.connections}, or {FILES_BESIDE} fewer than the files that it may open"
    parser.add_argument("--most-connections", metavar="N", type=number, help=f"the most connections ({of_files})")
    parser.add_argument("--access-log", metavar="FILE", type=Path, help="gets a line for each request: time, address, method, path, status, seconds")
    parser.add_argument("--slow-seconds", metavar="S", type=seconds, help="prints a line on standard error for each request that takes as long")
    parser.add_argument("--client-seconds", metavar="S", type=seconds, default=limits.seconds, help="how long a client has for its next bytes (%(default)s)")


def number_from(least: float, most: float = sys.maxsize, kind: Callable[[str], Any] = int) -> Callable[[str], Any]:
    """The type of an option that is a number between two."""

    def number(word: str) -> Any:
        found = kind(word)
        if not least <= found <= most:
            raise argparse.ArgumentTypeError(f"{word} is not between {least:,} and {most:,}")
        return found

    return number


def run(words: argparse.Namespace) -> int:
    """Serves until a signal ends it. The status is 0 after a signal, 1 after a fault, and 2 for wrong words."""
    try:
        token = words.token.read_bytes().split(b"\n", 1)[0].strip() if words.token else None
    except OSError as fault:
        return fail(f"{words.token}: {fault.strerror}", 2)
    if token is not None and len(token) < LEAST_TOKEN_BYTES:
        return fail(f"{words.token}: a token has at least {LEAST_TOKEN_BYTES} bytes: 'openssl rand -hex 32' prints one", 2)
    if token is None and not is_loopback(words.host):
        return fail(f"{words.host} can be reached by others: it needs --token FILE", 2)
    files = raised_limit_of_files()
    connections = words.most_connections or max(1, min(Limits().connections, files - FILES_BESIDE))
    if connections + FILES_BESIDE > files:
        return fail(f"--most-connections {connections:,} needs {connections + FILES_BESIDE:,} open files, and the limit is {files:,}", 2)
    limits = Limits(words.most_body, words.most_waiting, words.most_held, words.client_seconds, connections)
    if limits.held < limits.body:
        return fail(f"--most-held is at least --most-body, which is {limits.body:,}", 2)
    folder = words.backup_folder and words.backup_folder.resolve()
    if folder and not (folder.is_dir() and os.access(folder, os.W_OK | os.X_OK)):
        return fail(f"{words.backup_folder}: no folder that backups can be written into", 2)
    try:
        service = Service(words.path, limits, token, words.read_only, words.access_log, words.slow_seconds, folder, words.workers)
    except OSError as fault:
        return fail(f"{words.access_log}: {fault.strerror}", 2)
    logging.getLogger().addHandler(service.notices)
    try:
        return asyncio.run(serve(service, words.host, words.port))
    except Exception as fault:
        return fail(str(fault) or type(fault).__name__, 1)


def fail(reason: str, status: int) -> int:
    print(f"betable serve: {reason}", file=sys.stderr)
    return status


async def serve(service: Service, host: str, port: int) -> int:
    """Opens the table, listens, and ends at a signal: what came in before is answered, and then the engine is ended."""
    ended, opened = asyncio.Event(), asyncio.Event()
    for number in (signal.SIGTERM, signal.SIGINT):
        asyncio.get_running_loop().add_signal_handler(number, ended.set)
    runner, connections = web.AppRunner(service.application()), service.connections
    engine = asyncio.create_task(service.engine.serve(opened))
    try:
        await first_of(opened.wait(), ended.wait(), engine)
        if not ended.is_set():
            await runner.setup()
            assert runner.server is not None
            address, port = await connections.listen(host, port, runner.server)
            name = f"[{address}]" if ":" in address else address
            print(f"betable: {service.engine.path} is served at http://{name}:{port}", flush=True)
            await first_of(ended.wait(), engine)
    finally:
        connections.stop_listening()
        if runner.server is not None:
            await runner.shutdown()
            await runner.server.shutdown(service.limits.seconds)
        await runner.cleanup()
        service.engine.end()
        await asyncio.wait([engine])
        service.log.close()
    return 0


async def first_of(*waits: Any) -> None:
    """Waits for the first of these, and raises its fault."""
    tasks = [asyncio.ensure_future(wait) for wait in waits]
    done, _ = await asyncio.wait(tasks, return_when=asyncio.FIRST_COMPLETED)
    for task in done:
        task.result()

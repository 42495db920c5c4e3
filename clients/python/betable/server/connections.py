"""Connections of the server: how many there may be, and how long a client may keep one without a request.

A connection is idle while no request of it is answered: before the whole head of one has arrived, and after an answer. One that stays idle is closed. If there
are as many connections as there may be, a new one takes the place of the one that has been idle for longest, so clients that send nothing keep nobody out.
"""

from __future__ import annotations

import asyncio
import json
import resource
import socket
import sys
from collections.abc import Callable
from contextlib import suppress
from typing import Any

from aiohttp import web

from .notices import Notices, name_of

FILES_BESIDE = 64  # open files that are no connections: those of Python, of listening, and the pipes of the engine's process
WAITING_IN_KERNEL = 1_024  # connections that wait to be accepted
ACCEPT_PAUSE = 1  # seconds after a failure to accept one
OPTIONS: dict[str, Any] = {"access_log": None, "auto_decompress": False}  # of aiohttp's handler
REASON = json.dumps({"status": 503, "reason": "every connection is in use: try again"}) + "\n"
NO_PLACE = (
    "HTTP/1.1 503 Service Unavailable\r\nContent-Type: application/json; charset=utf-8\r\nRetry-After: 1\r\nConnection: close\r\n"
    f"Content-Length: {len(REASON)}\r\n\r\n{REASON}"
).encode()


def raised_limit_of_files() -> int:
    """The most files that the process can have open, once its soft limit is the hard one."""
    soft, hard = resource.getrlimit(resource.RLIMIT_NOFILE)
    with suppress(OSError, ValueError):
        resource.setrlimit(resource.RLIMIT_NOFILE, (hard, hard))
        soft = hard
    return sys.maxsize if soft == resource.RLIM_INFINITY else soft


def client_of(request: web.Request) -> Client:
    assert isinstance(request.protocol, Client)
    return request.protocol


class Client(web.RequestHandler):
    """A connection, as aiohttp handles it. `on_lost` is called when it is lost, if a request that is being answered has set it."""

    def __init__(self, connections: Connections, manager: web.Server) -> None:
        super().__init__(manager, loop=asyncio.get_running_loop(), keepalive_timeout=connections.seconds, **OPTIONS)
        self.connections = connections
        self.on_lost: Callable[[], None] | None = None

    def connection_made(self, transport: asyncio.BaseTransport) -> None:
        super().connection_made(transport)
        self.connections.add(self)

    def connection_lost(self, fault: BaseException | None) -> None:
        super().connection_lost(fault)
        self.connections.remove(self)
        if self.on_lost is not None:
            self.on_lost()

    def handle_error(self, request: web.BaseRequest, status: int = 500, exc: BaseException | None = None, message: str | None = None) -> web.StreamResponse:
        """The answer to bytes that are no head. That of aiohttp quotes them on standard error, where a token does not belong."""
        if status != 400:
            return super().handle_error(request, status, exc, message)
        response = self.connections.answer_to_no_head()
        response.force_close()
        return response


class Connections:
    """The connections of a server, at most `most`, each idle for at most that many seconds."""

    def __init__(
        self, most: int, seconds: float, notices: Notices, answer_to_no_head: Callable[[], web.Response], on_refused: Callable[[], None]
    ) -> None:
        self.most, self.seconds, self.notices = most, seconds, notices
        self.answer_to_no_head, self.on_refused = answer_to_no_head, on_refused
        # Since when each is idle. The one that has been so for longest comes first.
        self._idle: dict[Client, float] = {}
        self._busy: set[Client] = set()
        self._tasks: list[asyncio.Task[None]] = []
        self._listeners: list[socket.socket] = []

    def __len__(self) -> int:
        return len(self._idle) + len(self._busy)

    # ---- which are idle ----

    def add(self, client: Client) -> None:
        self._idle[client] = asyncio.get_running_loop().time()

    def remove(self, client: Client) -> None:
        self._idle.pop(client, None)
        self._busy.discard(client)

    def begin_request(self, client: Client) -> None:
        if self._idle.pop(client, None) is not None:
            self._busy.add(client)

    def end_request(self, client: Client) -> None:
        """Its client has the time of an idle connection to take the end of its answer."""
        if client in self._busy:
            self._busy.remove(client)
            self.add(client)

    def close(self, client: Client) -> None:
        self.remove(client)
        if client.transport is not None:
            client.transport.abort()

    async def close_idle(self) -> None:
        loop = asyncio.get_running_loop()
        while True:
            await asyncio.sleep(min(1, self.seconds / 4))
            while self._idle and next(iter(self._idle.values())) + self.seconds <= loop.time():
                self.close(next(iter(self._idle)))

    # ---- new ones ----

    async def listen(self, host: str, port: int, manager: web.Server) -> tuple[str, int]:
        """Accepts connections at an address, which is returned."""
        loop = asyncio.get_running_loop()
        # The library finds and binds the addresses of the name. It would accept more connections at once than files may be open.
        server = await loop.create_server(asyncio.Protocol, host, port, start_serving=False)
        self._listeners = [one.dup() for one in server.sockets]
        server.close()
        for listener in self._listeners:
            listener.listen(WAITING_IN_KERNEL)
            self._tasks.append(asyncio.create_task(self.accept(listener, lambda: Client(self, manager))))
        self._tasks.append(asyncio.create_task(self.close_idle()))
        address: tuple[str, int] = self._listeners[0].getsockname()[:2]
        return address

    async def accept(self, listener: socket.socket, client: Callable[[], Client]) -> None:
        loop = asyncio.get_running_loop()
        while True:
            try:
                connection, _ = await loop.sock_accept(listener)
                if self.has_place():
                    await loop.connect_accepted_socket(client, connection)
                else:
                    self.refuse(connection)
                    await asyncio.sleep(0)
            except ConnectionError:
                pass  # it was lost before it was accepted
            except Exception as fault:
                self.notices.tell(f"no connection can be accepted: {name_of(fault)}")
                await asyncio.sleep(ACCEPT_PAUSE)

    def has_place(self) -> bool:
        """Whether one more connection may be there. The one that has been idle for longest is closed for it if need be."""
        if len(self) >= self.most and self._idle:
            self.close(next(iter(self._idle)))
        return len(self) < self.most

    def refuse(self, connection: socket.socket) -> None:
        self.on_refused()
        with connection, suppress(OSError):
            connection.send(NO_PLACE)

    def stop_listening(self) -> None:
        for task in self._tasks:
            task.cancel()
        for listener in self._listeners:
            listener.close()

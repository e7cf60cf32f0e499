"""Connection state recovery over python-socketio, whose nodes share a Redis stream, with taps at its moments.

python-socketio has no recovery: pid, stored session, replay and offsets are laid over it here, as a cluster of one's own would
do it. Engine.IO, Socket.IO, WebSocket, polling and upgrades are the libraries'. Node calls its tap at the moments of
docs/TAPPING.md; the clients have no tap of their own.
"""

from __future__ import annotations

import asyncio
import base64
import json
import re
import sys
import threading
from collections.abc import Coroutine, Iterable, Mapping
from dataclasses import dataclass, field
from pathlib import Path
from typing import Any

sys.path.insert(0, str(Path(__file__).resolve().parents[1] / "taps/python/src"))

import aiohttp  # noqa: E402
import engineio  # noqa: E402
import socketio  # noqa: E402
from aiohttp import web  # noqa: E402
from socketio import packet as sio_packet  # noqa: E402

from sioaudit_taps import NodeTap, encode  # noqa: E402

engineio.payload.Payload.max_decode_packets = 1 << 16  # a burst is more than 16 packets in a body
KEY = "events"
NAMESPACES = ["/", "/chat"]
OFFSET = re.compile(r"[0-9]+-[0-9]+")
PATIENCE = 20.0  # seconds that a client waits for its session where the node that has it is slow

Event = dict[str, Any]


def place(off: str) -> tuple[int, int]:
    """Where an offset stands in the stream."""
    time, number = off.split("-")
    return int(time), int(number)


def event_of(fields: Mapping[str, str]) -> Event | None:
    """The event of an entry; None where it carries none. Bytes stand there in hexadecimal digits."""
    return json.loads(fields["event"], object_hook=lambda it: bytes.fromhex(it["hex"]) if it.keys() == {"hex"} else it) if "event" in fields else None


def record_of(off: str, fields: Mapping[str, str]) -> dict[str, Any]:
    """What the stream's tap writes of an entry."""
    event = event_of(fields)
    if event is None:
        return {"k": "other", "off": off}
    text, attachments = encode(event["args"], off, event["nsp"])
    bin = [base64.b64encode(it).decode() for it in attachments]
    return {"k": "ev", "off": off, "nsp": event["nsp"], "rooms": event["rooms"], "except": event["except"], "text": text, "bin": bin}


def is_for(event: Event, rooms: Iterable[str]) -> bool:
    """Whether an event of the session's namespace is addressed to these rooms."""
    held = set(rooms)
    return (not event["rooms"] or not held.isdisjoint(event["rooms"])) and held.isdisjoint(event["except"])


async def publish(redis: Any, *args: Any, nsp: str = "/", rooms: Iterable[str] = ()) -> str:
    """Puts an event into the stream, and gives its offset."""
    event = {"nsp": nsp, "rooms": list(rooms), "except": [], "args": args}
    off: str = await redis.xadd(KEY, {"event": json.dumps(event, default=lambda it: {"hex": it.hex()})})
    return off


@dataclass
class Session:
    """A session that its node sends to. What was sent to it since it last came is kept: its rooms may change."""

    pid: str
    nsp: str
    eio_sid: str
    due: list[str] = field(default_factory=list)


class Server(socketio.AsyncServer):
    node: Node

    async def _handle_connect(self, eio_sid: str, namespace: str | None, data: Any) -> None:
        node, nsp = self.node, namespace or "/"
        if nsp not in NAMESPACES:
            await self._send_packet(eio_sid, self.packet_class(sio_packet.CONNECT_ERROR, {"message": "Invalid namespace"}, namespace=nsp))
            return
        ask = data if isinstance(data, dict) else {}
        kept = await node.claim(ask.get("pid"), ask.get("offset"), nsp)
        async with node.lock:
            missed: list[tuple[str, Event]] = []
            if kept is not None:
                sid, pid = kept["sid"], ask["pid"]
                for room in (None, *kept["rooms"]):
                    self.manager.enter_room(sid, nsp, room, eio_sid=eio_sid)
                missed = await node.missed(kept, ask["offset"])
                node.sessions[sid] = Session(pid, nsp, eio_sid, [off for off, _ in missed])
                node.tap.back(pid, kept["turn"])
            else:
                sid = self.manager.connect(eio_sid, nsp)
                pid = self.eio.generate_id()
                node.sessions[sid] = Session(pid, nsp, eio_sid)
                node.tap.open(pid, sid, nsp)
            await node.redis.set(f"session:{pid}", json.dumps({"nsp": nsp}))
            await self._send_packet(eio_sid, self.packet_class(sio_packet.CONNECT, {"sid": sid, "pid": pid}, namespace=nsp))
            # after the reply: of what comes before it nobody could tell whose it is, where the connection is lost in between
            for off, event in missed:
                await node.send(eio_sid, off, event)
        socket = self.eio.sockets.get(eio_sid)
        if socket is None or socket.closed:  # it went meanwhile
            node.later(node.broke(eio_sid))

    async def _handle_disconnect(self, eio_sid: str, namespace: str | None) -> None:
        node = self.node
        async with node.lock:
            session = node.sessions.pop(self.manager.sid_from_eio_sid(eio_sid, namespace or "/"), None)
            if session is not None:
                node.tap.gone(session.pid)
                await node.redis.delete(f"session:{session.pid}")
        await super()._handle_disconnect(eio_sid, namespace)

    async def _handle_eio_disconnect(self, eio_sid: str) -> None:
        # a send may find that the connection has ended, and then the lock is held
        async def ended() -> None:
            await self.node.broke(eio_sid)
            await super(Server, self)._handle_eio_disconnect(eio_sid)

        self.node.later(ended())


class Node:
    """A node: sends what it takes from the stream, and gives sessions back that broke here or elsewhere."""

    def __init__(self, redis: Any, tap: NodeTap) -> None:
        self.redis = redis
        self.tap = tap
        self.sessions: dict[str, Session] = {}  # by sid
        self.last = "0-0"
        self.lock = asyncio.Lock()
        self.running = asyncio.Event()
        self.running.set()
        self.tasks: set[asyncio.Task[None]] = set()
        self.sio = Server(async_mode="aiohttp", namespaces=NAMESPACES, ping_interval=5, ping_timeout=20)
        self.sio.node = self
        for nsp in NAMESPACES:
            self.sio.on("join", self.join, namespace=nsp)
            self.sio.on("leave", self.leave, namespace=nsp)

    async def boot(self) -> None:
        self.tap.start(None)
        app = web.Application()
        self.sio.attach(app)
        self.runner = web.AppRunner(app, access_log=None)
        await self.runner.setup()
        site = web.TCPSite(self.runner, "127.0.0.1", 0, shutdown_timeout=0.1)
        await site.start()
        self.port: int = self.runner.addresses[0][1]
        self.url = f"http://127.0.0.1:{self.port}"
        self.stopping = False
        self.reader = asyncio.create_task(self.read())

    def later(self, work: Coroutine[Any, Any, None]) -> None:
        task = asyncio.create_task(work)
        self.tasks.add(task)
        task.add_done_callback(self.tasks.discard)

    async def join(self, sid: str, room: str) -> str:
        async with self.lock:
            session = self.sessions.get(sid)
            if session is not None:
                self.sio.enter_room(sid, room, namespace=session.nsp)
                self.tap.join(session.pid, room)
        return "ok"

    async def leave(self, sid: str, room: str) -> str:
        async with self.lock:
            session = self.sessions.get(sid)
            if session is not None:
                self.sio.leave_room(sid, room, namespace=session.nsp)
                self.tap.leave(session.pid, room)
        return "ok"

    def rooms(self, sid: str) -> list[str]:
        rooms: list[str] = self.sio.manager.get_rooms(sid, self.sessions[sid].nsp)
        return rooms

    async def send(self, eio_sid: str, off: str, event: Event) -> None:
        name, *args = event["args"]
        await self.sio._emit_internal(eio_sid, name, (*args, off), namespace=event["nsp"])

    async def live(self, session: Session, off: str, event: Event) -> None:
        """Sends what the node has just taken."""
        session.due.append(off)
        await self.send(session.eio_sid, off, event)

    async def read(self) -> None:
        while True:
            await self.running.wait()
            entries = await self.redis.xrange(KEY, f"({self.last}", "+", count=50)
            for off, fields in entries:
                await self.running.wait()
                async with self.lock:
                    self.tap.take(off)
                    self.last = off
                    event = event_of(fields)
                    if event is not None:
                        for session in [it for sid, it in self.sessions.items() if it.nsp == event["nsp"] and is_for(event, self.rooms(sid))]:
                            await self.live(session, off, event)
                    for session in self.sessions.values():
                        if session.pid == fields.get("break"):
                            self.later(self.cut(session.eio_sid, abort=True))
            if not entries:
                if self.stopping:
                    return
                await asyncio.sleep(0.01)

    def is_far_enough(self, kept: Event) -> bool:
        """Whether a session may come back: a node that is behind its break would send again what it has."""
        return place(self.last) >= place(kept["cursor"])

    async def claim(self, pid: Any, offset: Any, nsp: str) -> Event | None:
        """Takes the stored session for this node. A node that still has it is asked to let it go."""
        if not isinstance(pid, str) or not isinstance(offset, str) or not OFFSET.fullmatch(offset):
            return None
        asked = False
        deadline = asyncio.get_running_loop().time() + PATIENCE
        while asyncio.get_running_loop().time() < deadline:
            kept = json.loads(await self.redis.get(f"session:{pid}") or "null")
            if kept is None or kept["nsp"] != nsp:
                return None
            if "turn" in kept and self.is_far_enough(kept):
                kept = json.loads(await self.redis.getdel(f"session:{pid}") or "null")
                return kept if kept and "turn" in kept else None  # another node was quicker
            if "turn" not in kept and not asked:
                asked = True
                await self.redis.xadd(KEY, {"break": pid})
            await asyncio.sleep(0.005)
        return None

    async def replayed_to(self) -> str:
        """The entry up to which events are sent again: those after it the node has still to take, and sends then."""
        return self.last

    async def missed(self, kept: Event, offset: str) -> list[tuple[str, Event]]:
        """What a session is sent again: up to its break what was sent to it, and then what is for the rooms that it had there."""
        found = []
        for off, fields in await self.redis.xrange(KEY, f"({offset}", await self.replayed_to()):
            event = event_of(fields)
            if event is None or event["nsp"] != kept["nsp"]:
                continue
            if off in kept["due"] if place(off) <= place(kept["cursor"]) else is_for(event, kept["rooms"]):
                found.append((off, event))
        return found

    async def broke(self, eio_sid: str) -> None:
        """A connection was lost: stores its sessions, to be recovered."""
        async with self.lock:
            for sid, session in list(self.sessions.items()):
                if session.eio_sid != eio_sid:
                    continue
                rooms = self.rooms(sid)
                del self.sessions[sid]
                turn = self.tap.break_(session.pid)
                kept = {"sid": sid, "nsp": session.nsp, "turn": turn, "cursor": self.last, "rooms": rooms, "due": session.due}
                await self.sio.manager.disconnect(sid, session.nsp)
                await self.redis.set(f"session:{session.pid}", json.dumps(kept))

    async def cut(self, eio_sid: str | None = None, abort: bool = False) -> None:
        """Ends a connection, or all, in a way that allows recoveries."""
        for socket in list(self.sio.eio.sockets.values()):
            if eio_sid in (None, socket.sid):
                await socket.close(wait=False, abort=abort)

    async def stop(self) -> None:
        """Ends the node, once it has taken what the stream has."""
        self.running.set()
        self.stopping = True
        await self.reader
        await self.cut()
        while self.tasks:
            await asyncio.gather(*self.tasks)
        await self.runner.cleanup()
        self.tap.end()


class Kept:
    """What a client keeps: pid and offset by namespace."""

    def __init__(self) -> None:
        self.pids: dict[str, str] = {}
        self.offsets: dict[str, str] = {}
        self.got: list[str] = []

    def ask(self, nsp: str) -> dict[str, str]:
        if nsp not in self.pids:
            return {}
        return {"pid": self.pids[nsp], **({"offset": self.offsets[nsp]} if nsp in self.offsets else {})}

    def reply(self, nsp: str, data: dict[str, str]) -> None:
        if self.pids.get(nsp) != data["pid"]:
            self.offsets.pop(nsp, None)
        self.pids[nsp] = data["pid"]

    def event(self, nsp: str, data: list[Any]) -> None:
        if data and isinstance(data[-1], str) and OFFSET.fullmatch(data[-1]):
            if nsp not in self.offsets or place(data[-1]) > place(self.offsets[nsp]):
                self.offsets[nsp] = data[-1]
            self.got.append(data[-1])


class WholeBodies:
    """A session of aiohttp that gives an answer once its body is whole. engineio's client reads it later, and where it was
    cut off then, goes on as connected for ever."""

    closed = False  # it opens again where it was closed

    def __init__(self) -> None:
        self._session: aiohttp.ClientSession | None = None

    def __getattr__(self, name: str) -> Any:
        if self._session is None or self._session.closed:
            self._session = aiohttp.ClientSession()
        return getattr(self._session, name)

    async def get(self, url: str, **words: Any) -> aiohttp.ClientResponse:
        answer = await self.request("GET", url, **words)
        await answer.read()
        return answer

    async def close(self) -> None:
        if self._session is not None:
            await self._session.close()


class AsyncClient(socketio.AsyncClient):
    """The library's client, that asks for a recovery."""

    def __init__(self) -> None:
        # a POST is answered when what it carries is done: a CONNECT too, which may wait for its session
        super().__init__(reconnection=False, handle_sigint=False, request_timeout=2 * PATIENCE, http_session=WholeBodies())
        self.kept = Kept()

    async def _handle_eio_connect(self) -> None:
        self.sid = self.eio.sid
        self._binary_packet = None  # an event of the last connection, whose attachments never came
        for nsp in self.connection_namespaces:
            await self._send_packet(self.packet_class(sio_packet.CONNECT, data=self.kept.ask(nsp), namespace=nsp))

    async def _handle_connect(self, namespace: str | None, data: Any) -> None:
        self.kept.reply(namespace or "/", data)
        await super()._handle_connect(namespace, data)

    async def _handle_event(self, namespace: str | None, id: int | None, data: list[Any]) -> None:
        self.kept.event(namespace or "/", data)
        await super()._handle_event(namespace, id, data)


def session_of_whole_bodies() -> Any:
    """A session of requests that refuses a body that was cut off. With urllib3 before version 2 it gives what came of it, and
    the client takes half a packet for one."""
    import requests.adapters

    class Adapter(requests.adapters.HTTPAdapter):
        def build_response(self, request: Any, response: Any) -> Any:
            response.enforce_content_length = True
            try:
                return super().build_response(request, response)
            except AttributeError as error:  # a header that was cut off within `charset=`
                raise requests.exceptions.ConnectionError("the answer was cut off in its headers") from error

    session = requests.Session()
    session.mount("http://", Adapter())
    return session


class ThreadClient(socketio.Client):
    """The same with threads, in which events can reach handlers in another order than they came."""

    def __init__(self) -> None:
        super().__init__(reconnection=False, handle_sigint=False, request_timeout=2 * PATIENCE, http_session=session_of_whole_bodies())
        self.kept = Kept()
        self.keeping = threading.Lock()

    def _handle_eio_connect(self) -> None:
        self.sid = self.eio.sid
        self._binary_packet = None  # an event of the last connection, whose attachments never came
        for nsp in self.connection_namespaces:
            self._send_packet(self.packet_class(sio_packet.CONNECT, data=self.kept.ask(nsp), namespace=nsp))

    def _handle_connect(self, namespace: str | None, data: Any) -> None:
        self.kept.reply(namespace or "/", data)
        super()._handle_connect(namespace, data)

    def _handle_event(self, namespace: str | None, id: int | None, data: list[Any]) -> None:
        with self.keeping:
            self.kept.event(namespace or "/", data)
        super()._handle_event(namespace, id, data)

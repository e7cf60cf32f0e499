#!/usr/bin/python3
"""A cluster of real software for the tests of the proxy: servers and clients of python-socketio with the recovery of
demo/recovery.py, over a Redis stream, each with its tap of taps/python.

  cluster.py node NAME REDIS TAPS     a node; prints its port
  cluster.py clients                  any number of clients

Both take lines of JSON on standard input, {"id":1,"op":"..",..}, answer {"id":1,"r":..}, and end with their input.
"""

import asyncio
import base64
import json
import os
import random
import sys
from pathlib import Path

sys.path.insert(0, str(Path(__file__).resolve().parents[4] / "demo"))

import recovery  # noqa: E402
import redis.asyncio  # noqa: E402

from sioaudit_taps import NodeTap, StreamTap, Tap, tap_client, tap_stream  # noqa: E402

recovery.NAMESPACES.append("/n")
recovery.PATIENCE = 5  # the tests wait until all have noticed a cut


def thaw(value):
    """Bytes are asked for as {"$b": base64}."""
    if isinstance(value, list):
        return [thaw(it) for it in value]
    if isinstance(value, dict):
        return base64.b64decode(value["$b"]) if value.keys() == {"$b"} else {name: thaw(it) for name, it in value.items()}
    return value


async def serve(ops):
    """Answers the commands on standard input, each in a task of its own."""
    reader = asyncio.StreamReader(limit=1 << 26)
    await asyncio.get_running_loop().connect_read_pipe(lambda: asyncio.StreamReaderProtocol(reader), sys.stdin)

    async def answer(id, op, **words):
        try:
            made = {"r": await getattr(ops, f"op_{op}")(**words)}
        except Exception as error:
            made = {"error": f"{type(error).__name__}: {error}"}
        print(json.dumps({"id": id, **made}), flush=True)

    tasks = set()
    while line := await reader.readline():
        task = asyncio.create_task(answer(**json.loads(line)))
        tasks.add(task)
        task.add_done_callback(tasks.discard)
    os._exit(0)


class Node(recovery.Node):
    """A node that can be made to forget events, and to take sessions back before it has come as far as their break."""

    def __init__(self, redis, tap):
        super().__init__(redis, tap)
        self.forget, self.wait = set(), True
        self.sio.eio.ping_interval, self.sio.eio.ping_timeout = 25, 60  # on a busy machine too a cut is the test's

    async def live(self, session, off, event):
        if off not in self.forget:
            await super().live(session, off, event)

    async def missed(self, kept, offset):
        return [it for it in await super().missed(kept, offset) if it[0] not in self.forget]

    def is_far_enough(self, kept):
        return not self.wait or super().is_far_enough(kept)

    async def op_publish(self, events):
        for it in events:
            off = await recovery.publish(self.redis, *thaw(it["data"]), nsp=it.get("nsp", "/"), rooms=it.get("rooms", []))
        return off

    async def op_burst(self, n, rooms, size):
        """Many events with pauses by chance."""
        for number in range(n):
            await recovery.publish(self.redis, "m", number, "x" * size, rooms=rooms)
            if random.random() < 0.2:
                await asyncio.sleep(0.002)

    async def op_info(self):
        return {"last": self.last, "pids": [it.pid for it in self.sessions.values()]}

    async def op_set(self, forget, wait):
        self.forget, self.wait = set(forget), wait

    async def op_pause(self):
        self.running.clear()

    async def op_resume(self):
        self.running.set()

    async def op_abort(self, eio):
        """Notices that a connection is lost, which polling tells only by a missing pong."""
        if eio is not None:
            await self.cut(eio, abort=True)

    async def op_stream(self, tap):
        """Writes the stream's tap, of what the stream has now."""
        stop = asyncio.Event()
        stop.set()
        with StreamTap(tap=Tap("st", "stream", file=tap)) as stream:
            return await tap_stream(stream, self.redis, recovery.KEY, recovery.record_of, stop=stop)


class Client(recovery.AsyncClient):
    """Counts its recoveries."""

    recovered = 0

    async def _handle_connect(self, namespace, data):
        self.recovered += self.kept.pids.get(namespace or "/") == data["pid"]
        await super()._handle_connect(namespace, data)


class Clients:
    def __init__(self):
        self.all = {}

    async def op_new(self, name, tap):
        self.all[name] = Client()
        tap_client(self.all[name], tap=Tap(name, "client", file=tap))

    async def op_connect(self, name, url, transports, namespaces):
        await self.all[name].connect(url, transports=transports, namespaces=namespaces, wait_timeout=60)

    async def op_join(self, name, room, nsp):
        return await self.all[name].call("join", room, namespace=nsp, timeout=60)

    async def op_forget(self, name, nsp):
        kept = self.all[name].kept
        del kept.pids[nsp], kept.offsets[nsp]

    async def op_gone(self, name):
        while self.all[name].eio.state != "disconnected":
            await asyncio.sleep(0.005)

    async def op_info(self, name):
        it = self.all[name]
        return {
            "pids": it.kept.pids,
            "offsets": it.kept.offsets,
            "got": len(it.kept.got),
            "recovered": it.recovered,
            "eio": it.eio.sid,
            "transport": it.eio.current_transport,
            "connected": it.connected,
        }


async def main(role, *words):
    if role == "node":
        name, socket, taps = words
        node = Node(redis.asyncio.Redis(unix_socket_path=socket, decode_responses=True), NodeTap(name, dir=taps))
        await node.boot()
        print(json.dumps({"port": node.port}), flush=True)
        await serve(node)
    else:
        print("{}", flush=True)
        await serve(Clients())


asyncio.run(main(*sys.argv[1:]))

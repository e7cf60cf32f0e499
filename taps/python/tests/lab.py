"""A cluster in this process: two nodes of demo/recovery.py, which tell their taps the moments, over a Redis stream."""

import asyncio
import os
import subprocess
import sys
import tempfile
from pathlib import Path

ROOT = Path(__file__).resolve().parents[3]
sys.path.insert(0, str(ROOT / "taps/python/src"))
sys.path.insert(0, str(ROOT / "demo"))

import recovery  # noqa: E402
import redis.asyncio  # noqa: E402
from recovery import KEY, NAMESPACES, AsyncClient, Node, ThreadClient, record_of  # noqa: E402, F401

from sioaudit_taps import NodeTap, StreamTap, tap_client, tap_stream  # noqa: E402


def program():
    named = os.environ.get("SIOAUDIT")
    found = Path(named) if named else ROOT / "dist/sioaudit-linux-x86_64"
    return found if found.exists() else None


def audit(bundle, *options):
    done = subprocess.run([program(), "audit", *options], input=bundle.encode(), capture_output=True, timeout=60)
    return done.stdout.decode().splitlines()


class Lab:
    def __init__(self, redact=None):
        self.redact = redact
        self.clients = []

    async def __aenter__(self):
        self.dir = tempfile.TemporaryDirectory()
        self.taps = Path(self.dir.name) / "taps"
        self.taps.mkdir()
        socket = f"{self.dir.name}/redis"
        words = ["redis-server", "--port", "0", "--unixsocket", socket, "--save", "", "--appendonly", "no", "--dir", self.dir.name]
        self.server = subprocess.Popen(words, stdout=subprocess.DEVNULL)
        self.redis = redis.asyncio.Redis(unix_socket_path=socket, decode_responses=True)
        for _ in range(200):
            try:
                await self.redis.ping()
                break
            except redis.asyncio.ConnectionError:
                await asyncio.sleep(0.02)
        self.stop_stream = asyncio.Event()
        self.stream = StreamTap("st", dir=self.taps, redact=self.redact)
        self.streaming = asyncio.create_task(tap_stream(self.stream, self.redis, KEY, record_of, stop=self.stop_stream))
        self.nodes = [Node(self.redis, NodeTap(name, dir=self.taps, redact=self.redact)) for name in ("a", "b")]
        for node in self.nodes:
            await node.boot()
        return self

    async def __aexit__(self, *_):
        await self.redis.close()
        self.server.terminate()
        self.server.wait()
        self.dir.cleanup()

    async def publish(self, *args, nsp="/", rooms=()):
        return await recovery.publish(self.redis, *args, nsp=nsp, rooms=rooms)

    def tapped(self, client, name, **words):
        client.tap = tap_client(client, name=name, dir=self.taps, redact=self.redact, **words)
        self.clients.append(client)
        return client

    async def caught_up(self, *kept):
        """Waits until the last event has come to all."""
        newest = (await self.redis.xrevrange(KEY, count=1))[0][0]
        for _ in range(2000):
            if all(newest in it.got for it in kept):
                return
            await asyncio.sleep(0.01)
        raise AssertionError(f"{newest} never came")

    async def bundle(self):
        for node in self.nodes:
            await node.stop()
        for client in self.clients:  # engineio leaves their sessions open
            closing = client.eio.http.close()
            if closing is not None:
                await closing
        self.stop_stream.set()
        await self.streaming
        self.stream.end()
        return "".join(it.read_text() for it in sorted(self.taps.iterdir()))

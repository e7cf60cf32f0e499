"""Taps in a real cluster: python-socketio, aiohttp, Redis."""

import asyncio
import importlib.util
import itertools
import json
import logging
import random
import re
import shutil
import unittest
from pathlib import Path
from unittest import mock

from . import lab
from .relay import Relay
from sioaudit_taps import Redactor, TapError, tap_client

KEY = b"the key of a test, thirty bytes"
for name in ("aiohttp.server", "engineio.server"):
    logging.getLogger(name).setLevel(logging.CRITICAL)  # requests of sessions that were cut
NEEDED = lab.program() is not None and shutil.which("redis-server") is not None
THREADS = all(importlib.util.find_spec(it) for it in ("requests", "websocket"))


async def burst(cluster, count):
    for number in range(count):
        await cluster.publish("tick", number, "é ⬢", {"n": 1e16, "b": number % 2 == 0}, nsp="/chat" if number % 3 == 0 else "/")
        if number % 4 == 0:
            await cluster.publish("bytes", bytes([number]) * 40, {"in": [b"\x00\xff"]}, rooms=["r"])
    await cluster.redis.xadd(lab.KEY, {"beat": "1"})


async def wait_until(true):
    for _ in range(6000):
        if true():
            return
        await asyncio.sleep(0.01)
    raise AssertionError("it never came")


async def recorded(transports, redact=None):
    """A recording in which an asyncio client loses its connection in bursts, and comes back on the other node."""
    async with lab.Lab(redact) as cluster:
        client = cluster.tapped(lab.AsyncClient(), "c1")
        for turn in range(3):
            await client.connect(cluster.nodes[turn % 2].url, transports=transports, namespaces=lab.NAMESPACES, wait_timeout=30)
            if turn == 0:
                await client.call("join", "r")
            await burst(cluster, 30)
            if turn < 2:
                # (a client that has no offset yet is given another session)
                await wait_until(lambda: client.kept.offsets.keys() >= set(lab.NAMESPACES))
                await asyncio.sleep(0.02 * turn)
                await cluster.nodes[turn % 2].cut()
                await wait_until(lambda: client.eio.state == "disconnected")
                await burst(cluster, 10)
        await cluster.publish("end")
        await cluster.caught_up(client.kept)
        await cluster.publish("end", nsp="/chat")
        await cluster.caught_up(client.kept)
        await client.disconnect()
        client.tap.end()
        return await cluster.bundle()


async def cut_at_random(transport, threads, seed, cuts=30):
    """A recording in which a client's connection is cut that many times in bursts, after a number of bytes by chance or a while."""
    chance = random.Random(seed)
    async with lab.Lab() as cluster, Relay(None) as way:
        client = cluster.tapped(lab.ThreadClient() if threads else lab.AsyncClient(), "c1")

        async def do(method, *args, **kwargs):
            await (asyncio.to_thread(method, *args, **kwargs) if threads else method(*args, **kwargs))

        for node in cluster.nodes:
            node.sio.eio.ping_timeout = 60  # no other end than the cuts, on a busy machine too

        def handled():
            # in threads of their own, maybe after the connection was lost: who asks before that asks with an offset that is too low
            events = sum('"t":"42' in line for line in Path(client.tap.file).read_text().splitlines())
            return client.eio.state == "disconnected" and (not threads or events == len(client.kept.got))

        for turn in range(cuts + 1):
            node = cluster.nodes[turn % 2]
            way.cut()  # what the client has kept leads to the other node
            await asyncio.sleep(0.02)
            way.port, way.back = node.port, None
            await do(client.connect, f"http://127.0.0.1:{way.at}", transports=[transport], namespaces=lab.NAMESPACES, wait_timeout=30)
            if turn == 0:
                for nsp in lab.NAMESPACES:
                    await cluster.publish("first", nsp=nsp)
                    await cluster.caught_up(client.kept)
                if not threads:  # (there an attachment may be handled before its event)
                    await client.call("join", "r")
            if turn < cuts:
                way.back = chance.randrange(1, 2500)
                await burst(cluster, 40)
                await asyncio.sleep(chance.random() * 0.02)
            else:
                for nsp in lab.NAMESPACES:
                    await cluster.publish("last", nsp=nsp)
                    await cluster.caught_up(client.kept)
            way.cut()  # at the latest
            await node.cut()
            await wait_until(lambda: handled() and not node.sessions)
        client.tap.end()
        return await cluster.bundle()


@unittest.skipUnless(NEEDED, "needs the program and redis-server")
class Cluster(unittest.TestCase):
    def whole(self, bundle, sessions=2, turns=3):
        report = lab.audit(bundle, "--whole")
        self.assertEqual(len(report), sessions + 1, report)
        for line in report[:-1]:
            self.assertRegex(line, rf"^yes \S+ got=[1-9]\d+ tail=0 turns={turns}$")

    def test_asyncio(self):
        for transports in (["websocket"], ["polling"], ["polling", "websocket"]):
            with self.subTest(transports=transports):
                self.whole(asyncio.run(recorded(transports)))

    def test_redacted(self):
        bundle = asyncio.run(recorded(["websocket"], redact=KEY))
        self.whole(bundle)
        for secret in ("tick", "bytes", "⬢", "u2b22", '"r"'):
            self.assertNotIn(secret, bundle)

    def test_plain_and_redacted_are_judged_alike(self):
        it = Redactor(KEY)
        plain = asyncio.run(recorded(["polling"]))
        faults = set()
        for bundle in (plain, *broken(plain)):
            report = lab.audit(bundle, "--whole")
            expected = [re.sub(r"^(yes|no) (\S+)", lambda m: f"{m[1]} {it.hash(m[2])}", line) for line in report]
            self.assertEqual(lab.audit(redacted(bundle, it), "--whole"), expected)
            faults |= {line.split()[2] for line in report if line.startswith("no ")}
        self.assertGreaterEqual(faults, {"LOST", "DOUBLED", "SWAPPED", "CONTENT", "FRAME", "EXTRA", "ORPHAN"})

    @unittest.skipUnless(THREADS, "needs requests and websocket-client")
    def test_threads(self):
        for transports in (["websocket"], ["polling"], ["polling", "websocket"]):
            with self.subTest(transports=transports):
                self.whole(asyncio.run(self.threads(transports)), turns=2)

    async def threads(self, transports):
        async with lab.Lab() as cluster:
            client = cluster.tapped(lab.ThreadClient(), "c1")
            for turn in range(2):
                await asyncio.to_thread(client.connect, cluster.nodes[turn].url, transports=transports, namespaces=lab.NAMESPACES, wait_timeout=30)
                await burst(cluster, 20)
                if turn == 0:
                    await cluster.publish("mark")
                    await cluster.caught_up(client.kept)
                    await cluster.nodes[0].cut()
                    await wait_until(lambda: client.eio.state == "disconnected")
                    await burst(cluster, 10)
            await cluster.publish("end")
            await cluster.caught_up(client.kept)
            await cluster.publish("end", nsp="/chat")
            await cluster.caught_up(client.kept)
            await asyncio.to_thread(client.disconnect)
            client.tap.end()
            return await cluster.bundle()

    def test_random_cuts_in_bursts(self):
        for seed, (threads, transport) in enumerate(itertools.product((False, True) if THREADS else (False,), ("websocket", "polling"))):
            with self.subTest(threads=threads, transport=transport):
                bundle = asyncio.run(cut_at_random(transport, threads, seed))
                self.whole(bundle, turns=31)

    def test_a_client_that_goes_on_with_its_pids_after_a_restart(self):
        async def restarted():
            async with lab.Lab() as cluster:
                kept = lab.recovery.Kept()
                for turn in range(2):
                    client = lab.AsyncClient()
                    client.kept = kept
                    cluster.tapped(client, "c1", resume=turn > 0)
                    self.assertEqual(client.tap.connection, 1 if turn else None)
                    await client.connect(cluster.nodes[turn].url, transports=["websocket"], namespaces=lab.NAMESPACES, wait_timeout=30)
                    await burst(cluster, 10)
                    await cluster.publish("last")
                    await cluster.caught_up(kept)
                    await cluster.publish("last", nsp="/chat")
                    await cluster.caught_up(kept)
                    if turn == 0:
                        # the tap isn't ended, and a line of it is half there
                        with open(client.tap.file, "a") as file:
                            file.write('c1 {"k":"in","t":"42[')
                        client.eio._trigger_event = client.eio._send_packet = mock.AsyncMock()
                        await cluster.nodes[0].cut()
                        await wait_until(lambda: not cluster.nodes[0].sessions)
                        await burst(cluster, 10)
                await client.disconnect()
                return await cluster.bundle()

        self.whole(asyncio.run(restarted()), turns=2)

    def test_a_fault_shows(self):
        bundle = asyncio.run(recorded(["websocket"]))
        lines = bundle.splitlines(keepends=True)
        # what the client never got
        gone = next(i for i, line in enumerate(lines) if line.startswith("c1 ") and "tick" in line)
        report = lab.audit("".join(lines[:gone] + lines[gone + 1 :]))
        self.assertTrue(any(re.match(r"no \S+ LOST ", line) for line in report), report)

    def test_late(self):
        async def late():
            async with lab.Lab() as cluster:
                client = lab.AsyncClient()
                await client.connect(cluster.nodes[0].url, transports=["websocket"])
                try:
                    with self.assertRaises(TapError):
                        tap_client(client, name="c1", dir=cluster.taps)
                finally:
                    await client.disconnect()
                    await client.eio.http.close()
                    await cluster.bundle()

        asyncio.run(late())


def broken(bundle):
    """The recording with faults in the client's frames: lost, doubled, swapped, and written in other ways."""
    lines = bundle.splitlines(keepends=True)
    at = [i for i, line in enumerate(lines) if line.startswith("c1 ") and "tick" in line]
    one, two = at[4], at[5]  # of one namespace
    yield "".join(lines[:one] + lines[one + 1 :])
    yield "".join(lines[: one + 1] + lines[one:])
    swapped = list(lines)
    swapped[one], swapped[two] = lines[two], lines[one]
    yield "".join(swapped)
    for old, new in (("tick", "tock"), ('\\"tick\\",', '\\"tick\\", '), ("tick", "t\\\\u0069ck"), ("1e+16", "1e16"), ("1e+16", "1e400"), ("\\\\u00e9", "é")):
        assert old in lines[one], lines[one]
        yield "".join([*lines[:one], lines[one].replace(old, new), *lines[one + 1 :]])
    attachment = next(i for i, line in enumerate(lines) if line.startswith('c1 {"k":"inb"'))
    yield "".join([*lines[:attachment], re.sub('"b":"....', '"b":"////', lines[attachment]), *lines[attachment + 1 :]])
    # the room was never joined
    yield "".join(line for line in lines if '"k":"join"' not in line)
    reply = next(i for i, line in enumerate(lines) if line.startswith("c1 ") and '40{' in line and '"in"' in line)
    yield "".join([*lines[:reply], re.sub(r'\\"pid\\":\\"[^"]*\\"', r'\\"pid\\":\\"\\"', lines[reply]), *lines[reply + 1 :]])


def redacted(bundle, it):
    made = []
    for line in bundle.splitlines():
        name, _, text = line.partition(" ")
        record = json.loads(text)
        made.append(f"{name} {json.dumps(record if record['k'] == 'tap' else it.record(record), ensure_ascii=False)}\n")
    return "".join(made)

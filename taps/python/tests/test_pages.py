"""What README.md and docs/TAPPING.md show of Python is run as it stands there."""

import ast
import asyncio
import json
import re
import shutil
import tempfile
import types
import unittest
from pathlib import Path

import socketio

from . import lab



def blocks(page):
    return re.findall(r"^```python\n(.*?)^```", (lab.ROOT / page).read_text(), re.M | re.S)


async def run(block, taps, names):
    """Runs a block with these names, its taps in a directory of the test's."""
    block = block.replace('"taps"', repr(str(taps)))
    running = eval(compile(block, "page", "exec", flags=ast.PyCF_ALLOW_TOP_LEVEL_AWAIT), names)
    if running is not None:
        await running


@unittest.skipUnless(lab.program() is not None and shutil.which("redis-server"), "needs the program and redis-server")
class Pages(unittest.IsolatedAsyncioTestCase):
    async def test_first_bundle(self):
        [block, *_] = blocks("docs/TAPPING.md")
        cluster_part, client_part = re.split(r"^(?=client = )", block, flags=re.M)
        with tempfile.TemporaryDirectory() as taps:
            async with lab.Lab() as cluster:
                names = {"asyncio": asyncio, "socketio": socketio, "redis": cluster.redis, "record_of": lab.record_of, "stop": asyncio.Event()}
                await run(cluster_part, taps, names)
                node = lab.Node(cluster.redis, names["tap"])
                await node.boot()
                names["url"] = node.url
                await run(client_part, taps, names)
                got = []
                names["client"].on("hi", lambda *args: got.append(args))
                for number in range(5):
                    await cluster.publish("hi", number)
                for _ in range(2000):
                    if len(got) == 5:
                        break
                    await asyncio.sleep(0.01)
                await names["client"].disconnect()
                await node.stop()
                names["stop"].set()
                await names["reading"]
                names["stream"].end()
                await cluster.bundle()
            bundle = "".join(it.read_text() for it in Path(taps).iterdir())
        report = lab.audit(bundle, "--whole")
        self.assertRegex(report[0], r"^yes \S+ got=5 tail=0 turns=1$")
        self.assertEqual(report[1:], ["sessions=1 yes=1 no=0"])

    async def test_readme(self):
        """A client, a node's moments, and the stream's tap."""
        client, node, stream = blocks("taps/python/README.md")
        async with lab.Lab() as cluster:

            class Client(lab.AsyncClient):
                """Its `disconnect` does first what the block leaves out."""

                async def disconnect(self):
                    for number in range(5):
                        await cluster.publish("hi", number)
                    await cluster.caught_up(self.kept)
                    await super().disconnect()

            await run(client, cluster.taps, {"socketio": types.SimpleNamespace(AsyncClient=Client), "url": cluster.nodes[0].url})
            report = lab.audit(await cluster.bundle(), "--whole")
            self.assertRegex(report[0], r"^yes \S+ got=5 tail=0 turns=1$")
            with tempfile.TemporaryDirectory() as taps:
                names = {"pid": "P", "sid": "S", "off": "1-0"}
                await run(node, taps, names)
                names["tap"].end()
                self.assertIn(' {"k":"back","pid":"P","turn":1}\n', Path(names["tap"].tap.file).read_text())
                begin = "stop = asyncio.Event()\n"
                self.assertIn(begin, stream)
                await run(stream.replace(begin, f"{begin}stop.set()\n"), taps, {"asyncio": asyncio, "json": json, "redis": cluster.redis})
                self.assertEqual(Path(taps, "st.tap").read_text(), (cluster.taps / "st.tap").read_text())

"""The tap of a Redis stream, on a redis-server of its own: going on, holes, and a Redis that is away for a while."""

import asyncio
import json
import shutil
import subprocess
import tempfile
import unittest
from pathlib import Path

from . import lab  # noqa: F401
from sioaudit_taps import StreamTap, TapError, tap_stream

KEY = "events"


def other(off, fields):
    return {"k": "other", "off": off}


@unittest.skipUnless(shutil.which("redis-server"), "needs redis-server")
class Stream(unittest.IsolatedAsyncioTestCase):
    async def asyncSetUp(self):
        import redis.asyncio

        it = tempfile.TemporaryDirectory()
        self.addCleanup(it.cleanup)
        self.dir = Path(it.name)
        self.redis = redis.asyncio.Redis(unix_socket_path=str(self.dir / "redis"), decode_responses=True)
        self.addAsyncCleanup(self.redis.close)
        await self.start()
        self.addCleanup(self.end)

    async def start(self):
        words = ["--port", "0", "--unixsocket", str(self.dir / "redis"), "--save", "", "--appendonly", "yes", "--appendfsync", "always", "--dir", str(self.dir)]
        self.server = subprocess.Popen(["redis-server", *words], stdout=subprocess.DEVNULL)
        for _ in range(500):
            try:
                return await self.redis.ping()
            except lab.redis.asyncio.ConnectionError:
                await asyncio.sleep(0.02)
        raise AssertionError("redis-server doesn't answer")

    def end(self):
        self.server.terminate()
        self.server.wait()

    async def add(self, *numbers):
        for number in numbers:
            await self.redis.xadd(KEY, {"n": "1"}, id=f"{number}-0")

    async def read(self, *, resume=False, during=None, **options):
        """Reads to the stream's end; the offsets in the tap's file after that."""
        stop = asyncio.Event()
        with StreamTap("st", dir=self.dir, resume=resume) as stream:
            reading = asyncio.create_task(tap_stream(stream, self.redis, KEY, other, stop=stop, **options))
            try:
                if during is not None:
                    await during(stream)
            finally:
                stop.set()
                written = await reading
        return written, self.offsets()

    def offsets(self):
        lines = (self.dir / "st.tap").read_text().splitlines()
        return [int(json.loads(line.partition(" ")[2])["off"].partition("-")[0]) for line in lines[1:]]

    async def until(self, stream, number):
        for _ in range(500):
            if stream.tap.last == f"{number}-0":
                return
            await asyncio.sleep(0.01)
        raise AssertionError(f"{number} was never read")

    async def test_goes_on_after_its_last_entry(self):
        self.assertEqual(await self.read(resume=True), (0, []))  # neither a stream nor a tap is there
        await self.add(*range(1, 8))
        self.assertEqual(await self.read(resume=True, count=2), (7, [1, 2, 3, 4, 5, 6, 7]))
        with open(self.dir / "st.tap", "a") as file:
            file.write('st {"k":"other","o')  # as a process leaves it that is killed
        await self.add(8, 9)
        self.assertEqual(await self.read(resume=True, count=2), (2, [*range(1, 10)]))
        self.assertEqual(await self.read(resume=True), (0, [*range(1, 10)]))
        with self.assertRaises(TapError) as refused:
            await self.read()
        self.assertEqual(refused.exception.code, "Exists")

    async def test_a_new_tap_begins_at_the_oldest_entry(self):
        await self.add(*range(1, 8))
        await self.redis.xtrim(KEY, maxlen=3, approximate=False)
        self.assertEqual(await self.read(), (3, [5, 6, 7]))

    async def test_what_is_added_until_it_is_asked_to_stop(self):
        async def during(stream):
            await self.add(*range(1, 500))

        self.assertEqual(await self.read(during=during), (499, [*range(1, 500)]))

    async def test_a_hole_ends_it(self):
        async def during(stream):
            await self.add(1, 2)
            await self.until(stream, 2)
            both = self.redis.pipeline(transaction=True)
            for number in range(3, 8):
                both.xadd(KEY, {"n": "1"}, id=f"{number}-0")
            both.xtrim(KEY, maxlen=2, approximate=False)
            await both.execute()
            await asyncio.sleep(0.2)
            self.assertTrue(stream.tap.ended)

        with self.assertRaises(TapError) as refused:
            await self.read(during=during)
        self.assertEqual(refused.exception.code, "Trimmed")
        self.assertIn("trimmed before they were read: 3, after 2-0", str(refused.exception))
        self.assertEqual(self.offsets(), [1, 2])

    async def test_what_was_read_may_be_trimmed(self):
        async def during(stream):
            for number in range(1, 40):
                await self.add(number)
                await self.until(stream, number)
                await self.redis.xtrim(KEY, maxlen=1 + number % 3, approximate=False)

        self.assertEqual((await self.read(during=during))[1], [*range(1, 40)])

    async def test_entries_that_were_deleted_are_no_hole(self):
        async def during(stream):
            await self.add(1, 2, 3, 4)
            await self.redis.xdel(KEY, "2-0", "3-0")
            await self.until(stream, 4)
            await self.redis.xtrim(KEY, maxlen=0, approximate=False)
            await asyncio.sleep(0.1)
            await self.add(5)
            await self.until(stream, 5)

        offsets = (await self.read(during=during))[1]
        self.assertEqual(offsets[-2:], [4, 5])

    async def test_a_tap_whose_last_entry_was_trimmed_cant_go_on(self):
        await self.add(1, 2, 3)
        await self.read()
        await self.redis.xtrim(KEY, maxlen=0, approximate=False)
        self.assertEqual((await self.read(resume=True))[0], 0)  # nothing followed it
        await self.add(4)
        with self.assertRaises(TapError) as refused:
            await self.read(resume=True)
        self.assertEqual(refused.exception.code, "Trimmed")
        self.assertIn("the entry 3-0 was trimmed", str(refused.exception))
        self.assertEqual(self.offsets(), [1, 2, 3])

    async def test_redis_is_away_for_a_while(self):
        async def during(stream):
            await self.add(1)
            await self.until(stream, 1)
            self.end()
            await asyncio.sleep(0.3)
            await self.start()
            await self.add(2)
            await self.until(stream, 2)

        self.assertEqual(await self.read(during=during), (2, [1, 2]))

        async def gone(stream):
            self.end()

        with self.assertRaises(lab.redis.asyncio.ConnectionError):
            await self.read(resume=True, during=gone, patience=0.3)

    async def test_what_is_no_stream(self):
        await self.redis.set(KEY, "x")
        with self.assertRaises(lab.redis.exceptions.ResponseError):
            await self.read()


if __name__ == "__main__":
    unittest.main()

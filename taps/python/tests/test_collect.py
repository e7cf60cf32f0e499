"""The collector and the sender: cut at every line, restarted, and given what is no tap."""

import asyncio
import contextlib
import os
import resource
import signal
import subprocess
import sys
import tempfile
import time
import unittest
from pathlib import Path

from . import lab
from .relay import Relay

SRC = Path(__file__).resolve().parents[1] / "src"
sys.path.insert(0, str(SRC))

from sioaudit_taps import Tap, protocol  # noqa: E402
from sioaudit_taps.collect import Collector, Store  # noqa: E402
from sioaudit_taps.send import Sender  # noqa: E402


def write_taps(to):
    """Three taps with some twenty lines."""
    with Tap("st", "stream", dir=to) as tap:
        for number in range(6):
            tap.write({"k": "ev", "off": f"1-{number}", "nsp": "/", "text": f'2["é ⬢",{number},"1-{number}"]'})
    with Tap("a.1", "node", dir=to) as tap:
        for record in ({"k": "start", "off": None}, {"k": "open", "pid": "P", "sid": "S", "nsp": "/"}, {"k": "takes", "off": "1-5"}):
            tap.write(record)
    with Tap("c1", "client", dir=to) as tap:
        tap.write({"k": "conn", "c": 1})
        for number in range(6):
            tap.write({"k": "in", "t": f'42["é ⬢",{number},"1-{number}"]'})


class Collect(unittest.TestCase):
    def setUp(self):
        it = tempfile.TemporaryDirectory()
        self.addCleanup(it.cleanup)
        self.dir = Path(it.name)
        self.taps = self.dir / "taps"
        self.taps.mkdir()
        self.into = str(self.dir / "bundle")

    def each(self):
        return {it.stem: it.read_bytes() for it in self.taps.iterdir()}

    def collected(self):
        kept = {}
        for line in Path(self.into).read_bytes().splitlines(keepends=True):
            name = line.split(b" ")[0].decode()
            kept[name] = kept.get(name, b"") + line
        return kept

    async def send(self, port, once=True, name="m1"):
        sender = Sender(name, [str(self.taps)], "127.0.0.1", port)
        if once:
            sender.stop.set()
        return await asyncio.wait_for(sender.run(), 20), sender

    def test_connection_cut_at_every_line(self):
        """Before the end of each line that a sender says, after it, and in the next one; also so that what was kept was never
        answered. The collector is restarted then, and all is there once."""
        write_taps(self.taps)

        async def said(cut, deaf):
            """What a sender says up to there, over a connection that is cut there, and then what it does with a new one."""
            for file in (self.into, f"{self.into}.senders"):
                Path(file).unlink(missing_ok=True)
            collector = Collector(Store(into=self.into))
            async with Relay(await collector.listen("127.0.0.1", 0)) as relay:
                relay.there, relay.deaf = cut, deaf
                sender = Sender("m1", [str(self.taps)], "127.0.0.1", relay.at)
                sender.stop.set()
                with contextlib.suppress(OSError, EOFError, TimeoutError):
                    await asyncio.wait_for(sender._connection(), 0.1 if deaf else 60)
            await collector.close()
            collector = Collector(Store(into=self.into))
            self.assertTrue((await self.send(await collector.listen("127.0.0.1", 0)))[0])
            await collector.close()
            self.assertEqual(self.collected(), self.each(), (cut, deaf))
            return relay.passed

        async def all_of_them():
            whole = await said(None, False)
            ends = [at for at, byte in enumerate(whole) if byte == 10]
            self.assertGreater(len(ends), 25)
            for end in ends:
                for cut in (end, end + 1, end + 7):
                    self.assertEqual(len(await said(cut, False)), min(cut, len(whole)))
                await said(end + 1, True)

        asyncio.run(all_of_them())

    def test_collector_cut_at_every_line(self):
        """A collector that was killed when a line, or a part of one, was written goes on from there."""
        write_taps(self.taps)

        async def all_of_them():
            whole = b"".join(self.each().values())
            ends = [i + 1 for i, byte in enumerate(whole) if byte == 10]
            senders = "".join(f'{{"tap":"{name}","sender":"m1"}}\n' for name in self.each())
            for end in (0, *ends):
                for at in {end, min(end + 7, len(whole))}:
                    Path(self.into).write_bytes(whole[:at])
                    Path(f"{self.into}.senders").write_text(senders + '{"tap":')
                    collector = Collector(Store(into=self.into))
                    port = await collector.listen("127.0.0.1", 0)
                    self.assertTrue((await self.send(port))[0])
                    await collector.close()
                    self.assertEqual(self.collected(), self.each(), at)

        asyncio.run(all_of_them())

    def test_a_file_a_tap(self):
        write_taps(self.taps)
        to = self.dir / "to"

        async def run():
            for _ in range(2):
                collector = Collector(Store(dir=str(to)))
                self.assertTrue((await self.send(await collector.listen("127.0.0.1", 0)))[0])
                await collector.close()

        asyncio.run(run())
        self.assertEqual({it.stem: it.read_bytes() for it in to.iterdir() if it.suffix == ".tap"}, self.each())

    def test_refused_lines_are_named(self):
        write_taps(self.taps)
        header = '{"k":"tap","v":1,"of":"client"}'
        bad = {
            "b1": (f"b1 {header}\nb1 nothing\n", "NotJson", 2),
            "b2": ('b2 {"k":"conn","c":1}\n', "NoHeader", 1),
            "b3": (f'b3 {header}\nb3 {{"k":"conn","c":1}}\nb3 {{"k":"take","off":"1-0"}}\n', "UnknownKind", 3),
            "b4": (f"b4 {header}\nb5 {{}}\n", "Field", 2),
            "b6": (f"b6 {header}\nb6 {header}\n", "HeaderTwice", 2),
            "b7": (f'b7 {header}\nb7 {{"k":"in","t":"42[]"}}\n', "Field", 2),
            "st2": ('st2 {"k":"tap","v":1,"of":"stream"}\n', "SecondStream", 1),
            "b9": (f"b9 {header}\n\n", "NoTapName", 2),
        }
        for name, (text, _, _) in bad.items():
            (self.taps / f"{name}.tap").write_text(text)
        told = []

        async def run():
            collector = Collector(Store(into=self.into))
            sender = Sender("m1", [str(self.taps)], "127.0.0.1", await collector.listen("127.0.0.1", 0), log=told.append)
            sender.stop.set()
            self.assertFalse(await sender.run())
            self.assertEqual(sorted(sender.refused), sorted(bad))
            other = Sender("m2", [str(self.taps / "c1.tap")], "127.0.0.1", sender.port, log=told.append)
            other.stop.set()
            self.assertFalse(await other.run())
            await collector.close()

        asyncio.run(run())
        for name, (_, code, line) in bad.items():
            self.assertTrue(any(f"{name}.tap: line {line} is refused: {code}: " in it for it in told), (name, told))
        self.assertTrue(any("c1.tap: the tap is refused: NameTaken: " in it for it in told), told)
        kept = self.collected()
        for name, text in self.each().items():
            if name not in bad:
                self.assertEqual(kept[name], text)
            else:
                self.assertTrue(text.startswith(kept.get(name, b"")))

    @unittest.skipUnless(lab.program(), "needs the program")
    def test_lines_are_refused_as_the_auditor_does(self):
        node = 'a {"k":"tap","v":2,"of":"node"}'
        client = 'c {"k":"tap","v":1,"of":"client"}'
        stream = 's {"k":"tap","v":1,"of":"stream"}'
        for lines in (
            ["a"], ["é {}"], [" {}"], ["a  "], ["a []"], ["a {}"], ['a {"k":1}'], ['a {"k":"start","off":null}'], ['a {"k":"tap"}'],
            ['a {"k":"tap","v":1.0,"of":"node"}'], ['a {"k":"tap","v":3,"of":"node"}'], ['a {"k":"tap","v":1,"of":"proxy"}'], ['a {"k":"tap","v":true,"of":"node"}'],
            [node, node], [node, 'a {"k":"other","off":"1-0"}'], [node, 'a {"k":"start"}'], [node, 'a {"k":"take","off":""}'], [node, 'a {"k":"take","off":"a b"}'],
            [node, 'a {"k":"break","pid":"P","turn":-0}'], [node, 'a {"k":"break","pid":"P","turn":1e0}'], [node, 'a {"k":"break","pid":"P","turn":65536}'],
            [node, 'a {"k":"break","pid":"P","turn":18446744073709551616}'], [node, 'a {"k":"gone","pid":"P","x":1e400}'], [node, 'a {"k":"gone","pid":"P","x":-1e400}'],
            [node, 'a {"k":"gone","pid":"P","x":' + "9" * 400 + "}"], [node, 'a {"k":"gone","pid":"P","x":"\\ud800"}'], [node, 'a {"k":"gone","pid":"P","x":NaN}'],
            [node, 'a {"k":"gone","pid":"P","x":' + "[" * 127 + "]" * 127 + "}"], [node, 'a {"k":"gone","pid":"P","x":' + "[" * 126 + "]" * 126 + "}"],
            [node, 'a {"k":"gone","pid":"P","pid":7}'], [node, ' a {"k":"gone","pid":"P"}'], [node, 'a {"k":"gone","pid":"P"} x'], [node, 'a \t{"k" : "gone","pid":"P"} \r'],
            [node, 'a {"k":"join","pid":"P","room":""}'], [node, 'a {"k":"join","pid":"P","room":"' + "é" * 129 + '"}'], [node, 'a {"k":"open","pid":"P","sid":"S","nsp":"n"}'],
            [client, 'c {"k":"in","t":"2"}'], [client, 'c {"k":"conn","c":1}', 'c {"k":"conn","c":1}'], [client, 'c {"k":"conn","c":0}', 'c {"k":"inb","b":"AAF="}'],
            [client, 'c {"k":"conn","c":0}', 'c {"k":"lost"}', 'c {"k":"lost"}'], [client, 'c {"k":"conn","c":0}', 'c {"k":"in","t":"' + "x" * 4_194_304 + '"}'],
            [stream, 's {"k":"other","off":"1-0"}', 's {"k":"other","off":"1-0"}'], [stream, 's {"k":"ev","off":"1-0","nsp":"/","text":"","rooms":null}'],
            [stream, 's {"k":"ev","off":"1-0","nsp":"/","text":"","bin":["="]}'], [stream, 's {"k":"ev","off":"1-0","nsp":"/a,b","text":""}'], [stream, 's {"k":"ev","off":"1-0","nsp":"/"}'],
        ):
            text = "".join(f"{line}\n" for line in lines)
            said = lab.audit(text)
            expected = said[0].removeprefix("line ") if said[0].startswith("line ") else None
            store = Store(into=self.into)
            kept = store.claim(lines[0].split(" ")[0] if lines[0][:1] in "acs" else "a", "m")
            store.keep(lines[0].split(" ")[0] if lines[0][:1] in "acs" else "a", kept, text.encode())
            store.close()
            Path(self.into).unlink()
            Path(f"{self.into}.senders").unlink()
            got = f"{kept.refused['line']}: {kept.refused['refused']}" if kept.refused else None
            self.assertEqual(got, expected, [line[:200] for line in lines])

    def test_what_cannot_be_sent_is_told(self):
        write_taps(self.taps)
        (self.taps / "text.tap").write_text("x" * 40)
        (self.taps / "again.tap").write_text((self.taps / "c1.tap").read_text())
        (self.taps / "begun.tap").write_text("be")  # what has no whole line yet is nothing to send

        async def run():
            told = []
            collector = Collector(Store(into=self.into))
            port = await collector.listen("127.0.0.1", 0)
            for paths in ([str(self.taps)], [str(self.taps / "c1.tap"), str(self.dir / "none.tap")], [str(self.taps / "c1.tap")]):
                sender = Sender("m1", paths, "127.0.0.1", port, log=told.append)
                sender.stop.set()
                self.assertEqual(await sender.run(), len(paths) == 1 and paths != [str(self.taps)])
            await collector.close()
            return [it.removeprefix(f"{self.dir}/") for it in told]

        told = asyncio.run(run())
        self.assertEqual(told, ["taps/c1.tap: there is another file of the tap c1", "taps/text.tap: it is no tap", "none.tap: No such file or directory"])
        self.assertEqual(set(self.collected()), {"st", "a.1", "c1"})

    def test_a_slow_sender_blocks_no_other(self):
        write_taps(self.taps)

        async def run():
            collector = Collector(Store(into=self.into))
            port = await collector.listen("127.0.0.1", 0)
            reader, writer = await asyncio.open_connection("127.0.0.1", port)
            writer.write(protocol.message(sioaudit=1, sender="slow") + protocol.message(tap="s1", at=0, bytes=1000) + b"s1 {")
            await writer.drain()
            self.assertTrue((await self.send(port))[0])
            writer.write(b"x" * 10)
            await writer.drain()
            writer.close()
            await collector.close()

        asyncio.run(run())
        self.assertEqual(self.collected(), self.each())

    def test_what_is_no_sender(self):
        async def run():
            collector = Collector(Store(into=self.into))
            port = await collector.listen("127.0.0.1", 0)
            hello = protocol.message(sioaudit=1, sender="m")
            for said in (b"GET / HTTP/1.1\r\n\r\n", b"[" * 100_000 + b"\n", b"x" * 200_000, hello + b'{"tap":7}\n', hello + b'{"tap":"a","bytes":99999999}\n', hello + b'{"tap":"a","at":0,"bytes":1}\nx'):
                reader, writer = await asyncio.open_connection("127.0.0.1", port)
                writer.write(said)
                answer = await asyncio.wait_for(reader.read(), 5)
                self.assertIn(b'"error"', answer, said[:40])
                writer.close()
            await collector.close()

        asyncio.run(run())

    def test_collector_killed_at_every_line(self):
        """The programs, with a tap that grows: the collector is killed after each of its first lines, once they are there and
        before, and in the middle of many."""
        environ = {**os.environ, "PYTHONPATH": str(SRC)}

        def collector(port=0):
            words = [sys.executable, "-m", "sioaudit_taps.collect", "--listen", f"127.0.0.1:{port}", "--into", self.into]
            started = subprocess.Popen(words, env=environ, stdout=subprocess.PIPE, text=True)
            self.addCleanup(started.stdout.close)
            return started, int(started.stdout.readline().rsplit(":", 1)[1])

        def killed(it):
            os.kill(it.pid, signal.SIGKILL)
            it.wait()

        running, port = collector()
        words = [sys.executable, "-m", "sioaudit_taps.send", "--to", f"127.0.0.1:{port}", "--sender", "m1", str(self.taps)]
        sender = subprocess.Popen(words, env=environ, stderr=subprocess.DEVNULL)
        self.addCleanup(sender.kill)
        with Tap("c1", "client", dir=self.taps) as tap:
            tap.write({"k": "conn", "c": 1})
            for number in range(12):
                tap.write({"k": "in", "t": f'42["x",{number}]'})
                if number % 2 == 0:
                    self.until(lambda: self.collected().get("c1") == self.each()["c1"])
                killed(running)
                running, _ = collector(port)
            for number in range(3000):
                tap.write({"k": "in", "t": f'42["y",{number}]'})
                if number == 1500:
                    killed(running)
                    running, _ = collector(port)
        sender.send_signal(signal.SIGTERM)
        self.assertEqual(sender.wait(60), 0)
        running.send_signal(signal.SIGTERM)
        self.assertEqual(running.wait(60), 0)
        self.assertEqual(self.collected(), self.each())

    def test_the_programs_words(self):
        for program, words in (("collect", ["--into", self.into, "--listen"]), ("send", [str(self.taps), "--to"])):
            for word in ("here", "here:", "here:65536", "[::1]", "::1:80", ":80", "here:x"):
                done = subprocess.run([sys.executable, "-m", f"sioaudit_taps.{program}", *words, word], env={**os.environ, "PYTHONPATH": str(SRC)}, capture_output=True, text=True)
                self.assertEqual(done.returncode, 2)
                self.assertIn(f"{word} is no HOST:PORT", done.stderr)
        self.assertEqual(protocol.address("[::1]:7431"), ("::1", 7431))
        self.assertEqual(protocol.address("web1.example:80"), ("web1.example", 80))

    def until(self, true):
        for _ in range(6000):
            if true():
                return
            time.sleep(0.01)
        self.fail("it never came")

    def test_more_taps_than_files_may_be_open(self):
        for number in range(120):
            with Tap(f"c{number}", "client", dir=self.taps) as tap:
                tap.write({"k": "conn", "c": 1})
        limits = resource.getrlimit(resource.RLIMIT_NOFILE)
        resource.setrlimit(resource.RLIMIT_NOFILE, (80, limits[1]))
        self.addCleanup(resource.setrlimit, resource.RLIMIT_NOFILE, limits)
        to = self.dir / "to"

        async def run():
            for _ in range(2):
                store = Store(dir=str(to))
                collector = Collector(store)
                self.assertTrue((await self.send(await collector.listen("127.0.0.1", 0)))[0])
                store.sync()
                await collector.close()

        asyncio.run(run())
        self.assertEqual({it.stem: it.read_bytes() for it in to.iterdir() if it.suffix == ".tap"}, self.each())


if __name__ == "__main__":
    unittest.main()

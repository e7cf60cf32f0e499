import importlib
import os
import stat
import subprocess
import sys
import tempfile
import threading
import tomllib
import unittest
from pathlib import Path
from unittest import mock

from . import lab
import sioaudit_taps
from sioaudit_taps import NodeTap, StreamTap, Tap, TapError, encode, tap_client


class Taps(unittest.TestCase):
    def setUp(self):
        it = tempfile.TemporaryDirectory()
        self.addCleanup(it.cleanup)
        self.dir = Path(it.name)
        self.count = 0

    def tap(self, of):
        self.count += 1
        it = Tap(f"t{self.count}", of, dir=self.dir)
        self.addCleanup(it.end)
        return it

    def refused(self, code, call, *args, **kwargs):
        with self.assertRaises(TapError) as refused:
            call(*args, **kwargs)
        self.assertEqual(refused.exception.code, code)

    def test_file(self):
        with Tap("c.1", "client", dir=self.dir) as tap:
            self.assertEqual(Path(tap.file).read_text(), 'c.1 {"k":"tap","v":1,"of":"client"}\n')
            self.assertTrue(tap.write({"k": "conn", "c": 1, "more": 2}))
            self.assertTrue(tap.write({"k": "in", "t": "é\x1e\n"}))
            self.assertEqual(Path(tap.file).read_text().split("\n")[1:], ['c.1 {"k":"conn","c":1}', 'c.1 {"k":"in","t":"é\\u001e\\n"}', ""])
        self.assertEqual(stat.S_IMODE(os.stat(tap.file).st_mode), 0o600)
        self.assertFalse(tap.write({"k": "lost"}))
        self.refused("Exists", Tap, "c.1", "client", dir=self.dir)
        for name in ("", "é", "a b", "x" * 33, "a\n", None):
            self.refused("Name", Tap, name, "client", dir=self.dir)
        self.refused("UnknownKind", Tap, "a", "proxy", dir=self.dir)
        self.refused("Write", Tap, "a", "node", dir=self.dir / "none")

    def test_limits(self):
        pid = {"k": "open", "pid": "P", "sid": "S", "nsp": "/"}
        ev = {"k": "ev", "off": "1-0", "nsp": "/", "text": "2[]"}
        cases = [
            ("node", "Field", {**pid, "pid": "a b"}),
            ("node", "Limit", {**pid, "pid": ""}),
            ("node", "Limit", {**pid, "sid": "x" * 129}),
            ("node", "Field", {**pid, "nsp": "n"}),
            ("node", "Field", {**pid, "nsp": "/a,b"}),
            ("node", "Limit", {**pid, "nsp": "/" + "é" * 128}),
            ("node", "Limit", {"k": "join", "pid": "P", "room": "x" * 257}),
            ("node", "NotJson", {"k": "join", "pid": "P", "room": "\ud800"}),
            ("node", "Field", {"k": "join", "pid": "P"}),
            ("node", "Limit", {"k": "break", "pid": "P", "turn": 65536}),
            ("node", "Field", {"k": "break", "pid": "P", "turn": True}),
            ("node", "Field", {"k": "break", "pid": "P", "turn": -1}),
            ("node", "Limit", {"k": "take", "off": "x" * 65}),
            ("node", "UnknownKind", {"k": "ev", "off": "1-0"}),
            ("node", "UnknownKind", {"k": ["take"]}),
            ("stream", "Limit", {**ev, "rooms": ["r"] * 257}),
            ("stream", "Field", {**ev, "rooms": "r"}),
            ("stream", "Limit", {**ev, "bin": [""] * 65}),
            ("stream", "Field", {**ev, "bin": ["AAF="]}),
            ("stream", "LineTooLong", {**ev, "text": "x" * 4_194_304}),
            ("client", "Field", {"k": "in", "t": "2"}),
            ("client", "Field", {"k": "conn", "c": 2**64}),
        ]
        for of, code, record in cases:
            tap = self.tap(of)
            self.refused(code, tap.write, record)
            self.assertTrue(tap.ended and tap.error is not None)
            self.assertFalse(tap.write(record))
        stream = self.tap("stream")
        stream.write({**ev, "rooms": [], "bin": ["AAE="], "except": ["r"]})
        self.assertIn('{"k":"ev","off":"1-0","nsp":"/","except":["r"],"text":"2[]","bin":["AAE="]}', Path(stream.file).read_text())
        self.refused("OffsetTwice", stream.write, ev)
        client = self.tap("client")
        client.write({"k": "conn", "c": 1})
        self.refused("Field", client.write, {"k": "conn", "c": 1})
        self.refused("UnknownKind", Tap("old", "node", dir=self.dir, version=1).write, {"k": "takes", "off": "1-0"})

    def test_goes_on_after_what_a_killed_process_left(self):
        first = Tap("c1", "client", dir=self.dir, resume=True)
        first.write({"k": "conn", "c": 3})
        first.write({"k": "in", "t": '40{"sid":"s","pid":"P"}'})
        first.end()
        file = Path(first.file)
        whole = file.read_text()
        file.write_text(whole + '\nc1 {"k":"in","t":"42[')  # (a line without bytes is none)
        second = Tap("c1", "client", dir=self.dir, resume=True)
        self.assertEqual((file.read_text(), second.connection, second.records), (whole + "\n", 3, 2))
        self.refused("Field", second.write, {"k": "in", "t": "2"})  # its connection was lost
        with Tap("c1", "client", file=file, resume=True) as third:
            third.write({"k": "conn", "c": 4})
            third.write({"k": "lost"})
        self.assertEqual(file.read_text(), whole + '\nc1 {"k":"conn","c":4}\nc1 {"k":"lost"}\n')
        with Tap("c1", "client", file=file, resume=True) as fourth:
            self.refused("Field", fourth.write, {"k": "conn", "c": 4})

    def test_goes_on_where_no_whole_header_was_written(self):
        file = self.dir / "st.tap"
        file.write_text('st {"k":"ta')
        with Tap("st", "stream", file=file, resume=True) as tap:
            self.assertIsNone(tap.last)
            tap.write({"k": "other", "off": "1-0"})
        self.assertEqual(file.read_text(), 'st {"k":"tap","v":1,"of":"stream"}\nst {"k":"other","off":"1-0"}\n')
        with Tap("st", "stream", file=file, resume=True) as tap:
            self.assertEqual(tap.last, "1-0")
            self.refused("OffsetTwice", tap.write, {"k": "other", "off": "1-0"})

    def test_a_file_that_is_another_taps_stays_as_it_is(self):
        header = 'c1 {"k":"tap","v":1,"of":"client"}\n'
        for text in ("text\n", "c1 null\n", "c2" + header[2:], header.replace("client", "stream"), header.replace("1,", "3,"), header + header, header + 'c1 {"k":"lost"}\n', header + "c1 nothing\n"):
            file = self.dir / "c1.tap"
            file.write_text(text + "c1 {")
            self.refused("Header", Tap, "c1", "client", dir=self.dir, resume=True)
            self.assertEqual(file.read_text(), text + "c1 {")
        self.refused("Field", Tap, "a", "node", dir=self.dir, resume=True)
        self.refused("Write", Tap, "a", "client", dir=self.dir / "none", resume=True)

    def test_nothing_else_is_imported(self):
        """Who has only a client's tap needs neither redis nor aiohttp, and who collects not even python-socketio."""
        others = ("redis", "aiohttp", "socketio", "engineio", "requests", "websocket", "msgpack")
        code = f"import sys; sys.path.insert(0, {str(lab.ROOT / 'taps/python/src')!r})\n"
        loaded = code + f"import sioaudit_taps, sioaudit_taps.collect, sioaudit_taps.send; print(sorted(sys.modules.keys() & set({others})))"
        self.assertEqual(self.python(loaded), "[]\n")
        tapped = code + "sys.modules.update(redis=None, aiohttp=None)\nimport socketio, sioaudit_taps\n"
        for made in ("Client()", "AsyncClient()"):
            self.python(tapped + f"sioaudit_taps.tap_client(socketio.{made}, name='c', dir={str(self.dir)!r}).end()")
            self.assertEqual((self.dir / "c.tap").read_text(), 'c {"k":"tap","v":1,"of":"client"}\n')
            (self.dir / "c.tap").unlink()

    def test_the_package(self):
        at = lab.ROOT / "taps/python"
        about = tomllib.loads((at / "pyproject.toml").read_text())
        self.assertEqual(about["project"]["dependencies"], [])
        for program in about["project"]["scripts"].values():
            module, _, name = program.partition(":")
            self.assertTrue(callable(getattr(importlib.import_module(module), name)))
        for name in about["tool"]["setuptools"]["package-data"]["sioaudit_taps"]:
            self.assertTrue((at / "src/sioaudit_taps" / name).exists())
        self.assertEqual(sorted(sioaudit_taps.__all__), sorted(it for it in vars(sioaudit_taps) if not it.startswith("_") and not isinstance(getattr(sioaudit_taps, it), type(os))))

    def test_what_a_tap_is_given(self):
        for made in (StreamTap, NodeTap):
            for words in ({}, {"name": "a"}, {"dir": self.dir}, {"name": "a", "dir": self.dir, "tap": self.tap("stream")}):
                self.refused("Field", made, **words)
            self.refused("UnknownKind", made, tap=self.tap("client"))
        client = mock.Mock()
        client.eio.state = "disconnected"
        for words in ({}, {"name": "a"}, {"dir": self.dir}, {"name": "a", "dir": self.dir, "tap": self.tap("client")}):
            self.refused("Field", tap_client, client, **words)
        self.refused("UnknownKind", tap_client, client, tap=self.tap("stream"))

    def python(self, code):
        done = subprocess.run([sys.executable, "-c", code], capture_output=True, text=True)
        self.assertEqual((done.returncode, done.stderr), (0, ""))
        return done.stdout

    def test_a_full_disk_ends_it(self):
        tap = self.tap("client")
        with mock.patch("os.write", side_effect=OSError(28, "no space")):
            self.refused("Write", tap.write, {"k": "conn", "c": 1})
        self.assertFalse(tap.write({"k": "conn", "c": 1}))

    def test_threads(self):
        tap = self.tap("client")
        tap.write({"k": "conn", "c": 1})
        threads = [threading.Thread(target=lambda: [tap.write({"k": "in", "t": "2" * 100}) for _ in range(200)]) for _ in range(8)]
        for it in threads:
            it.start()
        for it in threads:
            it.join()
        lines = Path(tap.file).read_text().splitlines()
        self.assertEqual(len(lines), 1602)
        self.assertEqual(len(set(lines)), 3)

    def test_moments(self):
        node = NodeTap("a", dir=self.dir)
        self.addCleanup(node.end)
        self.assertRegex(node.tap.name, r"^a\.[0-9a-z]+$")
        for call in (lambda: node.take("1-0"), lambda: node.open("P", "S"), lambda: node.back("P", 0), lambda: node.gone("P")):
            self.refused("Moment", call)
        node.start(None)
        self.refused("Moment", node.start, None)
        for call in (node.break_, node.gone):
            self.refused("Moment", call, "P")
        self.refused("Moment", node.join, "P", "r")
        node.open("P", "S")
        self.refused("Moment", node.open, "P", "S")
        self.refused("Moment", node.back, "P", 0)
        node.join("P", "r")
        node.take("1-0")
        self.refused("Moment", node.take, "1-0")
        self.assertEqual(node.break_("P"), 0)
        for call in (node.break_, node.gone):
            self.refused("Moment", call, "P")
        self.refused("Moment", node.leave, "P", "r")
        self.refused("Moment", node.open, "P", "S")
        self.assertEqual(node.back("P", 0), 1)
        self.assertEqual(node.break_("P"), 1)
        self.refused("Moment", node.back, "P", 0)
        self.assertEqual(node.back("P", 3), 4)
        node.gone("P")
        self.refused("Moment", node.back, "P", 4)
        self.assertFalse(node.tap.ended)
        kinds = [line.split('"')[3] for line in Path(node.tap.file).read_text().splitlines()]
        self.assertEqual(kinds, ["tap", "start", "open", "join", "take", "break", "back", "break", "back", "gone"])

    def test_stream(self):
        stream = StreamTap("st", dir=self.dir)
        self.addCleanup(stream.end)
        text, attachments = encode(["b", b"\x00\x01", {"é": 1e16}], "2-1", "/n")
        self.assertEqual(text, '51-/n,["b",{"_placeholder":true,"num":0},{"\\u00e9":1e+16},"2-1"]')
        stream.event("2-1", "/n", text, rooms={"r"}, attachments=attachments)
        stream.other("10-0")
        self.refused("Moment", stream.other, "9-5")
        self.assertIn('"bin":["AAE="]', Path(stream.tap.file).read_text())

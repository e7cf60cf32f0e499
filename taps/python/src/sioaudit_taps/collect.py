"""sioaudit-collect: taps of many machines, appended whole to one file, or to a file a tap (COLLECT.md)."""

from __future__ import annotations

import argparse
import asyncio
import contextlib
import fcntl
import json
import os
import signal
import socket
import sys
from collections.abc import Iterator
from dataclasses import dataclass, field
from typing import Any

from . import records
from .errors import HeaderError, LimitError, TapError
from .protocol import CHUNK, HEAD, LONGEST, VERSION, ProtocolError, address, message, receive
from .tap import Follower, whole_lines


@dataclass
class Kept:
    """A tap as far as it was kept."""

    sender: str
    follower: Follower | None = None
    at: int = 0  # bytes of whole lines
    lines: int = 0
    refused: dict[str, Any] | None = None


@dataclass
class Store:
    """What has come, in `into` (one file) or in `dir` (a file a tap), and who sent it, in a file beside it.

    How far a tap has come is what the files hold of it, so that after a crash nothing can be doubled or lost.
    """

    into: str | None = None
    dir: str | None = None
    taps: dict[str, Kept] = field(default_factory=dict)
    _into_fd: int | None = None

    def __post_init__(self) -> None:
        if (self.into is None) == (self.dir is None):
            raise ValueError("a store is given one of into and dir")
        if self.dir is not None:
            os.makedirs(self.dir, mode=0o700, exist_ok=True)
        senders = f"{self.into}.senders" if self.into is not None else os.path.join(self.dir or ".", ".senders")
        self._senders = self._opened(senders)
        try:
            fcntl.flock(self._senders, fcntl.LOCK_EX | fcntl.LOCK_NB)
        except OSError as error:
            os.close(self._senders)
            raise BlockingIOError(f"{senders}: another collector has it") from error
        for line in whole_lines(self._senders):
            tap = json.loads(line)
            self.taps[tap["tap"]] = Kept(tap["sender"])
        if self.into is not None:
            self._into_fd = self._opened(self.into)
            for line in whole_lines(self._into_fd):
                self._recall(line)
        else:
            for name in list(self.taps):
                with self._file(name) as fd:
                    for line in whole_lines(fd):
                        self._recall(line)

    def close(self) -> None:
        for fd in (self._senders, self._into_fd):
            if fd is not None:
                os.close(fd)
        self.taps = {}

    def claim(self, name: str, sender: str) -> Kept:
        """The tap of this sender; raises where it is another's."""
        records.check_name(name)
        kept = self.taps.get(name)
        if kept is None:
            self._append(self._senders, message(tap=name, sender=sender))
            os.fsync(self._senders)
            kept = self.taps[name] = Kept(sender)
        elif kept.sender != sender:
            raise TapError(f"the tap {name} is of the sender {kept.sender}", code="NameTaken")
        return kept

    def keep(self, name: str, kept: Kept, lines: bytes) -> None:
        """Keeps whole lines of a tap, up to the first one that is refused."""
        good = 0
        count = 0
        try:
            while good < len(lines):
                end = lines.index(b"\n", good)
                self._follow(name, kept, lines[good:end])
                good = end + 1
                count += 1
        except TapError as error:
            kept.refused = {"refused": error.code, "line": kept.lines + count + 1, "why": str(error)}
        if good:
            with self._file(name) as fd:
                self._append(fd, lines[:good])
            kept.at += good
            kept.lines += count

    def sync(self) -> None:
        """Has all of it on the disk."""
        for name in self.taps if self.into is None else [""]:
            with self._file(name) as fd:
                os.fsync(fd)

    def _follow(self, name: str, kept: Kept, line: bytes) -> None:
        of_line, record = records.read_line(line)
        if of_line != name:
            raise HeaderError(f"the line is of the tap {of_line}")
        if kept.follower is not None:
            if record["k"] == "tap":
                raise HeaderError("a second header", code="HeaderTwice")
            kept.follower.follow(record)
            return
        of, version = records.read_header(record)
        others = sum(it.follower is not None and it.follower.of == of for it in self.taps.values())
        if of == "stream" and others:
            raise LimitError("there is a stream's tap already", code="SecondStream")
        if others == {"node": records.NODES, "client": records.CLIENTS}.get(of):
            raise LimitError(f"there are {others} {of}s' taps already")
        kept.follower = Follower(of, version)

    def _recall(self, line: bytes) -> None:
        name = line.partition(b" ")[0].decode("ascii", "replace")
        kept = self.taps.get(name)
        if kept is None:
            raise HeaderError(f"the file has a line of a tap that no sender sent: {name[:40]!r}")
        self._follow(name, kept, line)
        kept.at += len(line) + 1
        kept.lines += 1

    @contextlib.contextmanager
    def _file(self, name: str) -> Iterator[int]:
        """The file that has a tap. One a tap is opened each time: there may be more than a process may hold open."""
        if self._into_fd is not None:
            yield self._into_fd
            return
        fd = self._opened(os.path.join(self.dir or ".", f"{name}.tap"))
        try:
            yield fd
        finally:
            os.close(fd)

    @staticmethod
    def _opened(path: str) -> int:
        return os.open(path, os.O_RDWR | os.O_APPEND | os.O_CREAT | os.O_CLOEXEC, 0o600)

    @staticmethod
    def _append(fd: int, data: bytes) -> None:
        size = os.fstat(fd).st_size
        view = memoryview(data)
        try:
            while view:
                view = view[os.write(fd, view) :]
        except OSError:
            os.ftruncate(fd, size)  # whole or not at all
            raise


class Collector:
    """Takes what senders send. A slow one blocks no other: nothing of a message is done before it is here whole."""

    def __init__(self, store: Store, *, log: Any = None) -> None:
        self.store = store
        self._log = log or (lambda text: None)
        self._writers: set[asyncio.StreamWriter] = set()
        self._server: asyncio.Server | None = None
        self.failed: OSError | None = None
        self.done = asyncio.Event()

    async def listen(self, host: str, port: int) -> int:
        self._server = await asyncio.start_server(self._serve, host, port, limit=HEAD)
        return int(self._server.sockets[0].getsockname()[1])

    async def close(self) -> None:
        if self._server is not None:
            self._server.close()
        for writer in list(self._writers):
            writer.transport.abort()
        while self._writers:
            await asyncio.sleep(0.01)
        self.store.close()

    async def _serve(self, reader: asyncio.StreamReader, writer: asyncio.StreamWriter) -> None:
        self._writers.add(writer)
        writer.get_extra_info("socket").setsockopt(socket.SOL_SOCKET, socket.SO_KEEPALIVE, 1)
        sender = "?"
        try:
            hello = await asyncio.wait_for(receive(reader), 30)
            if hello is None:
                return
            if hello.get("sioaudit") != VERSION or not isinstance(hello.get("sender"), str) or not 1 <= len(hello["sender"]) <= 256:
                raise ProtocolError(f"a sender of version {VERSION} begins with its name")
            sender = hello["sender"]
            writer.write(message(sioaudit=VERSION))
            while (asked := await receive(reader)) is not None:
                writer.write(await self._answer(sender, asked, reader))
                await writer.drain()
        except ProtocolError as error:
            self._log(f"{sender}: {error}")
            writer.write(message(error=str(error)))
        except OSError as error:
            if not isinstance(error, (ConnectionError, TimeoutError)):
                self.failed = error  # a full disk: what was acknowledged is there
                self.done.set()
        except (asyncio.IncompleteReadError, UnicodeError):
            pass
        finally:
            self._writers.discard(writer)
            writer.close()
            with contextlib.suppress(OSError):
                await writer.wait_closed()

    async def _answer(self, sender: str, asked: dict[str, Any], reader: asyncio.StreamReader) -> bytes:
        name, size = asked.get("tap"), asked.get("bytes", 0)
        if not isinstance(name, str) or not isinstance(size, int) or not 0 <= size <= max(LONGEST, CHUNK):
            raise ProtocolError("a message names a tap, and has so many bytes")
        lines = await reader.readexactly(size) if size else b""
        try:
            kept = self.store.claim(name, sender)
        except TapError as error:
            self._log(f"{sender}: {name}: {error.code}: {error}")
            return message(tap=name, at=0, refused=error.code, line=0, why=str(error))
        # of an earlier connection of the sender, say: it is told how far the tap has come
        if lines and asked.get("at") == kept.at and kept.refused is None:
            if not lines.endswith(b"\n"):
                raise ProtocolError("lines are sent whole")
            self.store.keep(name, kept, lines)
            if kept.refused is not None:
                self._log(f"{sender}: {name}: line {kept.refused['line']}: {kept.refused['refused']}: {kept.refused['why']}")
        return message(tap=name, at=kept.at, **(kept.refused or {}))


async def _run(words: argparse.Namespace) -> int:
    store = Store(into=words.into, dir=words.dir)
    collector = Collector(store, log=lambda text: print(f"sioaudit-collect: {text}", file=sys.stderr, flush=True))
    loop = asyncio.get_running_loop()
    for number in (signal.SIGINT, signal.SIGTERM):
        loop.add_signal_handler(number, collector.done.set)
    host, port = words.listen
    port = await collector.listen(host, port)
    print(f"sioaudit-collect: listening on {f'[{host}]' if ':' in host else host}:{port}", flush=True)
    await collector.done.wait()
    store.sync()
    await collector.close()
    if collector.failed is not None:
        print(f"sioaudit-collect: {collector.failed}", file=sys.stderr)
        return 1
    return 0


def main() -> int:
    parser = argparse.ArgumentParser(prog="sioaudit-collect", description="Collects the taps that sioaudit-send sends, from many machines.")
    parser.add_argument("--listen", default="127.0.0.1:7431", type=address, metavar="HOST:PORT", help="where to listen (%(default)s); port 0 takes a free one")
    to = parser.add_mutually_exclusive_group(required=True)
    to.add_argument("--into", metavar="FILE", help="append all taps to this file, which is a bundle")
    to.add_argument("--dir", metavar="DIR", help="a file a tap in this directory")
    try:
        return asyncio.run(_run(parser.parse_args()))
    except (OSError, TapError, ValueError) as error:
        print(f"sioaudit-collect: {error}", file=sys.stderr)
        return 1


if __name__ == "__main__":
    sys.exit(main())

"""sioaudit-send: sends taps to sioaudit-collect as they grow (COLLECT.md)."""

from __future__ import annotations

import argparse
import asyncio
import contextlib
import os
import re
import signal
import sys
from collections.abc import Callable, Iterable
from typing import Any

from . import records
from .protocol import CHUNK, HEAD, LONGEST, VERSION, ProtocolError, address, message, receive

_FRONT = re.compile(rb"([A-Za-z0-9_.-]{1,32}) ")
PAUSE = 0.2


class _Tap:
    """A tap's file, and how far the collector has it."""

    def __init__(self, file: str, name: str) -> None:
        self.file = file
        self.name = name
        self.at: int | None = None
        self.given_up = False

    def lines(self) -> bytes:
        """Whole lines from where the collector is, some."""
        assert self.at is not None
        if os.stat(self.file).st_size == self.at:
            return b""
        with open(self.file, "rb") as opened:
            size = opened.seek(0, os.SEEK_END)
            if size < self.at:
                raise ValueError(f"the collector has {self.at} bytes of the tap {self.name}, and its file has {size}")
            opened.seek(self.at)
            data = opened.read(CHUNK)
            end = data.rfind(b"\n")
            if end == -1 and len(data) == CHUNK:
                data += opened.read(LONGEST - CHUNK)
                end = data.find(b"\n")
                if end == -1 and len(data) == LONGEST:
                    raise ValueError(f"a line has at most {records.LINE} bytes")
        return data[: end + 1]


class Sender:
    """Sends what the files have, and goes on where it stopped: the collector tells how far it has each tap."""

    def __init__(self, name: str, paths: Iterable[str], host: str, port: int, *, log: Callable[[str], None] | None = None) -> None:
        self.name = name
        self.paths = list(paths)
        self.host, self.port = host, port
        self.taps: dict[str, _Tap] = {}
        self.stop = asyncio.Event()
        self.patience = 10.0
        """Seconds in which, once it was asked to stop, it still looks for the collector."""
        self._log = log or (lambda text: None)
        self.left_out: set[str] = set()
        """Files that could not be read, or are no taps, and directories that could not be looked into."""
        self._told: set[str] = set()
        self._pause = 0.1  # until it looks for the collector again

    @property
    def refused(self) -> list[str]:
        return [it.name for it in self.taps.values() if it.given_up]

    async def run(self) -> bool:
        """Sends until `stop` is set, and then what the files have by then. Whether all of it is with the collector."""
        since = None
        loop = asyncio.get_running_loop()
        while True:
            try:
                await self._connection()
                return not self.refused and not self.left_out
            except (OSError, EOFError, TimeoutError) as error:
                self._tell(f"no collector: {error}")
            for tap in self.taps.values():
                tap.at = None
            if self.stop.is_set():
                since = since or loop.time()
                if loop.time() - since > self.patience:
                    return False
                await asyncio.sleep(0.1)
            else:
                with contextlib.suppress(TimeoutError):
                    await asyncio.wait_for(self.stop.wait(), self._pause)
                self._pause = min(self._pause * 2, 5.0)

    async def _connection(self) -> None:
        reader, writer = await asyncio.open_connection(self.host, self.port, limit=HEAD)
        try:
            await self._ask(reader, writer, message(sioaudit=VERSION, sender=self.name))
            self._told.clear()
            self._pause = 0.1
            while True:
                ending = self.stop.is_set()
                self._look()
                sent = False
                for tap in list(self.taps.values()):
                    if not tap.given_up:
                        sent = await self._some(tap, reader, writer) or sent
                if sent:
                    continue
                if ending:
                    return
                with contextlib.suppress(TimeoutError):
                    await asyncio.wait_for(self.stop.wait(), PAUSE)
                if reader.at_eof():
                    raise EOFError("it has ended the connection")
        finally:
            writer.close()
            with contextlib.suppress(OSError):
                await writer.wait_closed()

    async def _some(self, tap: _Tap, reader: asyncio.StreamReader, writer: asyncio.StreamWriter) -> bool:
        asked = {"tap": tap.name}
        lines = b""
        if tap.at is not None:
            try:
                lines = tap.lines()
            except (OSError, ValueError) as error:
                return self._give_up(tap, str(error))
            if not lines:
                return False
            asked.update(at=tap.at, bytes=len(lines))  # type: ignore[call-overload]
        answer = await self._ask(reader, writer, message(**asked) + lines)
        at = answer.get("at")
        if answer.get("tap") != tap.name or not isinstance(at, int):
            raise ProtocolError("the collector answers something else")
        tap.at = at
        if "refused" in answer:
            which = f"line {answer['line']}" if answer.get("line") else "the tap"
            return self._give_up(tap, f"{which} is refused: {answer['refused']}: {answer.get('why')}")
        return True

    async def _ask(self, reader: asyncio.StreamReader, writer: asyncio.StreamWriter, asked: bytes) -> dict[str, Any]:
        writer.write(asked)
        async with asyncio.timeout(60):
            await writer.drain()
            answer = await receive(reader)
        if answer is None:
            raise EOFError("it has ended the connection")
        if "error" in answer:
            raise ProtocolError(f"the collector refuses: {answer['error']}")
        return answer

    def _give_up(self, tap: _Tap, why: str) -> bool:
        tap.given_up = True
        self._log(f"{tap.file}: {why}")
        return False

    def _look(self) -> None:
        self.left_out.clear()
        for path in self.paths:
            try:
                files = sorted(os.path.join(path, it) for it in os.listdir(path) if it.endswith(".tap")) if os.path.isdir(path) else [path]
            except OSError as error:
                self._leave_out(path, str(error.strerror))
                continue
            for file in files:
                if file not in self.taps:
                    self._begin(file)

    def _begin(self, file: str) -> None:
        try:
            with open(file, "rb") as opened:
                front = opened.read(33)
        except OSError as error:
            return self._leave_out(file, str(error.strerror))
        found = _FRONT.match(front)
        if found is None:
            if len(front) == 33:
                self._leave_out(file, "it is no tap")
            return None
        name = found[1].decode()
        if any(it.name == name for it in self.taps.values()):
            return self._leave_out(file, f"there is another file of the tap {name}")
        self.taps[file] = _Tap(file, name)
        return None

    def _leave_out(self, path: str, why: str) -> None:
        self.left_out.add(path)
        self._tell(f"{path}: {why}")

    def _tell(self, text: str) -> None:
        if text not in self._told:
            self._told.add(text)
            self._log(text)


async def _run(words: argparse.Namespace) -> int:
    sender = Sender(words.sender, words.paths, *words.to, log=lambda text: print(f"sioaudit-send: {text}", file=sys.stderr, flush=True))
    loop = asyncio.get_running_loop()
    for number in (signal.SIGINT, signal.SIGTERM):
        loop.add_signal_handler(number, sender.stop.set)
    if words.once:
        sender.stop.set()
    return 0 if await sender.run() else 1


def main() -> int:
    parser = argparse.ArgumentParser(
        prog="sioaudit-send",
        description="Sends taps to sioaudit-collect as they grow. At SIGINT or SIGTERM it sends what they have by then, and ends.",
    )
    parser.add_argument("--to", required=True, type=address, metavar="HOST:PORT", help="where the collector listens")
    parser.add_argument("--sender", default=os.uname().nodename, metavar="NAME", help="the name of this machine, another for each (%(default)s)")
    parser.add_argument("--once", action="store_true", help="send what the files have now, and end")
    parser.add_argument("paths", nargs="+", metavar="PATH", help="a tap's file, or a directory, of which each *.tap is sent")
    try:
        return asyncio.run(_run(parser.parse_args()))
    except (OSError, ValueError, ProtocolError) as error:
        print(f"sioaudit-send: {error}", file=sys.stderr)
        return 1


if __name__ == "__main__":
    sys.exit(main())

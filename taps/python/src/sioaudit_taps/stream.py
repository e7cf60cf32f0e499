"""The stream's tap, for clusters with an event stream of their own, and its reading from Redis."""

from __future__ import annotations

import asyncio
import base64
import contextlib
import os
from collections.abc import Callable, Iterable, Mapping, Sequence
from types import TracebackType
from typing import TYPE_CHECKING, Any, Self

from .errors import EndedError, FieldError, MomentError, TrimmedError, UnknownKindError
from .records import Record
from .redact import Redactor
from .tap import Tap

if TYPE_CHECKING:
    from redis.asyncio import Redis


_EVENT = 2  # a packet of Socket.IO


def encode(args: Sequence[Any], off: str, nsp: str = "/", *, packet_class: Any = None) -> tuple[str, list[bytes]]:
    """The text of an event with its offset, and its attachments, as python-socketio sends them.

    Nodes have to send the same text, byte for byte: by the same version of python-socketio, or by copying this one.
    """
    if packet_class is None:
        from socketio import packet  # not before it is needed: who has texts of their own needs no python-socketio

        packet_class = packet.Packet
    encoded = packet_class(_EVENT, data=[*args, off], namespace=nsp).encode()
    if isinstance(encoded, list):
        text, *attachments = encoded
        return text, [bytes(it) for it in attachments]
    return encoded, []


class StreamTap:
    """The entries of the stream, each once, in their order, none left out. With `resume` it goes on in the tap's file."""

    def __init__(
        self,
        name: str | None = None,
        *,
        dir: str | os.PathLike[str] | None = None,
        tap: Tap | None = None,
        resume: bool = False,
        redact: bytes | Redactor | None = None,
    ) -> None:
        if (tap is None) == (name is None or dir is None):
            raise FieldError("a stream's tap is given name and dir, or tap")
        self.tap = tap if tap is not None else Tap(str(name), "stream", dir=dir, resume=resume, redact=redact)
        if self.tap.of != "stream":
            raise UnknownKindError(f"the tap {self.tap.name} is a {self.tap.of}'s")

    def event(
        self,
        off: str,
        nsp: str,
        text: str,
        *,
        rooms: Iterable[str] = (),
        except_: Iterable[str] = (),
        attachments: Iterable[bytes] = (),
    ) -> None:
        """A recoverable event: `text` is what clients are sent, without Engine.IO's digit and with `off` as last argument."""
        bin = [base64.b64encode(it).decode() for it in attachments]
        self.write({"k": "ev", "off": off, "nsp": nsp, "rooms": list(rooms), "except": list(except_), "text": text, "bin": bin})

    def other(self, off: str) -> None:
        """Any other entry."""
        self.write({"k": "other", "off": off})

    def write(self, record: Record) -> None:
        off, last = record.get("off"), self.tap.last
        if isinstance(off, str) and last is not None and _place(off) is not None and _place(last) is not None:
            if _place(off) <= _place(last):  # type: ignore[operator]
                raise MomentError(f"the entry {off} comes after {last}, not before it")
        if not self.tap.write(record):
            raise EndedError(f"the tap {self.tap.name} has ended")

    def end(self) -> None:
        self.tap.end()

    def __enter__(self) -> Self:
        return self

    def __exit__(self, kind: type[BaseException] | None, error: BaseException | None, trace: TracebackType | None) -> None:
        self.end()


def _place(off: str) -> tuple[int, int] | None:
    time, dash, number = off.partition("-")
    return (int(time), int(number)) if dash and time.isdecimal() and number.isdecimal() and off.isascii() else None


RecordOf = Callable[[str, Mapping[str, str]], Record]


async def tap_stream(
    stream: StreamTap,
    redis: Redis[Any],
    key: str,
    record_of: RecordOf,
    *,
    stop: asyncio.Event,
    count: int = 200,
    pause: float = 0.05,
    patience: float = 5.0,
) -> int:
    """Writes each entry of a Redis stream, until `stop` is set and what the stream has by then is read.

    It begins after the tap's last entry, in a new tap at the oldest entry that the stream has. `redis` is a client of
    redis.asyncio with `decode_responses=True`; while Redis is away it is asked again, for `patience` seconds at most once
    `stop` is set. `record_of` makes the record of an entry. Entries that were trimmed before they were read raise a
    TrimmedError, and the tap ends before the hole. Gives how many it wrote.
    """
    from redis.exceptions import ConnectionError, TimeoutError

    place = _Place(stream.tap.last)
    written = 0
    goal: str | None = None  # the newest entry when it was asked to stop
    until: float | None = None
    loop = asyncio.get_running_loop()
    while True:
        ending = stop.is_set()
        try:
            info, entries = await _read(redis, key, place.last, count)
        except (ConnectionError, TimeoutError):
            if ending:
                until = until or loop.time() + patience
                if loop.time() > until:
                    raise
            await asyncio.sleep(0.1)
            continue
        until = None
        try:
            place.look(info)
        except TrimmedError:
            stream.end()
            raise
        for off, fields in entries:
            stream.write(record_of(off, fields))
            place.passed(off)
            written += 1
        if len(entries) < count:
            place.at_end(info)
        if ending:
            goal = goal or str(info.get("last-generated-id", _BEGIN))
            if not _after(goal, place.last or _BEGIN) or not entries:
                return written
        elif len(entries) < count:
            with contextlib.suppress(asyncio.TimeoutError):
                await asyncio.wait_for(stop.wait(), pause)


_BEGIN = "0-0"


async def _read(redis: Redis[Any], key: str, last: str | None, count: int) -> tuple[Mapping[str, Any], list[tuple[str, Mapping[str, str]]]]:
    """What the stream is, and its next entries, of one moment."""
    from redis.exceptions import ResponseError

    both = redis.pipeline(transaction=True)
    both.xinfo_stream(key)
    both.xrange(key, f"({last or _BEGIN}", "+", count=count)
    info, entries = await both.execute(raise_on_error=False)
    if isinstance(info, ResponseError) and "no such key" in str(info):
        return {}, []
    for it in (info, entries):
        if isinstance(it, Exception):
            raise it
    return info, entries


def _after(one: str, other: str) -> bool:
    a, b = _place(one), _place(other)
    return a is not None and b is not None and a > b


class _Place:
    """Where a tap is in a Redis stream, and whether entries are missing after it."""

    def __init__(self, last: str | None) -> None:
        self.last = last
        self._position: int | None = None  # how many entries had been added up to it; a tap that goes on knows at the stream's end

    def look(self, info: Mapping[str, Any]) -> None:
        """Before what is read next, of the same moment: where the oldest entry that is left isn't past the last one that
        was read, nothing after that was trimmed; where it is, as many were as are missing from the count."""
        added = info.get("entries-added")
        if added is None:
            return  # Redis before 7 doesn't count
        gone = added - info["length"]
        if self.last is None:
            self._position = gone  # it begins at the oldest
            return
        if info["first-entry"] is not None and not _after(info["first-entry"][0], self.last):
            return
        if self._position is None:
            if info["last-generated-id"] != self.last:
                raise TrimmedError(f"the entry {self.last} was trimmed, and what followed it may have been: the tap can't go on")
        elif self._position < gone:
            raise TrimmedError(f"entries trimmed before they were read: {gone - self._position}, after {self.last}")

    def passed(self, off: str) -> None:
        self.last = off
        if self._position is not None:
            self._position += 1

    def at_end(self, info: Mapping[str, Any]) -> None:
        self._position = info.get("entries-added", self._position)

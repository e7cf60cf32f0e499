"""A tap: the records of one observer, a line each, with the system before `write` returns."""

from __future__ import annotations

import json
import os
import threading
from collections.abc import Iterator
from types import TracebackType
from typing import Any, Self

from . import records
from .errors import ExistsError, FieldError, HeaderError, LimitError, LineTooLongError, OffsetTwiceError, TapError, UnknownKindError, WriteError
from .records import Kind, Record
from .redact import Redactor


class Follower:
    """What can only be said of a record by those before it in its tap."""

    def __init__(self, of: str, version: int) -> None:
        self.of = of
        self.version = version
        self.records = 0
        self.last: str | None = None
        self.connection: int | None = None
        self.connected = False
        self._pids: set[str] = set()

    def follow(self, record: Record) -> dict[str, Any]:
        """The record as it is written; raises where the auditor would refuse it."""
        made = records.checked(self.of, self.version, record)
        most = records.ENTRIES if self.of == "stream" else records.RECORDS
        if self.records == most:
            raise LimitError(f"a {self.of}'s tap has at most {most} records")
        kind = made["k"]
        if self.of == "stream":
            if made["off"] == self.last:
                raise OffsetTwiceError(f"the entry before has the offset {self.last}")
            self.last = made["off"]
        elif self.of == "node":
            if kind in ("take", "takes"):
                self.last = made["off"]
            pid = made.get("pid")
            if pid is not None and pid not in self._pids:
                if len(self._pids) == records.PIDS:
                    raise LimitError(f"all nodes' taps have at most {records.PIDS} pids")
                self._pids.add(pid)
        elif kind == "conn":
            if self.connection is not None and made["c"] <= self.connection:
                raise FieldError(f"c is {made['c']} after {self.connection}")
            self.connection = made["c"]
            self.connected = True
        else:
            if not self.connected:
                raise FieldError(f"{kind} stands outside a connection")
            self.connected = kind != "lost"
        self.records += 1
        return made


def whole_lines(fd: int) -> Iterator[bytes]:
    """The lines of a file, without their newlines; what a crash left of a last one is cut off in the end."""
    whole = 0
    with os.fdopen(os.dup(fd), "rb", buffering=1 << 20) as opened:
        opened.seek(0)
        for line in opened:
            if not line.endswith(b"\n"):
                break
            whole += len(line)
            yield line[:-1]
    os.ftruncate(fd, whole)


class Tap:
    """A tap in a file of its own.

    A record that is refused, or that can't be written, ends the tap: `write` raises a TapError then, and from then on
    writes nothing and answers False. A tap that ends is complete up to its end; one with a hole contradicts itself.

    With `resume` it goes on in a file that is there, after its last whole line: for a stream, and for a client that keeps
    its pids over a restart. A node that is started again needs a new tap.
    """

    def __init__(
        self,
        name: str,
        of: Kind,
        *,
        file: str | os.PathLike[str] | None = None,
        dir: str | os.PathLike[str] | None = None,
        version: int | None = None,
        resume: bool = False,
        redact: bytes | Redactor | None = None,
    ) -> None:
        self.name = records.check_name(name)
        if of not in records.KINDS:
            raise UnknownKindError(f"a tap is of a stream, node or client, not {of!r}")
        if (file is None) == (dir is None):
            raise FieldError("a tap is given one of file and dir")
        self.of: Kind = of
        self.version = (2 if of == "node" else 1) if version is None else version
        if self.version not in (1, 2):
            raise FieldError(f"version {version} is neither 1 nor 2")
        if resume and of == "node":
            raise FieldError("a node that is started again needs a new tap")
        self.file = os.fspath(file) if file is not None else os.path.join(os.fspath(dir or "."), f"{name}.tap")
        self.error: TapError | None = None
        """What ended it, if anything did."""
        self._redactor = redact if redact is None or isinstance(redact, Redactor) else Redactor(redact)
        self._follower = Follower(of, self.version)
        self._lock = threading.RLock()
        self._fd: int | None = None
        try:
            # it has what sessions can be taken over with: for its owner alone
            self._fd = os.open(self.file, os.O_RDWR | os.O_APPEND | os.O_CREAT | os.O_CLOEXEC | (0 if resume else os.O_EXCL), 0o600)
        except FileExistsError as error:
            raise ExistsError(f"{self.file} is there already: a tap's name is used once") from error
        except OSError as error:
            raise WriteError(f"{self.file}: {error.strerror}") from error
        try:
            if not (resume and self._recall(self._fd)):
                self._put({"k": "tap", "v": self.version, "of": of})
        except BaseException:
            self.end()
            raise

    @property
    def ended(self) -> bool:
        return self._fd is None

    @property
    def records(self) -> int:
        """How many records it has, the header not counted."""
        return self._follower.records

    @property
    def last(self) -> str | None:
        """The offset of its last entry."""
        return self._follower.last

    @property
    def connection(self) -> int | None:
        """The number of its last connection."""
        return self._follower.connection

    def write(self, record: Record) -> bool:
        """Writes a record: True where it was written, False where the tap has ended before."""
        with self._lock:
            if self._fd is None:
                return False
            try:
                made = self._follower.follow(record)
                if self._redactor is not None:
                    made = records.checked(self.of, self.version, self._redactor.record(made))
                self._put(made)
            except TapError as error:
                self.error = error
                error.add_note(f"the tap {self.name} has ended")
                self.end()
                raise
            return True

    def end(self) -> None:
        with self._lock:
            fd, self._fd = self._fd, None
            if fd is not None:
                os.close(fd)

    def __enter__(self) -> Self:
        return self

    def __exit__(self, kind: type[BaseException] | None, error: BaseException | None, trace: TracebackType | None) -> None:
        self.end()

    def _recall(self, fd: int) -> bool:
        """Takes in what the file has; False where it hasn't even a whole header."""
        begun = False
        for number, line in enumerate(whole_lines(fd), 1):
            if line == b"":
                continue
            try:
                name, record = records.read_line(line)
                if name != self.name:
                    raise HeaderError(f"it is of the tap {name}")
                if begun:
                    self._follower.follow(record)
                    continue
                of, self.version = records.read_header(record)
                if of != self.of:
                    raise HeaderError(f"it is a {of}'s")
            except TapError as error:
                raise HeaderError(f"{self.file}: line {number} is no line of the {self.of}'s tap {self.name}: {error}") from error
            self._follower = Follower(of, self.version)
            begun = True
        self._follower.connected = False  # whatever connection stood was lost with the process
        return begun

    # one write a record, so that a line is there whole or not at all
    def _put(self, record: Record) -> None:
        line = f"{self.name} {json.dumps(record, ensure_ascii=False, separators=(',', ':'))}\n".encode()
        if len(line) - 1 > records.LINE:
            raise LineTooLongError(f"a line has at most {records.LINE} bytes")
        assert self._fd is not None
        try:
            written = os.write(self._fd, line)
            while written < len(line):
                written += os.write(self._fd, line[written:])
        except OSError as error:
            raise WriteError(f"{self.file}: {error.strerror}") from error

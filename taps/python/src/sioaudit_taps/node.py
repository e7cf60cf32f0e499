"""A node's tap, for servers with a recovery layer of their own: a method a moment (docs/TAPPING.md)."""

from __future__ import annotations

import os
import time
from collections.abc import Iterable
from types import TracebackType
from typing import Self

from .errors import ExistsError, FieldError, MomentError, UnknownKindError
from .redact import Redactor
from .tap import Tap


class NodeTap:
    """What a node does, each told at its moment.

    Moments in an order in which they can't have happened raise a MomentError: nothing is written then, and the tap goes
    on. A mark of the boot follows the name, so that each process has a tap of its own; or `tap` is one that was made.
    """

    def __init__(
        self,
        name: str | None = None,
        *,
        dir: str | os.PathLike[str] | None = None,
        tap: Tap | None = None,
        redact: bytes | Redactor | None = None,
    ) -> None:
        if (tap is None) == (name is None or dir is None):
            raise FieldError("a node's tap is given name and dir, or tap")
        self.tap = tap if tap is not None else _booted(str(name), os.fspath(dir or "."), redact)
        if self.tap.of != "node":
            raise UnknownKindError(f"the tap {self.tap.name} is a {self.tap.of}'s")
        self._started = False
        self._here: dict[str, int] = {}  # the turn of each session that this node sends to
        self._was: dict[str, int] = {}  # the last turn that others ended here
        self._over: set[str] = set()

    def start(self, off: str | None) -> None:
        """At boot: the newest entry that the node will not be given, None where it reads from the stream's start."""
        if self._started:
            raise MomentError("start is told once, at boot: a node that is started again needs a new tap")
        self.tap.write({"k": "start", "off": off})
        self._started = True

    def take(self, off: str) -> None:
        """Before the node chooses the sessions to send this entry to. Await nothing between this and the choice."""
        self._take("take", off)

    def takes(self, off: str) -> None:
        """The same, for all entries up to this one."""
        self._take("takes", off)

    def open(self, pid: str, sid: str, nsp: str = "/") -> None:
        """When a new session can be sent to, before the node takes another entry."""
        self._begun("open")
        if pid in self._here or pid in self._was or pid in self._over:
            raise MomentError("the session was opened before: a recovery is told by back")
        self.tap.write({"k": "open", "pid": pid, "sid": sid, "nsp": nsp})
        self._here[pid] = 0

    def join(self, pid: str, room: str) -> None:
        """When a session joins a room: not its own, and not one that a recovery gives back."""
        self._present(pid, "join")
        self.tap.write({"k": "join", "pid": pid, "room": room})

    def leave(self, pid: str, room: str) -> None:
        """When a session leaves a room, but not for the clearing up after its end."""
        self._present(pid, "leave")
        self.tap.write({"k": "leave", "pid": pid, "room": room})

    def break_(self, pid: str) -> int:
        """When its connection was lost and it may be recovered, before it is stored. Gives the turn to store with it."""
        turn = self._present(pid, "break")
        self.tap.write({"k": "break", "pid": pid, "turn": turn})
        del self._here[pid]
        self._was[pid] = turn
        return turn

    def back(self, pid: str, stored: int) -> int:
        """When a recovered session can be sent to again; `stored` is the turn that was stored with it. Gives the new turn."""
        self._begun("back")
        if pid in self._here:
            raise MomentError("the session is here: its break comes before its back")
        if pid in self._over:
            raise MomentError("the session is over")
        if stored < self._was.get(pid, 0):
            raise MomentError(f"the turn {stored} was stored before the turn {self._was[pid]}, which ended here")
        self.tap.write({"k": "back", "pid": pid, "turn": stored + 1})
        self._here[pid] = stored + 1
        self._was.pop(pid, None)
        return stored + 1

    def gone(self, pid: str) -> None:
        """When the session is over: the client or the server ended it. Not after its break."""
        self._present(pid, "gone")
        self.tap.write({"k": "gone", "pid": pid})
        del self._here[pid]
        self._over.add(pid)

    def here(self) -> Iterable[str]:
        """The pids of the sessions that this node sends to."""
        return self._here.keys()

    def end(self) -> None:
        self.tap.end()

    def __enter__(self) -> Self:
        return self

    def __exit__(self, kind: type[BaseException] | None, error: BaseException | None, trace: TracebackType | None) -> None:
        self.end()

    def _begun(self, moment: str) -> None:
        if not self._started:
            raise MomentError(f"{moment} comes before start")

    def _present(self, pid: str, moment: str) -> int:
        self._begun(moment)
        if pid not in self._here:
            raise MomentError(f"{moment} of a session that isn't here: no open or back of it, or its break or gone was told")
        return self._here[pid]

    def _take(self, kind: str, off: str) -> None:
        self._begun(kind)
        if off == self.tap.last:
            raise MomentError(f"the entry {off} was taken before")
        self.tap.write({"k": kind, "off": off})


def _booted(name: str, dir: str, redact: bytes | Redactor | None) -> Tap:
    mark = time.time_ns() // 1_000_000
    while True:
        try:
            return Tap(f"{name}.{_base36(mark)}", "node", dir=dir, redact=redact)
        except ExistsError:
            mark += 1


def _base36(number: int) -> str:
    digits = ""
    while number:
        number, digit = divmod(number, 36)
        digits = "0123456789abcdefghijklmnopqrstuvwxyz"[digit] + digits
    return digits or "0"

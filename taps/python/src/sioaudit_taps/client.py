"""A client's tap, in the Engine.IO client of python-socketio's clients."""

from __future__ import annotations

import base64
import json
import os
import threading
import warnings
from collections.abc import Callable
from typing import Any

from .errors import FieldError, LateError, TapError, UnknownKindError
from .redact import Redactor
from .tap import Tap


_MESSAGE = 4  # the packets of Engine.IO that carry Socket.IO's


def _warn(error: TapError) -> None:
    warnings.warn(f"the tap has ended: {error}", RuntimeWarning, stacklevel=2)


class _Recorder:
    """The records of a client. Never raises: what a tap can't do is no matter of the client's."""

    def __init__(self, tap: Tap, on_error: Callable[[TapError], None]) -> None:
        self._tap = tap
        self._on_error = on_error
        self._open = False
        self._lock = threading.RLock()  # `on_error` may end the connection

    def event(self, event: str, data: Any) -> None:
        with self._lock:
            if event == "connect":
                self._open = True
                self._write({"k": "conn", "c": (self._tap.connection or 0) + 1})
            elif not self._open:
                return  # what comes after the connection was lost is none of its
            elif event == "disconnect":
                self._open = False
                self._write({"k": "lost"})
            elif event == "message":
                if isinstance(data, (bytes, bytearray)):
                    self._write({"k": "inb", "b": base64.b64encode(data).decode()})
                else:
                    # engineio has read what is JSON, which no packet of Socket.IO is
                    text = data if isinstance(data, str) else json.dumps(data, separators=(",", ":"))
                    self._write({"k": "in", "t": f"4{text}"})

    def sending(self, packet: Any) -> None:
        # CONNECT and DISCONNECT: no other packet of a client is looked at
        if packet.packet_type == _MESSAGE and isinstance(packet.data, str) and packet.data[:1] in ("0", "1"):
            with self._lock:
                if self._open:
                    self._write({"k": "out", "t": f"4{packet.data}"})

    def _write(self, record: dict[str, Any]) -> None:
        try:
            self._tap.write(record)
        except TapError as error:
            self._on_error(error)


def tap_client(
    client: Any,
    *,
    name: str | None = None,
    dir: str | os.PathLike[str] | None = None,
    tap: Tap | None = None,
    resume: bool = False,
    redact: bytes | Redactor | None = None,
    on_error: Callable[[TapError], None] = _warn,
) -> Tap:
    """Taps a `socketio.AsyncClient` or `socketio.Client`: all its namespaces, over all its connections, whatever carries them.

    To be called before it connects. Gives the tap, to be ended with the client. With `resume` it goes on in the tap's
    file, for a client that keeps its pids and offsets over a restart.
    """
    eio = client.eio
    if eio.state != "disconnected":
        raise LateError("the client connects already: tap it before")
    if (tap is None) == (name is None or dir is None):
        raise FieldError("a client's tap is given name and dir, or tap")
    into = tap if tap is not None else Tap(str(name), "client", dir=dir, resume=resume, redact=redact)
    if into.of != "client":
        raise UnknownKindError(f"the tap {into.name} is a {into.of}'s")
    recorder = _Recorder(into, on_error)
    trigger, send = eio._trigger_event, eio._send_packet

    # the engine tells of a packet before the client handles it, in the order in which it has read them
    if eio.is_asyncio_based():

        async def tapped_trigger(event: str, *args: Any, **kwargs: Any) -> Any:
            recorder.event(event, args[0] if args else None)
            return await trigger(event, *args, **kwargs)

        async def tapped_send(packet: Any) -> Any:
            recorder.sending(packet)
            return await send(packet)

        eio._trigger_event, eio._send_packet = tapped_trigger, tapped_send
    else:

        def tapped_trigger_sync(event: str, *args: Any, **kwargs: Any) -> Any:
            recorder.event(event, args[0] if args else None)
            return trigger(event, *args, **kwargs)

        def tapped_send_sync(packet: Any) -> Any:
            recorder.sending(packet)
            return send(packet)

        eio._trigger_event, eio._send_packet = tapped_trigger_sync, tapped_send_sync
    return into

"""Taps that record a Socket.IO cluster of python-socketio for sioaudit."""

from .client import tap_client
from .errors import TapError
from .node import NodeTap
from .redact import Redactor, read_key
from .stream import StreamTap, encode, tap_stream
from .tap import Tap

__all__ = ["NodeTap", "Redactor", "StreamTap", "Tap", "TapError", "encode", "read_key", "tap_client", "tap_stream"]

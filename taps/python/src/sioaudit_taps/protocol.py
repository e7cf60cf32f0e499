"""What sioaudit-send and sioaudit-collect say to each other (COLLECT.md)."""

from __future__ import annotations

import argparse
import asyncio
import json
import re
from typing import Any, Final

from . import records

VERSION: Final = 1
CHUNK: Final = 256 * 1024  # bytes of lines in one message, where a line isn't longer
LONGEST: Final = records.LINE + 1
HEAD: Final = 64 * 1024  # bytes of a message's own line


def address(word: str) -> tuple[str, int]:
    """HOST:PORT, as an argument."""
    found = re.fullmatch(r"(\[[^\[\]]+\]|[^:\[\]]+):([0-9]{1,5})", word)
    if found is None or int(found[2]) > 65_535:
        raise argparse.ArgumentTypeError(f"{word} is no HOST:PORT")
    return found[1].strip("[]"), int(found[2])


class ProtocolError(Exception):
    """The other side does not speak this protocol."""


async def receive(reader: asyncio.StreamReader) -> dict[str, Any] | None:
    """The next message, without the lines that follow it; None at the end."""
    try:
        line = await reader.readuntil(b"\n")
    except asyncio.IncompleteReadError as error:
        if error.partial:
            raise ProtocolError("a message was cut off") from error
        return None
    except asyncio.LimitOverrunError as error:
        raise ProtocolError("a message is too long") from error
    try:
        message = json.loads(line)
    except (ValueError, RecursionError) as error:
        raise ProtocolError("a message is no JSON") from error
    if not isinstance(message, dict):
        raise ProtocolError("a message is no object")
    return message


def message(**fields: Any) -> bytes:
    return json.dumps(fields, ensure_ascii=False, separators=(",", ":")).encode() + b"\n"

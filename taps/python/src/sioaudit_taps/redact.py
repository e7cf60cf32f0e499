"""Redaction (taps/REDACTION.md): pids, sids, rooms and what events say are replaced by keyed hashes, alike in all taps."""

from __future__ import annotations

import base64
import hashlib
import hmac
import json
import math
import os
import re
from collections.abc import Callable
from functools import lru_cache
from typing import Any, NamedTuple

from .errors import KeyFileError
from .records import ID, Record, is_base64

KEY = 16
"""How many bytes a key has at least."""

_DEPTH = 127
_FRONT = re.compile(r"(?:[0-4]|[56](?P<count>[0-9]{1,2})-)(?:/[^,]*,?)?(?P<id>[0-9]*)")
_DIGITS = re.compile(r"[0-9]*")
_BLANK = re.compile(r"[ \t\n\r]*")
_TEXT = re.compile(r'"(?:[^"\\\x00-\x1f]++|\\(?:["\\/bfnrt]|u[0-9a-fA-F]{4}))*+"')
_LITERAL = re.compile(r"true|false|null")
_NUMBER = re.compile(r"-?(?:0|[1-9][0-9]*)(?:\.[0-9]+)?(?:[eE][+-]?[0-9]+)?")
_HALF_PAIR = re.compile(r"[\ud800-\udfff]")
_ID = re.compile(r"[\x21-\x7e]{1,%d}" % ID)


def read_key(file: str | os.PathLike[str]) -> bytes:
    """The key in a file: its bytes without a last newline."""
    try:
        with open(file, "rb") as opened:
            key = opened.read()
    except OSError as error:
        raise KeyFileError(f"the key {os.fspath(file)} can't be read: {error.strerror}") from error
    return key.removesuffix(b"\n")


class _NotRead(Exception):
    """The auditor doesn't read this JSON."""


class _Text(NamedTuple):
    """A text in a JSON text: where its token stands, and where it is in the value."""

    start: int
    end: int
    text: str
    key: bool
    depth: int  # how many arrays and objects it is in
    of: int | str | None  # the item or member of the outermost one that it is in


class _Reader:
    """Finds the texts in a JSON text; placeholders are passed over."""

    def __init__(self, source: str, at: int) -> None:
        self.source = source
        self.at = at
        self.texts: list[_Text] = []
        self.of: int | str | None = None
        self._blank()
        self.first = source[self.at : self.at + 1]
        self._value(0)
        self._blank()
        if self.at != len(source):
            raise _NotRead

    def _blank(self) -> None:
        found = _BLANK.match(self.source, self.at)
        assert found is not None
        self.at = found.end()

    def _sign(self, sign: str) -> bool:
        self._blank()
        if not self.source.startswith(sign, self.at):
            return False
        self.at += 1
        self._blank()
        return True

    def _text(self, key: bool, depth: int) -> str:
        found = _TEXT.match(self.source, self.at)
        if found is None:
            raise _NotRead
        token = found.group()
        text: str = json.loads(token) if "\\" in token else token[1:-1]
        if not text.isascii() and _HALF_PAIR.search(text):
            raise _NotRead
        if key and depth == 1:
            self.of = text
        self.texts.append(_Text(self.at, found.end(), text, key, depth, self.of))
        self.at = found.end()
        return text

    def _value(self, depth: int) -> str:
        """Reads a value, and tells what it is: its token, where it is a number or a literal."""
        first = self.source[self.at : self.at + 1]
        if first == '"':
            self._text(False, depth)
            return '"'
        if first in ("[", "{") and first:
            if depth == _DEPTH:
                raise _NotRead
            if first == "[":
                self._items(depth + 1)
            else:
                self._members(depth + 1)
            return first
        found = _LITERAL.match(self.source, self.at) or _NUMBER.match(self.source, self.at)
        if found is None:
            raise _NotRead
        token = found.group()
        if token[0] not in "tfn" and not math.isfinite(float(token)):
            raise _NotRead
        self.at = found.end()
        return token

    def _items(self, depth: int) -> None:
        self._sign("[")
        if self._sign("]"):
            return
        number = 0
        while True:
            if depth == 1:
                self.of = number
            self._value(depth)
            number += 1
            if not self._sign(","):
                break
        if not self._sign("]"):
            raise _NotRead

    def _members(self, depth: int) -> None:
        self._sign("{")
        before = len(self.texts)
        if self._sign("}"):
            return
        members: list[tuple[str, str]] = []
        while True:
            name = self._text(True, depth)
            if not self._sign(":"):
                raise _NotRead
            what = self._value(depth)
            if len(members) < 3:
                members.append((name, what))
            if not self._sign(","):
                break
        if not self._sign("}"):
            raise _NotRead
        if len(members) == 2:
            both = dict(members)
            if both.get("_placeholder") == "true" and both.get("num", "n")[0] in "-0123456789":
                del self.texts[before:]


def _written(text: str) -> str:
    return json.dumps(text, ensure_ascii=False)


class Redactor:
    """Replaces what taps write by hashes with a key."""

    def __init__(self, key: bytes) -> None:
        if not isinstance(key, (bytes, bytearray, memoryview)):
            raise KeyFileError("the key of a redaction is bytes")
        if len(key) < KEY:
            raise KeyFileError(f"the key of a redaction has {len(key)} bytes, at least {KEY} are needed")
        self._key = bytes(key)
        self._short: Callable[[str], str] = lru_cache(maxsize=4096)(self._hash)

    def _digest(self, data: bytes) -> bytes:
        return hmac.digest(self._key, data, hashlib.sha256)

    def _hash(self, text: str) -> str:
        return self._digest(text.encode()).hex()[: min(max(8, len(text)), 32)]

    def hash(self, text: str) -> str:
        """What stands for a text: as long as it, but 8 to 32 hexadecimal digits."""
        return self._short(text) if len(text) <= 128 else self._hash(text)

    def attachment(self, encoded: str) -> str:
        """What stands for an attachment, both in base64."""
        data = base64.b64decode(encoded)
        return base64.b64encode(self._digest(data)[: min(len(data), 32)]).decode()

    def packet(self, text: str) -> str:
        """What stands for the text of a Socket.IO packet."""
        front = _FRONT.match(text)
        if front is None or int(front["count"] or 0) > 64 or len(front["id"]) > 18:
            return self._no_packet(text)
        array = text[0] in "2356"
        if front.end() == len(text):
            return self._no_packet(text) if array else text
        try:
            read = _Reader(text, front.end())
        except _NotRead:
            return self._no_packet(text)
        if array and read.first != "[":
            return self._no_packet(text)
        last = read.of if text[0] in "25" else None
        connect = text[0] == "0" and read.first == "{"
        made: list[str] = []
        at = 0
        for it in read.texts:
            if it.depth == 1 and not it.key and last is not None and it.of == last:
                continue  # the offset
            if connect and it.depth == 1 and it.of in ("pid", "sid", "offset"):
                if it.key or it.of == "offset":
                    continue
                # what is no pid stays none
                hashed = self.hash(it.text) if _ID.fullmatch(it.text) else self.hash(it.text) + " "
            else:
                token = text[it.start : it.end]
                hashed = self.hash(it.text if token == _written(it.text) else token)
            made += (text[at : it.start], f'"{hashed}"')
            at = it.end
        return "".join(made) + text[at:]

    def message(self, text: str) -> str:
        """What stands for the text of an Engine.IO packet."""
        first, rest = text[:1], text[1:]
        if first == "4":
            return "4" + self.packet(rest)
        if first == "b":
            return "b" + self.attachment(rest) if is_base64(rest) else self._no_packet(text)
        if first == "" or first not in "012356":
            return self._no_packet(text)
        return f'{first}["{self.hash(rest)}"]' if rest else text  # it is read past, whatever it says

    def record(self, record: Record) -> dict[str, Any]:
        """What stands for a record of any tap."""
        made = dict(record)
        for name in ("pid", "sid", "room"):
            if name in made:
                made[name] = self.hash(made[name])
        for name in ("rooms", "except"):
            if name in made:
                made[name] = [self.hash(it) for it in made[name]]
        if "text" in made:
            made["text"] = self.packet(made["text"])
        if "bin" in made:
            made["bin"] = [self.attachment(it) for it in made["bin"]]
        if made.get("k") == "poll":
            made["t"] = "\x1e".join(self.message(it) for it in made["t"].split("\x1e"))
        elif "t" in made:
            made["t"] = self.message(made["t"])
        if "b" in made:
            made["b"] = self.attachment(made["b"])
        return made

    def _no_packet(self, text: str) -> str:
        """What is no packet, with its digits, and no packet either."""
        found = _DIGITS.match(text)
        assert found is not None
        return f'{found.group()}["{self.hash(text)}'

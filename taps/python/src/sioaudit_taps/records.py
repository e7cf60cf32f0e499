"""The records of docs/FORMAT.md, their forms and limits: a line that the auditor refuses has it refuse the whole bundle."""

from __future__ import annotations

import json
import math
import re
from collections.abc import Callable, Mapping
from typing import Any, Final, Literal

from .errors import FieldError, HeaderError, LimitError, LineTooLongError, NotJsonError, TapError, TapNameError, UnknownKindError

Kind = Literal["stream", "node", "client"]
Record = Mapping[str, Any]

LINE: Final = 4_194_304
NAME: Final = 32
ID: Final = 128
OFF: Final = 64
ROOM: Final = 256
NSP: Final = 256
ROOMS: Final = 256
ATTACHMENTS: Final = 64
TURN: Final = 65_535
PIDS: Final = 65_536
ENTRIES: Final = 1_000_000
RECORDS: Final = 4_000_000
NODES: Final = 64
CLIENTS: Final = 4_096
NESTED: Final = 127

_NAME = re.compile(r"[A-Za-z0-9_.-]{1,32}")
_PRINTABLE = re.compile(r"[\x21-\x7e]*")
_BASE64 = re.compile(r"[A-Za-z0-9+/]*")
_HALF_PAIR = re.compile(r"[\ud800-\udfff]")


def check_name(name: object) -> str:
    if not isinstance(name, str) or _NAME.fullmatch(name) is None:
        raise TapNameError(f"a tap's name is 1 to {NAME} bytes of A-Za-z0-9_.-, not {name!r}")
    return name


def is_base64(value: str) -> bool:
    """Whether it is base64 as RFC 4648 has it: padded, and its unused bits are zero."""
    body = value.rstrip("=")
    padding = len(value) - len(body)
    if len(value) % 4 != 0 or padding > 2 or _BASE64.fullmatch(body) is None:
        return False
    return padding == 0 or body[-1:] in ("AQgw" if padding == 2 else "AEIMQUYcgkosw048")


def _text(name: str, value: object) -> str:
    if not isinstance(value, str):
        raise FieldError(f"{name} is no text")
    if not value.isascii() and _HALF_PAIR.search(value):
        raise NotJsonError(f"{name} has half a surrogate pair")
    return value


def _sized(name: str, value: str, most: int) -> None:
    size = len(value.encode())
    if not 1 <= size <= most:
        raise LimitError(f"{name} has {size} bytes, 1 to {most} are allowed")


def _printable(most: int) -> Callable[[str, object], None]:
    def check(name: str, value: object) -> None:
        text = _text(name, value)
        if _PRINTABLE.fullmatch(text) is None:
            raise FieldError(f"{name} has a byte outside 0x21 to 0x7e")
        _sized(name, text, most)

    return check


def _whole(name: str, value: object, most: int = 2**64 - 1) -> None:
    if not isinstance(value, int) or isinstance(value, bool) or not 0 <= value < 2**64:
        raise FieldError(f"{name} is no whole number")
    if value > most:
        raise LimitError(f"{name} is {value}, at most {most} is allowed")


def _room(name: str, value: object) -> None:
    _sized(name, _text(name, value), ROOM)


def _nsp(name: str, value: object) -> None:
    text = _text(name, value)
    if not text.startswith("/") or "," in text:
        raise FieldError(f"{name} has to begin with / and hold no comma")
    _sized(name, text, NSP)


def _base64(name: str, value: object) -> None:
    if not isinstance(value, str) or not is_base64(value):
        raise FieldError(f"{name} is no base64")


def _list(most: int, check: Callable[[str, object], None]) -> Callable[[str, object], None]:
    def checked_list(name: str, value: object) -> None:
        if not isinstance(value, (list, tuple)):
            raise FieldError(f"{name} is no list")
        for item in value:
            check(f"an item of {name}", item)
        if len(value) > most:
            raise LimitError(f"{name} has {len(value)} items, at most {most} are allowed")

    return checked_list


_id = _printable(ID)
_off = _printable(OFF)


def _off_or_null(name: str, value: object) -> None:
    if value is not None:
        _off(name, value)


def _string(name: str, value: object) -> None:
    _text(name, value)


def _turn(name: str, value: object) -> None:
    _whole(name, value, TURN)


_Checks = Mapping[str, Callable[[str, object], None]]
_OPTIONAL: Final = frozenset(("rooms", "except", "bin"))

KINDS: Final[Mapping[str, Mapping[str, _Checks]]] = {
    "stream": {
        "ev": {
            "off": _off,
            "nsp": _nsp,
            "rooms": _list(ROOMS, _room),
            "except": _list(ROOMS, _room),
            "text": _string,
            "bin": _list(ATTACHMENTS, _base64),
        },
        "other": {"off": _off},
    },
    "node": {
        "start": {"off": _off_or_null},
        "take": {"off": _off},
        "takes": {"off": _off},
        "open": {"pid": _id, "sid": _id, "nsp": _nsp},
        "join": {"pid": _id, "room": _room},
        "leave": {"pid": _id, "room": _room},
        "break": {"pid": _id, "turn": _turn},
        "back": {"pid": _id, "turn": _turn},
        "gone": {"pid": _id},
    },
    "client": {
        "conn": {"c": _whole},
        "in": {"t": _string},
        "inb": {"b": _base64},
        "poll": {"t": _string},
        "out": {"t": _string},
        "lost": {},
    },
}


def checked(of: str, version: int, record: Record) -> dict[str, Any]:
    """The record as it is written: its known fields in their order, empty lists left out."""
    kind = record.get("k")
    fields = KINDS[of].get(kind) if isinstance(kind, str) else None
    if fields is None or (kind == "takes" and version < 2):
        raise UnknownKindError(f"{kind!r} is no kind of a {of}'s tap in version {version}")
    made: dict[str, Any] = {"k": kind}
    for name, check in fields.items():
        if name not in record:
            if name in _OPTIONAL:
                continue
            raise FieldError(f"{name} is missing")
        value = record[name]
        check(name, value)
        if name in _OPTIONAL and not value:
            continue
        made[name] = value
    return made


def _constant(name: str) -> None:
    raise ValueError(f"{name} is no JSON")


def _float(token: str) -> float:
    number = float(token)
    if not math.isfinite(number):
        raise ValueError(f"no 64-bit float holds {token[:20]}")
    return number


def _int(token: str) -> int | float:
    # a whole number has no sign
    return int(token) if len(token) < 300 and token[0] != "-" else _float(token)


_decoder = json.JSONDecoder(parse_constant=_constant, parse_float=_float, parse_int=_int)


def _depth(value: Any) -> int:
    inner = value.values() if isinstance(value, dict) else value if isinstance(value, list) else None
    return 0 if inner is None else 1 + max(map(_depth, inner), default=0)


def read_line(line: bytes) -> tuple[str, dict[str, Any]]:
    """A tap's name and a record, of a line without its newline; raises a TapError where the auditor would refuse it."""
    line = line.removesuffix(b"\r")
    if len(line) > LINE:
        raise LineTooLongError(f"a line has at most {LINE} bytes")
    front, blank, rest = line.partition(b" ")
    try:
        name = check_name(front.decode("ascii", "replace") if blank else None)
    except TapNameError as error:
        raise TapError("a line begins with its tap's name and a blank", code="NoTapName") from error
    try:
        record = _decoder.decode(rest.decode())
        if b"\\u" in rest:
            json.dumps(record, ensure_ascii=False).encode()  # half a surrogate pair
        if rest.count(b"[") + rest.count(b"{") > NESTED and _depth(record) > NESTED:
            raise ValueError(f"nested past {NESTED}")
    except (ValueError, RecursionError) as error:
        raise NotJsonError(f"what follows the name is no JSON: {error}") from error
    if not isinstance(record, dict) or not isinstance(record.get("k"), str):
        raise FieldError("the JSON text is no object with a k")
    return name, record


def read_header(record: Record) -> tuple[Kind, int]:
    """What a tap is of, and its version, by its first record; raises a TapError where the auditor would refuse it."""
    if record.get("k") != "tap":
        raise HeaderError("the first line is no header", code="NoHeader")
    version, of = record.get("v"), record.get("of")
    if not isinstance(version, int) or isinstance(version, bool) or not isinstance(of, str):
        raise FieldError("a header has v, a whole number, and of, a text")
    if version not in (1, 2):
        raise FieldError(f"version {version} is neither 1 nor 2", code="Version")
    if of not in KINDS:
        raise UnknownKindError(f"a tap is of a stream, node or client, not {of}")
    return of, version  # type: ignore[return-value]

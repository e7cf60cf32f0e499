"""The inputs of worked examples that are too large to keep as files, by the example's name: `tests/answers --input cases/NAME`
writes one."""

from __future__ import annotations

from typing import Callable, Iterable, Iterator

LONGEST_LINE = 4_194_304
STREAM = 'st {"k":"tap","v":1,"of":"stream"}'
NODE = ['a {"k":"tap","v":1,"of":"node"}', 'a {"k":"start","off":null}', 'a {"k":"open","pid":"P","sid":"s1","nsp":"/"}']


def header_of(length: int, end: str = "\n") -> bytes:
    """The header of a stream, with blanks up to this length."""
    return (STREAM.ljust(length) + end).encode()


def too_long_after(lines: str) -> bytes:
    """A line that begins as a certificate and is too long, after others."""
    return (lines + "{".ljust(LONGEST_LINE + 1)).encode()


def client(tap: str, pid: str, sid: str) -> list[str]:
    """A client's tap up to the reply that names its session."""
    reply = f'40{{\\"sid\\":\\"{sid}\\",\\"pid\\":\\"{pid}\\"}}'
    return [f'{tap} {{"k":"tap","v":1,"of":"client"}}', f'{tap} {{"k":"conn","c":1}}', f'{tap} {{"k":"in","t":"{reply}"}}']


def event(number: int) -> str:
    return f'2[\\"hi\\",\\"{number}-0\\"]'


def many_entries() -> Iterator[str]:
    """A session that gets nine thousand events."""
    numbers = range(1, 9_001)
    yield STREAM
    yield from (f'st {{"k":"ev","off":"{it}-0","nsp":"/","rooms":["r"],"text":"{event(it)}"}}' for it in numbers)
    yield from NODE
    yield 'a {"k":"join","pid":"P","room":"r"}'
    yield from (f'a {{"k":"take","off":"{it}-0"}}' for it in numbers)
    yield from client("c1", "P", "s1")
    yield from (f'c1 {{"k":"in","t":"4{event(it)}"}}' for it in numbers)


def idle_sessions() -> Iterator[str]:
    """Two sessions, one of them excepted from the only event, and three thousand more that no client names."""
    yield STREAM
    yield f'st {{"k":"ev","off":"1-0","nsp":"/","rooms":[],"except":["s1"],"text":"{event(1)}"}}'
    yield from NODE
    yield 'a {"k":"open","pid":"Q","sid":"s2","nsp":"/"}'
    yield 'a {"k":"take","off":"1-0"}'
    yield from (f'a {{"k":"open","pid":"X{it}","sid":"x{it}","nsp":"/"}}' for it in range(3_000))
    yield from client("c1", "P", "s1")
    yield from client("c2", "Q", "s2")
    yield f'c2 {{"k":"in","t":"4{event(1)}"}}'


def certified_sessions() -> Iterator[str]:
    """The same, and certificates of the two."""
    yield from idle_sessions()
    yield '{"client":"c1","pid":"P","spans":[["s1",1,1]],"turns":[["a",1,3004,0,1]]}'
    yield '{"client":"c2","pid":"Q","spans":[["s2",1,1]],"turns":[["a",2,3004,0,1]]}'


def opened(*more: str) -> Iterator[str]:
    """A session on a node, and what its log has then."""
    yield STREAM
    yield from NODE
    yield from more


def events(count: int) -> Iterator[str]:
    """A client to which so many things happen: the reply, and then events, of which no two follow one another in the stream."""
    numbers = range(1, 2 * count - 1)
    yield STREAM
    for it in numbers:
        rooms = "[]" if it % 2 else '["q"]'
        yield f'st {{"k":"ev","off":"{it}-0","nsp":"/","rooms":{rooms},"text":"{event(it)}"}}'
    yield from NODE
    yield from (f'a {{"k":"take","off":"{it}-0"}}' for it in numbers)
    yield from client("c1", "P", "s1")
    yield from (f'c1 {{"k":"in","t":"4{event(it)}"}}' for it in numbers if it % 2)


def turns(count: int) -> Iterator[str]:
    """What a node's log has of so many turns of a session, after its `open`."""
    for it in range(1, count):
        yield f'a {{"k":"break","pid":"P","turn":{it - 1}}}'
        yield f'a {{"k":"back","pid":"P","turn":{it}}}'


def back_twice() -> Iterator[str]:
    """A session of 150 turns that is taken back twice as turn 75: the 151st and the 152nd of the 300 records that are told of it."""
    log = list(turns(150))
    yield from opened(*log[:150], log[149], *log[150:])


def missed_entries() -> Iterator[str]:
    """A client whose recovery is refused, and that missed a thousand entries."""
    numbers = range(1, 1_002)
    yield STREAM
    yield from (f'st {{"k":"ev","off":"{it}-0","nsp":"/","text":"{event(it)}"}}' for it in numbers)
    yield from NODE
    yield 'a {"k":"take","off":"1-0"}'
    yield 'a {"k":"break","pid":"P","turn":0}'
    yield 'b {"k":"tap","v":1,"of":"node"}'
    yield 'b {"k":"start","off":"1001-0"}'
    yield 'b {"k":"open","pid":"Q","sid":"s2","nsp":"/"}'
    yield from client("c1", "P", "s1")
    yield f'c1 {{"k":"in","t":"4{event(1)}"}}'
    yield 'c1 {"k":"lost"}'
    yield 'c1 {"k":"conn","c":2}'
    yield 'c1 {"k":"out","t":"40{\\"pid\\":\\"P\\",\\"offset\\":\\"1-0\\"}"}'
    yield 'c1 {"k":"in","t":"40{\\"sid\\":\\"s2\\",\\"pid\\":\\"Q\\"}"}'


def named_by_taps() -> Iterator[str]:
    """A session that the taps of three hundred clients name."""
    yield from opened()
    for it in range(1, 301):
        yield from client(f"c{it}", "P", "s1")


def refused_lines() -> Iterator[str]:
    """More lines than are read at a time, two of which are no JSON."""
    yield NODE[0]
    yield from ("a {" if it in (30_000, 39_000) else f'a {{"k":"take","off":"{it % 700}"}}' for it in range(2, 40_001))


def text_of(lines: Iterable[str]) -> bytes:
    return "".join(f"{it}\n" for it in lines).encode()


MAKERS: dict[str, Callable[[], bytes]] = {
    "certificate_too_long": lambda: too_long_after(""),
    **{f"explain_{form}{it}_events": lambda it=it: text_of(events(it)) for it in (200, 201, 1_000) for form in ("", "json_")},
    **{f"explain_{form}201_turns": lambda: text_of([*opened(*turns(201)), *client("c1", "P", "s1")]) for form in ("", "json_")},
    **{f"explain_{form}missed_a_thousand": lambda: text_of(missed_entries()) for form in ("", "json_")},
    "explain_300_rows_of_a_chain": lambda: text_of(back_twice()),
    "explain_300_rows_of_clients": lambda: text_of(named_by_taps()),
    "line_too_long": lambda: header_of(LONGEST_LINE + 1),
    "line_too_long_without_an_end": lambda: header_of(LONGEST_LINE + 1, ""),
    "longest_line": lambda: header_of(LONGEST_LINE),
    "longest_line_without_an_end": lambda: header_of(LONGEST_LINE, ""),
    "nine_thousand_entries": lambda: text_of(many_entries()),
    "nine_thousand_entries_prove": lambda: text_of(many_entries()),
    "refused_line_of_many": lambda: text_of(refused_lines()),
    "three_thousand_idle_sessions_prove": lambda: text_of(idle_sessions()),
    "three_thousand_idle_sessions_verify": lambda: text_of(certified_sessions()),
    "version_3_before_a_line_too_long": lambda: too_long_after(STREAM.replace('"v":1', '"v":3') + "\n"),
}

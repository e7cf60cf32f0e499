"""Cases of tests/parts: sizes and limits of parts, what they have of a node's takes, what `split` and `merge` refuse, and output that fails."""

from __future__ import annotations

import os
import random
import re
import resource
import shutil
import signal
import subprocess
from pathlib import Path

from harness import TOP, program
from splitting import SECONDS, Done, Work, case, is_refused, is_report, lines_in, lines_of, named_files, need, reports_on, run, shown, split, written

EXAMPLE = TOP / "examples/bundle_b.jsonl"
NOBODY = 65534


# ---- sizes and limits


@case
def equal_clients(folder: Path) -> None:
    """Of many equal clients the parts are of about one size."""
    words = [TOP / "tools/make-bundle", "--entries", "300", "--clients", "120", "--payload", "200"]
    bundle = written([subprocess.run(words, stdout=subprocess.PIPE, check=True).stdout], folder)
    for count in (2, 4, 7):
        sizes = [it.stat().st_size for it in split(bundle, folder / str(count), "--parts", count)]
        need(len(sizes) == count and max(sizes) <= 1.2 * min(sizes), f"{count} parts of {sizes} bytes")


@case
def smaller_parts(folder: Path) -> None:
    """No part has more bytes than it may, and there are more parts where they may have fewer, as long as there are sessions to part."""
    bundle = written([run("simulate", "--clients", 24, "--acts", 1200).stdout], folder)
    least = max(it.stat().st_size for it in split(bundle, folder / "clients", "--parts", 99))
    counts = []
    for text, most in (("1G", 2**30), ("1M", 2**20), (str(2 * least), 2 * least), (str(least), least)):
        sizes = [it.stat().st_size for it in split(bundle, folder / text, "--bytes", text)]
        need(max(sizes) <= most, f"parts of {sizes} bytes, with {text}")
        counts.append(len(sizes))
    need(counts[0] == 1 and counts == sorted(counts) and counts[-1] > 1, f"{counts} parts")
    is_refused(run("split", "--bytes", least - 1, "--into", folder / "less", *bundle.files), 4, "can't be parted", str(least))


@case
def no_session(folder: Path) -> None:
    for text in (b"", b'st {"k":"tap","v":1,"of":"stream"}\nst {"k":"other","off":"1-0"}\n'):
        bundle, into = written([text], folder), folder / str(len(text))
        parts = split(bundle, into, "--parts", 3)
        need(len(parts) == 1, f"{parts}")
        is_report(run("merge", into, *reports_on(parts)), bundle.report)


def node(name: str) -> str:
    return f'{name} {{"k":"tap","v":1,"of":"node"}}\n{name} {{"k":"start","off":null}}\n'


def session(number: int, node: str) -> str:
    """A session on a node, and its client."""
    reply = f'40{{\\"sid\\":\\"s{number}\\",\\"pid\\":\\"p{number}\\"}}'
    return (
        f'{node} {{"k":"open","pid":"p{number}","sid":"s{number}","nsp":"/"}}\nc{number} {{"k":"tap","v":1,"of":"client"}}\n'
        f'c{number} {{"k":"conn","c":1}}\nc{number} {{"k":"in","t":"{reply}"}}\n'
    )


def past_a_limit(folder: Path, text: str, count: int, limit: int) -> None:
    """Needs so many sessions, who have more of something than a bundle may, to find room in two parts, and not in one."""
    file, into = folder / "large.jsonl", folder / "two"
    file.write_text(text)
    is_refused(run("split", "--parts", 1, "--into", folder / "one", file), 4, f"at most {limit:,}", "More parts")
    need(not (folder / "one/sessions").exists(), "sessions after a failure")
    done = run("split", "--parts", 2, "--into", into, file)
    need(done.returncode == 0 and done.stdout.endswith(b"\nparts=2 sessions=%d\n" % count), shown(done))
    rows = "".join(f"yes p{it} got=0 tail=0 turns=1\n" for it in range(count))
    done = run("merge", into, *reports_on(sorted(into.glob("*.jsonl"))))
    need((done.returncode, done.stdout.decode()) == (0, f"{rows}sessions={count} yes={count} no=0\n"), shown(done))


@case
def more_clients_than_a_bundle_may_have(folder: Path) -> None:
    past_a_limit(folder, node("a") + "".join(session(it, "a") for it in range(4100)), 4100, 4096)


def sessions(first: int, count: int, node: str) -> str:
    """So many sessions on a node, one after the other, of one client."""
    name = f"c{first}"
    lines = [f'{name} {{"k":"tap","v":1,"of":"client"}}\n']
    for it in range(first, first + count):
        reply = f'40{{\\"sid\\":\\"s{it}\\",\\"pid\\":\\"p{it}\\"}}'
        lines.append(f'{node} {{"k":"open","pid":"p{it}","sid":"s{it}","nsp":"/"}}\n')
        lines.append(f'{name} {{"k":"conn","c":{it}}}\n{name} {{"k":"in","t":"{reply}"}}\n{name} {{"k":"lost"}}\n')
    return "".join(lines)


@case
def more_sessions_than_a_bundle_may_have(folder: Path) -> None:
    """They are on one node, so that its log has more sessions than a bundle may have."""
    past_a_limit(folder, node("a") + "".join(sessions(it, 50, "a") for it in range(0, 66_000, 50)), 66_000, 65_536)


@case
def more_nodes_than_a_bundle_may_have(folder: Path) -> None:
    past_a_limit(folder, "".join(node(f"n{it}") + session(it, f"n{it}") for it in range(70)), 70, 64)


@case
def a_session_on_more_nodes_than_a_part_may_have(folder: Path) -> None:
    file = folder / "large.jsonl"
    file.write_text("".join(node(f"n{it}") + f'n{it} {{"k":"gone","pid":"P"}}\n' for it in range(65)))
    is_refused(run("split", "--parts", 9, "--into", folder / "parts", file), 4, "session P", "at most 64")


# ---- what a node took

OTHER = 'a {"k":"join","pid":"p2","room":"r"}\n'  # a record of another session

# what a node took, such a record between each two, and what a part without these has of it
TAKEN = (
    ("takes 3-0 | takes 5-0", "takes 5-0"),
    ("take 1-0 | takes 3-0 | take 4-0", "takes 4-0"),
    ("take 1-0 | take 2-0", "takes 2-0"),
    ("take 1-0", "take 1-0"),
    ("takes 3-0", "takes 3-0"),
    ("takes 2-0 | takes 3-0 | takes 2-0 | take 4-0 | takes 5-0", "takes 3-0 | takes 2-0 | takes 5-0"),
    ("takes 3-0 | takes 9-0 | takes 5-0", "takes 3-0 | takes 9-0 | takes 5-0"),
    ("take 1-0 | take 3-0 | take 2-0", "take 1-0 | take 3-0 | take 2-0"),
)


def took(records: str, between: str = "") -> str:
    return between.join('a {"k":"%s","off":"%s"}\n' % tuple(it.split()) for it in records.split(" | "))


@case
def takes_between_which_nothing_is_left(folder: Path) -> None:
    """What a node took in order is one record, where the part has no record between; what it took out of order stays."""
    stream = 'st {"k":"tap","v":1,"of":"stream"}\n' + "".join(f'st {{"k":"other","off":"{it}-0"}}\n' for it in range(1, 6))
    begun = 'a {"k":"tap","of":"node","v":2}\na {"k":"start","off":null}\n'
    for number, (before, after) in enumerate(TAKEN):
        own = folder / str(number)
        own.mkdir()
        bundle = written([(stream + begun + session(1, "a") + session(2, "a") + took(before, OTHER)).encode()], own)
        parts = split(bundle, own / "parts", "--parts", 2)
        for pid, sid, rest in (("p1", "s1", took(after)), ("p2", "s2", took(before, OTHER))):
            (text,) = (it for it in (it.read_text() for it in parts) if f'"pid":"{pid}"' in it)
            log = "".join(it for it in text.splitlines(keepends=True) if it.startswith("a "))
            need(log == f'{begun}a {{"k":"open","nsp":"/","pid":"{pid}","sid":"{sid}"}}\n{rest}', f"{before}: {log}")
        is_report(run("merge", own / "parts", *reports_on(parts)), bundle.report)


# ---- what `merge` refuses


def is_named(work: Work, reports: list[Path], *words: str) -> None:
    """Needs a merge of these reports to be refused, in lines that each have one of these words, all of which stand there."""
    done = run("merge", work.into, *reports)
    is_refused(done, 2, *words)
    lines = done.stderr.decode().splitlines()
    need(all(it.startswith("error: ") and any(word in it for word in words) for it in lines), shown(done))


def in_its_place(work: Work, number: int, text: bytes) -> list[Path]:
    """The reports, with another one of this text in place of one of them."""
    other = work.into / "other.report"
    other.write_bytes(text)
    reports = work.reports()
    return [*reports[:number], other, *reports[number + 1 :]]


@case
def reports_in_another_order(folder: Path) -> None:
    work = Work.of(folder)
    reports = reports_on(work.parts)
    for its in (reports[::-1], [*reports[2:], *reports[:2]]):
        is_report(run("merge", work.into, *its), work.bundle.report)


@case
def reports_that_are_missing(folder: Path) -> None:
    work = Work.of(folder)
    reports = reports_on(work.parts)
    is_named(work, [reports[0], *reports[2:]], "no report of part-0002.jsonl")
    is_named(work, reports[1:3], "no report of part-0001.jsonl", "no report of part-0004.jsonl")


@case
def reports_that_are_doubled(folder: Path) -> None:
    work = Work.of(folder)
    reports = reports_on(work.parts)
    is_named(work, [*reports, reports[2]], str(reports[2]))
    is_named(work, in_its_place(work, 0, reports[1].read_bytes()), str(reports[1]), "no report of part-0001.jsonl")


@case
def reports_that_are_cut_short(folder: Path) -> None:
    work = Work.of(folder)
    text = reports_on(work.parts)[1].read_bytes()
    lines = text.splitlines(keepends=True)
    for it in (b"", text[:-1], text[: len(text) // 2], b"".join(lines[:-1]), b"".join(lines[1:]), lines[0], lines[-1]):
        is_named(work, in_its_place(work, 1, it), "other.report", "no report of part-0002.jsonl")


@case
def reports_that_are_none(folder: Path) -> None:
    """Reports that are refused, are of other sessions, or have other counts than lines."""
    work = Work.of(folder)
    text = reports_on(work.parts)[1].read_bytes()
    last = text.splitlines()[-1]
    for it in (
        b"line 3: NotJson\n", b"no report\n", text + text, text.replace(b"\n", b"\r\n"), text.replace(b" p", b" q", 1), b"\xff" + text,
        text.replace(b"yes ", b"maybe ", 1), text.replace(last, last + b"0"), work.bundle.report.stdout, run("prove", *work.bundle.files).stdout,
    ):
        is_named(work, in_its_place(work, 1, it), "other.report", "no report of part-0002.jsonl")


@case
def reports_of_another_split(folder: Path) -> None:
    work = Work.of(folder)
    pids = [re.findall(rb"^\w+ (\S+)", it.read_bytes(), re.M) for it in reports_on(work.parts)]
    others = reports_on(split(work.bundle, folder / "three", "--parts", 3))
    strange = [it for it in others if re.findall(rb"^\w+ (\S+)", it.read_bytes(), re.M) not in pids]
    need(bool(strange), "three parts are among four")
    is_named(work, [*work.reports(), *strange], *map(str, strange))


@case
def all_that_is_wrong_is_told(folder: Path) -> None:
    work = Work.of(folder)
    reports = reports_on(work.parts)
    reports[3].write_bytes(b"line 1: NoTapName\n")
    words = ("other.report", "part-0004.jsonl.report", "part-0003.jsonl.report", "of part-0001.jsonl", "of part-0002.jsonl", "of part-0004.jsonl")
    is_named(work, [in_its_place(work, 0, b"")[0], reports[3], reports[2], reports[2]], *words)


@case
def sessions_that_are_none(folder: Path) -> None:
    """Without `sessions` as it was written nothing is merged."""
    work = Work.of(folder)
    reports, listing = reports_on(work.parts), work.into / "sessions"
    text = listing.read_bytes()
    lines = text.splitlines(keepends=True)
    for it in (
        b"", b"none\n", text[:-1], b"".join(lines[:-1]), text + lines[-1], text + b"\n", text.replace(b"parts=4", b"parts=3"),
        text.replace(b"\n1 ", b"\n5 ", 1), text.replace(b"\n1 ", b"\n0 ", 1), text.replace(b"\n1 ", b"\nx ", 1), text.replace(b"\n1 ", b"\n1", 1),
    ):
        listing.write_bytes(it)
        is_refused(run("merge", work.into, *reports), 2, "error: ")
    listing.unlink()
    is_refused(run("merge", work.into, *reports), 3, "sioaudit: read: ")


@case
def bytes_that_are_damaged(folder: Path) -> None:
    """Whatever byte of a report or of `sessions` is another one: what is merged has the sessions of the whole, or nothing is."""
    work, rng = Work.of(folder), random.Random(1)
    files = [*reports_on(work.parts), work.into / "sessions"]
    texts, pids = {it: it.read_bytes() for it in files}, sorted(work.bundle.pids())
    for _ in range(150):
        file = rng.choice(files)
        text, at = bytearray(texts[file]), rng.randrange(len(texts[file]))
        text[at] = rng.choice(b"0129 \nyesnop=\x00\xff")
        file.write_bytes(text)
        done = run("merge", work.into, *files[:-1])
        rows = done.stdout.splitlines()
        if done.returncode in (0, 1):
            need(sorted(it.split()[1].decode() for it in rows[:-1]) == pids and rows[-1].startswith(b"sessions="), f"{bytes(text)!r}: {shown(done)}")
        else:
            is_refused(done, 2, "error: ")
        file.write_bytes(texts[file])


# ---- what `split` refuses


@case
def folders_that_have_sessions(folder: Path) -> None:
    work = Work.of(folder)
    before = {it: it.read_bytes() for it in work.into.iterdir()}
    is_refused(run("split", "--parts", 2, "--into", work.into, *work.bundle.files), 4, "error: ", str(work.into))
    need({it: it.read_bytes() for it in work.into.iterdir()} == before, "the folder has changed")


@case
def folders_that_have_lines(folder: Path) -> None:
    for name in ("part-0001.jsonl", "part-0007.lines"):
        into = folder / name
        into.mkdir()
        (into / name).write_bytes(b"")
        is_refused(run("split", "--parts", 2, "--into", into, EXAMPLE), 4, "error: ", str(into))
        need([it.name for it in into.iterdir()] == [name], "the folder has changed")


@case
def folders_that_are_there(folder: Path) -> None:
    """Other files in the folder are no matter."""
    work = Work.of(folder)
    for name in ("report", "sessions.old", "part-0001"):
        (folder / "used").mkdir(exist_ok=True)
        (folder / "used" / name).write_bytes(b"")
    done = run("split", "--parts", 4, "--into", folder / "used", *work.bundle.files)
    need(done.returncode == 0, shown(done))
    need([(folder / "used" / it.name).read_bytes() for it in work.parts] == [it.read_bytes() for it in work.parts], "other parts")


@case
def inputs_that_cannot_be_read_twice(folder: Path) -> None:
    into = folder / "parts"
    os.mkfifo(folder / "pipe")
    for files in ([], ["-"], [EXAMPLE, "-"], ["/dev/stdin"], [folder / "pipe"], [EXAMPLE, folder]):
        is_refused(run("split", "--parts", 2, "--into", into, *files, stdin=subprocess.PIPE, timeout=10), 4, "error: ")
    for files in ([folder / "none"], [EXAMPLE, folder / "none"]):
        is_refused(run("split", "--parts", 2, "--into", into, *files), 3, "sioaudit: read: ")
    need(not (into / "sessions").exists(), "sessions after a failure")


@case
def files_that_no_line_can_name(folder: Path) -> None:
    into, strange = folder / "parts", Path(shutil.copy(EXAMPLE, folder / "new\nline"))
    for files in ([strange], [EXAMPLE, strange]):
        is_refused(run("split", "--parts", 2, "--into", into, *files), 4, "error: ", "new\\x0aline: ", "newline")
    need(not (into / "sessions").exists(), "sessions after a failure")


@case
def arguments_that_are_refused(folder: Path) -> None:
    into = ["--into", folder / "parts"]
    for words in (
        [*into], ["--parts", 2], ["--parts", *into], ["--parts", 0, *into], ["--parts", "two", *into], ["--parts", 2, "--parts", 2, *into],
        ["--bytes", 0, *into], ["--bytes", "1.5M", *into], ["--bytes", "1T", *into], ["--bytes", "G", *into], ["--bytes", f"{2**40}G", *into],
        ["--parts", 2, "--bytes", 9, *into], ["--parts", 2, *into, *into], ["--parts", 2, "--whole", *into],
    ):
        is_refused(run("split", *words, EXAMPLE), 4, "error: ")
        need(not (folder / "parts").exists(), f"a folder after {words}")
    is_refused(run("merge"), 4, "error: ")


# ---- the lines of a part

# what stands in place of a file's line
NO_FILES = (
    b"file=", b"file=7", b"file= name", b"file=x name", b"file=-7 name", b"file=7x name", b"file=%d name" % 2**64, b"file=7 \xff",
    b"file 7 name", b"File=7 name", b" file=7 name",
)


def with_lines(work: Work, text: bytes) -> list[object]:
    """The words that explain the second part with this text of its lines."""
    file = work.into / "other.lines"
    file.write_bytes(text)
    return ["explain", "--lines", file, work.parts[1]]


@case
def lines_that_are_of_no_part(folder: Path) -> None:
    """What isn't of the form is refused by the line at fault; and what is of another part."""
    work = Work.of(folder)
    text = lines_of(work.parts[1]).read_bytes()
    first, second, *rest, file = lines = text.splitlines(keepends=True)
    front, last = b"".join(lines[:-1]), len(lines)
    for it, words in (
        (b"", "line 1: "), (b"\n", "line 1: "), (second, "line 1: "), (b"lines=1\n", "line 1: "), (text.replace(b"lines=", b"rows="), "line 1: "),
        (text.replace(b"bytes=", b"bytes=-"), "line 1: "), (first + b"0 1\n" + text[len(first) :], "line 2: "), (first + b"1 0\n", "line 2: "),
        (first + second + b"1\n" + b"".join(rest) + file, "line 3: "), (text + b"\n", f"line {last + 1}: "), (text.replace(b"\n", b"\r\n"), "line 1: "),
        (first + second.replace(b" ", b"  "), "line 2: "), (text[:-1], "fewer or more"), (first + b"%d 1\n" % 2**64, "line 2: "),
        (text + b"1 1\n", f"line {last + 1}: "),
        (front + b"1 1\n" + file, "fewer or more"), (first + second + b"".join(rest[:-1]) + file, "fewer or more"),
    ):
        is_refused(run(*with_lines(work, it)), 4, "error: ", "other.lines: ", words)
    for it in NO_FILES:
        is_refused(run(*with_lines(work, front + it + b"\n" + file)), 4, "error: ", "other.lines: ", f"line {last}: ")
        is_refused(run(*with_lines(work, text + it + b"\n")), 4, "error: ", "other.lines: ", f"line {last + 1}: ")
    for part in (work.parts[0], work.parts[2]):
        size = re.search(rb"lines=(\d+) bytes=(\d+)", lines_of(part).read_bytes())
        words = f"is of a part of {size[1].decode()} lines and {size[2].decode()} bytes"
        is_refused(run("explain", "--lines", lines_of(part), work.parts[1]), 4, "error: ", str(lines_of(part)), words)
    is_refused(run("explain", "--lines", work.into / "none", work.parts[1]), 3, "sioaudit: read: ", "none")
    is_refused(run("explain", "--lines", lines_of(work.parts[1]), "--lines", lines_of(work.parts[1]), work.parts[1]), 4, "--lines")


@case
def lines_beyond_those_that_are_kept(folder: Path) -> None:
    """A record of which the line is none of the first 4,294,967,294 is not shown, as in an input that has so many."""
    work = Work.of(folder)
    whole = re.findall(rb"^lines=\d+ bytes=\d+\n", lines_of(work.parts[1]).read_bytes())[0]
    count, files = int(re.search(rb"\d+", whole)[0]), "".join(f"{it}\n" for it in named_files(work.parts[1])).encode()
    for line in (2**32 - 1, 2**64 - 1):
        done = run(*with_lines(work, whole + b"%d %d\n" % (count, line) + files), "--json")
        need(done.returncode in (0, 1) and not re.search(rb'"line":\d', done.stdout), shown(done))


# files of a recording, each with its name as it is printed
PRINTED = {"one.jsonl": "one.jsonl", "two\\2": '"two\\\\2"', "three\x1b[2J\u202e": '"three\\x1b[2J\\u{202e}"', "\u200b": '"\\u{200b}"'}
ROW = re.compile(r" *(\d+) \S+ +.*  \((.*):(\d+)\)")


def rows_told(folder: Path, *words: object) -> set[str]:
    """The rows of records that `explain` writes."""
    done = run("explain", *words, cwd=folder)
    need(done.returncode in (0, 1), shown(done))
    return {it for it in done.stdout.decode().splitlines() if it[:8].strip().isdigit()}


@case
def lines_of_several_files(folder: Path) -> None:
    """Of a recording in several files, each row of a part names the file and the line there, as a row of the whole does."""
    lines = run("simulate", "--clients", 12, "--acts", 400, "--fault", "drop").stdout.splitlines(keepends=True)
    most = len(lines) // len(PRINTED) + 1
    places = [(name, number) for name in PRINTED.values() for number in range(1, most + 1)][: len(lines)]
    for number, name in enumerate(PRINTED):
        (folder / name).write_bytes(b"".join(lines[number * most : (number + 1) * most]))
    done = run("split", "--parts", 4, "--into", "parts", *PRINTED, cwd=folder)
    need(done.returncode == 0, shown(done))
    parts, whole = sorted(folder.glob("parts/*.jsonl")), rows_told(folder, *PRINTED)
    rows = {it: rows_told(folder, "--lines", lines_of(it), it) for it in parts}
    for part in parts:
        files = [f"file={len(lines_in(folder / it))} {it}" for it in PRINTED]
        need(named_files(part) == files, f"{part.name}: {named_files(part)}")
    for it in set.union(whole, *rows.values()):
        told = ROW.fullmatch(it)
        need(told is not None and places[int(told[1]) - 1] == (told[2], int(told[3])), f"{it!r}")
    # a `takes` of a part is no record of the whole
    told = {row for its in rows.values() for row in its if " takes up to " not in row}
    need(len(told) > 0 and told <= whole, f"{told - whole} of the parts, and of the whole {whole}")


@case
def what_lines_do_not_change(folder: Path) -> None:
    """The summary tells the size of what was read; a refused line of a part is named as the part's."""
    work = Work.of(folder)
    for part in work.parts:
        size = lines_of(part).read_text().split("\n")[0].replace("=", ": ").replace(" bytes", ", bytes")
        done = run("explain", "--lines", lines_of(part), part)
        need(f"\n{size}, seconds: ".encode() in done.stdout, shown(done))
    text = work.parts[1].read_bytes()
    work.parts[1].write_bytes(text + b"x\n")
    refused = run("explain", work.parts[1])
    done = run("explain", "--lines", lines_of(work.parts[1]), work.parts[1])
    need(refused.returncode == 2 and (done.returncode, done.stdout, done.stderr) == (2, refused.stdout, b""), shown(done))


# ---- output and memory that fail


def is_failed(done: Done, into: Path) -> None:
    """Needs it to have failed, and to have left nothing."""
    need(done.returncode == 3 and re.match(rb"sioaudit: (read: .|write: .|memory$)", done.stderr) is not None, shown(done))
    need(not into.is_dir() or not list(into.iterdir()), f"files are left: {into.is_dir() and list(into.iterdir())}")


def limited(what: int, most: int) -> dict[str, object]:
    """How a program is run that may have so much of a resource."""

    def limit() -> None:
        signal.signal(signal.SIGXFSZ, signal.SIG_IGN)
        resource.setrlimit(what, (most, most))

    return {"restore_signals": False, "preexec_fn": limit}


@case
def files_that_may_not_grow(folder: Path) -> None:
    work = Work.of(folder)
    sizes = [it.stat().st_size for it in work.parts]
    for most in (0, 1, min(sizes) - 1, max(sizes) - 1):
        into = folder / str(most)
        is_failed(run("split", "--parts", 4, "--into", into, *work.bundle.files, **limited(resource.RLIMIT_FSIZE, most)), into)
    done = run("split", "--parts", 4, "--into", folder / "enough", *work.bundle.files, **limited(resource.RLIMIT_FSIZE, max(sizes)))
    need(done.returncode == 0, shown(done))


@case
def little_memory(folder: Path) -> None:
    """With each size of memory that is too small for the work, but not to start, nothing is left. A merge of so few lines may have room wherever it starts."""
    work, into = Work.of(folder), folder / "less"
    for words in (["merge", work.into, *reports_on(work.parts)], ["split", "--parts", 4, "--into", into, *work.bundle.files]):
        most, failed, done = 1 << 20, 0, None
        while done is None or done.returncode not in (0, 1):
            done = run(*words, **limited(resource.RLIMIT_AS, most))
            if done.stderr.startswith(b"sioaudit: "):
                is_failed(done, into)
                need(not done.stdout, shown(done))
                failed += 1
            most += most // 32
            need(most < 1 << 31, f"status {done.returncode} with 2 GB: {done.stderr!r}")
        need(failed > 0 or words[0] == "merge", f"{words[0]}: no size was too small")


@case
def a_full_disk(folder: Path) -> None:
    work = Work.of(folder)
    with open("/dev/full", "wb") as full:
        is_failed(run("split", "--parts", 4, "--into", folder / "full", *work.bundle.files, stdout=full), folder / "full")
        is_failed(run("merge", work.into, *reports_on(work.parts), stdout=full), folder / "none")


@case
def folders_that_cannot_be_made(folder: Path) -> None:
    (folder / "file").write_bytes(b"")
    for into in (folder / "none/parts", folder / "file/parts", folder / "file", Path("/proc/parts")):
        is_failed(run("split", "--parts", 4, "--into", into, EXAMPLE), into)


@case
def folders_that_cannot_be_written(folder: Path) -> None:
    who = {"user": NOBODY, "group": NOBODY, "extra_groups": []} if os.geteuid() == 0 else {}
    folder.chmod(0o755)
    (folder / "parts").mkdir(0o555)
    path, bundle = folder / "sioaudit", shutil.copy(EXAMPLE, folder)
    # By a process of its own: what this one has open to write, a process that another thread begins may have open still.
    subprocess.run(["cp", program(), path], check=True)
    words = [path, "split", "--parts", "2", "--into", folder / "parts", bundle]
    is_failed(subprocess.run(words, stdin=subprocess.DEVNULL, capture_output=True, timeout=SECONDS, **who), folder / "parts")

"""What the cases of tests/parts share: a bundle in files, its parts, and the reports on them; each is held against what is told of it. The
lines that a part's lines come from have to be lines of the same taps, in their order, that say the same."""

from __future__ import annotations

import functools
import itertools
import json
import re
import subprocess
import sys
from collections import Counter
from dataclasses import dataclass
from pathlib import Path
from typing import Callable, Optional

from harness import difference, program

SECONDS = 60
CLIENT = re.compile(rb'^\S+ \{"k":"tap","of":"client"', re.M)

sys.set_int_max_str_digits(0)
Done = subprocess.CompletedProcess  # of bytes
Case = Callable[[Path], None]
Place = tuple[Optional[str], Optional[int]]  # the name of a file, and the number of a line there
CASES: list[Case] = []


class Wrong(Exception):
    pass


class Skipped(Exception):
    pass


def case(function: Case) -> Case:
    """Adds a case of tests/parts; it has a folder of its own."""
    CASES.append(function)
    return function


def need(holds: bool, what: str) -> None:
    if not holds:
        raise Wrong(what[:2000])


def run(*words: object, **more: object) -> Done:
    """Runs the program."""
    how = {"stdin": subprocess.DEVNULL, "stdout": subprocess.PIPE, "stderr": subprocess.PIPE, "timeout": SECONDS, **more}
    return subprocess.run([program(), *map(str, words)], **how)


def shown(done: Done) -> str:
    """A run, in short."""
    return f"{' '.join(map(str, done.args[1:]))}: status {done.returncode}: {done.stdout and done.stdout[-500:]!r} {done.stderr[-500:]!r}"


@dataclass(frozen=True)
class Bundle:
    """The files of a bundle, and the reports on it, without --whole and with it."""

    files: list[Path]
    report: Done
    whole: Done

    def pids(self) -> list[str]:
        return [it.split()[1] for it in self.report.stdout.decode().splitlines()[:-1]]

    def lines(self) -> list[bytes]:
        """The lines of all files, one after the other."""
        return [line.removesuffix(b"\r") for file in self.files for line in lines_in(file)]

    @functools.cached_property
    def counts(self) -> list[int]:
        """How many lines each file has."""
        return [len(lines_in(it)) for it in self.files]

    def place(self, line: int) -> Place:
        """The file in which a line of all files stands, and its number there; nothing where there is one file."""
        if len(self.files) > 1:
            for file, count in zip(self.files, self.counts):
                if line <= count:
                    return str(file), line
                line -= count
        return None, None


def lines_in(file: Path) -> list[bytes]:
    """The lines of a file; what comes after the last newline is one too."""
    lines = file.read_bytes().split(b"\n")
    return lines if lines[-1] else lines[:-1]


def written(texts: list[bytes], folder: Path) -> Bundle:
    files = [folder / f"{number}.jsonl" for number in range(len(texts))]
    for file, text in zip(files, texts):
        file.write_bytes(text)
    return Bundle(files, run("audit", "--workers", 1, *files), run("audit", "--workers", 1, "--whole", *files))


def lines_of(part: Path) -> Path:
    """The file beside a part that says from which lines its lines come."""
    return part.with_suffix(".lines")


def named_files(part: Path) -> list[str]:
    """The lines of a part's file that are of the files of the whole: they stand after all others."""
    rows = lines_of(part).read_text().splitlines()
    return list(itertools.dropwhile(lambda it: not it.startswith("file="), rows))


def named_lines(part: Path) -> list[int]:
    """The line that each line of a part comes from."""
    first, *rows = lines_of(part).read_text().splitlines()
    need(first == f"lines={len(lines_in(part))} bytes={part.stat().st_size}", f"{lines_of(part)} begins with {first}")
    rows = rows[: len(rows) - len(named_files(part))]
    runs = [(int(count), int(line)) for count, line in (it.split(" ") for it in rows)]
    need(all(count > 0 and line > 0 for count, line in runs), f"runs {runs}")
    need(all(line + count != after for (count, line), (_, after) in itertools.pairwise(runs)), f"runs that go on each other: {runs}")
    return [line + it for count, line in runs for it in range(count)]


def come_from(record: dict[str, object], other: dict[str, object]) -> bool:
    """Whether a part may have made the first record, of the stream or of a node, of the other one: of an entry it may keep the offset alone, and
    of what a node took up to where."""
    kinds = {"tap": "tap of", "ev": "ev other off", "other": "ev other off", "take": "take takes off", "takes": "take takes off"}
    if record["k"] in kinds:
        *alike, key = kinds[record["k"]].split()
        return other["k"] in alike and record[key] == other[key]
    return all(record[it] == other.get(it) for it in record)


def are_named(part: Path, whole: list[bytes]) -> None:
    """Needs each line of a part to come from a line of the whole, of the same tap and after those before it there, that says the same."""
    lines, numbers, last, clients = lines_in(part), named_lines(part), {}, set()
    need(len(numbers) == len(lines), f"{len(numbers)} lines are named, of {len(lines)}")
    for line, number in zip(lines, numbers):
        (name, text), other = line.split(b" ", 1), whole[number - 1]
        need(other.startswith(name + b" ") and last.get(name, 0) < number, f"{part.name}: {line!r} is no line {number}, {other!r}")
        if name not in last and json.loads(text)["of"] == "client":
            clients.add(name)
        elif name in clients:
            need(line == other, f"{part.name}: {line!r} is line {number}, {other!r}")
        else:
            need(come_from(json.loads(text), json.loads(other.split(b" ", 1)[1])), f"{part.name}: {line!r} is line {number}, {other!r}")
        last[name] = number


def split(bundle: Bundle, into: Path, *layout: object) -> list[Path]:
    """The parts of a bundle. What is told of them, and what stands in `sessions`, has to be so."""
    done = run("split", *layout, "--into", into, *bundle.files)
    need(done.returncode == 0 and not done.stderr, shown(done))
    *rows, total = done.stdout.decode().splitlines()
    first, *listed = (into / "sessions").read_text().splitlines()
    parts, pids = [into / f"part-{it:04}.jsonl" for it in range(1, len(rows) + 1)], bundle.pids()
    files = [*parts, *map(lines_of, parts), into / "sessions"]
    need(sorted(into.iterdir()) == sorted(files), f"there are {sorted(into.iterdir())}")
    need(first == total == f"parts={len(parts)} sessions={len(pids)}", f"{first}, {total}")
    need([it.split(" ", 1)[1] for it in listed] == pids, "sessions in another order than in the report")
    counts = Counter(it.split(" ", 1)[0] for it in listed)
    for number, (part, row) in enumerate(zip(parts, rows), 1):
        data = part.read_bytes()
        facts = f"{part.name} sessions={counts.pop(str(number), 0)} clients={len(CLIENT.findall(data))} bytes={len(data)}"
        need(row == facts, f"told {row}, and there is {facts}")
    need(not counts, f"sessions of parts {list(counts)}")
    whole, files = bundle.lines(), [f"file={count} {name}" for name, count in zip(bundle.files, bundle.counts)]
    for part in parts:
        are_named(part, whole)
        need(named_files(part) == files, f"{lines_of(part)} names {named_files(part)}")
    return parts


def report_of(part: Path) -> Path:
    """Where the report on a part belongs."""
    return Path(f"{part}.report")


def reports_on(parts: list[Path], *options: str) -> list[Path]:
    """The reports on the parts."""
    for it in parts:
        done = run("audit", "--workers", 1, *options, it)
        need(done.returncode in (0, 1), shown(done))
        report_of(it).write_bytes(done.stdout)
    return [report_of(it) for it in parts]


def is_report(done: Done, report: Done) -> None:
    """Needs it to be that report, with its status."""
    need(done.stdout == report.stdout, difference(report.stdout.decode(), done.stdout.decode()))
    need(done.returncode == report.returncode and done.stderr in (b"", report.stderr), shown(done))


def is_refused(done: Done, status: int, *words: str) -> None:
    """Needs it to have written nothing but why, in which these words stand."""
    need(done.returncode == status and not done.stdout, shown(done))
    need(all(it.encode() in done.stderr for it in words), f"{shown(done)} without {words}")


@dataclass(frozen=True)
class Work:
    """A bundle in four parts, one of which has a session that is no, and where their reports belong."""

    bundle: Bundle
    into: Path
    parts: list[Path]

    @classmethod
    def of(cls, folder: Path) -> Work:
        bundle = written([run("simulate", "--clients", 12, "--acts", 400, "--fault", "drop").stdout], folder)
        parts = split(bundle, folder / "parts", "--parts", 4)
        need(bundle.report.returncode == 1 and len(parts) == 4, f"{len(parts)} parts, {shown(bundle.report)}")
        return cls(bundle, folder / "parts", parts)

    def reports(self) -> list[Path]:
        return [report_of(it) for it in self.parts]

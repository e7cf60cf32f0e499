"""A small tree for tests/launcher: the scripts that choose, build, release and install the program, over crates of one line a file,
with stand-ins for the kit, for tests/run, and for the program, which prints its own name, its arguments and its input."""

from __future__ import annotations

import os
import pty
import shutil
import subprocess
import sys
from pathlib import Path
from typing import Callable, Optional

TOP = Path(__file__).resolve().parent.parent
SCRIPTS = ("sioaudit", "tools/program", "tools/sources.bash", "tools/build", "tools/release", "tools/install", ".ci/run")
PAGES = ("docs/sioaudit.1", "docs/sioaudit.bash")
COMMANDS = (
    "bash cat chmod cmp diff dirname env find install ls mkdir mktemp mv python3 readlink rm sed sh sha256sum sort touch tr uname xargs"
).split()
RELEASED, BUILT = "sioaudit-linux-x86_64", "sioaudit"
CRATES = """# The crates, lowest first.
low: arrayvec
middle: low memchr
other: low
sioaudit may_wait=1: middle, clap   # the program
"""
PROGRAM = """#!/bin/sh
# made from {sources}
[ -z "${CANNOT_START-}" ] || exit 1
[ "${1-}" != --version ] || { echo 'sioaudit 1.0.0' && exit; }
printf '%s\\n' "${0##*/}" "$@"
cat
exit 5
"""
# `run` and `ci` make a program of src/ of the crates below; EDITED is a file that changes once that was read
KIT = """#!/bin/sh
echo "$1" >>"$LOG"
make() {
    mkdir -p out && sources=$(cat ../low/src/* ../middle/src/* src/* | sha256sum)
    [ -z "${EDITED-}" ] || echo edited >>"$EDITED"
    sed "s/{sources}/$sources/" "$PROGRAM" >out/sioaudit && chmod 755 out/sioaudit
}
case $1 in
version) echo 'stand-in kit 1' ;;
lib) mkdir -p out/rlib ;;
run) [ -z "${NOT_PROVED-}" ] && make && echo stored ;;
ci) echo 'rt: proved' && (cd crates/sioaudit && make) && exit "${CI_STATUS-0}" ;;
esac
"""
TESTS = """#!/bin/sh
echo 'tests: tried'
exit "${TESTS_STATUS-0}"
"""


class Wrong(Exception):
    """What a case found wrong."""


Done = subprocess.CompletedProcess[str]


def need(holds: object, what: Done | str) -> None:
    if not holds:
        raise Wrong(what if isinstance(what, str) else f"status {what.returncode}, printed {what.stdout!r}, said {what.stderr!r}")


def write(path: Path, text: str, mode: int = 0o644) -> None:
    path.parent.mkdir(parents=True, exist_ok=True)
    path.write_text(text)
    path.chmod(mode)


def flip(path: Path) -> None:
    """Changes the last byte but one of a file in place, and keeps its time."""
    stat = path.stat()
    with open(path, "r+b") as it:
        it.seek(-2, os.SEEK_END)
        byte = it.read(1)[0]
        it.seek(-2, os.SEEK_END)
        it.write(bytes([byte ^ 1]))
    os.utime(path, ns=(stat.st_atime_ns, stat.st_mtime_ns))


class Tree:
    """A small tree in a folder whose name has a blank, and the folders of the commands that its scripts find."""

    def __init__(self, room: Path, release: Optional[Path] = None) -> None:
        self.room, self.top, self.log, self.release = room, room / "a tree", room / "log", release
        for name in SCRIPTS + PAGES:
            (self.top / name).parent.mkdir(parents=True, exist_ok=True)
            shutil.copy(TOP / name, self.top / name)
        for crate in ("low", "middle", "other", "sioaudit"):
            write(self.top / f"crates/{crate}/src/lib.rt", f"// {crate}\n")
            write(self.top / f"crates/{crate}/proofs/lib/of_it/Lemmas.antt", f"-- {crate}\n")
        write(self.top / "crates/low/specs/Lib.antt", "-- definitions\n")
        write(self.top / "crates/sioaudit/stdin", "")
        write(self.top / "crates/sioaudit/stdout", "stored\n")
        write(self.top / "crates.txt", CRATES)
        write(self.top / "HANDLES", "Handles allowed: none.\n")
        write(self.top / "tests/run", TESTS, 0o755)
        write(room / "kit/rt", KIT, 0o755)
        write(room / "program", PROGRAM)
        write(self.log, "")
        (room / "commands").mkdir()
        for name in COMMANDS:
            (room / "commands" / name).symlink_to(sys.executable if name == "python3" else shutil.which(name) or name)

    def stand_in(self, command: str, script: str) -> None:
        (self.room / "commands" / command).unlink()
        write(self.room / "commands" / command, f"#!/bin/sh\n{script}\n", 0o755)

    def environment(self, kit: bool, **more: object) -> dict[str, str]:
        path = f"{self.room}/kit:{self.room}/commands" if kit else f"{self.room}/commands"
        given = {"PATH": path, "HOME": self.room, "LOG": self.log, "PROGRAM": self.room / "program", **more}
        return {name: str(value) for name, value in given.items()}

    def run(self, *words: object, kit: bool = True, at: Optional[Path] = None, text: str = "", **more: object) -> Done:
        """Runs a command in the tree, or in the folder `at`, with these variables more."""
        how = {"cwd": at or self.top, "env": self.environment(kit, **more), "input": text, "capture_output": True, "text": True}
        return subprocess.run([str(it) for it in words], **how)

    def released(self) -> None:
        """Puts the release of the sources in place, which is made once for all trees, and nothing that was built for it."""
        need(self.release, "there is no release")
        shutil.copytree(str(self.release), self.top / "dist")

    def builds(self) -> int:
        return self.log.read_text().split().count("run")

    def runs(self, name: str, builds: int = 0, **more: object) -> None:
        """Needs ./sioaudit to run this program and to say nothing, after so many builds in all."""
        done = self.run("./sioaudit", **more)
        need((done.returncode, done.stdout, done.stderr) == (5, f"{name}\n", ""), done)
        need(self.builds() == builds, f"{self.builds()} builds")

    def refuses(self, *parts: str, **more: object) -> None:
        """Needs ./sioaudit to run nothing, and to say why in a line with these parts."""
        done = self.run("./sioaudit", **more)
        need((done.returncode, done.stdout, done.stderr.count("\n")) == (70, "", 1), done)
        need(all(it in done.stderr for it in parts), done.stderr)

    def said_on_terminal(self, **more: object) -> str:
        """What ./sioaudit writes on standard error where that is a terminal."""
        ours, theirs = pty.openpty()
        how = {"cwd": self.top, "env": self.environment(True, **more), "stdin": subprocess.DEVNULL, "stdout": subprocess.DEVNULL}
        subprocess.run(["./sioaudit"], stderr=theirs, **how)
        os.close(theirs)
        text = b""
        try:
            while part := os.read(ours, 4096):
                text += part
        except OSError:
            pass
        os.close(ours)
        return text.decode().replace("\r", "")


CASES: dict[str, Callable[[Tree], None]] = {}


def case(it: Callable[[Tree], None]) -> Callable[[Tree], None]:
    CASES[it.__name__.replace("_", " ")] = it
    return it

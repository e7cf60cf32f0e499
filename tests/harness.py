"""What the programs of this folder share: the program under test, and the counts that `tests/run` reads."""

from __future__ import annotations

import difflib
import functools
import os
import shutil
import subprocess
import sys
from pathlib import Path
from typing import Optional

TOP = Path(__file__).resolve().parent.parent
NOBODY_JUDGED = b"sioaudit: nothing was judged: no session was recorded\n"
NOTHING_JUDGED = b"sioaudit: a yes says nothing here: no entry of the stream is recoverable\n"
MOST_LINES = 12
MOST_COLUMNS = 160
# The faults that `sioaudit simulate` makes.
SIMULATED_FAULTS = """drop double hold alter garble lose-attachment lag unknown-offset cut-before-reply no-reply other-sid no-open no-join
no-break take-twice""".split()


@functools.lru_cache(maxsize=None)
def program() -> str:
    """The program under test: SIOAUDIT, or else the one that `./sioaudit` runs."""
    given = os.environ.get("SIOAUDIT")
    if given:
        return given
    done = subprocess.run([TOP / "tools/program"], stdout=subprocess.PIPE, text=True)
    if done.returncode:
        sys.exit(done.returncode)
    return done.stdout.strip()


@functools.lru_cache(maxsize=None)
def python_with(*modules: str) -> Optional[str]:
    """A Python of 3.11 or later that has these modules: this one, or else the system's; None where there is none."""
    asks = f"import sys; assert sys.version_info >= (3, 11); import {', '.join(modules)}"
    for it in (sys.executable, "/usr/bin/python3"):
        if os.path.exists(it) and subprocess.run([it, "-c", asks], stderr=subprocess.DEVNULL).returncode == 0:
            return it
    return None


def node_environment(*packages: str) -> Optional[dict[str, str]]:
    """The environment in which node has these packages for taps/node: its own, or Debian's; None where there is none."""
    asks = ["node", "-e", ";".join(f"require('{it}')" for it in packages)]
    for it in (os.environ, {**os.environ, "NODE_PATH": "/usr/share/nodejs"}):
        if shutil.which("node") and subprocess.run(asks, cwd=TOP / "taps/node", env=it, stderr=subprocess.DEVNULL).returncode == 0:
            return dict(it)
    return None


def difference(expected: str, written: str) -> str:
    """The lines in which a text differs from the expected one, the first of them where there are many."""
    all_lines = list(difflib.unified_diff(expected.splitlines(), written.splitlines(), lineterm="", n=1))[2:]
    found = [it for it in all_lines if not it.startswith("@@")]
    if not found:
        return "  the ends of lines differ"
    lines = [it if len(it) <= MOST_COLUMNS else it[:MOST_COLUMNS] + " .." for it in found[:MOST_LINES]]
    more = [f"{len(found) - MOST_LINES} lines more"] if len(found) > MOST_LINES else []
    return "\n".join(f"  {it}" for it in ["- expected, + written:", *lines, *more])


class Tally:
    """Counts what passed and what failed."""

    def __init__(self) -> None:
        self.passed = 0
        self.failed = 0

    def add(self, name: str, wrong: Optional[str]) -> None:
        """Counts one more, and prints what is wrong with it."""
        if wrong is None:
            self.passed += 1
        else:
            self.failed += 1
            print(f"{name}: FAILED: {wrong}", flush=True)

    def end(self) -> int:
        """Prints the line that `tests/run` reads, and returns the exit status."""
        print(f"{self.passed} passed, {self.failed} failed")
        return 1 if self.failed else 0

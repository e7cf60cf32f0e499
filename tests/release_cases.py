"""The cases of tests/launcher that are about tools/release, the steps of .ci/run, and tools/install."""

from __future__ import annotations

import shutil
from typing import Callable

from small_tree import BUILT, PAGES, RELEASED, Tree, case, flip, need, write

@case
def the_release(tree: Tree) -> None:
    done = tree.run("tools/release")
    need(done.returncode == 0 and tree.builds() == 1, done)
    files = [f"crates/{it}" for it in (
        "low/proofs/lib/of_it/Lemmas.antt low/specs/Lib.antt low/src/lib.rt middle/proofs/lib/of_it/Lemmas.antt middle/src/lib.rt "
        "sioaudit/proofs/lib/of_it/Lemmas.antt sioaudit/src/lib.rt"
    ).split()]
    sums = [tree.run("sha256sum", it).stdout for it in ("HANDLES", "crates.txt", *files)]
    of_all = tree.run("sha256sum", text="".join(sums)).stdout.split()[0]
    program = tree.run("sha256sum", f"crates/sioaudit/out/{BUILT}").stdout.split()[0]
    facts = dict(it.split(": ", 1) for it in (tree.top / "dist/MANIFEST").read_text().splitlines())
    wanted = {"program": RELEASED, "version": "1.0.0", "kit": "stand-in kit 1", "sha256": program, "sources": of_all}
    need(facts.pop("order", None) and facts == wanted, f"{facts}")
    again = tree.run("tools/release")
    need(again.returncode == 0 and tree.builds() == 1, "what is current was built again")
    need(tree.run("tools/release", "--check", LC_ALL="C.UTF-8").returncode == 0, "it is not what was built")


@case
def the_release_of_what_rt_ci_left(tree: Tree) -> None:
    tree.run("rt", "ci")
    need(tree.run("tools/release").returncode == 0 and tree.builds() == 0, "it was built again")


@case
def a_release_of_sources_that_change_meanwhile(tree: Tree) -> None:
    done = tree.run("tools/release", EDITED=tree.top / "crates/low/src/lib.rt")
    need(done.returncode == 1 and not (tree.top / f"dist/{RELEASED}").exists(), done)


STEPS = ["== rt ci", "rt: proved", "== tools/release --check", "dist/ is what was built", "== tests/run", "tests: tried"]


def gate(tree: Tree, status: int, steps: int, **more: object) -> None:
    """Needs .ci/run to end with this status, after so many of the lines of its steps."""
    done = tree.run("bash", ".ci/run", at=tree.top, **more)
    lines = done.stdout.splitlines()
    need(done.returncode == status, done)
    need([any(line.startswith(it) for line in lines) for it in STEPS] == [at < steps for at in range(len(STEPS))], done)


@case
def the_gate_passes(tree: Tree) -> None:
    tree.released()
    gate(tree, 0, 6)


@case
def the_gate_ends_with_the_step_that_fails(tree: Tree) -> None:
    tree.released()
    gate(tree, 9, 2, CI_STATUS="9")
    gate(tree, 4, 6, TESTS_STATUS="4")


@case
def the_gate_refuses_the_release_of_other_sources(tree: Tree) -> None:
    gate(tree, 1, 3)
    tree.released()
    for path in ("src/lib.rt", "proofs/lib/of_it/Lemmas.antt"):
        flip(tree.top / "crates/low" / path)
        gate(tree, 1, 3)
        flip(tree.top / "crates/low" / path)
        gate(tree, 0, 6)


@case
def the_gate_refuses_another_dist(tree: Tree) -> None:
    tree.released()
    program, manifest = tree.top / "dist" / RELEASED, tree.top / "dist/MANIFEST"
    bytes_of, text = program.read_bytes(), manifest.read_text()
    changes: list[Callable[[], object]] = [
        lambda: flip(program),
        lambda: program.chmod(0o644),
        lambda: program.unlink(),
        lambda: manifest.unlink(),
        lambda: write(manifest, text + "more: facts\n"),
        lambda: write(manifest, text.replace("kit 1", "kit 2")),
        lambda: write(manifest, text.replace("1.0.0", "1.0.1")),
        lambda: write(tree.top / "dist/more", ""),
    ]
    for change in changes:
        change()
        gate(tree, 1, 3)
        shutil.rmtree(tree.top / "dist")
        write(manifest, text)
        program.write_bytes(bytes_of)
        program.chmod(0o755)
    gate(tree, 0, 6)


@case
def installing_and_removing(tree: Tree) -> None:
    tree.released()
    for words, prefix in (((), tree.room / ".local"), (("../a prefix",), tree.room / "a prefix")):
        modes = {"bin/sioaudit": 0o755, "share/man/man1/sioaudit.1": 0o644, "share/bash-completion/completions/sioaudit": 0o644}
        for _ in range(2):
            done = tree.run("tools/install", *words, kit=False)
            need(done.returncode == 0 and done.stdout.count("installed ") == 3 and done.stderr == "", done)
            found = {str(it.relative_to(prefix)): it.stat().st_mode & 0o777 for it in prefix.rglob("*") if it.is_file()}
            need(found == modes, f"{found}")
        sources = (f"dist/{RELEASED}", *PAGES)
        need(all((prefix / to).read_bytes() == (tree.top / it).read_bytes() for to, it in zip(modes, sources)), "other bytes")
        write(prefix / "bin/other", "")
        for told in ("removed ", "not there: "):
            done = tree.run("tools/install", "--remove", *words, kit=False)
            need(done.returncode == 0 and done.stdout.count(told) == 3, done)
        need([it.name for it in prefix.rglob("*") if it.is_file()] == ["other"], "something else is gone, or something is left")


@case
def installing_a_built_program(tree: Tree) -> None:
    tree.released()
    flip(tree.top / "crates/low/src/lib.rt")
    need(tree.run("tools/install").returncode == 0 and tree.builds() == 1, "it was not built")
    need((tree.room / ".local/bin/sioaudit").read_bytes() == (tree.top / f"crates/sioaudit/out/{BUILT}").read_bytes(), "other bytes")


@case
def installing_where_nothing_can_be_written(tree: Tree) -> None:
    tree.released()
    write(tree.room / "file", "in the way")
    done = tree.run("tools/install", "../file", kit=False)
    need(done.returncode == 1 and "cannot write ../file/bin/sioaudit" in done.stderr, done)
    for words in (("--wrong",), ("",), ("a", "b"), ("--remove", "a", "b")):
        done = tree.run("tools/install", *words, kit=False)
        need(done.returncode == 2 and "usage" in done.stderr, done)

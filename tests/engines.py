"""Cases of tests/parts: tools/parts/job, and the engines that run it. In each engine the job of one part is killed while it runs, and has to
be run again, and no other."""

from __future__ import annotations

import os
import shutil
import signal
import subprocess
from collections import Counter
from pathlib import Path

from harness import TOP, program
from slurm import Slurm, missing, until
from splitting import SECONDS, Done, Skipped, Work, case, is_report, need, reports_on, run, shown

JOB = TOP / "tools/parts/job"
# a program in place of sioaudit: its first run for part 2 writes the beginning of a report, tells its job's process and its own, and hangs
HANGING = """#!/bin/sh
for part; do :; done
echo "${part##*/}" >>"$0.runs"
case $part in
*/part-0002.jsonl) mkdir "$0.once" 2>/dev/null && { printf 'yes p'; echo "$PPID $$" >"$0.new"; mv "$0.new" "$0.hangs"; exec sleep 600; } ;;
esac
exec '%s' "$@"
"""


def job(*words: object, **environment: str) -> Done:
    how = {"stdin": subprocess.DEVNULL, "capture_output": True, "timeout": SECONDS}
    return subprocess.run([JOB, *map(str, words)], env={**os.environ, "SIOAUDIT": program(), **environment}, **how)


def hanging(folder: Path) -> Path:
    path = folder / "hanging"
    path.write_text(HANGING % program())
    path.chmod(0o755)
    return path


def is_done(work: Work, hanging: Path, merged: Done) -> None:
    """Needs it to be the report, and each job to have run once, but for the one that was killed."""
    is_report(merged, work.bundle.report)
    runs = Counter(Path(f"{hanging}.runs").read_text().split())
    need(runs == {it.name: 1 + (it.name == "part-0002.jsonl") for it in work.parts}, f"{runs}")


@case
def slurm_array(folder: Path) -> None:
    """A job of an array is queued again while it runs, and the merge waits for all of them."""
    if missing():
        raise Skipped(f"Slurm isn't there ({', '.join(missing())})")
    work, program_of_jobs, merged = Work.of(folder), hanging(folder), folder / "merged"
    with Slurm(folder / "slurm") as slurm:
        queue = ["sbatch", "--parsable", f"--output={folder}/%A_%a.out"]
        array = slurm.call(*queue, "--array=1-4", "--mem=3G", "--requeue", JOB, work.into, "--workers", 1, SIOAUDIT=str(program_of_jobs))
        command = f"'{program()}' merge '{work.into}' '{work.into}'/*.report >'{merged}'"
        merge = slurm.call(*queue, f"--dependency=afterok:{array}", f"--wrap={command}")
        until(Path(f"{program_of_jobs}.hangs").exists, "the job that hangs")
        slurm.call("scontrol", "requeue", f"{array}_2")
        until(lambda: slurm.job(f"{array}_2")["JobState"] == "PENDING", "the job in the queue again")
        slurm.call("scontrol", "update", f"jobid={array}_2", "starttime=now")
        until(lambda: slurm.job(merge)["JobState"] in ("COMPLETED", "FAILED"), "the merge")
        status = int(slurm.job(merge)["ExitCode"].split(":")[0])
    is_done(work, program_of_jobs, Done(["merge"], status, merged.read_bytes(), b""))


@case
def gnu_parallel(folder: Path) -> None:
    """A job is killed while it runs."""
    if not shutil.which("parallel"):
        raise Skipped("GNU parallel isn't there")
    work, program_of_jobs = Work.of(folder), hanging(folder)
    words = ["parallel", "--jobs", "2", "--joblog", folder / "log", "--retries", "3", "--halt", "soon,fail=1", JOB, "{}", "--workers", "1", ":::"]
    environment = {**os.environ, "SIOAUDIT": str(program_of_jobs), "PARALLEL_HOME": str(folder)}
    how = {"stdin": subprocess.DEVNULL, "stdout": subprocess.DEVNULL, "stderr": subprocess.PIPE, "env": environment}
    with subprocess.Popen([*words, *work.parts], **how) as engine:
        until(Path(f"{program_of_jobs}.hangs").exists, "the job that hangs")
        for it in Path(f"{program_of_jobs}.hangs").read_text().split():
            os.kill(int(it), signal.SIGKILL)
        said = engine.communicate(timeout=SECONDS)[1]
    need(engine.returncode == 0, f"status {engine.returncode}: {said!r}")
    is_done(work, program_of_jobs, run("merge", work.into, *work.reports()))


@case
def jobs_by_name_and_by_number(folder: Path) -> None:
    work = Work.of(folder)
    texts = [it.read_bytes() for it in reports_on(work.parts)]
    given = [
        job(work.parts[0]), job(work.into, SLURM_ARRAY_TASK_ID="2"), job(work.into, JOB_COMPLETION_INDEX="2"), job(work.parts[3], "--workers", 1),
    ]
    need(all((it.returncode, it.stdout, it.stderr) == (0, b"", b"") for it in given), f"{[shown(it) for it in given]}")
    need([it.read_bytes() for it in work.reports()] == texts, "other reports")
    need(len(list(work.into.iterdir())) == 13, f"there are {sorted(work.into.iterdir())}")


@case
def jobs_that_fail(folder: Path) -> None:
    """Where there is no report, there is none of an earlier job, and nothing else is left."""
    work = Work.of(folder)
    part = work.parts[0]
    reports_on([part])
    part.write_bytes(b"no tap\n")
    for it, status, words in (
        (job(part), 2, b"line 1: NotJson\n"), (job(part, "--no-such"), 4, b"--no-such"), (job(part, SIOAUDIT="/none"), 127, b"/none"),
        (job(folder / "none.jsonl"), 3, b"none.jsonl"), (job(work.into), 4, b"SLURM_ARRAY_TASK_ID"), (job(), 4, b"usage"),
    ):
        need(it.returncode == status and not it.stdout and words in it.stderr, shown(it))
    need(len(list(work.into.iterdir())) == 9, f"there are {sorted(work.into.iterdir())}")

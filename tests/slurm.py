"""A Slurm of this machine alone, on the loopback, in a folder of its own: `with Slurm(folder) as slurm: slurm.call("sbatch", ..)`. It takes
the machine for one of 16 GB, and holds no job to the memory that it asks for."""

from __future__ import annotations

import getpass
import os
import shutil
import socket
import subprocess
import time
from pathlib import Path
from typing import Callable

DAEMONS = ("munged", "slurmctld", "slurmd")
SBIN = os.environ["PATH"] + ":/usr/sbin:/sbin"
SECONDS = 60
CONF = """
ClusterName=parts
SlurmctldHost={host}(127.0.0.1)
SlurmctldPort={ports[0]}
SlurmdPort={ports[1]}
SlurmUser={user}
SlurmdUser={user}
AuthType=auth/munge
AuthInfo=socket={folder}/munge.socket
CredType=cred/munge
StateSaveLocation={folder}/state
SlurmdSpoolDir={folder}/spool
SlurmctldPidFile={folder}/slurmctld.pid
SlurmdPidFile={folder}/slurmd.pid
SlurmctldLogFile={folder}/slurmctld.log
SlurmdLogFile={folder}/slurmd.log
ProctrackType=proctrack/linuxproc
TaskPlugin=task/none
JobAcctGatherType=jobacct_gather/none
AccountingStorageType=accounting_storage/none
SelectType=select/cons_tres
SelectTypeParameters=CR_Core_Memory
DefMemPerCPU=64
SlurmdParameters=config_overrides
MpiDefault=none
NodeName={host} NodeAddr=127.0.0.1 CPUs={cpus} RealMemory=16384 State=UNKNOWN
PartitionName=main Nodes={host} Default=YES MaxTime=INFINITE State=UP
"""


def missing() -> list[str]:
    """What of Slurm isn't installed."""
    return [it for it in (*DAEMONS, "sbatch", "scontrol") if not shutil.which(it, path=SBIN)]


def free_ports(count: int) -> list[int]:
    sockets = [socket.create_server(("127.0.0.1", 0)) for _ in range(count)]
    ports = [it.getsockname()[1] for it in sockets]
    for it in sockets:
        it.close()
    return ports


def until(holds: Callable[[], object], what: str) -> None:
    """Waits until it holds."""
    end = time.monotonic() + SECONDS
    while not holds():
        if time.monotonic() > end:
            raise TimeoutError(f"not in {SECONDS} seconds: {what}")
        time.sleep(0.05)


class Slurm:
    """Its daemons run while its block does; the folder is made."""

    def __init__(self, folder: Path) -> None:
        self.folder = folder
        self.conf = folder / "slurm.conf"
        self.environment = {**os.environ, "SLURM_CONF": str(self.conf)}
        self.running: list[subprocess.Popen[bytes]] = []

    def start(self, name: str, *words: object) -> None:
        with open(self.folder / f"{name}.out", "wb") as out:
            how = {"stdin": subprocess.DEVNULL, "stdout": out, "stderr": out, "env": self.environment, "start_new_session": True}
            self.running.append(subprocess.Popen([shutil.which(name, path=SBIN), *map(str, words)], **how))

    def call(self, *words: object, **more: str) -> str:
        """What one of Slurm's commands writes, with these variables more in its environment."""
        how = {"env": {**self.environment, **more}, "stdin": subprocess.DEVNULL, "capture_output": True, "text": True, "timeout": SECONDS}
        done = subprocess.run([*map(str, words)], **how)
        if done.returncode:
            raise OSError(f"{words}: status {done.returncode}: {done.stderr}")
        return done.stdout.strip()

    def job(self, name: str) -> dict[str, str]:
        """What is told of a job, or of one of an array, by its keys."""
        return dict(it.split("=", 1) for it in self.call("scontrol", "show", "job", name).split() if "=" in it)

    def __enter__(self) -> Slurm:
        key = self.folder / "munge.key"
        for it in (self.folder, self.folder / "state", self.folder / "spool"):
            it.mkdir(exist_ok=True)
            it.chmod(0o711)
        key.write_bytes(os.urandom(128))
        key.chmod(0o400)
        host = socket.gethostname().split(".")[0]
        names = {"host": host, "user": getpass.getuser(), "folder": self.folder, "cpus": os.cpu_count(), "ports": free_ports(2)}
        self.conf.write_text(CONF.format(**names))
        try:
            files = [f"--{it}-file={self.folder}/munge.{it}" for it in ("key", "pid", "log", "seed")]
            self.start("munged", "--foreground", "--force", f"--socket={self.folder}/munge.socket", *files)
            until((self.folder / "munge.socket").exists, "munged")
            self.start("slurmctld", "-D", "-f", self.conf)
            self.start("slurmd", "-D", "-f", self.conf, "-N", host)
            until(lambda: self.is_idle(), "a node that is idle")
        except BaseException:
            self.__exit__()
            raise
        return self

    def is_idle(self) -> bool:
        try:
            return self.call("sinfo", "--noheader", "--format=%T") == "idle"
        except OSError:
            return False

    def __exit__(self, *_: object) -> None:
        for it in reversed(self.running):
            it.terminate()
            try:
                it.wait(10)
            except subprocess.TimeoutExpired:
                it.kill()
                it.wait()

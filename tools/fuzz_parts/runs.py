"""A run of a program within limits, and what must hold of it."""

import contextlib
import dataclasses
import os
import pathlib
import resource
import signal
import subprocess
import threading
import time

from .calls import Call

FRONT = {6, 13}  # outcomes after which a front of the output may stand
BASE = 64 << 20  # bytes that a program may take by itself


@dataclasses.dataclass(frozen=True)
class Limits:
    """What a run may take: seconds, bytes of address space (0 for any), and bytes in use for each byte that it is given."""

    seconds: float = 20.0
    address: int = 4 << 30
    each: int = 12


@dataclasses.dataclass(frozen=True)
class Run:
    """How a run ended: its status (of a signal its negative number, None where it was stopped), its output, seconds, and
    the most bytes that it had in use."""

    status: int | None
    out: bytes
    seconds: float
    peak: int


def run(words: list[str], folder: pathlib.Path, limits: Limits) -> Run:
    """Runs a program in a folder. Its standard error is not kept: nothing is promised of it."""
    with open(folder / "out", "wb+") as out:
        began = time.monotonic()
        process = subprocess.Popen(words, cwd=folder, stdin=subprocess.DEVNULL, stdout=out, stderr=subprocess.DEVNULL)
        _limit(process.pid, limits)
        stop = threading.Timer(limits.seconds, process.kill)
        stop.start()
        _, status, used = os.wait4(process.pid, 0)
        stop.cancel()
        seconds = time.monotonic() - began
        process.returncode = os.waitstatus_to_exitcode(status)
        out.seek(0)
        ended = None if process.returncode in (-signal.SIGXCPU, -signal.SIGKILL) else process.returncode
        return Run(ended, out.read(), seconds, used.ru_maxrss << 10)


def _limit(pid: int, limits: Limits) -> None:
    """Limits a process that has just begun: not before it begins, which would need a whole copy of this one first."""
    with contextlib.suppress(ProcessLookupError):
        if limits.address:
            resource.prlimit(pid, resource.RLIMIT_AS, (limits.address, limits.address))
        resource.prlimit(pid, resource.RLIMIT_CPU, (int(limits.seconds) + 1, int(limits.seconds) + 2))
        resource.prlimit(pid, resource.RLIMIT_CORE, (0, 0))


def floor() -> int:
    """The bytes in use that say nothing of a run: what a program takes by itself, or what this process has, which the system
    counts in, since a run begins as its copy."""
    return max(BASE, resource.getrusage(resource.RUSAGE_SELF).ru_maxrss << 10)


def faults(call: Call, given: int, one: Run, other: Run | None, limits: Limits) -> list[str]:
    """What is wrong with a run that was given so many bytes; `other` is a second run of the same call."""
    found = []
    if one.status is None:
        return [f"it takes more than {limits.seconds:g} s"]
    if one.status < 0:
        found.append(f"signal {-one.status}")
    elif one.status not in call.statuses():
        found.append(f"status {one.status} is none of {call.command}")
    elif one.status != 0 and one.status not in FRONT and one.out:
        found.append(f"status {one.status}, and {len(one.out)} bytes of output")
    if one.peak > floor() + limits.each * given:
        found.append(f"{one.peak >> 20} MiB for {given} bytes")
    if other is not None and (other.status, other.out) != (one.status, one.out):
        found.append(f"a second run ends otherwise: {one.status}, {other.status}")
    return found

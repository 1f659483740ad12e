"""Runs a command with limits of time and memory, and measures it."""

from __future__ import annotations

import dataclasses
import math
import os
import resource
import select
import signal
import subprocess
import sys
import tempfile
import time
import typing

MOST_OUTPUT = 64 * 2**20
BEFORE = {"setpriv", "prlimit", os.path.basename(os.path.realpath(sys.executable))}


@dataclasses.dataclass(frozen=True)
class Ended:
    """How a command ended: its status, or None after a signal, and in a word why it ended: `status`,
    `time` or `signal N`. Its memory isn't known if the run was too short to be looked at."""

    status: typing.Optional[int]
    why: str
    wall_seconds: float
    cpu_seconds: float
    mib: typing.Optional[float]
    output: str
    errors: str


def run_limited(words: typing.Sequence[str], folder: str, seconds: float, mib: int,
                places: int = 1) -> Ended:
    """Runs the command in the folder. It has a group of processes of its own, which is ended after
    so many seconds. Its address space is bounded, and it dies with the process that called this.

    The limits are set by two programs of util-linux, and not by a function between fork and exec,
    which isn't safe in a worker with threads. The limit of processor time is for the case that
    nobody is left to look at the clock."""
    processor = math.ceil(seconds * places) + 10
    limited = ["setpriv", "--pdeathsig", "KILL", "prlimit", f"--as={mib << 20}", "--core=0",
               f"--cpu={processor}", "--", *words]
    before = resource.getrusage(resource.RUSAGE_SELF).ru_maxrss
    with tempfile.TemporaryFile() as output, tempfile.TemporaryFile() as errors:
        began = time.monotonic()
        child = subprocess.Popen(limited, cwd=folder, stdin=subprocess.DEVNULL, stdout=output,
                                 stderr=errors, start_new_session=True)
        try:
            is_late, seen = watch(child.pid, began + seconds)
        finally:
            # (the leader isn't waited for yet, so its number can't be another group's)
            kill_group(child.pid)
            _, status, usage = os.wait4(child.pid, 0)
            child.returncode = os.waitstatus_to_exitcode(status)
        wall = time.monotonic() - began
        code = child.returncode
        # What the kernel reports is at least the memory of the process that called this.
        peak = usage.ru_maxrss if usage.ru_maxrss > before else seen
        return Ended(code if code >= 0 and not is_late else None, why_ended(code, is_late),
                     round(wall, 4), round(usage.ru_utime + usage.ru_stime, 4),
                     round(peak / 1024, 1) if peak else None, text_of(output), text_of(errors))


def why_ended(code: int, is_late: bool) -> str:
    if is_late or code == -signal.SIGXCPU:
        return "time"
    return "status" if code >= 0 else f"signal {-code}"


def watch(process: int, until: float) -> typing.Tuple[bool, int]:
    """Waits for the end of the process, or for this time. If it was too late, and the greatest
    memory in KiB that was seen meanwhile."""
    seen, pause = 0, 0.001
    handle = os.pidfd_open(process)
    try:
        poll = select.poll()
        poll.register(handle, select.POLLIN)
        while True:
            left = until - time.monotonic()
            if left <= 0:
                return True, seen
            if poll.poll(max(1, 1000 * min(pause, left))):
                return False, seen
            seen = max(seen, memory_of(process))
            pause = min(2 * pause, 0.05)
    finally:
        os.close(handle)


def memory_of(process: int) -> int:
    """The peak memory of a process in KiB up to now; 0 if it has ended, or if it isn't yet the
    command itself, but what sets its limits."""
    try:
        if os.path.basename(os.readlink(f"/proc/{process}/exe")) in BEFORE:
            return 0
        with open(f"/proc/{process}/status", encoding="ascii", errors="replace") as file:
            return next((int(line.split()[1]) for line in file if line.startswith("VmHWM:")), 0)
    except OSError:
        return 0


def kill_group(leader: int) -> None:
    try:
        os.killpg(leader, signal.SIGKILL)
    except ProcessLookupError:
        pass


def text_of(file: typing.BinaryIO) -> str:
    file.seek(0)
    return file.read(MOST_OUTPUT).decode("utf-8", "replace")

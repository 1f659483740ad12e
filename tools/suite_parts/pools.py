"""Where jobs run: on processes of this machine, or on the workers of a Dask cluster. Both are
executors of concurrent.futures, so one driver serves them."""

from __future__ import annotations

import asyncio
import concurrent.futures
import contextlib
import ctypes
import multiprocessing
import os
import signal
import sys
import typing

from . import packages
from .tasks import Faulty
from .work import Job, Record, refusal_of

Work = typing.Callable[[Job], Record]
SET_DEATH_SIGNAL = 1  # PR_SET_PDEATHSIG of Linux
PATIENCE = 300  # seconds for the first worker of a cluster, which may wait for its machine


class Pool(typing.Protocol):
    """An executor that knows how many places it has."""

    name: str

    def submit(self, work: Work, job: Job) -> concurrent.futures.Future:
        """Begins a job, or leaves it for a worker that becomes free."""

    def has_room(self, jobs: typing.Iterable[Job], job: Job) -> bool:
        """Whether the job may be given beside those that were given."""

    def restart(self) -> None:
        """Goes on after a worker was killed."""


class LocalPool:
    """Processes of this machine. A job with several workers takes as many places."""

    def __init__(self, processes: int):
        self.name = f"{processes} processes"
        self.places = processes
        self.restart()

    def restart(self) -> None:
        # (a fresh interpreter is small, so the memory of a run isn't hidden behind its own)
        self._executor = concurrent.futures.ProcessPoolExecutor(
            self.places, multiprocessing.get_context("spawn"), die_with, (os.getpid(),))

    def submit(self, work: Work, job: Job) -> concurrent.futures.Future:
        return self._executor.submit(until_terminated, work, job)

    def has_room(self, jobs: typing.Iterable[Job], job: Job) -> bool:
        taken = sum(min(other["places"], self.places) for other in jobs)
        return taken + min(job["places"], self.places) <= self.places

    def close(self, at_once: bool) -> None:
        if at_once:
            for process in multiprocessing.active_children():
                process.terminate()
        self._executor.shutdown(wait=True, cancel_futures=True)


def die_with(driver: int) -> None:
    """A worker ends with the driver, and leaves an interrupt to it."""
    signal.signal(signal.SIGINT, signal.SIG_IGN)
    signal.signal(signal.SIGTERM, lambda *_: sys.exit(143))
    ctypes.CDLL(None).prctl(SET_DEATH_SIGNAL, signal.SIGTERM)
    if os.getppid() != driver:
        sys.exit(143)


def until_terminated(work: Work, job: Job) -> Record:
    """The work. If the worker is told to end meanwhile, it first ends what it started."""
    try:
        return work(job)
    except SystemExit as ending:
        os._exit(ending.code)


class DaskPool:
    """The workers of a Dask cluster."""

    def __init__(self, address: typing.Optional[str], scheduler_file: typing.Optional[str],
                 jobs: typing.Sequence[Job]):
        distributed = packages.load("distributed")
        self.name = f"Dask at {address or scheduler_file}"
        try:
            self._client = distributed.Client(address, scheduler_file=scheduler_file, timeout=20)
        except (OSError, ValueError, asyncio.TimeoutError) as error:
            raise Faulty(f"no Dask scheduler answers at {address or scheduler_file}: "
                         f"{error}") from error
        register_by_value()
        try:
            self._refuse_others(jobs)
        except BaseException:
            self._client.close()
            raise
        # Only if a job has several workers, places are counted.
        counted = any(job["places"] > 1 for job in jobs)
        self._executors = {places: self._client.get_executor(
            pure=False, **({"resources": {"places": places}} if counted else {}))
            for places in {job["places"] for job in jobs}}

    def _refuse_others(self, jobs: typing.Sequence[Job]) -> None:
        """Every worker must see the same program, inputs and folder as the driver."""
        if not jobs:
            return
        try:
            self._client.wait_for_workers(1, timeout=PATIENCE)
        except (TimeoutError, asyncio.TimeoutError) as error:
            raise Faulty(f"no worker came to {self.name} within {PATIENCE} seconds") from error
        wrong = {worker: refusal for worker, refusal in
                 self._client.run(refusal_of, jobs[0]).items() if refusal}
        if wrong:
            raise Faulty("\n".join(f"the worker {worker} is refused: {refusal}"
                                   for worker, refusal in sorted(wrong.items())))
        most = max(job["places"] for job in jobs)
        workers = self._client.scheduler_info()["workers"]
        if most > 1 and not any(worker["resources"].get("places", 0) >= most
                                for worker in workers.values()):
            raise Faulty(f"no worker has {most} places, as many as a run has workers: start workers "
                         f"with `--resources places={most}`")

    def submit(self, work: Work, job: Job) -> concurrent.futures.Future:
        return self._executors[job["places"]].submit(work, job)

    def has_room(self, jobs: typing.Iterable[Job], job: Job) -> bool:
        return True

    def restart(self) -> None:
        """Dask starts its workers anew by itself."""

    def close(self, at_once: bool) -> None:
        self._client.close()


def register_by_value() -> None:
    """Makes workers get the functions themselves, so that no worker has an older text of them."""
    cloudpickle = packages.load("cloudpickle")
    for name in ("limits", "answers", "work"):
        cloudpickle.register_pickle_by_value(sys.modules[f"{__package__}.{name}"])


@contextlib.contextmanager
def opened(pool: typing.Union[LocalPool, DaskPool]) -> typing.Iterator[Pool]:
    """The pool, which is closed at the end, and at once after an interrupt or a fault."""
    try:
        yield pool
    except BaseException:
        pool.close(at_once=True)
        raise
    pool.close(at_once=False)

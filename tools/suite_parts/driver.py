"""Gives jobs to a pool, and hands over what comes back, until all are done."""

from __future__ import annotations

import collections
import concurrent.futures
import sys
import time
import typing

from . import packages
from .pools import Pool, Work
from .tasks import Faulty
from .work import Job, Record

MOST_TRIES = 3


class Bar(typing.Protocol):
    def update(self) -> None:
        """One job more is done."""

    def close(self) -> None:
        """All are done, or none will be."""


class Lines:
    """Progress without a terminal or without tqdm: a line now and then."""

    def __init__(self, total: int, pause: float = 30.0):
        self._done, self._total, self._pause = 0, total, pause
        self._next = time.monotonic() + pause

    def update(self) -> None:
        self._done += 1
        if time.monotonic() >= self._next:
            print(f"suite: {self._done} of {self._total} are done", file=sys.stderr)
            self._next = time.monotonic() + self._pause

    def close(self) -> None:
        """Nothing is open."""


def progress_bar(total: int) -> Bar:
    if not sys.stderr.isatty() or not total:
        return Lines(total)
    try:
        return packages.load("tqdm").tqdm(total=total, unit="run", file=sys.stderr)
    except packages.Missing as missing:
        print(f"suite: no progress bar: {missing}", file=sys.stderr)
        return Lines(total)


class Round:
    """The jobs of one call of `run_all`: those to be given, those that run, and those that were
    given up, since the worker was killed each time."""

    def __init__(self, pool: Pool, work: Work, jobs: typing.Sequence[Job]):
        self.pool, self.work = pool, work
        self.queue = collections.deque(jobs)
        self.running: typing.Dict[concurrent.futures.Future, Job] = {}
        self.lost: typing.List[Job] = []
        self._tries: typing.Counter = collections.Counter()
        self._is_broken = False

    def give(self) -> None:
        """Gives what there is room for. A pool of processes of which one was killed is broken as a
        whole: it is begun anew when the last of its jobs has come back."""
        if self._is_broken and not self.running:
            print("suite: a worker was killed; its runs begin anew", file=sys.stderr)
            self.pool.restart()
            self._is_broken = False
        while self.queue and not self._is_broken and self.pool.has_room(
                self.running.values(), self.queue[0]):
            try:
                self.running[self.pool.submit(self.work, self.queue[0])] = self.queue[0]
                self.queue.popleft()
            except concurrent.futures.BrokenExecutor:
                self._is_broken = True

    def ready(self) -> typing.Iterator[Record]:
        """The records of jobs that came back, at least of one if any has a record."""
        if not self.running:
            return
        done, _ = concurrent.futures.wait(self.running,
                                          return_when=concurrent.futures.FIRST_COMPLETED)
        for future in done:
            job = self.running.pop(future)
            try:
                yield record_of(future)
            except concurrent.futures.BrokenExecutor:
                self._is_broken = True
                self.try_again(job)
            except KilledWorker:
                self.lost.append(job)

    def try_again(self, job: Job) -> None:
        self._tries[job["name"]] += 1
        (self.lost if self._tries[job["name"]] >= MOST_TRIES else self.queue).append(job)


class KilledWorker(Exception):
    """Dask gave the job up, since several workers died with it."""


def run_all(pool: Pool, work: Work, jobs: typing.Sequence[Job],
            take: typing.Callable[[Record], None]) -> typing.List[Job]:
    """Runs the jobs, and gives each record to `take`. The jobs whose workers were killed again and
    again are given back: they have no record."""
    these = Round(pool, work, jobs)
    bar = progress_bar(len(jobs))
    try:
        while these.queue or these.running:
            these.give()
            for record in these.ready():
                take(record)
                bar.update()
    finally:
        bar.close()
    return these.lost


def record_of(future: concurrent.futures.Future) -> Record:
    """What the job gave. A worker that sees other files than the driver ends the whole."""
    try:
        record = future.result()
    except concurrent.futures.CancelledError as error:
        raise Faulty("the Dask scheduler is gone; what was done is kept, and the same command goes "
                     "on") from error
    except Exception as error:
        if type(error).__name__ == "KilledWorker":  # (of distributed, which may not be there)
            raise KilledWorker from error
        raise
    if "refused" in record:
        raise Faulty(f"the worker on {record['host']} is refused: {record['refused']}")
    return record

"""A Dask scheduler and workers on 127.0.0.1, of which some are killed."""

from __future__ import annotations

import json
import contextlib
import os
import pathlib
import shutil
import signal
import subprocess
import sys
import tempfile
import typing
import unittest

from .. import driver, packages, pools, tasks, work
from .common import Case, wait_for

DASK = "distributed.cli.dask_"


class Cluster:
    """A scheduler, whose port the system chooses, and two workers."""

    def __init__(self, place: pathlib.Path):
        self.file = place / "scheduler.json"
        self.log = open(place / "dask.log", "wb")
        self.searches = place / "searches"
        self.processes: typing.List[subprocess.Popen] = []
        self.start("scheduler", "--host", "127.0.0.1", "--port", "0", "--scheduler-file",
                   str(self.file))
        wait_for(self.file.exists, "the scheduler's file")
        self.start("worker", "--scheduler-file", str(self.file), "--nworkers", "2", "--nthreads",
                   "1", "--memory-limit", "0", "--local-directory", str(place), "--host",
                   "127.0.0.1", "--resources", "places=2")

    def start(self, what: str, *words: str) -> None:
        command = [sys.executable, "-m", DASK + what, "--no-dashboard", *words]
        environment = {**os.environ, "STAND_IN_LOG": str(self.searches), "STAND_IN_PAUSE": "0.4"}
        self.processes.append(subprocess.Popen(
            command, stdout=self.log, stderr=self.log, stdin=subprocess.DEVNULL, env=environment,
            start_new_session=True))

    def close(self) -> None:
        for process in self.processes:
            os.killpg(process.pid, signal.SIGKILL)
            process.wait()
        self.log.close()


class Clusters(Case):
    COUNT = 12

    @classmethod
    def setUpClass(cls) -> None:
        packages.load("distributed")
        cls._place = pathlib.Path(tempfile.mkdtemp(prefix="suite-check-dask-"))
        cls.cluster = Cluster(cls._place)

    @classmethod
    def tearDownClass(cls) -> None:
        cls.cluster.close()
        shutil.rmtree(cls._place, ignore_errors=True)

    def setUp(self) -> None:
        super().setUp()
        self.log = self.cluster.searches
        self.log.unlink(missing_ok=True)

    def dask(self) -> typing.List[str]:
        return ["--scheduler-file", str(self.cluster.file)]

    def test_workers_and_the_driver_are_killed(self) -> None:
        """First a worker while the driver goes on, then the driver. Dask starts the worker anew."""
        words = self.run_words(self.boards(self.COUNT), *self.dask())
        first = self.begin(*words, pause=0)
        self.addCleanup(first.communicate)
        wait_for(lambda: self.out.exists() and len(self.records()) >= 2, "some runs")
        os.kill(self.busy_worker(), signal.SIGKILL)
        wait_for(lambda: len(self.records()) >= 6, "runs after a worker's end")
        before = set(self.records())
        first.kill()
        first.wait()
        again = self.call(*words)
        self.assertEqual(again.returncode, 0, again.stderr)
        self.demand_all_once(self.COUNT, before)
        # What the worker still did for the killed driver was taken, and not done a second time.
        self.assertLessEqual(len(self.searches()), self.COUNT + 1)

    def busy_worker(self) -> int:
        """A worker that has a search as its child."""
        found: typing.List[int] = []

        def look() -> bool:
            for place in pathlib.Path("/proc").iterdir():
                with contextlib.suppress(OSError):
                    if b"solve" in (place / "cmdline").read_bytes() \
                            and (place / "cwd").resolve() == self.out:
                        found.append(int((place / "stat").read_text().split()[3]))
            return bool(found)
        wait_for(look, "a search")
        return found[0]

    def test_runs_and_verifying_on_the_cluster(self) -> None:
        run = self.run_suite(self.boards(3), "--column", "two=--workers 2", *self.dask())
        self.assertEqual(run.returncode, 0, run.stderr)
        self.demand_all_once(3, ())
        verified = self.call("verify", self.out, *self.dask())
        self.assertEqual(verified.returncode, 0, verified.stdout + verified.stderr)
        self.assertIn("3 of 3 certificates are accepted", verified.stdout)
        pieces = self.call("verify", self.out, "--piece-mib", 0.0005, *self.dask())
        self.assertEqual((pieces.returncode, pieces.stdout), (0, verified.stdout), pieces.stderr)

    def test_a_worker_with_another_program_is_refused(self) -> None:
        self.assertEqual(self.run_suite(self.boards(1)).returncode, 0)
        job = self.job_with_another_sum()
        with self.assertRaisesRegex(tasks.Faulty, r"(?s)the worker tcp://127\.0\.0\.1:\d+ is "
                                    r"refused: it has another program .*stand_in\.py: its sum is "
                                    r"\w{16}\.\., and the caller's 0{16}\.\."):
            pools.DaskPool(None, str(self.cluster.file), [job])
        # A worker that comes later is refused by its first job.
        with pools.opened(pools.DaskPool(None, str(self.cluster.file), [])) as pool:
            pool._executors[1] = pool._client.get_executor(pure=False)
            with self.assertRaisesRegex(tasks.Faulty, "is refused: it has another program"):
                driver.run_all(pool, work.run_job, [job], self.fail)

    def job_with_another_sum(self) -> work.Job:
        from .common import STAND_IN
        record = next(iter(self.records().values()))
        return {**record, "folder": str(self.out), "places": 1, "name": "any",
                "settings": work.sum_of(str(self.out / "suite.json")),
                "needs": [{"what": "program", "path": STAND_IN, "sha256": 64 * "0"}]}

    def test_a_folder_that_no_worker_sees(self) -> None:
        job = {"folder": "/nowhere", "settings": "", "places": 1}
        with self.assertRaisesRegex(tasks.Faulty, "it doesn't see the results folder /nowhere"):
            pools.DaskPool(None, str(self.cluster.file), [job])

    def test_no_scheduler_answers(self) -> None:
        run = self.run_suite(self.boards(1), "--dask", "tcp://127.0.0.1:1")
        self.assertEqual(run.returncode, 64, run.stderr)
        self.assertIn("no Dask scheduler answers at tcp://127.0.0.1:1", run.stderr)



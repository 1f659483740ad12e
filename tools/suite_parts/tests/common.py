"""What the tests share: runs of the tool, and small inputs."""

from __future__ import annotations

import contextlib
import json
import os
import pathlib
import subprocess
import sys
import tempfile
import time
import typing
import unittest

TOOLS = pathlib.Path(__file__).resolve().parent.parent.parent
ROOT = TOOLS.parent
SUITE = str(TOOLS / "suite")
STAND_IN = str(TOOLS / "suite_parts" / "stand_in.py")
EXAMPLES = ROOT / "examples"
BOARD = str(EXAMPLES / "four-moves.tiles")
PATIENCE = 300.0


class Case(unittest.TestCase):
    """A test with a folder of its own."""

    def setUp(self) -> None:
        place = tempfile.TemporaryDirectory(prefix="suite-check-")
        self.addCleanup(place.cleanup)
        self.place = pathlib.Path(place.name)
        self.out = self.place / "results"
        self.log = self.place / "log"
        self.environment = {**os.environ, "STAND_IN_LOG": str(self.log), "TMPDIR": place.name}

    def words(self, *words: typing.Any) -> typing.List[str]:
        return [sys.executable, SUITE, *map(str, words)]

    def call(self, *words: typing.Any, pause: float = 0.0) -> subprocess.CompletedProcess:
        """Runs the tool to its end."""
        return subprocess.run(self.words(*words), capture_output=True, text=True, timeout=600,
                              env={**self.environment, "STAND_IN_PAUSE": str(pause)}, check=False)

    def run_suite(self, *words: typing.Any, pause: float = 0.0) -> subprocess.CompletedProcess:
        """`suite run` by the stand-in into the test's folder."""
        return self.call(*self.run_words(*words), pause=pause)

    def run_words(self, *words: typing.Any) -> typing.List[typing.Any]:
        return ["run", *words, "--out", self.out, "--program", STAND_IN, "--check", "second"]

    def begin(self, *words: typing.Any, pause: float) -> subprocess.Popen:
        """Begins the tool and leaves it running."""
        return subprocess.Popen(self.words(*words), stdout=subprocess.PIPE, stderr=subprocess.PIPE,
                                env={**self.environment, "STAND_IN_PAUSE": str(pause)}, text=True)

    def lines(self) -> typing.List[typing.Dict[str, typing.Any]]:
        """The results, which must all be whole."""
        text = (self.out / "results.jsonl").read_text(encoding="utf-8")
        return [json.loads(line) for line in text.splitlines()]

    def records(self) -> typing.Dict[str, typing.Dict[str, typing.Any]]:
        """The records by the names of their tasks."""
        found = (json.loads(path.read_text(encoding="utf-8"))
                 for path in (self.out / "runs").glob("*.json"))
        return {record["task"]: record for record in found}

    def searches(self) -> typing.List[str]:
        """The searches of the stand-in that ended."""
        return self.log.read_text(encoding="utf-8").splitlines() if self.log.exists() else []

    def boards(self, count: int) -> pathlib.Path:
        """A list of small boards that differ."""
        place = self.place / "boards.txt"
        rows = [f"{number} {' '.join(map(str, board_of(number)))}" for number in range(count)]
        place.write_text("\n".join([*rows, ""]), encoding="ascii")
        return place

    def demand_all_once(self, count: int, before: typing.Collection[str]) -> None:
        """Each of so many runs has one line and one record, and a run that had a record before
        wasn't run again."""
        lines = self.lines()
        self.assertEqual(len(lines), count)
        self.assertEqual(len({line["key"] for line in lines}), count)
        self.assertEqual(len(self.records()), count)
        self.assertTrue(all(line["certified"] for line in lines))
        for task in before:
            board = self.records()[task]["inputs"][0]["path"]
            self.assertEqual(sum(board in search for search in self.searches()), 1, task)
        self.assertEqual(list((self.out / "runs").glob("*.partial")), [])


def board_of(number: int) -> typing.List[int]:
    """The boards of 3 by 3 that two moves and more lead to."""
    board = list(range(9))
    for move in f"{number:b}":
        blank = board.index(0)
        ways = [to for to in (blank - 3, blank + 3, blank - (1 if blank % 3 else 9),
                              blank + (1 if blank % 3 < 2 else 9)) if 0 <= to < 9]
        to = ways[int(move) % len(ways)]
        board[blank], board[to] = board[to], board[blank]
    return board


def wait_for(holds: typing.Callable[[], typing.Any], what: str) -> None:
    """Waits until something holds, and fails if it never does."""
    until = time.monotonic() + PATIENCE
    while not holds():
        if time.monotonic() > until:
            raise AssertionError(f"it was waited in vain: {what}")
        time.sleep(0.02)


def processes_with(word: str) -> typing.List[int]:
    """The processes that have this in their command lines or environments."""
    found = []
    for place in pathlib.Path("/proc").iterdir():
        if not place.name.isdigit() or int(place.name) == os.getpid():
            continue
        with contextlib.suppress(OSError):
            if word.encode() in (place / "cmdline").read_bytes():
                found.append(int(place.name))
    return found

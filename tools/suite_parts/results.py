"""The folder of results.

    suite.json       what all runs share: the program's sum, limits, checkers
    inputs/SUM/NAME  each input once
    runs/NAME.json   a run: hashes of its inputs, command line, report, version, the program's sum
    runs/NAME.cert.gz its certificate
    results.jsonl    a line a run, without the report
"""

from __future__ import annotations

import fcntl
import hashlib
import json
import os
import pathlib
import typing

from .jobs import Job, Settings
from .tasks import Faulty, Task
from .work import Record

LEFT_OUT = {"report", "errors", "inputs", "words", "program", "limits"}


class Results:
    """A folder that one caller at a time writes to."""

    def __init__(self, folder: str):
        self.folder = pathlib.Path(folder).resolve()
        self.lines = self.folder / "results.jsonl"
        self._known: typing.Set[str] = set()
        self._lock: typing.Optional[typing.TextIO] = None

    def open(self, settings: Settings) -> str:
        """Makes the folder, or goes on with it; the sum of its settings."""
        for name in ("inputs", "runs"):
            (self.folder / name).mkdir(parents=True, exist_ok=True)
        self._lock = open(self.folder / ".lock", "w", encoding="ascii")
        try:
            fcntl.flock(self._lock, fcntl.LOCK_EX | fcntl.LOCK_NB)
        except BlockingIOError as error:
            raise Faulty(f"another tools/suite writes to {self.folder}") from error
        place = self.folder / "suite.json"
        if not place.exists():
            replace_text(place, settings.text())
        demand_same(place.read_text(encoding="utf-8"), settings.text(), self.folder)
        return hashlib.sha256(place.read_bytes()).hexdigest()

    def keep_inputs(self, task: Task) -> typing.List[typing.Dict[str, str]]:
        """Puts the task's files into the folder; their places and sums."""
        found = []
        for text in task.inputs:
            total = hashlib.sha256(text.content).hexdigest()
            place = self.folder / "inputs" / total[:16] / text.name
            if not place.exists():
                place.parent.mkdir(exist_ok=True)
                replace_text(place, text.content)
            found.append({"path": str(place.relative_to(self.folder)), "sha256": total})
        return found

    def find_done(self) -> typing.Set[str]:
        """The keys of all runs that are over. A line that a kill cut off is dropped, and one that
        is missing is made of the run's record."""
        whole, lines = 0, self.lines.read_bytes() if self.lines.exists() else b""
        for line in lines.splitlines(keepends=True):
            try:
                self._known.add(json.loads(line)["key"])
            except (ValueError, KeyError, TypeError):
                break
            if not line.endswith(b"\n"):
                break
            whole += len(line)
        else:
            whole = len(lines)
        if whole < len(lines):
            os.truncate(self.lines, whole)
            return self.find_done_anew()
        for record in self.records():
            self.add(record)
        return self._known

    def find_done_anew(self) -> typing.Set[str]:
        self._known.clear()
        return self.find_done()

    def records(self) -> typing.Iterator[Record]:
        for place in sorted((self.folder / "runs").glob("*.json")):
            yield json.loads(place.read_text(encoding="utf-8"))

    def add(self, record: Record) -> None:
        """Writes the line of a run, once."""
        if record["key"] in self._known:
            return
        self._known.add(record["key"])
        line = {name: value for name, value in record.items() if name not in LEFT_OUT}
        with open(self.lines, "a", encoding="utf-8") as file:
            file.write(json.dumps(line, sort_keys=True) + "\n")

    def read(self) -> typing.List[Record]:
        """All whole lines."""
        if not self.lines.exists():
            raise Faulty(f"{self.folder} has no results.jsonl")
        found = []
        for line in self.lines.read_text(encoding="utf-8").split("\n"):
            try:
                found.append(json.loads(line))
            except ValueError:
                continue
        return found


def replace_text(place: pathlib.Path, content: typing.Union[str, bytes]) -> None:
    """Writes a file whole or not at all."""
    new = place.with_name(place.name + ".new")
    new.write_bytes(content if isinstance(content, bytes) else content.encode())
    os.replace(new, place)


def demand_same(before: str, now: str, folder: pathlib.Path) -> None:
    """One folder has runs of one program with the same limits, so that its tables compare like
    with like."""
    if before == now:
        return
    old, new = json.loads(before), json.loads(now)
    differing = [f"{name} {short(old.get(name))} (now {short(value)})"
                 for name, value in new.items() if old.get(name) != value]
    raise Faulty(f"{folder} was made with {', '.join(differing)}: take the same again, or another "
                 "folder")


def short(value: typing.Any) -> str:
    if isinstance(value, str) and len(value) == 64:
        return f"{value[:16]}.."
    return "+".join(value) if isinstance(value, list) else str(value)

"""Columns, and the jobs that they make of tasks."""

from __future__ import annotations

import dataclasses
import hashlib
import json
import os
import re
import shlex
import shutil
import typing

from .tasks import Faulty, Task
from .work import Job, sum_of

FILE_WORDS = {"grid": ("map", "scenario"), "tiles": ("board",), "strips": ("domain", "problem")}
GIVEN_BY_SUITE = ("--cert", "--trace", "--row")


@dataclasses.dataclass(frozen=True)
class Column:
    """What is compared: options of pbnf, or another planner's command with a reader of its answer.
    """

    name: str
    options: typing.Tuple[str, ...] = ()
    command: typing.Tuple[str, ...] = ()
    reader: str = "pbnf"

    @property
    def places(self) -> int:
        """How many processors a run takes: as many as it has workers."""
        words = " ".join(self.options)
        found = re.search(r"--workers[= ]\+?(\d+)", words)
        return int(found[1]) if found else 1


def column_of(word: str) -> Column:
    """Of `NAME=OPTIONS`."""
    name, options = name_and_rest(word, "--column", "NAME=OPTIONS")
    words = tuple(shlex.split(options))
    for word in words:
        if word.split("=")[0] in GIVEN_BY_SUITE:
            raise Faulty(f"--column {name}: {word} is given by the suite itself")
        if word.split("=")[0] == "--tables":
            raise Faulty(f"--column {name}: a file of tables is for one problem, and a column for "
                         "all; --estimate tables looks for tables")
    return Column(name, words)


def planner_of(word: str, readers: typing.Dict[str, str]) -> Column:
    """Of `NAME=COMMAND`."""
    name, command = name_and_rest(word, "--planner", "NAME=COMMAND")
    words = shlex.split(command)
    program = shutil.which(words[0]) if words else None
    if program is None:
        raise Faulty(f"--planner {name}: there is no program {words[0] if words else ''}")
    if not any(takes(words, kind) for kind in FILE_WORDS):
        raise Faulty(f"--planner {name}: its command has none of the words {{domain}}, {{problem}}, "
                     "{map}, {scenario} and {board}, in whose place the files are put")
    return Column(name, (), (program, *words[1:]), readers.get(name, "ipc"))


def takes(command: typing.Sequence[str], kind: str) -> bool:
    """Whether the command of another planner has a place for the files of this kind."""
    return any(f"{{{name}}}" in word for word in command for name in FILE_WORDS[kind])


def name_and_rest(word: str, option: str, form: str) -> typing.Tuple[str, str]:
    name, is_there, rest = word.partition("=")
    if not is_there or not re.fullmatch(r"[\w.+-]+", name):
        raise Faulty(f"{option} {word}: it must be {form}, the name of letters, digits and .+-_")
    return name, rest


@dataclasses.dataclass(frozen=True)
class Settings:
    """What all runs of a results folder share, but for its place: `suite.json` has it."""

    program: typing.Dict[str, str]
    seconds: float
    mib: int
    checkers: typing.Tuple[typing.Dict[str, typing.Any], ...]
    check_seconds: float
    check_mib: int
    journal: bool
    keep: bool

    def text(self) -> str:
        shown = dataclasses.asdict(self) | {"format": "pbnf-suite 1"}
        # (where the program lies, and which commit it is called by, is no part of what was run)
        shown["program"] = self.program["sha256"]
        shown["checkers"] = [checker["name"] for checker in self.checkers]
        return json.dumps(shown, indent=1, sort_keys=True) + "\n"


def job_of(task: Task, column: Column, settings: Settings, folder: str,
           inputs: typing.List[typing.Dict[str, str]]) -> Job:
    is_pbnf = not column.command
    program, words = program_and_words(task, column, settings, [file["path"] for file in inputs])
    checkers = list(settings.checkers) if is_pbnf else []
    key = key_of(task, column, inputs)
    return {
        "key": key, "name": f"{plain(task.name)}.{plain(column.name)}.{key[:8]}",
        "task": task.name, "domain": task.domain, "kind": task.kind, "note": task.note,
        "row": task.row, "swamp": "--swamp" in column.options,
        "reachable": "--reachable" in column.options, "column": column.name,
        "reader": column.reader, "folder": folder, "inputs": inputs, "words": words,
        "command": [program["path"], *words], "program": {
            name: program[name] for name in ("sha256", "version")},
        "needs": needs_of("program", [program, *checkers]) + needs_of("input", inputs, folder),
        "limits": {"seconds": settings.seconds, "mib": settings.mib},
        "check_limits": {"seconds": settings.check_seconds, "mib": settings.check_mib},
        "checkers": checkers, "is_pbnf": is_pbnf,
        "certified": is_pbnf and (bool(checkers) or settings.keep), "keep": settings.keep,
        "journal": is_pbnf and settings.journal, "places": column.places}


def program_and_words(task: Task, column: Column, settings: Settings, paths: typing.List[str]
                      ) -> typing.Tuple[typing.Dict[str, str], typing.List[str]]:
    """What is run, with its words. Names of inputs are seen from the results folder."""
    if not column.command:
        row = [f"--row={task.row}"] if task.kind == "grid" else []
        return settings.program, ["solve", task.kind, *paths, *row, *column.options]
    path, *words = column.command
    values = dict(zip(FILE_WORDS[task.kind], paths)) | {"row": str(task.row)}
    return ({"path": path, "sha256": sum_of(path), "version": path},
            [filled(word, values) for word in words])


def key_of(task: Task, column: Column, inputs: typing.List[typing.Dict[str, str]]) -> str:
    """What tells a run from all others of its folder."""
    identity = [task.name, task.kind, task.row, [file["sha256"] for file in inputs], column.name,
                list(column.options), list(column.command), column.reader]
    return hashlib.sha256(json.dumps(identity).encode()).hexdigest()[:24]


def needs_of(what: str, files: typing.Sequence[typing.Dict[str, typing.Any]], folder: str = ""
             ) -> typing.List[typing.Dict[str, str]]:
    """Files that a worker must have with the same sums."""
    return [{"what": what, "path": os.path.join(folder, file["path"]), "sha256": file["sha256"]}
            for file in files]


def filled(word: str, values: typing.Dict[str, str]) -> str:
    """The word with {domain}, {problem}, {map}, {scenario}, {board} and {row} put in."""
    return re.sub(r"\{(\w+)\}", lambda found: values.get(found[1], found[0]), word)


def plain(text: str) -> str:
    """A name for a file."""
    return re.sub(r"[^\w.+-]", "-", text)[:80]

"""Where tasks come from: scenarios, boards, lists of boards, and folders of domains and problems."""

from __future__ import annotations

import dataclasses
import pathlib
import re
import typing

SHAPES = {9: "3 3", 12: "3 4", 16: "4 4"}  # of a board in a list, by its number of tiles


class Faulty(Exception):
    """A source of tasks that can't be read, in words."""


@dataclasses.dataclass(frozen=True)
class Text:
    """An input file: its name in the results, and its bytes."""

    name: str
    content: bytes


@dataclasses.dataclass(frozen=True)
class Task:
    """A task, with the group that tables show it in and, for a map, the scenario's row and the
    length that the scenario states, which is with diagonal moves."""

    name: str
    domain: str
    kind: str
    inputs: typing.Tuple[Text, ...]
    row: int = 0
    note: str = ""


def tasks_of(source: str) -> typing.Iterator[Task]:
    """The tasks of a scenario (all rows), a board, a list of boards, a problem, or a folder."""
    path = pathlib.Path(source)
    if path.is_dir():
        return tasks_of_folder(path)
    if not path.is_file():
        raise Faulty(f"{source} isn't there")
    if path.suffix == ".pddl":
        return iter([task_of_problem(path)])
    if path.suffix == ".tiles":
        board = text_of(path)
        return iter([Task(path.stem, path.parent.resolve().name, "tiles", (board,))])
    if path.suffix == ".scen" or path.read_bytes().startswith(b"version"):
        return tasks_of_scenario(path)
    return tasks_of_boards(path)


def text_of(path: pathlib.Path) -> Text:
    try:
        return Text(path.name, path.read_bytes())
    except OSError as error:
        raise Faulty(f"{path}: {error.strerror}") from error


# Maps

def tasks_of_scenario(path: pathlib.Path) -> typing.Iterator[Task]:
    scenario = text_of(path)
    lines = scenario.content.decode("utf-8", "replace").split("\n")[1:]
    rows = [line.split() for line in lines if line.strip()]
    if not rows:
        raise Faulty(f"{path} has no rows")
    cells = text_of(map_beside(path, rows[0]))
    for number, words in enumerate(rows):
        yield Task(f"{path.name}:{number}", cells.name, "grid", (cells, scenario), number,
                   words[-1])


def map_beside(path: pathlib.Path, words: typing.List[str]) -> pathlib.Path:
    """The map of a scenario: of the scenario's own name, or else the one that its row names."""
    stem = path.with_suffix("")
    named = path.parent / pathlib.PurePath(words[1] if len(words) > 1 else "").name
    for place in (stem, stem.with_suffix(".map"), named):
        if place.suffix == ".map" and place.is_file():
            return place
    raise Faulty(f"{path}: no map {stem.name} or {named.name} is beside it")


# Boards

def tasks_of_boards(path: pathlib.Path) -> typing.Iterator[Task]:
    """A board a line, perhaps with its number before it, as Korf's list has them."""
    text = text_of(path).content.decode("utf-8", "replace")
    lines = [line.split("#")[0].split() for line in text.split("\n")]
    for at, words in enumerate(lines, 1):
        if not words:
            continue
        numbers = [word for word in words if re.fullmatch("[0-9]{1,9}", word)]
        size = len(words) if len(words) in SHAPES else len(words) - 1
        if numbers != words or size not in SHAPES:
            raise Faulty(f"{path}:{at}: a line of a list has 9, 12 or 16 tiles, perhaps with the "
                         "board's number before them")
        name = words[0] if len(words) > size else str(at)
        board = f"{SHAPES[size]}\n{' '.join(words[-size:])}\n".encode()
        yield Task(f"{path.stem}:{name}", path.stem, "tiles", (Text(f"{name}.tiles", board),))


# PDDL

def tasks_of_folder(folder: pathlib.Path) -> typing.Iterator[Task]:
    """All problems below the folder that have a domain beside them, in the layout of the planning
    competitions."""
    found = [path for path in sorted(folder.rglob("*.pddl"), key=natural)
             if "domain" not in path.name and domain_beside(path)]
    if not found:
        raise Faulty(f"{folder} has no problem with a domain beside it")
    return map(task_of_problem, found)


def natural(name: typing.Any) -> typing.List[typing.Any]:
    """An order of names in which p2 comes before p10."""
    return [(0, int(part), "") if part.isdigit() else (1, 0, part)
            for part in re.split(r"(\d+)", str(name)) if part]


def domain_beside(path: pathlib.Path) -> typing.Optional[pathlib.Path]:
    """The domain of a problem: its own, or the one of its folder."""
    names = (f"{path.stem}-domain.pddl", f"{path.stem}_domain.pddl", f"domain_{path.name}",
             f"domain-{path.name}", f"{path.name[:3]}-domain.pddl", "domain.pddl")
    return next((path.parent / name for name in names if (path.parent / name).is_file()), None)


def task_of_problem(path: pathlib.Path) -> Task:
    domain = domain_beside(path)
    if domain is None:
        raise Faulty(f"{path} has no domain beside it")
    group = path.resolve().parent.name
    return Task(f"{group}:{path.name}", group, "strips", (text_of(domain), text_of(path)))

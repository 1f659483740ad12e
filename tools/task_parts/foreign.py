"""Plans of other programs: what they cost, or why they are none."""

from __future__ import annotations

import re
from typing import Iterator, Sequence

from pddl_parts.task import Task, holds, shown
from picture_parts.reading import GRID_MOVES, lines_of, load, read_grid, read_tiles


class NoPlan(Exception):
    """Why the steps are no plan of the task."""


def steps_of(name: str) -> Iterator[tuple[str, str]]:
    """The steps of a file, each after its place; comments and blank lines are left out."""
    for number, line in enumerate(load(name).decode("utf-8", "replace").splitlines(), 1):
        text = " ".join(line.split(";")[0].lower().split())
        if text:
            yield f"line {number}, `{text}`", text


def cost_of_strips(task: Task, name: str) -> tuple[int, int]:
    """The plan's cost in the task's own terms, and its number of steps."""
    state, cost, count = task.start(), 0, 0
    for place, text in steps_of(name):
        found = re.fullmatch(r"\( ?([^()]+?) ?\)", text)
        if found is None:
            raise NoPlan(f"{place}: not an action with its objects in parentheses")
        try:
            state, price = task.step(state, found[1].split())
        except ValueError as fault:
            raise NoPlan(f"{place}: {fault}") from None
        cost, count = cost + price, count + 1
    for literal in task.goal:
        if not holds(literal, {}, state):
            raise NoPlan(f"at the end {shown(literal, {})} of the goal doesn't hold")
    return cost, count


def cost_of_grid(files: Sequence[str], row: int, has_swamp: bool, name: str) -> tuple[int, int]:
    """The cost and the number of moves of a plan of moves or of cells."""
    grid, letters = read_grid(*files, row), lines_of(load(files[0]))[4:]
    cell, cost, count, steps = grid.start, 0, 0, list(steps_of(name))
    cells = bool(steps) and re.fullmatch("[0-9]+ [0-9]+", steps[0][1]) is not None
    if cells and steps.pop(0)[1] != f"{cell[0]} {cell[1]}":
        raise NoPlan(f"the first cell isn't the start, {cell[0]} {cell[1]}")
    for place, text in steps:
        after = {move: grid.step(cell, move) for move in GRID_MOVES}
        if cells:
            after = {f"{to[0]} {to[1]}": to for to in after.values() if to is not None}
        if after.get(text) is None:
            raise NoPlan(f"{place}: no move that is possible from {cell[0]} {cell[1]}")
        cell = after[text]
        cost += 2 if has_swamp and letters[cell[1]][cell[0]] == ord("S") else 1
        count += 1
    if cell != grid.goal:
        raise NoPlan(f"it ends at {cell[0]} {cell[1]}, and not at the goal, "
                     f"{grid.goal[0]} {grid.goal[1]}")
    return cost, count


def cost_of_tiles(file: str, name: str) -> tuple[int, int]:
    height, width, board, goal = read_tiles(file)
    count = 0
    for place, text in steps_of(name):
        right, down = GRID_MOVES.get(text, (0, 0))
        blank = board.index(0)
        column, row = blank % width + right, blank // width + down
        if text not in GRID_MOVES or not (0 <= column < width and 0 <= row < height):
            raise NoPlan(f"{place}: no move of the blank that is possible there")
        board[blank], board[row * width + column] = board[row * width + column], 0
        count += 1
    if board != goal:
        raise NoPlan(f"it ends with the board {' '.join(map(str, board))}, and not with the goal")
    return count, count

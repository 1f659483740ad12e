"""The boards along a plan as a strip, the moved tile marked."""

import os

from . import canvas
from .reading import GRID_MOVES, Refused, read_report, read_tiles

TILE = 30


def boards_along(size, start, goal, report, name):
    """Each board of the plan, with the place of the tile that was moved (None at the start)."""
    rows, columns = size
    board, found = list(start), [(list(start), None, "start")]
    for at, step in enumerate(report.steps or []):
        dx, dy = GRID_MOVES[step]
        blank = board.index(0)
        x, y = blank % columns + dx, blank // columns + dy
        if not (0 <= x < columns and 0 <= y < rows):
            raise Refused(name, f"line {report.first + at}", f"`{step}` isn't possible there")
        other = y * columns + x
        board[blank], board[other] = board[other], 0
        found.append((list(board), blank, step))
    if report.steps is not None and board != goal:
        line = report.first + len(found) - 1
        raise Refused(name, f"line {line}", "the steps don't lead to the goal board")
    return found


def board_elements(x, y, columns, board, moved):
    rows = len(board) // columns
    parts = [canvas.rect("f-blocked", x - 2, y - 2, columns * TILE + 4, rows * TILE + 4, ' rx="3"')]
    for cell, number in enumerate(board):
        if number == 0:
            continue
        left, top = x + cell % columns * TILE, y + cell // columns * TILE
        names = "f-worker0 s-page moved" if cell == moved else "f-land s-blocked tile"
        parts.append(canvas.rect(names, left + 1, top + 1, TILE - 2, TILE - 2,
                                 ' rx="3" stroke-width="1"'))
        weight = ' font-weight="bold"' if cell == moved else ""
        parts.append(canvas.text("t-worker0" if cell == moved else "t-land", left + TILE / 2,
                                 top + TILE / 2 + 5, 14, str(number), "middle", weight))
    return parts


def draw_tiles(options):
    rows, columns, start, goal = read_tiles(options.board)
    report = read_report(options.report, lambda step: step in GRID_MOVES)
    boards = boards_along((rows, columns), start, goal, report, options.report)
    wide, high = max(columns * TILE, 66) + 24, rows * TILE + 46
    across = min(len(boards), max(4, 960 // wide))
    down = -(-len(boards) // across)
    page = canvas.Page(across * wide, 1.0, options.colours)
    page.title(os.path.basename(options.board))
    page.facts(report.headline()[0].upper() + report.headline()[1:] + ".")
    parts = []
    for at, (board, moved, step) in enumerate(boards):
        x = at % across * wide + (wide - columns * TILE) / 2
        y = at // across * high + 4
        parts.append("<g>")
        parts += board_elements(x, y, columns, board, moved)
        label = step if at == 0 else f"{at} {step}"
        parts.append(canvas.text("f-ink", x + columns * TILE / 2, y + rows * TILE + 21, 13, label,
                                 "middle"))
        parts.append("</g>")
    page.figure(parts, across * wide, down * high - 14)
    items = [(canvas.box("f-land"), 1, "tile"), (canvas.box("f-blocked"), 1, "blank")]
    if len(boards) > 1:
        items.insert(1, (canvas.box("f-worker0"), 1, "the tile that the step moved"))
        items.append((lambda x, y, size: [], 0, "steps are named by the blank's direction"))
    page.legend(items)
    return page.svg()

#!/usr/bin/env python3
"""Does a certificate show its claim of a board? CERTIFICATE BOARD"""
import sys

def demand(holds, fault):
    return holds or sys.exit(f"refused: {fault}")

if len(sys.argv) != 3:
    print(__doc__)
    sys.exit(0 if "--help" in sys.argv else 2)
lines, words = open(sys.argv[1]).read().split("\n"), open(sys.argv[2]).read().split()
height, width, *numbers = [int(word) for word in words if word != "goal"]
size = height * width
start, goal = tuple(numbers[:size]), tuple(numbers[size:] or range(size))

def steps(board):  # the moves up, down, left and right: their numbers, and the boards they make
    at, column = board.index(0), board.index(0) % width
    for action, to in enumerate([at - width, at + width, at - 1, at + 1]):
        if 0 <= to < size and (action < 2 or 0 <= column + to - at < width):
            after = list(board)
            after[at], after[to] = after[to], 0
            yield action, tuple(after)

def distance(cell, other):
    return abs(cell // width - other // width) + abs(cell % width - other % width)

demand(lines[0][-1:] in "12", "only version 1 or 2 of a certificate is read here")
weight, head = [at for at, line in enumerate(lines) if line.startswith(("weight ", "rows "))]
num, den = map(int, lines[weight].split()[1:])
has_plan, board, cost = lines[weight + 1] != "none", start, 0
for number in map(int, lines[weight + 2:head - 1]):  # (no lines, if there is no plan)
    demand(number in dict(steps(board)), "a step of the plan isn't possible")
    board, cost = dict(steps(board))[number], cost + 1
demand(not has_plan or (board, lines[head - 1]) == (goal, f"cost {cost}"), "the goal or the cost")
rows = {tuple(int(digit, 16) for digit in state[:-size - 1:-1]): (int(g), status)
        for state, g, status in map(str.split, lines[head + 1:-2])}
demand(start in rows and rows[start][0] == 0 and 1 <= den <= num, "the start's row, or the weight")
for board, (g, status) in rows.items():
    if status == "closed":  # no goal, and each next board has a row that is no dearer than this way
        fits = all(to in rows and rows[to][0] <= g + 1 for _, to in steps(board))
        demand(fits and board != goal, f"the closed row of {board}")
    else:  # each move brings one tile one cell nearer at most, so no plan through here is too cheap
        least = g + sum(distance(cell, goal.index(tile)) for cell, tile in enumerate(board) if tile)
        demand(has_plan and num * least >= den * cost, f"the cut row of {board}")
print(f"cost {cost} bound {-(-den * cost // num)}" if has_plan else "none")

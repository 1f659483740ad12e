#!/usr/bin/env python3
"""Does a certificate show its claim of a map? CERTIFICATE MAP SCENARIO [--row=K] [--swamp]"""
import sys

def demand(holds, fault):
    return holds or sys.exit(f"refused: {fault}")

names = [word for word in sys.argv[1:] if not word.startswith("--")]
row = sum(int(word[6:]) for word in sys.argv if word.startswith("--row="))
if len(names) != 3:
    print(__doc__)
    sys.exit(0 if "--help" in sys.argv else 2)
lines, (_, _, _, _, *cells), (_, *tasks) = [open(name).read().split("\n") for name in names]
task = [line for line in tasks if line.strip()][row].split()
start, goal = (int(task[-5]), int(task[-4])), (int(task[-3]), int(task[-2]))

def kind(x, y):  # "." is land, "W" is water, and None is neither
    letter = cells[y][x] if 0 <= y < len(cells) and 0 <= x < len(cells[y]) else "@"
    return "." if letter in ".GS" else "W" if letter == "W" else None

def steps(x, y):  # the moves up, down, left and right: their numbers, where they lead, their costs
    for action, (a, b) in enumerate([(x, y - 1), (x, y + 1), (x - 1, y), (x + 1, y)]):
        if kind(a, b) and kind(a, b) == kind(x, y):
            yield action, (a, b), 2 if "--swamp" in sys.argv and cells[b][a] == "S" else 1

weight, head = [at for at, line in enumerate(lines) if line.startswith(("weight ", "rows "))]
num, den = map(int, lines[weight].split()[1:])
has_plan, cell, cost = lines[weight + 1] != "none", start, 0
for number in map(int, lines[weight + 2:head - 1]):  # (no lines, if there is no plan)
    ways = [(to, cost + price) for action, to, price in steps(*cell) if action == number]
    demand(ways, "a step of the plan isn't possible")
    cell, cost = ways[0]
demand(not has_plan or (cell, lines[head - 1]) == (goal, f"cost {cost}"), "the goal or the cost")
rows = {(int(state, 16) % 2048, int(state, 16) // 2048): (int(g), status)
        for state, g, status in map(str.split, lines[head + 1:-2])}
demand(start in rows and rows[start][0] == 0 and 1 <= den <= num, "the start's row, or the weight")
for (x, y), (g, status) in rows.items():
    if status == "closed":  # no goal, and each next cell has a row that is no dearer than this way
        fits = all(to in rows and rows[to][0] <= g + price for _, to, price in steps(x, y))
        demand(fits and (x, y) != goal, f"the closed row of {x},{y}")
    else:  # no way to the goal is shorter than the distance, so no plan through here is too cheap
        least = g + abs(x - goal[0]) + abs(y - goal[1])
        demand(has_plan and num * least >= den * cost, f"the cut row of {x},{y}")
print(f"cost {cost} bound {-(-den * cost // num)}" if has_plan else "none")

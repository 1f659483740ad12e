#!/usr/bin/env python3
"""Does a certificate show its claim of a grounded task? CERTIFICATE DUMP (of tools/ground)"""
import math, re, sys

def demand(holds, fault):
    return holds or sys.exit(f"refused: {fault}")

if len(sys.argv) != 3:
    print(__doc__)
    sys.exit(0 if "--help" in sys.argv else 2)
lines, dump = [open(name).read().split("\n") for name in sys.argv[1:]]
dump, atoms_of = [line.split("\t") for line in dump], re.compile(r"\(.*?\)").findall
atoms = [words[1] for words in dump if words[0] == "atom"]
start, goal = [frozenset(atoms_of(words[1])) for words in dump if words[0] in ("start", "goal")]
actions = [(int(words[1]), *[frozenset(atoms_of(text)) for text in words[3:]])
           for words in dump if words[0] == "action"]

def estimate(state):  # the price of the goal's dearest atom, if no action ever deletes
    now, before = dict.fromkeys(state, 0), None
    while now != before:
        before = dict(now)
        for price, needs, adds, _ in actions:
            dear = price + max([before.get(atom, math.inf) for atom in needs], default=0)
            now.update({atom: min(dear, now.get(atom, math.inf)) for atom in adds})
    return max([now.get(atom, math.inf) for atom in goal], default=0)

demand(lines[0][-1:] in "12" or lines[4] == "estimate plain", "by a pattern or tables none is read")
weight, head = [at for at, line in enumerate(lines) if line.startswith(("weight ", "rows "))]
num, den = map(int, lines[weight].split()[1:])
has_plan, state, cost = lines[weight + 1] != "none", start, 0
for price, needs, adds, deletes in [actions[int(line)] for line in lines[weight + 2:head - 1]]:
    demand(needs <= state, "a step of the plan isn't possible")
    state, cost = state - deletes | adds, cost + price
demand(not has_plan or goal <= state and lines[head - 1] == f"cost {cost}", "the goal or the cost")
rows = {frozenset(atom for bit, atom in enumerate(atoms) if int(state, 16) >> bit & 1):
        (int(g), status) for state, g, status in map(str.split, lines[head + 1:-2])}
demand(start in rows and rows[start][0] == 0 and 1 <= den <= num, "the start's row, or the weight")
for state, (g, status) in rows.items():
    if status == "closed":  # no goal, and each next state has a row that is no dearer than this way
        fits = all(rows.get(state - deletes | adds, [math.inf])[0] <= g + price
                   for price, needs, adds, deletes in actions if needs <= state)
        demand(fits and not goal <= state, f"the closed row of {set(state)}")
    else:  # a plan through here isn't cheaper than the bound, or no goal can be had from here
        demand(num * (g + estimate(state)) >= (den * cost if has_plan else math.inf), "a cut row")
print(f"cost {cost} bound {-(-den * cost // num)}" if has_plan else "none")

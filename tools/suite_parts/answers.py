"""Reads what a program answered. Each reader gives a dictionary with `answer`, and with `cost`,
`bound`, `steps` and `expansions` as far as they are known.

The answer is `plan`, `none`, `stopped`, `refused` (the input or the command line), `memory`,
`time`, `signal` or `failed`. With falling weights it is `plan` as soon as there is a claim, however
the run ended; `claim` is the number of the last one. `said` tells a stop of grounding from one at
the budget.
"""

from __future__ import annotations

import json
import os
import re
import subprocess
import typing

from picture_parts.reading import last_claim

from .limits import Ended

Answer = typing.Dict[str, typing.Any]
PBNF_STATUS = {1: "none", 2: "stopped", 64: "refused", 65: "refused", 71: "memory"}


def read_answer(reader: str, ended: Ended, plan_file: str) -> Answer:
    """By the reader of this name, or by the program that the name leads to."""
    if reader == "pbnf" and "claim" in (found := read_pbnf(ended, plan_file)):
        return found
    if ended.why == "time":
        return {"answer": "time"}
    known = {"pbnf": read_pbnf, "ipc": read_ipc, "fast-downward": read_fast_downward}
    if reader in known:
        return known[reader](ended, plan_file)
    return read_by_program(reader, ended, plan_file)


def read_pbnf(ended: Ended, _: str) -> Answer:
    """Of pbnf itself, or of another build of it."""
    text, number = last_claim(ended.output)
    lines = text.rstrip("\n").split("\n")
    head = re.fullmatch(r"plan (\d+) (\d+)", lines[0])
    last = re.fullmatch(r"bound (\d+)", lines[-1])
    if (ended.status == 0 or number is not None) and head and last:
        claim = {} if number is None else {"claim": number}
        return {"answer": "plan", "cost": int(head[1]), "steps": int(head[2]),
                "bound": int(last[1]), **claim}
    if ended.why != "status":
        return {"answer": "signal", "said": ended.why}
    return {"answer": PBNF_STATUS.get(ended.status, "failed"),
            "said": lines[0] or f"status {ended.status}"}


def read_ipc(ended: Ended, plan_file: str) -> Answer:
    """Of a planner that writes its plan to a file, an action a line, perhaps with `; cost = N`."""
    if os.path.exists(plan_file):
        with open(plan_file, encoding="utf-8", errors="replace") as file:
            text = file.read()
        steps = sum(line.lstrip().startswith("(") for line in text.split("\n"))
        cost = re.search(r"^;\s*cost\s*=\s*(\d+)", text, re.M)
        return {"answer": "plan", "steps": steps, "cost": int(cost[1]) if cost else steps}
    if ended.why != "status":
        return {"answer": "signal", "said": ended.why}
    return {"answer": "failed", "said": f"status {ended.status} and no plan"}


def read_fast_downward(ended: Ended, plan_file: str) -> Answer:
    """Of Fast Downward: its exit codes, and the expansions of its log."""
    found = read_ipc(ended, plan_file)
    codes = {10: "none", 11: "none", 12: "failed", 20: "memory", 22: "memory", 21: "time",
             23: "time", 24: "memory"}
    if found["answer"] == "failed" and ended.status in codes:
        found["answer"] = codes[ended.status]
    expanded = re.search(r"^(?:\[t=[^]]*\] )?Expanded (\d+) state", ended.output, re.M)
    return {**found, **({"expansions": int(expanded[1])} if expanded else {})}


def read_by_program(program: str, ended: Ended, plan_file: str) -> Answer:
    """By a program that gets the output, with the status and the plan's file as words, and prints
    the dictionary as JSON."""
    words = [program, str(ended.status), plan_file]
    run = subprocess.run(words, input=ended.output, capture_output=True, text=True, timeout=60,
                         check=False)
    try:
        found = json.loads(run.stdout)
        return found if isinstance(found, dict) and "answer" in found else {
            "answer": "failed", "said": f"{program} printed no answer"}
    except ValueError:
        return {"answer": "failed", "said": f"{program} printed no JSON"}

"""Columns of tables for figures of an earlier build.

A page keeps the latest table. Figures of earlier builds are lines of bench/history, which is left
out here. A heading of a column may not have the word "before" or "previous", as in "seconds,
before". "Before a run" is no such heading.
"""

import re

from .repository import Finding, without_code

EARLIER = re.compile(r"\b(?:before|previous(?:ly)?)\b(?! (?:an?|the|it|them)\b)", re.I)
HISTORY = "bench/history/"


def find(repository):
    for path in repository.documents():
        if path.startswith(HISTORY):
            continue
        lines = without_code(repository.read(path)).split("\n")
        for number, (line, under) in enumerate(zip(lines, lines[1:]), 1):
            if line.lstrip().startswith("|") and re.match(r"\s*\|[\s:|-]+$", under):
                for cell in (cell.strip() for cell in line.strip().strip("|").split("|")):
                    if EARLIER.search(cell):
                        yield Finding(path, number, f"a column `{cell}`: bench/history is for it")

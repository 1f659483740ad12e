#!/usr/bin/env python3
"""Judges a journal of pbnf for its task, and answers as `pbnf journal` does.

    pbnf_journal.py journal grid JOURNAL MAP SCENARIO [--row K] [--reachable]
    pbnf_journal.py journal tiles JOURNAL BOARD [--row K] [--reachable]
    pbnf_journal.py journal strips JOURNAL DOMAIN PROBLEM [--row K] [--reachable]

Written from docs/FORMATS.md and from the rules of blocks in crates/pb_abstract/README.md, and not
from the proved program. It needs nothing but Python 3, and takes tasks from pbnf_check.py.
"""

import functools
import itertools
import math
import re
import sys

import pbnf_check
from pbnf_check import demand, distance

HEADER = (("blocks", 16, 4096), ("workers", 1, 64), ("budget", 1, 2**40), ("lot", 1, 2**20))
NUMBER = "(0|[1-9][0-9]{0,18})"
EVENTS = [re.compile(form.replace("N", NUMBER).encode()) for form in (
    "(lease) N N N", "(renew) N N N", "(hot) N N", "(cold) N N", "(release) N N (ok|memory)",
    "(off) N (ok|memory)", "(end) (quiet|budget|memory)")]


# Blocks: each gives how many there are, and the pairs of blocks that a step joins

def blocks_of_grid(task, wish):
    """Squares of the least side that gives no more blocks than wished."""
    def columns(side):
        return -(-task.width // side)
    side = next(s for s in range(1, 2049) if columns(s) * -(-task.height // s) <= wish)

    def block(cell):
        return cell // 2048 // side * columns(side) + cell % 2048 // side
    cells = filter(task.is_state, range(len(task.cells)))
    edges = ((block(cell), block(to)) for cell in cells for action in range(4)
             if (to := task.step(cell, action)) is not None)
    return columns(side) * -(-task.height // side), edges


def blocks_of_tiles(task, wish):
    """The cells of the blank, of tile 1 and of tile 2, as many of them as the wish allows."""
    size = len(task.cells)
    followed = max(k for k in (1, 2, 3) if math.perm(size, k) <= wish)
    places = list(itertools.permutations(range(size), followed))  # in the order of their numbers
    numbers = {place: number for number, place in enumerate(places)}
    edges = ((numbers[place], numbers[tuple({place[0]: to, to: place[0]}.get(p, p) for p in place)])
             for place in places for to in range(size)
             if distance(place[0], to, task.width) == 1)
    return len(places), edges


def blocks_of_strips(task, wish):
    """Which of the tracked atoms hold: those that the fewest actions change."""
    counts = [sum((adds | deletes) >> atom & 1 for _, adds, deletes in task.actions)
              for atom in range(len(task.bits))]
    changed = sorted((count, atom) for atom, count in enumerate(counts) if count)
    tracked = [atom for _, atom in changed[:wish.bit_length() - 1]]

    def left(atoms):
        return sum((atoms >> atom & 1) << place for place, atom in enumerate(tracked))
    actions = {tuple(map(left, action)) for action in task.actions}
    count = 2 ** len(tracked)
    edges = ((block, block & ~deletes | adds) for needs, adds, deletes in actions
             for block in range(count) if block & needs == needs)
    return count, edges


BLOCKS = {"grid": blocks_of_grid, "tiles": blocks_of_tiles, "strips": blocks_of_strips}


class Blocks:
    def __init__(self, task, wish):
        self.count, edges = BLOCKS[task.kind](task, wish)
        self.scopes = [{block} for block in range(self.count)]
        for one, other in edges:
            self.scopes[one].add(other)
        self.into = [set() for _ in range(self.count)]
        for block, scope in enumerate(self.scopes):
            for other in scope:
                self.into[other].add(block)

    def meeting(self, block):
        """The blocks whose scopes meet the block's own, this one too."""
        return set().union(*(self.into[other] for other in self.scopes[block]))


# Histories

class Moment:
    """What is so after some events: leases, hot marks, sign-offs and what is left."""

    def __init__(self, settings, blocks):
        self.settings, self.blocks = settings, blocks
        self.leases, self.hot, self.off = {}, set(), set()
        self.left, self.end, self.trouble = settings["budget"], None, False

    def near(self, block):
        return self.blocks.meeting(block) - {block}

    def is_busy(self, block):
        return any(leased in self.near(block) for leased, _ in self.leases.values())

    def fault(self, event):
        """Why the event may not come next, or None."""
        kind, who, *rest = event
        if self.trouble and event != ("end", "memory"):
            return "Trouble"
        if self.end and kind in ("lease", "renew", "hot", "cold", "end"):
            return "Ended"
        if kind == "end":
            return self.fault_of_end(who)
        if who >= self.settings["workers"] or who in self.off:
            return "Worker"
        if (who in self.leases) == (kind in ("lease", "off")):
            return "Holds"
        if kind in ("lease", "hot", "cold") and rest[0] >= self.blocks.count:
            return "Block"
        return getattr(self, f"fault_of_{kind}")(who, *rest)

    def fault_of_end(self, end):
        if end != "memory" and self.leases:
            return "Holds"
        if end == "budget" and self.left:
            return "Quota"
        return "Trouble" if end == "memory" and not self.trouble else None

    def fault_of_lease(self, _, block, quota):
        leased = {block for block, _ in self.leases.values()}
        if leased & self.blocks.meeting(block):
            return "Scope"
        return "Hot" if self.hot & self.near(block) else self.fault_of_quota(quota, self.left)

    def fault_of_quota(self, quota, left):
        return None if 0 < quota == min(self.settings["lot"], left) else "Quota"

    def fault_of_renew(self, who, used, quota):
        block, had = self.leases[who]
        if self.hot & self.near(block):
            return "Hot"
        return "Quota" if used > had else self.fault_of_quota(quota, self.left + had - used)

    def fault_of_hot(self, _, block):
        is_free = not self.settings["plain"] and block not in self.hot and self.is_busy(block)
        return None if is_free else "Hot"

    def fault_of_cold(self, _, block):
        return None if block in self.hot else "Hot"

    def fault_of_release(self, who, used, _):
        return "Quota" if used > self.leases[who][1] else None

    def fault_of_off(self, _, word):
        return "NoEnd" if word == "ok" and not self.end else None

    def take(self, event):
        """Goes on by an event that may come next."""
        kind, who, *rest = event
        self.trouble = not self.end and event[-1] == "memory" and kind != "end"
        if kind == "lease":
            self.leases[who] = tuple(rest)
            self.left -= rest[1]
        elif kind == "renew":
            block, had = self.leases[who]
            self.leases[who] = block, rest[1]
            self.left += had - rest[0] - rest[1]
        elif kind == "release":
            self.left += self.leases.pop(who)[1] - rest[0]
            self.hot = {block for block in self.hot if self.is_busy(block)}
        elif kind == "hot":
            self.hot = self.hot - self.near(rest[0]) | {rest[0]}
        elif kind == "cold":
            self.hot -= {rest[0]}
        elif kind == "off":
            self.off.add(who)
        else:
            self.end = who

    def is_finished(self):
        return self.end is not None and len(self.off) == self.settings["workers"]


# Texts

def journal_text(settings, events):
    """The text of these settings and events."""
    head = ["pbnf-journal 1", *(f"{name} {settings[name]}" for name, *_ in HEADER),
            f"plain {settings['plain']}"]
    lines = [*head, *(" ".join(map(str, event)) for event in events)]
    return "".join(f"{line}\n" for line in lines).encode()


def read_header(lines):
    demand(line_at(lines, 1) == b"pbnf-journal 1", "Spelling", 1)
    settings = {}
    for at, (name, least, most) in enumerate(HEADER, 2):
        found = re.fullmatch(f"{name} {NUMBER}".encode(), line_at(lines, at))
        demand(found and int(found[1]) < 2**63, "Spelling", at)
        settings[name] = int(found[1])
        demand(least <= settings[name] <= most, "Settings", at)
    found = re.fullmatch(b"plain ([01])", line_at(lines, 6))
    demand(found, "Spelling", 6)
    return settings | {"plain": int(found[1])}


def line_at(lines, at):
    """The line of this number without its line feed."""
    demand(at <= len(lines), "Short", at)
    demand(lines[at - 1].endswith(b"\n"), "Spelling", at)
    return lines[at - 1][:-1]


def read_event(lines, at):
    line = line_at(lines, at)
    found = next(filter(None, (form.fullmatch(line) for form in EVENTS)), None)
    demand(found, "Spelling", at)
    event = tuple(int(word) if word.isdigit() else word.decode() for word in found.groups())
    demand(all(word < 2**63 for word in event if isinstance(word, int)), "Spelling", at)
    return event


def judge_journal(task, text):
    """The line that is printed of an accepted journal: how many events it has."""
    lines = re.findall(rb"[^\n]*\n|[^\n]+", text)
    settings = read_header(lines)
    moment = Moment(settings, Blocks(task, settings["blocks"]))
    events = []
    for at in range(7, len(lines) + 1):
        event = read_event(lines, at)
        fault = moment.fault(event)
        demand(fault is None, fault, at)
        moment.take(event)
        events.append(event)
    demand(moment.is_finished(), "Short", len(lines) + 1)
    assert journal_text(settings, events) == text, "an accepted journal is another text"
    return f"journal {len(events)}"


answer = functools.partial(pbnf_check.answer, command="journal", judge=judge_journal, usage=__doc__)


if __name__ == "__main__":
    sys.exit(pbnf_check.main(answer, __doc__))

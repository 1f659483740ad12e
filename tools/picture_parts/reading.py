"""Reads maps, scenarios, boards, reports, certificates and journals as docs/FORMATS.md says.

A file of another form is refused: `Refused` has one line with the file, the place and the fault.
"""

import os
import re

from names import quoted

INPUT_BYTES = 16 * 2**20
CERTIFICATE_BYTES = 2**30
GRID_MOVES = {"up": (0, -1), "down": (0, 1), "left": (-1, 0), "right": (1, 0)}
NUMBER = re.compile(rb"0|[1-9][0-9]*")


class Refused(Exception):
    """A file that isn't as its format says."""

    def __init__(self, name, place, fault):
        where = f"{quoted(name)}: {place}: " if place else f"{quoted(name)}: "
        super().__init__(where + fault)


class Map:
    """Cells by row, each `.` (land), `W` (water) or `@` (blocked); a start and a goal as (x, y).
    In `swamp` the rows have an `S` for each cell of swamp, if it is asked for."""

    def __init__(self, rows, start, goal, swamp):
        self.rows = rows
        self.swamp = swamp
        self.width = len(rows[0])
        self.height = len(rows)
        self.start = start
        self.goal = goal

    def has(self, x, y):
        return 0 <= x < self.width and 0 <= y < self.height

    def step(self, cell, move):
        """The cell that a move leads to, or None."""
        dx, dy = GRID_MOVES[move]
        x, y = cell[0] + dx, cell[1] + dy
        if not self.has(x, y) or self.rows[y][x] != self.rows[cell[1]][cell[0]]:
            return None
        return (x, y)


class Report:
    """What `solve` printed: the plan's cost and steps, or that there is none, or a stop. With
    falling weights it is the last claim, and all are in `claims`, perhaps with a stop after them.
    The first step stands on the line `first`. `is_ungrounded` says that grounding stopped."""

    def __init__(self, cost=None, steps=None, bound=None, budget=None):
        self.cost = cost
        self.steps = steps
        self.bound = bound
        self.budget = budget
        self.is_ungrounded = False
        self.first = 2
        self.claims = []

    def headline(self):
        if self.is_ungrounded:
            return "grounding stopped; nothing is claimed"
        stop = f"stopped after {self.budget} expansions; " if self.budget is not None else ""
        if self.steps is not None:
            steps = "1 step" if len(self.steps) == 1 else f"{len(self.steps)} steps"
            plan = f"a plan of cost {self.cost} in {steps}; no plan costs less than {self.bound}"
            return stop + ("the last claim is " if stop else "") + plan
        return stop + "nothing is claimed" if stop else "no plan exists"


class Claim:
    """A claim of a run with falling weights: no plan costs less than the bound, which is the least
    whole number that is at least the cost divided by the weight, a pair of N and D."""

    def __init__(self, weight, cost, bound=None):
        num, den = weight
        self.weight = weight
        self.cost = cost
        self.bound = -(-den * cost // num) if bound is None else bound


class Certificate:
    """The head of a certificate; its rows go to the caller one by one."""

    def __init__(self, kind, weight, plan, cost, rows):
        self.kind = kind
        self.weight = weight
        self.plan = plan
        self.cost = cost
        self.rows = rows


def load(name, most=INPUT_BYTES):
    try:
        if os.path.getsize(name) > most:
            raise Refused(name, "", f"longer than {most // 2**20} MiB")
        with open(name, "rb") as file:
            return file.read()
    except OSError as fault:
        raise Refused(name, "", os.strerror(fault.errno or 0)) from None


def lines_of(data):
    lines = data.split(b"\n")
    if lines[-1] == b"":
        lines.pop()
    return [line[:-1] if line.endswith(b"\r") else line for line in lines]


def words_of(line):
    return [word for word in re.split(rb"[ \t]+", line) if word]


def is_number(word):
    return re.fullmatch(rb"[0-9]{1,9}", word) is not None


def read_map_rows(name):
    """The rows of a map by the classes of cells, and as they stand in the file."""
    lines = lines_of(load(name))
    sizes = []
    for at, head in enumerate((b"type", b"height", b"width", b"map")):
        words = words_of(lines[at]) if at < len(lines) else []
        if at in (1, 2) and len(words) == 2 and words[0] == head and is_number(words[1]):
            sizes.append(int(words[1]))
        elif words != ([b"type", b"octile"], None, None, [b"map"])[at]:
            raise Refused(name, f"line {at + 1}", "not the head of a map")
    height, width = sizes
    if not (1 <= height <= 2048 and 1 <= width <= 2048):
        raise Refused(name, "line 2", "height or width isn't 1 to 2048")
    classes = bytes.maketrans(b".GSW@OT", b"...W@@@")
    rows, bytes_of_rows = [], []
    for y in range(height):
        place = f"line {y + 5}"
        if y + 4 >= len(lines) or len(lines[y + 4]) != width:
            raise Refused(name, place, f"not a row of {width} cells")
        other = re.search(rb"[^.GSW@OT]", lines[y + 4])
        if other:
            raise Refused(name, f"{place}, column {other.start() + 1}", "no cell of a map")
        bytes_of_rows.append(lines[y + 4])
        rows.append(lines[y + 4].translate(classes))
    for at in range(height + 4, len(lines)):
        if words_of(lines[at]):
            raise Refused(name, f"line {at + 1}", "a line below the last row isn't blank")
    return rows, bytes_of_rows


def read_grid(map_name, scenario_name, row, has_swamp=False):
    rows, bytes_of_rows = read_map_rows(map_name)
    lines = lines_of(load(scenario_name))
    if not lines or not lines[0].startswith(b"version"):
        raise Refused(scenario_name, "line 1", "doesn't begin with `version`")
    places = [at for at in range(1, len(lines)) if words_of(lines[at])]
    if row >= len(places):
        raise Refused(scenario_name, "", f"has {len(places)} rows, and no row {row}")
    place = f"line {places[row] + 1}"
    words = words_of(lines[places[row]])
    if len(words) < 9 or not all(is_number(word) for word in words[-7:-1]):
        raise Refused(scenario_name, place, "not a row of a scenario")
    width, height, start_x, start_y, goal_x, goal_y = (int(word) for word in words[-7:-1])
    swamp = bytes_of_rows if has_swamp else []
    grid = Map(rows, (start_x, start_y), (goal_x, goal_y), swamp)
    if (width, height) != (grid.width, grid.height):
        raise Refused(scenario_name, place, "width or height isn't the map's")
    for what, cell in (("start", grid.start), ("goal", grid.goal)):
        if not grid.has(*cell):
            raise Refused(scenario_name, place, f"the {what} isn't on the map")
    for what, (x, y) in (("start", grid.start), ("goal", grid.goal)):
        if rows[y][x] == ord("@"):
            raise Refused(scenario_name, place, f"the {what} is blocked")
    return grid


def read_tiles(name):
    """Rows, columns, the start board and the goal board, each a list of numbers."""
    data = load(name)
    found = [(m.group(), data.count(b"\n", 0, m.start()) + 1)
             for m in re.finditer(rb"[^ \t\r\n]+", data)]
    goal_at = None
    for at, (word, line) in enumerate(found):
        if word == b"goal" and goal_at is None and at >= 2:
            goal_at = at
        elif not is_number(word):
            raise Refused(name, f"line {line}", "neither a number nor the first `goal`")
    numbers = [int(word) for word, _ in found if word != b"goal"]
    if len(numbers) < 2:
        raise Refused(name, "", "fewer than two numbers")
    rows, columns = numbers[:2]
    if not (2 <= rows <= 4 and 2 <= columns <= 4):
        raise Refused(name, f"line {found[0][1]}", "rows or columns aren't 2 to 4")
    cells = rows * columns
    cut = len(numbers) if goal_at is None else goal_at
    boards = [numbers[2:cut]] + ([] if goal_at is None else [numbers[cut:]])
    for what, board in zip(("start", "goal"), boards):
        if len(board) != cells:
            raise Refused(name, "", f"the {what} has {len(board)} numbers and not {cells}")
    for board in boards:
        for number in board:
            if number >= cells or board.count(number) > 1:
                fault = "isn't on such a board" if number >= cells else "stands twice"
                raise Refused(name, "", f"the number {number} {fault}")
    return rows, columns, boards[0], boards[1] if len(boards) > 1 else list(range(cells))


def read_report(name, is_step):
    """A report of `solve`; `is_step` says of a line's text whether it is a step of this kind."""
    lines = load(name, CERTIFICATE_BYTES).decode("utf-8", "replace").split("\n")
    if lines[-1] != "":
        raise Refused(name, f"line {len(lines)}", "the line has no end")
    lines.pop()
    report, claims, at = Report(), [], 0
    while at < len(lines) and lines[at].startswith("weight "):
        weight = _read_weight(name, lines, at)
        report, at = _read_plan(name, lines, at + 1, is_step)
        claims.append(Claim(weight, report.cost, report.bound))
    if not claims and lines and lines[0].startswith("plan "):
        report, at = _read_plan(name, lines, 0, is_step)
    elif not claims or at < len(lines):
        report.is_ungrounded = lines[at:at + 1] == ["stopped grounding"] and not claims
        report.budget, at = _read_stop(name, lines, at, bool(claims)), at + 1
    if at < len(lines):
        raise Refused(name, f"line {at + 1}", "a line below the report")
    report.claims = claims
    return report


CLAIM = re.compile(r"^weight [0-9]+ [0-9]+\n(plan [0-9]+ [0-9]+\n(?:[^\n]*\n)*?bound [0-9]+\n)",
                   re.M)


def last_claim(text):
    """The report of the last claim of a text that may be cut off, and its number; a text without
    claims as it is, and None."""
    claims = CLAIM.findall(text)
    return (claims[-1], len(claims) - 1) if claims else (text, None)


def _read_weight(name, lines, at):
    found = re.fullmatch(r"weight ([1-9][0-9]*) ([1-9][0-9]*)", lines[at])
    if found is None or not 1 <= int(found[2]) <= int(found[1]) <= 1000:
        raise Refused(name, f"line {at + 1}", "not the weight of a claim")
    return int(found[1]), int(found[2])


def _read_plan(name, lines, at, is_step):
    """The report of a plan that begins at a place, and the place behind it."""
    head = re.fullmatch(r"plan (0|[1-9][0-9]*) (0|[1-9][0-9]*)", lines[at]) \
        if at < len(lines) else None
    if head is None:
        raise Refused(name, f"line {at + 1}", "not the report of `solve`")
    last = at + 1 + int(head[2])
    steps = lines[at + 1 : last]
    for place, step in enumerate(steps):
        if not is_step(step):
            raise Refused(name, f"line {at + 2 + place}", "not a step")
    bound = re.fullmatch(r"bound (0|[1-9][0-9]*)", lines[last]) if last < len(lines) else None
    if bound is None:
        raise Refused(name, f"line {min(last, len(lines)) + 1}", "not the bound")
    report = Report(int(head[1]), steps, int(bound[1]))
    report.first = at + 2
    return report, last + 1


def _read_stop(name, lines, at, has_claims):
    """The budget of a stop; or nothing, if no plan exists or grounding stopped, which no claims
    come before."""
    line = lines[at] if at < len(lines) else ""
    stop = re.fullmatch(r"stopped budget ([1-9][0-9]*)", line)
    if stop is None and (line not in ("none", "stopped grounding") or has_claims):
        raise Refused(name, f"line {at + 1}", "not the report of `solve`")
    return int(stop[1]) if stop else None


class _Lines:
    """The lines of a certificate or a journal, one by one, with the place of the latest."""

    def __init__(self, name, file):
        self.name = name
        self.file = file
        self.line = 0

    def next(self):
        self.line += 1
        return self.file.readline()

    def refuse(self, fault):
        raise Refused(self.name, f"line {self.line}", fault)

    def number(self, word):
        if NUMBER.fullmatch(word) is None or int(word) >= 2**63:
            self.refuse("not a number")
        return int(word)

    def words(self, heads, count):
        """The numbers after the first word of a line, which is one of `heads`."""
        line = self.next()
        words = line[:-1].split(b" ")
        if not line.endswith(b"\n") or len(words) != count + 1 or words[0] not in heads:
            self.refuse("expected " + " or ".join(f"`{head.decode()}`" for head in heads))
        return [self.number(word) for word in words[1:]]


def read_certificate(name, take):
    """Gives each row to `take` as (line, state, g, is closed) and the rest to the caller."""
    try:
        with open(name, "rb") as file:
            if os.fstat(file.fileno()).st_size > CERTIFICATE_BYTES:
                raise Refused(name, "", "longer than 1 GiB")
            return _read_certificate(_Lines(name, file), take)
    except OSError as fault:
        raise Refused(name, "", os.strerror(fault.errno or 0)) from None


def read_claim(name):
    """The claim that a certificate makes, off its first lines and the last one."""
    try:
        with open(name, "rb") as file:
            lines = _Lines(name, file)
            _, _, weight, plan, cost = _read_certificate_head(lines)
            if plan is None:
                lines.refuse("there is no plan, and so no claim to draw")
            file.seek(max(0, os.fstat(file.fileno()).st_size - 5))
            if file.read() != b"\nend\n":
                raise Refused(name, "", "the certificate is cut off")
            return Claim(tuple(weight), cost)
    except OSError as fault:
        raise Refused(name, "", os.strerror(fault.errno or 0)) from None


def read_tables(name):
    """The lines of the tables and traps that a certificate states, and none if it states no tables.
    Nothing after them is read."""
    found = []
    try:
        with open(name, "rb") as file:
            _read_certificate_front(_Lines(name, file), found.append)
    except OSError as fault:
        raise Refused(name, "", os.strerror(fault.errno or 0)) from None
    return found


def _read_certificate_head(lines):
    """The kind, the digits of a state, the weight, the plan and its cost."""
    kind, digits = _read_certificate_front(lines, lambda line: None)
    weight = lines.words([b"weight"], 2)
    if not 1 <= weight[1] <= weight[0] <= 1000:
        lines.refuse("the weight isn't 1 to 1000")
    return kind, digits, weight, *_read_certificate_plan(lines)


def _read_certificate_front(lines, take):
    """The kind and the digits of a state. The lines before the weight are read, and each line of
    tables and traps is given to `take`."""
    version = re.fullmatch(rb"pbnf-certificate ([1234])\n", lines.next())
    if version is None:
        lines.refuse("expected `pbnf-certificate` and 1, 2, 3 or 4")
    is_fourth = version.group(1) == b"4"
    kind = re.fullmatch(rb"kind (strips)\n" if is_fourth else rb"kind (grid|tiles|strips)\n",
                        lines.next())
    if kind is None:
        lines.refuse("expected `kind` and " + ("strips" if is_fourth else "grid, tiles or strips"))
    digits = 64 if version.group(1) == b"1" else lines.words([b"width"], 1)[0]
    if not 1 <= digits <= 256:
        lines.refuse("the width isn't 1 to 256")
    if version.group(1) == b"3":
        _refuse_pattern(lines, lines.words([b"pattern"], 1)[0])
    if is_fourth:
        _read_stated(lines, digits, take)
    return kind.group(1).decode(), digits


def _read_stated(lines, digits, take):
    """The lines of version 4 that say grounding and estimate."""
    if re.fullmatch(rb"grounding (all|reachable)\n", lines.next()) is None:
        lines.refuse("expected `grounding` and all or reachable")
    form = rb"estimate (?:plain|pattern (N)|tables (N) (N) (N))\n".replace(b"N", NUMBER.pattern)
    estimate = re.fullmatch(form, line := lines.next())
    if estimate is None:
        lines.refuse("expected `estimate plain`, `estimate pattern` and a number, or `estimate "
                     "tables` and three numbers")
    if estimate.group(1):
        _refuse_pattern(lines, lines.number(estimate.group(1)))
    elif estimate.group(2):
        take(line)
        _read_lists(lines, digits, [lines.number(word) for word in estimate.groups()[1:]], take)


def _read_lists(lines, digits, counts, take):
    """The lines of so many tables and traps, an image of a table with so many values."""
    if not 1 <= counts[0] <= 64 or max(counts[1:]) > 4096:
        lines.refuse("there are 1 to 64 sums, and at most 4,096 tables and traps each")
    state = rb"[0-9a-f]{%d}" % digits
    for word, count, values in ((b"table", counts[1], counts[0]), (b"trap", counts[2], 0)):
        head = re.compile(rb"%s %s (0|[1-9][0-9]*)\n" % (word, state))
        image = re.compile(state + rb"(?: (?:0|[1-9][0-9]{0,12})){%d}\n" % values)
        for _ in range(count):
            found = head.fullmatch(line := lines.next())
            if found is None:
                lines.refuse(f"expected `{word.decode()}`, its tracked atoms and a number")
            take(line)
            for _ in range(lines.number(found.group(1))):
                if image.fullmatch(line := lines.next()) is None:
                    lines.refuse(f"not an image of a {word.decode()}")
                take(line)


def _refuse_pattern(lines, number):
    if not 1 <= number <= 12:
        lines.refuse("the pattern number isn't 1 to 12")


def _read_certificate(lines, take):
    kind, digits, weight, plan, cost = _read_certificate_head(lines)
    count = lines.words([b"rows"], 1)[0]
    before, unordered = -1, None
    row = re.compile(rb"([0-9a-f]{%d}) (0|[1-9][0-9]*) (closed|cut)\n" % digits)
    for _ in range(count):
        found = row.fullmatch(lines.next())
        if found is None:
            lines.refuse("not a row")
        state = int(found.group(1), 16)
        if state <= before and unordered is None:
            unordered = lines.line
        before = state
        take(lines.line, state, lines.number(found.group(2)), found.group(3) == b"closed")
    if lines.next() != b"end\n":
        lines.refuse("not `end`")
    if lines.next() != b"":
        lines.refuse("a line below `end`")
    if unordered is not None:
        fault = "the state isn't above that of the row before"
        raise Refused(lines.name, f"line {unordered}", fault)
    return Certificate(kind, weight, plan, cost, count)


def _read_certificate_plan(lines):
    line = lines.next()
    if line == b"none\n":
        return None, None
    head = re.fullmatch(rb"plan (0|[1-9][0-9]*)\n", line)
    if head is None:
        lines.refuse("expected `plan` or `none`")
    plan = []
    for _ in range(lines.number(head.group(1))):
        step = lines.next()
        plan.append(lines.number(step[:-1]) if step.endswith(b"\n") else lines.refuse("not a step"))
    return plan, lines.words([b"cost"], 1)[0]


class Journal:
    """The settings by name, and the events, each a tuple of its line's words as numbers."""

    def __init__(self, settings, events):
        self.settings = settings
        self.events = events


HEADER = (("blocks", 16, 4096), ("workers", 1, 64), ("budget", 1, 2**40), ("lot", 1, 2**20),
          ("plain", 0, 1))
EVENTS = [re.compile(form) for form in (
    rb"(lease) (N) (N) (N)", rb"(renew) (N) (N) (N)", rb"(hot) (N) (N)", rb"(cold) (N) (N)",
    rb"(release) (N) (N) (ok|memory)", rb"(off) (N) (ok|memory)", rb"(end) (quiet|budget|memory)")]
EVENTS = [re.compile(form.pattern.replace(b"N", NUMBER.pattern)) for form in EVENTS]


def read_journal(name):
    """A journal whose lines are spelled as the format says, and that can be drawn.

    Tested are the spelling, the ranges of the settings, that a worker leases only without a lease
    and renews, marks and releases only with one, and that nothing is missing at its end. Whether
    each event was allowed (scopes, hot blocks, quotas) is judged by `pbnf journal`, and not here.
    """
    data = load(name, CERTIFICATE_BYTES)
    lines = data.split(b"\n")
    last = lines.pop()
    if last:
        raise Refused(name, f"line {len(lines) + 1}", "the line has no end")
    if not lines or lines[0] != b"pbnf-journal 1":
        raise Refused(name, "line 1", "not `pbnf-journal 1`")
    settings = {}
    for at, (key, least, most) in enumerate(HEADER):
        line = lines[at + 1] if at + 1 < len(lines) else b""
        head = re.fullmatch(key.encode() + b" (" + NUMBER.pattern + b")", line)
        if head is None or not least <= int(head.group(1)) <= most:
            raise Refused(name, f"line {at + 2}", f"expected `{key}` and {least} to {most}")
        settings[key] = int(head.group(1))
    events = [_read_event(name, at + 1, lines[at]) for at in range(6, len(lines))]
    _test_journal(name, settings, events)
    return Journal(settings, events)


def _read_event(name, line, text):
    for form in EVENTS:
        found = form.fullmatch(text)
        if found:
            return tuple(int(word) if word.isdigit() else word.decode() for word in found.groups())
    raise Refused(name, f"line {line}", "not an event")


def _test_journal(name, settings, events):
    held, off, ended = set(), set(), False
    for at, event in enumerate(events):
        fault = None
        kind, worker = event[0], event[1]
        if ended and kind not in ("release", "off"):
            fault = "the search has ended before"
        elif kind == "end":
            ended = True
        elif worker >= settings["workers"] or worker in off:
            fault = f"no worker {worker}, or it has signed off"
        elif (worker in held) == (kind in ("lease", "off")):
            fault = f"worker {worker} has " + ("a lease" if worker in held else "no lease")
        if fault:
            raise Refused(name, f"line {at + 7}", fault)
        if kind == "lease":
            held.add(worker)
        elif kind == "release":
            held.discard(worker)
        elif kind == "off":
            off.add(worker)
    if not ended or len(off) < settings["workers"]:
        raise Refused(name, f"line {len(events) + 7}", "the journal isn't finished")

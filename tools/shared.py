"""What the tools share: made tasks, changed texts, and runs of the built program with limits."""

import argparse
import contextlib
import dataclasses
import functools
import importlib.util
import os
import pathlib
import resource
import select
import signal
import subprocess
import sys
import tempfile
import time

import drawn_tables
from changes import change_certificate, change_text, changed, cut  # noqa: F401 (the tools' names)

ROOT = pathlib.Path(__file__).resolve().parent.parent
BUILT = ROOT / "crates" / "pbnf" / "out" / "pbnf"
FILE_NAMES = {"grid": ("map", "scenario"), "tiles": ("board",), "strips": ("domain", "problem")}
KINDS = tuple(FILE_NAMES)
MEBIBYTE = 2**20
MEMORY_FOLDER = "/dev/shm"  # files in it need no disk

BLOCKS_DOMAIN = """(define (domain blocks) (:requirements :strips)
(:predicates (on ?x ?y) (ontable ?x) (clear ?x) (handempty) (holding ?x))
(:action pick-up :parameters (?x)
 :precondition (and (clear ?x) (ontable ?x) (handempty))
 :effect (and (not (ontable ?x)) (not (clear ?x)) (not (handempty)) (holding ?x)))
(:action put-down :parameters (?x) :precondition (holding ?x)
 :effect (and (not (holding ?x)) (clear ?x) (handempty) (ontable ?x)))
(:action stack :parameters (?x ?y) :precondition (and (holding ?x) (clear ?y))
 :effect (and (not (holding ?x)) (not (clear ?y)) (clear ?x) (handempty) (on ?x ?y)))
(:action unstack :parameters (?x ?y)
 :precondition (and (on ?x ?y) (clear ?x) (handempty))
 :effect (and (holding ?x) (clear ?y) (not (clear ?x)) (not (handempty)) (not (on ?x ?y)))))
"""

DELIVERY_DOMAIN = """(define (domain delivery) (:types truck box - movable movable place)
(:predicates (road ?a ?b - place) (at ?m - movable ?a - place) (in ?b - box ?t - truck))
(:action drive :parameters (?t - truck ?a ?b - place) :precondition (and (at ?t ?a) (road ?a ?b))
 :effect (and (not (at ?t ?a)) (at ?t ?b)))
(:action load :parameters (?b - box ?t - truck ?a - place)
 :precondition (and (at ?b ?a) (at ?t ?a)) :effect (and (not (at ?b ?a)) (in ?b ?t)))
(:action unload :parameters (?b - box ?t - truck ?a - place)
 :precondition (and (in ?b ?t) (at ?t ?a)) :effect (and (not (in ?b ?t)) (at ?b ?a))))
"""


@dataclasses.dataclass
class Task:
    """The texts of a task's files by their names, its scenario's row, if swamp costs 2, and if only
    what is reached has numbers. A wide task may have over 256 ground atoms."""

    kind: str
    texts: dict
    row: int = 0
    swamp: bool = False
    is_wide: bool = False
    reachable: bool = False

    def budget(self, usual):
        """So many expansions, and fewer of a wide task, of which each takes long."""
        return str(min(usual, 50) if self.is_wide else usual)

    def words(self):
        """The words that name its files and its row, and that say which task they spell."""
        return [*self.words_of_journal(), *["--swamp"] * self.swamp]

    def flags(self):
        """The names of the flags among these words."""
        return ["reachable"] * self.reachable + ["swamp"] * self.swamp

    def words_of_journal(self):
        """The same for `journal`, which no cost concerns."""
        return [*FILE_NAMES[self.kind], *["--row", str(self.row)] * bool(self.row),
                *["--reachable"] * self.reachable]

    def turned(self, drawn):
        """In one of eight cases the task by the other grounding."""
        return dataclasses.replace(self, reachable=self.reachable != (drawn.random() < 0.125))

    def has_too_many_atoms(self):
        """Whether it is refused as it is: of the made tasks only wide ones may be, and those with
        more objects."""
        checker = load_checker()
        try:
            if self.is_wide or self.reachable:
                self.read()
        except checker.Refused:
            return True
        return False

    def read(self):
        """The task as the second checker reads it."""
        kind = load_checker().KINDS[self.kind][0]
        return kind(self.row, *self.texts.values(), **dict.fromkeys(self.flags(), True))

    def write(self, folder):
        for name, text in self.texts.items():
            (pathlib.Path(folder) / name).write_bytes(text)


def drawn_pattern(random):
    """A pattern number for `solve`, in half of the cases none."""
    return str(random.choice([0] * 8 + [1, 2, 3, 3, 4, 6, 9, 12]))


READ_TASKS = 12  # how many tasks stay in memory as they were read
KEPT_PATTERNS = 40  # and how many pattern databases
FILE_OF_TABLES = "tables"  # its name in a task's folder


def drawn_estimate(random, task, folder="."):
    """Words of `solve` for the estimate: a pattern number, in half of the cases none, tables that
    are looked for, or drawn ones that suit the task, in a file of this folder. For maps and boards
    tables change nothing, and there is no such file."""
    way = random.random()
    if way < 0.6:
        return ["--pattern", drawn_pattern(random)]
    if way < 0.8:
        return ["--estimate", "tables", *drawn_effort(random, task)]
    if task.kind == "strips":  # (of a task that is refused they aren't looked at)
        text = b"" if task.has_too_many_atoms() else drawn_tables.drawn_file(random, task.read())
        (pathlib.Path(folder) / FILE_OF_TABLES).write_bytes(text)
    return ["--tables", FILE_OF_TABLES, *drawn_effort(random, task) * (random.random() < 0.1)]


def drawn_effort(random, task):
    """Words for how much is looked at to find tables, mostly little. A wide task has many actions
    to look at."""
    effort = random.choice([1, 1, 2] if task.is_wide else [1, 1, 1, 1, 2, 2, 3, 5, 10, 20, None])
    return ["--effort", str(effort)] if effort else []


def drawn_owners(random, most=64):
    """Words of a search by owners (hash-distributed A*): so many workers at most, lots to 4,096."""
    lot = random.choice([1, 2, 3, random.randint(1, 64), random.randint(1, 4096), 4096])
    return ["--engine", "hda", "--workers", str(random.randint(1, most)), "--lot", str(lot)]


def drawn_checkers(random):
    """Words of a `check` by 1 to 4 workers, who judge the certificate by pieces."""
    workers = random.randint(1, 4)
    return ["--workers", str(workers)] if workers > 1 or random.random() < 0.5 else []


@dataclasses.dataclass
class Run:
    """How a run ended: its status (negative: a signal; None: the time ran out), what it said, how
    long it took, how long its threads had a processor together, and the most MiB that it had."""

    status: int
    output: bytes
    errors: bytes
    seconds: float
    worked: float = 0.0
    mebibytes: int = 0

    def alone(self):
        """At least as many seconds as it takes on a quiet machine."""
        return min(self.seconds, self.worked) if self.status is not None else self.seconds


def build_library(name, folder):
    """A library in C that stands before the C library's calls, from its source beside the tools."""
    library = pathlib.Path(folder).resolve() / pathlib.Path(name).with_suffix(".so").name
    source = pathlib.Path(__file__).with_name(name)
    subprocess.run(["cc", "-O2", "-shared", "-fPIC", "-o", library, source], check=True)
    return library


GROUNDING_STOP = b"stopped grounding\n"


def is_grounding_stop(run):
    """Whether grounding stopped. Then nothing is claimed, and nobody need say the same."""
    return run.status == 2 and run.output == GROUNDING_STOP


def run_program(words, folder, seconds, memory=None, variables=None):
    """Runs a program in a folder, for so many seconds at most, with so many bytes of memory, and
    with these variables of the environment besides."""
    if memory is not None:
        return run_with_memory(words, folder, seconds, memory)
    words = [os.fsencode(word) for word in words]
    environment = {**os.environ, **variables} if variables else os.environ
    with contextlib.ExitStack() as left:
        if folder != ".":
            left.enter_context(in_folder(folder))
        files = [left.enter_context(open(os.memfd_create(name), "rb")) for name in ("1", "2")]
        actions = [(os.POSIX_SPAWN_OPEN, 0, os.devnull, os.O_RDONLY, 0)]
        actions += [(os.POSIX_SPAWN_DUP2, file.fileno(), at) for at, file in enumerate(files, 1)]
        began = time.monotonic()
        number = os.posix_spawnp(words[0], words, environment, file_actions=actions)
        status, used = wait_for(number, seconds)
        ended = time.monotonic()
        output, errors = [file.read() for file in files if file.seek(0) == 0]
    worked, mebibytes = used.ru_utime + used.ru_stime, -(-used.ru_maxrss // 1024)
    return Run(status, output, errors, ended - began, worked, mebibytes)


def wait_for(number, seconds):
    """The status of a process and what it used. It is killed if the time runs out, or if this
    process is to end."""
    watched = os.pidfd_open(number)
    is_ended = False
    try:
        is_ended = bool(select.select([watched], [], [], seconds)[0])
    finally:
        os.close(watched)
        if not is_ended:
            os.kill(number, signal.SIGKILL)
        _, status, used = os.wait4(number, 0)
    return os.waitstatus_to_exitcode(status) if is_ended else None, used


def run_with_memory(words, folder, seconds, memory):
    """The same with so many bytes of memory."""
    began = time.monotonic()
    with subprocess.Popen(words, cwd=folder, stdin=subprocess.DEVNULL, stdout=subprocess.PIPE,
                          stderr=subprocess.PIPE,
                          preexec_fn=functools.partial(limit_memory, memory)) as process:
        try:
            output, errors = process.communicate(timeout=seconds)
            status = process.returncode
        except subprocess.TimeoutExpired:
            process.kill()
            output, errors = process.communicate()
            status = None
    return Run(status, output, errors, time.monotonic() - began, time.monotonic() - began)


def limit_memory(size):
    """Bounds the address space of this process and of all that it starts."""
    resource.setrlimit(resource.RLIMIT_AS, (size, size))


class Options(argparse.ArgumentParser):
    """The options of a tool, with those that all have; what is wrong with them is one line."""

    def __init__(self, description):
        form = argparse.RawDescriptionHelpFormatter
        super().__init__(description=description, formatter_class=form)
        self.add_argument("--program", help="the built program (default: that of this checkout)")

    def add_number(self, name, default, meaning, least=1):
        def number(word):
            if not word.isdecimal() or int(word) < least:
                raise argparse.ArgumentTypeError(f"{word} isn't a number of at least {least}")
            return int(word)
        self.add_argument(name, type=number, default=default, metavar="N",
                          help=f"{meaning} (default: {default:,})")

    def error(self, message):
        sys.exit(f"{self.prog}: {message}")


def find_program(given):
    """The program of the option, or the built one of this checkout; ends the run without one."""
    program = pathlib.Path(given).resolve() if given else BUILT
    if not os.access(program, os.X_OK) or program.is_dir():
        sys.exit(f"{pathlib.Path(sys.argv[0]).name}: no program at {program}: build it by ./pbnf")
    return str(program)


@functools.cache
def load_checker():
    """The second checker as a module."""
    place = ROOT / "checker" / "pbnf_check.py"
    specification = importlib.util.spec_from_file_location("pbnf_check", place)
    module = importlib.util.module_from_spec(specification)
    specification.loader.exec_module(module)
    # (a case asks for the same task and patterns several times, which takes most of the time)
    module.KINDS = {kind: (functools.lru_cache(READ_TASKS)(read), count)
                    for kind, (read, count) in module.KINDS.items()}
    module.Tiles.pattern_values = keep_patterns(module.Tiles.pattern_values, lambda board: (
        board.digits, board.width, *board.goal_board))
    module.Strips.pattern_values = keep_patterns(module.Strips.pattern_values, lambda task: task)
    return module


def keep_patterns(call, key_of):
    """The method that gives pattern values, which keeps some for tasks with the same key."""
    kept = {}

    def pattern_values(task, pattern):
        key = key_of(task), pattern
        if key not in kept:
            while len(kept) >= KEPT_PATTERNS:
                kept.pop(next(iter(kept)))
            kept[key] = call(task, pattern)
        return kept[key]
    return pattern_values


@contextlib.contextmanager
def in_folder(folder):
    """Names of files are read in this folder."""
    before = os.getcwd()
    os.chdir(folder)
    try:
        yield
    finally:
        os.chdir(before)


@contextlib.contextmanager
def room():
    """A new folder for the files of a case, in memory where there is such a place. Meanwhile names
    of files are read in it."""
    place = MEMORY_FOLDER if os.access(MEMORY_FOLDER, os.W_OK) else None
    with tempfile.TemporaryDirectory(prefix="pbnf-", dir=place) as folder, in_folder(folder):
        yield folder


def files_here():
    """The files of this folder by name."""
    return {it.name: it.read_bytes() for it in pathlib.Path().iterdir() if it.is_file()}


def keep_files(folder, place):
    """Copies the files of a case, so that what is at fault can be looked at."""
    place.mkdir(parents=True, exist_ok=True)
    for path in pathlib.Path(folder).iterdir():
        (place / path.name).write_bytes(path.read_bytes())


# Made tasks

def make_task(random, kind, size=1):
    """A task of this kind, of which the numbers are drawn; a greater size makes greater tasks. In
    half of the STRIPS tasks only what is reached has numbers; for others that changes nothing."""
    task = {"grid": make_grid, "tiles": make_board, "strips": make_strips}[kind](random, size)
    task.reachable = random.random() < (0.5 if kind == "strips" else 0.1)
    if kind == "strips" and task.reachable and random.random() < 0.3:
        task.texts["problem"] = add_objects(random, task.texts["problem"])
    return task


def add_objects(random, problem):
    """The problem with some objects more, of which no fact says anything."""
    more = " ".join(f"s{number}" for number in range(random.choice([1, 5, 10, 30, 100])))
    return problem.replace(b"(:objects ", f"(:objects {more} ".encode(), 1)


def make_grid(random, size):
    width, height = random.randint(1, 6 + 4 * size), random.randint(1, 6 + 4 * size)
    bytes_of_cells = random.choice(["....@", ".....W@", "..GSWW@OT", "....", ".@", "..S", "...SS@"])
    cells = [[random.choice(bytes_of_cells) for _ in range(width)] for _ in range(height)]
    rows = [make_scenario_row(random, cells) for _ in range(random.randint(1, 3))]
    heads = ["type octile", f"height {height}", f"width {width}", "map"]
    map_lines = heads + ["".join(line) for line in cells]
    end = random.choice(["\n", "\n", "\r\n"])
    texts = {"map": end.join(map_lines + [""]), "scenario": end.join(["version 1", *rows, ""])}
    row = random.randrange(len(rows))
    swamp = random.random() < 0.5
    return Task("grid", {name: text.encode() for name, text in texts.items()}, row, swamp)


def make_scenario_row(random, cells):
    """A row between two cells, which are made land where they are blocked."""
    height, width = len(cells), len(cells[0])
    ends = [(random.randrange(width), random.randrange(height)) for _ in range(2)]
    for x, y in ends:
        if cells[y][x] in "@OT":
            cells[y][x] = "."
    numbers = [width, height, *ends[0], *ends[1], 0]
    return "\t".join(["0", random.choice(["made", "a made map"]), *map(str, numbers)])


def make_board(random, size):
    height, width = random.choice([(2, 2), (2, 3), (3, 2), (2, 4), (3, 3), (3, 4), (4, 4)])
    goal = list(range(height * width))
    has_goal = random.random() < 0.4
    if has_goal:
        random.shuffle(goal)
    start = list(goal)
    if height * width <= 6 and random.random() < 0.5:
        random.shuffle(start)
    else:
        move_blank(random, start, width, random.randint(0, 12 * size))
    parts = [[height, width], start] + ([["goal"], goal] if has_goal else [])
    lines = [" ".join(map(str, part)) for part in parts]
    return Task("tiles", {"board": "\n".join(lines + [""]).encode()})


def move_blank(random, board, width, moves):
    for _ in range(moves):
        blank = board.index(0)
        row, column = divmod(blank, width)
        down, right = random.choice([(-1, 0), (1, 0), (0, -1), (0, 1)])
        if 0 <= row + down < len(board) // width and 0 <= column + right < width:
            other = blank + down * width + right
            board[blank], board[other] = board[other], board[blank]


def make_strips(random, size):
    is_wide = random.random() < 0.2
    ways = [make_wide_blocks, make_wide_delivery, make_wide_domain] if is_wide else \
        [make_blocks, make_delivery, make_domain]
    domain, problem = random.choice(ways)(random, size)
    if random.random() < 0.6:
        domain, problem = add_costs(random, domain, problem)
    texts = {"domain": domain.encode(), "problem": problem.encode()}
    return Task("strips", texts, is_wide=is_wide)


def add_costs(random, domain, problem):
    """The task with drawn costs of its actions, which count if the problem has a metric."""
    has_metric = random.random() < 0.8
    head, *rest = domain.split(":effect (and ")
    for effect in rest:
        cost = random.choice([1, 1, 2, 3, 10, 1000, 2**20] + [0] * (not has_metric))
        increase = f"(increase (total-cost) {cost}) " if has_metric or random.random() < 0.7 else ""
        head += f":effect (and {increase}{effect}"
    declared = random.choice(["(:functions (total-cost))", "(:functions (total-cost) - number)"])
    start = random.choice(["", "(= (total-cost) 0) "])
    metric = "(:metric minimize (total-cost))" if has_metric else ""
    return (head.replace("(:predicates", f"{declared} (:predicates", 1),
            problem.replace("(:init ", f"{metric} (:init {start}", 1))


def make_blocks(random, size):
    """Blocks in drawn towers, and a part of other towers as the goal."""
    blocks = [f"b{number}" for number in range(random.randint(1, 2 + size))]
    starts = [make_towers(random, blocks) for _ in range(2)]
    goal = [fact for fact in starts[1] if random.random() < 0.8]
    init = "(handempty) " + " ".join(starts[0])
    return BLOCKS_DOMAIN, problem_text("blocks", " ".join(blocks), init, goal)


def make_towers(random, blocks):
    facts, below = [], None
    for block in random.sample(blocks, len(blocks)):
        if below is not None and random.random() < 0.6:
            facts.append(f"(on {block} {below})")
        else:
            facts += [f"(ontable {block})"] + ([f"(clear {below})"] if below else [])
        below = block
    return facts + [f"(clear {below})"]


def make_delivery(random, size):
    """Boxes that trucks carry along drawn roads."""
    places = [f"p{number}" for number in range(random.randint(2, 3 + size))]
    trucks = [f"t{number}" for number in range(random.randint(1, size))]
    boxes = [f"x{number}" for number in range(random.randint(1, 2))]
    roads = [f"(road {a} {b})" for a in places for b in places if a != b and random.random() < 0.6]
    starts = [f"(at {thing} {random.choice(places)})" for thing in trucks + boxes]
    goal = [f"(at {box} {random.choice(places)})" for box in boxes]
    objects = f"{' '.join(places)} - place {' '.join(trucks)} - truck {' '.join(boxes)} - box"
    return DELIVERY_DOMAIN, problem_text("delivery", objects, " ".join(roads + starts), goal)


def make_wide_blocks(random, _):
    """15 to 31 blocks, which have 271 to 1,055 atoms; a block or two have to change their place."""
    blocks = [f"b{number}" for number in range(random.choice([15, 16, 17, 19, 22, 27, 30, 31]))]
    random.shuffle(blocks)
    ends = sorted(random.sample(range(1, len(blocks)), random.randint(2, 6)))
    towers = [blocks[at:to] for at, to in zip([0, *ends], [*ends, len(blocks)])]
    facts = [fact for below, *above in towers for fact in [f"(ontable {below})", *(
        f"(on {one} {other})" for one, other in zip(above, [below, *above]))]]
    facts += [f"(clear {tower[-1]})" for tower in towers] + ["(handempty)"]
    random.shuffle(facts)
    one, other, third = random.sample([tower[-1] for tower in towers], 3)
    goal = random.choice([[f"(on {one} {other})"], [f"(on {one} {other})", f"(on {third} {one})"],
                          [f"(ontable {one})"], [f"(on {one} {one})"]])
    return BLOCKS_DOMAIN, problem_text("blocks", " ".join(blocks), " ".join(facts), goal)


def make_wide_delivery(random, _):
    """Boxes on a ring of places with some more roads, of 257 to 1,040 atoms or so. A box has to go
    to a place that is near."""
    count, trucks = random.randint(20, 60), [f"t{at}" for at in range(random.randint(1, 3))]
    wanted = random.choice([257, 300, 512, 700, 1000, 1024])
    most = (wanted - len(trucks) * count) // (count + len(trucks))
    boxes = [f"x{at}" for at in range(max(1, most + random.randint(0, 1)))]
    roads = {(at, (at + 1) % count) for at in range(count)}
    roads |= {tuple(random.sample(range(count), 2)) for _ in range(random.randint(0, 9))}
    roads |= {(to, at) for at, to in roads if random.random() < 0.8}
    at_of = {thing: random.randrange(count) for thing in trucks + boxes}
    moved = random.choice(boxes)
    at_of[trucks[0]] = (at_of[moved] - random.randint(0, 2)) % count
    goal = [f"(at {moved} p{(at_of[moved] + random.randint(0, 3)) % count})"]
    starts = [f"(road p{at} p{to})" for at, to in sorted(roads)]
    starts += [f"(at {thing} p{at})" for thing, at in at_of.items()]
    objects = (f"{' '.join(f'p{at}' for at in range(count))} - place {' '.join(trucks)} - truck "
               f"{' '.join(boxes)} - box")
    return DELIVERY_DOMAIN, problem_text("delivery", objects, " ".join(starts), goal)


def make_wide_domain(random, size):
    """A drawn domain with a predicate of two parameters that has most of the atoms."""
    return make_domain(random, size, random.choice([16, 17, 20, 22, 25, 31, 32]), ["object"])


def make_domain(random, size, count=None, types=None):
    """A drawn domain: some types, predicates and actions, of which not all make sense. With a count
    it has so many objects, and a predicate `wide` of two parameters, which two actions add."""
    types = types or ["object"] + [f"k{number}" for number in range(random.randint(0, 2))]
    objects = {f"o{number}": random.choice(types)
               for number in range(count or random.randint(1, 2 + size))}
    arities = [random.choice([0, 1, 1, 2]) for _ in range(random.randint(1, 4))]
    arities = arities if count is None else [min(arity, 1) for arity in arities[:2]]
    predicates = {f"q{number}": arity for number, arity in enumerate(arities)}
    is_constant = {name: random.random() < 0.3 for name in objects}
    constants = [name for name in objects if is_constant[name]]
    predicates |= {"wide": 2} if count else {}
    actions = [make_action(random, number, predicates, constants, types, 2 if count else 3)
               for number in range(random.randint(1, 3))]
    actions += [f"(:action wide{at} :parameters (?v0 ?v1) :precondition "
                f"{make_atom(random, predicates, ['?v0', '?v1'])} :effect (and (wide {to})))"
                for at, to in enumerate(("?v0 ?v1", "?v1 ?v0")) if count]
    shown = " ".join(f"({name}{''.join(f' ?v{place}' for place in range(arity))})"
                     for name, arity in predicates.items())
    lists = [" ".join(f"{name} - {kind}" for name, kind in objects.items()
                      if is_constant[name] == wanted) for wanted in (True, False)]
    domain = (f"(define (domain made) (:types {' '.join(types[1:])}) (:constants {lists[0]})\n"
              f"(:predicates {shown})\n" + "\n".join(actions) + ")\n")
    facts = [make_atom(random, predicates, list(objects)) for _ in range(random.randint(0, 6))]
    goal = [make_atom(random, predicates, list(objects)) for _ in range(random.randint(0, 3))]
    return domain, problem_text("made", lists[1], " ".join(facts), goal)


def make_action(random, number, predicates, constants, types, most=3):
    parameters = [f"?v{place}" for place in range(random.randint(0, most))]
    typed = " ".join(f"{name} - {random.choice(types)}" for name in parameters)
    atoms = [make_atom(random, predicates, parameters + constants) for _ in range(6)]
    atoms = [atom for atom in atoms if atom]
    needs, effects = atoms[:len(atoms) // 2], atoms[len(atoms) // 2:]
    effects = [f"(not {atom})" if random.random() < 0.4 else atom for atom in effects]
    return (f"(:action a{number} :parameters ({typed})\n"
            f" :precondition (and {' '.join(needs)}) :effect (and {' '.join(effects)}))")


def make_atom(random, predicates, terms):
    """An atom of a drawn predicate; none where it needs terms and there are none."""
    name = random.choice(list(predicates))
    if predicates[name] and not terms:
        return ""
    return f"({' '.join([name] + [random.choice(terms) for _ in range(predicates[name])])})"


def problem_text(domain, objects, init, goal):
    return (f"(define (problem made) (:domain {domain}) (:objects {objects})\n"
            f"(:init {init}) (:goal (and {' '.join(goal)})))\n")

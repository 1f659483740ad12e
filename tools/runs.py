"""How the tools run many cases: several at once, with a summary at the end or at an interrupt, and
with a file in which the runs of one build add up."""

import argparse
import collections
import concurrent.futures
import dataclasses
import fcntl
import hashlib
import itertools
import json
import os
import pathlib
import signal
import sys
import time
import traceback

import shared

LEFT_OUT = ("out", "proofs")  # folders whose texts don't decide what the program does
DEFAULT_SEED = 1


@dataclasses.dataclass
class Found:
    """What a case gave: its answers counted, the seconds of its longest run, and its faults."""

    answers: collections.Counter
    seconds: float
    faults: list


@dataclasses.dataclass
class Total:
    """The same of several cases, and how many they are."""

    cases: int = 0
    answers: collections.Counter = dataclasses.field(default_factory=collections.Counter)
    seconds: float = 0.0
    faults: int = 0

    def add(self, found):
        self.cases += 1
        self.answers += found.answers
        self.seconds = max(self.seconds, found.seconds)
        self.faults += len(found.faults)


def add_options(parser, cases, processes):
    """The options of a tool that runs cases: how many, from which seed, and how many at once."""
    parser.add_number("--cases", cases, "how many cases")
    parser.add_argument("--seed", type=seed_of, metavar="N",
                        help=f"the first case's seed (default: {DEFAULT_SEED}; with --add-to the "
                        "one after the last that this build had)")
    parser.add_number("--processes", processes, "how many cases at once")
    parser.add_argument("--minutes", type=float, metavar="M",
                        help="ends the run after so many minutes, as an interrupt does")
    parser.add_argument("--add-to", metavar="FILE",
                        help="a file in which the runs of one build add up, by the sum of the "
                        "sources that ./pbnf builds from")


def seed_of(word):
    if not word.isdecimal():
        raise argparse.ArgumentTypeError(f"{word} isn't a number of at least 0")
    return int(word)


def run_cases(options, call, begin=None, chunk=20, unit="cases", last=None):
    """Calls `call(seed)`, which gives a `Found`, for each case, and prints faults as they come and
    a summary at the end; the status of the tool. Each process calls `begin` first. There may be a
    last seed."""
    tool = pathlib.Path(sys.argv[0]).name
    sums = Sums(options.add_to, tool, options.program)
    first = sums.next_seed() if options.seed is None else options.seed
    total, began = Total(), time.monotonic()
    try:
        with ending_by_signals(options.minutes):
            end = first + options.cases
            seeds = range(first, end if last is None else min(end, last + 1))
            for seed, found in in_order(call, seeds, options.processes, begin, chunk):
                total.add(found)
                for fault in found.faults:
                    print(f"seed {seed}: {fault}", flush=True)
    except Interrupted as why:
        print(f"{tool}: {why}", flush=True)
    print_summary(total, f"{total.cases} {unit} from seed {first}", time.monotonic() - began)
    sums.add(total, first)
    return 1 if total.faults or sums.faults else 0


def print_summary(total, what, seconds):
    for answer, count in sorted(total.answers.items()):
        print(f"{count:8} {answer}")
    each = f", {1000 * seconds / total.cases:.1f} ms for each" if total.cases else ""
    print(f"{what}, {sum(total.answers.values())} answers in {seconds:.0f} s{each}: {total.faults} "
          f"faults; the longest run took {total.seconds:.2f} s", flush=True)


# Several at once

class Interrupted(Exception):
    """The run is to end: by a signal, or since its time is up."""


class ending_by_signals:
    """Meanwhile SIGINT and SIGTERM, and the end of so many minutes, raise `Interrupted`."""

    SIGNALS = {signal.SIGINT: "interrupted", signal.SIGTERM: "ended by SIGTERM",
               signal.SIGALRM: "its minutes are over"}

    def __init__(self, minutes):
        self.minutes, self.before = minutes, {}

    def __enter__(self):
        self.before = {it: signal.signal(it, self.interrupt) for it in self.SIGNALS}
        signal.setitimer(signal.ITIMER_REAL, 60 * self.minutes if self.minutes else 0)

    def interrupt(self, number, _):
        raise Interrupted(self.SIGNALS[number])

    def __exit__(self, *_):
        signal.setitimer(signal.ITIMER_REAL, 0)
        for number, before in self.before.items():
            signal.signal(number, before)


def in_order(call, seeds, processes, begin, chunk):
    """Each seed with what the call gives of it, in order. Calls that are under way when the caller
    stops are ended."""
    pool = concurrent.futures.ProcessPoolExecutor(
        processes, initializer=begin_process, initargs=(begin,))
    chunks, waiting = iter(lambda it=iter(seeds): list(itertools.islice(it, chunk)), []), \
        collections.deque()
    try:
        for some in chunks:
            waiting.append((some, pool.submit(call_each, call, some)))
            if len(waiting) > 3 * processes:
                done, future = waiting.popleft()
                yield from zip(done, future.result())
        for done, future in waiting:
            yield from zip(done, future.result())
    finally:
        end_processes(pool)


def end_processes(pool):
    """Ends the processes of a pool, at once if need be."""
    processes = list((pool._processes or {}).values())
    pool.shutdown(wait=False, cancel_futures=True)
    for process in processes:
        process.terminate()
    for process in processes:
        process.join(10)
        if process.is_alive():
            process.kill()


def call_each(call, seeds):
    """What the call gives of each seed. (A pool would go on after an exit.)"""
    try:
        return [call_one(call, seed) for seed in seeds]
    except SystemExit:
        os._exit(1)


def call_one(call, seed):
    """What the call gives of a seed. If the tool itself fails, that is a fault, and no end."""
    try:
        return call(seed)
    except Exception:  # pylint: disable=broad-except
        said = traceback.format_exc().strip().split("\n")
        return Found(collections.Counter(["the tool failed"]), 0.0, [" ".join(said[-3:])])


def begin_process(begin):
    """An interrupt is the parent's; it ends this process by SIGTERM, which ends its run too."""
    signal.signal(signal.SIGINT, signal.SIG_IGN)
    signal.signal(signal.SIGTERM, lambda *_: sys.exit(1))
    if begin:
        begin()


# What the runs of one build add up to

def sum_of_sources(root=shared.ROOT):
    """The sum of the sources that decide what the program does, as the launcher has it."""
    names = [it for it in ("./crates.txt", "./HANDLES") if (root / it).is_file()]
    for folder, folders, files in os.walk(root / "crates"):
        folders[:] = [it for it in folders if it not in LEFT_OUT
                      and not it.endswith("must-fail") and not it.startswith("pb_test_")]
        inside = f"./{os.path.relpath(folder, root)}"
        names += [f"{inside}/{it}" for it in files
                  if it.endswith((".rt", ".antt")) or it in ("crates.txt", "HANDLES")]
    names.sort(key=os.fsencode)
    lines = [f"{hashlib.sha256((root / it).read_bytes()).hexdigest()}  {it}\n" for it in names]
    return hashlib.sha256("".join(lines).encode()).hexdigest()


class Sums:
    """The file in which runs add up: by the sum of the sources, and then by tool."""

    def __init__(self, name, tool, program):
        self.name, self.tool, self.faults = name, tool, 0
        if name:
            self.sources = sum_of_sources()
            self.program = hashlib.sha256(pathlib.Path(program).read_bytes()).hexdigest()

    def read(self):
        if not self.name or not os.path.exists(self.name):
            return {}
        return json.loads(pathlib.Path(self.name).read_text() or "{}")

    def next_seed(self):
        ranges = self.read().get(self.sources, {}).get(self.tool, {}).get("seeds", []) \
            if self.name else []
        return max((last for _, last in ranges), default=DEFAULT_SEED - 1) + 1

    def add(self, total, first):
        """Adds a run, and prints what all runs of this build come to. Cases whose seeds an earlier
        run had don't count again."""
        if not self.name:
            return
        with open(f"{self.name}.lock", "w") as lock:
            fcntl.flock(lock, fcntl.LOCK_EX)
            whole = self.read()
            mine = whole.setdefault(self.sources, {}).setdefault(
                self.tool, {"cases": 0, "faults": 0, "longest": 0.0, "seeds": [], "programs": [],
                            "answers": {}})
            if total.cases and all(not (first <= last and begin < first + total.cases)
                                   for begin, last in mine["seeds"]):
                self.add_to(mine, total, first)
            elif total.cases:
                print(f"{self.name}: the cases of an earlier run aren't counted again")
                mine["faults"] = max(mine["faults"], total.faults)
            pathlib.Path(f"{self.name}.new").write_text(json.dumps(whole, indent=1) + "\n")
            os.replace(f"{self.name}.new", self.name)
        self.faults = mine["faults"]
        print(f"all runs of the sources {self.sources[:16]}: {mine['cases']} cases, "
              f"{sum(mine['answers'].values())} answers, {mine['faults']} faults; the longest run "
              f"took {mine['longest']:.2f} s")

    def add_to(self, mine, total, first):
        mine["cases"] += total.cases
        mine["faults"] += total.faults
        mine["longest"] = max(mine["longest"], round(total.seconds, 2))
        mine["seeds"].append([first, first + total.cases - 1])
        mine["programs"] = sorted({*mine["programs"], self.program})
        mine["answers"] = dict(sorted((total.answers + collections.Counter(
            mine["answers"])).items()))

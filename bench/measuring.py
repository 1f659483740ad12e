"""What the scripts of bench/ share: builds of plain searches, and measured runs."""

import math
import resource
import subprocess
import sys
from pathlib import Path

from inputs import ROOT

BUILT = ROOT / "crates" / "pbnf" / "out" / "pbnf"


def build_plain(folder):
    """Builds plain_astar.rs; the program's path."""
    plain = Path(folder) / "plain_astar"
    source = ROOT / "bench" / "plain_astar.rs"
    subprocess.run(["rustc", "-O", "-o", plain, source], check=True)
    return str(plain)


class Run:
    """The least processor time, wall time (ms) and peak memory (MiB) of several runs. A run that
    takes more processor time than the limit (s) is stopped, and counts as the limit."""

    def __init__(self, limit=None):
        self.limit = limit
        self.is_stopped = False
        self.processor = self.wall = self.memory = math.inf
        self.cost = None
        self.bound = None
        self.expanded = None

    def set_limit(self):
        resource.setrlimit(resource.RLIMIT_CPU, (self.limit, self.limit))

    def add(self, plain, words, folder, statuses=(0, 1)):
        """One run, which ends with one of these statuses; what it prints, without the line of
        `measure`."""
        run = subprocess.run([plain, "measure", *words], cwd=folder, capture_output=True,
                             text=True, check=True,
                             preexec_fn=self.limit and self.set_limit)
        text, _, last = run.stdout.rstrip("\n").rpartition("\n")
        processor, wall, memory, status = map(int, last.split(" "))
        # The kernel may stop a run some milliseconds before the limit.
        self.is_stopped = bool(self.limit) and status == -1 and processor > self.limit * 950_000
        if self.is_stopped:
            processor = self.limit * 1_000_000
        elif status not in statuses:
            sys.exit(f"{' '.join(map(str, words))}: status {status}: {text} {run.stderr}")
        self.processor = min(self.processor, processor / 1000)
        self.wall = min(self.wall, wall / 1000)
        self.memory = min(self.memory, memory / 1024)
        return text

    def add_search(self, plain, words, folder):
        """One run of the program, with the cost and the bound that it prints."""
        text = self.add(plain, words, folder)
        if self.is_stopped:
            return
        lines = [line.split(" ") for line in text.split("\n")]
        self.cost = lines[0][1] if lines[0][0] == "plan" else lines[0][0]
        self.bound = lines[-1][1] if lines[-1][0] == "bound" else "none"

    def count_expansions(self, words, folder):
        """How many expansions the program makes in one more run, as its journal says."""
        journal = Path(folder) / "journal"
        journal.unlink(missing_ok=True)
        subprocess.run([*words, "--trace", journal], cwd=folder, stdout=subprocess.DEVNULL,
                       check=False)
        with journal.open(encoding="ascii") as file:
            used = (line.split(" ") for line in file if line.startswith(("renew ", "release ")))
            self.expanded = sum(int(line[2]) for line in used)

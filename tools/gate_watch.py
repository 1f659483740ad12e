"""Looks from outside at a run of the gate: the processor time of each crate, by kind."""

import collections
import glob
import os
import threading
import time

TICKS = os.sysconf("SC_CLK_TCK")
KINDS = ("proof", "tests", "second", "edits")
REST = (None, "rest")
# What starts other commands, and has next to no time of its own.
CARRIERS = ("rt", "run", "sh", "bash", "dash", "env", "nice", "ionice", "taskset", "timeout")
CARRIERS += ("setpriv",)

Stat = collections.namedtuple("Stat", "parent start own waited")


def snapshot():
    """Of each process its parent, its start, its own seconds and those of ended children."""
    found = {}
    for name in filter(str.isdigit, os.listdir("/proc")):
        try:
            with open(f"/proc/{name}/stat", "rb") as file:
                numbers = list(map(int, file.read().rsplit(b")", 1)[1].split()[1:20]))
        except (OSError, IndexError, ValueError):
            continue
        own, waited = sum(numbers[10:12]) / TICKS, sum(numbers[12:14]) / TICKS
        found[int(name)] = Stat(numbers[0], numbers[18], own, waited)
    return found


def machine_seconds():
    """The seconds that all processors of the machine worked since it began."""
    with open("/proc/stat", encoding="ascii") as file:
        user, nice, system, _, _, *interrupts = map(int, file.readline().split()[1:8])
    return (user + nice + system + sum(interrupts)) / TICKS


def command_of(process):
    """The words of a process and its folder; nothing of one that has ended."""
    try:
        with open(f"/proc/{process}/cmdline", "rb") as file:
            words = file.read().decode(errors="replace").split("\0")
        return words, os.readlink(f"/proc/{process}/cwd")
    except OSError:
        return [""], ""


def gates_in(folder):
    """The processes that run the gate in a checkout."""
    for name in filter(str.isdigit, os.listdir("/proc")):
        words, at = command_of(name)
        heads = [os.path.basename(word) for word in words]
        if at == folder and ("rt", "ci") in zip(heads, heads[1:]):
            yield int(name)


def text_of(path):
    """A file's text, or nothing if it can't be read."""
    try:
        with open(path, encoding="utf-8", errors="replace") as file:
            return file.read()
    except OSError:
        return None


def read_edit(path):
    """The files of a wrong edit, each with the pairs of texts that it exchanges."""
    changes, file, old = collections.defaultdict(list), None, None
    for line in (text_of(path) or "").splitlines():
        word, _, rest = line.partition(":")
        rest = rest[1:] if rest.startswith(" ") else rest
        if word == "file":
            file = rest
        elif word == "old":
            old = rest
        elif word == "new" and old is not None:
            changes[file].append((old, rest))
    return changes


def edit_in(folder, root, crate):
    """The name of the wrong edit that stands in this copy of a crate."""
    for path in sorted(glob.glob(f"{root}/crates/{crate}/must-fail/*.edit")):
        for file, pairs in read_edit(path).items():
            text = text_of(f"{root}/crates/{crate}/{file}") or ""
            for old, new in pairs:
                text = text.replace(old, new, 1)
            if text_of(f"{folder}/{file}") != text:
                break
        else:
            return os.path.basename(path)[: -len(".edit")]
    return "(unknown)"


def label_of(words, folder):
    """The crate and the kind of a run of the prover, as its words tell them; REST of others."""
    if os.path.basename(words[0]) != "rattle" or "--crate-name" not in words[:-1]:
        return REST
    crate = words[words.index("--crate-name") + 1]
    if os.path.basename(folder).startswith("rt-edit-"):
        kept = words[words.index("--incremental") + 1] if "--incremental" in words[:-1] else ""
        # A check over this folder has no edit: it makes the folder, or looks at it once more.
        return crate, "second" if os.path.basename(kept) == "seed" else "edits"
    return crate, "tests" if "--test" in words else "proof"


class Account:
    """What a process that starts others has waited for, and for which of them it is known."""

    def __init__(self, waited):
        self.known, self.recent, self.older = waited, [], []

    def settle(self, waited, take):
        """Gives what ended children took since they were last seen to them, in equal parts."""
        more, heirs = waited - self.known, self.recent + self.older
        if more > 0:
            for heir in heirs:
                take(heir, more / len(heirs))
            self.known, self.recent, self.older = waited, [], []
            return
        if more < 0 and not self.recent:
            self.known = waited
        self.older, self.recent = self.recent, []


class Watch:
    """The seconds of every command below a process. Time between two looks isn't lost: what a
    parent waited for tells how much its ended children took."""

    def __init__(self, root, folder):
        self.root, self.folder = root, folder
        self.began, self.machine = time.monotonic(), machine_seconds()
        self.seconds, self.labels, self.edits = collections.Counter(), {}, {}
        self.parents, self.accounts = {}, {}
        self.total, self.wall = 0.0, 0.0
        self.before = None

    def look(self):
        """Looks once, and returns whether the process still runs."""
        every = snapshot()
        if self.root not in every:
            return False
        children = collections.defaultdict(list)
        for process, stat in every.items():
            children[stat.parent].append(process)

        def whole(process):
            stat = every[process]
            return stat.own + stat.waited + sum(map(whole, children[process]))

        self.total, self.wall = whole(self.root), time.monotonic() - self.began
        if self.before is None:
            self.before = every[self.root].waited
        alive = self.walk(every, children, whole)
        for key in [key for key in self.parents if key not in alive]:
            account = self.accounts.get(self.parents.pop(key))
            if account:
                account.recent.append(key)
                account.known += self.seconds[key]
        for key, account in self.accounts.items():
            if key in alive:
                account.settle(every[key[0]].waited, self.take)
        return True

    def take(self, key, seconds):
        self.seconds[key] += seconds

    def walk(self, every, children, whole):
        """Notes each command below the process, and returns those that run."""
        alive, left = set(), [(self.root, None)]
        while left:
            process, parent = left.pop()
            stat = every[process]
            key = (process, stat.start)
            alive.add(key)
            if parent:
                self.parents[key] = parent
            words, folder = command_of(process)
            name = os.path.basename(words[0])
            if process == self.root or name in CARRIERS or name.startswith("python"):
                self.accounts.setdefault(key, Account(stat.waited))
                self.seconds[key], self.labels[key] = stat.own + stat.waited, REST
                left += [(child, key) for child in children[process]]
            else:
                self.seconds[key] = whole(process)
                self.accounts.pop(key, None)
                self.name(key, words, folder)
        return alive

    def name(self, key, words, folder):
        """Notes what a command is for, once it shows that."""
        if self.labels.get(key, REST) == REST:
            self.labels[key] = label_of(words, folder)
        if self.labels[key][1] == "edits" and key not in self.edits:
            self.edits[key] = edit_in(folder, self.folder, self.labels[key][0])

    def by_crate(self):
        """Of each crate its seconds by kind."""
        sums = collections.defaultdict(lambda: dict.fromkeys(KINDS, 0.0))
        for key, (crate, kind) in self.labels.items():
            if crate:
                sums[crate][kind] += self.seconds[key]
        return dict(sums)

    def by_edit(self):
        """The seconds of each wrong edit: crate, name and seconds."""
        sums = collections.Counter()
        for key, edit in self.edits.items():
            sums[self.labels[key][0], edit] += self.seconds[key]
        return [[crate, edit, seconds] for (crate, edit), seconds in sums.most_common()]

    def record(self, total=None):
        """All that was seen, as plain values. A total that is known in full may be given."""
        crates = self.by_crate()
        proved = sum(sum(by.values()) for by in crates.values())
        total = total or self.total
        return {
            "crates": crates,
            "edits": self.by_edit(),
            "rest": max(total - proved - self.before_seconds(), 0.0),
            "before": self.before_seconds(),
            "wall": self.wall,
            "others": max(machine_seconds() - self.machine - total + self.before_seconds(), 0.0),
            "processors": len(os.sched_getaffinity(0)),
        }

    def before_seconds(self):
        return self.before or 0.0


class Watcher(threading.Thread):
    """Looks at a process every half second, and keeps what was seen every twenty."""

    def __init__(self, watch, keep):
        super().__init__(daemon=True)
        self.watch, self.keep, self.ended = watch, keep, threading.Event()

    def run(self):
        kept = time.monotonic()
        while not self.ended.wait(0.5):
            if not self.watch.look():
                return
            if time.monotonic() - kept > 20:
                self.keep(self.watch.record())
                kept = time.monotonic()

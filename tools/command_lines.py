"""Draws command lines with hostile values, and says which refusal each must get.

Written from docs/FORMATS.md: the ranges of the options, and the order in which a command line is
tested. A value is a number in its range or beyond, or no number at all.
"""

import re

import shared

RANGES = {"--row": (0, 10**6), "--workers": (1, 64), "--num": (1, 1000), "--den": (1, 1000),
          "--falling": (1, 20), "--budget": (1, 2**40), "--lot": (1, 2**20),
          "--blocks": (16, 4096), "--pattern": (0, 12), "--effort": (1, 20)}
WORDS = {"--engine": ("pbnf", "hda"), "--estimate": ("tables",)}
FLAGS = ("--plain", "--swamp", "--reachable")
SAVED = ("--cert", "--trace", "--rewrite")
OPTIONS = {"solve": [*RANGES, *WORDS, *FLAGS, "--tables", "--cert", "--trace"],
           "check": ["--row", "--workers", "--swamp", "--reachable", "--rewrite"],
           "journal": ["--row", "--reachable"], "make": ["--workers"]}
SIZES = {"grid": (1, 2048), "tiles": (0, 10**6), "strips": (1, 14)}
# Sizes that are solved within a second.
SMALL_SIZES = {"grid": 60, "tiles": 30, "strips": 5}
NO_NUMBERS = ("", " 1", "1 ", "-1", "+", "+-1", "--", "1.0", "1e3", "0x10", "1_000", "NaN", "inf",
              "\u0663", "\u2167", "1\n", "9" * 20, "9" * 400, "1" + "0" * 400, str(2**64),
              str(2**128), "\U0001f600" * 300)
NO_WORDS = ("", "PBNF", "hda ", "pbnf\n", "table", "tables,tables", "\u00fc", "x" * 70000, "-", "1")


def drawn_value(random, low, high):
    """A number as it may be spelled, in half of the cases in the range, or something else."""
    way = random.random()
    if way < 0.15:
        return random.choice(NO_NUMBERS)
    beyond = [low - 1, high + 1, 2 * high, 2**31, 2**32, 2**63 - 1, 2**63, 2**64 - 1, 2**64]
    number = random.choice([low, low + 1, high - 1, high, random.randint(low, high),
                            random.randint(low, min(high, low + 20))]) if way < 0.75 \
        else random.choice([it for it in beyond if it >= 0])
    return random.choice(["", "", "", "+", "0", "+00", "0" * 300]) + str(number)


def is_number(word, low, high):
    return bool(re.fullmatch(r"\+?[0-9]{1,4000}", word, re.ASCII)) and low <= int(word) <= high


class Line:
    """A command line, and what was given for each option."""

    def __init__(self, command, kind, names):
        self.command, self.kind, self.names = command, kind, names
        self.given, self.is_faulty = {}, False
        self.words = []

    def add(self, random, name, value=None):
        """Gives an option, in one of two forms. Twice it is refused."""
        self.is_faulty |= name in self.given or name not in OPTIONS[self.command]
        self.given[name] = value
        if value is None:
            self.words.append([name])
            return
        is_joined = random.random() < 0.5
        # (a word that begins with - is no value, and an empty one is a fault of its own)
        self.is_faulty |= not is_joined and value[:1] == "-" and value != "-" or value == ""
        self.words.append([f"{name}={value}"] if is_joined else [name, value])

    def number(self, name):
        return int(self.given[name]) if name in self.given else None

    def refusal(self):
        """The beginning of the text with which it is refused at status 64, or None."""
        if self.is_faulty or not all(map(self.is_in_range, self.given)):
            return "error: "
        if self.command == "make":
            seed, size = self.names
            if not is_number(seed, 0, 2**32 - 1) or not is_number(size, 0, 2**64 - 1):
                return "error: "
        own = self.command != "solve"  # (the parser wants one or two files behind it)
        is_one = self.command != "make" and 1 <= len(self.names) - own <= 2
        if self.kind not in shared.KINDS or not is_one and self.command != "make":
            return "error: "
        if self.command == "make":
            return None if is_number(size, *SIZES[self.kind]) else "words size\n"
        if len(self.names) != len(shared.FILE_NAMES[self.kind]) + own:
            return "words files\n"
        return next((f"words {word}\n" for word, is_refused in self.tests() if is_refused), None)

    def is_in_range(self, name):
        value = self.given[name]
        if name in RANGES:
            return is_number(value, *RANGES[name])
        return value in WORDS[name] if name in WORDS else True

    def tests(self):
        """The tests behind that of the files' number, in their order."""
        given = self.given
        is_hda = given.get("--engine") == "hda"
        yield "weight", (self.number("--num") or 1) < (self.number("--den") or 1)
        is_one = "--cert" in given and given.get("--cert") == given.get("--trace")
        yield "names", is_one or given.get("--rewrite") in self.names
        yield "engine", is_hda and ("--trace" in given or "--falling" in given)
        yield "falling", "--trace" in given and "--falling" in given
        yield "estimate", ("--estimate" in given) + ("--tables" in given) + (
            (self.number("--pattern") or 0) > 0) > 1

    def drawn_words(self, random):
        """The words of this command line: options stand in any order, among the names."""
        parts = [*self.words, *[None] * len(self.names)]
        random.shuffle(parts)
        names = iter(self.names)
        return [self.command, self.kind, *(
            word for part in parts for word in ([next(names)] if part is None else part))]

    def words_of_task(self, *flags):
        """The words that name the task's files and say which task they spell, with these flags
        alone, as the checkers in Python are given them."""
        names = self.names[-len(shared.FILE_NAMES[self.kind]):]
        row = ["--row", self.given["--row"]] if "--row" in self.given else []
        return [*names, *row, *(flag for flag in flags if flag in self.given)]


def drawn_line(random, task, command):
    """A drawn command line of a task whose files are in this folder."""
    if command == "make":
        return drawn_make(random)
    own = {"solve": [], "check": ["certificate"], "journal": ["journal"]}[command]
    names = [*own, *shared.FILE_NAMES[task.kind]]
    if random.random() < 0.05:
        names = random.choice([names[:-1], [*names, names[0]], names[1:], []])
    kind = task.kind if random.random() < 0.97 else random.choice(["Grid", "tile", "pddl", "x"])
    line = Line(command, kind, names)
    for name in random.sample(OPTIONS[command], random.randint(1, min(6, len(OPTIONS[command])))):
        add_drawn(random, line, name, task)
    if random.random() < 0.05 and line.given:
        add_drawn(random, line, random.choice(list(line.given)), task)
    if random.random() < 0.03:
        line.add(random, random.choice(["--help", "--version", "-h", "--rows", "--CERT", "-x"]))
    if command == "solve" and "--budget" not in line.given:
        line.add(random, "--budget", task.budget(2000))
    return line


def add_drawn(random, line, name, task):
    if name in RANGES:
        low, high = RANGES[name]
        # (what takes long with a large task is left small)
        if name in ("--budget", "--effort") and random.random() < 0.9:
            high = min(high, 50 if task.is_wide else 3000)
        value = "0" if name == "--row" and random.random() < 0.6 else drawn_value(random, low, high)
        line.add(random, name, value)
    elif name in WORDS:
        is_right = random.random() < 0.8
        line.add(random, name, random.choice(WORDS[name] if is_right else NO_WORDS))
    elif name in FLAGS:
        line.add(random, name)
    elif name == "--tables":
        line.add(random, name, random.choice([shared.FILE_OF_TABLES] * 4 + ["missing", "."]))
    else:
        line.add(random, name, random.choice(["saved", "saved", "other", *line.names[:2], ".",
                                              "missing/file", "n" * 300]))


def drawn_make(random):
    kind = random.choice(shared.KINDS)
    low, high = SIZES[kind]
    size = drawn_value(random, low, SMALL_SIZES[kind])
    if is_number(size, SMALL_SIZES[kind] + 1, high):
        size = str(SMALL_SIZES[kind])
    line = Line("make", kind, [drawn_value(random, 0, 2**32 - 1), size])
    if random.random() < 0.5:
        line.add(random, "--workers", drawn_value(random, 1, 64))
    # (a name that begins with - is an option, which isn't known)
    line.is_faulty |= any(it[:1] == "-" and it != "-" for it in line.names)
    return line

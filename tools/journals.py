"""Drawn journals for `fuzz`: legal histories of a task's blocks, and changes of their texts."""

import functools
import importlib.util
import re
import sys

import shared

KINDS_OF_EVENTS = ["lease"] * 4 + ["renew"] * 3 + ["hot", "hot", "cold"] + ["release"] * 3
END_KINDS = ["release", "off"]
TRIES = 60
KEPT_BLOCKS = 12  # how many tasks' blocks stay in memory


@functools.cache
def load_judge():
    """The second judge of journals as a module."""
    sys.modules["pbnf_check"] = shared.load_checker()
    place = shared.ROOT / "checker"
    specification = importlib.util.spec_from_file_location("pbnf_journal",
                                                           place / "pbnf_journal.py")
    module = importlib.util.module_from_spec(specification)
    specification.loader.exec_module(module)
    module.Blocks = functools.lru_cache(KEPT_BLOCKS)(module.Blocks)
    return module


def drawn_journal(random, task):
    """The text of a finished legal history over the task's blocks, and how many events it has."""
    judge = load_judge()
    space = judge.pbnf_check.KINDS[task.kind][0](task.row, *task.texts.values(),
                                                 reachable=task.reachable)
    settings = {"blocks": random.choice([16, 16, 64, 256, 1000]),
                "workers": random.choice([1, 2, 3, 4, 64]),
                "budget": random.choice([1, 5, 40, 1000, 2**40]),
                "lot": random.choice([1, 3, 256, 2**20]), "plain": random.choice([0, 0, 0, 1])}
    moment = judge.Moment(settings, judge.Blocks(space, settings["blocks"]))
    events = []

    def take(event):
        if event and moment.fault(event) is None:
            moment.take(event)
            events.append(event)
    for _ in range(random.randrange(TRIES)):
        take(drawn_event(random, moment))
    if moment.trouble:
        take(("end", "memory"))
    while not moment.is_finished():
        take(last_event(random, moment))
    return judge.journal_text(settings, events), len(events)


def drawn_event(random, moment):
    """Some event, which may be legal or not."""
    if moment.trouble:
        return ("end", "memory")
    worker = random.randrange(moment.settings["workers"])
    block = random.randrange(moment.blocks.count)
    kind = random.choice(END_KINDS if moment.end else KINDS_OF_EVENTS)
    _, quota = moment.leases.get(worker, (0, 0))
    used = random.choice([0, quota, random.randint(0, quota)])
    word = "memory" if random.random() < 0.02 else "ok"
    lot = moment.settings["lot"]
    return {"lease": ("lease", worker, block, min(lot, moment.left)),
            "renew": ("renew", worker, used, min(lot, moment.left + quota - used)),
            "hot": ("hot", worker, block), "cold": ("cold", worker, block),
            "release": ("release", worker, used, word), "off": ("off", worker, word)}[kind]


def last_event(random, moment):
    """An event that leads to the end."""
    if moment.leases:
        worker = random.choice(sorted(moment.leases))
        return ("release", worker, random.randint(0, moment.leases[worker][1]), "ok")
    if not moment.end:
        return ("end", "budget" if moment.left == 0 and random.random() < 0.8 else "quiet")
    workers = set(range(moment.settings["workers"])) - moment.off
    return ("off", random.choice(sorted(workers)), random.choice(["ok", "ok", "memory"]))


def change_journal(random, text):
    """One drawn change of a journal, of which most keep it spelled as one."""
    ways = [shared.change_text, change_event, change_event, change_event, put_event, put_event,
            drop_event, drop_event, move_event, change_header, shared.cut]
    return random.choice(ways)(random, text)


def change_lines(random, text, change):
    """The journal with a drawn event's line changed to a list of lines."""
    lines = text.split(b"\n")
    if len(lines) < 8:
        return shared.change_text(random, text)
    at = random.randrange(6, len(lines) - 1)
    lines[at:at + 1] = change(lines, at)
    return b"\n".join(lines)


def change_event(random, text):
    """A word of an event is another one, a little greater or less if it is a number."""
    def change(lines, at):
        words = lines[at].split(b" ")
        place = random.randrange(len(words))
        if re.fullmatch(rb"[0-9]{1,18}", words[place]):
            number = int(words[place])
            others = [max(number - 1, 0), number + 1, random.randrange(20), 2**63 - 1, 2**63]
            words[place] = b"%d" % random.choice(others)
        else:
            words[place] = random.choice([b"lease", b"renew", b"hot", b"cold", b"release", b"off",
                                          b"ok", b"memory", b"quiet", b"budget", b"end"])
        return [b" ".join(words)]
    return change_lines(random, text, change)


def put_event(random, text):
    """An event more before a drawn one: another one of the journal, or a drawn one."""
    def change(lines, at):
        worker, block = random.randrange(3), random.randrange(20)
        drawn = [b"hot %d %d", b"cold %d %d", b"lease %d %d 256", b"release %d %d ok",
                 b"release %d %d memory"]
        others = [random.choice(lines[6:-1]), random.choice(drawn) % (worker, block),
                  b"off %d ok" % worker, b"end " + random.choice([b"quiet", b"budget", b"memory"])]
        return [random.choice(others), lines[at]]
    return change_lines(random, text, change)


def drop_event(random, text):
    return change_lines(random, text, lambda lines, at: [])


def move_event(random, text):
    """Two lines that stand one after another change places."""
    def change(lines, at):
        return [lines.pop(at + 1), lines[at]] if at + 2 < len(lines) else [lines[at]]
    return change_lines(random, text, change)


def change_header(random, text):
    """A number of the header is another one."""
    lines = text.split(b"\n")
    if len(lines) < 7:
        return shared.change_text(random, text)
    at = random.randrange(1, 6)
    others = [b"0", b"1", b"2", b"3", b"15", b"16", b"17", b"64", b"65", b"256", b"4096", b"4097",
              b"1048577", b"1099511627776", b"1099511627777", b"01", b"9223372036854775808"]
    lines[at] = lines[at].split(b" ")[0] + b" " + random.choice(others)
    return b"\n".join(lines)

"""What the tools share of falling weights: a report's claims, what must hold of them, and whether
each claim's certificate is accepted."""

import dataclasses
import pathlib
import re

import shared

CLAIM = re.compile(rb"weight (\d+) (\d+)\n(plan (\d+) \d+\n(?:[ -~]+\n)*?bound (\d+)\n)")
ENDS = {0: rb"", 1: rb"none\n", 2: rb"stopped (?:budget \d+|grounding)\n"}
SECOND_MOST = 2**22  # bytes of a certificate that the second checker judges too


@dataclasses.dataclass
class Claim:
    """A claim: its weight, its cost and its bound, and the report that a run at this weight has."""

    weight: tuple
    cost: int
    bound: int
    report: bytes


def drawn_falling(drawn):
    """A weight and a number of steps: numerator, denominator, steps."""
    num, den = drawn.choice([(1, 1), (2, 1), (3, 1), (3, 1), (3, 2), (5, 1), (10, 3), (1000, 1),
                             (1000, 7), None, None]) or sorted(
        (drawn.randint(1, 1000), drawn.randint(1, 1000)), reverse=True)
    return num, den, drawn.choice([1, 2, 2, 3, 4, 4, 5, 8, 20, drawn.randint(1, 20)])


def words_of(falling):
    """The words that ask for it."""
    num, den, steps = falling
    return ["--num", str(num), "--den", str(den), "--falling", str(steps)]


def weight_at(falling, run):
    """The weight of the run of this number, the first of which is 0."""
    num, den, steps = falling
    return den + (num - den) * (steps - run) // steps, den


def read_claims(output):
    """The claims of a report, and what stands behind them."""
    claims, at = [], 0
    while found := CLAIM.match(output, at):
        num, den, report, cost, bound = found.groups()
        claims.append(Claim((int(num), int(den)), int(cost), int(bound), report))
        at = found.end()
    return claims, output[at:]


def fault_of_claims(claims, falling):
    """What is wrong with the first claims of a search, or None. Their weights fall as the words say
    and their costs never rise. Each bound is the least cost that its weight leaves room for."""
    for run, claim in enumerate(claims):
        num, den = weight_at(falling, run)
        if claim.weight != (num, den):
            return f"claim {run} has the weight {claim.weight}, and not {(num, den)}"
        if claim.bound != -(-claim.cost * den // num):
            return f"claim {run} has the bound {claim.bound} for the cost {claim.cost}"
        if run and claim.cost > claims[run - 1].cost:
            return f"the cost rises to {claim.cost} in claim {run}"
        if run and claims[run - 1].bound == claims[run - 1].cost:
            return f"claim {run} comes after one whose bound is its cost"
    return None


def fault_of_end(claims, rest, status):
    """What is wrong with how a report ends, or None. With 0 the last bound is the cost, with 1
    nothing was claimed, and with 2 it isn't known yet what is cheapest. Grounding stops before any
    claim."""
    if status not in ENDS or not re.fullmatch(ENDS[status], rest):
        return f"status {status}, and {rest[:80]!r} behind {len(claims)} claims"
    is_cheapest = bool(claims) and claims[-1].bound == claims[-1].cost
    is_first = status == 1 or rest == shared.GROUNDING_STOP
    if is_cheapest != (status == 0) or is_first and claims:
        return f"status {status} after {len(claims)} claims, the last {claims[-1:]}"
    return None


def saved_claims(name):
    """The files that were saved under a name by their numbers, in this folder."""
    found = pathlib.Path().glob(f"{name}.*")
    return {int(it.suffix[1:]): it.read_bytes() for it in found if it.suffix[1:].isdecimal()}


def fault_of_saved(program, task, name, claims, is_none, seconds, several=()):
    """What is wrong with the certificates in this folder, or None: each claim has one, and no other
    file was begun. If there is no plan there is one that says so. Each is accepted by `check`, also
    with these words besides, and a short one by the second checker. A text that repeats the one
    before isn't judged again."""
    saved = saved_claims(name)
    lines = [f"cost {it.cost} bound {it.bound}" for it in claims] or ["none"] * is_none
    if sorted(saved) != list(range(len(lines))) or pathlib.Path(name).exists():
        return f"{len(lines)} certificates are due, and there are those of {sorted(saved)}"
    return fault_of_texts(program, task, name, claims, lines, saved, seconds, several)


def fault_of_texts(program, task, name, claims, lines, saved, seconds, several=()):
    """The same of these claims' certificates alone: others may be there too."""
    for run, line in enumerate(lines):
        if claims and b"\nweight %d %d\n" % claims[run].weight not in saved[run]:
            return f"{name}.{run} has another weight than {claims[run].weight}"
        if run and saved[run] == saved[run - 1] and line == lines[run - 1]:
            continue
        fault = fault_of_text(program, task, f"{name}.{run}", f"accepted {line}", seconds, several)
        if fault:
            return fault
    return None


def fault_of_text(program, task, name, line, seconds, several=()):
    """How a checker judges this certificate otherwise, or None."""
    words = ["check", task.kind, name, *task.words()]
    is_short = pathlib.Path(name).stat().st_size <= SECOND_MOST
    said = shared.load_checker().answer(words) if is_short else (0, line)
    if said != (0, line):
        return f"the second checker says {said} of {name}, and not {line}"
    for more in [[], *[list(several)] * bool(several)]:
        run = shared.run_program([program, *words, *more], ".", seconds)
        if (run.status, run.output) != (0, f"{line}\n".encode()):
            return f"check {' '.join(more)}: {run.status} {run.output[:80]!r} of {name}, not {line}"
    return None

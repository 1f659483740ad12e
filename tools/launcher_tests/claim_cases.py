"""Falling weights: the claim in hand on a terminal, the names of the certificates, the statuses.

A stand-in for the program prints and saves claims at its own pace. It runs what a shell reads.
"""

import os
import re
import signal
import subprocess

from .harness import Failed, wait_until

# What is shown on a terminal, and taken away again, beside the program's own text.
SHOWN = re.compile(r"\r\x1b\[\?7l\x1b\[K(pbnf: \d+ s, \d+ MiB[^\x1b\r\n]*)\x1b\[\?7h")
CLEARED = "\r\x1b[K"
STEPS = "right\nright\nright\nright\n"
CLAIMS = [f"weight 3 1\nplan 7 4\n{STEPS}bound 3\n", f"weight 2 1\nplan 7 4\n{STEPS}bound 4\n",
          f"weight 1 1\nplan 6 6\ndown\n{STEPS}up\nbound 6\n"]
LINES = ["; weight 3/1, cost 7, bound 3, gap 133.4%", "; weight 2/1, cost 7, bound 4, gap 75.0%"]
WORDS = ["solve", "grid", "a.map", "a.scen", "--num", "3", "--falling", "2"]


def script(*parts):
    """A program that does these things, one after another."""
    return "\n".join(["#!/bin/sh", *parts, ""])


def put(text):
    return "printf '" + text.replace("\n", "\\n") + "'"


def save(number, weight, cost):
    """Saves a certificate of a claim, of which the launcher reads the first lines and the last."""
    head = f"pbnf-certificate 2\nkind grid\nwidth 6\nweight {weight}\n"
    plan = f"plan 4\n3\n3\n3\n3\ncost {cost}\n"
    return put(head + plan + "rows 1\n000000 0 cut\nend\n") + f" >c.{number}"


def parted(text):
    """The lines that were shown, and the text without them."""
    lines = SHOWN.findall(text)
    return lines, SHOWN.sub("", text).replace(CLEARED, "")


def wants_lines(run, lines, wanted):
    """Fails if a shown line isn't among them, or one of them was never shown."""
    found = {re.sub(r"^pbnf: \d+ s, \d+ MiB", "", it) for it in lines}
    if found != set(wanted):
        raise Failed(f"these lines were wanted: {wanted}, and not {sorted(found)}\n{run}")


def claims_in_the_text(place):
    """Where the text goes to the terminal, the claim in hand is read off it as it passes."""
    with place.stand_in(script(put(CLAIMS[0]), "sleep 3.3", put(CLAIMS[1]), "sleep 1.6",
                               put(CLAIMS[2]), "exit 0")):
        run = place.on_terminal(*WORDS)
    lines, text = parted(run.out)
    if run.status != 0 or text != "".join(CLAIMS).replace("\n", "\r\n"):
        raise Failed(f"the claims alone were wanted:\n{run}")
    wants_lines(run, lines, LINES)
    for claim in CLAIMS:  # (no line is shown within a claim)
        if claim.replace("\n", "\r\n") not in run.out:
            raise Failed(f"a claim was wanted in one piece:\n{run}")


def claims_in_the_files(place):
    """Where the text goes elsewhere, it is read off the newest certificate of this run."""
    for number in range(3):
        place.file(f"c.{number}", "weight 9 1\ncost 99\nend\n")
    with place.stand_in(script("sleep 2.5", save(0, "3 1", 7), put(CLAIMS[0]), "sleep 1.5",
                               save(1, "2 1", 7), "printf half >c.2", "sleep 1.5", put(CLAIMS[1]),
                               "exit 0")):
        with open(place.work / "text", "wb") as text:
            run = place.on_terminal(*WORDS, "--cert", "c", stdout=text)
    lines, rest = parted(run.out)
    if (place.work / "text").read_text() != "".join(CLAIMS[:2]) or run.status != 0 or rest:
        raise Failed(f"the claims alone were wanted:\n{run}")
    wants_lines(run, lines, ["", *LINES])


def no_claim_is_shown(place):
    """Nothing is shown of other searches' text, nor where standard error is no terminal."""
    slow = script(put(CLAIMS[0]), "sleep 2.3", put(CLAIMS[1]), "exit 0")
    with place.stand_in(slow):
        run = place.run(*WORDS, "--cert", "c").wants(0, "".join(CLAIMS[:2]))
        if run.err:
            raise Failed(f"nothing was wanted on standard error:\n{run}")
        run = place.on_terminal(*WORDS[:-2])
    lines, text = parted(run.out)
    if text != "".join(CLAIMS[:2]).replace("\n", "\r\n") or "weight" in "".join(lines):
        raise Failed(f"the text alone was wanted:\n{run}")


def text_passes_whole(place):
    """No byte of a text that comes in pieces is lost, and its end may lack a line feed."""
    pieces = ["for at in $(seq 1 400); do", "printf '%s\\nstep ' $at", "sleep 0.00$((at % 10))",
              "done", "printf '\\303\\244 \\377 end'", "exit 3"]
    wanted = subprocess.run(["sh", "-c", "\n".join(pieces)], stdout=subprocess.PIPE, check=False)
    with place.stand_in(script(*pieces)):
        run = place.on_terminal(*WORDS)
    text = parted(run.out)[1].replace("\r\n", "\n")
    if run.status != 3 or text != wanted.stdout.decode("utf-8", "replace"):
        raise Failed(f"the same text was wanted:\n{run}")


def ended_by_timeout(place):
    """`timeout` ends the run by TERM, also on a terminal: all that was printed is there."""
    with place.stand_in(script(put(CLAIMS[0]), "sleep 0.5", put(CLAIMS[1]), "exec sleep 60")):
        for how in ("4", "--foreground 4"):
            run = place.on_terminal(*WORDS, before=["timeout", *how.split()])
            lines, text = parted(run.out)
            if run.status != 124 or text != "".join(CLAIMS[:2]).replace("\n", "\r\n"):
                raise Failed(f"two claims were wanted:\n{run}")
            wants_lines(run, lines[-1:], LINES[1:])
            wait_until("the program has ended", lambda: not place.processes(str(place.program)), 5)


def claim_over_an_input(place):
    """A certificate of a claim that would be written over an input is 64; NAME itself is not."""
    shown = place.file("room.map.1", open(place.grid()[0], "rb").read())
    words = ["solve", "grid", shown, place.grid()[1], "--cert", "room.map"]
    with place.stand_in(script("echo ran", "exit 0")):
        for falling in ("1", "+20", "002"):
            run = place.run(*words, "--falling", falling).wants(64, "", "usage: pbnf solve grid")
            run.wants(64, "", f"the certificate room.map.1 would be written over the input {shown}")
        place.run(*words).wants(0, "ran\n")
        named = ["solve", "grid", shown, place.grid()[1], "--cert", shown]
        place.run(*named).wants(64, "", "would be written over")
        place.run(*named, "--falling", "2").wants(0, "ran\n")
        for falling in ("0", "21", "x"):  # (the program refuses these)
            place.run(*words, f"--falling={falling}").wants(0, "ran\n")


def faults_with_claims(place):
    """After claims the statuses say that these stand, and which file failed."""
    cert = [*WORDS, "--cert", "c"]
    for at in range(3):
        (place.work / f"c.{at}").unlink(missing_ok=True)
    with place.stand_in(script(save(0, "3 1", 7), put(CLAIMS[0]), "echo stopped budget 4",
                               "exit 2")):
        run = place.run(*cert, "--budget", "4").wants(2, CLAIMS[0] + "stopped budget 4\n")
        run.wants(2, None, ["4 expansions took ", "The claims that were printed stand"])
    with place.stand_in(script(put(CLAIMS[0]), "exit 71")):
        run = place.run(*cert).wants(71, CLAIMS[0], "the claims that were printed stand")
        run.lacks("nothing was printed")
    shown = [place.grid()[0], place.grid()[1]]
    words = ["solve", "grid", *shown, "--falling", "2", "--cert"]
    with place.stand_in(script("exit 73")):
        (place.work / "c.1").mkdir()
        run = place.run(*words, "c").wants(73, "", "the certificate c.1 (is a folder)")
        run.lacks("c.0", "c.2")
        (place.work / "c.1").rmdir()
        place.run(*words, "no/c").wants(73, "", "the certificate no/c.0 (its folder isn't there)")
    for text, more, reason in (
        ("words falling", ["--trace", "j"], "no journal is kept with --falling"),
        ("words estimate", ["--estimate", "tables", "--pattern", "1"],
         "no pattern database is used with --estimate"),
        ("words estimate", ["--tables", "t", "--estimate", "tables"], "give one of them"),
        ("words engine", ["--engine", "hda"], "--engine hda has no falling weights"),
        ("words engine", ["--engine", "hda", "--trace", "j"], "--engine hda keeps no journal"),
    ):
        with place.stand_in(script(f"echo {text}", "exit 64")):
            run = place.run(*WORDS, *more).wants(64, f"{text}\n", ["usage: pbnf solve", reason])


def interrupted_claims(place):
    """An interrupt on a terminal ends both, and leaves what was printed."""
    with place.stand_in(script(put(CLAIMS[0]), "exec sleep 60")):
        run = place.on_terminal(*WORDS, after="bound 3, gap",
                                act=lambda it: os.killpg(it.pid, signal.SIGINT))
    if run.status != -signal.SIGINT or parted(run.out)[1] != CLAIMS[0].replace("\n", "\r\n"):
        raise Failed(f"an interrupt was wanted:\n{run}")


CASES = [claims_in_the_text, claims_in_the_files, no_claim_is_shown, text_passes_whole,
         ended_by_timeout, claim_over_an_input, faults_with_claims, interrupted_claims]

"""Costs that the proved program found, and its checker accepted."""

from __future__ import annotations

import pathlib
import re
import subprocess
from typing import Optional, Sequence

from picture_parts.reading import Refused, last_claim
from task_parts.command import NoProgram

ACCEPTED = re.compile(r"accepted (?:none|cost ([0-9]+) bound ([0-9]+))\n")


class Undecided(Exception):
    """The search ended without a certificate; the text says how."""


def check(program: str, kind: str, certificate: pathlib.Path, files: Sequence[str],
          options: Sequence[str] = ()) -> Optional[tuple[Optional[int], Optional[int]]]:
    """The cost and the bound of a certificate, both None for none; None if it is refused."""
    words = [program, "check", kind, str(certificate), *files, *options]
    run = subprocess.run(words, stdin=subprocess.DEVNULL, capture_output=True, text=True,
                         check=False)
    found = ACCEPTED.fullmatch(run.stdout)
    if found is None or run.returncode != 0:
        return None
    return (None, None) if found[1] is None else (int(found[1]), int(found[2]))


def solve(program: str, kind: str, certificate: pathlib.Path, files: Sequence[str],
          options: Sequence[str] = (), wishes: Sequence[str] = ()) -> tuple[str, Optional[int]]:
    """What `solve` printed, and the least cost that `check` accepts; the cost None for none.

    The options say which task it is, and the wishes how it is searched. With falling weights the
    last claim is taken, and no certificate of another one is kept.
    """
    words = [program, "solve", kind, *files, *options, *wishes, "--cert", str(certificate)]
    run = subprocess.run(words, stdin=subprocess.DEVNULL, capture_output=True, text=True,
                         check=False)
    first = run.stdout.split("\n")[0]
    if run.returncode == 65:
        raise Refused(" ".join(files), "", f"the program says `{first}`")
    if run.returncode == 64:
        raise NoProgram(f"the program refuses its words: {first}")
    if run.returncode not in (0, 1):
        raise Undecided(first or f"`solve` ended with status {run.returncode}")
    text, number = last_claim(run.stdout)
    keep_last(certificate, number)
    claim = check(program, kind, certificate, files, options)
    if claim is None or claim[0] != claim[1]:
        raise Undecided("the certificate isn't accepted as one of an optimal plan")
    return text, claim[0]


def keep_last(certificate: pathlib.Path, number: Optional[int]) -> None:
    """Gives the certificate of that claim the plain name. With falling weights that there is no
    plan is certified under the number 0."""
    claims = [pathlib.Path(f"{certificate}.{at}") for at in range((number or 0) + 1)]
    if claims[-1].exists():
        claims.pop().replace(certificate)
        for other in claims:
            other.unlink()

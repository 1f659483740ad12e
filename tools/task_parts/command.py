"""The command lines of the tools: what is wrong is told in one line on standard error.

Statuses that all tools share: 2 a faulty command line, 65 a refused file, 73 a file that couldn't
be written, 70 no built program.
"""

from __future__ import annotations

import argparse
import os
import pathlib
import sys
from typing import Callable, Sequence

from picture_parts.reading import Refused

ROOT = pathlib.Path(__file__).resolve().parent.parent.parent
BUILT = ROOT / "crates" / "pbnf" / "out" / "pbnf"
WRONG_WORDS, REFUSED, NO_PROGRAM, NOT_WRITTEN = 2, 65, 70, 73


class Parser(argparse.ArgumentParser):
    """Ends with status 2 and one line at a faulty command line."""

    def __init__(self, prog: str, description: str | None = None, **others) -> None:
        prog = prog if prog.startswith("tools/") else f"tools/{prog}"
        super().__init__(prog=prog, description=description, **others,
                         formatter_class=argparse.RawDescriptionHelpFormatter)

    def error(self, message: str):
        name = self.prog.removeprefix("tools/").split(" ")[0]
        self.exit(WRONG_WORDS, f"{name}: {message}; see `{self.prog} --help`\n")


class NoProgram(Exception):
    """The built program isn't where it was looked for, or didn't answer."""


def whole(least: int, most: int) -> Callable[[str], int]:
    """Reads a number of this range from the command line."""
    def read(word: str) -> int:
        if not (word.isascii() and word.isdigit()) or not least <= int(word) <= most:
            raise argparse.ArgumentTypeError(f"`{word}` isn't a number from {least} to {most}")
        return int(word)
    return read


def add_program(parser: argparse.ArgumentParser) -> None:
    parser.add_argument("--program", metavar="PATH",
                        help="the built program (default: crates/pbnf/out/pbnf of this checkout)")


def find_program(given: str | None) -> str:
    """The program of the option, or the built one of this checkout."""
    program = pathlib.Path(given).resolve() if given else BUILT
    if program.is_dir() or not os.access(program, os.X_OK):
        raise NoProgram(f"no program at {program}: ./pbnf builds it")
    return str(program)


def run(name: str, main: Callable[[Sequence[str]], int]) -> int:
    """The status of a tool's main part, whose refusals become one line on standard error."""
    try:
        status = main(sys.argv[1:])
        sys.stdout.flush()
        return status
    except Refused as fault:
        status, text = REFUSED, str(fault)
    except NoProgram as fault:
        status, text = NO_PROGRAM, str(fault)
    except BrokenPipeError:
        os.dup2(os.open(os.devnull, os.O_WRONLY), sys.stdout.fileno())
        return NOT_WRITTEN
    except OSError as fault:
        status, text = NOT_WRITTEN, f"{fault.filename}: {os.strerror(fault.errno or 0)}"
    print(f"{name}: {text}", file=sys.stderr)
    return status

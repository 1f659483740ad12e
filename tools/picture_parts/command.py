"""The command line of `tools/picture`."""

import argparse
import os
import sys

from names import quoted

from .blocks_picture import draw_blocks
from .claims_picture import draw_claims
from .frontier_picture import draw_frontier
from .grid_picture import draw_plan
from .journal_picture import draw_journal
from .reading import Refused
from .strips_picture import draw_strips
from .tiles_picture import draw_tiles


class Parser(argparse.ArgumentParser):
    """Ends with status 64 at a faulty command line, as the program does."""

    def error(self, message):
        self.exit(64, f"picture: {message}; see `{self.prog} --help`\n")


def whole(least, most):
    def read(word):
        if not word.isdecimal() or not least <= int(word) <= most:
            raise argparse.ArgumentTypeError(f"`{word}` isn't a number from {least} to {most}")
        return int(word)
    return read


def add(parsers, name, draw, files, text):
    parser = parsers.add_parser(name, help=text, description=text)
    for file, meaning in files:
        if file == "[certificate]":
            parser.add_argument("certificate", nargs="?", metavar="CERTIFICATE", help=meaning)
        elif file == "files":
            parser.add_argument("files", nargs="+", metavar="FILE", help=meaning)
        else:
            parser.add_argument(file, metavar=file.upper(), help=meaning)
    parser.add_argument("--out", metavar="FILE", help="the file to write; else standard output")
    parser.add_argument("--colours", choices=("both", "light", "dark"), default="both",
                        help="both: the reader's own setting decides (the default)")
    parser.set_defaults(draw=draw)
    return parser


def add_row(parser):
    parser.add_argument("--row", type=whole(0, 1_000_000), default=0, metavar="K",
                        help="the scenario's row, from 0")


def parser_of():
    parser = Parser(prog="tools/picture", description="Draws pictures (SVG) of plans, searches and "
                    "certificates. A file that isn't as docs/FORMATS.md says is refused in one "
                    "line, with status 65.")
    words = parser.add_subparsers(required=True, metavar="WORD")
    report = ("report", "what `pbnf solve` printed")
    grid = [("map", "a map"), ("scenario", "a scenario")]
    plan = words.add_parser("plan", help="a plan; `plan --help` lists the kinds",
                            description="Draws a plan.")
    kinds = plan.add_subparsers(required=True, metavar="KIND")
    on_map = add(kinds, "grid", draw_plan,
                 [*grid, report, ("[certificate]", "its closed and cut cells are shown")],
                 "a plan on its map")
    add_row(on_map)
    on_map.add_argument("--swamp", action="store_true",
                        help="shows the cells of swamp, if `solve` was given --swamp")
    add(kinds, "tiles", draw_tiles, [("board", "a board"), report], "the boards along a plan")
    add(kinds, "strips", draw_strips, [("domain", "a domain"), ("problem", "a problem"), report],
        "which facts hold along a plan")
    add(words, "frontier", draw_frontier, [("certificate", "a certificate")],
        "closed and cut rows by g")
    add(words, "claims", draw_claims,
        [("files", "what `solve --falling` printed, or the certificates that it saved")],
        "cost and bound of each claim of a run with falling weights")
    journal = add(words, "journal", draw_journal, [("journal", "a journal")],
                  "what the workers did")
    journal.add_argument("--map", nargs=2, metavar=("MAP", "SCENARIO"),
                         help="draws the map's blocks too, with who leased them")
    add_row(journal)
    blocks = add(words, "blocks", draw_blocks, grid,
                 "the blocks of a map and the scopes of leased ones")
    add_row(blocks)
    blocks.add_argument("--blocks", type=whole(16, 4096), default=256, metavar="C",
                        help="how many blocks there are at most (256)")
    blocks.add_argument("--lease", type=whole(0, 4095), action="append", default=[], metavar="B",
                        help="a block that is leased; as often as wished")
    return parser


def main(words):
    options = parser_of().parse_args(words)
    try:
        svg = options.draw(options)
    except Refused as fault:
        print(f"picture: {fault}", file=sys.stderr)
        return 65
    if not options.out:
        sys.stdout.buffer.write(svg.encode())
        return 0
    try:
        with open(options.out, "w", encoding="utf-8") as file:
            file.write(svg)
    except OSError as fault:
        print(f"picture: {quoted(options.out)}: {os.strerror(fault.errno or 0)}", file=sys.stderr)
        return 73
    return 0

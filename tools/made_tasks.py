"""The tasks that a seed and a size make; tools/README.md states the rule.

The same seed and size always make the same bytes.
"""

import functools

import shared

MOVES = ((-1, 0), (1, 0), (0, -1), (0, 1))  # up, down, left, right, as rows and columns


def draws(seed):
    """The numbers below 2^32 that a seed gives (a linear congruential generator)."""
    number = seed
    while True:
        number = (6364136223846793005 * number + 1442695040888963407) % 2**64
        yield number >> 32


def make_grid(seed, side, bytes_of_cells="@..."):
    """Each cell is drawn of four bytes, but the first and the last are land: start and goal."""
    drawn = draws(seed)
    cells = [bytes_of_cells[next(drawn) % 4] for _ in range(side * side)]
    cells[0] = cells[-1] = "."
    rows = ["".join(cells[at:at + side]) for at in range(0, side * side, side)]
    heads = ["type octile", f"height {side}", f"width {side}", "map"]
    last = side - 1
    scenario = ["version 1", "\t".join(map(str, [0, "made", side, side, 0, 0, last, last, 0]))]
    return {"made.map": text_of(heads + rows), "made.scen": text_of(scenario)}


def make_tiles(seed, moves, height=3, width=3):
    """A board after so many drawn moves of the blank, of which those over the edge do nothing."""
    board, drawn = list(range(height * width)), draws(seed)
    for _ in range(moves):
        down, right = MOVES[next(drawn) % 4]
        blank = board.index(0)
        row, column = blank // width + down, blank % width + right
        if 0 <= row < height and 0 <= column < width:
            other = width * row + column
            board[blank], board[other] = board[other], 0
    rows = [" ".join(map(str, board[at:at + width])) for at in range(0, height * width, width)]
    return {"made.tiles": text_of([f"{height} {width}", *rows])}


def make_strips(seed, count):
    """Blocks on the table, and a goal that wants about half of them on the one before."""
    drawn = draws(seed)
    blocks = [f"b{number}" for number in range(count)]
    goal = [f"( on {upper} {lower} )" for lower, upper in zip(blocks, blocks[1:])
            if next(drawn) % 2 == 0]
    init = [f"( clear {block} ) ( ontable {block} )" for block in blocks]
    words = ["( define ( problem made ) ( :domain blocks ) ( :objects", *blocks, ") ( :init", *init,
             "( handempty ) ) ( :goal ( and", *goal, ") ) )"]
    return {"blocks.pddl": shared.BLOCKS_DOMAIN.encode(), "made.pddl": text_of([" ".join(words)])}


def text_of(lines):
    return "".join(f"{line}\n" for line in lines).encode()


# What is made and in which sizes. `3x4` is a board of 3 by 4, and `tiles` one of 3 by 3.
BOARDS = {f"{height}x{width}": (height, width) for height in (2, 3, 4) for width in (2, 3, 4)}
MAKERS = {"grid": make_grid, "tiles": make_tiles, "strips": make_strips} | {
    name: functools.partial(make_tiles, height=height, width=width)
    for name, (height, width) in BOARDS.items()}
SIZES = {"grid": (1, 2048), "tiles": (0, 1_000_000), "strips": (1, 14)} | dict.fromkeys(
    BOARDS, (0, 1_000_000))

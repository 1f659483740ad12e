"""The inputs that the scripts of bench/ share. Each is made from a seed and a size by the rule of
tools/made, and written as files of its own; each function gives the words that name them."""

import pathlib
import sys

ROOT = pathlib.Path(__file__).resolve().parent.parent
sys.path.insert(0, str(ROOT / "tools"))

import made_tasks  # noqa: E402 (it lies beside the tools)
from made_tasks import draws  # noqa: E402, F401 (for mazes and others)

NO_PLAN = b"3 3\n0 2 1\n3 4 5\n6 7 8\n"  # half of all boards are reached from it, and no goal


def write_pair(path, texts):
    """Files beside the path with the endings of the made names."""
    names = []
    for name, text in texts.items():
        names.append(path.with_name(path.name + pathlib.Path(name).suffix))
        names[-1].write_bytes(text)
    return [str(name) for name in names]


def made_map(path, seed, side):
    """A map of this side, from corner to corner."""
    return ["grid", *write_pair(path, made_tasks.make_grid(seed, side))]


def swamp_map(path, seed, side):
    """The same, where one cell in four is swamp that costs 2."""
    return ["grid", *write_pair(path, made_tasks.make_grid(seed, side, "@S..")), "--swamp"]


def made_board(path, height, width, seed, moves):
    """A board after so many drawn moves."""
    return ["tiles", *write_pair(path, made_tasks.make_tiles(seed, moves, height, width))]


def board(path, text):
    path.write_bytes(text)
    return ["tiles", str(path)]


def maze(path, seed, side):
    """Corridors one cell wide between any two of which one way leads: a depth-first maze."""
    draw = draws(seed)
    rows = [bytearray(b"@" * side) for _ in range(side)]
    rows[0][0] = ord(".")
    way = [(0, 0)]
    while way:
        x, y = way[-1]
        ahead = [(x + dx, y + dy) for dx, dy in ((0, -2), (0, 2), (-2, 0), (2, 0))
                 if 0 <= x + dx < side and 0 <= y + dy < side and rows[y + dy][x + dx] == ord("@")]
        if not ahead:
            way.pop()
            continue
        next_x, next_y = ahead[next(draw) % len(ahead)]
        rows[(y + next_y) // 2][(x + next_x) // 2] = rows[next_y][next_x] = ord(".")
        way.append((next_x, next_y))
    texts = made_tasks.make_grid(seed, side)
    head = texts["made.map"].split(b"\n")[:4]
    return ["grid", *write_pair(path, texts | {"made.map": b"\n".join([*head, *rows, b""])})]

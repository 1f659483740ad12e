"""Thirty problems in PDDL of 257 to 1,024 ground atoms, each with the cost of a cheapest plan.

Most of what a problem has stands still, so that a plain A* with hmax finds a plan within seconds.
Nothing is drawn: the numbers of a problem's name decide its text. Domains are those of
examples/pddl, and town and sokoban of bench/domains.
"""

import pathlib
from typing import Callable, Iterator, NamedTuple

ROOT = pathlib.Path(__file__).resolve().parent.parent.parent


class Problem(NamedTuple):
    """A problem's name and texts, and what its cheapest plans cost."""

    name: str
    domain: str
    text: str
    cost: int


def domain_of(name: str) -> str:
    place = ROOT / "bench" / "domains" / f"{name}.pddl"
    return (place if name in ("town", "sokoban") else
            ROOT / "examples" / "pddl" / name / "domain.pddl").read_text(encoding="ascii")


def names(letter: str, count: int) -> str:
    return " ".join(f"{letter}{number}" for number in range(count))


def problem(domain: str, objects: str, init: list[str], goal: list[str], metric: str = "") -> str:
    lines = [f"(define (problem wide) (:domain {domain})", f"(:objects {objects})", "(:init",
             *(" ".join(init[at:at + 6]) for at in range(0, len(init), 6)), ")",
             f"(:goal (and {' '.join(goal)})){metric})"]
    return "\n".join(lines) + "\n"


METRIC = "\n(:metric minimize (total-cost))"


def blocks(count: int, height: int, *moved: tuple[int, int]) -> str:
    """Towers of one height, numbered from below; some blocks have to stand on others."""
    init = ["(hand-free)"]
    for block in range(count):
        is_low, is_top = block % height == 0, (block + 1) % height == 0 or block + 1 == count
        init.append(f"(on-table b{block})" if is_low else f"(on b{block} b{block - 1})")
        init += [f"(clear b{block})"] * is_top
    return problem("blocks", f"{names('b', count)} - block", init,
                   [f"(on b{top} b{below})" for top, below in moved])


def ferry(shores: int, cars: int, moved: int) -> str:
    """Cars on all shores; the first ones have to go three shores further."""
    init = ["(ferry-at s0) (empty)"] + [f"(car-at c{i} s{i % shores})" for i in range(cars)]
    return problem("ferry", f"{names('s', shores)} - shore {names('c', cars)} - car", init,
                   [f"(car-at c{i} s{(i + 3) % shores})" for i in range(moved)])


def gripper(rooms: int, balls: int, moved: int) -> str:
    """Balls in all rooms; the first ones, which lie in one room, have to go to the next."""
    init = [f"(robot-in r{balls % rooms}) (open left) (open right)"]
    init += [f"(lies-in b{i} r{0 if i < moved else i % rooms})" for i in range(balls)]
    return problem("gripper", f"{names('r', rooms)} - room {names('b', balls)} - ball "
                   "left right - gripper", init, [f"(lies-in b{i} r1)" for i in range(moved)])


def logistics(cities: int, places: int, packages: int, *moved: tuple[int, int]) -> str:
    """Each city has an airport, further places and a truck; place k is the (k mod places)th of its
    city. Packages lie in all places, and some have to go to others."""
    count = cities * places
    ports = " ".join(f"p{i}" for i in range(0, count, places))
    others = " ".join(f"p{i}" for i in range(count) if i % places)
    init = [f"(of p{i} c{i // places})" for i in range(count)] + ["(at a0 p0)"]
    init += [f"(at t{i} p{i * places})" for i in range(cities)]
    init += [f"(at k{i} p{(5 * i + 1) % count})" for i in range(packages)]
    objects = (f"{ports} - airport {others} - place {names('c', cities)} - city a0 - plane "
               f"{names('t', cities)} - truck {names('k', packages)} - package")
    return problem("logistics", objects, init, [f"(at k{i} p{to})" for i, to in moved])


def satellite(satellites: int, directions: int, modes: int, pictures: int) -> str:
    """Each satellite has an instrument for each second mode; some pictures have to be taken."""
    init, instruments = [], 0
    for number in range(satellites):
        init += [f"(power s{number}) (points s{number} d{3 * number % directions})"]
        for mode in range(number % 2, modes, 2):
            init += [f"(carries s{number} i{instruments}) (supports i{instruments} m{mode})",
                     f"(reference i{instruments} d{(instruments + 1) % directions})"]
            instruments += 1
    objects = (f"{names('s', satellites)} - satellite {names('d', directions)} - direction "
               f"{names('i', instruments)} - instrument {names('m', modes)} - mode")
    return problem("satellite", objects, init, [
        f"(taken d{(7 * i + 2) % directions} m{i % modes})" for i in range(pictures)])


def rovers(count: int, waypoints: int, samples: int, wanted: int) -> str:
    """The waypoints lie in a ring, which each rover can drive round. Samples lie at all waypoints,
    and the lander hears at each fifth. A picture has to be taken, too."""
    init = []
    for rover in range(count):
        init += [f"(way r{rover} w{i} w{(i + far) % waypoints})"
                 for i in range(waypoints) for far in (1, waypoints - 1)]
        init += [f"(at r{rover} w{4 * rover % waypoints}) (store-empty r{rover})",
                 f"(mounted e{rover} r{rover}) (target e{rover} o{rover})"]
    init += [f"(lies x{i} w{(3 * i + 2) % waypoints})" for i in range(samples)]
    init += [f"(hears w{i})" for i in range(0, waypoints, 5)]
    init += [f"(sees w{(2 * i + 1) % waypoints} o{i}) (shows y{i} o{i})" for i in range(count)]
    objects = (f"{names('r', count)} - rover {names('w', waypoints)} - waypoint "
               f"{names('e', count)} - camera {names('o', count)} - objective "
               f"{names('x', samples)} - sample {names('y', count)} - picture")
    return problem("rovers", objects, init,
                   ["(sent y0)"] + [f"(sent x{i})" for i in range(wanted)])


def transport(places: int, trucks: int, parcels: int, moved: int) -> str:
    """Places in a ring of short roads, with a long road from each to the third one after it."""
    init = [f"({kind} l{i} l{(i + far) % places}) ({kind} l{(i + far) % places} l{i})"
            for i in range(places) for kind, far in (("short", 1), ("long", 3))]
    init += [f"(bridge l0 l{places // 2})"]
    init += [f"(parked t{i} l{i * places // trucks})" for i in range(trucks)]
    init += [f"(lies p{i} l{(2 * i + 1) % places})" for i in range(parcels)]
    objects = (f"{names('l', places)} - place {names('t', trucks)} - truck "
               f"{names('p', parcels)} - parcel")
    return problem("transport", objects, init,
                   [f"(lies p{i} l{(2 * i + 4) % places})" for i in range(moved)], METRIC)


def elevators(floors: int, slow: int, people: int, moved: int) -> str:
    """Slow lifts and a fast one that stops at each fourth floor."""
    init = [f"(next f{i} f{i + 1})" for i in range(floors - 1)]
    stops = range(0, floors, 4)
    init += [f"(express f{i} f{j})" for i in stops for j in stops if i != j]
    init += [f"(stands s{i} f{2 * i + 1})" for i in range(slow)] + ["(stands q0 f0)"]
    init += [f"(waits p{i} f{(3 * i + 1) % floors})" for i in range(people)]
    objects = (f"{names('f', floors)} - floor {names('s', slow)} - slow q0 - fast "
               f"{names('p', people)} - person")
    return problem("elevators", objects, init,
                   [f"(waits p{i} f{(3 * i + 6) % floors})" for i in range(moved)], METRIC)


def sokoban(width: int, height: int, stones: int, right: int, down: int) -> str:
    """An open yard with a stone at every third cell of some rows. The man stands in the lowest
    corner on the right, and the first stone has to be pushed to the right and down."""
    cell = "c{}-{}".format
    steps = {"up": (0, -1), "down": (0, 1), "left": (-1, 0), "right": (1, 0)}
    init = [f"(beside {cell(x, y)} {cell(x + a, y + b)} {name})"
            for y in range(height) for x in range(width) for name, (a, b) in steps.items()
            if 0 <= x + a < width and 0 <= y + b < height]
    at = [(3 * i % (width - 3) + 1, 3 * (3 * i // (width - 3)) + 1) for i in range(stones)]
    init += [f"(man {cell(width - 1, height - 1)})"]
    init += [f"(lies s{i} {cell(*place)})" for i, place in enumerate(at)]
    cells = [(x, y) for y in range(height) for x in range(width)]
    init += [f"(free {cell(*place)})" for place in cells if place not in at]
    objects = (f"{' '.join(cell(*place) for place in cells)} - cell {names('s', stones)} - stone "
               "up down left right - direction")
    return problem("sokoban", objects, init,
                   [f"(lies s0 {cell(at[0][0] + right, at[0][1] + down)})"])


def town(places: int, trucks: int, packages: int, moved: int) -> str:
    """Places in a row, and packages along it. The first ones have to go two places further."""
    init = [f"(road l{i} l{i + 1}) (road l{i + 1} l{i})" for i in range(places - 1)]
    init += [f"(at t{i} l{i * places // trucks})" for i in range(trucks)]
    init += [f"(at p{i} l{3 * i + 2})" for i in range(packages)]
    objects = (f"{names('l', places)} - place {names('t', trucks)} - truck "
               f"{names('p', packages)} - package")
    return problem("town", objects, init, [f"(at p{i} l{3 * i + 4})" for i in range(moved)])


# What makes each, with its numbers, and the cost.
SIZES: list[tuple[Callable[..., str], tuple, int]] = [
    (blocks, (15, 5, (3, 9), (14, 3)), 6),
    (blocks, (22, 6, (2, 11), (17, 2)), 10),
    (blocks, (27, 9, (5, 17), (26, 5)), 10),
    (blocks, (30, 6, (4, 11), (17, 4), (23, 5)), 8),
    (ferry, (8, 60, 2), 7),
    (ferry, (10, 30, 2), 7),
    (ferry, (20, 40, 2), 7),
    (gripper, (6, 70, 2), 6),
    (gripper, (8, 40, 2), 5),
    (gripper, (12, 30, 2), 6),
    (logistics, (2, 8, 24, (0, 9)), 10),
    (logistics, (3, 5, 30, (0, 7)), 10),
    (logistics, (4, 4, 20, (0, 3)), 4),
    (logistics, (4, 5, 25, (0, 7)), 10),
    (satellite, (2, 20, 10, 1), 5),
    (satellite, (2, 25, 12, 1), 5),
    (satellite, (4, 30, 8, 1), 5),
    (rovers, (2, 30, 10, 2), 12),
    (rovers, (2, 40, 5, 1), 9),
    (rovers, (3, 60, 10, 1), 9),
    (transport, (25, 3, 8, 2), 30),
    (transport, (40, 4, 12, 2), 30),
    (transport, (60, 4, 10, 2), 30),
    (elevators, (16, 1, 15, 1), 27),
    (elevators, (20, 1, 14, 2), 44),
    (elevators, (30, 2, 25, 1), 27),
    (sokoban, (10, 10, 1, 3, 4), 26),
    (sokoban, (12, 11, 2, 2, 3), 27),
    (sokoban, (14, 14, 1, 3, 4), 34),
    (town, (120, 2, 4, 2), 11),
]


def name_of(make: Callable[..., str], numbers: tuple) -> str:
    """The kind with its numbers; pairs are as `3to9`."""
    shown = (str(it) if isinstance(it, int) else f"{it[0]}to{it[1]}" for it in numbers)
    return "-".join([make.__name__, *shown])


def problems() -> Iterator[Problem]:
    for make, numbers, cost in SIZES:
        yield Problem(name_of(make, numbers), domain_of(make.__name__), make(*numbers), cost)

"""Fifteen problems in PDDL of about the size of hard ones of the competitions, typed and untyped.

Without types each type is a static predicate, as in many older domains: `(is-truck ?x)` holds of
each truck, and an action asks for it. Objects are drawn by a seed that the problem's name decides.
Domains are those of examples/pddl, and three of bench/domains.
"""

from __future__ import annotations

import random
import sys
import tempfile
from pathlib import Path
from typing import Callable, Iterator, NamedTuple, Sequence

ROOT = Path(__file__).resolve().parent.parent
sys.path.insert(0, str(ROOT / "tools"))

from pddl_parts.strips import Lifted  # noqa: E402 (it lies beside the tools)

Drawn = random.Random
Objects = Sequence["tuple[str, Sequence[str]]"]
Made = "tuple[Objects, list[str], list[str]]"
OWN = ("visit", "zeno", "parking")  # the domains of bench/domains
WITH_COSTS = ("elevators", "transport")


class Problem(NamedTuple):
    """A problem's name, its texts with types, and its texts without."""

    name: str
    typed: tuple[str, str]
    untyped: tuple[str, str]


def names(letter: str, count: int) -> list[str]:
    return [f"{letter}{number}" for number in range(count)]


def domain_of(name: str) -> str:
    place = ROOT / "bench" / "domains" / f"{name}.pddl" if name in OWN else \
        ROOT / "examples" / "pddl" / name / "domain.pddl"
    return place.read_text(encoding="ascii")


def filled(words: Sequence[str]) -> str:
    return "\n ".join(" ".join(words[at:at + 8]) for at in range(0, len(words), 8))


def problem_of(domain: str, objects: Objects, init: Sequence[str], goal: Sequence[str]) -> str:
    shown = [f"{' '.join(some)}{' - ' * bool(kind)}{kind}" for kind, some in objects]
    metric = "\n(:metric minimize (total-cost))" if domain in WITH_COSTS else ""
    return (f"(define (problem made) (:domain {domain})\n(:objects {filled(shown)})\n"
            f"(:init {filled(init)})\n(:goal (and {filled(goal)})){metric})\n")


# ---- problems: their objects by types, their facts and their goals

def towers(drawn: Drawn, blocks: Sequence[str]) -> list[list[str]]:
    found: list[list[str]] = []
    for block in drawn.sample(blocks, len(blocks)):
        if found and drawn.random() < 0.65:
            drawn.choice(found).append(block)
        else:
            found.append([block])
    return found


def blocks(drawn: Drawn, count: int) -> Made:
    some = names("b", count)
    start, end = towers(drawn, some), towers(drawn, some)
    init = ["(hand-free)"] + [f"(on-table {tower[0]})" for tower in start]
    init += [f"(on {top} {below})" for tower in start for below, top in zip(tower, tower[1:])]
    init += [f"(clear {tower[-1]})" for tower in start]
    goal = [f"(on {top} {below})" for tower in end for below, top in zip(tower, tower[1:])]
    return [("block", some)], init, goal


def gripper(_: Drawn, count: int) -> Made:
    balls, rooms, grippers = names("ball", count), ["here", "there"], ["left", "right"]
    init = ["(robot-in here)", *(f"(open {it})" for it in grippers)]
    return [("room", rooms), ("ball", balls), ("gripper", grippers)], \
        init + [f"(lies-in {ball} here)" for ball in balls], \
        [f"(lies-in {ball} there)" for ball in balls]


def logistics(drawn: Drawn, cities: int, places: int, planes: int, packages: int) -> Made:
    towns, trucks = names("city", cities), names("truck", cities)
    of = {town: [f"{town}-{at}" for at in range(places)] for town in towns}
    airports = [own[0] for own in of.values()]
    others = [place for own in of.values() for place in own[1:]]
    flying, carried = names("plane", planes), names("package", packages)
    init = [f"(of {place} {town})" for town, own in of.items() for place in own]
    init += [f"(at {truck} {drawn.choice(own)})" for truck, own in zip(trucks, of.values())]
    init += [f"(at {plane} {drawn.choice(airports)})" for plane in flying]
    ends = {it: drawn.sample(airports + others, 2) for it in carried}
    init += [f"(at {it} {place})" for it, (place, _) in ends.items()]
    return [("city", towns), ("airport", airports), ("place", others), ("truck", trucks),
            ("plane", flying), ("package", carried)], init, \
        [f"(at {it} {place})" for it, (_, place) in ends.items()]


def miconic(drawn: Drawn, passengers: int, floors: int) -> Made:
    people, levels = names("p", passengers), names("f", floors)
    init = [f"(above {low} {high})" for at, low in enumerate(levels) for high in levels[at + 1:]]
    init.append("(lift-at f0)")
    for one in people:
        begin, end = drawn.sample(levels, 2)
        init += [f"(waits {one} {begin})", f"(wants {one} {end})"]
    return [("passenger", people), ("floor", levels)], init, [f"(served {one})" for one in people]


def satellite(drawn: Drawn, satellites: int, instruments: int, modes: int, places: int,
              pictures: int) -> Made:
    some, own, ways = names("s", satellites), names("i", instruments), names("m", modes)
    sky = names("d", places)
    init = [f"(power {it})" for it in some] + [f"(points {it} {drawn.choice(sky)})" for it in some]
    for at, it in enumerate(own):
        init += [f"(carries {some[at % satellites]} {it})", f"(reference {it} {drawn.choice(sky)})"]
        init += [f"(supports {it} {ways[at % modes]})", f"(supports {it} {drawn.choice(ways)})"]
    taken = drawn.sample([(place, way) for place in sky for way in ways], pictures)
    return [("satellite", some), ("instrument", own), ("mode", ways), ("direction", sky)], \
        sorted(set(init)), [f"(taken {place} {way})" for place, way in taken]


def visit(drawn: Drawn, side: int) -> Made:
    cells = {(x, y): f"c{x}-{y}" for x in range(side) for y in range(side)}
    init = [f"(beside {name} {cells[x + dx, y + dy]})" for (x, y), name in cells.items()
            for dx, dy in ((1, 0), (-1, 0), (0, 1), (0, -1)) if (x + dx, y + dy) in cells]
    start = drawn.choice(list(cells.values()))
    return [("cell", list(cells.values()))], \
        [*init, f"(robot-at {start})", f"(visited {start})"], \
        [f"(visited {name})" for name in drawn.sample(list(cells.values()), len(cells) // 2)]


def depots(drawn: Drawn, places: int, trucks: int, crates: int) -> Made:
    where, pallets, hoists = names("p", places), names("pallet", places), names("hoist", places)
    init = [f"(here {pallet} {place})" for pallet, place in zip(pallets, where)]
    init += [f"(fixed {hoist} {place}) (idle {hoist})" for hoist, place in zip(hoists, where)]
    init += [f"(stands {truck} {drawn.choice(where)})" for truck in names("truck", trucks)]
    tops, goal = dict(zip(where, pallets)), []
    for crate in names("crate", crates):
        place = drawn.choice(where)
        init += [f"(here {crate} {place})", f"(on {crate} {tops[place]})"]
        tops[place] = crate
    init += [f"(clear {top})" for top in tops.values()]
    tops = dict(zip(where, pallets))
    for crate in drawn.sample(names("crate", crates), crates // 2):
        place = drawn.choice(where)
        goal.append(f"(on {crate} {tops[place]})")
        tops[place] = crate
    return [("place", where), ("pallet", pallets), ("hoist", hoists),
            ("truck", names("truck", trucks)), ("crate", names("crate", crates))], init, goal


def driverlog(drawn: Drawn, places: int, drivers: int, trucks: int, packages: int) -> Made:
    roads, paths = names("s", places), names("w", places)
    movable = [("driver", names("driver", drivers)), ("truck", names("truck", trucks)),
               ("package", names("package", packages))]
    init = [f"(at {it} {drawn.choice(roads)})" for _, some in movable for it in some]
    init += [f"(free {truck})" for truck in movable[1][1]]
    for at in range(1, places):
        one, other = roads[at], roads[drawn.randrange(at)]
        init += [f"(road {one} {other})", f"(road {other} {one})"]
        for end in (roads[at], roads[drawn.randrange(at)]):
            init += [f"(path {end} {paths[at]})", f"(path {paths[at]} {end})"]
    goal = [f"(at {it} {drawn.choice(roads)})" for _, some in movable for it in some]
    return [*movable, ("place", roads + paths)], sorted(set(init)), goal


def zeno(drawn: Drawn, cities: int, planes: int, people: int) -> Made:
    towns, levels = names("city", cities), names("level", 7)
    flying, flown = names("plane", planes), names("person", people)
    init = [f"(at {it} {drawn.choice(towns)})" for it in flying + flown]
    init += [f"(fuel {plane} {drawn.choice(levels)})" for plane in flying]
    init += [f"(next {low} {high})" for low, high in zip(levels, levels[1:])]
    return [("city", towns), ("level", levels), ("plane", flying), ("person", flown)], init, \
        [f"(at {it} {drawn.choice(towns)})" for it in flown]


def elevators(drawn: Drawn, floors: int, slow: int, fast: int, people: int) -> Made:
    levels, riders = names("f", floors), names("p", people)
    lifts = [("slow", names("slow", slow)), ("fast", names("fast", fast))]
    init = [f"(next {low} {high})" for low, high in zip(levels, levels[1:])]
    init += [f"(express {one} {other})" for one in levels[::4] for other in levels[::4]
             if one != other]
    init += [f"(stands {lift} {drawn.choice(levels[::4])})" for _, some in lifts for lift in some]
    init += [f"(waits {it} {drawn.choice(levels)})" for it in riders]
    return [("floor", levels), *lifts, ("person", riders)], init, \
        [f"(waits {it} {drawn.choice(levels)})" for it in riders]


def transport(drawn: Drawn, places: int, trucks: int, parcels: int) -> Made:
    where, cars, carried = names("l", places), names("t", trucks), names("p", parcels)
    roads = {(at, drawn.randrange(at)) for at in range(1, places)}
    roads |= {tuple(drawn.sample(range(places), 2)) for _ in range(places // 2)}
    init = []
    for one, other in sorted(roads):
        way = drawn.choice(["short", "short", "long"])
        init += [f"({way} l{one} l{other})", f"({way} l{other} l{one})"]
    init += [f"(parked {it} {drawn.choice(where)})" for it in cars]
    init += [f"(lies {it} {drawn.choice(where)})" for it in carried]
    return [("place", where), ("truck", cars), ("parcel", carried)], sorted(set(init)), \
        [f"(lies {it} {drawn.choice(where)})" for it in carried]


def rovers(drawn: Drawn, count: int, points: int, objectives: int, samples: int) -> Made:
    some, where, seen = names("r", count), names("w", points), names("o", objectives)
    cameras, lying, pictures = names("c", count), names("s", samples), names("p", objectives)
    ways = {(at, drawn.randrange(at)) for at in range(1, points)}
    ways |= {tuple(drawn.sample(range(points), 2)) for _ in range(points)}
    ways |= {(other, one) for one, other in ways}
    init = ["(hears w0)", "(hears w1)"]
    for rover, camera in zip(some, cameras):
        init += [f"(at {rover} {drawn.choice(where)})", f"(store-empty {rover})",
                 f"(mounted {camera} {rover})", f"(target {camera} {drawn.choice(seen)})"]
        init += [f"(way {rover} w{one} w{other})" for one, other in sorted(ways)]
    init += [f"(lies {it} {drawn.choice(where)})" for it in lying]
    init += [f"(sees {point} {it})" for it in seen
             for point in drawn.sample(where, max(1, points // 3))]
    init += [f"(shows {picture} {it})" for picture, it in zip(pictures, seen)]
    return [("rover", some), ("waypoint", where), ("camera", cameras), ("objective", seen),
            ("sample", lying), ("picture", pictures)], init, \
        [f"(sent {it})" for it in lying + pictures]


def parking(drawn: Drawn, cars: int, curbs: int) -> Made:
    some, where = names("car", cars), names("curb", curbs)

    def parked() -> list[str]:
        order = drawn.sample(some, cars)
        front, rest = order[:curbs - 1], order[curbs - 1:]
        facts = [f"(parked {car} {curb})" for car, curb in zip(front, where)]
        return facts + [f"(behind {car} {ahead})" for car, ahead in zip(rest, front)]
    init, goal = parked(), parked()
    words = [fact[1:-1].split() for fact in init]
    ahead = {front for head, _, front in words if head == "behind"}
    init += [f"(at-curb {car})" for head, car, _ in words if head == "parked"]
    init += [f"(car-clear {car})" for car in some if car not in ahead]
    init.append(f"(curb-clear {where[-1]})")
    return [("car", some), ("curb", where)], init, goal


def tiles(drawn: Drawn, side: int, moves: int) -> Made:
    board, blank = {(x, y): y * side + x for x in range(side) for y in range(side)}, (0, 0)
    for _ in range(moves):
        dx, dy = drawn.choice([(1, 0), (-1, 0), (0, 1), (0, -1)])
        to = (blank[0] + dx, blank[1] + dy)
        if to in board:
            board[blank], board[to], blank = board[to], 0, to
    cells = {place: f"c{place[0]}-{place[1]}" for place in board}
    init = [f"(beside {name} {cells[x + dx, y + dy]})" for (x, y), name in cells.items()
            for dx, dy in ((1, 0), (-1, 0), (0, 1), (0, -1)) if (x + dx, y + dy) in cells]
    init += [f"(lies t{tile} {cells[place]})" for place, tile in board.items() if tile]
    init.append(f"(empty {cells[blank]})")
    return [("tile", [f"t{at}" for at in range(1, side * side)]), ("cell", list(cells.values()))], \
        init, [f"(lies t{y * side + x} {name})" for (x, y), name in cells.items() if x or y]


MAKERS: Sequence[tuple[str, str, Callable[..., Made], Sequence[int]]] = [
    ("blocks, 20", "blocks", blocks, (20,)),
    ("gripper, 42 balls", "gripper", gripper, (42,)),
    ("logistics, 5 cities, 15 packages", "logistics", logistics, (5, 3, 2, 15)),
    ("logistics, 10 cities, 20 packages", "logistics", logistics, (10, 3, 2, 20)),
    ("miconic, 30 passengers", "miconic", miconic, (30, 60)),
    ("satellite, 5, 35 directions", "satellite", satellite, (5, 12, 5, 35, 20)),
    ("visit, side 16", "visit", visit, (16,)),
    ("depots, 6 places, 15 crates", "depots", depots, (6, 3, 15)),
    ("driverlog, 12 places", "driverlog", driverlog, (12, 4, 4, 8)),
    ("zeno, 15 cities", "zeno", zeno, (15, 4, 10)),
    ("elevators, 17 floors", "elevators", elevators, (17, 3, 2, 15)),
    ("transport, 30 places", "transport", transport, (30, 4, 12)),
    ("rovers, 4, 10 waypoints", "rovers", rovers, (4, 10, 6, 10)),
    ("parking, 20 cars", "parking", parking, (20, 11)),
    ("tiles, 5 by 5", "tiles", tiles, (5, 100))]


def problems() -> Iterator[Problem]:
    for name, domain, make, sizes in MAKERS:
        typed = domain_of(domain), problem_of(domain, *make(random.Random(name), *sizes))
        yield Problem(name, typed, untyped(*typed))


# ---- the same without types

def untyped(domain: str, problem: str) -> tuple[str, str]:
    """The texts with a static predicate in place of each type."""
    with tempfile.TemporaryDirectory() as folder:
        places = [Path(folder) / name for name in ("domain", "problem")]
        for place, text in zip(places, (domain, problem)):
            place.write_text(text, encoding="ascii")
        lifted = Lifted(*map(str, places))
    kinds = sorted(lifted.parents)
    predicates = [f"(is-{kind} ?x)" for kind in kinds]
    predicates += [f"({' '.join([name, *(f'?x{at}' for at in range(len(own)))])})"
                   for name, own in lifted.predicates.items()]
    functions = "(:functions (total-cost))\n" * lifted.has_cost
    facts = [f"(is-{kind} {name})" for name, own in lifted.objects.items() for kind in kinds
             if lifted.fits(own, kind)]
    facts += [f"({' '.join(atom)})" for atom in lifted.init]
    metric = "\n(:metric minimize (total-cost))" * lifted.has_metric
    actions = "\n".join(map(untyped_action, lifted.actions.values()))
    return (f"(define (domain {lifted.domain})\n(:predicates {filled(predicates)})\n"
            f"{functions}{actions})\n",
            f"(define (problem made) (:domain {lifted.domain})\n"
            f"(:objects {filled(list(lifted.objects))})\n(:init {filled(facts)})\n"
            f"(:goal (and {filled([f'({chr(32).join(atom)})' for atom in lifted.goals])}))"
            f"{metric})\n")


def untyped_action(action) -> str:
    needs = [f"(is-{kind} {name})" for name, kind in action.params if kind != "object"]
    needs += [f"({' '.join(atom)})" for atom in action.needs]
    effects = [f"(not ({' '.join(atom)}))" if is_deleted else f"({' '.join(atom)})"
               for atom, is_deleted in action.effects]
    effects += [f"(increase (total-cost) {action.cost})"] * (action.cost is not None)
    return (f"(:action {action.name} :parameters ({' '.join(name for name, _ in action.params)})\n"
            f" :precondition (and {filled(needs)})\n :effect (and {filled(effects)}))")

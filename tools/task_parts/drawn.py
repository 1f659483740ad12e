"""Draws small problems with all that prepare-pddl reads."""

from __future__ import annotations

import itertools
from random import Random

from task_parts.brute_force import Search

TYPES = ["k0 k1 - k", "k0 k1 - k k - object", "k0 k1 k2 - k", "k0 - k k1 - object"]
EITHERS = ["(either k0 k1)", "k0", "k1", "k", "object", "k", "object"]


def problem(random: Random) -> tuple[str, str]:
    """The texts of a domain and a problem; most have a plan with steps."""
    while True:
        domain, problem_without_goal, fluent, names = draw(random)
        if random.random() < 0.15:
            goal = [condition(random, fluent, names) for _ in range(random.randint(1, 4))]
        else:
            goal = reached_goal(random, Search(domain, problem_without_goal.format("")), fluent,
                                names)
        if goal:
            return domain, problem_without_goal.format(" ".join(goal))


def draw(random: Random) -> tuple[str, str, dict[str, int], list[str]]:
    """A domain, a problem but for its goal, and what goals are made of."""
    kinds = random.choice(TYPES)
    types = [name for name in kinds.split() if name.startswith("k")]
    objects = {f"o{number}": random.choice(types) for number in range(random.randint(2, 3))}
    fluent = {"p0": random.choice([0, 1, 2]), "p1": random.choice([1, 2]), "p2": 1}
    predicates = {**fluent, "s0": random.choice([1, 2]), "s1": 2}  # (two are static)
    functions = {"f0": random.choice([0, 1, 2]), "f1": 1}
    costs = random.choice(["none", "small", "small", "zero", "zero", "large"])
    actions = [action(random, number, predicates, functions, list(objects)[:1], costs)
               for number in range(random.randint(2, 4))]
    domain = domain_text(kinds, list(objects)[0], objects, predicates, functions, actions, costs)
    return (domain, problem_text(random, objects, predicates, functions, costs), fluent,
            list(objects))


def reached_goal(random: Random, search: Search, fluent: dict[str, int],
                 names: list[str]) -> list[str]:
    """Literals that hold after a drawn walk, and of which one doesn't hold at the start."""
    state = start = frozenset(search.start)
    for _ in range(random.randint(1, 12)):
        after = [reached[0] for action in search.actions
                 for reached in [search.after(action, state)] if reached is not None]
        state = random.choice(after) if after else state
    atoms = [(name, *terms) for name, arity in fluent.items() for terms in tuples(names, arity)]
    turned = [atom for atom in atoms if (atom in start) != (atom in state)]
    if not turned:
        return []
    chosen = random.sample(turned, min(len(turned), random.randint(1, 4)))
    chosen += random.sample(atoms, min(len(atoms), random.randint(0, 2)))
    return [f"({' '.join(atom)})" if atom in state else f"(not ({' '.join(atom)}))"
            for atom in chosen]


def declared(names: dict[str, int]) -> str:
    return " ".join(f"({name}{''.join(f' ?x{place}' for place in range(arity))})"
                    for name, arity in names.items())


def atom(random: Random, names: dict[str, int], terms: list[str]) -> str:
    fitting = [name for name, arity in names.items() if terms or arity == 0]
    name = random.choice(fitting)
    return f"({' '.join([name, *(random.choice(terms) for _ in range(names[name]))])})"


def condition(random: Random, predicates: dict[str, int], terms: list[str]) -> str:
    """A literal of a predicate or of `=`."""
    if len(terms) > 1 and random.random() < 0.25:
        text = f"(= {random.choice(terms)} {random.choice(terms)})"
    else:
        text = atom(random, predicates, terms)
    return f"(not {text})" if random.random() < 0.45 else text


def action(random: Random, number: int, predicates: dict[str, int], functions: dict[str, int],
           constants: list[str], costs: str) -> str:
    parameters = [f"?x{place}" for place in range(random.randint(0, 3))]
    typed = " ".join(f"{name} - {random.choice(EITHERS)}" for name in parameters)
    terms = parameters + constants
    needs = [condition(random, predicates, terms) for _ in range(random.choice([0, 1, 1, 2, 3]))]
    fluent = {name: arity for name, arity in predicates.items() if name.startswith("p")}
    effects = [atom(random, fluent, terms) for _ in range(random.randint(1, 2))]
    effects = [f"(not {effect})" if random.random() < 0.4 else effect for effect in effects]
    if random.random() < 0.6:  # (something moves, perhaps to where it is)
        moved = random.choice([name for name in fluent if terms or fluent[name] == 0])
        effects += [f"(not {atom(random, {moved: fluent[moved]}, terms)})",
                    atom(random, {moved: fluent[moved]}, terms)]
    effects += increase(random, functions, terms, costs)
    return (f"(:action a{number} :parameters ({typed})\n  :precondition (and {' '.join(needs)})\n"
            f"  :effect (and {' '.join(effects)}))")


def increase(random: Random, functions: dict[str, int], terms: list[str], costs: str) -> list[str]:
    if costs == "none" or costs == "zero" and random.random() < 0.2:
        return []
    if random.random() < 0.6:
        return [f"(increase (total-cost) {atom(random, functions, terms)})"]
    return [f"(increase (total-cost) {value(random, costs)})"]


def value(random: Random, costs: str) -> int:
    return random.choice({"none": [1], "small": [1, 2, 3, 7], "zero": [0, 0, 1, 2, 5],
                          "large": [2**20 * 4, 2**20 * 6, 40, 0]}[costs])


def domain_text(kinds: str, constant: str, objects: dict[str, str], predicates: dict[str, int],
                functions: dict[str, int], actions: list[str], costs: str) -> str:
    total = "" if costs == "none" else f"(:functions (total-cost) {declared(functions)} - number)\n"
    lines = "\n".join(actions)
    return (f"(define (domain drawn) (:requirements :adl)\n(:types {kinds})\n"
            f"(:constants {constant} - {objects[constant]})\n"
            f"(:predicates {declared(predicates)})\n{total}{lines})\n")


def problem_text(random: Random, objects: dict[str, str], predicates: dict[str, int],
                 functions: dict[str, int], costs: str) -> str:
    """The problem's text, with `{}` in place of its goal."""
    names = list(objects)
    density = random.choice([0.2, 0.4, 0.6])
    facts = {f"({' '.join([name, *terms])})" for name, arity in predicates.items()
             for terms in tuples(names, arity) if random.random() < density}
    metric = ""
    if costs != "none":
        metric = "(:metric minimize (total-cost))"
        for name, arity in functions.items():
            for terms in tuples(names, arity):
                if random.random() < 0.9:
                    facts.add(f"(= ({' '.join([name, *terms])}) {value(random, costs)})")
    listed = " ".join(f"{name} - {objects[name]}" for name in names[1:])
    return (f"(define (problem drawn) (:domain drawn)\n(:objects {listed})\n"
            f"(:init {' '.join(sorted(facts))})\n(:goal (and {{}}))\n{metric})\n")


def tuples(names: list[str], arity: int) -> list[tuple[str, ...]]:
    return list(itertools.product(names, repeat=arity))

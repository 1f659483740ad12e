"""Drawn problems in PDDL whose atoms are reached in several rounds (docs/PDDL.md, "What is
reached"): with types, constants, static predicates and costs, and some without a plan."""

import dataclasses

import shared

MOST_PARAMETERS = 4


def make_rounds(drawn):
    """A task of which several rounds reach atoms."""
    is_ring = drawn.random() < 0.2
    domain, problem, is_wide = make_ring(drawn) if is_ring else make_levels(drawn)
    if drawn.random() < 0.6:
        domain, problem = shared.add_costs(drawn, domain, problem)
    problem = problem.encode()
    if drawn.random() < 0.2:
        problem = shared.add_objects(drawn, problem)
    return shared.Task("strips", {"domain": domain.encode(), "problem": problem}, is_wide=is_wide)


# ---- levels: an action of each level needs what the one below it adds

@dataclasses.dataclass
class Domain:
    """Types with the types above them, objects with their types, the constants among them, and
    predicates with the types of their parameters."""

    types: dict
    objects: dict
    constants: set
    predicates: dict

    def fits(self, kind, wanted):
        """Whether a type is the wanted one or below it."""
        while kind not in (wanted, "object"):
            kind = self.types[kind]
        return kind == wanted

    def objects_of(self, kind):
        return [name for name, own in self.objects.items() if self.fits(own, kind)]


def make_levels(drawn):
    """The texts of a drawn domain and a problem of it, and that it isn't wide."""
    types = {"k0": "object", "k1": drawn.choice(["object", "k0"]), "k2": "k1"}
    types = dict(list(types.items())[:drawn.randint(0, 3)])
    kinds = ["object", *types]
    objects = {f"o{at}": drawn.choice(kinds) for at in range(drawn.randint(2, 7))}
    constants = {name for name in objects if drawn.random() < 0.2}
    levels, statics = drawn.randint(2, 6), drawn.randint(1, 3)
    predicates = {f"s{at}": [drawn.choice(kinds) for _ in range(drawn.choice([1, 2, 2]))]
                  for at in range(statics)}
    predicates |= {f"f{at}": [drawn.choice(kinds) for _ in range(drawn.choice([0, 1, 1, 1, 2, 2]))]
                   for at in range(levels)}
    shape = Domain(types, objects, constants, predicates)
    actions = []
    for level in range(levels):
        for _ in range(drawn.choice([1, 1, 2])):
            actions.append(make_action(drawn, len(actions), shape, level, statics))
    drawn.shuffle(actions)
    shown = list(predicates.items())
    drawn.shuffle(shown)
    facts = [drawn_fact(drawn, shape, f"s{drawn.randrange(statics)}")
             for _ in range(drawn.randint(2, 12))]
    facts += [drawn_fact(drawn, shape, "f0") for _ in range(drawn.randint(0, 3))]
    facts += [drawn_fact(drawn, shape, drawn.choice(list(predicates)))
              for _ in range(drawn.randint(0, 2))]
    domain = (f"(define (domain made) (:types {typed(types)})\n"
              f"(:constants {typed({name: objects[name] for name in constants})})\n"
              f"(:predicates {' '.join(declared(name, own) for name, own in shown)})\n"
              + "\n".join(actions) + ")\n")
    own = typed({name: kind for name, kind in objects.items() if name not in constants})
    return domain, with_goal(drawn, domain, own, [fact for fact in facts if fact]), False


def typed(kinds):
    return " ".join(f"{name} - {kind}" for name, kind in sorted(kinds.items()))


def declared(name, kinds):
    return f"({name}{''.join(f' ?v{at} - {kind}' for at, kind in enumerate(kinds))})"


def make_action(drawn, number, shape, level, statics):
    """An action that needs atoms of this level and of those below, and adds one of the next."""
    parameters, below = {}, [f"f{at}" for at in range(level + 1)]
    needs = [f"f{level}"] * (drawn.random() < 0.9) + [f"s{drawn.randrange(statics)}"]
    needs += [drawn.choice(below) for _ in range(drawn.choice([0, 0, 1, 1, 2]))]
    needs = [drawn_atom(drawn, shape, name, parameters) for name in needs]
    drawn.shuffle(needs)
    top = f"f{level + 1}" if f"f{level + 1}" in shape.predicates else drawn.choice(below)
    adds = [top] + [drawn.choice(below) for _ in range(drawn.choice([0, 0, 0, 1]))]
    adds = [drawn_atom(drawn, shape, name, parameters) for name in adds]
    fluent = [name for name in shape.predicates if name[0] == "f"]
    deletes = [drawn_atom(drawn, shape, drawn.choice(fluent), parameters)
               for _ in range(drawn.choice([0, 0, 1, 1, 2]))]
    effects = [atom for atom in adds if atom]
    effects += [f"(not {atom})" for atom in deletes if atom]
    needs = [atom for atom in needs if atom]
    return (f"(:action a{number} :parameters ({typed(parameters)})\n"
            f" :precondition (and {' '.join(needs)}) :effect (and {' '.join(effects)}))")


def drawn_atom(drawn, shape, name, parameters):
    """An atom of this predicate. It may bring new parameters; none where too many would be."""
    terms = []
    for kind in shape.predicates[name]:
        some = [term for term, own in parameters.items() if shape.fits(own, kind)]
        constants = [term for term in shape.constants if shape.fits(shape.objects[term], kind)]
        if constants and drawn.random() < 0.1:
            terms.append(drawn.choice(sorted(constants)))
        elif some and (drawn.random() < 0.6 or len(parameters) == MOST_PARAMETERS):
            terms.append(drawn.choice(some))
        elif len(parameters) < MOST_PARAMETERS:
            narrower = [own for own in ["object", *shape.types] if shape.fits(own, kind)]
            terms.append(f"?v{len(parameters)}")
            parameters[terms[-1]] = drawn.choice([kind, kind, drawn.choice(narrower)])
        else:
            return ""
    return f"({' '.join([name, *terms])})"


def drawn_fact(drawn, shape, name):
    """A fact of this predicate, none where no objects fit."""
    lists = [shape.objects_of(kind) for kind in shape.predicates[name]]
    return f"({' '.join([name, *map(drawn.choice, lists)])})" if all(lists) else ""


def with_goal(drawn, domain, objects, facts):
    """The problem's text, mostly with a goal to which a drawn walk leads."""
    text = shared.problem_text("made", objects, " ".join(facts), [])
    checker = shared.load_checker()
    try:
        task = checker.Strips(0, domain.encode(), text.encode(), reachable=True)
    except checker.Refused:
        return text
    names = [f"({' '.join(atom)})" for atom in task.bits]
    state, goal = task.start, []
    for _ in range(drawn.randint(1, 10)):
        steps = [task.step(state, action) for action in range(len(task.actions))]
        steps = [after for after in steps if after not in (None, state)]
        state = drawn.choice(steps) if steps else state
    new = [name for at, name in enumerate(names) if state >> at & 1 and not task.start >> at & 1]
    old = [name for at, name in enumerate(names) if state >> at & 1]
    for some, share in ((new, 1), (new, 0.5), (old, 0.3), (names, 0.15), (facts, 0.1)):
        goal += [drawn.choice(some)] if some and drawn.random() < share else []
    if drawn.random() < 0.05 and "(f1)" in domain:
        goal.append("(f1)")
    return shared.problem_text("made", objects, " ".join(facts), goal)


# ---- rings: pairs of places along a ring or a line, a step more in each round

def make_ring(drawn):
    """The texts of a ring or a line of places with the pairs that are joined, of which each round
    reaches those a step further or twice as far, and whether it is wide."""
    count = drawn.choice([3, 4, 5, 6, 7, 8, 10, 12, 22, 30, 31, 32, 33])
    doubles = count <= 8 and drawn.random() < 0.6
    rest = "(joined ?b ?c)" if doubles else "(next ?b ?c)"
    need = ["(joined ?a ?b)", rest, "(first ?a)"][:drawn.choice([2, 2, 2, 3])]
    drawn.shuffle(need)
    deleted = drawn.choice(["", "", "(not (joined ?a ?b))", "(not (marked ?a))"])
    domain = ("(define (domain rings) (:types place)\n"
              "(:predicates (next ?a ?b - place) (first ?a - place) (joined ?a ?b - place) "
              "(marked ?a - place))\n"
              "(:action begin :parameters (?a ?b - place) :precondition (and (next ?a ?b)) "
              ":effect (and (joined ?a ?b)))\n"
              f"(:action join :parameters (?a ?b ?c - place) :precondition (and {' '.join(need)}) "
              f":effect (and (joined ?a ?c) {deleted}))\n"
              "(:action mark :parameters (?a - place) :precondition (and (joined ?a ?a)) "
              ":effect (and (marked ?a))))\n")
    places = [f"p{at}" for at in range(count)]
    pairs = list(zip(places, places[1:] + places[:1]))[:count - drawn.choice([0, 0, 1])]
    facts = [f"(next {one} {other})" for one, other in pairs]
    facts += [f"(first {drawn.choice(places)})" for _ in range(drawn.randint(0, 3))]
    drawn.shuffle(facts)
    at, far = drawn.randrange(count), drawn.choice([1, 1, 2, 2, 3, 4])
    goal = drawn.choice([f"(joined p{at} p{(at + far) % count})"] * 4 + [f"(marked p{at})"])
    return domain, shared.problem_text("rings", f"{' '.join(places)} - place", " ".join(facts),
                                       [goal]), count > 12

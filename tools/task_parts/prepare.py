"""Makes plain STRIPS with costs of at least 1 of a task, step by step, and notes what it changed.

The steps, in their order: costs by static functions, costs of zero, negative conditions on what
changes, the other negative conditions with `=`, and `either`.
"""

from __future__ import annotations

import dataclasses
import itertools
import math
from typing import Iterable, Iterator, NoReturn, Optional

from pddl_parts.forms import Text
from pddl_parts.strips import MOST_COST
from pddl_parts.task import RESERVED, Action, Atom, Literal, Parameter, Task

MOST_MULTIPLIER = 10_000
MOST_FACTS = 200_000
MOST_VARIANTS = 64


@dataclasses.dataclass(frozen=True)
class Schema:
    """An action of the prepared domain, the one that it stands for, and both costs."""

    name: str
    action: Action
    needs: tuple[Literal, ...]
    adds: tuple[Atom, ...]
    deletes: tuple[Atom, ...]
    original_cost: int
    cost: int

    @property
    def parameters(self) -> tuple[Parameter, ...]:
        return self.action.parameters

    def with_needs(self, literals: Iterable[Literal]) -> Schema:
        return dataclasses.replace(self, needs=(*self.needs, *literals))


class Names:
    """Gives names that aren't taken."""

    def __init__(self, taken: Iterable[str]) -> None:
        self.taken = set(taken)

    def fresh(self, wish: str) -> str:
        names = itertools.chain([wish], (f"{wish}-{number}" for number in itertools.count(2)))
        name = next(name for name in names if name not in self.taken)
        self.taken.add(name)
        return name


class Preparation:
    """The prepared task as it grows."""

    def __init__(self, task: Task, multiplier: Optional[int] = None) -> None:
        self.task, self.notes = task, []
        self.parents = dict(task.parents)
        self.predicates = dict(task.predicates)
        self.facts = {atom for atom in task.init}
        self.divisor, self.multiplier = 1, None
        self.action_names = Names(task.actions)
        self.predicate_names = Names([*task.predicates, *RESERVED])
        self.fluent = task.fluent()
        self.helpers: dict[object, str] = {}
        self.schemas = [schema for action in task.actions.values()
                        for schema in self.split(action)]
        self.scale(multiplier)
        self.complement_fluent()
        goal = list(self.atoms(task.goal, (), task.problem_text))
        self.schemas = [self.plain(schema) for schema in self.schemas]
        self.goal: list[Atom] = goal
        self.types = EitherTypes(self)

    def note(self, text: str) -> None:
        self.notes.append(text)

    def helper(self, key: object, wish: str, parameters: tuple[Parameter, ...],
               why: str) -> str:
        """The name of a predicate that is added for a reason, once for each key."""
        if key not in self.helpers:
            name = self.helpers[key] = self.predicate_names.fresh(wish)
            self.predicates[name] = parameters
            self.note(f"the predicate `{name}` is added: {why}")
        return self.helpers[key]

    # Costs

    def split(self, action: Action) -> Iterator[Schema]:
        """The action, or one for each value of its cost's function."""
        sets = action.needs, action.adds, action.deletes
        if not self.task.has_metric:
            yield Schema(action.name, action, *sets, 1, 1)
        elif not isinstance(action.cost, tuple):
            cost = action.cost or 0
            yield Schema(action.name, action, *sets, cost, cost)
        else:
            values = self.values(action)
            for value in values:
                name = action.name
                if len(values) > 1:
                    name = self.action_names.fresh(f"{name}-{value}")
                schema = Schema(name, action, *sets, value, value)
                yield schema.with_needs(self.value_literals(action.cost, value))
            found = f"{count(values, 'action')}, by {', '.join(map(str, values))}"
            self.note(f"`{action.name}` costs ({' '.join(action.cost)}): "
                      f"{found if values else 'no value, so it is left out'}")

    def values(self, action: Action) -> list[int]:
        """The values of the function for the objects that the action's terms may stand for."""
        function, *terms = action.cost
        may_be = [set(self.task.candidates(term, action.parameters)) for term in terms]
        return sorted({value for (name, *objects), value in self.task.values.items()
                       if name == function and all(map(set.__contains__, may_be, objects))})

    def value_literals(self, function: Atom, value: int) -> list[Literal]:
        """That the function has this value, as a static fact; nothing if it has no terms."""
        name, *terms = function
        if not terms:
            return []
        predicate = self.helper(("value", name, value), f"{name}-{value}",
                                self.task.functions[name], f"`{name}` is {value}")
        self.facts |= {(predicate, *objects) for (other, *objects), known
                       in self.task.values.items() if (other, known) == (name, value)}
        return [Literal((predicate, *terms))]

    def scale(self, given: Optional[int]) -> None:
        """Makes each cost at least 1, if one is 0, and at most the greatest that is read."""
        costs = [schema.cost for schema in self.schemas] or [1]
        if min(costs) > 0 and max(costs) <= MOST_COST:
            if given is not None:
                self.note("no action costs 0: nothing is multiplied")
            return
        self.divisor = math.gcd(*costs) or 1
        greatest = max(costs) // self.divisor
        if min(costs) == 0:
            most = (MOST_COST - 1) // greatest if greatest else MOST_MULTIPLIER
            self.multiplier = given or min(MOST_MULTIPLIER, most)
        if self.multiplier == 0 or self.scaled(max(costs)) > MOST_COST:
            dearest = max(self.schemas, key=lambda schema: schema.cost)
            self.task.domain_text.refuse(
                f"`{dearest.action.name}` costs {dearest.cost}, which is too much, also if all "
                f"costs are divided by {self.divisor}", dearest.action.at)
        self.schemas = [dataclasses.replace(schema, cost=self.scaled(schema.cost))
                        for schema in self.schemas]
        self.note_scale(sum(cost == 0 for cost in costs))

    def scaled(self, cost: int) -> int:
        return cost // self.divisor if self.multiplier is None else \
            cost // self.divisor * self.multiplier + 1

    def note_scale(self, zeros: int) -> None:
        if self.divisor > 1:
            self.note(f"each cost is divided by {self.divisor}")
        if self.multiplier is not None:
            self.note(f"{count(range(zeros), 'action')} cost 0: each cost c becomes "
                      f"c * {self.multiplier} + 1, so a plan of cost C in n steps costs "
                      f"C * {self.multiplier} + n")
            self.note(f"so the bound holds of plans that aren't much longer: if n steps are found, "
                      f"no plan of fewer than n + {self.multiplier} steps is cheaper")

    # Negative conditions on fluent predicates

    def complement_fluent(self) -> None:
        """Adds a complement to each fluent predicate that some condition wants not to hold."""
        wanted = {literal.atom[0] for schema in self.schemas for literal in schema.needs
                  if not literal.holds}
        wanted |= {literal.atom[0] for literal in self.task.goal if not literal.holds}
        wanted = {name: None for name in self.task.predicates if name in wanted & self.fluent}
        if not wanted:
            return
        for name in wanted:
            kinds = [parameter.kinds for parameter in self.task.predicates[name]]
            size = math.prod(len(self.task.fitting(kind)) for kind in kinds)
            if size > MOST_FACTS:
                self.refuse_size(f"the complement of `{name}`", name, size)
            why = f"`{name}` doesn't hold; {count(range(size), 'ground atom')} more"
            wanted[name] = self.helper(("not", name), f"not-{name}",
                                       self.task.predicates[name], why)
            objects = itertools.product(*map(self.task.fitting, kinds))
            self.facts |= {(wanted[name], *terms) for terms in objects
                           if (name, *terms) not in self.task.init}
        self.schemas = [self.with_complements(variant, wanted) for schema in self.schemas
                        for variant in self.variants(schema, wanted)]

    def variants(self, schema: Schema, wanted: Iterable[str]) -> list[Schema]:
        """The action by cases, so that no complemented atom is both added and deleted."""
        found, todo = [], [schema]
        while todo:
            case = todo.pop()
            clash = next(((pairs, delete) for add in case.adds for delete in case.deletes
                          if add[0] == delete[0] and add[0] in wanted
                          for pairs in [Cases(self.task, case).pairs(add, delete)]
                          if pairs is not None), None)
            if clash is None:
                found.append(case)
            elif not clash[0]:  # (an atom that is deleted and added holds)
                deletes = tuple(atom for atom in case.deletes if atom != clash[1])
                todo.append(dataclasses.replace(case, deletes=deletes))
            else:
                todo += cases(case, clash[0])
            if len(found) + len(todo) > MOST_VARIANTS:
                self.task.domain_text.refuse(f"`{schema.action.name}` has too many cases in which "
                                             "it adds what it deletes", schema.action.at)
        if len(found) > 1:
            self.note(f"`{schema.name}` becomes {len(found)} actions, by which of its objects are "
                      "one: it may add what it deletes")
        return [case if at == 0 else dataclasses.replace(
            case, name=self.action_names.fresh(schema.name)) for at, case in enumerate(found)]

    def with_complements(self, schema: Schema, names: dict[str, str]) -> Schema:
        adds = [(names[head], *terms) for head, *terms in schema.deletes if head in names]
        deletes = [(names[head], *terms) for head, *terms in schema.adds if head in names]
        return dataclasses.replace(schema, adds=(*schema.adds, *adds),
                                   deletes=(*schema.deletes, *deletes))

    # Literals

    def plain(self, schema: Schema) -> Schema:
        needs = self.atoms(schema.needs, schema.parameters, self.task.domain_text)
        return dataclasses.replace(schema, needs=tuple(Literal(atom) for atom in needs))

    def atoms(self, literals: Iterable[Literal], parameters: tuple[Parameter, ...],
              text: Text) -> Iterator[Atom]:
        """The literals as atoms that are to hold."""
        for literal in literals:
            head, *terms = literal.atom
            if head == "=":
                yield from self.equality(literal, parameters, text)
            elif literal.holds:
                yield literal.atom
            elif head in self.fluent:
                yield (self.helpers["not", head], *terms)
            else:
                yield self.static_complement(literal, parameters, text)

    def equality(self, literal: Literal, parameters: tuple[Parameter, ...],
                 text: Text) -> Iterator[Atom]:
        _, first, second = literal.atom
        names = {parameter.name for parameter in parameters}
        if first == second or not names & {first, second}:
            if (first == second) != literal.holds:
                yield (self.helper("never", "never", (), "it never holds"),)
            return
        wish, why = ("same", "an object and itself") if literal.holds else \
            ("different", "two objects that differ")
        anything = tuple(Parameter(name, ("object",)) for name in ("?a", "?b"))
        predicate = self.helper(wish, wish, anything, why)
        pairs = self.product(literal, parameters, text)
        self.facts |= {(predicate, *pair) for pair in pairs
                       if (pair[0] == pair[1]) == literal.holds}
        yield (predicate, first, second)

    def static_complement(self, literal: Literal, parameters: tuple[Parameter, ...],
                          text: Text) -> Atom:
        head, *terms = literal.atom
        predicate = self.helper(("not", head), f"not-{head}", self.task.predicates[head],
                                f"`{head}` doesn't hold, at the start and always")
        self.facts |= {(predicate, *objects) for objects in self.product(literal, parameters, text)
                       if (head, *objects) not in self.task.init}
        return (predicate, *terms)

    def product(self, literal: Literal, parameters: tuple[Parameter, ...],
                text: Text) -> Iterator[tuple[str, ...]]:
        """The lists of objects that the terms of a literal may stand for."""
        lists = [self.task.candidates(term, parameters) for term in literal.atom[1:]]
        size = math.prod(map(len, lists))
        if size > MOST_FACTS:
            text.refuse(f"this would need up to {size:,} facts", literal.at)
        return itertools.product(*lists)

    def refuse_size(self, what: str, name: str, size: int) -> NoReturn:
        place = next((action.at for action in self.task.actions.values()
                      for literal in action.needs if literal.atom[0] == name), 0)
        self.task.domain_text.refuse(f"{what} would need {size:,} ground atoms", place)


class Cases:
    """What an action's conditions say of which of its terms are one object."""

    def __init__(self, task: Task, schema: Schema) -> None:
        self.task, self.schema = task, schema
        self.roots: dict[str, str] = {}
        for literal in schema.needs:
            if literal.atom[0] == "=" and literal.holds:
                self.roots[self.root(literal.atom[1])] = self.root(literal.atom[2])
        self.apart = {frozenset(map(self.root, literal.atom[1:])) for literal in schema.needs
                      if literal.atom[0] == "=" and not literal.holds}

    def root(self, term: str) -> str:
        while self.roots.get(term, term) != term:
            term = self.roots[term]
        return term

    def pairs(self, first: Atom, second: Atom) -> Optional[list[tuple[str, str]]]:
        """The pairs of terms that must be one object for the atoms to be one, if they can be."""
        found = []
        for one, other in zip(first[1:], second[1:]):
            if self.root(one) == self.root(other):
                continue
            common = set(self.task.candidates(one, self.schema.parameters))
            common &= set(self.task.candidates(other, self.schema.parameters))
            if not common or frozenset([self.root(one), self.root(other)]) in self.apart:
                return None
            found.append((one, other))
        return found


def cases(schema: Schema, pairs: list[tuple[str, str]]) -> Iterator[Schema]:
    """All pairs equal; or one that differs, with those before it equal."""
    yield schema.with_needs(Literal(("=", *pair)) for pair in pairs)
    for at, pair in enumerate(pairs):
        before = [Literal(("=", *equal)) for equal in pairs[:at]]
        yield schema.with_needs([*before, Literal(("=", *pair), holds=False)])


class EitherTypes:
    """A type of its own for each `either`, put into the tree of types."""

    def __init__(self, preparation: Preparation) -> None:
        self.task, self.parents = preparation.task, preparation.parents
        self.names = Names([*self.parents, "object"])
        self.type_of: dict[tuple[str, ...], str] = {}
        self.made: list[tuple[set[str], str]] = []
        lists = [*preparation.predicates.values(),
                 *(schema.parameters for schema in preparation.schemas)]
        wanted = {parameter.kinds: parameter for parameters in lists for parameter in parameters}
        for kinds in sorted(wanted, key=lambda kinds: (self.size(kinds), kinds)):
            self.type_of[kinds] = kinds[0] if len(kinds) == 1 else self.make(wanted[kinds])
            if len(kinds) > 1:
                preparation.note(f"(either {' '.join(kinds)}) is the type `{self.type_of[kinds]}`")

    def size(self, kinds: tuple[str, ...]) -> int:
        return sum(any(self.task.is_below(kind, above) for above in kinds)
                   for kind in self.task.parents)

    def make(self, parameter: Parameter) -> str:
        members = set(parameter.kinds)
        for below, name in self.made:
            if below <= members:
                members = members - below | {name}
        if len(members) == 1:
            return members.pop()
        above = {self.parents[kind] for kind in members}
        if len(above) > 1:
            self.task.domain_text.refuse(
                f"(either {' '.join(parameter.kinds)}) isn't read: these types aren't directly "
                f"below one type, or another `either` has some of them", parameter.at)
        name = self.names.fresh("-or-".join(parameter.kinds))
        self.parents[name] = above.pop()
        self.parents.update(dict.fromkeys(members, name))
        self.made.append((members, name))
        return name


def count(things, name: str) -> str:
    return f"{len(things)} {name}" + "s" * (len(things) != 1)

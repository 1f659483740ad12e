"""A task of the PDDL that prepare-pddl reads, with its own meaning: states, steps and costs.

Beside what docs/PDDL.md reads there are static functions in costs, costs of zero, `=`, negative
preconditions and goals, and `either`. Each text keeps where it has these. Everything else is
refused by its place.
"""

from __future__ import annotations

import dataclasses
import itertools
import re
from typing import Callable, Iterable, Iterator, Union

from pddl_parts.forms import Form, Name, Part, Text

Atom = tuple[str, ...]
# Heads that no atom has.
RESERVED = {"and", "or", "not", "imply", "exists", "forall", "when", "=", "increase", "decrease",
            "assign", "scale-up", "scale-down"}
MOST_PARAMETERS = 16


@dataclasses.dataclass(frozen=True)
class Literal:
    """An atom that is to hold, or not; the atom of an equality has the head `=`."""

    atom: Atom
    holds: bool = True
    at: int = 0


@dataclasses.dataclass(frozen=True)
class Parameter:
    """A name and its types; more than one are those of an `either`."""

    name: str
    kinds: tuple[str, ...]
    at: int = dataclasses.field(default=0, compare=False)


Cost = Union[int, Atom, None]  # a number, a function with its terms, or none


@dataclasses.dataclass(frozen=True)
class Action:
    name: str
    at: int
    parameters: tuple[Parameter, ...]
    needs: tuple[Literal, ...]
    effects: tuple[tuple[Atom, bool], ...]  # each with whether it is deleted
    cost: Cost

    @property
    def adds(self) -> tuple[Atom, ...]:
        return tuple(atom for atom, is_deleted in self.effects if not is_deleted)

    @property
    def deletes(self) -> tuple[Atom, ...]:
        return tuple(atom for atom, is_deleted in self.effects if is_deleted)


@dataclasses.dataclass
class Task:
    """What both files say. `values` has the functions' values, `has_metric` if costs count."""

    domain_text: Text
    problem_text: Text
    domain: str = ""
    problem: str = ""
    parents: dict[str, str] = dataclasses.field(default_factory=dict)
    objects: dict[str, str] = dataclasses.field(default_factory=dict)
    constants: list[str] = dataclasses.field(default_factory=list)
    predicates: dict[str, tuple[Parameter, ...]] = dataclasses.field(default_factory=dict)
    functions: dict[str, tuple[Parameter, ...]] = dataclasses.field(default_factory=dict)
    actions: dict[str, Action] = dataclasses.field(default_factory=dict)
    init: dict[Atom, None] = dataclasses.field(default_factory=dict)  # (in their order)
    values: dict[Atom, int] = dataclasses.field(default_factory=dict)
    goal: tuple[Literal, ...] = ()
    has_metric: bool = False

    def is_below(self, kind: str, above: str) -> bool:
        while kind != above and kind != "object":
            kind = self.parents[kind]
        return kind == above

    def fits(self, name: str, kinds: Iterable[str]) -> bool:
        """Whether an object is of one of the types."""
        return any(self.is_below(self.objects[name], kind) for kind in kinds)

    def fitting(self, kinds: Iterable[str]) -> list[str]:
        return [name for name in self.objects if self.fits(name, tuple(kinds))]

    def candidates(self, term: str, parameters: Iterable[Parameter]) -> list[str]:
        """The objects that a term may stand for: itself, or those of its parameter."""
        kinds = {parameter.name: parameter.kinds for parameter in parameters}
        return self.fitting(kinds[term]) if term in kinds else [term]

    def fluent(self) -> set[str]:
        """The predicates that some effect names."""
        return {atom[0] for action in self.actions.values()
                for atom, _ in action.effects}

    def start(self) -> frozenset[Atom]:
        return frozenset(self.init)

    def is_goal(self, state: frozenset[Atom]) -> bool:
        return all(holds(literal, {}, state) for literal in self.goal)

    def step(self, state: frozenset[Atom], words: list[str]) -> tuple[frozenset[Atom], int]:
        """What an action with its objects leads to, and its cost; ValueError says what hinders."""
        action = self.actions.get(words[0])
        if action is None:
            raise ValueError(f"`{words[0]}` is no action of the domain")
        if len(action.parameters) != len(words) - 1:
            raise ValueError(f"`{words[0]}` has {len(action.parameters)} parameters")
        for parameter, name in zip(action.parameters, words[1:]):
            if name not in self.objects or not self.fits(name, parameter.kinds):
                kinds = " or ".join(parameter.kinds)
                raise ValueError(f"`{name}` is no object of the type {kinds}")
        binding = dict(zip([parameter.name for parameter in action.parameters], words[1:]))
        for literal in action.needs:
            if not holds(literal, binding, state):
                raise ValueError(f"{shown(literal, binding)} doesn't hold")
        deleted = {ground(atom, binding) for atom in action.deletes}
        return (state - deleted) | {ground(atom, binding) for atom in action.adds}, \
            self.cost(action, binding)

    def cost(self, action: Action, binding: dict[str, str]) -> int:
        """An action's cost in the original: 1 if the problem has no metric."""
        if not self.has_metric or action.cost is None:
            return 0 if self.has_metric else 1
        if isinstance(action.cost, int):
            return action.cost
        function = ground(action.cost, binding)
        if function not in self.values:
            raise ValueError(f"({' '.join(function)}) has no value")
        return self.values[function]


def ground(atom: Atom, binding: dict[str, str]) -> Atom:
    return tuple(binding.get(term, term) for term in atom)


def holds(literal: Literal, binding: dict[str, str], state: frozenset[Atom]) -> bool:
    atom = ground(literal.atom, binding)
    is_true = atom[1] == atom[2] if atom[0] == "=" else atom in state
    return is_true == literal.holds


def shown(literal: Literal, binding: dict[str, str]) -> str:
    text = f"({' '.join(ground(literal.atom, binding))})"
    return text if literal.holds else f"(not {text})"


class Scope:
    """The names that may stand in a formula, and the text that is refused."""

    def __init__(self, task: Task, text: Text, parameters: Iterable[Parameter] = ()) -> None:
        self.task, self.text = task, text
        self.kinds = {parameter.name: parameter.kinds for parameter in parameters}

    def term(self, part: Part) -> str:
        if not isinstance(part, Name):
            self.text.refuse("expected a name or a variable", part.at)
        if part not in self.kinds and part not in self.task.objects:
            self.text.refuse(f"`{part}` is no object or parameter", part.at)
        return str(part)

    def fits(self, term: str, kinds: tuple[str, ...]) -> bool:
        own = self.kinds.get(term, (self.task.objects.get(term, "object"),))
        return all(any(self.task.is_below(kind, above) for above in kinds) for kind in own)

    def atom(self, form: Form, known: dict[str, tuple[Parameter, ...]], what: str) -> Atom:
        """An atom of a declared predicate, or a declared function, with terms of its types."""
        head = self.text.as_name(form[0] if form else form, f"a {what}")
        if head in RESERVED:
            self.text.refuse(f"`{head}` isn't read there", head.at)
        if head not in known:
            self.text.refuse(f"`{head}` is no {what}", head.at)
        terms = [self.term(part) for part in form[1:]]
        if len(terms) != len(known[head]):
            self.text.refuse(f"`{head}` has {len(known[head])} parameters", head.at)
        for part, term, parameter in zip(form[1:], terms, known[head]):
            if not self.fits(term, parameter.kinds):
                wanted = " or ".join(parameter.kinds)
                self.text.refuse(f"`{term}` isn't of the type {wanted}", part.at)
        return (str(head), *terms)

    def literals(self, part: Part) -> Iterator[Literal]:
        """The literals of a condition."""
        form = self.text.as_list(part, "a condition")
        if not form:
            return
        if form.head() == "and":
            for inner in form[1:]:
                yield from self.literals(inner)
        elif form.head() == "not":
            inner = self.text.as_list(self.text.single(form[1:], "one atom", form), "an atom")
            self.text.beyond.append((form.at, "`not` in a condition"))
            yield dataclasses.replace(self.positive(inner), holds=False, at=form.at)
        else:
            yield self.positive(form)

    def positive(self, form: Form) -> Literal:
        if form.head() != "=":
            return Literal(self.atom(form, self.task.predicates, "predicate"), True, form.at)
        if len(form) != 3:
            self.text.refuse("`=` has two terms", form.at)
        self.text.beyond.append((form.at, "`=`"))
        return Literal(("=", self.term(form[1]), self.term(form[2])), True, form.at)

    def effects(self, part: Part, found: list[tuple[Atom, bool]], costs: list[Cost]) -> None:
        form = self.text.as_list(part, "an effect")
        if form.head() == "and":
            for inner in form[1:]:
                self.effects(inner, found, costs)
        elif form.head() == "not":
            inner = self.text.as_list(self.text.single(form[1:], "one atom", form), "an atom")
            found.append((self.atom(inner, self.task.predicates, "predicate"), True))
        elif form.head() == "increase":
            if costs:
                self.text.refuse("a second `increase` of an action", form.at)
            costs.append(self.increase(form))
        elif form:
            found.append((self.atom(form, self.task.predicates, "predicate"), False))

    def increase(self, form: Form) -> Cost:
        if len(form) != 3:
            self.text.refuse("expected `(increase (total-cost) COST)`", form.at)
        total = self.text.as_list(form[1], "`total-cost`")
        if list(total) != ["total-cost"] or "total-cost" not in self.task.functions:
            self.text.refuse("only `total-cost`, declared in `:functions`, can be increased",
                             total.at)
        if isinstance(form[2], Form):
            self.text.beyond.append((form[2].at, "a function as a cost"))
            return self.atom(form[2], {name: parameters for name, parameters
                                       in self.task.functions.items() if name != "total-cost"},
                             "static function")
        return self.number(form[2])

    def number(self, part: Part) -> int:
        if not isinstance(part, Name) or not re.fullmatch("[0-9]{1,9}", part):
            self.text.refuse("expected a number of 1 to 9 digits", part.at)
        return int(part)


def typed(text: Text, parts: Iterable[Part],
          take: Callable[[Part], Name]) -> Iterator[tuple[Name, tuple[Name, ...]]]:
    """The names of a list, each with its types, which are `object` where none stands."""
    group: list[Name] = []
    rest = iter(parts)
    for part in rest:
        if part != "-" or isinstance(part, Form):
            group.append(take(part))
            continue
        after = next(rest, None)
        if after is None or not group:
            text.refuse("a `-` without a name before it or a type after it", part.at)
        kinds = tuple(alternatives(text, after))
        yield from ((name, kinds) for name in group)
        group = []
    yield from ((name, (Name("object"),)) for name in group)


def alternatives(text: Text, part: Part) -> Iterator[Name]:
    """The type, or those of an `either`."""
    if not isinstance(part, Form):
        yield text.as_name(part, "a type")
        return
    if part.head() != "either" or len(part) < 2:
        text.refuse("expected a type, or `(either ..)`", part.at)
    text.beyond.append((part.at, "`either`"))
    yield from (text.as_name(kind, "a type") for kind in part[1:])


class Builder:
    """Reads both files to a task, section by section."""

    def __init__(self, domain: str, problem: str) -> None:
        self.task = Task(Text(domain), Text(problem))
        sections = self.sections(self.task.domain_text, "domain", {
            ":requirements", ":types", ":constants", ":predicates", ":functions", ":action"})
        given = self.sections(self.task.problem_text, "problem", {
            ":domain", ":requirements", ":objects", ":init", ":goal", ":metric"})
        for key in (":domain", ":goal"):
            if key not in given:
                text = self.task.problem_text
                text.refuse(f"`{key}` is missing", len(text.data))
        self.read_types(sections.get(":types", []))
        self.read_objects(self.task.domain_text, sections.get(":constants", []))
        self.task.constants = list(self.task.objects)
        self.read_objects(self.task.problem_text, given.get(":objects", []))
        self.read_declared(sections.get(":predicates", []), self.task.predicates)
        self.read_functions(sections.get(":functions", []))
        for form in sections.get(":action", []):
            self.read_action(form)
        self.read_problem(given)

    def sections(self, text: Text, kind: str, known: set[str]) -> dict[str, list]:
        """The parts of each section by its keyword; of `:action` the forms."""
        form, found = text.whole(), {}
        name = text.as_list(form[1], f"`{kind} NAME`") if len(form) > 1 else form
        if form.head() != "define" or name.head() != kind or len(name) != 2:
            text.refuse(f"expected `(define ({kind} NAME) ..)`", form.at)
        setattr(self.task, kind, str(text.as_name(name[1], "a name")))
        for section in form[2:]:
            key = text.as_list(section, "a section").head()
            if key not in known:
                text.refuse(f"the section `{key}` isn't read", section.at)
            for part in section[1:] if key == ":requirements" else []:
                if not isinstance(part, Name) or not part.startswith(":"):
                    text.refuse("a requirement begins with `:`", part.at)
            if key == ":action":
                found.setdefault(key, []).append(section)
            elif key in found:
                text.refuse(f"a second section `{key}`", section.at)
            else:
                found[key] = section[1:]
        return found

    def read_types(self, parts: list[Part]) -> None:
        text, parents = self.task.domain_text, self.task.parents
        entries = list(typed(text, parts, lambda part: text.as_name(part, "a type")))
        for name, kinds in entries:
            if name == "object" and kinds == ("object",):
                continue
            if name in parents or name == "object" or len(kinds) > 1:
                text.refuse(f"`{name}` stands twice, or isn't below one type", name.at)
            parents[str(name)] = str(kinds[0])
        for kind in list(parents.values()):
            if kind != "object":
                parents.setdefault(kind, "object")
        for name, _ in entries:
            above, seen = str(name), set()
            while above != "object" and above not in seen:
                seen.add(above)
                above = parents[above]
            if above != "object":
                text.refuse(f"`{name}` isn't below `object`", name.at)

    def known(self, text: Text, kinds: tuple[Name, ...]) -> tuple[str, ...]:
        """The types without those below another of them."""
        for kind in kinds:
            if kind != "object" and kind not in self.task.parents:
                text.refuse(f"`{kind}` is no type", kind.at)
        return tuple(sorted({str(kind) for kind in kinds if not any(
            kind != other and self.task.is_below(kind, other) for other in kinds)}))

    def read_objects(self, text: Text, parts: list[Part]) -> None:
        for name, kinds in typed(text, parts, lambda part: text.as_name(part, "a name")):
            if name in self.task.objects:
                text.refuse(f"`{name}` was declared before", name.at)
            if len(kinds) > 1:
                text.refuse(f"the object `{name}` has more than one type", name.at)
            self.task.objects[str(name)] = self.known(text, kinds)[0]

    def parameters(self, text: Text, parts: list[Part], owner: Name) -> tuple[Parameter, ...]:
        found: dict[str, Parameter] = {}
        for name, kinds in typed(text, parts, text.as_variable):
            # (a predicate's parameters are told apart by their places, so names may stand twice)
            found[f"{name} {len(found)}"] = Parameter(str(name), self.known(text, kinds), name.at)
        if len(found) > MOST_PARAMETERS:
            text.refuse(f"`{owner}` has more than {MOST_PARAMETERS} parameters", owner.at)
        return tuple(found.values())

    def read_declared(self, parts: list[Part], found: dict[str, tuple[Parameter, ...]]) -> None:
        text = self.task.domain_text
        for part in parts:
            form = text.as_list(part, "a declaration")
            name = text.as_name(form[0] if form else form, "a name")
            if name in found:
                text.refuse(f"`{name}` was declared before", name.at)
            found[str(name)] = self.parameters(text, form[1:], name)

    def read_functions(self, parts: list[Part]) -> None:
        text, declared, rest = self.task.domain_text, [], iter(parts)
        is_typed = True
        for part in rest:
            if part != "-" or isinstance(part, Form):
                declared.append(part)
                is_typed = False
            elif is_typed or next(rest, None) != "number":
                text.refuse("a function is of the type `number`", part.at)
            else:
                is_typed = True
        self.read_declared(declared, self.task.functions)
        text.beyond += [(part.at, "a function other than `total-cost`") for part in declared
                        if list(part) != ["total-cost"]]

    def read_action(self, form: Form) -> None:
        text, task = self.task.domain_text, self.task
        name = text.as_name(form[1] if len(form) > 1 else form, "a name")
        if name in task.actions:
            text.refuse(f"`{name}` was declared before", name.at)
        parts: dict[str, Part] = {}
        for key, part in itertools.zip_longest(form[2::2], form[3::2]):
            if key not in (":parameters", ":precondition", ":effect") or key in parts:
                text.refuse(f"`{key if isinstance(key, Name) else '('}` isn't read there", key.at)
            if part is None:
                text.refuse(f"nothing stands after `{key}`", key.at)
            parts[key] = part
        empty = Form(form.at)
        parameters = self.parameters(
            text, text.as_list(parts.get(":parameters", empty), "parameters"), name)
        names = [parameter.name for parameter in parameters]
        for at, parameter in enumerate(names):
            if parameter in names[:at]:
                text.refuse(f"`{name}` has two parameters {parameter}", name.at)
        scope, effects, costs = Scope(task, text, parameters), [], []
        needs = tuple(scope.literals(parts.get(":precondition", empty)))
        scope.effects(parts.get(":effect", empty), effects, costs)
        task.actions[str(name)] = Action(str(name), name.at, parameters, needs, tuple(effects),
                                         costs[0] if costs else None)

    def read_problem(self, given: dict[str, list[Part]]) -> None:
        task, text = self.task, self.task.problem_text
        scope, end = Scope(task, text), Form(len(text.data))
        name = text.single(given[":domain"], "the domain's name", end)
        if name != task.domain:
            text.refuse("this isn't the domain's name", name.at)
        for part in given.get(":init", []):
            form = text.as_list(part, "a fact")
            if form.head() == "=":
                self.read_value(scope, form)
            else:
                task.init.setdefault(scope.atom(form, task.predicates, "predicate"))
        task.goal = tuple(scope.literals(text.single(given[":goal"], "one goal", end)))
        task.has_metric = ":metric" in given
        if task.has_metric:
            metric = given[":metric"]
            if len(metric) != 2 or metric[0] != "minimize" or metric[1] != ["total-cost"] \
                    or "total-cost" not in task.functions:
                text.refuse("the only metric is `minimize (total-cost)`, of a declared function",
                            metric[-1].at if metric else end.at)

    def read_value(self, scope: Scope, form: Form) -> None:
        """A function's value at the start."""
        task, text = self.task, self.task.problem_text
        if len(form) != 3:
            text.refuse("expected `(= (FUNCTION ..) NUMBER)`", form.at)
        function = scope.atom(text.as_list(form[1], "a function"), task.functions, "function")
        value = scope.number(form[2])
        if function in task.values:
            text.refuse(f"({' '.join(function)}) has a value already", form.at)
        if function == ("total-cost",) and value:
            text.refuse("`total-cost` is 0 at the start", form.at)
        task.values[function] = value


def read_task(domain: str, problem: str) -> Task:
    return Builder(domain, problem).task

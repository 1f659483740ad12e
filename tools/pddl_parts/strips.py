"""A task of STRIPS with types and costs, as docs/PDDL.md says: what the program reads.

What isn't of this part is refused with its place, and so is what is beyond a limit. The numbers of
ground atoms and actions aren't counted here.
"""

from __future__ import annotations

from typing import Iterable, Sequence

from picture_parts.reading import Refused
from pddl_parts.task import Action as ReadAction, Atom, read_task

MOST_COST = 2**20
MOST_OBJECTS = 1000


class Action:
    """An action: its parameters with their types, the atoms that it needs, its effects as pairs of
    an atom and whether it is deleted, and the cost that it states, or None."""

    def __init__(self, read: ReadAction) -> None:
        self.name = read.name
        self.params = [(it.name, it.kinds[0]) for it in read.parameters]
        self.needs = [literal.atom for literal in read.needs]
        self.effects = read.effects
        self.cost = read.cost


class Lifted:
    """A domain and a problem. Objects and predicates have their types, and facts are texts such as
    `(on a b)`."""

    def __init__(self, domain_file: str, problem_file: str) -> None:
        task = read_task(domain_file, problem_file)
        for text in (task.domain_text, task.problem_text):
            for at, what in sorted(text.beyond):
                text.refuse(f"{what} isn't read here", at)
        for action in task.actions.values():
            refuse_cost(task, action)
        if len(task.objects) > MOST_OBJECTS:
            fault = f"{len(task.objects)} objects, more than {MOST_OBJECTS}"
            raise Refused(problem_file, "", fault)
        self.domain, self.problem, self.parents = task.domain, task.problem, task.parents
        self.objects = task.objects
        self.predicates = {name: [parameter.kinds[0] for parameter in parameters]
                           for name, parameters in task.predicates.items()}
        self.actions = {name: Action(action) for name, action in task.actions.items()}
        self.init = list(task.init)
        self.goals = [literal.atom for literal in task.goal]
        self.has_cost, self.has_metric = "total-cost" in task.functions, task.has_metric

    def fits(self, kind: str, above: str) -> bool:
        while kind != above and kind != "object":
            kind = self.parents[kind]
        return kind == above

    def cost(self, words: Sequence[str]) -> int:
        """The cost of the action of these words: 1 if the problem has no metric."""
        return self.actions[words[0]].cost if self.has_metric else 1

    def start(self) -> set[str]:
        return {fact(atom, {}) for atom in self.init}

    def goal(self) -> set[str]:
        return {fact(atom, {}) for atom in self.goals}

    def step(self, state: set[str], words: Sequence[str]) -> set[str] | str:
        """The state after the action of these words, or a text that says what hinders it."""
        action = self.actions.get(words[0])
        if action is None or len(action.params) != len(words) - 1:
            return "is no action of the domain"
        given = {}
        for (param, kind), name in zip(action.params, words[1:]):
            if name not in self.objects or not self.fits(self.objects[name], kind):
                return f"has `{name}`, no object of the type {kind}"
            given[param] = name
        for atom in action.needs:
            if fact(atom, given) not in state:
                return f"needs {fact(atom, given)}, which doesn't hold"
        after = state - {fact(atom, given) for atom, is_deleted in action.effects if is_deleted}
        return after | {fact(atom, given) for atom, is_deleted in action.effects if not is_deleted}


def refuse_cost(task, action: ReadAction) -> None:
    """Refuses a cost that is too great, and with a metric one of 0 or none."""
    if action.cost is not None and action.cost > MOST_COST:
        task.domain_text.refuse(f"`{action.name}` costs more than {MOST_COST}", action.at)
    if task.has_metric and not action.cost:
        task.domain_text.refuse(f"`{action.name}` costs nothing", action.at)


def fact(atom: Atom | Iterable[str], given: dict[str, str]) -> str:
    return "(" + " ".join(given.get(term, term) for term in atom) + ")"

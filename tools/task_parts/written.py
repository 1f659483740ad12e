"""Writes a prepared task, and leads its plans back to the original's names and costs."""

from __future__ import annotations

import dataclasses
import json
import pathlib
from typing import Iterable, Optional

from pddl_parts.task import Atom, Parameter
from picture_parts.reading import Refused, Report, load
from task_parts.prepare import Preparation, Schema

DOMAIN, PROBLEM, BACK = "domain.pddl", "problem.pddl", "back.json"


def atom_text(atom: Atom) -> str:
    return f"({' '.join(atom)})"


def block(head: str, parts: Iterable[str], indent: str = "  ") -> str:
    """A form whose parts stand in lines of their own."""
    return "\n".join([f"{indent}({head}", *(f"{indent}  {part}" for part in parts)]) + ")"


def parameter_text(preparation: Preparation, parameters: Iterable[Parameter]) -> str:
    kinds = preparation.types.type_of
    return " ".join(f"{parameter.name} - {kinds[parameter.kinds]}" for parameter in parameters)


def domain_text(preparation: Preparation) -> str:
    task = preparation.task
    parts = ["  (:requirements :strips :typing :action-costs)",
             block(":types", [f"{kind} - {above}" for kind, above in preparation.parents.items()]),
             block(":constants", [f"{name} - {task.objects[name]}" for name in task.constants]),
             block(":predicates", [f"({name} {parameter_text(preparation, parameters)})"
                                   for name, parameters in preparation.predicates.items()])]
    if task.has_metric:
        parts.append("  (:functions (total-cost) - number)")
    parts += [action_text(preparation, schema) for schema in preparation.schemas]
    return "\n".join([f"(define (domain {task.domain})", *parts]) + ")\n"


def action_text(preparation: Preparation, schema: Schema) -> str:
    effects = [*(f"(not {atom_text(atom)})" for atom in schema.deletes),
               *map(atom_text, schema.adds)]
    if preparation.task.has_metric:
        effects.append(f"(increase (total-cost) {schema.cost})")
    needs = [atom_text(literal.atom) for literal in schema.needs]
    return block(f":action {schema.name}", [
        f":parameters ({parameter_text(preparation, schema.parameters)})",
        f":precondition (and {' '.join(needs)})", f":effect (and {' '.join(effects)})"])


def problem_text(preparation: Preparation) -> str:
    task = preparation.task
    objects = [name for name in task.objects if name not in set(task.constants)]
    parts = [f"  (:domain {task.domain})",
             block(":objects", [f"{name} - {task.objects[name]}" for name in objects]),
             block(":init", map(atom_text, sorted(preparation.facts))),
             f"  (:goal (and {' '.join(map(atom_text, preparation.goal))}))"]
    if task.has_metric:
        parts.append("  (:metric minimize (total-cost))")
    return "\n".join([f"(define (problem {task.problem})", *parts]) + ")\n"


@dataclasses.dataclass(frozen=True)
class Claim:
    """What a report says in the original's names and costs.

    The bound holds of plans of fewer steps than `below`, and of all plans if that is None. Unit
    costs are those where each action costs 1, as far as that is known.
    """

    steps: list[str]
    cost: int
    bound: int
    below: Optional[int]
    is_unit: bool


@dataclasses.dataclass(frozen=True)
class Back:
    """The original's actions and costs by the prepared ones, and how costs were scaled."""

    actions: dict[str, tuple[str, int]]
    divisor: int
    multiplier: Optional[int]

    @staticmethod
    def of(preparation: Preparation) -> Back:
        return Back({schema.name: (schema.action.name, schema.original_cost)
                     for schema in preparation.schemas},
                    preparation.divisor, preparation.multiplier)

    def text(self) -> str:
        return json.dumps({"actions": self.actions, "divisor": self.divisor,
                           "multiplier": self.multiplier}, indent=1) + "\n"

    @staticmethod
    def read(name: str) -> Back:
        try:
            known = json.loads(load(name))
            actions = {new: (str(old), int(cost)) for new, (old, cost) in known["actions"].items()}
            multiplier = known["multiplier"]
            return Back(actions, int(known["divisor"]), multiplier and int(multiplier))
        except (ValueError, KeyError, TypeError, AttributeError):
            raise Refused(name, "", f"not the {BACK} that prepare-pddl writes") from None

    def claim(self, report: Report, name: str) -> Claim:
        """A report of the prepared task, in the original's names and costs."""
        steps, cost = [], 0
        for at, step in enumerate(report.steps or []):
            action, *objects = step[1:-1].split()
            if action not in self.actions:
                line = f"line {report.first + at}"
                raise Refused(name, line, f"`{action}` is no prepared action")
            original, price = self.actions[action]
            cost += price
            steps.append(f"({' '.join([original, *objects])})")
        below = None if self.multiplier is None else len(steps) + self.multiplier
        is_unit = all(price == 1 for _, price in self.actions.values())
        return Claim(steps, cost, self.bound(report.bound or 0, below), below, is_unit)

    def bound(self, bound: int, below: Optional[int]) -> int:
        """What plans of fewer steps than `below` cost at least, by the prepared task's bound."""
        if self.multiplier is None or below is None:
            return bound * self.divisor
        return max(0, -(-(bound - below + 1) // self.multiplier)) * self.divisor


def write(preparation: Preparation, folder: pathlib.Path) -> None:
    """Writes the three files into a folder, which is made if it isn't there."""
    folder.mkdir(parents=True, exist_ok=True)
    for name, text in [(DOMAIN, domain_text(preparation)), (PROBLEM, problem_text(preparation)),
                       (BACK, Back.of(preparation).text())]:
        (folder / name).write_text(text)

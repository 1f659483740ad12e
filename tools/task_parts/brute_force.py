"""A plan of least cost by search over all states, by the meaning of the PDDL as it is written.

It shares nothing with the reader and the preparation that it tests: it reads brackets on its own,
and asks each condition of each state. Only for small problems whose form is known to be right.
"""

from __future__ import annotations

import heapq
import itertools
import re
from typing import Iterator, Optional

MOST_STATES = 20_000
State = frozenset  # of facts, each a tuple of names


class TooLarge(Exception):
    """More states than are worth a search."""


def brackets(text: str) -> list:
    """The text's form as nested lists."""
    stack: list[list] = [[]]
    for token in re.findall(r"[()]|[^\s()]+", re.sub(";[^\n]*", "", text.lower())):
        if token == "(":
            stack.append([])
        elif token == ")":
            stack[-2].append(stack.pop())
        else:
            stack[-1].append(token)
    return stack[0][0]


def typed(parts: list) -> list[tuple[str, list[str]]]:
    """Names with the types that they may have."""
    found, group, rest = [], [], list(parts)
    while rest:
        part = rest.pop(0)
        if part == "-":
            kind = rest.pop(0)
            kinds = kind[1:] if isinstance(kind, list) else [kind]
            found += [(name, kinds) for name in group]
            group = []
        else:
            group.append(part)
    return found + [(name, ["object"]) for name in group]


class Search:
    """The task of two texts."""

    def __init__(self, domain_text: str, problem_text: str) -> None:
        domain, problem = brackets(domain_text), brackets(problem_text)
        sections = {part[0]: part[1:] for part in domain[2:] + problem[2:]}
        self.above = {name: kinds[0] for name, kinds in typed(sections.get(":types", []))}
        self.kinds = dict(typed(sections.get(":constants", []) + sections.get(":objects", [])))
        self.has_metric = ":metric" in sections
        self.start, self.values = set(), {}
        for fact in sections.get(":init", []):
            if fact[0] == "=":
                self.values[tuple(fact[1])] = int(fact[2])
            else:
                self.start.add(tuple(fact))
        self.goal = sections[":goal"][0]
        self.actions = []
        for form in domain[2:]:
            if form[0] == ":action":
                parts = dict(zip(form[2::2], form[3::2]))
                self.actions += self.instances(form[1], parts)

    def is_a(self, name: str, kinds: list[str]) -> bool:
        kind: Optional[str] = self.kinds[name][0]
        while kind is not None:
            if kind in kinds:
                return True
            kind = self.above.get(kind, "object") if kind != "object" else None
        return False

    def instances(self, name: str, parts: dict) -> Iterator[tuple]:
        """The words of each instance, its condition, effect and binding."""
        parameters = typed(parts.get(":parameters", []))
        lists = [[each for each in self.kinds if self.is_a(each, kinds)] for _, kinds in parameters]
        for objects in itertools.product(*lists):
            binding = dict(zip([variable for variable, _ in parameters], objects))
            yield ((name, *objects), parts.get(":precondition", []), parts.get(":effect", []),
                   binding)

    def holds(self, condition: list, state: State, binding: dict[str, str]) -> bool:
        if not condition or condition[0] == "and":
            return all(self.holds(part, state, binding) for part in condition[1:])
        if condition[0] == "not":
            return not self.holds(condition[1], state, binding)
        terms = [binding.get(term, term) for term in condition[1:]]
        return terms[0] == terms[1] if condition[0] == "=" else (condition[0], *terms) in state

    def after(self, action: tuple, state: State) -> Optional[tuple[State, int]]:
        """The state after an action, and its cost; None if it can't be done."""
        _, condition, effect, binding = action
        if not self.holds(condition, state, binding):
            return None
        adds, deletes, costs, todo = set(), set(), [0] if self.has_metric else [1], [effect]
        while todo:
            part = todo.pop()
            if not part or part[0] == "and":
                todo += part[1:]
            elif part[0] == "not":
                deletes.add(tuple(binding.get(term, term) for term in part[1]))
            elif part[0] == "increase":
                cost = self.value(part[2], binding)
                if cost is None:
                    return None
                costs.append(cost if self.has_metric else 0)
            else:
                adds.add(tuple(binding.get(term, term) for term in part))
        return frozenset((state - deletes) | adds), sum(costs)

    def value(self, cost, binding: dict[str, str]) -> Optional[int]:
        if not isinstance(cost, list):
            return int(cost)
        if not self.has_metric:
            return 0
        return self.values.get(tuple(binding.get(term, term) for term in cost))

    def least(self) -> Optional[tuple[int, list[tuple[str, ...]]]]:
        """The least cost of a plan, and of these plans one with fewest steps; None without one."""
        start, counter = frozenset(self.start), itertools.count()
        queue = [(0, 0, next(counter), start, ())]
        done: set[State] = set()
        while queue:
            cost, steps, _, state, path = heapq.heappop(queue)
            if state in done:
                continue
            done.add(state)
            if self.holds(self.goal, state, {}):
                return cost, list(unrolled(path))
            if len(done) > MOST_STATES:
                raise TooLarge
            for action in self.actions:
                reached = self.after(action, state)
                if reached is not None and reached[0] not in done:
                    entry = (cost + reached[1], steps + 1, next(counter), reached[0],
                             (action[0], path))
                    heapq.heappush(queue, entry)
        return None

    def cost_of(self, plan: list[tuple[str, ...]]) -> Optional[int]:
        """The cost of a plan; None if it is none."""
        state, total = frozenset(self.start), 0
        by_words = {action[0]: action for action in self.actions}
        for words in plan:
            reached = self.after(by_words[words], state) if words in by_words else None
            if reached is None:
                return None
            state, total = reached[0], total + reached[1]
        return total if self.holds(self.goal, state, {}) else None


def unrolled(path: tuple) -> list[tuple[str, ...]]:
    found = []
    while path:
        found.append(path[0])
        path = path[1]
    return found[::-1]

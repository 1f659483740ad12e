"""Draws tables and traps that suit a small STRIPS task, for certificates of version 4.

A table has the least costs of the task cut to one to four atoms. Where there are several tables, an
earlier one leaves for the later ones what it doesn't need of each action's cost. A trap has the
images from which such a cut task has no way to a goal. `changes.py` spoils them. The same lines are
a file of tables for `solve --tables`.
"""

import itertools
import math

import changes
import versions

MOST_ATOMS = 4  # that a table or a trap tracks


def with_drawn_tables(random, checker, task, text):
    """The certificate of a STRIPS task with drawn tables and traps for its estimate. Some closed
    rows that may be cut are cut, and often the weight is raised until all cut rows may be."""
    text = versions.with_tables(text, drawn_file(random, task))
    estimate = checker.Certificate(text).tables.estimate
    lines, first, count = changes.rows_of(text)
    rows = [(row.split(b" "), estimate(int(row.split(b" ")[0], 16)))
            for row in lines[first:first + count]]
    cost = next((int(line[5:]) for line in lines if line.startswith(b"cost ")), math.inf)
    ends = [int(row[1]) + left for row, left in rows if row[2] == b"cut" and left < math.inf]
    raised = -(-cost // max(min(ends, default=cost), 1)) if cost < math.inf else 1
    num = max(raised, 1) if raised <= 1000 and random.random() < 0.8 else 1
    for row, left in rows:
        is_enough = num * (int(row[1]) + left) >= cost
        row[2] = b"cut" if is_enough and random.random() < 0.5 else row[2]
    lines[first:first + count] = [b" ".join(row) for row, _ in rows]
    lines[changes.weight_of(text)] = b"weight %d 1" % num
    return b"\n".join(lines)


def drawn_file(random, task):
    """The text of a file of tables: drawn tables and traps that suit the task."""
    return lines_of(task.digits, *drawn_lists(random, task))


def lines_of(digits, sums, tables, traps):
    """The lines that state tables and traps: each is its tracked atoms and its values by image."""
    lines = ["estimate tables %d %d %d" % (sums, len(tables), len(traps))]
    for word, lists in (("table", tables), ("trap", traps)):
        for tracked, values in lists:
            lines.append(f"{word} {tracked:0{digits}x} {len(values)}")
            lines += [" ".join([f"{image:0{digits}x}", *map(str, values[image])])
                      for image in sorted(values)]
    return "".join(f"{line}\n" for line in lines).encode()


def drawn_lists(random, task):
    """How many sums there are, the tables and the traps. They suit the task."""
    sums = random.choice([1, 1, 2, 3])
    projections = [Projection(task, drawn_atoms(random, task))
                   for _ in range(random.choice([0, 1, 1, 2, 2, 3]))]
    left = [list(task.costs) for _ in range(sums)]
    columns = [[projection.take_values(costs, random.choice([1, 1, 2])) for costs in left]
               for projection in projections]
    tables = []
    for projection, values in zip(projections, columns):
        images = drawn_images(random, task, projection)
        tables.append((projection.tracked, {
            image: tuple(column[image] for column in values) for image in images}))
    traps = [Projection(task, drawn_atoms(random, task))
             for _ in range(random.choice([0, 0, 1, 2]))]
    return sums, tables, [(trap.tracked, dict.fromkeys(trap.dead_images(), ())) for trap in traps]


def drawn_atoms(random, task):
    """One to four atoms as bits, half of the times with one of the goal; few if there are few."""
    bits = list(task.bits.values())
    wanted = [bit for bit in bits if bit & task.goal and random.random() < 0.5]
    chosen = wanted + random.sample(bits, min(len(bits), random.randint(1, MOST_ATOMS)))
    return sum(set(chosen[:random.randint(1, MOST_ATOMS)]))


def drawn_images(random, task, projection):
    """All images, or those that are reached from the start's image."""
    if random.random() < 0.3:
        return projection.images
    reached = [task.start & projection.tracked]
    for image in reached:  # it grows meanwhile
        reached += {to for _, to in projection.steps_from(image)}.difference(reached)
    return reached


class Projection:
    """A task cut to the tracked atoms."""

    def __init__(self, task, tracked):
        self.tracked, self.goal = tracked, task.goal & tracked
        bits = [1 << at for at in range(tracked.bit_length()) if tracked >> at & 1]
        self.images = [sum(some) for count in range(len(bits) + 1)
                       for some in itertools.combinations(bits, count)]
        self.actions = [tuple(atoms & tracked for atoms in sets) for sets in task.actions]

    def steps_from(self, image):
        """Each action that can be taken, and where it leads."""
        for action, (needs, adds, deletes) in enumerate(self.actions):
            if image & needs == needs:
                yield action, image & ~deletes | adds

    def least_costs(self, costs):
        """The least cost from each image to a goal at these costs of the actions, or infinity.
        Rounds go on until nothing changes."""
        least = {image: 0 if image & self.goal == self.goal else math.inf for image in self.images}
        steps = [(image, to, costs[action]) for image in self.images
                 for action, to in self.steps_from(image) if to != image]
        is_changed = True
        while is_changed:
            is_changed = False
            for image, to, cost in steps:
                if least[to] + cost < least[image]:
                    least[image], is_changed = least[to] + cost, True
        return least

    def take_values(self, costs, share):
        """The values of the images at a share of these costs, of which the actions then have less
        left. Where no goal can be reached the value is the greatest of the others."""
        least = self.least_costs([cost // share for cost in costs])
        most = max((value for value in least.values() if value < math.inf), default=0)
        values = {image: min(value, most) for image, value in least.items()}
        drops = {}
        for image in self.images:
            for action, to in self.steps_from(image):
                drops[action] = max(drops.get(action, 0), values[image] - values[to])
        for action, drop in drops.items():
            costs[action] -= drop
        return values

    def dead_images(self):
        """The images from which no goal can be reached."""
        least = self.least_costs([0] * len(self.actions))
        return [image for image, value in least.items() if value == math.inf]

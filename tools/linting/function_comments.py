"""Functions whose comment isn't of the kind that their callers need.

A function that is `pub` has a line `///`, which documents show. A private one has `//` or nothing.
Methods of a trait are left out, as their comment stands in the trait, and so are tests.
"""

import re

from .repository import Finding

FUNCTION = re.compile(r" *(pub(?:\(\w+\))? )?(?:unsafe )?fn (\w+)")
TRAIT = re.compile(r" *(?:pub(?:\(\w+\))? )?(?:unsafe )?(?:trait\b|impl\b.* for )")


def find(repository):
    for path in repository.files(parts=("src",)):
        lines = repository.lines(path)
        for number, visible, name in functions(lines):
            kind = comment_above(lines, number)
            if visible == "pub " and kind != "///":
                yield Finding(path, 0, f"{name} is public and has no line `///`")
            elif visible is None and kind == "///":
                yield Finding(path, 0, f"{name} is private and has lines `///`")


def functions(lines):
    """The functions outside traits and tests: their line's number, what makes them visible, and
    their name."""
    end = None  # of the trait that the line is in
    for number, line in enumerate(lines):
        if line.strip() == "#[cfg(test)]":
            return
        if end is not None:
            end = None if line == end else end
        elif TRAIT.match(line) and not line.rstrip().endswith("}"):
            end = line[:len(line) - len(line.lstrip())] + "}"
        elif found := FUNCTION.match(line):
            yield number, found[1], found[2]


def comment_above(lines, number):
    """`///`, `//` or nothing: what begins the comment above a line, over its attributes."""
    for line in map(str.strip, reversed(lines[:number])):
        if line.startswith("//"):
            return "///" if line.startswith("///") else "//"
        if not line or line.endswith(("{", "}", ";")):
            return ""
    return ""

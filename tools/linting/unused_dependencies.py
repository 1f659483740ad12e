"""Names in crates.txt that no line of their crate cites, or that are there twice.

A line of crates.txt is `NAME ATTRIBUTE=VALUE ..: DEPENDENCY ..`. A crate cites a dependency in
src/ by a path, as `low::Item`, and in clauses, specs/ and proofs/ as `Rattle.low`.
"""

import re

from .repository import Finding

CRATES = "crates.txt"
COMMENT = {"rt": r"//[^\n]*", "antt": r"(?m)(?:^|\s)--[^\n]*"}


def dependencies(repository):
    """For each crate its line in crates.txt, and the names behind the colon there."""
    for number, line in enumerate(repository.lines(CRATES), 1):
        head, colon, names = line.partition("#")[0].partition(":")
        if colon and head.split():
            yield head.split()[0], number, names.split()


def text_of(repository, crate):
    """All code, definitions and proofs of a crate, without comments."""
    return "\n".join(re.sub(COMMENT[path.rpartition(".")[2]], "", repository.read(path))
                     for path in repository.files(crate))


def is_cited(name, text):
    """Whether a text cites a crate: `name::`, `use name;`, `use name as`, or `Rattle.name`."""
    code = rf"(?<![\w:]){name}\s*::|(?<![\w:])use\s+(?:::\s*)?{name}\s*(?:;|as\b|::)"
    return bool(re.search(rf"{code}|\bRattle\.{name}\b|#\[(?:\w+, *)*{name}\b", text))


def find(repository):
    for crate, line, names in dependencies(repository):
        text = text_of(repository, crate)
        for name in dict.fromkeys(names):
            if names.count(name) > 1:
                yield Finding(CRATES, line, f"{crate} has {name} twice")
            if not is_cited(name, text):
                yield Finding(CRATES, line, f"nothing in {crate} cites {name}")

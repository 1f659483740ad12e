"""Public types that have one name in several crates, without a reason in the glossary.

A public type is a `pub struct`, `enum`, `trait` or `type` of src/, outside of tests, or a public
record or data type of specs/. A reason is an item of a list in the glossary of docs/SEARCH.md: it
begins with the name in code, or with several, and names each of their crates. A reason of a name
that isn't shared is a finding too. `--show` prints all shared names with their places.
"""

import collections
import re

from .repository import Finding, crate_of, is_in

GLOSSARY = "docs/SEARCH.md"
IN_CODE = re.compile(r"^\s*pub (?:unsafe )?(struct|enum|trait|type|union) (\w+)")
IN_SPECS = re.compile(r"^(?:unfoldable )?pub (record|data) (\w+)")
REASON = re.compile(r"^- ((?:`\w+`(?:, )?)+):(.*)")


def types_of(repository, path):
    """The kind, name and line of each public type of a file."""
    is_code = path.endswith(".rt")
    for number, line in enumerate(repository.lines(path), 1):
        if is_code and line.startswith("#[cfg(test)]"):
            return
        found = (IN_CODE if is_code else IN_SPECS).match(line)
        if found:
            yield found[1], found[2], number


def all_types(repository):
    """For each name its places: file, line and kind."""
    places = collections.defaultdict(list)
    for path in repository.files(parts=("src", "specs")):
        for kind, name, line in types_of(repository, path):
            places[name].append((path, line, kind))
    return places


def reasons(repository):
    """For each name with a reason in the glossary its line, and the crates that it names."""
    lines, found, is_glossary = repository.lines(GLOSSARY), {}, False
    for number, line in enumerate(lines, 1):
        if line.startswith("## "):
            is_glossary = line == "## Glossary"
        item = REASON.match(line) if is_glossary else None
        if item:
            crates = set(re.findall(r"`(pb_\w+|pbnf)`", item[2]))
            found.update((name, (number, crates)) for name in re.findall(r"\w+", item[1]))
    return found


def find(repository):
    given, types = reasons(repository), all_types(repository)
    for name, places in sorted(types.items()):
        crates = {crate_of(path) for path, _, _ in places}
        _, named = given.get(name, (0, set()))
        if len(crates) > 1:
            for path, line, kind in places:
                if crate_of(path) not in named:
                    others = ", ".join(sorted(crates - {crate_of(path)}))
                    text = f"the {kind} {name} has its name in {others} too, without a reason"
                    yield Finding(path, line, text)
    for name, (line, _) in sorted(given.items()):
        crates = {crate_of(path) for path, _, _ in types.get(name, ())}
        if len(crates) < 2:
            yield Finding(GLOSSARY, line, f"{name} is no shared name, and needs no reason")


def show(repository, names, wide):
    for name, places in sorted(all_types(repository).items()):
        is_asked = any(is_in(path, names) for path, _, _ in places)
        if len({crate_of(path) for path, _, _ in places}) > 1 and is_asked:
            yield name
            for path, line, kind in places:
                yield f"    {kind:6} {path}:{line}"

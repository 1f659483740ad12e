"""Numbers of definitions in docs/GUARANTEES.md that aren't those of today.

A clause rests on the definitions that it names, and on all that these name in turn. Three kinds of
numbers are looked at: "`run` has N clauses", "rest on N definitions in M lines", and "`NAME` (N)"
behind the name of a clause of `run`, which is in crates/pb_run/src/top.rt.

`--show` prints how many definitions the clauses of `run` rest on; with `--of NAME` those of this
clause, or of the law of this name: a public function of some crate, whose contract is the law. With
`--wide` each definition is printed with its module. A definition counts once; what std and the kit
define is counted apart. Names alone are read: a variable that is called as a definition of its file
counts as that.
"""

import functools
import re

from .repository import Finding

PAGE, TOP = "docs/GUARANTEES.md", "crates/pb_run/src/top.rt"
USE = re.compile(r"^\s*(?:pub )?(?:ghost )?use (Rattle(?:\.\w+)+)\.\{([^}]*)\}", re.M)
BEGIN = re.compile(r"^(?:(?:abbrev|unfoldable|pub|record|data|relation) )+([^\s:]+)")
WORD = re.compile(r"[^\s(){}\[\],.;:@]+")
ENSURES = re.compile(r"\bensures (\w+) \{")


def imports_of(text):
    """Which module each imported name comes from, and its name there."""
    found = {}
    for module, names in USE.findall(text):
        for name in names.split(","):
            there, _, here = (part.strip() for part in name.partition(" as "))
            for part in WORD.findall(here or there):
                found[part.strip("◌") or part] = (module, there)
    return found


class Module:
    """A module of definitions: what it imports, and the lines of each definition."""

    def __init__(self, repository, name):
        path = "/".join(["crates", *name.split(".")[1:]]) + ".antt"
        self.is_ours, self.imports, self.bodies = repository.has(path), {}, {}
        text, at = repository.read(path), None
        self.imports = imports_of(text)
        for line in re.sub(r"--.*", "", text).split("\n"):
            begun = BEGIN.match(line)
            if begun:
                at = begun[1]
            if at and not line.startswith("use "):
                self.bodies.setdefault(at, []).append(line)


@functools.lru_cache(maxsize=None)
def module_of(repository, name):
    return Module(repository, name)


def contract_of(text, function):
    """The text of a function from its name to its body."""
    text = re.split(rf"\bpub fn {function}\b", text, maxsplit=1)[1]
    body = re.search(r"^\{", text, re.M)
    return text[: body.start()] if body else text


def clause_of(contract, name):
    """The text of a clause of a contract."""
    begun = re.search(rf"\bensures {name} \{{", contract)
    depth = 0
    for at in range(begun.end() - 1, len(contract)):
        depth += (contract[at] == "{") - (contract[at] == "}")
        if depth == 0:
            return contract[begun.start() : at + 1]
    return contract[begun.start() :]


def count(repository, text, clauses):
    """Our definitions with their lines, and the names of std, the kit and the code's types."""
    ours, others = {}, set()
    imports = imports_of(text)
    wanted = [imports[word] for word in set(WORD.findall(clauses)) if word in imports]
    while wanted:
        module, name = wanted.pop()
        if (module, name) in ours or (module, name) in others:
            continue
        at = module_of(repository, module)
        if not at.is_ours:
            others.add((module, name))
            continue
        body = [line for line in at.bodies.get(name, []) if line.strip()]
        ours[module, name] = len(body)
        for word in set(WORD.findall("\n".join(body))):
            if word in at.imports:
                wanted.append(at.imports[word])
            elif word in at.bodies:
                wanted.append((module, word))
    return ours, others


def counted(repository, name=None):
    """What the clauses of `run` rest on, or one clause, or a law; nothing if there is none."""
    text = repository.read(TOP)
    contract = contract_of(text, "run")
    if name is None:
        return count(repository, text, contract)
    if name in ENSURES.findall(contract):
        return count(repository, text, clause_of(contract, name))
    for path in repository.files(parts=("src",)):
        text = repository.read(path)
        if re.search(rf"^pub fn {name}\(", text, re.M):
            return count(repository, text, contract_of(text, name))
    return None


def find(repository):
    if not repository.has(PAGE):
        return
    clauses = ENSURES.findall(contract_of(repository.read(TOP), "run"))
    for number, line in enumerate(repository.lines(PAGE), 1):
        wanted = [(said, len(clauses), "clauses of `run`")
                  for said in re.findall(r"`run` has ([\d,]+) clauses", line)]
        for said, lines in re.findall(r"rest on ([\d,]+) definitions in ([\d,]+) lines", line):
            ours, _ = counted(repository)
            wanted.append((said, len(ours), "definitions below `run`"))
            wanted.append((lines, sum(ours.values()), "lines of definitions below `run`"))
        for name, said in re.findall(r"`(\w+)` \(([\d,]+)\)", line):
            if name in clauses:
                wanted.append((said, len(counted(repository, name)[0]), f"definitions of `{name}`"))
        for said, true, what in wanted:
            if int(said.replace(",", "")) != true:
                yield Finding(PAGE, number, f"{said} {what}: there are {true:,}")


def show(repository, names, wide):
    for name in names or [None]:
        found = counted(repository, name)
        if found is None:
            yield f"{name}: no clause of `run` and no law has this name"
            continue
        ours, others = found
        if wide:
            yield from (f"{module}.{name}" for module, name in sorted(ours))
        files = {module for module, _ in ours}
        types = {it for it in others if ".declared." in it[0]}
        yield (f"{name or 'run'}: {len(ours):,} definitions in {sum(ours.values()):,} lines of "
               f"{len(files)} files; {len(types)} types of the code; "
               f"{len(others - types)} words of the kit")

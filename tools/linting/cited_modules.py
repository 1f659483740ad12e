"""Citations of another crate's private lemmas, and what crates pass on too much or too little.

- Files of other crates import of proofs/ only `Rattle.NAME.proofs.Callers`.
- `Callers` is the only public module of proofs/Lib.antt, and a crate without it has none.
- Callers passes on what another crate imports, and nothing else.
- specs/Lib.antt passes on each module of a lower crate's specs/ that a public clause cites, except
  those that stand for types. Clauses of public functions, of methods of public traits, and of impls
  of traits are public.

`--show` prints how many names each crate passes on by Callers, and to which crates.
"""

import collections
import re

from .repository import Finding, crate_of, is_in

IMPORT = re.compile(
    r"^(?:unfoldable )?(pub )?use Rattle\.(pb\w*)\.proofs\.([\w.]*\w)(?:\.\{([^}]*)\}| as (\w+))?",
    re.M,
)
CITED = re.compile(r"\bRattle\.(pb\w*)\.proofs\.(\w+)")
PASSED = re.compile(r"^pub use Rattle\.(pb\w*)\.specs\.([\w.]+)", re.M)
GHOST = re.compile(r"ghost use Rattle\.(pb\w*)\.specs\.([\w.]+?)(?:\.\{([^}]*)\}| as (\w+))?;")
SCOPE = re.compile(r"^(?:pub )?(?:unsafe )?(?:trait|impl)\b[^{;]*\{", re.M)
FUNCTION = re.compile(r"^[ \t]*(pub(?:\([\w ]+\))? )?(?:const |unsafe )*fn \w+", re.M)
# Of what stands before a clause's brace, only the type of an array has a semicolon.
TYPE = r"(?:[^{;\[]|\[[^\[\]]*(?:\[[^\[\]]*\][^\[\]]*)*\])"
CLAUSE = re.compile(TYPE + r"*?\b(?:requires|ensures)\b[^{;]*\{")
WORD = re.compile(r"[^\s(){}\[\],;.→λ×]+")


def names_in(group):
    """The names of an import, each as it is there and as it is called here."""
    for part in filter(None, (it.strip() for it in group.split(","))):
        there, _, here = part.partition(" as ")
        yield there.strip(), (here or there).strip()


def imported(repository):
    """For each crate the names that others import of its Callers, with the crates that do."""
    found = collections.defaultdict(lambda: collections.defaultdict(set))
    for path in repository.files():
        text = repository.read(path)
        for _, crate, module, group, called in IMPORT.findall(text):
            if module == "Callers" and crate != crate_of(path):
                names = [there for there, _ in names_in(group)]
                names += re.findall(rf"(?<![\w.]){called}\.([\w'-]+)", text) if called else []
                for name in names:
                    found[crate][name].add(crate_of(path))
    return found


def faults_of_callers(repository):
    """What breaks the rules on proofs/."""
    for path in repository.files():
        for number, line in enumerate(repository.lines(path), 1):
            for crate, module in CITED.findall(line):
                if crate != crate_of(path) and module != "Callers":
                    yield Finding(path, number, f"cites {module} of {crate}, not Callers")
    cited = imported(repository)
    for crate in repository.crates():
        lib, callers = (f"crates/{crate}/proofs/{name}.antt" for name in ("Lib", "Callers"))
        for module in re.findall(r"^pub mod (\w+)", repository.read(lib), re.M):
            if module != "Callers":
                yield Finding(lib, 0, f"{module} is public")
        passed = set()
        for is_pub, _, _, group, _ in IMPORT.findall(repository.read(callers)):
            passed.update(here for _, here in names_in(group) if is_pub)
        for name in sorted(passed - set(cited[crate])):
            yield Finding(callers, 0, f"no other crate imports {name}")


def block_end(text, at):
    """The place behind the block that begins at this brace."""
    depth = 0
    while at < len(text):
        depth += {"{": 1, "}": -1}.get(text[at], 0)
        at += 1
        if depth == 0:
            break
    return at


def public_clauses(text):
    """The texts of the clauses that callers see."""
    text = re.sub(r"//[^\n]*", "", text)
    shown = [
        (scope.end(), block_end(text, scope.end() - 1))
        for scope in SCOPE.finditer(text)
        if scope[0].startswith("pub trait") or " for " in scope[0]
    ]
    for function in FUNCTION.finditer(text):
        is_shown = any(begin <= function.start() < end for begin, end in shown)
        if function[1] != "pub " and not is_shown:
            continue
        clause = CLAUSE.match(text, function.end())
        while clause:
            end = block_end(text, clause.end() - 1)
            yield text[clause.end() : end - 1]
            clause = CLAUSE.match(text, end)


def wanted_in_lib(repository, crate):
    """The modules of lower crates that public clauses of a crate cite."""
    found = set()
    for path in repository.files(crate, parts=("src",)):
        text, sources = repository.read(path), {}
        for low, module, group, called in GHOST.findall(text):
            if low == crate or module.startswith("declared"):
                continue
            for _, here in names_in(group):
                sources[here] = (low, module)
            if not group:
                sources[called or module.rpartition(".")[2]] = (low, module)
        for clause in public_clauses(text):
            found.update(sources[word] for word in set(WORD.findall(clause)) if word in sources)
    return found


def faults_of_specs(repository):
    """What specs/Lib.antt lacks."""
    for crate in repository.crates():
        if not crate.startswith("pb_test") and repository.has(f"crates/{crate}/src/lib.rt"):
            lib = f"crates/{crate}/specs/Lib.antt"
            passed = set(PASSED.findall(repository.read(lib)))
            for low, module in sorted(wanted_in_lib(repository, crate) - passed):
                yield Finding(lib, 0, f"lacks Rattle.{low}.specs.{module}")


def find(repository):
    yield from faults_of_callers(repository)
    yield from faults_of_specs(repository)


def show(repository, names, wide):
    for crate, passed in sorted(imported(repository).items()):
        if is_in(f"crates/{crate}/", names):
            others = ", ".join(sorted({other for by in passed.values() for other in by}))
            yield f"{crate}: {len(passed)} names, to {others}"

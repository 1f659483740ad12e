"""Lemmas that say the same as each other, or as a lemma of std.

Two statements are the same if they are equal but for white space, the names of variables, which
arguments are implicit, and ways to write a test: `a ≢ b` is `a ≡ b → ⊥`, and `nat_eq a b` and
`eqb a b` are `a == b`. Names are told apart by the crates' modules that they come from.

Looked at are the signatures of crates/*/proofs, with those after `where`; goals, abbreviations and
values aren't lemmas. Of those that say the same, each but the first is a finding; if std has the
lemma too, the first is one as well. `--show` prints whole groups, the greatest first, and with
`--wide` whole statements.

Std's lemmas are read from the kit's pages, beside the one that `rt doc` names. What the pages lack,
as Rattle.std.proofs.Math, isn't compared; `rt lemma` finds it. Without `rt` the rule is left out.
"""

import collections
import functools
import glob
import os
import re
import subprocess

from .repository import Finding, is_in

IMPORT = re.compile(r"^(?:pub )?use (Rattle(?:\.[\w-]+)+)\.\{([^}]*)\}", re.M)
ALIAS = re.compile(r"^use Rattle[\w.-]* as (\w+)", re.M)
SIGNATURE = re.compile(r"^( *)((?:(?:pub|abbrev|unfoldable) )*)([^\s(){}:]+) : (.*)")
TOKEN = re.compile(r"[(){}\[\],;]|\.(?=\s)|→|λ|(?:(?!→|λ|\.\s)[^\s(){}\[\],;])+")
CLOSING = {"(": ")", "{": "}", "[": "]"}
# std's names of one thing
SAME = {"nat_eq": "eqb", "nat_lt": "ltb", "nat_le": "leb"}
SAYS = ("→", "≡", "≢", "<", "≤", "↔", "⊥")

# A lemma of ours has a path and a line, and one of std a module.
Lemma = collections.namedtuple("Lemma", "name statement path line")


def signatures(text):
    """Name, statement and line of each signature, but for abbreviations and fields of records."""
    lines = [line.split("--")[0].rstrip() for line in text.split("\n")]
    local = None  # the indentation of signatures after `where`
    at = 0
    while at < len(lines):
        line, number = lines[at], at + 1
        at += 1
        if not line:
            continue
        indent = len(line) - len(line.lstrip())
        if local is not None and indent < local:
            local = None
        if line.strip() == "where":
            following = next((it for it in lines[at:] if it), "")
            local = len(following) - len(following.lstrip())
            continue
        found = SIGNATURE.match(line)
        if not found or "abbrev" in found[2] or indent not in (0, local):
            continue
        if found[3] in ("use", "record", "data", "module") or " where" in line:
            continue
        said = [found[4]]
        while at < len(lines) and lines[at] and len(lines[at]) - len(lines[at].lstrip()) > indent:
            said.append(lines[at].strip())
            at += 1
            if said[-1] == "where":
                at -= 1
                said.pop()
                break
        yield found[3], " ".join(said), number


def sources_of(text):
    """Of each imported name where it comes from; names of the kit stand for themselves."""
    found = {}
    for module, names in IMPORT.findall(text):
        for name in filter(None, (part.strip() for part in names.split(","))):
            there, _, here = (part.strip() for part in name.partition(" as "))
            there, here = there.replace("◌", ""), (here or there).replace("◌", "")
            is_ours = module.startswith("Rattle.pb_")
            found[here] = f"{module}.{there}" if is_ours else SAME.get(there, there)
    return found


class Reader:
    """Reads one statement, with numbers in the place of its variables."""

    def __init__(self, sources):
        self.sources, self.variables = sources, {}

    def bind(self, name):
        self.variables[name] = f"_{len(self.variables)}"
        return self.variables[name]

    def word(self, token):
        head, dot, rest = token.partition(".")
        if head in self.variables:
            return self.variables[head] + dot + rest
        return self.sources.get(head, SAME.get(head, head)) + dot + rest

    def atom(self, tokens, at):
        """The word or group that stands at a place, read, and the place after it."""
        end = self.group_end(tokens, at) if tokens[at] in CLOSING else at
        return self.read(tokens[at : end + 1]), end + 1

    def group_end(self, tokens, at):
        depth = 0
        for place in range(at, len(tokens)):
            depth += (tokens[place] in CLOSING) - (tokens[place] in CLOSING.values())
            if depth == 0:
                return place
        return len(tokens)

    def read(self, tokens):
        read, at = [], 0
        while at < len(tokens):
            token = tokens[at]
            if token in CLOSING:
                end = self.group_end(tokens, at)
                inner = tokens[at + 1 : end]
                at = end + 1
                names = inner[: inner.index(":")] if ":" in inner else []
                is_binder = names and not any(it in CLOSING or it in "=;,→" for it in names)
                if is_binder and not (read and read[-1] == "record"):
                    kind = self.read(inner[len(names) + 1 :])
                    for name in names:
                        read += ["(", self.bind(name), ":", *kind, ")"]
                    if tokens[at : at + 1] == ["→"]:
                        at += 1
                else:
                    held = self.read(inner)
                    if token != "(" or held[:1] != ["("] or self.group_end(held, 0) + 1 < len(held):
                        held = [token, *held, CLOSING[token]]
                    read += held
            elif token == "λ":
                read.append("λ")
                at += 1
                while at < len(tokens) and tokens[at] not in (".", "("):
                    read.append(self.bind(tokens[at]))
                    at += 1
            else:
                word = self.word(token)
                at += 1
                if word == "eqb" and len(tokens) - at >= 2 and "→" not in tokens[at : at + 2]:
                    one, at = self.atom(tokens, at)
                    if at < len(tokens):
                        other, at = self.atom(tokens, at)
                        read += ["(", *one, "==", *other, ")"]
                        continue
                    read += [word, *one]
                else:
                    read.append(word)
        return read

    def statement(self, text):
        tokens = TOKEN.findall(text)
        depth, last = 0, 0
        for place, token in enumerate(tokens):
            depth += (token in CLOSING) - (token in CLOSING.values())
            if token == "→" and depth == 0:
                last = place
        # (the conclusion a ≢ b is a ≡ b → ⊥)
        if "≢" in tokens[last:]:
            place = tokens.index("≢", last)
            tokens[place] = "≡"
            tokens += ["→", "⊥"]
        return " ".join(self.read(tokens))


def lemmas_of(text, path):
    """The lemmas of a text, each with what it says."""
    sources, aliases = sources_of(text), ALIAS.findall(text)
    for name, said, line in signatures(text):
        is_goal = any(re.search(rf"(?<![\w.-]){alias}\.", said) for alias in aliases)
        if not is_goal and any(word in said for word in SAYS):
            yield Lemma(name, said, path, line), Reader(sources).statement(said)


@functools.lru_cache(maxsize=None)
def std_lemmas():
    """The lemmas of std's pages by what they say; nothing without rt."""
    found = collections.defaultdict(list)
    try:
        ran = subprocess.run(["rt", "doc"], capture_output=True, text=True, check=True)
    except (OSError, subprocess.CalledProcessError):
        return None
    folder = os.path.join(os.path.dirname(ran.stdout.split("\n")[0]), "rattle", "std", "lemmas")
    for page in sorted(glob.glob(os.path.join(folder, "**", "*.md"), recursive=True)):
        with open(page, encoding="utf-8") as it:
            text = it.read()
        module = re.search(r"Import with `use ([\w.]+)\.\{NAME\}`", text)
        for block in re.findall(r"^```text\n(.*?)^```", text, re.M | re.S) if module else ():
            for lemma, key in lemmas_of(block, module[1]):
                found[key].append(lemma)
    return found


def lacks():
    """What the rule needs and doesn't find."""
    return None if std_lemmas() is not None else "there is no rt, whose pages have std's lemmas"


def our_lemmas(repository):
    """The lemmas of all crates by what they say."""
    found = collections.defaultdict(list)
    for path in repository.files(parts=("proofs",)):
        for lemma, key in lemmas_of(repository.read(path), path):
            found[key].append(lemma)
    return found


def groups(repository):
    """The lemmas that say the same, with those of std that do; the greatest groups first."""
    stds = std_lemmas() or {}
    found = [(key, lemmas, stds.get(key, [])) for key, lemmas in our_lemmas(repository).items()
             if key in stds or len(lemmas) > 1]
    yield from sorted(found, key=lambda group: (-len(group[1]), -len(group[0]), group[1]))


def cut(text, wide):
    return text if wide or len(text) <= 150 else f"{text[:149]}…"


def find(repository):
    for _, lemmas, stds in groups(repository):
        for number, lemma in enumerate(lemmas):
            if stds:
                other = stds[0]
            elif number:
                other = lemmas[0]
            else:
                continue
            more = f", as {other.name} of {other.path}"
            yield Finding(lemma.path, lemma.line, f"{lemma.name} is a repeated lemma", more)


def show(repository, names, wide):
    for _, lemmas, stds in groups(repository):
        if any(is_in(lemma.path, names) for lemma in lemmas):
            yield f"{len(lemmas)}: {cut(lemmas[0].statement, wide)}"
            yield from (f"    std: {lemma.path}.{{{lemma.name}}}" for lemma in stds[:2])
            yield from (f"    {lemma.path}:{lemma.line}: {lemma.name}" for lemma in lemmas)

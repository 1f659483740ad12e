"""Links and paths of the documents that lead nowhere.

A link leads to a file, beside the page that has it, and perhaps to a heading there. A path in code
begins with a folder of the repository.
"""

import os
import re

from .repository import Finding

LINK = re.compile(r"\]\(([^)\s]*)\)")
CODE = re.compile(r"`([^`]+)`")
PATH = re.compile(r"^(?:bench|checker|crates|docs|examples|tools)/[\w./-]*\w$")


def anchors(text):
    """The names by which headings of a page can be linked."""
    text = re.sub(r"^```.*?^```", "", text, flags=re.M | re.S)
    for heading in re.findall(r"^#+ +(.*)", text, re.M):
        name = re.sub(r"\[([^]]*)\]\([^)]*\)", r"\1", heading).lower()
        yield re.sub(r"[^\w\- ]", "", name).strip().replace(" ", "-")


def leads_nowhere(repository, path, target):
    """What is wrong with a link, or nothing."""
    if re.match(r"\w+:", target):
        return None
    file, _, anchor = target.partition("#")
    there = os.path.normpath(os.path.join(os.path.dirname(path), file)) if file else path
    if not repository.has(there):
        return "a link to a file that isn't there"
    if anchor and anchor not in anchors(repository.read(there)):
        return "a link to a heading that isn't there"
    return None


def find(repository):
    for path in repository.documents():
        fenced = False
        for number, line in enumerate(repository.lines(path), 1):
            fenced ^= line.lstrip().startswith("```")
            if fenced:
                continue
            for target in LINK.findall(CODE.sub("", line)):
                what = leads_nowhere(repository, path, target)
                if what:
                    yield Finding(path, number, f"{what}: {target}")
            for word in (word for code in CODE.findall(line) for word in code.split()):
                # (NAME stands for any crate, and programs write into out/)
                if PATH.match(word) and not re.search("NAME|/out/", word):
                    if not repository.has(word):
                        yield Finding(path, number, f"a path to nothing: {word}")

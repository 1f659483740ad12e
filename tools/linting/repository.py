"""What all rules read: the files of a checkout, and findings with their places."""

import collections
import functools
import glob
import os
import re
import subprocess

# A finding in a file: its line (0 if it is about the whole file), what is wrong, and perhaps more.
Finding = collections.namedtuple("Finding", "path line text more", defaults=[""])
SOURCES = (("src", "rt"), ("specs", "antt"), ("proofs", "antt"))


def shown(finding):
    """A finding as it is printed."""
    place = f"{finding.path}:{finding.line}" if finding.line else finding.path
    return f"{place}: {finding.text}{finding.more}"


def as_known(finding):
    """A finding as a list of known ones has it: without its line and `more`, which often change."""
    return f"{finding.path}: {finding.text}"


class Repository:
    """A checkout, or a folder that is like one. Paths are those from its root."""

    def __init__(self, root):
        self.root = os.path.abspath(root)

    @functools.lru_cache(maxsize=None)
    def read(self, path):
        """The text of a file; an empty one if it isn't there."""
        try:
            with open(os.path.join(self.root, path), encoding="utf-8") as file:
                return file.read()
        except FileNotFoundError:
            return ""

    def lines(self, path):
        return self.read(path).split("\n")

    def has(self, path):
        return os.path.exists(os.path.join(self.root, path))

    def find(self, form):
        """The paths of this form, in order; `**` stands for any folders."""
        found = glob.glob(os.path.join(self.root, form), recursive=True)
        return sorted(os.path.relpath(path, self.root) for path in found)

    @functools.lru_cache(maxsize=None)
    def documents(self):
        """The Markdown files that git knows of, or would add; without git all that are there."""
        listed = ["git", "ls-files", "--cached", "--others", "--exclude-standard", "*.md"]
        if not self.has(".git"):
            return self.find("**/*.md")
        ran = subprocess.run(listed, cwd=self.root, capture_output=True, text=True, check=True)
        return [path for path in sorted(set(ran.stdout.split("\n"))) if path and self.has(path)]

    def crates(self):
        """The names of the crates, in order of the alphabet."""
        return [os.path.basename(path) for path in self.find("crates/*")
                if os.path.isdir(os.path.join(self.root, path))]

    def files(self, crate="*", parts=("src", "specs", "proofs")):
        """The files of code, definitions and proofs of a crate, or of all."""
        for part, form in SOURCES:
            if part in parts:
                yield from self.find(f"crates/{crate}/{part}/**/*.{form}")


def crate_of(path):
    """The crate that has a file."""
    return path.split("/")[1]


def is_in(path, places):
    """Whether a file is one of these, or is in one of these folders or crates."""
    return not places or any(path == place or path.startswith(f"{place}/") or
                             path.startswith(f"crates/{place}/") for place in places)


def without_code(text):
    """A text of Markdown without what is code, with its lines kept. A name in code is `CODE`."""
    blank = lambda found: "\n" * found[0].count("\n")
    text = re.sub(r"^ *```.*?^ *```", blank, text, flags=re.M | re.S)
    text = re.sub(r"^(?:    |\t)(?! *[-*\d]).*$", "", text, flags=re.M)
    return re.sub(r"`[^`\n]*`", "CODE", text)

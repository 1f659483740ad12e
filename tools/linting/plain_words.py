"""Words in the documents for which CONTRIBUTING.md names better ones.

Code, blocks of code and texts in double quotes are left out: formats and printed words stay as they
are. Comments of the sources aren't looked at yet.
"""

import re

from .repository import Finding, without_code

# What is looked for, and what to write.
WORDS = (
    (r"\bexactly if\b", "if and only if"),
    (r"\bst(?:ands?|ood|anding) on\b(?! the table\b)", "depends on, is in"),
    (r"\b(?:told|tells?)\b", "known, reports"),
    (r"\bwords'|\b(?:caller|command|program)'s words\b", "arguments, command line"),
    (r"\bwords of the (?:caller|command|command line|program)\b", "arguments, command line"),
    (r"\bwant of\b", "out of"),
    (r"\ba first part of\b", "a prefix of"),
    (r"\bOf [^.,:;|]{1,60} the same holds\b", "the same holds for"),
    (r"\bso many\b", "that many"),
    (r"\bis none of the task\b", "is not one of the task's"),
    (r"\bwhat is so\b", "the name of the thing"),
)
FORMS = [(re.compile(form, re.I), better) for form, better in WORDS]
QUOTED = re.compile(r'"[^"\n]*"|\*[\w ]+\*')


def find(repository):
    for path in repository.documents():
        for number, line in enumerate(without_code(repository.read(path)).split("\n"), 1):
            line = QUOTED.sub('""', line)
            for form, better in FORMS:
                for found in form.finditer(line):
                    yield Finding(path, number, f"`{found[0]}`: write {better}")

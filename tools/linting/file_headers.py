"""Source files without a line `//!` that says what they are for.

A file of crates/*/src has such a line before its code.
"""

import re

from .repository import Finding

# Before it there may be blank lines, comments and attributes of the whole file.
BEFORE = re.compile(r"\s*(?:(?:#!\[[^\n]*\]|//(?![/!])[^\n]*)\s*)*//!")


def find(repository):
    for path in repository.files(parts=("src",)):
        if not BEFORE.match(repository.read(path)):
            yield Finding(path, 0, "no line `//!`")

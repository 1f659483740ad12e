"""How a file's name is shown."""

import os
import re

ESCAPES = {7: "a", 8: "b", 9: "t", 10: "n", 11: "v", 12: "f", 13: "r", 27: "E", 39: "'", 92: "\\"}


def quoted(name):
    """A file's name as the shell writes it, so that no terminal obeys its bytes."""
    if all(it.isprintable() for it in name):
        return re.sub(r"([^\w@%+=:,./-])", r"\\\1", name) if name else "''"
    shown = ""
    for it in os.fsencode(name):
        letter = ESCAPES.get(it)
        shown += "\\" + letter if letter else chr(it) if 32 <= it < 127 else f"\\{it:03o}"
    return f"$'{shown}'"

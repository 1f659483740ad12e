"""READMEs that are too long.

The README at the root has two screens, which are 9,000 bytes. Others have at most 250 lines.
"""

import os

from .repository import Finding

MOST_BYTES, MOST_LINES = 9000, 250


def find(repository):
    for path in repository.documents():
        if os.path.basename(path) != "README.md":
            continue
        text = repository.read(path)
        size, lines = len(text.encode()), text.count("\n")
        if path == "README.md" and size > MOST_BYTES:
            yield Finding(path, 0, f"{size:,} bytes, more than {MOST_BYTES:,}")
        if path != "README.md" and lines > MOST_LINES:
            yield Finding(path, 0, f"{lines} lines, more than {MOST_LINES}")

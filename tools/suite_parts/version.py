"""Which build of the program this is, as far as its surroundings tell."""

from __future__ import annotations

import json
import pathlib
import subprocess


def version_of(program: str) -> str:
    """Of a package, what its `BUILT.json` says; of a checkout, its commit; else `unknown`."""
    for folder in pathlib.Path(program).resolve().parents:
        built = folder / "BUILT.json"
        if built.is_file():
            return f"commit {json.loads(built.read_text(encoding='utf-8'))['commit']}"
        if (folder / ".git").exists():
            words = ["git", "-C", str(folder), "describe", "--always", "--dirty", "--abbrev=12"]
            run = subprocess.run(words, capture_output=True, text=True, check=False)
            return f"commit {run.stdout.strip()}" if run.returncode == 0 else "unknown"
    return "unknown"

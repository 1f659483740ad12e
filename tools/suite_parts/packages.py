"""Modules of Debian's packages. tools/debian-packages.txt names them; each is imported when used."""

from __future__ import annotations

import importlib
import pathlib
import sys
import types

LIST = pathlib.Path(__file__).resolve().parent.parent / "debian-packages.txt"


class Missing(Exception):
    """A module that isn't installed, with what to do about it."""


def load(name: str) -> types.ModuleType:
    """The module, perhaps `package.module`."""
    try:
        return importlib.import_module(name)
    except ImportError as error:
        module = name.split(".")[0]
        raise Missing(f"{sys.executable} has no module {module}: on Debian, `apt install "
                      f"{package_of(module)}`, and call the tool by /usr/bin/python3") from error


def package_of(module: str) -> str:
    lines = LIST.read_text(encoding="ascii").split("\n")
    words = [line.split() for line in lines if line and not line.startswith("#")]
    return next(package for name, package, *_ in words if name == module)

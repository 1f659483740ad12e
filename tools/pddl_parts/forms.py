"""Reads PDDL as nested lists of names with their places, by the tokens of docs/PDDL.md."""

from __future__ import annotations

import re
from typing import NoReturn, Sequence, Union

from picture_parts.reading import Refused, load

SPACE = re.compile(rb"(?:[ \t\r\n\f]+|;[^\n]*)*")
TOKEN = re.compile(rb"[()=-]|[?:]?[A-Za-z0-9][A-Za-z0-9_-]*")
DEEPEST = 32


class Name(str):
    """A token other than a parenthesis, in lower case, with its byte."""

    at = 0

    @staticmethod
    def of(text: str, at: int) -> Name:
        name = Name(text)
        name.at = at
        return name


class Form(list):
    """What stands between a `(` and its `)`; `at` is the byte of the `(`."""

    def __init__(self, at: int) -> None:
        super().__init__()
        self.at = at

    def head(self) -> str:
        """The first word, or nothing."""
        return self[0] if self and isinstance(self[0], Name) else ""


Part = Union[Name, Form]


class Text:
    """A text of PDDL. What is refused is reported by line and column, from 1. `beyond` has what was
    read that is no STRIPS with types and costs: the byte, and what it is."""

    def __init__(self, name: str) -> None:
        self.name, self.data = name, load(name)
        self.beyond: list[tuple[int, str]] = []
        self.opened: list[int] = []
        self.at = self.end = 0
        self.token = ""
        self.advance()

    def refuse(self, fault: str, at: int | None = None) -> NoReturn:
        at = self.at if at is None else at
        line = self.data.count(b"\n", 0, at) + 1
        column = at - (self.data.rfind(b"\n", 0, at) + 1) + 1
        raise Refused(self.name, f"line {line}, column {column}", fault)

    def advance(self) -> None:
        self.at = SPACE.match(self.data, self.end).end()
        found = TOKEN.match(self.data, self.at)
        if found:
            self.token, self.end = found.group().decode().lower(), found.end()
        elif self.at == len(self.data):
            self.token, self.end = "", self.at
        else:
            self.refuse("these bytes begin no token")

    def form(self) -> Form:
        """The form that begins here."""
        if self.token != "(":
            self.refuse(f"expected `(`, and not `{self.token}`" if self.token else "no form")
        if len(self.opened) == DEEPEST:
            self.refuse(f"a `(` inside {DEEPEST} others")
        found = Form(self.at)
        self.opened.append(self.at)
        self.advance()
        while self.token != ")":
            if self.token == "":
                self.refuse("the text ends, and this `(` is open", self.opened[-1])
            if self.token == "(":
                found.append(self.form())
            else:
                found.append(Name.of(self.token, self.at))
                self.advance()
        self.opened.pop()
        self.advance()
        return found

    def whole(self) -> Form:
        """The text's only form."""
        found = self.form()
        if self.token:
            self.refuse("a token below the whole form")
        return found

    def as_name(self, part: Part, what: str) -> Name:
        """A part that must be a name."""
        if not isinstance(part, Name) or not part[0].isalnum():
            self.refuse(f"expected {what}", part.at)
        return part

    def as_variable(self, part: Part) -> Name:
        if not isinstance(part, Name) or not part.startswith("?"):
            self.refuse("expected a variable", part.at)
        return part

    def as_list(self, part: Part, what: str) -> Form:
        """A part that must be a form."""
        if not isinstance(part, Form):
            self.refuse(f"expected {what} in parentheses, and not `{part}`", part.at)
        return part

    def single(self, parts: Sequence[Part], what: str, form: Form) -> Part:
        """The single part of these."""
        if len(parts) != 1:
            self.refuse(f"expected {what}, and nothing else", parts[1].at if parts else form.at)
        return parts[0]

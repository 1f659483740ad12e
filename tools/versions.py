"""Writes a certificate in another version or with another width of its states, for tests.

Nothing is judged: the lines are taken as docs/FORMATS.md has them, and another text is left alone.
"""

import itertools
import re

HEAD = re.compile(rb"pbnf-certificate (?:1\nkind \w+\n|2\nkind \w+\nwidth ([0-9]{1,4})\n"
                  rb"|3\nkind \w+\nwidth ([0-9]{1,4})\npattern [0-9]{1,20}\n"
                  rb"|4\nkind \w+\nwidth ([0-9]{1,4})\ngrounding \w+\n"
                  rb"estimate (?:plain\n|pattern [0-9]{1,20}\n|tables [0-9 ]{1,63}\n"
                  rb"(?:(?:(?:table|trap) )?[0-9a-f]+(?: [0-9]+)*\n)*))")

ROW = re.compile(rb"0*([0-9a-f]+) ([0-9]+ (?:closed|cut)\n)")


def digits_of(text):
    """The version of a certificate, how many digits its states have, and where its weight begins;
    or None if it doesn't begin as one."""
    found = HEAD.match(text)
    if found is None:
        return None
    version = int(text[17:18])
    return version, int(found[1] or found[2] or found[3] or 64), found.end()


def grounding_of(text):
    """The grounding that a certificate of version 4 states, and `all` of another text."""
    found = digits_of(text)
    return text.split(b"\n", 4)[3].split()[1].decode() if found and found[0] == 4 else "all"


def pattern_of(text):
    """The pattern number of a certificate of version 3 or 4, and 0 of another text."""
    found = digits_of(text)
    line = text.split(b"\n", 5)[found[0]] if found and found[0] >= 3 else b""
    return int(line.split()[-1]) if b"pattern " in line else 0


def estimate_line(pattern):
    return b"estimate pattern %d\n" % pattern if pattern else b"estimate plain\n"


def estimate_of(text):
    """The lines of a certificate in version 4 that say the estimate; of another text the line that
    would say it."""
    found = digits_of(text)
    if not found or found[0] != 4:
        return estimate_line(pattern_of(text))
    return text[text.index(b"\nestimate ") + 1:found[2]]


def tables_of(text):
    """The lines that state the tables and traps of a certificate, from `estimate tables` on; of
    another text there are none."""
    lines = estimate_of(text)
    return lines if lines.startswith(b"estimate tables ") else b""


def with_tables(text, lines):
    """The certificate in version 4 with these lines for its estimate. The text itself if it doesn't
    begin as a certificate."""
    found = digits_of(text)
    return text if found is None else _fourth(
        text.split(b"\n", 2)[1], found[1], grounding_of(text), lines) + text[found[2]:]


def _fourth(kind, digits, grounding, estimate):
    return b"pbnf-certificate 4\n%s\nwidth %d\ngrounding %s\n%s" % (
        kind, digits, grounding.encode(), estimate)


def with_pattern(text, pattern):
    """The certificate with this pattern number, or without one if it is 0. One of version 4 stays
    so, and loses its tables; another is then of version 3, or of version 2 without a number. One of
    version 1 keeps its states' digits. The text itself if it doesn't begin as a certificate."""
    found = digits_of(text)
    if found is None:
        return text
    if found[0] == 4:
        return with_tables(text, estimate_line(pattern))
    kind = text.split(b"\n", 2)[1]
    head = b"pbnf-certificate %d\n%s\nwidth %d\n" % (3 if pattern else 2, kind, found[1])
    return head + (b"pattern %d\n" % pattern if pattern else b"") + text[found[2]:]


def with_grounding(text, grounding):
    """The certificate in version 4 with this word for its grounding, of whatever kind it is. It
    keeps its pattern number or its tables, or that it has none. The text itself if it doesn't begin
    as a certificate."""
    found = digits_of(text)
    if found is None:
        return text
    kind = text.split(b"\n", 2)[1]
    return _fourth(kind, found[1], grounding, estimate_of(text)) + text[found[2]:]


def as_version(text, version, digits):
    """The certificate in this version, its states with so many digits, which is 64 in version 1.
    In version 3 it keeps its pattern number, and has 1 if it had none. In version 4 it keeps its
    grounding and its tables too.

    None if a state needs more digits; the text itself if it doesn't begin as a certificate."""
    found = digits_of(text)
    if found is None:
        return text
    kind = text.split(b"\n", 2)[1]
    head = b"pbnf-certificate %d\n%s\n" % (version, kind)
    head += b"width %d\n" % digits if version >= 2 else b""
    head += b"pattern %d\n" % (pattern_of(text) or 1) if version == 3 else b""
    if version == 4:
        estimate = with_digits(estimate_of(text), digits)
        if estimate is None:
            return None
        head = _fourth(kind, digits, grounding_of(text), estimate)
    rest, rows = text[found[2]:], []
    begin = rest.find(b"\nrows ")
    if begin < 0:
        return head + rest
    before, *lines = rest[begin + 1:].split(b"\n")
    for line in lines:
        state, blank, after = line.partition(b" ")
        if blank and re.fullmatch(rb"[0-9a-f]+", state):
            state = state.lstrip(b"0").rjust(digits, b"0")
            if len(state) > digits:
                return None
        rows.append(state + blank + after)
    return head + rest[:begin + 1] + b"\n".join([before, *rows])


def with_digits(lines, digits):
    """The lines of an estimate with so many digits for each image and set of atoms; None if one
    needs more."""
    found = []
    for line in lines.splitlines(keepends=True):
        name, state, rest = re.fullmatch(
            rb"((?:table|trap) |estimate .*|)([0-9a-f]*)(.*\n)", line).groups()
        state = state and state.lstrip(b"0").rjust(digits, b"0")
        if len(state) > digits:
            return None
        found.append(name + state + rest)
    return b"".join(found)


def drawn_version(drawn, certificate):
    """The certificate in a drawn version, with its own width or another one. In versions 3 and 4 it
    has its own pattern number or another one, and in version 4 its own grounding or another one.
    Its tables it mostly keeps."""
    digits, own = digits_of(certificate)[1], pattern_of(certificate)
    grounding = grounding_of(certificate)
    has_tables = bool(tables_of(certificate))
    version = drawn.choice([1, 2, 2, 3, 3, 4] + [4] * 6 * (grounding != "all")
                           + [4] * 24 * has_tables)
    digits = 64 if version == 1 else drawn.choice([digits] * 4 + [digits + 1, digits - 1, 64, 256])
    text = as_version(certificate, version, digits) or certificate
    numbers = [own or 1] * 4 + [max(own - 1, 1), own + 1, 1, 2, 3, 12, 13]
    numbers += [own] * 12 * (version == 4)
    is_kept = version == 4 and has_tables and drawn.random() < 0.9
    text = with_pattern(text, drawn.choice(numbers)) if version >= 3 and not is_kept \
        else text
    groundings = [grounding] * 6 + ["all", "reachable", "some"]
    return with_grounding(text, drawn.choice(groundings)) if version == 4 else text


def are_same(first, second):
    """Whether two files have certificates that state the same, in whatever versions. A pattern
    number is a part of what is stated, and so is a grounding."""
    with open(first, "rb") as one, open(second, "rb") as other:
        heads = [[file.readline(), file.readline()] for file in (one, other)]
        for file, (version, _) in zip((one, other), heads):
            if re.fullmatch(rb"pbnf-certificate [234]\n", version):
                file.readline()
        pairs = itertools.zip_longest(one, other, fillvalue=b"")
        return heads[0][1] == heads[1][1] and all(
            line == beside or is_row_as(line, beside) for line, beside in pairs)


def is_row_as(line, other):
    """Whether two lines are rows of one state, with as many digits or not, and else the same."""
    rows = [ROW.fullmatch(it) for it in (line, other)]
    return all(rows) and rows[0].groups() == rows[1].groups()

"""What tools/launcher/options.txt says, and the tables that docs/FORMATS.md has of it."""

import re

from .harness import ROOT


def lines_of(word, root=ROOT):
    """The parts of each line that begins with a word."""
    found = []
    for line in (root / "tools/launcher/options.txt").read_text().splitlines():
        if line.startswith(word + " "):
            found.append([it.strip() for it in line[len(word) + 1:].split("|")])
    return found


def number_of(text):
    """A whole number as it stands in a range: 1,000 or 2^40 or 2^32 - 1."""
    total = 0
    for part in text.replace(",", "").split(" - "):
        base, _, power = part.partition("^")
        value = int(base) ** int(power or 1)
        total = value if total == 0 else total - value
    return total


def range_of(text):
    """Least and greatest value of a range, or None if it isn't one of numbers."""
    found = re.fullmatch(r"([\d,^ -]+) to ([\d,^ -]+)", text)
    return (number_of(found[1]), number_of(found[2])) if found else None


def table_rows():
    """The rows that docs/FORMATS.md must have, of options and of words."""
    rows = []
    for name, commands, what, takes, default in lines_of("option"):
        of = ", ".join(f"`{it}`" for it in commands.split())
        rows.append(f"| `{name}` | {of} | {what} | {takes} | {default} |")
    for name, _, what, takes in lines_of("word"):
        rows.append(f"| {name} | {what} | {takes} |")
    return rows


def form_lines():
    """The forms of all commands, with their options if they are few."""
    lines = []
    for command, form in lines_of("form"):
        options = [it[0] for it in lines_of("option") if command in it[1].split()]
        tail = "[OPTIONS]" if len(options) > 3 else " ".join(f"[{it}]" for it in options)
        lines.append(f"pbnf {command} {form} {tail}")
    return lines


def proved_table(root=ROOT):
    """The table of the command line's definitions: for each option the commands that have it, and
    its least and greatest number with the default if it has one, or its word or words with "or"
    between them, or "a file" or "no value". Whether a file is saved or read isn't in the table."""
    text = (root / "crates/pb_command/specs/Table.antt").read_text()
    text = re.sub(r"--.*", "", text)
    kinds, names = {}, {}
    for case, form, name, numbers in re.findall(
            r"^entry_of (\w+) = (number|optional_number|file_name) \(codes \"(\w+)\"\)((?: \d+)*)$",
            text, re.M):
        names[case] = name
        kinds[case] = "a file" if form == "file_name" else tuple(map(int, numbers.split()))
    words = dict(re.findall(r"^(\w+_word(?: \w+)?) = codes \"(\w+)\"$", text, re.M))
    for case, name, takes in re.findall(
            r"^entry_of (\w+) = word \(codes \"(\w+)\"\) \(([\w ∷]+) ∷ \[\]\)$", text, re.M):
        names[case] = name
        kinds[case] = " or ".join(words[it] for it in takes.split(" ∷ "))
    for case, name in re.findall(r"^flag_name (\w+) = codes \"(\w+)\"$", text, re.M):
        names[case], kinds[case] = name, "no value"
    commands = {case: set() for case in names}
    lists = re.findall(r"^(\w+)_(?:options|flags) =\s+([\w∷\s]+?) ∷ \[\]$", text, re.M)
    for command, cases in lists:
        for case in cases.split(" ∷ "):
            commands[case.strip()].add(command)
    return {names[it]: (commands[it], kinds[it]) for it in names}


def stated_table():
    """The same as tools/launcher/options.txt states it."""
    rows = {}
    for name, commands, _, takes, default in lines_of("option"):
        kind = {"no value": "no value", "a file that is saved": "a file",
                "a file that is read": "a file"}.get(takes)
        if kind is None and range_of(takes):
            number = default.replace(",", "")
            kind = range_of(takes) + ((int(number),) if number.isdigit() else ())
        rows[name.split()[0][2:]] = (set(commands.split()), kind or takes)
    return rows

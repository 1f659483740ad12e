"""Reads files of tables as docs/FORMATS.md has them, by the classes of the second checker.

That checker judges certificates alone. Here its readers of a certificate's tables are given a file
that has nothing else, so that the tools know what `solve --tables` must refuse.
"""


def read(checker, task, text):
    """The tables and traps of a file for this task. It raises `checker.Refused` with what the
    program must print behind `input`."""
    lines = checker.Certificate.__new__(checker.Certificate)
    lines.text, lines.at, lines.line, lines.digits = text, 0, 0, task.digits
    try:
        tables = lines.take_tables(*map(int, lines.take("estimate tables N N N")))
        checker.demand(lines.at == len(text), "Syntax", lines.line + 1)
        tables.demand_order(task)
        tables.demand_steps(task)
    except checker.Refused as refused:
        name, *fields = refused.args
        name = {"Syntax": "Tables", "Table": "Unsuited"}.get(name, name)
        raise checker.Refused(name, *fields) from None
    return tables


def refusal(checker, task, text):
    """The line with which the program must refuse this file of tables, or None."""
    try:
        read(checker, task, text)
    except checker.Refused as refused:
        return " ".join(map(str, ["input", *refused.args]))
    return None

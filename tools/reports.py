"""The forms of what the program prints, and whether a run ended as it may."""

import re

SYNTAX_WORDS = ("Section|Part|Head|Either|Function|Metric|Paren|Close|Word|Number|Name|Variable"
                "|TypeName|Group|Once|Missing")
REPORTS = {
    0: r"plan (\d+) \d+\n(?:[ -~]+\n)*bound (\d+)\n|accepted (none|cost \d+ bound \d+)\n"
       r"|journal \d+\n|cost (\d+) bound \4 accepted\n",
    1: r"none\n|none accepted\n",
    2: r"stopped (budget \d+|grounding)\n",
    3: r"refused (Kind|Grounding|Pattern|Weight|NotGoal|NoStart"
       r"|(Width|Unpaid|Cost|Missing|TooDear) \d+ \d+"
       r"|(Syntax|Table|PlanStep|RowOrder|BadState|GoalClosed|Low) \d+"
       r"|(Spelling|Settings|Trouble|Ended|Worker|Holds|Block|Scope|Hot|Quota|NoEnd|Short) \d+)\n",
    65: r"input (TooLong|Size|ScenarioSize|Outside|StartBlocked|GoalBlocked|TooManyActions"
        r"|(Header|Rows|Scenario|Syntax|Number|Twice|TooManyObjects|TooManyAtoms) \d+"
        r"|(Tables|Unsuited) \d+|Unpaid \d+ \d+"
        r"|(Cell|NoRow|Count|Byte|Deep|Unclosed|Extra|DomainName|Twice|UnknownType|TypeCycle"
        r"|UnknownPredicate|Arity|UnknownObject|WrongType|TooWide|NoFunction|CostTwice|CostRange"
        r"|ZeroCost) \d+ \d+"
        rf"|(LeftOut|Expected) [12] \d+ ({SYNTAX_WORDS}))\n"}


def fault_of(run, statuses, seconds):
    """What is at fault in how a run ended and in the form of its report, or None."""
    if run.status is None or run.alone() > seconds:
        return f"no end after {seconds} seconds"
    if run.status not in statuses:
        return f"status {run.status}: {run.output[:80]!r} {run.errors[:80]!r}"
    if run.errors:
        return f"standard error: {run.errors[:80]!r}"
    is_spelled = re.fullmatch(REPORTS[run.status], run.output.decode("ascii", "replace"))
    return None if is_spelled else f"status {run.status}, but {run.output[:80]!r}"

"""The claims of a run with falling weights: cost and bound of each, over its weight."""

import os

from . import canvas
from .frontier_picture import round_up
from .reading import GRID_MOVES, Claim, Refused, load, read_claim, read_report

WIDE, HIGH, LEFT, PAD = 800, 300, 100, 30
SIZE, MARK = 13, 5


def is_step(text):
    return text in GRID_MOVES or text.startswith("(")


def claims_of(names):
    """The claims of certificates in the order of their weights, or of a report; and the report."""
    if load(names[0], 2**30)[:16] == b"pbnf-certificate":
        claims = [read_claim(name) for name in names]
        return sorted(claims, key=lambda it: (-it.weight[0] / it.weight[1], -it.cost)), None
    if len(names) > 1:
        raise Refused(names[1], "", "one report is drawn, or certificates alone")
    report = read_report(names[0], is_step)
    if not report.claims:
        raise Refused(names[0], "line 1", "no claim of a run with falling weights")
    return report.claims, report


def shown_weight(claim):
    num, den = claim.weight
    return str(num) if den == 1 else f"{num}/{den}"


class Scale:
    """Where values stand: from 0 on, or from near the least one if all are far from 0."""

    def __init__(self, claims):
        least, most = min(it.bound for it in claims), max(it.cost for it in claims)
        span = most - least if 2 * least > most else most
        self.step = round_up(max(span, 4) / 4)
        self.low = least // self.step * self.step if 2 * least > most else 0
        self.high = max(-(-most // self.step) * self.step, self.low + self.step)

    def y(self, value):
        return PAD + (HIGH - 2 * PAD) * (self.high - value) / (self.high - self.low)

    def lines(self):
        parts = []
        for value in range(self.low, self.high + 1, self.step):
            level = self.y(value)
            parts.append(canvas.line("none s-line", [(LEFT, level), (LEFT + WIDE, level)], 1,
                                     ' opacity=".6"'))
            parts.append(canvas.text("f-muted", LEFT - 8, level + 5, SIZE, f"{value:,}", "end"))
        return parts


def cost_mark(x, y, more=""):
    return f'<circle class="f-plan cost" cx="{canvas.n(x)}" cy="{canvas.n(y)}" r="{MARK}"{more}/>'


def bound_mark(x, y, more=""):
    """An open square, in which the mark of an equal cost can be seen."""
    side = MARK + 3
    return canvas.rect("none s-cut bound", x - side, y - side, 2 * side, 2 * side,
                       ' stroke-width="2"' + more)


def data(claim):
    num, den = claim.weight
    return f' data-weight="{num}/{den}" data-cost="{claim.cost}" data-bound="{claim.bound}"'


def marks(claims, scale, places):
    parts = []
    for name, values in (("s-plan", [it.cost for it in claims]),
                         ("s-cut", [it.bound for it in claims])):
        if len(claims) > 1:
            points = list(zip(places, map(scale.y, values)))
            parts.append(canvas.line(f"none {name}", points, 2))
    for claim, x in zip(claims, places):
        parts.append(canvas.line("none s-muted", [(x, scale.y(claim.cost)),
                                                  (x, scale.y(claim.bound))], 1,
                                 ' stroke-dasharray="2 3"'))
        title = (f"<title>weight {shown_weight(claim)}: cost {claim.cost:,}, "
                 f"bound {claim.bound:,}</title>")
        parts.append(bound_mark(x, scale.y(claim.bound), data(claim)))
        mark = cost_mark(x, scale.y(claim.cost), data(claim))
        parts.append(mark.replace("/>", f">{title}</circle>"))
    return parts


def labels(words, places, levels, names="f-ink"):
    """Those of the words that have room beside one another, the last one among them."""
    widest = max(canvas.text_width(it, SIZE) for it in words) + 6
    step = max(1, -int(-widest // (WIDE / len(words))))
    parts = []
    for at in range(len(words) - 1, -1, -step):
        half = canvas.text_width(words[at], SIZE) / 2
        x = min(max(places[at], LEFT + half + 2), LEFT + WIDE - half)
        parts.append(canvas.text(names, x, levels[at], SIZE, words[at], "middle"))
    return parts


def facts_of(page, claims, report):
    last = claims[-1]
    page.facts(f"{canvas.counted(len(claims), 'claim')}. The last has a plan of cost "
               f"{last.cost:,}, and no plan costs less than {last.bound:,}.")
    if report is not None and report.budget is not None:
        page.facts(f"The run then stopped after {canvas.counted(report.budget, 'expansion')}.")


def draw_claims(options):
    claims, report = claims_of(options.files)
    scale = Scale(claims)
    column = WIDE / len(claims)
    places = [LEFT + (at + 0.5) * column for at in range(len(claims))]
    page = canvas.Page(LEFT + WIDE + 16, 1.0, options.colours)
    page.title(f"{os.path.basename(options.files[0])}, claims by weight")
    facts_of(page, claims, report)
    parts = scale.lines() + marks(claims, scale, places)
    parts += labels([f"{it.cost:,}" for it in claims], places,
                    [scale.y(it.cost) - MARK - 8 for it in claims])
    below = [it for it in zip(claims, places) if it[0].bound < it[0].cost]
    if below:
        parts += labels([f"{it.bound:,}" for it, _ in below], [x for _, x in below],
                        [scale.y(it.bound) + MARK + 18 for it, _ in below])
    parts += labels([shown_weight(it) for it in claims], places,
                    [HIGH + 16] * len(claims), "f-muted")
    parts.append(canvas.text("f-ink", LEFT + WIDE / 2, HIGH + 38, 14, "weight", "middle"))
    page.figure(parts, LEFT + WIDE + 16, HIGH + 46)
    swatch = {"cost": lambda x, y, size: [cost_mark(x + size / 2, y + size / 2 + 1)],
              "bound": lambda x, y, size: [bound_mark(x + size / 2, y + size / 2 + 1)]}
    page.legend([(swatch["cost"], 1.2, "cost of the plan"),
                 (swatch["bound"], 1.2, "bound: no plan costs less")])
    return page.svg()

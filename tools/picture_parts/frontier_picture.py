"""How many rows of a certificate are closed and cut by g, as two histograms."""

import os

from . import canvas
from .reading import read_certificate

WIDE, HIGH, LEFT, GAP = 800, 180, 84, 54
BARS = 100


def bins_of(counts, most):
    """The width of a bin, and for each bin that isn't empty its number of rows."""
    width = -(-(most + 1) // BARS)
    bins = {}
    for g, count in counts.items():
        bins[g // width] = bins.get(g // width, 0) + count
    return width, bins


def round_up(value):
    """The least of 1, 2, 5, 10, 20, 50 .. that is at least that."""
    power = 1
    while True:
        for factor in (1, 2, 5):
            if value <= factor * power:
                return factor * power
        power *= 10


def histogram(y, words, bins, width, most, names):
    bar = WIDE / (most // width + 1)
    top = round_up(max(bins.values(), default=1))
    parts = [canvas.text("f-ink", LEFT, y - 10, 14, words, more=' font-weight="bold"')]
    for part in ((0, 0.5, 1) if top % 2 == 0 else (0, 1)):
        level = y + HIGH * (1 - part)
        parts.append(canvas.line("none s-line", [(LEFT, level), (LEFT + WIDE, level)], 1,
                                 ' opacity=".6"' if part else ""))
        parts.append(canvas.text("f-muted", LEFT - 8, level + 5, 13, f"{top * part:,.0f}", "end"))
    for at, count in sorted(bins.items()):
        height = HIGH * count / top
        last = min(at * width + width - 1, most)
        place = f"g {at * width}" if width == 1 else f"g {at * width} to {last}"
        gap = min(1.0, bar * 0.1)
        box = canvas.rect(names, LEFT + at * bar + gap / 2, y + HIGH - height, bar - gap, height,
                          f' data-rows="{count}" data-g="{at * width}"')
        title = f"<title>{place}: {canvas.counted(count, 'row')}</title>"
        parts.append(box.replace("/>", f">{title}</rect>"))
    return parts


def axis(y, width, most):
    bar = WIDE / (most // width + 1)
    parts = []
    step = max(round_up((most + 1) / 10), width)
    for g in range(0, most + 1, step):
        x = LEFT + (g // width + 0.5) * bar
        parts.append(canvas.text("f-muted", x, y + 18, 13, f"{g:,}", "middle"))
    parts.append(canvas.text("f-ink", LEFT + WIDE / 2, y + 38, 14,
                             "g, the cost of a known way from the start", "middle"))
    return parts


def draw_frontier(options):
    closed, cut = {}, {}

    def take(_line, _state, g, is_closed):
        counts = closed if is_closed else cut
        counts[g] = counts.get(g, 0) + 1

    certificate = read_certificate(options.certificate, take)
    most = max([*closed, *cut, 0])
    width, closed_bins = bins_of(closed, most)
    _, cut_bins = bins_of(cut, most)
    page = canvas.Page(LEFT + WIDE + 16, 1.0, options.colours)
    page.title(f"{os.path.basename(options.certificate)}, rows by g")
    claim = "no plan exists" if certificate.plan is None else f"a plan of cost {certificate.cost}"
    num, den = certificate.weight
    page.facts(f"{certificate.kind}, weight {num}/{den}, {claim}."
               + ("" if width == 1 else f" Each bar stands for {width:,} values of g."))
    words = canvas.counted(sum(closed.values()), "closed row")
    parts = histogram(28, words, closed_bins, width, most,
                      "f-closed4 closed")
    second = 28 + HIGH + GAP
    parts += histogram(second, canvas.counted(sum(cut.values()), "cut row"), cut_bins, width, most,
                       "f-cut cut")
    parts += axis(second + HIGH, width, most)
    page.figure(parts, LEFT + WIDE + 16, second + HIGH + 46)
    page.facts("Closed rows were expanded. Cut rows need not be: no "
               + ("" if certificate.plan is None else "cheaper ") + "plan goes through them.")
    return page.svg()

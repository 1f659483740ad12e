"""A page that grows downwards: a title, facts, a figure and a legend, written as SVG."""

import math
import textwrap
from xml.sax.saxutils import escape, quoteattr

from . import colours

FONT = "DejaVu Sans,Verdana,Helvetica,Arial,sans-serif"
MONO = "DejaVu Sans Mono,Menlo,Consolas,monospace"
CHARACTER = 0.64  # the width of a character, over the font's size: no font above is wider


def n(value):
    """A coordinate with at most two decimals."""
    text = f"{value:.2f}".rstrip("0").rstrip(".")
    return "0" if text in ("-0", "") else text


def rect(names, x, y, width, height, more=""):
    return (f'<rect class="{names}" x="{n(x)}" y="{n(y)}" width="{n(width)}" '
            f'height="{n(height)}"{more}/>')


def line(names, points, width, more=""):
    d = "M" + "L".join(f"{n(x)} {n(y)}" for x, y in points)
    return f'<path class="{names}" d="{d}" stroke-width="{n(width)}"{more}/>'


def text(names, x, y, size, words, anchor="start", more=""):
    at = "" if anchor == "start" else f' text-anchor="{anchor}"'
    return (f'<text class="{names}" x="{n(x)}" y="{n(y)}" font-size="{n(size)}"{at}{more}>'
            f"{escape(words)}</text>")


def counted(count, what):
    """`1 step`, `2 steps`."""
    return f"{count:,} {what}" + ("" if count == 1 else "s")


def text_width(words, size):
    return len(words) * size * CHARACTER


def shortened(words, size, width):
    """The words, with a gap in their middle if they are wider than that."""
    most = max(int(width / (size * CHARACTER)), 5)
    if len(words) <= most:
        return words
    return words[: (most - 1) // 2] + "…" + words[len(words) - most // 2 :]


def merged(rows):
    """Runs that lie under one another with the same ends, as rectangles (x, y, width, height)."""
    found, above = [], {}
    for y, runs in rows:
        below = {}
        for run in runs:
            at = above.get(run)
            if at is not None and found[at][1] + found[at][3] == y:
                found[at][3] += 1
            else:
                at = len(found)
                found.append([run[0], y, run[1], 1])
            below[run] = at
        above = below
    return found


def dashed(y, runs):
    """The runs of a row as one stroke with a pattern of dashes: four bytes a run."""
    pattern, end = [], runs[0][0]
    for x, count in runs:
        pattern += [x - end, count] if pattern else [count]
        end = x + count
    dashes = " ".join(map(str, pattern))
    return f'<path d="M{runs[0][0]} {y}.5H{end}" stroke-dasharray="{dashes}"/>'


MANY_RUNS = 30_000


def runs(name, more, rows):
    """Rows of cells that are painted, cells of one row run together; `rows` has (y, [(x, count)]).

    They are filled rectangles, which fit together at any scale. If there are very many, rows of
    more than 16 runs are dashed strokes instead.
    """
    few, parts = rows, []
    if sum(len(found) for _, found in rows) > MANY_RUNS:
        few = [row for row in rows if len(row[1]) <= 16]
        parts = [dashed(y, found) for y, found in rows if len(found) > 16]
    d = "".join(f"M{x} {y}h{width}v{height}h{-width}z" for x, y, width, height in merged(few))
    if parts:
        parts = [f'<g class="s-{name} none {more}" stroke-width="1">', *parts, "</g>"]
    return parts + ([f'<path class="f-{name} {more}" d="{d}"/>'] if d else [])


class Page:
    """What stands below one another; `unit` is how many pixels a pixel of a small page is."""

    def __init__(self, width, unit=1.0, theme="both"):
        self.unit = unit
        self.margin = 16 * unit
        self.width = max(width, 520 * unit) + 2 * self.margin
        self.y = self.margin
        self.theme = theme
        self.parts = []
        self.name = ""
        self.said = []

    def inner(self):
        return self.width - 2 * self.margin

    def title(self, words):
        size = 18 * self.unit
        words = shortened(words, size, self.inner())
        self.name = words
        self.y += size
        self.parts.append(text("f-ink", self.margin, self.y, size, words,
                               more=' font-weight="bold"'))
        self.y += 6 * self.unit

    def facts(self, words, names="f-muted"):
        size = 14 * self.unit
        self.said.append(words)
        for part in textwrap.wrap(words, max(int(self.inner() / (size * CHARACTER)), 8)):
            self.y += size * 1.3
            self.parts.append(text(names, self.margin, self.y, size, part))

    def figure(self, elements, width, height):
        """Puts elements with their own origin, in the middle of the page's width."""
        self.y += 14 * self.unit
        x = self.margin + int(max(self.inner() - width, 0) / 2)
        self.y = float(int(self.y))
        self.parts.append(f'<g transform="translate({n(x)} {n(self.y)})">')
        self.parts += elements
        self.parts.append("</g>")
        self.y += height

    def legend(self, items):
        """Items (swatch, width, words) side by side; a swatch draws itself at (x, y, size)."""
        size = 14 * self.unit
        self.y += 12 * self.unit
        x, row = self.margin, self.y
        for swatch, width, words in items:
            before = (width + 0.5) * size if width else 0
            whole = before + text_width(words, size)
            if x > self.margin and x + whole > self.width - self.margin:
                x, row = self.margin, row + 2 * size
            self.parts += swatch(x, row, size)
            self.parts.append(text("f-ink", x + before, row + size, size, words))
            x += whole + 1.2 * size
        self.y = row + 1.6 * size

    def svg(self):
        width, height = math.ceil(self.width), math.ceil(self.y + self.margin)
        head = (f'<svg xmlns="http://www.w3.org/2000/svg" width="{width}" height="{height}" '
                f'viewBox="0 0 {width} {height}" role="img" aria-label={quoteattr(self.name)} '
                f'font-family="{FONT}">')
        style = colours.style(self.theme) + f".none{{fill:none}}.mono{{font-family:{MONO}}}"
        return "\n".join([
            head, f"<title>{escape(self.name)}</title>",
            f"<desc>{escape('; '.join(self.said))}</desc>", f"<style>{style}</style>",
            rect("f-page", 0, 0, width, height), *self.parts, "</svg>", ""])


def box(fill, stroke="s-line"):
    """A swatch that is a filled box."""
    return lambda x, y, size: [rect(f"{fill} {stroke}", x, y + 0.1 * size, size, size)]

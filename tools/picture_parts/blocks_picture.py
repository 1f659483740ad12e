"""The blocks of a map, with the scopes of some that are leased."""

import os

from . import canvas, colours
from .grid_picture import cell_pixels, land_legend, map_elements
from .reading import Refused, read_grid
from .squares import Squares


def borders(squares, pixels):
    d = []
    for b in range(squares.count):
        x, y, width, height = squares.corner(b)
        x, y, width, height = x * pixels, y * pixels, width * pixels, height * pixels
        d.append(f"M{x} {y}h{width}v{height}h{-width}z")
    thick = canvas.n(max(1.5, pixels / 14))
    return f'<path class="none s-ink blocks" d="{"".join(d)}" stroke-width="{thick}"/>'


def block_numbers(squares, pixels, words, size):
    """A text in the middle of each block that has one, over a small plate of the page's colour."""
    parts = []
    for b, word in sorted(words.items()):
        x, y, width, height = squares.corner(b)
        cx, cy = (x + width / 2) * pixels, (y + height / 2) * pixels
        wide = canvas.text_width(word, size) + 0.5 * size
        if wide > width * pixels or 1.5 * size > height * pixels:
            continue
        parts.append(canvas.rect("f-page", cx - wide / 2, cy - 0.72 * size, wide, 1.44 * size,
                                 f' rx="{canvas.n(0.3 * size)}"'))
        parts.append(canvas.text("f-ink", cx, cy + 0.36 * size, size, word, "middle"))
    return parts


def filled(squares, pixels, b, names, more=""):
    x, y, width, height = squares.corner(b)
    return canvas.rect(names, x * pixels, y * pixels, width * pixels, height * pixels, more)


def barred(squares, pixels, leased):
    """Crosses on the blocks that may not be leased now, as their scopes meet a leased one."""
    parts = []
    for b in range(squares.count):
        if b not in leased and any(squares.interferes(b, other) for other in leased):
            x, y, width, height = (v * pixels for v in squares.corner(b))
            r = min(width, height) * 0.14
            cx, cy = x + width - 1.5 * r, y + 1.5 * r
            d = f"M{canvas.n(cx - r)} {canvas.n(cy - r)}l{canvas.n(2 * r)} {canvas.n(2 * r)}"
            d += f"m0 {canvas.n(-2 * r)}l{canvas.n(-2 * r)} {canvas.n(2 * r)}"
            for names, wide in (("s-page", r * 0.9), ("s-mark barred", r * 0.4)):
                stroke = f'stroke-width="{canvas.n(wide)}"'
                parts.append(f'<path class="none {names}" d="{d}" {stroke}/>')
    return parts


def cross_swatch(x, y, size):
    d = f"M{canvas.n(x + 0.15 * size)} {canvas.n(y + 0.25 * size)}l{canvas.n(0.7 * size)} "
    d += f"{canvas.n(0.7 * size)}m0 {canvas.n(-0.7 * size)}l{canvas.n(-0.7 * size)} "
    d += canvas.n(0.7 * size)
    return [f'<path class="none s-mark" d="{d}" stroke-width="{canvas.n(0.16 * size)}"/>']


def scope_swatch(x, y, size):
    return [canvas.rect("f-worker0", x, y + 0.1 * size, size, size, ' opacity=".4"'),
            canvas.rect("none s-worker0", x, y + 0.1 * size, size, size)]


def test_leases(squares, leased):
    for at, b in enumerate(leased):
        if b >= squares.count:
            raise Refused("--lease", "", f"there are {squares.count} blocks, and no block {b}")
        for other in leased[:at]:
            if squares.scopes[b] & squares.scopes[other]:
                raise Refused("--lease", "", f"the scopes of the blocks {other} and {b} meet")


def draw_blocks(options):
    grid = read_grid(options.map, options.scenario, options.row)
    squares = Squares(grid, options.blocks)
    leased = options.lease
    test_leases(squares, leased)
    pixels = cell_pixels(grid)
    width, height = grid.width * pixels, grid.height * pixels
    page = canvas.Page(width, max(1.0, max(width, height) / 900), options.colours)
    page.title(f"The blocks of {os.path.basename(options.map)}")
    page.facts(f"{squares.count:,} blocks of at most {squares.side} by {squares.side} cells"
               + (f"; {len(leased)} of them leased." if leased else "."))
    elements = map_elements(grid, pixels)
    for at, b in enumerate(leased):
        worker = at % colours.WORKERS
        elements += [filled(squares, pixels, other, f"f-worker{worker} scope",
                            f' opacity="{".75" if other == b else ".35"}"')
                     for other in sorted(squares.scopes[b])]
    elements.append(borders(squares, pixels))
    size = max(12 * page.unit, min(16 * page.unit, squares.side * pixels * 0.3))
    elements += block_numbers(squares, pixels, {b: str(b) for b in range(squares.count)}, size)
    elements += barred(squares, pixels, leased)
    page.figure(elements, width, height)
    items = land_legend(grid)
    if leased:
        items += [(canvas.box("f-worker0", "s-worker0"), 1, "leased block"),
                  (scope_swatch, 1, "its scope"),
                  (cross_swatch, 1, "may not be leased now: its scope meets a leased one")]
    page.legend(items)
    return page.svg()

"""Pictures of maps: a plan with the rows of a certificate, and the blocks with their scopes."""

import os
import re
from array import array

from . import canvas, colours
from .canvas import counted
from .reading import GRID_MOVES, Refused, read_certificate, read_grid, read_report

FIGURE = 900  # about the longer side of a map's figure, in pixels


class Rows:
    """The rows of a certificate by cell: g, or -1, and whether the row is closed."""

    def __init__(self, grid, name):
        self.grid = grid
        self.g = array("q", [-1]) * (grid.width * grid.height)
        self.is_closed = bytearray(grid.width * grid.height)
        self.closed = self.cut = 0
        self.name = name
        self.most = 0
        kind = read_certificate(name, self.take).kind
        if kind != "grid":
            raise Refused(name, "line 2", f"the certificate is of the kind {kind}")

    def take(self, at, state, g, is_closed):
        x, y = state & 2047, (state >> 11) & 2047
        if state >> 22 or not self.grid.has(x, y) or self.grid.rows[y][x] == ord("@"):
            raise Refused(self.name, f"line {at}", "no land or water cell of the map")
        place = y * self.grid.width + x
        self.g[place] = g
        if is_closed:
            self.closed += 1
            self.is_closed[place] = 1
            self.most = max(self.most, g)
        else:
            self.cut += 1


def cell_pixels(grid):
    return max(1, min(40, round(FIGURE / max(grid.width, grid.height))))


def map_runs(rows, byte):
    form = re.compile(re.escape(byte) + b"+")
    return [(y, [(m.start(), m.end() - m.start()) for m in form.finditer(row)])
            for y, row in enumerate(rows)]


def shade_count(rows):
    return min(colours.SHADES, rows.most + 1)


def shade(rows, g):
    """The shade of a closed row, 0 to 7: the lesser g the lesser. The last shade is always 7."""
    count = shade_count(rows)
    step = g * count // (rows.most + 1)
    return step if count == 1 else step * (colours.SHADES - 1) // (count - 1)


def closed_runs(grid, rows):
    """For each shade the runs of its cells. A run may go on below blocked cells, which are painted
    afterwards, so that few runs are needed."""
    found = [[] for _ in range(colours.SHADES)]
    forms = [re.compile(b"%d+(?:@+%d+)*" % (k, k)) for k in range(colours.SHADES)]
    for y, row in enumerate(grid.rows):
        base = y * grid.width
        cells = bytearray(row)
        for x in range(grid.width):
            if rows.is_closed[base + x]:
                cells[x] = ord("0") + shade(rows, rows.g[base + x])
        for k, form in enumerate(forms):
            runs = [(m.start(), m.end() - m.start()) for m in form.finditer(cells)]
            found[k].append((y, runs))
    return found


def cut_cells(rows):
    width = rows.grid.width
    return [(place % width, place // width) for place, g in enumerate(rows.g)
            if g >= 0 and not rows.is_closed[place]]


def cut_elements(rows, pixels):
    """Outlines inside the cut cells; below 4 pixels a cell the cells are filled instead."""
    cells = cut_cells(rows)
    if pixels >= 4:
        d = "".join(f"M{x}.14 {y}.14h.72v.72h-.72z" for x, y in cells)
        return [f'<path class="s-cut none cut" d="{d}" stroke-width=".14"/>'] if d else []
    by_row = {}
    for x, y in cells:
        runs = by_row.setdefault(y, [])
        if runs and sum(runs[-1]) == x:
            runs[-1] = (runs[-1][0], runs[-1][1] + 1)
        else:
            runs.append((x, 1))
    return canvas.runs("cut", "cut", sorted(by_row.items()))


def map_elements(grid, pixels, rows=None):
    """The map in cells as units, from the land upwards to the blocked cells."""
    crisp = ' shape-rendering="crispEdges"'
    parts = [f'<g transform="scale({pixels})"{crisp}>',
             canvas.rect("f-land", 0, 0, grid.width, grid.height)]
    parts += canvas.runs("water", "water", map_runs(grid.rows, b"W"))
    parts += canvas.runs("swamp", "swamp", map_runs(grid.swamp, b"S"))
    if rows:
        for k, runs in enumerate(closed_runs(grid, rows)):
            parts += canvas.runs(f"closed{k}", "closed", runs)
    parts += canvas.runs("blocked", "blocked", map_runs(grid.rows, b"@"))
    parts += swamp_strokes(grid, pixels) if rows else []
    parts.append("</g>")
    if pixels >= 10:
        parts.append(water_waves(grid, pixels, rows))
        parts += grid_lines(grid, pixels)
    if rows:
        parts.append(f'<g transform="scale({pixels})">')
        parts += cut_elements(rows, pixels)
        parts.append("</g>")
    parts.append(canvas.rect("none s-line", 0, 0, grid.width * pixels, grid.height * pixels,
                             f' stroke-width="{max(1, pixels // 16)}"'))
    return parts


def water_waves(grid, pixels, rows):
    """A wave in each water cell that no row covers, so that water isn't told by colour alone."""
    wave = f"q{canvas.n(pixels * 0.15)} {canvas.n(-pixels * 0.2)} {canvas.n(pixels * 0.3)} 0"
    more = f"t{canvas.n(pixels * 0.3)} 0"
    d = []
    for y, row in enumerate(grid.rows):
        for x, byte in enumerate(row):
            if byte == ord("W") and not (rows and rows.g[y * grid.width + x] >= 0):
                place = f"{canvas.n((x + 0.2) * pixels)} {canvas.n((y + 0.5) * pixels)}"
                d.append(f"M{place}{wave}{more}")
    width = canvas.n(max(1.2, pixels / 16))
    return f'<path class="none s-land" d="{"".join(d)}" stroke-width="{width}"/>' if d else ""


def swamp_strokes(grid, pixels):
    """A stroke along the lower edge of each cell of swamp, which is seen where a row covers it."""
    runs = [(x, y, count) for y, found in map_runs(grid.swamp, b"S") for x, count in found]
    if not runs:
        return []
    d = "".join(f"M{x} {y}.86h{count}" for x, y, count in runs)
    dash = ' stroke-dasharray=".12 .08"' if pixels >= 10 else ""
    return [f'<path class="s-swamp none reeds" d="{d}" stroke-width=".24"{dash}/>']


def grid_lines(grid, pixels):
    d = [f"M{x * pixels} 0v{grid.height * pixels}" for x in range(1, grid.width)]
    d += [f"M0 {y * pixels}h{grid.width * pixels}" for y in range(1, grid.height)]
    if not d:
        return []
    return [f'<path class="none s-line" d="{"".join(d)}" stroke-width="1" opacity=".45" '
            'shape-rendering="crispEdges"/>']


def numbers(rows, pixels, on_plan):
    """The g of each row as text in its cell, if it fits and no plan runs over it."""
    size = pixels * 0.38
    if size < 11 or rows.closed + rows.cut > 2000:
        return []
    parts = []
    width = rows.grid.width
    for place, g in enumerate(rows.g):
        cell = (place % width, place // width)
        if g < 0 or cell in on_plan or canvas.text_width(str(g), size) > pixels * 0.72:
            continue
        names = "t-water" if rows.grid.rows[cell[1]][cell[0]] == ord("W") else "f-ink"
        if rows.grid.swamp and rows.grid.swamp[cell[1]][cell[0]] == ord("S"):
            names = "t-swamp"
        if rows.is_closed[place]:
            names = f"t-closed{shade(rows, g)}"
        parts.append(canvas.text(names, (cell[0] + 0.5) * pixels,
                                 (cell[1] + 0.5) * pixels + size * 0.36, size, str(g), "middle"))
    return parts


def plan_cells(grid, report, name):
    """The cells along the plan; a step that isn't applicable, or no goal at the end, is refused."""
    cell, cells = grid.start, [grid.start]
    for at, step in enumerate(report.steps or []):
        cell = grid.step(cell, step)
        if cell is None:
            raise Refused(name, f"line {report.first + at}", f"`{step}` isn't applicable there")
        cells.append(cell)
    if report.steps is not None and cell != grid.goal:
        line = report.first + len(cells) - 1
        raise Refused(name, f"line {line}", "the steps don't lead to the goal")
    return cells


def plan_elements(cells, pixels, unit):
    corners = [cells[0]]
    for at in range(1, len(cells)):
        ahead = cells[at + 1] if at + 1 < len(cells) else None
        x, y = cells[at]
        before = cells[at - 1]
        if ahead is None or (ahead[0] - x, ahead[1] - y) != (x - before[0], y - before[1]):
            corners.append(cells[at])
    points = [((x + 0.5) * pixels, (y + 0.5) * pixels) for x, y in corners]
    width = max(pixels * 0.14, 2 * unit)
    join = ' stroke-linejoin="round" stroke-linecap="round"'
    return [canvas.line("none s-casing", points, width * 2.2, join),
            canvas.line("none s-plan plan", points, width, join)]


def start_mark(x, y, r):
    return [f'<circle class="f-casing s-plan start" cx="{canvas.n(x)}" cy="{canvas.n(y)}" '
            f'r="{canvas.n(r * 0.8)}" stroke-width="{canvas.n(r * 0.4)}"/>']


def goal_mark(x, y, r):
    side, back = canvas.n(r), canvas.n(-r)
    d = f"M{canvas.n(x)} {canvas.n(y - r)}l{side} {side} {back} {side} {back} {back}z"
    return [f'<path class="f-plan s-casing goal" d="{d}" stroke-width="{canvas.n(r * 0.3)}"/>']


def marks(grid, pixels, unit):
    radius = max(pixels * 0.34, 7 * unit)
    centres = [((x + 0.5) * pixels, (y + 0.5) * pixels) for x, y in (grid.start, grid.goal)]
    return start_mark(*centres[0], radius) + goal_mark(*centres[1], radius * 0.9)


def swatch_of(draw):
    return lambda x, y, size: draw(x + 0.5 * size, y + 0.6 * size, 0.5 * size)


def plan_swatch(x, y, size):
    points = [(x, y + 0.6 * size), (x + 1.6 * size, y + 0.6 * size)]
    return [canvas.line("s-plan", points, 0.22 * size)]


def cut_swatch(x, y, size):
    return [canvas.rect("f-land s-cut", x + 0.06 * size, y + 0.16 * size, 0.88 * size, 0.88 * size,
                        f' stroke-width="{canvas.n(0.14 * size)}"')]


def scale_swatch(rows):
    count = shade_count(rows)
    used = [shade(rows, -(-i * (rows.most + 1) // count)) for i in range(count)]

    def draw(x, y, size):
        return [canvas.rect(f"f-closed{k}", x + i * 0.7 * size, y + 0.1 * size, 0.7 * size, size)
                for i, k in enumerate(used)]
    return draw, 0.7 * len(used)


def has_byte(rows, byte):
    return any(byte in row for row in rows)


def land_legend(grid):
    items = [(canvas.box("f-land"), 1, "land")]
    if has_byte(grid.rows, b"W"):
        items.append((canvas.box("f-water"), 1, "water"))
    if has_byte(grid.swamp, b"S"):
        items.append((canvas.box("f-swamp"), 1, "swamp, which costs 2 to enter"))
    if has_byte(grid.rows, b"@"):
        items.append((canvas.box("f-blocked"), 1, "blocked"))
    return items


def draw_plan(options):
    grid = read_grid(options.map, options.scenario, options.row, options.swamp)
    report = read_report(options.report, lambda step: step in GRID_MOVES)
    cells = plan_cells(grid, report, options.report)
    rows = Rows(grid, options.certificate) if options.certificate else None
    pixels = cell_pixels(grid)
    width, height = grid.width * pixels, grid.height * pixels
    unit = max(1.0, max(width, height) / 900)
    page = canvas.Page(width, unit, options.colours)
    page.title(f"{os.path.basename(options.map)}, row {options.row}")
    page.facts(report.headline()[0].upper() + report.headline()[1:] + ".")
    if rows:
        page.facts(f"Certificate: {counted(rows.closed, 'closed row')}, "
                   f"{counted(rows.cut, 'cut row')}.")
    elements = map_elements(grid, pixels, rows)
    if rows:
        elements += numbers(rows, pixels, set(cells))
    if report.steps:
        elements += plan_elements(cells, pixels, unit)
    page.figure(elements + marks(grid, pixels, unit), width, height)
    items = [(swatch_of(start_mark), 1, "start"), (swatch_of(goal_mark), 1, "goal")]
    if report.steps:
        items.append((plan_swatch, 1.6, f"plan, {counted(len(report.steps), 'step')}"))
    items += land_legend(grid)
    if rows:
        if rows.closed:
            items.append((*scale_swatch(rows), f"closed, by g from 0 to {rows.most:,}"))
        if rows.cut:
            items.append((cut_swatch, 1, "cut"))
    page.legend(items)
    return page.svg()

"""What the workers did: a lane for each, its leases as bars over the events of the journal."""

import os

from . import canvas, colours
from .blocks_picture import block_numbers, borders
from .canvas import counted
from .grid_picture import cell_pixels, land_legend, map_elements
from .reading import Refused, read_grid, read_journal
from .squares import Squares

EVENT, LANE, LEFT, BAR = 20.0, 44, 92, 22
ACROSS = 56  # events side by side, before the lanes go on below
BANDS, TALLEST = 16, 16000  # how many bands there are at most, and their height in pixels


class Held:
    """A lease from its event to its release, or to the journal's end."""

    def __init__(self, worker, block, first):
        self.worker = worker
        self.block = block
        self.first = self.last = first
        self.used = 0
        self.renewals = []


def leases_of(journal):
    """All leases in order of their events, and the hot marks and coolings as (at, event)."""
    held, leases, marks = {}, [], []
    for at, event in enumerate(journal.events):
        kind = event[0]
        if kind == "lease":
            held[event[1]] = Held(event[1], event[2], at)
            leases.append(held[event[1]])
        elif kind == "renew":
            held[event[1]].renewals.append(at)
            held[event[1]].used += event[2]
        elif kind == "release":
            lease = held.pop(event[1])
            lease.used += event[2]
            lease.last = at
        elif kind in ("hot", "cold"):
            marks.append((at, event))
    for lease in held.values():
        lease.last = len(journal.events) - 1
    return leases, marks


class Lanes:
    """The places of the events: bands of lanes, one below the other."""

    def __init__(self, events, workers):
        self.workers = workers
        self.band_height = workers * LANE + 54
        most = max(1, min(BANDS, TALLEST // self.band_height))
        widest = max(ACROSS, -(-events // most))
        self.pixels = EVENT * ACROSS / widest
        self.bands = -(-events // widest)
        self.across = -(-events // self.bands)
        self.used = min(events, self.across)
        self.width = LEFT + self.used * self.pixels + 12
        self.height = self.bands * self.band_height

    def x(self, at):
        return LEFT + at % self.across * self.pixels

    def y(self, at, worker):
        return at // self.across * self.band_height + worker * LANE + 22


def bar_elements(lanes, lease, pieces):
    """The bar of a lease, in as many pieces as bands that it goes through."""
    names = f"worker{lease.worker % colours.WORKERS}"
    words = [f"block {lease.block} · {lease.used}", f"{lease.block} · {lease.used}",
             f"{lease.block}"]
    parts = [f'<g class="lease" data-block="{lease.block}" data-used="{lease.used}">']
    longest = max(pieces, key=lambda piece: piece[1] - piece[0])
    for start, end in pieces:
        x, y = lanes.x(start), lanes.y(start, lease.worker)
        width = lanes.x(end) + lanes.pixels - x
        parts.append(canvas.rect(f"f-{names} bar", x + 0.5, y, max(width - 1, 0.3), BAR, ' rx="2"'))
        fit = next((w for w in words if canvas.text_width(w, 12) <= width - 4), None)
        if fit and (start, end) == longest:
            parts.append(canvas.text(f"t-{names}", x + width / 2, y + 15.5, 12, fit, "middle"))
    parts.append(f"<title>worker {lease.worker}, block {lease.block}, {lease.used} expansions, "
                 f"events {lease.first} to {lease.last}</title></g>")
    for at in lease.renewals:
        x, y = lanes.x(at) + lanes.pixels / 2, lanes.y(at, lease.worker)
        parts.append(canvas.line("s-ink renewal", [(x, y + BAR), (x, y + BAR + 7)], 2))
    return parts


def pieces_of(lanes, lease):
    pieces, at = [], lease.first
    while at <= lease.last:
        end = min(lease.last, (at // lanes.across + 1) * lanes.across - 1)
        pieces.append((at, end))
        at = end + 1
    return pieces


def sign(x, y, size, kind):
    """A hot mark is a triangle upwards, a cooling one downwards; both stand above the bar."""
    tip = -size if kind == "hot" else size
    d = f"M{canvas.n(x - size * 0.7)} {canvas.n(y - tip / 2)}h{canvas.n(size * 1.4)}"
    d += f"l{canvas.n(-size * 0.7)} {canvas.n(tip)}z"
    names = "f-mark" if kind == "hot" else "f-page s-mark"
    return f'<path class="{names} {kind}" d="{d}" stroke-width="1.6"'


def mark_elements(lanes, marks):
    parts = []
    for at, event in marks:
        x, y = lanes.x(at) + lanes.pixels / 2, lanes.y(at, event[1]) - 9
        words = " ".join(map(str, event))
        parts.append(sign(x, y, 9, event[0]) + f"><title>{words}</title></path>")
    return parts


def end_elements(lanes, journal):
    """A line through all lanes for the end, and a square in the lane of each worker's sign-off."""
    parts = []
    for at, event in enumerate(journal.events):
        x = lanes.x(at) + lanes.pixels / 2
        if event[0] == "end":
            top = lanes.y(at, 0) - 14
            bottom = lanes.y(at, lanes.workers - 1) + BAR + 8
            parts.append(canvas.line("s-ink end", [(x, top), (x, bottom)], 2.5))
        elif event[0] == "off":
            half = min(lanes.pixels * 0.35, 6)
            parts.append(canvas.rect("f-ink off", x - half, lanes.y(at, event[1]) + BAR / 2 - half,
                                     2 * half, 2 * half))
    return parts


def lane_frame(lanes, events):
    parts = []
    for band in range(lanes.bands):
        first = band * lanes.across
        count = min(lanes.across, events - first)
        for worker in range(lanes.workers):
            y = lanes.y(first, worker)
            parts.append(canvas.text("f-ink", 0, y + 16, 14, f"worker {worker}"))
            ends = [(LEFT, y + BAR), (LEFT + count * lanes.pixels, y + BAR)]
            parts.append(canvas.line("s-line", ends, 1, ' opacity=".7"'))
        y = lanes.y(first, lanes.workers - 1) + BAR + 22
        step = 10 if lanes.pixels >= 6 else 10 ** len(str(int(50 / lanes.pixels)))
        for at in range(first - first % -step, first + count, step):
            parts.append(canvas.text("f-muted", lanes.x(at) + lanes.pixels / 2, y, 12, f"{at:,}",
                                     "middle"))
    return parts


COLUMNS, LINE = 1000, 8  # of the overview: how many columns at most, and a worker's height


def held_columns(events, leases, workers):
    """For each worker the columns of the overview in which it has a lease for half of the events
    or more; and how many columns there are, each of about as many events."""
    columns = min(COLUMNS, events)
    counts = [[0] * columns for _ in range(workers)]
    for lease in leases:
        for at in range(lease.first, lease.last + 1):
            counts[lease.worker][at * columns // events] += 1
    wide = [0] * columns
    for at in range(events):
        wide[at * columns // events] += 1
    return [[k for k in range(columns) if 2 * row[k] >= wide[k]] for row in counts], columns


def overview_elements(lanes, events, leases):
    """A thin line a worker over the whole journal, filled while it has a lease."""
    held, columns = held_columns(events, leases, lanes.workers)
    width = (lanes.used * lanes.pixels) / columns
    parts = [canvas.text("f-ink", 0, lanes.workers * LINE / 2 + 5, 14, "all events")]
    for worker, places in enumerate(held):
        y, d, runs = worker * LINE, [], []
        for place in places:
            if runs and runs[-1][1] == place:
                runs[-1][1] = place + 1
            else:
                runs.append([place, place + 1])
        for first, end in runs:
            x, wide = canvas.n(LEFT + first * width), canvas.n((end - first) * width)
            d.append(f"M{x} {y + 1}h{wide}v{LINE - 2}h-{wide}z")
        ends = [(LEFT, y + LINE / 2), (LEFT + columns * width, y + LINE / 2)]
        parts.append(canvas.line("s-line", ends, 1, ' opacity=".7"'))
        parts.append(f'<path class="f-worker{worker % colours.WORKERS} overview" '
                     f'data-columns="{len(places)}" d="{"".join(d)}"/>')
    return parts


def leased_by(leases, squares, name):
    """For each block how often each worker leased it."""
    found = {}
    for lease in leases:
        if lease.block >= squares.count:
            raise Refused(name, f"line {lease.first + 7}",
                          f"there are {squares.count} blocks, and no block {lease.block}")
        counts = found.setdefault(lease.block, {})
        counts[lease.worker] = counts.get(lease.worker, 0) + 1
    return found


def block_fills(squares, pixels, found):
    """Each block filled from below, the higher the oftener it was leased, in stripes by worker."""
    most = max((sum(counts.values()) for counts in found.values()), default=1)
    parts = []
    for b, counts in sorted(found.items()):
        x, y, width, height = (v * pixels for v in squares.corner(b))
        total = sum(counts.values())
        fill = height * (0.25 + 0.75 * total / most)
        parts.append(f'<g class="leased" data-block="{b}" data-leases="{total}" opacity=".8">')
        left = float(x)
        for worker, count in sorted(counts.items()):
            wide = width * count / total
            parts.append(canvas.rect(f"f-worker{worker % colours.WORKERS}", left, y + height - fill,
                                     wide, fill))
            left += wide
        parts.append("</g>")
    return parts


def map_figure(page, grid, options, journal, leases):
    squares = Squares(grid, journal.settings["blocks"])
    found = leased_by(leases, squares, options.journal)
    pixels = cell_pixels(grid)
    page.facts(f"Below: {squares.count:,} blocks of {os.path.basename(options.map[0])}, of which "
               f"{len(found):,} were leased. A block is filled the higher the oftener it was "
               "leased, with a stripe for each worker and the number of its leases.")
    size = max(12 * page.unit, min(15 * page.unit, squares.side * pixels * 0.3))
    words = {b: str(sum(counts.values())) for b, counts in found.items()}
    elements = map_elements(grid, pixels) + block_fills(squares, pixels, found)
    elements += [borders(squares, pixels), *block_numbers(squares, pixels, words, size)]
    page.figure(elements, grid.width * pixels, grid.height * pixels)


def worker_legend(leases):
    """The workers' colours; a ninth worker has the first one's again."""
    workers = sorted({lease.worker for lease in leases})
    names = {}
    for worker in workers:
        names.setdefault(worker % colours.WORKERS, []).append(str(worker))
    return [(canvas.box(f"f-worker{k}"), 1, f"worker {', '.join(those)}")
            for k, those in names.items()]


LEGEND = (
    (lambda x, y, s: [canvas.rect("f-worker0", x, y + 0.1 * s, 1.6 * s, s, ' rx="2"')], 1.6,
     "lease: block · expansions"),
    (lambda x, y, s: [canvas.line("s-ink", [(x + s / 2, y), (x + s / 2, y + s)], 2)], 1, "renewal"),
    (lambda x, y, s: [sign(x + s / 2, y + s * 0.6, 9, "hot") + "/>"], 1, "hot mark"),
    (lambda x, y, s: [sign(x + s / 2, y + s * 0.6, 9, "cold") + "/>"], 1, "cooling"),
    (lambda x, y, s: [canvas.line("s-ink", [(x + s / 2, y), (x + s / 2, y + 1.2 * s)], 2.5)], 1,
     "end"),
    (lambda x, y, s: [canvas.rect("f-ink", x + s * 0.1, y + s * 0.2, s * 0.8, s * 0.8)], 1,
     "sign-off"),
    (lambda x, y, s: [], 0, "below the lanes: numbers of events"),
)


def draw_journal(options):
    journal = read_journal(options.journal)
    leases, marks = leases_of(journal)
    settings = journal.settings
    lanes = Lanes(len(journal.events), settings["workers"])
    grid = read_grid(*options.map, options.row) if options.map else None
    width = max(lanes.width, grid.width * cell_pixels(grid) if grid else 0)
    page = canvas.Page(width, 1.0, options.colours)
    page.title(os.path.basename(options.journal))
    used = sum(lease.used for lease in leases)
    renewals = sum(len(lease.renewals) for lease in leases)
    end = next(event[1] for event in journal.events if event[0] == "end")
    hot = sum(event[0] == "hot" for _, event in marks)
    facts = [counted(len(leases), "lease"), counted(renewals, "renewal"),
             counted(hot, "hot mark"), counted(len(marks) - hot, "cooling"),
             counted(used, "expansion")]
    whole = [counted(settings["workers"], "worker"), counted(len(journal.events), "event")]
    page.facts(f"{', '.join(whole)}: {', '.join(facts)}; end: {end}.")
    parts = lane_frame(lanes, len(journal.events)) + end_elements(lanes, journal)
    for lease in leases:
        parts += bar_elements(lanes, lease, pieces_of(lanes, lease))
    parts += mark_elements(lanes, marks)
    if lanes.bands > 1:
        overview = overview_elements(lanes, len(journal.events), leases)
        page.figure(overview, lanes.width, settings["workers"] * LINE)
    page.figure(parts, lanes.width, lanes.height)
    items = list(LEGEND)
    if grid:
        page.legend(items)
        map_figure(page, grid, options, journal, leases)
        items = worker_legend(leases) + land_legend(grid)
    page.legend(items)
    return page.svg()

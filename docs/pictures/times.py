"""Times of calls against the Rust's over 1,000, 10,000 and 100,000 held: a panel for each call, read from the last table of docs/BENCHMARKS.md."""
import math
import re

from svg import FAINT, INK, drawing, line, path, tag, text

# What a panel says, and the call of its rows in the table, one for each size.
PANELS = [
    ("sum", r"sum"),
    ("sweep", r"sweep"),
    ("failed", r"failed"),
    ("forget, eight candidates", r"forget, eight candidates"),
    ("announce_transactions, 1", r"announce_transactions, 1 with room"),
    ("announce_transactions, 100", r"announce_transactions, 100 with room"),
    ("solicit_package_info", r"solicit_package_info, .*"),
    ("transaction_not_found, 1,000", r"transaction_not_found, 1,000 items, .*"),
    ("disconnected, nothing owned", r"disconnected, [\d,]+ announcements, 0 owned, 0 with package info"),
    ("disconnected, 100 packages", r"disconnected, .*, 100 with package info"),
    ("claim of a whole plan", r"claim of a plan of .*"),
    ("teardown_package_claims", r"teardown_package_claims, .*"),
    ("plan, none ready", r"plan, none ready, .*"),
    ("plan, all ready", r"plan, all ready, 0 owners late, .*"),
    ("plan, 12 late with parents", r"plan, all ready, 12 owners late, 100 parents each: .*"),
    ("plan, 250 or 1,000 late, parents", r"plan, all ready, (250|1,000) owners late, 100 parents each: .*"),
]
SIDES = [("the Rust", "#666666", "5 3"), ("checked call", "#1763a6", "none"), ("owned call", "#c8590b", "none")]
HELD = ["1,000", "10,000", "100,000"]
DECADES = range(-1, 8)  # of microseconds: 0.1 µs to 10 s
NAMED = {0: "1 µs", 3: "1 ms", 6: "1 s"}
COLUMNS, WIDTH, HEIGHT, LEFT, TOP, GAP, TITLE = 4, 190, 130, 62, 64, 24, 22


def measured(paper):
    """{L: [(call, times of the three sides)]}"""
    table = paper[paper.index("## The other calls"):]
    rows = re.findall(r"^\| ([\d,]+) \| [\d,]+ \| ([^|]+) \| ([\d,.]+) \| ([\d,.]+) \| ([\d,.]+) \|$", table, re.M)
    found = {}
    for held, call, *times in rows:
        found.setdefault(held, []).append((call, [float(time.replace(",", "")) for time in times]))
    return found


def panel_times(found, wanted):
    """The three times of the panel's row, for each size."""
    picked = []
    for held in HELD:
        fits = [times for call, times in found.get(held, []) if re.fullmatch(wanted, call)]
        if len(fits) != 1:
            raise SystemExit(f"docs/BENCHMARKS.md has {len(fits)} rows of {wanted} at L = {held}, not one")
        picked += fits
    return picked


def mark(side, x, y, colour):
    if side == 0:
        return tag("rect", x=x - 3, y=y - 3, width=6, height=6, fill=colour)
    if side == 1:
        return tag("circle", cx=x, cy=y, r=3.5, fill=colour)
    return tag("path", d=f"M{x:g} {y - 4:g} L{x + 4:g} {y + 3.5:g} L{x - 4:g} {y + 3.5:g} Z", fill=colour)


def curve(side, points):
    _, colour, dashes = SIDES[side]
    d = "M" + " L".join(f"{x:g} {y:g}" for x, y in points)
    return [path(d, colour, 1.8, stroke_dasharray=dashes), *(mark(side, x, y, colour) for x, y in points)]


def panel(number, title, times):
    left = LEFT + number % COLUMNS * (WIDTH + GAP)
    top = TOP + number // COLUMNS * (HEIGHT + TITLE + 36) + TITLE

    def height(time):
        return round(top + HEIGHT - (math.log10(time) - DECADES[0]) / (DECADES[-1] - DECADES[0]) * HEIGHT, 1)

    def across(i):
        return left + 24 + i * (WIDTH - 48) / 2

    shapes = [text(left, top - 8, title, 12, weight="bold")]
    for decade in DECADES:
        shapes.append(line(left, height(10.0**decade), left + WIDTH, height(10.0**decade), "#9a9a9a" if decade in NAMED else FAINT))
        if decade in NAMED and number % COLUMNS == 0:
            shapes.append(text(left - 6, height(10.0**decade) + 4, NAMED[decade], 11, "end"))
    for i, held in enumerate(HELD):
        shapes.append(text(across(i), top + HEIGHT + 15, held, 11, "middle"))
    for side in range(3):
        shapes += curve(side, [(round(across(i), 1), height(times[i][side])) for i in range(3)])
    return shapes


def legend():
    shapes = [text(LEFT, 22, "Time of one call at L = 1,000, 10,000 and 100,000, filled as the table says; both scales are logarithmic", 15, weight="bold")]
    for side, (name, colour, dashes) in enumerate(SIDES):
        x = LEFT + side * 150
        shapes += [path(f"M{x} 44 L{x + 36} 44", colour, 1.8, stroke_dasharray=dashes), mark(side, x + 18, 44, colour), text(x + 44, 48, name, 13, colour=INK)]
    return shapes


def drawn(read):
    found = measured(read("docs/BENCHMARKS.md"))
    shapes = legend()
    for number, (title, wanted) in enumerate(PANELS):
        shapes += panel(number, title, panel_times(found, wanted))
    rows = (len(PANELS) + COLUMNS - 1) // COLUMNS
    return drawing(LEFT + COLUMNS * (WIDTH + GAP), TOP + rows * (HEIGHT + TITLE + 36) - 8, "Times of calls beside the Rust's", shapes)

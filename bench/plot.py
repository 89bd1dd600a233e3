"""Draws time against number of clauses from the figures that the bench left, one SVG for each arity; standard library only.
usage: python3 bench/plot.py TIMES.csv FOLDER"""
import csv
import math
import sys

SIDES = {"ours": ("Podrulka", "#0060a8", "circle"), "rust": ("the original Rust", "#d1495b", "square"),
         "every": ("trying every rule, no index", "#5b8c2a", "triangle")}
COLUMNS = {"build": "build", "first": "first calls (expanding)", "later": "later calls"}
ROWS = {"few": "few keys", "many": "many keys"}
CLAUSES = (16, 64, 256, 1024)
LOW, HIGH = 1, 7  # decades of nanoseconds
WIDTH, LEFT, TOP, PANEL_W, PANEL_H, GAP_X, GAP_Y = 1010, 88, 126, 284, 236, 22, 58
HEIGHT = TOP + 2 * PANEL_H + GAP_Y + 62
TEXT = 'font-family="Helvetica, Arial, sans-serif"'


def text(x, y, words, size=13, anchor="middle", colour="#222222", more=""):
    return f'<text x="{x:.1f}" y="{y:.1f}" font-size="{size}" text-anchor="{anchor}" fill="{colour}" {TEXT} {more}>{words}</text>'


def line(x1, y1, x2, y2, colour, width=1.0):
    return f'<line x1="{x1:.1f}" y1="{y1:.1f}" x2="{x2:.1f}" y2="{y2:.1f}" stroke="{colour}" stroke-width="{width}"/>'


def marker(shape, x, y, colour):
    if shape == "circle":
        return f'<circle cx="{x:.1f}" cy="{y:.1f}" r="4.2" fill="{colour}"/>'
    if shape == "square":
        return f'<rect x="{x - 3.8:.1f}" y="{y - 3.8:.1f}" width="7.6" height="7.6" fill="{colour}"/>'
    return f'<path d="M {x:.1f} {y - 5:.1f} l 4.8 8.4 h -9.6 z" fill="{colour}"/>'


def place_x(left, clauses):
    first, last = math.log(CLAUSES[0]), math.log(CLAUSES[-1])
    return left + 24 + (PANEL_W - 48) * (math.log(clauses) - first) / (last - first)


def place_y(top, ns):
    return top + PANEL_H * (HIGH - math.log10(ns)) / (HIGH - LOW)


def decade(d):
    return f"{10 ** (d % 3)} {('ns', 'µs', 'ms')[d // 3]}"


def grid(left, top, names_y):
    """A panel's frame and grid, with the times' names where they are asked for."""
    parts = [f'<rect x="{left}" y="{top}" width="{PANEL_W}" height="{PANEL_H}" fill="#fbfbfb" stroke="#888888"/>']
    for d in range(LOW, HIGH + 1):
        y = place_y(top, 10 ** d)
        parts.append(line(left, y, left + PANEL_W, y, "#dddddd"))
        if names_y:
            parts.append(text(left - 8, y + 4.5, decade(d), anchor="end"))
    for c in CLAUSES:
        x = place_x(left, c)
        parts.append(line(x, top, x, top + PANEL_H, "#eeeeee"))
        parts.append(text(x, top + PANEL_H + 19, f"{c:,}"))
    return parts


def curve(left, top, side, points):
    _, colour, shape = SIDES[side]
    at = [(place_x(left, c), place_y(top, ns)) for c, ns in points]
    path = " ".join(f"{x:.1f},{y:.1f}" for x, y in at)
    return [f'<polyline points="{path}" fill="none" stroke="{colour}" stroke-width="2"/>'] + [marker(shape, x, y, colour) for x, y in at]


def legend():
    parts, x = [], LEFT
    for name, colour, shape in SIDES.values():
        parts += [line(x, 78, x + 34, 78, colour, 2), marker(shape, x + 17, 78, colour), text(x + 42, 82.5, name, anchor="start")]
        x += 76 + 7.4 * len(name)
    return parts


def picture(rows, arity):
    parts = [f'<svg xmlns="http://www.w3.org/2000/svg" width="{WIDTH}" height="{HEIGHT}" viewBox="0 0 {WIDTH} {HEIGHT}">',
             f'<rect width="{WIDTH}" height="{HEIGHT}" fill="white"/>',
             text(LEFT, 30, f"Time per build and per call against number of clauses, arity {arity}", 17, "start"),
             text(LEFT, 54, "Few keys: 8 at each argument. Many keys: one for each clause. Minimum of the rounds.", 13, "start", "#555555")]
    parts += legend()
    for i, (keys, row_name) in enumerate(ROWS.items()):
        top = TOP + i * (PANEL_H + GAP_Y)
        for j, (what, name) in enumerate(COLUMNS.items()):
            left = LEFT + j * (PANEL_W + GAP_X)
            parts += grid(left, top, j == 0)
            parts.append(text(left + PANEL_W / 2, top - 10, f"{name}, {row_name}"))
            for side in SIDES:
                points = [(int(r["clauses"]), float(r["min_ns"])) for r in rows
                          if (int(r["arity"]), r["keys"], r["what"], r["side"]) == (arity, keys, what, side)]
                parts += curve(left, top, side, points) if points else []
    middle = TOP + PANEL_H + GAP_Y / 2
    parts.append(text(22, middle, "time (logarithmic)", 14, more=f'transform="rotate(-90 22 {middle:.1f})"'))
    parts.append(text(LEFT + 1.5 * PANEL_W + GAP_X, HEIGHT - 14, "number of clauses (logarithmic)", 14))
    return "\n".join(parts + ["</svg>", ""])


rows = list(csv.DictReader(open(sys.argv[1])))
for arity in sorted({int(r["arity"]) for r in rows}):
    with open(f"{sys.argv[2]}/time-by-clauses-arity-{arity}.svg", "w") as f:
        f.write(picture(rows, arity))

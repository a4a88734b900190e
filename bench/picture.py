#!/usr/bin/env python3
"""Draws the time of a question against the number of times, port and Rust, from the bench's output.

    python3 bench/picture.py < TABLE > docs/questions.svg

TABLE is what bench/run prints, or a page that has it, as docs/BENCH.md."""
import math
import re
import sys

PANELS = ["select", "delta", "rank", "predecessor", "successor", "search, hit", "search, miss", "walk"]
ROW = re.compile(r"\| record (.+), (\d+) times \| ([\d.]+) \| ([\d.]+) \|")
COLUMNS, WIDTH, HEIGHT = 4, 230, 190
LEFT, TOP, RIGHT, BOTTOM = 38, 34, 20, 34
SIDES = [("Rust", "#8a8f98", "5 3"), ("port", "#0b6e8f", "none")]


def read(text):
    """The nanoseconds of both sides, by question and number of times, from the tables beside the Rust; the last row of a name counts."""
    rows = {}
    for table in text.split("| what | ")[1:]:
        if not table.startswith("Rust"):
            continue
        for question, times, rust, port in ROW.findall(table):
            rows.setdefault(question, {})[int(times)] = (float(rust), float(port))
    return rows


def nice(top):
    """A round step that divides the axis into two to five parts."""
    step = 10 ** math.floor(math.log10(top))
    return next(s for s in (step / 5, step / 2, step, 2 * step) if top / s <= 5)


def short(n):
    """1000 as 1 k, 16777216 as 16.8 M."""
    value, unit = (n / 1e6, "M") if n >= 1e6 else (n / 1e3, "k")
    return f"{value:.3g} {unit}"


def panel(question, rows, x0, y0):
    """One question: both sides over a logarithmic axis of the number of times."""
    sizes = sorted(rows)
    low, high = math.log10(sizes[0]), math.log10(sizes[-1])
    top = 1.1 * max(max(pair) for pair in rows.values())
    wide, tall = WIDTH - LEFT - RIGHT, HEIGHT - TOP - BOTTOM

    def x(n):
        return x0 + LEFT + (math.log10(n) - low) / (high - low) * wide

    def y(ns):
        return y0 + TOP + (1 - ns / top) * tall

    out = [f'<text x="{x0 + LEFT}" y="{y0 + 20}" class="name">{question}, ns</text>']
    step = nice(top)
    for i in range(int(top / step) + 1):
        at = y(i * step)
        out.append(f'<line x1="{x0 + LEFT}" x2="{x0 + WIDTH - RIGHT}" y1="{at:.1f}" y2="{at:.1f}" class="grid"/>')
        out.append(f'<text x="{x0 + LEFT - 5}" y="{at + 3.5:.1f}" class="y">{i * step:g}</text>')
    for n in sizes:
        out.append(f'<text x="{x(n):.1f}" y="{y0 + HEIGHT - BOTTOM + 15}" class="x">{short(n)}</text>')
    for side, (_, colour, dashes) in enumerate(SIDES):
        points = " ".join(f"{x(n):.1f},{y(rows[n][side]):.1f}" for n in sizes)
        out.append(f'<polyline points="{points}" fill="none" stroke="{colour}" stroke-width="1.8" stroke-dasharray="{dashes}"/>')
        out += [f'<circle cx="{x(n):.1f}" cy="{y(rows[n][side]):.1f}" r="2.4" fill="{colour}"/>' for n in sizes]
    return out


def main():
    rows = read(sys.stdin.read())
    shown = [q for q in PANELS if len(rows.get(q, {})) > 1]
    if not shown:
        sys.exit("picture: no rows of a record at two numbers of times")
    width, height = COLUMNS * WIDTH, -(-len(shown) // COLUMNS) * HEIGHT + 26
    out = [
        f'<svg xmlns="http://www.w3.org/2000/svg" viewBox="0 0 {width} {height}" font-family="sans-serif" role="img" aria-label="nanoseconds of a question against the number of times, port and Rust">',
        "<style>.name{font-size:12px;font-weight:600;fill:#222}.x{font-size:9px;fill:#555;text-anchor:middle}"
        ".y{font-size:9px;fill:#555;text-anchor:end}.grid{stroke:#e3e5e8;stroke-width:1}.key{font-size:11px;fill:#222}</style>",
        f'<rect width="{width}" height="{height}" fill="#fff"/>',
    ]
    for i, question in enumerate(shown):
        out += panel(question, rows[question], i % COLUMNS * WIDTH, i // COLUMNS * HEIGHT)
    for i, (side, colour, dashes) in enumerate(SIDES):
        x, y = LEFT + 90 * i, height - 10
        out.append(f'<line x1="{x}" x2="{x + 26}" y1="{y - 4}" y2="{y - 4}" stroke="{colour}" stroke-width="1.8" stroke-dasharray="{dashes}"/>')
        out.append(f'<text x="{x + 32}" y="{y}" class="key">{side}</text>')
    out.append(f'<text x="{LEFT + 200}" y="{height - 10}" class="key">number of times, from a thousand to 16.8 million</text>')
    print("\n".join(out + ["</svg>"]))


if __name__ == "__main__":
    main()

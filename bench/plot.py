#!/usr/bin/env python3
"""plot.py GROWTH.csv OUT.svg: the times of `speed growth` against the number of points, both axes by powers; and the table for docs/ on standard output."""
import csv
import math
import sys

WIDTH, HEIGHT, LEFT, RIGHT, TOP, BOTTOM = 720, 440, 64, 150, 24, 48
COLOURS = {"one run": "#1b6ca8", "short runs": "#2e8b57", "lone points": "#b5482a"}


def rows(path):
    with open(path) as f:
        lines = [line for line in f if not line.startswith("#")]
    for row in csv.DictReader(lines, delimiter=";"):
        yield row["name"].split(",")[0], int(row["points"]), float(row["library us"]), float(row["HarfBuzz us"])


def main():
    data = list(rows(sys.argv[1]))
    points = sorted({p for _, p, _, _ in data})
    times = [t for _, _, a, b in data for t in (a, b)]
    low, high = 10 ** math.floor(math.log10(min(times))), 10 ** math.ceil(math.log10(max(times)))

    def x(p):
        return LEFT + (WIDTH - LEFT - RIGHT) * math.log(p / points[0]) / math.log(points[-1] / points[0])

    def y(t):
        return HEIGHT - BOTTOM - (HEIGHT - TOP - BOTTOM) * math.log(t / low) / math.log(high / low)

    svg = [f'<svg xmlns="http://www.w3.org/2000/svg" viewBox="0 0 {WIDTH} {HEIGHT}" font-family="sans-serif" font-size="12">',
           f'<rect width="{WIDTH}" height="{HEIGHT}" fill="white"/>']
    t = low
    while t <= high:
        svg.append(f'<path d="M{LEFT} {y(t):.1f}H{WIDTH - RIGHT}" stroke="#ddd"/><text x="{LEFT - 6}" y="{y(t) + 4:.1f}" text-anchor="end">{t:,}</text>')
        t *= 10
    for p in points:
        svg.append(f'<path d="M{x(p):.1f} {TOP}V{HEIGHT - BOTTOM}" stroke="#eee"/><text x="{x(p):.1f}" y="{HEIGHT - BOTTOM + 16}" text-anchor="middle">{p:,}</text>')
    svg.append(f'<text x="{(LEFT + WIDTH - RIGHT) / 2}" y="{HEIGHT - 10}" text-anchor="middle">points of the job</text>')
    svg.append(f'<text x="14" y="{TOP - 8}">microseconds, least of many calls</text>')
    ends = []
    for shape, colour in COLOURS.items():
        for column, dash, name in ((2, "", "library"), (3, ' stroke-dasharray="5 4"', "HarfBuzz")):
            line = [(x(r[1]), y(r[column])) for r in data if r[0] == shape]
            path = "L".join(f"{a:.1f} {b:.1f}" for a, b in line)
            svg.append(f'<path d="M{path}" fill="none" stroke="{colour}" stroke-width="1.8"{dash}/>')
            ends.append([line[-1][1], line[-1][1], colour, f"{shape}, {name}"])
    ends.sort()
    for i, end in enumerate(ends):  # names at the lines' ends, one below another
        if i and end[0] < ends[i - 1][0] + 14:
            end[0] = ends[i - 1][0] + 14
    for place, at, colour, name in ends:
        svg.append(f'<path d="M{WIDTH - RIGHT} {at:.1f}L{WIDTH - RIGHT + 10} {place:.1f}" stroke="{colour}" fill="none"/>'
                   f'<text x="{WIDTH - RIGHT + 13}" y="{place + 4:.1f}" fill="{colour}">{name}</text>')
    svg.append("</svg>")
    with open(sys.argv[2], "w") as f:
        f.write("\n".join(svg) + "\n")

    print("| points | " + " | ".join(f"{shape}: library | HarfBuzz" for shape in COLOURS) + " |")
    print("|---:|" + "---:|---:|" * len(COLOURS))
    for p in points:
        cells = []
        for shape in COLOURS:
            a, b = next((r[2], r[3]) for r in data if r[0] == shape and r[1] == p)
            cells.append(f"{a:,.0f} | {b:,.0f}")
        print(f"| {p:,} | " + " | ".join(cells) + " |")


main()

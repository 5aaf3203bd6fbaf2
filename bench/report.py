#!/usr/bin/env python3
"""report.py TIMES COUNTS DUMPS: puts the tables into docs/SPEED.md, between its marks, and draws docs/speed.svg.

TIMES is what `bench time` printed, COUNTS what `bench count` printed under callgrind, and DUMPS the beginning
of the names of callgrind's files: two for each scenario, ours first."""
import math
import sys

DOC, PLOT = "../docs/SPEED.md", "../docs/speed.svg"
READY = "`Bytes` ready"


def lines(path, word):
    found = (line.rstrip("\n").split("\t") for line in open(path, encoding="utf-8"))
    return [f[1:] for f in found if f[0] == word]


def instructions(path):
    for line in open(path, encoding="utf-8"):
        if line.startswith("totals:"):
            return int(line.split()[1])
    raise SystemExit(f"{path} has no totals")


def read(times, counts, dumps):
    """For each row: group, label, and for times and for instructions ours, renet's and the ratio."""
    times = {(g, l): tuple(map(float, f)) for g, l, *f in lines(times, "time")}
    names = [f[0] for f in lines(counts, "count")]
    ins = {n: [instructions(f"{dumps}.{2 * i + side}") for side in (1, 2)] for i, n in enumerate(names)}
    rows = []
    for group, label, calls, whole, less in lines(counts, "row"):
        a, b = ((ins[whole][side] - (ins[less][side] if less else 0)) / int(calls) for side in (0, 1))
        rows.append((group, label, times[group, label], (a, b, a / b)))
    # the groups in the order in which they are first named
    groups = list(dict.fromkeys(r[0] for r in rows))
    return sorted(rows, key=lambda r: groups.index(r[0]))


def number(x):
    return f"{x:,.1f}" if x < 100 else f"{x:,.0f}"


def known(f):
    # a difference of two figures can come out at nothing
    return f[0] > 0 and f[1] > 0


def said(f):
    if not known(f):
        return "–"
    return f"**{f[2]:.2f}**" if f[2] > 1.5 else f"{f[2]:.2f}"


def table(rows):
    out = ["| | ours, ns | renet, ns | ratio | ours, instructions | renet, instructions | ratio |",
           "|---|--:|--:|--:|--:|--:|--:|"]
    group = None
    for g, label, t, i in rows:
        if g != group:
            out.append(f"| **{g}** | | | | | | |")
            group = g
        cells = [label, number(t[0]), number(t[1]), said(t), number(i[0]), number(i[1]), said(i)]
        out.append(f"| {' | '.join(cells)} |")
    return "\n".join(out) + "\n"


def plot(rows):
    """Ratios to renet, one line for each row, on a scale from a thirty-second to 32 times."""
    left, width, step, most = 330, 560, 18, 32.0
    def x(r):
        return left + width * (math.log2(min(max(r, 1 / most), most)) + 5) / 10
    out, y, group = [], 46, None
    for g, label, t, i in rows:
        if g != group:
            y += 8
            out.append(f'<text x="8" y="{y + 12}" font-weight="bold">{g}</text>')
            y += step
            group = g
        out.append(f'<text x="20" y="{y + 12}">{label}</text>')
        for f, colour, dy in ((t, "#2b6cb0", 2), (i, "#b7791f", 9)):
            if known(f):
                a, b = sorted((x(1), x(f[2])))
                out.append(f'<rect x="{a:.1f}" y="{y + dy}" width="{max(b - a, 1):.1f}" height="6" fill="{colour}"/>')
        y += step
    grid = []
    for r, name in ((1 / 32, "1/32"), (1 / 8, "1/8"), (1 / 2, "1/2"), (1, "renet"), (1.5, ""), (2, "2"), (8, "8"), (32, "32")):
        dash = ' stroke-dasharray="3 3"' if r == 1.5 else ""
        grid.append(f'<line x1="{x(r):.1f}" x2="{x(r):.1f}" y1="40" y2="{y}" stroke="#bbb"{dash}/>')
        grid.append(f'<text x="{x(r):.1f}" y="36" text-anchor="middle">{name}</text>')
    key = (f'<rect x="{left}" y="8" width="10" height="8" fill="#2b6cb0"/><text x="{left + 15}" y="16">time, ours ÷ renet</text>'
           f'<rect x="{left + 170}" y="8" width="10" height="8" fill="#b7791f"/><text x="{left + 185}" y="16">instructions, ours ÷ renet; dashed: 1.5</text>')
    body = "\n".join([key] + grid + out)
    return (f'<svg xmlns="http://www.w3.org/2000/svg" width="{left + width + 20}" height="{y + 10}" font-family="sans-serif" font-size="12">\n'
            f'<rect width="100%" height="100%" fill="white"/>\n{body}\n</svg>\n')


def put(text, mark, part):
    start, end = f"<!-- {mark} -->\n", f"<!-- end of {mark} -->\n"
    before, rest = text.split(start)
    return before + start + part + end + rest.split(end)[1]


def main(times, counts, dumps):
    rows = read(times, counts, dumps)
    first = [r for r in rows if READY not in r[0]]
    second = [r for r in rows if READY in r[0]]
    text = open(DOC, encoding="utf-8").read()
    text = put(text, "figures", table(first))
    text = put(text, "figures with Bytes ready", table(second))
    open(DOC, "w", encoding="utf-8").write(text)
    open(PLOT, "w", encoding="utf-8").write(plot(first))
    above = [r for r in first if known(r[2]) and r[2][2] > 1.5]
    print(f"{len(first)} rows, {len(above)} of them above 1.5 times renet's time:")
    for group, label, t, _ in above:
        print(f"  {t[2]:6.2f}  {group}: {label}")


main(*sys.argv[1:])

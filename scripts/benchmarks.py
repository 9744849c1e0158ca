#!/usr/bin/env python3
"""Writes the figures of docs/BENCHMARKS.md and its chart, docs/benchmarks.svg.

    scripts/benchmarks.py OURS THEIRS

OURS and THEIRS are what several runs of the benchmarks printed, ours and the peers': lines `name ns_per_op`, each the least
of its rounds, and lines `# name median ns_per_op`. A row of a table with a ratio names ours and, after 'beside', the other
side's if it has another name. Its figure is the middle one of the runs' medians, with the least round of all in brackets, and
its ratio is of the middle ones. Without words it draws the chart of the present figures."""
import html
import math
import os
import re
import statistics
import sys

DOCS = os.path.join(os.path.dirname(os.path.dirname(os.path.abspath(__file__))), "docs")
TABLE = os.path.join(DOCS, "BENCHMARKS.md")
CHART = os.path.join(DOCS, "benchmarks.svg")
ROW = re.compile(r"^\| `(\w+)`(?:, beside `(\w+)`)? \| (.*?[a-z].*?) \| ([^|]*) \| ([^|]*) \| ([\d.]+) \|$")
ALONE = re.compile(r"^\| `(\w+)` \| [^|]* \|$")
PEERS = ("The Rust crate, ns", "`prometheus`, ns")


def figures(path):
    """Returns by name what a row shows: the middle one of the runs' medians, and the least. What has no rounds, as bytes, is
    shown by the middle run."""
    least, medians = {}, {}
    for line in open(path):
        words = line.split()
        if len(words) == 2:
            least.setdefault(words[0], []).append(float(words[1]))
        if len(words) == 4 and words[0] == "#" and words[2] == "median":
            medians.setdefault(words[1], []).append(float(words[3]))
    return {name: (statistics.median(medians.get(name, runs)), min(runs)) for name, runs in least.items()}


def shown(figure):
    return " (".join(f"{n:.0f}" if n >= 1000 else f"{n:.4g}" for n in figure) + ")"


def rewritten(line, ours, theirs):
    row, alone = ROW.match(line), ALONE.match(line)
    if alone and alone.group(1) in ours:
        return f"| `{alone.group(1)}` | {shown(ours[alone.group(1)])} |"
    if not row:
        return line
    name, beside, text = row.group(1), row.group(2), row.group(3)
    mine, other = ours.get(name), theirs.get(beside or name)
    if name.startswith("growing_"):
        other = ours.get(name.replace("growing_", "bucket_", 1))
    if not mine or not other:
        return line
    names = f"`{name}`" + (f", beside `{beside}`" if beside else "")
    return f"| {names} | {text} | {shown(mine)} | {shown(other)} | {mine[0] / other[0]:.2f} |"


def chart(rows):
    """Draws a bar for each ratio, on a logarithmic scale: to the left of the line ours is ahead."""
    left, wide, high = 420, 440, 16
    scale = lambda ratio: left + wide * (math.log10(ratio) + 1.5) / 2.5
    parts = []
    for at in (0.05, 0.1, 0.2, 0.5, 1, 2, 5, 10):
        x = scale(at)
        parts.append(f'<line x1="{x:.1f}" y1="24" x2="{x:.1f}" y2="{high * len(rows) + 30}" '
                     f'stroke="{"#333" if at == 1 else "#ddd"}"/>'
                     f'<text x="{x:.1f}" y="18" text-anchor="middle">{at:g}</text>')
    for at, (name, ratio) in enumerate(rows):
        y = 28 + high * at
        a, b = sorted((scale(1), scale(min(max(ratio, 0.032), 10))))
        parts.append(f'<text x="{left - 8}" y="{y + 11}" text-anchor="end">{html.escape(name)}</text>'
                     f'<rect x="{a:.1f}" y="{y + 2}" width="{max(b - a, 1):.1f}" height="{high - 4}" '
                     f'fill="{"#2a7" if ratio <= 1 else "#c62"}"/>'
                     f'<text x="{left + wide + 8}" y="{y + 11}">{ratio:.2f}</text>')
    return (f'<svg xmlns="http://www.w3.org/2000/svg" width="{left + wide + 60}" height="{high * len(rows) + 40}" '
            'font-family="sans-serif" font-size="11"><rect width="100%" height="100%" fill="white"/>'
            + "\n".join(parts) + "</svg>\n")


def compared(lines):
    """Returns names and ratios of the tables that have a peer's figures in nanoseconds."""
    theirs = False
    for line in lines:
        theirs = line.startswith("|") and (theirs or any(peer in line for peer in PEERS))
        row = ROW.match(line)
        if theirs and row:
            yield row.group(1), float(row.group(6))


def main():
    lines = open(TABLE).read().split("\n")
    if len(sys.argv) == 3:
        ours, theirs = figures(sys.argv[1]), figures(sys.argv[2])
        lines = [rewritten(line, ours, theirs) for line in lines]
        open(TABLE, "w").write("\n".join(lines))
    open(CHART, "w").write(chart(list(compared(lines))))


main()

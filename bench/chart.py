#!/usr/bin/env python3
"""Draw the speed out of a result of bench.py, as bars in an SVG file.

    chart.py results/DATE-NAME.md OUT.svg [--peers 3]

For each table of the result: `csvload summary` with each number of threads, and the fastest peers that detect or are given
the types and found the right number of records, each with the threads with which it was fastest. All bars have one scale.
"""
import argparse
import collections
import html
import re
import textwrap

WIDTH, LEFT, RIGHT, BAR, STEP = 720, 230, 60, 16, 22
STYLE = """
.page { fill: #ffffff } .text { fill: #1f2328 } .small { fill: #59636e } .ours { fill: #0969da } .peer { fill: #a0a8b2 }
@media (prefers-color-scheme: dark) {
  .page { fill: #0d1117 } .text { fill: #e6edf3 } .small { fill: #9198a1 } .ours { fill: #58a6ff } .peer { fill: #6e7681 }
}
"""
Bar = collections.namedtuple("Bar", "name threads speed kind")


def cells(line):
    return [c.strip() for c in line.strip().strip("|").split("|")]


def read(path):
    """The facts at the head of a result, and of each table its shape, its bytes and its bars."""
    facts, tables, names = {}, [], None
    for line in open(path):
        heading = re.match(r"### (\w+), (\d+) bytes", line)
        if heading:
            tables.append((heading[1], int(heading[2]), []))
        elif line.startswith("| tool |"):
            names = cells(line)
        elif line.startswith("| ") and len(cells(line)) == 2 and not tables:
            facts.update([cells(line)])
        elif line.startswith("| ") and names:
            row = dict(zip(names, cells(line)))
            # Of faulty rows ours are fewer than the records, as they have to be.
            if tables and (row.get("kind") == "ours" and row.get("MB/s") or row.get("records") in ("right", "not told")):
                tables[-1][2].append(Bar(row["tool"], int(row["threads"]), float(row["MB/s"]), row["kind"]))
    return facts, tables


def chosen(bars, most):
    ours = sorted((b for b in bars if b.name == "csvload summary"), key=lambda b: b.threads)
    peers = {}
    for bar in sorted((b for b in bars if b.kind in ("typed", "given")), key=lambda b: -b.speed):
        peers.setdefault(bar.name, bar)
    return ours + list(peers.values())[:most]


def text(x, y, words, kind="text", more=""):
    return '<text class="%s" x="%g" y="%g"%s>%s</text>' % (kind, x, y, more, html.escape(words))


def draw(facts, tables, most):
    groups = [(shape, size, chosen(bars, most)) for shape, size, bars in tables]
    longest = max((b.speed for _, _, bars in groups for b in bars), default=0)
    if not longest:
        raise SystemExit("chart.py: no table of speeds in it")
    title = "csvload summary and its peers: MB/s of wall time, more is better"
    body, y = [text(16, 30, title, more=' font-size="16" font-weight="600"')], 44
    for shape, size, bars in groups:
        y += 26
        body.append(text(16, y, "%s, %d MB" % (shape, round(size / 1e6)), more=' font-weight="600"'))
        y += 8
        for bar in bars:
            kind, length = "ours" if bar.kind == "ours" else "peer", max(bar.speed / longest * (WIDTH - LEFT - RIGHT), 1)
            name = "%s, %d thread%s" % (bar.name, bar.threads, "s" * (bar.threads > 1))
            body.append(text(LEFT - 8, y + BAR - 4, name, more=' text-anchor="end"'))
            body.append('<rect class="%s" x="%d" y="%d" width="%.1f" height="%d"/>' % (kind, LEFT, y, length, BAR))
            body.append(text(LEFT + length + 6, y + BAR - 4, "%.0f" % bar.speed))
            y += STEP
    y += 12
    foot = "; ".join(facts[f] for f in ("machine", "run") if f in facts)
    for line in textwrap.wrap(foot, 110):
        y += 16
        body.append(text(16, y, line, "small", ' font-size="11"'))
    return "\n".join([
        '<svg xmlns="http://www.w3.org/2000/svg" viewBox="0 0 %d %d" width="%d" height="%d" role="img" aria-label="%s"' % (
            WIDTH, y + 16, WIDTH, y + 16, html.escape(title)),
        '     font-family="system-ui, sans-serif" font-size="13">', "<style>%s</style>" % STYLE,
        '<rect class="page" width="100%" height="100%"/>'] + body + ["</svg>", ""])


def main():
    p = argparse.ArgumentParser(description=__doc__, formatter_class=argparse.RawDescriptionHelpFormatter)
    p.add_argument("result")
    p.add_argument("out")
    p.add_argument("--peers", type=int, default=3)
    args = p.parse_args()
    drawn = draw(*read(args.result), args.peers)
    with open(args.out, "w") as file:
        file.write(drawn)


if __name__ == "__main__":
    main()

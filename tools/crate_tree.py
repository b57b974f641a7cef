#!/usr/bin/env python3
"""Draws the crates of crates.txt, each above those that it uses, as docs/guide/crates.svg. It is run at the top of the
repository.

A crate stands one row above the highest of those that it uses, and one that uses none just below those that use it. A
line leads down to each crate that is used, but not where a way over another crate leads there too. With --check nothing
is written, and the status is 1 where the drawing isn't that of crates.txt.
"""
import sys

CRATES, DRAWING = "crates.txt", "docs/guide/crates.svg"
ROW, HEIGHT, LETTER, GAP = 64, 28, 8, 20
SWEEPS = 24


def used_by(text):
    """The crates of a text such as crates.txt, in order, each with those of them that it uses."""
    lines = (line.split("#")[0].partition(":") for line in text.splitlines())
    listed = {name.split()[0]: libraries.split() for name, colon, libraries in lines if colon}
    return {name: [it for it in libraries if it in listed] for name, libraries in listed.items()}


def reduced(uses):
    """The same without those that a crate also uses by way of another one. What a crate uses stands before it."""
    reach = {}
    for name, own in uses.items():
        reach[name] = set(own).union(*(reach[it] for it in own))
    return {name: [it for it in own if not any(it in reach[other] for other in own)] for name, own in uses.items()}


def levels(uses):
    """The row of each crate, the lowest being 0."""
    level = {}
    for name, own in uses.items():
        level[name] = 1 + max((level[it] for it in own), default=-1)
    for name, own in uses.items():
        level[name] = level[name] if own else min((level[it] - 1 for it in uses if name in uses[it]), default=0)
    return level


def with_turns(uses, level):
    """The rows, the lowest first, and the lines between neighbours: in each row between, a line has a turn."""
    rows = [[name for name in uses if level[name] == at] for at in range(1 + max(level.values(), default=-1))]
    lines = []
    for name in uses:
        for own in uses[name]:
            way = [own, *((own, name, at) for at in range(level[own] + 1, level[name])), name]
            for turn in way[1:-1]:
                rows[turn[2]].append(turn)
            lines += zip(way, way[1:])
    return rows, lines


def width(place):
    """How wide a crate's box is; a line's turn takes no more than the gap beside it."""
    return LETTER * len(place) + 16 if isinstance(place, str) else 0


def spread(row, wanted):
    """The middles of a row's places, as near to the wanted ones as their widths let them, in this order."""
    middles, end = {}, float("-inf")
    for place in row:
        middles[place] = max(wanted[place], end + GAP + width(place) / 2)
        end = middles[place] + width(place) / 2
    shift = sum(wanted[it] - middles[it] for it in row) / len(row)
    return {place: middle + shift for place, middle in middles.items()}


def placed(rows, lines):
    """The middle of each place: rows are put in the order of what their lines lead to, up and down by turns."""
    middles = {place: 100.0 * at for row in rows for at, place in enumerate(row)}
    below, above = {}, {}
    for low, high in lines:
        below.setdefault(high, []).append(low)
        above.setdefault(low, []).append(high)
    for sweep in range(SWEEPS):
        near = below if sweep % 2 == 0 else above
        for row in rows if sweep % 2 == 0 else reversed(rows):
            ends = {place: near.get(place, [place]) for place in row}
            wanted = {place: sum(middles[it] for it in ends[place]) / len(ends[place]) for place in row}
            row.sort(key=lambda place: wanted[place])
            middles.update(spread(row, wanted))
    left = min((middle - width(place) / 2 for place, middle in middles.items()), default=0) - GAP
    return {place: round(middle - left) for place, middle in middles.items()}


def line(low, high, x, y):
    """The line from a crate or a turn to one of the row below, and straight on through that row where it is a turn."""
    begin, end = y[high] + HEIGHT // 2, y[low] - HEIGHT // 2
    bend = (begin + end) // 2
    on = "" if isinstance(low, str) else f"v{HEIGHT}"
    return f'<path d="M{x[high]} {begin}C{x[high]} {bend} {x[low]} {bend} {x[low]} {end}{on}"/>'


def box(name, x, y):
    """The box of a crate, with its name."""
    wide = width(name)
    corner = f'x="{x[name] - wide // 2}" y="{y[name] - HEIGHT // 2}"'
    name_at = f'x="{x[name]}" y="{y[name] + 4}"'
    return (f'<rect {corner} width="{wide}" height="{HEIGHT}" rx="4"/>'
            f'<text {name_at} fill="black" stroke="none">{name}</text>')


def drawing(text):
    """The drawing of the crates of a text such as crates.txt."""
    uses = reduced(used_by(text))
    rows, lines = with_turns(uses, levels(uses))
    x = placed(rows, lines)
    y = {place: ROW * (len(rows) - at) - ROW // 2 for at, row in enumerate(rows) for place in row}
    wide, high = max((x[it] + width(it) // 2 for it in x), default=0) + GAP, ROW * len(rows)
    return "\n".join([
        f'<svg xmlns="http://www.w3.org/2000/svg" viewBox="0 0 {wide} {high}" width="{wide}" height="{high}">',
        "<title>The crates, each above those that it uses</title>",
        f'<rect width="{wide}" height="{high}" fill="white"/>',
        '<g fill="none" stroke="gray">', *(line(low, high, x, y) for low, high in lines), "</g>",
        '<g fill="white" stroke="black" font-family="monospace" font-size="13" text-anchor="middle">',
        *(box(name, x, y) for name in uses), "</g>", "</svg>", ""])


def main():
    with open(CRATES, encoding="utf-8") as file:
        drawn = drawing(file.read())
    if "--check" not in sys.argv[1:]:
        with open(DRAWING, "w", encoding="utf-8") as file:
            file.write(drawn)
        return 0
    with open(DRAWING, encoding="utf-8") as file:
        is_fresh = file.read() == drawn
    print(f"{DRAWING} is that of {CRATES}" if is_fresh else f"{DRAWING} is stale: run python3 tools/crate_tree.py")
    return 0 if is_fresh else 1


if __name__ == "__main__":
    sys.exit(main())

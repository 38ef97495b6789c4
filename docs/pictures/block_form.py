#!/usr/bin/env python3
"""Makes docs/pictures/block_form.svg: a flow sheet as it is written down, and in the orders that btf finds.

    docs/pictures/block_form.py crates/btf/out/btf > docs/pictures/block_form.svg

The matrix is made from a seed: units of a process in a row, some of them closed to loops by a recycle, each with a few
equations on its own unknowns and on those of the units that feed it. One early equation stands there twice in other
words, and one late equation is missing. Rows and columns are shuffled, as a modelling tool writes them down in no order
that a solver can use. The parts and the blocks of more than one row are outlined in the second picture.
"""
import random
import subprocess
import sys

SEED = 7
UNITS = 37
SIZE = 8
RECYCLES = [(7, 9), (13, 17), (21, 22), (26, 29)]
TWICE = 4
MISSING = 34
EDGE = 420
GAP = 60
COLOURS = {"horizontal": "#c2185b", "square": "#1f5fa8", "vertical": "#d07a00"}


def flow_sheet(source):
    """The numbers of rows and columns, and the entries, of a process whose units stand in a row."""
    feeds = {unit: [unit - 1] for unit in range(1, UNITS)}
    for first, last in RECYCLES:
        feeds[first].append(last)
    entries = set()
    for unit in range(UNITS):
        for at in range(SIZE):
            row = unit * SIZE + at
            entries.add((row, row))
            for _ in range(2):
                if source.random() < 0.6:
                    entries.add((row, unit * SIZE + source.randrange(SIZE if unit % 4 else at + 1)))
            for feed in feeds.get(unit, []):
                if at == 0 or source.random() < 0.25:
                    entries.add((row, feed * SIZE + source.randrange(SIZE)))
    rows = UNITS * SIZE
    twice, missing = TWICE * SIZE + 3, MISSING * SIZE + 1
    entries |= {(rows, column) for row, column in entries if row == twice}
    return rows + 1, rows, {(row, column) for row, column in entries if row != missing}


def shuffled(source, rows, columns, entries):
    row_names, column_names = list(range(rows)), list(range(columns))
    source.shuffle(row_names)
    source.shuffle(column_names)
    return {(row_names[row], column_names[column]) for row, column in entries}


def analyse(btf, rows, columns, entries):
    """The orders of rows and columns, and the sizes of the parts and of the blocks between them."""
    lines = ["%%MatrixMarket matrix coordinate pattern general", f"{rows} {columns} {len(entries)}"]
    lines += [f"{row + 1} {column + 1}" for row, column in sorted(entries)]
    report = subprocess.run([btf, "analyse", "--order"], input="\n".join(lines) + "\n", capture_output=True, text=True,
                            check=True).stdout
    orders, parts, blocks = {}, {}, []
    for line in report.splitlines():
        word, *numbers = line.split()
        if word in ("row_order", "column_order"):
            orders[word] = [int(number) - 1 for number in numbers]
        elif word in ("horizontal", "vertical"):
            parts[word] = tuple(int(number) for number in numbers)
        elif word == "block":
            blocks.append(int(numbers[1]))
    return orders, parts, blocks


def points(entries, scale):
    """One path with a square for each entry."""
    side = f"{1.4 * scale:.1f}"
    return "".join(f"M{column * scale:.1f} {row * scale:.1f}h{side}v{side}h-{side}z" for row, column in sorted(entries))


def outline(left, top, width, height, scale, colour, weight):
    return (f'<rect x="{left * scale:.1f}" y="{top * scale:.1f}" width="{width * scale:.1f}" height="{height * scale:.1f}"'
            f' fill="{colour}" fill-opacity="0.12" stroke="{colour}" stroke-width="{weight}"/>')


def outlines(parts, blocks, scale):
    """The outer parts, and the blocks that are more than one row."""
    (rows, columns), drawn = parts["horizontal"], []
    drawn.append(outline(0, 0, columns, rows, scale, COLOURS["horizontal"], 1.5))
    for size in blocks:
        if size > 1:
            drawn.append(outline(columns, rows, size, size, scale, COLOURS["square"], 1))
        rows, columns = rows + size, columns + size
    below, beside = parts["vertical"]
    drawn.append(outline(columns, rows, beside, below, scale, COLOURS["vertical"], 1.5))
    return "".join(drawn)


def picture(left, title, entries, scale, drawn):
    frame = f'<rect width="{EDGE}" height="{EDGE}" fill="none" stroke="#888"/>'
    return (f'<g transform="translate({left} 30)"><text y="-10">{title}</text>{frame}{drawn}'
            f'<path d="{points(entries, scale)}" fill="#111"/></g>\n')


def main():
    source = random.Random(SEED)
    rows, columns, entries = flow_sheet(source)
    entries = shuffled(source, rows, columns, entries)
    orders, parts, blocks = analyse(sys.argv[1], rows, columns, entries)
    row_places = {row: place for place, row in enumerate(orders["row_order"])}
    column_places = {column: place for place, column in enumerate(orders["column_order"])}
    ordered = {(row_places[row], column_places[column]) for row, column in entries}
    scale, width = EDGE / max(rows, columns), 2 * EDGE + GAP
    print(f'<svg xmlns="http://www.w3.org/2000/svg" viewBox="-10 0 {width + 20} {EDGE + 60}"'
          f' font-family="sans-serif" font-size="14">\n<rect x="-10" width="{width + 20}" height="{EDGE + 60}" fill="#fff"/>')
    print(picture(0, f"{rows} equations, {columns} unknowns, as written down", entries, scale, ""), end="")
    print(picture(EDGE + GAP, f"the same, in the orders of btf: {len(blocks)} blocks", ordered, scale,
                  outlines(parts, blocks, scale)), end="")
    words = {"horizontal": "too few equations", "square": "blocks that are solved one by one",
             "vertical": "too many equations"}
    for place, (part, said) in enumerate(words.items()):
        print(f'<text x="{EDGE + GAP + (0, 112, 318)[place]}" y="{EDGE + 50}" font-size="11"'
              f' fill="{COLOURS[part]}">{said}</text>')
    print("</svg>")


if __name__ == "__main__":
    main()

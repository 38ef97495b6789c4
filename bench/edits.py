#!/usr/bin/env python3
"""Times sessions of edits: `btf edit`, `btf rank` anew, and a plain incremental program in C++ (bench/edits.cpp).

    apt-get install g++
    bench/edits.py --btf crates/btf/out/btf [--columns 1000,100000] [--edits 2000] [--blocks 5] [--clock processor]
                   [--limit SECONDS] [--seed 1] [--work DIR]

Of each number of columns there are three matrices with three entries a column or nearly so: `square`, lower triangular with
its diagonal, so of full rank with one perfect matching; `wide`, the same with a quarter more columns behind it, of full row
rank; `deficient`, with all entries at random. The edits are of four kinds: `random` sets a random place or clears a random
entry; `others` does the same but for entries of the diagonal, so that in `square` no edit needs a search; `one place` sets
and clears one place in turn that is no entry at first; `pairs` clears entries of the diagonal and sets them again, which in
`square` are pairs of its one perfect matching.

A block is one run of a program over a file and its edits, less one over the same file and as many edits that change nothing
(clears of places that are no entries), by the number of edits: so what an edit costs beyond the reading of its line. Times are
those of the wall clock, or with `--clock processor` seconds of the processor, where the machine is busy. Told are
microseconds of the least, the median and the worst block, and the time of one `btf rank` of the file. The ranks that both
programs write are compared line by line. A block of less than a millisecond in all is within the noise of starting a program:
take as many edits that it is longer.
"""
import argparse
import os
import random
import statistics
import subprocess
import sys

from processes import once

HERE = os.path.dirname(os.path.abspath(__file__))


def places_of(shape, columns, source):
    """The number of rows, that of columns, and the places."""
    places = set()
    wide = columns + columns // 4 if shape == "wide" else columns
    if shape == "deficient":
        while len(places) < 3 * columns:
            places.add((source.randint(1, columns), source.randint(1, columns)))
        return columns, columns, places
    for column in range(1, columns + 1):
        places.add((column, column))
        for _ in range(2):
            places.add((source.randint(column, columns), column))
    for column in range(columns + 1, wide + 1):
        for _ in range(3):
            places.add((source.randint(1, columns), column))
    return columns, wide, places


def edits_of(kind, rows, columns, places, count, source):
    lines = []
    if kind in ("random", "others"):
        here = set(places)
        entries = [place for place in places if kind == "random" or place[0] != place[1]]
        for _ in range(count):
            if source.random() < 0.5:
                place = source.randint(1, rows), source.randint(1, columns)
                if place not in here:
                    here.add(place)
                    entries.append(place)
                lines.append("set %d %d" % place)
            else:
                at = source.randrange(len(entries))
                entries[at], entries[-1] = entries[-1], entries[at]
                place = entries.pop()
                here.discard(place)
                lines.append("clear %d %d" % place)
    elif kind == "one place":
        place = source.randint(1, rows), source.randint(1, columns)
        while place in places:
            place = source.randint(1, rows), source.randint(1, columns)
        lines = [("set %d %d", "clear %d %d")[i % 2] % place for i in range(count)]
    else:
        for _ in range(count // 2):
            at = source.randint(1, min(rows, columns))
            lines += ["clear %d %d" % (at, at), "set %d %d" % (at, at)]
    return lines


def none_of(rows, columns, places, count, source):
    """As many edits that change nothing."""
    lines = []
    while len(lines) < count:
        place = source.randint(1, rows), source.randint(1, columns)
        if place not in places:
            lines.append("clear %d %d" % place)
    return lines


def session(command, paths, options):
    """The output over the files one after another, and the seconds by the clock."""
    both, out = (os.path.join(options.work, name) for name in ("both.txt", "out.txt"))
    with open(both, "wb") as text:
        for path in paths:
            with open(path, "rb") as part:
                text.write(part.read())
    done = once(command, both, out, options.limit)
    if done is None:
        sys.exit(f"edits.py: {command[0]} did not end well")
    wall, processor, _ = done
    with open(out, "rb") as text:
        return text.read(), wall if options.clock == "wall" else processor


def write(path, lines):
    with open(path, "w", encoding="ascii") as file:
        file.write("\n".join(lines) + "\n")
    return path


def main():
    parser = argparse.ArgumentParser(description=__doc__, formatter_class=argparse.RawDescriptionHelpFormatter)
    parser.add_argument("--btf", required=True)
    parser.add_argument("--columns", default="1000,100000,1000000")
    parser.add_argument("--shapes", default="square,wide,deficient")
    parser.add_argument("--kinds", default="random,others,one place,pairs")
    parser.add_argument("--edits", type=int, default=2000)
    parser.add_argument("--blocks", type=int, default=5)
    parser.add_argument("--clock", choices=["wall", "processor"], default="wall")
    parser.add_argument("--limit", type=int, default=600, help="processor seconds of one run")
    parser.add_argument("--seed", type=int, default=1)
    parser.add_argument("--work", default="bench-work")
    options = parser.parse_args()
    os.makedirs(options.work, exist_ok=True)
    plain = os.path.join(options.work, "edits")
    subprocess.run(["g++", "-O3", "-std=c++17", "-o", plain, os.path.join(HERE, "edits.cpp")], check=True)
    programs = {"btf edit": [options.btf, "edit"], "plain C++": [plain]}
    print("| columns | matrix | edits | btf rank, s | btf edit, us: least, median, worst | plain C++ | ratio of medians |")
    print("|---|---|---|---|---|---|---|")
    bad = 0
    for columns in map(int, options.columns.split(",")):
        for shape in options.shapes.split(","):
            source = random.Random(options.seed)
            rows, cols, places = places_of(shape, columns, source)
            head = ["%%MatrixMarket matrix coordinate pattern general", "%d %d %d" % (rows, cols, len(places))]
            file = write(os.path.join(options.work, "session.mtx"), head + ["%d %d" % place for place in sorted(places)])
            rank = min(session([options.btf, "rank"], [file], options)[1] for _ in range(3))
            for kind in options.kinds.split(","):
                micros = {name: [] for name in programs}
                for _ in range(options.blocks):
                    none = write(os.path.join(options.work, "none.txt"), none_of(rows, cols, places, options.edits, source))
                    lines = edits_of(kind, rows, cols, places, options.edits, source)
                    edits = write(os.path.join(options.work, "edits.txt"), lines)
                    texts = []
                    for name, command in programs.items():
                        base = min(session(command, [file, none], options)[1] for _ in range(2))
                        runs = [session(command, [file, edits], options) for _ in range(2)]
                        texts.append(runs[0][0])
                        micros[name].append((min(run[1] for run in runs) - base) / len(lines) * 1e6)
                    if texts[0] != texts[1]:
                        print(f"the ranks differ: {columns} {shape} {kind}", file=sys.stderr)
                        bad = 1
                told = {name: (min(list_), statistics.median(list_), max(list_)) for name, list_ in micros.items()}
                cells = [", ".join("%.1f" % value for value in told[name]) for name in programs]
                ratio = told["btf edit"][1] / told["plain C++"][1] if told["plain C++"][1] > 0 else float("nan")
                print(f"| {columns:,} | {shape} | {kind} | {rank:.3f} | {cells[0]} | {cells[1]} | {ratio:.2f} |", flush=True)
    return bad


if __name__ == "__main__":
    sys.exit(main())

#!/usr/bin/env python3
"""Times `heaviest` alone, of one checkout or of several beside each other, and prints a table.

    bench/diagonals.py [--crates DIR,DIR] [--work DIR] [--scale 1] [--repeats 3]

The crates of each DIR, by default those of this checkout, get a program by `bench/scratch.py`, which tells what it
wants, in a folder of the work folder: by default bench-diagonals in the system's folder for temporary files. It makes
the matrix in memory, so no reader stands in the time: a band of eleven diagonals, a circuit of blocks of many sizes,
twelve random entries a column beside the diagonal, groups of 100 that lead on to one another (staircase), two diagonals
closed to a ring (chain), or four random entries above a diagonal (triangle), all with random names; in a line with
`late` or `early` the last or the first two columns see one row alone, so that there is no diagonal. The programs run in
turns, and must agree in the sums, the ranks and how many columns some maximum matching misses. A field has the least
milliseconds of `heaviest`, and the first column those of a maximum matching of the pattern from an empty one, which
`heaviest` needs at least where there is no diagonal. Before that it compares the programs on small matrices at random.
"""
import argparse
import os
import subprocess
import sys
import tempfile

import scratch

CRATES = os.path.join(os.path.dirname(os.path.dirname(os.path.abspath(__file__))), "crates")
USES = ["sp_ids", "sp_pattern", "bip_graph", "pothen_fan", "integer_diagonal"]
BAND, CIRCUIT, UNIFORM, SMALL, STAIRCASE, CHAIN, TRIANGLE = range(7)

# name, shape, columns, greatest value, and 1 where it is late, 2 where it is early
LINES = [
    ("band, values to 100, late", BAND, 100000, 100, 1),
    ("circuit, values to 1000, late", CIRCUIT, 100000, 1000, 1),
    ("uniform, values to 10^6, late", UNIFORM, 40000, 10**6, 1),
    ("band, values to 100, early", BAND, 100000, 100, 2),
    ("circuit, values to 1000, early", CIRCUIT, 100000, 1000, 2),
    ("uniform, values to 10^6, early", UNIFORM, 40000, 10**6, 2),
    ("band, all equal", BAND, 100000, 1, 0),
    ("circuit, all equal", CIRCUIT, 100000, 1, 0),
    ("uniform, all equal", UNIFORM, 40000, 1, 0),
    ("circuit, values 1 and 2", CIRCUIT, 100000, 2, 0),
    ("uniform, values 1 and 2", UNIFORM, 40000, 2, 0),
    ("band, values to 100", BAND, 100000, 100, 0),
    ("circuit, values to 1000", CIRCUIT, 100000, 1000, 0),
    ("uniform, values to 10^6", UNIFORM, 40000, 10**6, 0),
    ("circuit, values to 10^12", CIRCUIT, 100000, 10**12, 0),
    ("uniform, values to 10^12", UNIFORM, 40000, 10**12, 0),
    ("staircase, values to 1000", STAIRCASE, 30000, 1000, 0),
    ("chain, values to 1000", CHAIN, 100000, 1000, 0),
    ("triangle, values to 1000", TRIANGLE, 100000, 1000, 0),
]


def answers(program, words):
    """What the program writes of each matrix: what must be the same for all programs, and the two times."""
    done = subprocess.run([program] + [str(word) for word in words], stdout=subprocess.PIPE, text=True, check=True)
    rows = [[int(word) for word in line.split()] for line in done.stdout.splitlines()]
    return [row[:4] for row in rows], [row[4:] for row in rows]


def same(programs, words):
    """The times of each program, which must give the same answers."""
    found = [answers(program, words) for program in programs]
    for shown, _ in found:
        if shown != found[0][0]:
            sys.exit(f"the programs differ on {words}")
    return [times for _, times in found]


def main():
    parser = argparse.ArgumentParser(description=__doc__, formatter_class=argparse.RawDescriptionHelpFormatter)
    parser.add_argument("--crates", default=CRATES)
    parser.add_argument("--work", default=os.path.join(tempfile.gettempdir(), "bench-diagonals"))
    parser.add_argument("--scale", type=float, default=1)
    parser.add_argument("--repeats", type=int, default=3)
    given = parser.parse_args()
    programs = []
    for at, crates in enumerate(given.crates.split(",")):
        work = os.path.join(given.work, str(at))
        programs.append(scratch.build(work, os.path.abspath(crates), "diagonals", USES, scratch.text("diagonals"),
                                      [str(word) for word in (SMALL, 4, 5, 0, 1)]))
    for size in range(2, 14):
        for values in (1, 2, 5, 1000):
            for late in (0, 1, 2):
                same(programs, [SMALL, size, values, late, 200])
    print("| Matrix | matching | " + " | ".join(given.crates.split(",")) + " |")
    print("|" + "---|" * (2 + len(programs)))
    for name, shape, columns, values, late in LINES:
        words = [shape, max(2, round(columns * given.scale)), values, late, 1]
        least = [[float("inf")] * 2 for _ in programs]
        for _ in range(given.repeats):
            for at, times in enumerate(same(programs, words)):
                least[at] = [min(pair) for pair in zip(least[at], times[0])]
        fields = [f"{min(pair[0] for pair in least) / 1e6:.1f}"] + [f"{pair[1] / 1e6:.1f}" for pair in least]
        print(f"| {name} | " + " | ".join(fields) + " |", flush=True)


if __name__ == "__main__":
    main()

#!/usr/bin/env python3
"""Times `Pattern::build` alone, of one checkout or of several beside each other, and prints a table.

    bench/pattern.py [--crates DIR,DIR] [--work DIR] [--entries 1000000,10000000]
                     [--processors 1,2,4] [--repeats 7]

The crates of each DIR, by default those of this checkout, get a program by `bench/scratch.py`, which tells what it
wants, in a folder of the work folder: by default bench-pattern in the system's folder for temporary files. It makes
entries of a five-point grid or of places at random, ten a column, in a given order, and builds their pattern once; so no
reader stands in the time. The programs run in turns. A field has for each of them the least processor nanoseconds an
entry, summed over the threads, which is what a build adds to a run without it, and behind it, in brackets, the least of
wall time. Of a symmetric matrix the mirror images count as entries.
"""
import argparse
import os
import subprocess
import sys
import tempfile

import scratch

CRATES = os.path.join(os.path.dirname(os.path.dirname(os.path.abspath(__file__))), "crates")

# shape: its number for the program, and how many columns give an entry
SHAPES = {
    "grid, by columns": (0, 1 / 5),
    "grid, by rows": (1, 1 / 5),
    "symmetric grid, its half by columns": (2, 1 / 5),
    "symmetric grid, its half by rows": (3, 1 / 5),
    "symmetric, at random": (4, 1 / 10),
    "at random": (5, 1 / 10),
}


def spent(program, words, processors):
    """The places, the entries, nanoseconds of wall time, and of processor time of the whole process."""
    command = ["taskset", "-c", f"0-{processors - 1}", program] + [str(word) for word in words]
    process = subprocess.Popen(command, stdout=subprocess.PIPE, text=True)
    text = process.stdout.read()
    _, status, usage = os.wait4(process.pid, 0)
    if status != 0:
        sys.exit(f"{' '.join(command)}: status {status}")
    places, entries, time = (int(word) for word in text.split())
    return places, entries, time, 1e9 * (usage.ru_utime + usage.ru_stime)


def measure(programs, shape, entries, processors, repeats):
    """A field: for each program what a build takes."""
    number, columns = SHAPES[shape]
    size = round((entries * columns) ** 0.5) if number < 4 else round(entries * columns)
    least = [[float("inf")] * 3 for _ in programs]
    found = set()
    for _ in range(repeats):
        for at, program in enumerate(programs):
            _, _, _, without = spent(program, [number, size, 0], processors)
            places, kept, wall, whole = spent(program, [number, size, 1], processors)
            least[at] = [min(pair) for pair in zip(least[at], [without, whole, wall])]
            found.add(kept)
    if len(found) != 1:
        sys.exit(f"{shape}: the programs differ in the number of entries: {found}")
    fields = [f"{(whole - without) / places:.0f} ({wall / places:.0f})" for without, whole, wall in least]
    return ", ".join(fields)


def main():
    parser = argparse.ArgumentParser(description=__doc__, formatter_class=argparse.RawDescriptionHelpFormatter)
    parser.add_argument("--crates", default=CRATES)
    parser.add_argument("--work", default=os.path.join(tempfile.gettempdir(), "bench-pattern"))
    parser.add_argument("--entries", default="1000000,10000000")
    parser.add_argument("--processors", default="1,2,4")
    parser.add_argument("--repeats", type=int, default=7)
    args = parser.parse_args()
    programs = []
    for at, crates in enumerate(args.crates.split(",")):
        work = os.path.join(args.work, str(at))
        os.makedirs(work, exist_ok=True)
        uses = ["sp_ids", "sp_pattern"]
        programs.append(scratch.build(work, os.path.abspath(crates), "builds", uses, scratch.text("pattern"), ["0", "2", "1"]))
    counts = [int(word) for word in args.processors.split(",")]
    print("| Entries | Number |" + "".join(f" {count} processor{'s' if count > 1 else ''} |" for count in counts))
    print("|---|---|" + "---|" * len(counts))
    for entries in [int(word) for word in args.entries.split(",")]:
        for shape in SHAPES:
            fields = [measure(programs, shape, entries, count, args.repeats) for count in counts]
            print(f"| {shape} | {entries:,} | " + " | ".join(fields) + " |", flush=True)


if __name__ == "__main__":
    main()

#!/usr/bin/env python3
"""Times single edits of a session: `edit_session`, and a plain incremental program in C++ (bench/edits.cpp).

    apt-get install g++
    bench/single_edits.py [--crates DIR,DIR] [--columns 1000,100000,1000000] [--edits 2000] [--seeds 3] [--seed 1]
                          [--shapes square,wide,deficient] [--kinds random,place,pairs] [--command WORDS] [--work DIR]

Both programs make the same matrix and the same edits from a seed, take the time of each edit alone, and so read and write
nothing between them. The crates of each DIR, by default those of this checkout, get a program by `bench/scratch.py`, which
tells what it wants, in a folder of the work folder: by default bench-edits in the system's folder for temporary files.

The matrices have three entries a column or nearly so: `square`, lower triangular with its diagonal, so of full rank; `wide`,
the same with a quarter more columns behind it, of full row rank; `deficient`, with all entries at random. The edits: `random`
sets a random place or clears a random entry; `place` sets and clears one place in turn; `pairs` clears entries of the
diagonal and sets them again, which in `square` are pairs of its one perfect matching. Edits that change no entry are not told.

A row has the edits of all seeds that did the same: `set` left the rank as it was, `set, raising` raised it, `clear` left it,
`clear, lowering` lowered it. Told are microseconds: the least, the median, that of which one in a hundred edits takes more,
and the worst. `--command` is put before each run, as "chrt -f 10 taskset -c 3" where the machine is busy.
"""
import argparse
import os
import subprocess
import sys
import tempfile

import scratch

HERE = os.path.dirname(os.path.abspath(__file__))
CRATES = os.path.join(os.path.dirname(HERE), "crates")
SHAPES = {"square": 0, "wide": 1, "deficient": 2}
KINDS = {"random": 0, "place": 1, "pairs": 2}
USES = ["sp_ids", "sp_pattern", "bip_graph", "pothen_fan", "hall_witness", "edit_session"]


def times_of(command, words):
    """The nanoseconds of the edits by what they did, and the entries and rank at the end."""
    text = scratch.run(command + [str(word) for word in words])
    lines = [line.split() for line in text.splitlines()]
    return {line[0]: [int(word) for word in line[1:]] for line in lines}


def told(times):
    """The field of a list of nanoseconds."""
    times = sorted(times)
    chosen = [times[0], times[len(times) // 2], times[len(times) * 99 // 100], times[-1]]
    return ", ".join(f"{time / 1000:.1f}" for time in chosen)


def main():
    parser = argparse.ArgumentParser(description=__doc__, formatter_class=argparse.RawDescriptionHelpFormatter)
    parser.add_argument("--crates", default=CRATES)
    parser.add_argument("--columns", default="1000,100000,1000000")
    parser.add_argument("--shapes", default=",".join(SHAPES))
    parser.add_argument("--kinds", default=",".join(KINDS))
    parser.add_argument("--edits", type=int, default=2000)
    parser.add_argument("--seeds", type=int, default=3)
    parser.add_argument("--seed", type=int, default=1, help="the first seed")
    parser.add_argument("--command", default="")
    parser.add_argument("--work", default=os.path.join(tempfile.gettempdir(), "bench-edits"))
    args = parser.parse_args()
    os.makedirs(args.work, exist_ok=True)
    programs = {}
    for at, crates in enumerate(args.crates.split(",")):
        work = os.path.join(args.work, str(at))
        os.makedirs(work, exist_ok=True)
        program = scratch.build(work, os.path.abspath(crates), "single", USES, scratch.text("single_edits"), ["0", "8", "0", "8", "1"])
        programs["edit_session" + (f" {at}" if at else "")] = program
    plain = os.path.join(args.work, "plain")
    subprocess.run(["g++", "-O3", "-std=c++17", "-o", plain, os.path.join(HERE, "edits.cpp")], check=True)
    programs["plain C++"] = plain
    print("| Columns | Matrix | Edits | Edit | Number | " + " | ".join(programs) + " |")
    print("|---|---|---|---|---|" + "---|" * len(programs))
    bad = 0
    for rows in map(int, args.columns.split(",")):
        for shape in args.shapes.split(","):
            for kind in args.kinds.split(","):
                all_times = {name: {} for name in programs}
                for seed in range(args.seed, args.seed + args.seeds):
                    ends = []
                    for name, program in programs.items():
                        words = [SHAPES[shape], rows, KINDS[kind], args.edits, seed]
                        found = times_of(args.command.split() + [program], words)
                        ends.append(found.pop("rank"))
                        for did, times in found.items():
                            all_times[name].setdefault(did, []).extend(times)
                    if any(end != ends[0] for end in ends):
                        print(f"the ranks differ: {rows} {shape} {kind} {seed}", file=sys.stderr)
                        bad = 1
                for did in ("set", "set_raising", "clear", "clear_lowering"):
                    fields = [all_times[name].get(did, []) for name in programs]
                    if all(fields):
                        name = did.replace("_", ", ")
                        print(f"| {rows:,} | {shape} | {kind} | {name} | {len(fields[0]):,} | " + " | ".join(map(told, fields)) + " |", flush=True)
    return bad


if __name__ == "__main__":
    sys.exit(main())

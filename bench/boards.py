#!/usr/bin/env python3
"""Times the claim board and the flip board beside plain atomics in C++ that do the same, and prints a table.

    apt-get install g++
    bench/boards.py [--work DIR] [--words 1048576,16777216] [--threads 1,2,4] [--repeats 5] [--compiler g++]

The program over the boards is built by `bench/scratch.py`, which tells what it wants, in DIR: by default bench-boards
in the system's folder for temporary files.

A line is one kind of work: claims of the rows of a board, or takes of the trees of one, each with the two stores that
exchange a pair if the take was the first. The words are gone through in order, or scattered, by an odd stride over a
power of two. With shares each thread has its own part of them; else all threads go through all words, from the same
one on, and a word that is gone counts as a call too. Boards are opened and closed outside the time, and threads are
started within it. Both programs run in turns, and the shortest of the repeats counts, by the wall clock. A field has
the million calls a second, of all threads together, of the board and of C++, and in brackets the ratio of the two.
Ratios of one run compare; single numbers compare nothing.
"""
import argparse
import os
import sys
import tempfile

import scratch

HERE = os.path.dirname(os.path.abspath(__file__))
CRATES = os.path.join(os.path.dirname(HERE), "crates")

# kind of work: its number for the programs
WORKS = {"claim": 0, "take and set two": 1}

# how the words are gone through: the stride
ORDERS = {"in order": 1, "scattered": 2654435761}


def build_twin(work, compiler):
    source, program = os.path.join(HERE, "boards.cpp"), os.path.join(work, "twin")
    scratch.run([compiler, "-O3", "-march=x86-64-v2", "-std=c++17", "-pthread", "-o", program, source])
    return program


def spent(program, words):
    """Nanoseconds, and how many calls were the first at their word."""
    time, mine = scratch.run([program] + [str(word) for word in words]).split()
    return int(time), int(mine)


def measure(programs, kind, words, threads, order, contested, repeats):
    """Million calls a second of each program at its best, in turns."""
    least = [None] * len(programs)
    for _ in range(repeats):
        for at, program in enumerate(programs):
            time, mine = spent(program, [WORKS[kind], words, threads, ORDERS[order], int(contested)])
            if mine != words:
                sys.exit(f"boards: {program} was first at {mine} words of {words}")
            least[at] = time if least[at] is None else min(least[at], time)
    calls = words * threads if contested else words
    return [1000 * calls / time for time in least]


def main():
    parser = argparse.ArgumentParser(description=__doc__, formatter_class=argparse.RawDescriptionHelpFormatter)
    parser.add_argument("--work", default=os.path.join(tempfile.gettempdir(), "bench-boards"))
    parser.add_argument("--words", default="1048576,16777216", help="powers of two")
    parser.add_argument("--threads", default="1,2,4")
    parser.add_argument("--repeats", type=int, default=5)
    parser.add_argument("--compiler", default="g++")
    args = parser.parse_args()
    counts = [int(word) for word in args.words.split(",")]
    if any(count < 64 or count & count - 1 for count in counts):
        parser.error("--words takes powers of two from 64 on")
    os.makedirs(args.work, exist_ok=True)
    uses = ["sp_ids", "bip_graph", "claim_words", "flip_words"]
    board = scratch.build(args.work, CRATES, "boards", uses, scratch.text("boards"), ["0", "64", "1", "1", "0"])
    programs = [board, build_twin(args.work, args.compiler)]
    print("| Work | Order | Threads |" + "".join(f" {count:,} words |" for count in counts))
    print("|---|---|---|" + "---|" * len(counts))
    for kind in WORKS:
        for order in ORDERS:
            for threads in [int(word) for word in args.threads.split(",")]:
                for contested in [False, True] if threads > 1 else [False]:
                    who = "1" if threads == 1 else f"{threads}, all words" if contested else f"{threads}, shares"
                    line = f"| {kind} | {order} | {who} |"
                    for count in counts:
                        board, twin = measure(programs, kind, count, threads, order, contested, args.repeats)
                        line += f" {board:.1f}, {twin:.1f} ({board / twin:.2f}) |"
                    print(line, flush=True)


if __name__ == "__main__":
    main()

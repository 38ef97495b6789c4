#!/usr/bin/env python3
"""Times the calls of the Python package blocktri beside SciPy's for the same answer, and prints a table for each.

    make -C library python
    PYTHONPATH=library/python /usr/bin/python3 bench/python_calls.py [--calls rank,matching,dmperm,full_matching]
        [--families er27,grid2d] [--entries 100000,1000000] [--formats csr,csc] [--repeats 5] [--limit SECONDS] [--work DIR]

The files are those of bench/run.py, made in the same folder, by default those of its jobs rank and, for full matchings,
diagonal. Each line is one process, in which both calls are made in turns on the same matrix; a field is the least of the
repeats in milliseconds by the wall clock, with what the package does to arrays and lists in it. A process that takes more
than the limit of processor seconds is stopped; SciPy's field is then `-`. SciPy has no call for what dmperm gives. Ranks, the
sizes of matchings and sums of weights are compared; a difference makes the exit status 1.
"""
import argparse
import os
import resource
import statistics
import subprocess
import sys
import tempfile
import time

import matrix_market
import numpy
import run
from scipy import sparse
from scipy.sparse import csgraph

import blocktri
import blocktri.csgraph


def size_of(matrix, mates):
    return numpy.count_nonzero(mates >= 0)


def sum_of(matrix, matching):
    return int(matrix[matching].sum())


# call: the package's, SciPy's, and what of the matrix and their answers must be the same
CALLS = {
    "rank": (blocktri.csgraph.structural_rank, csgraph.structural_rank, lambda matrix, rank: int(rank)),
    "matching": (blocktri.csgraph.maximum_bipartite_matching, csgraph.maximum_bipartite_matching, size_of),
    "dmperm": (blocktri.dmperm, None, lambda matrix, form: form.rank),
    "full_matching": (blocktri.csgraph.min_weight_full_bipartite_matching, csgraph.min_weight_full_bipartite_matching, sum_of),
}


def loaded(path, form):
    """The matrix of a file, which is kept in NumPy's format beside it."""
    if not os.path.exists(path + ".npz"):
        with open(path, "rb") as file:
            has_values = b"integer" in file.readline()
            shape, numbers = matrix_market.read(file, 3 if has_values else 2)
        rows, columns = numbers[:, :2].astype(numpy.int32).T
        values = numbers[:, 2] if has_values else numpy.ones(len(rows), numpy.int8)
        kept = sparse.csc_matrix((values, (rows, columns)), shape=shape)
        sparse.save_npz(path + ".part.npz", kept, compressed=False)
        os.rename(path + ".part.npz", path + ".npz")
    return sparse.load_npz(path + ".npz").asformat(form)


def measure(call, path, form, repeats):
    """Prints the milliseconds of each call as it ends, with the number that both must have."""
    matrix = loaded(path, form)
    ours, theirs, number = CALLS[call]
    for _ in range(repeats):
        for name, function in (("blocktri", ours), ("scipy", theirs)):
            if function:
                begin = time.perf_counter()
                answer = function(matrix)
                print(name, 1000 * (time.perf_counter() - begin), number(matrix, answer), flush=True)


def least(options, call, path, form):
    """The least milliseconds of both, those of a call that did not end as none, and whether the answers are the same."""
    command = [sys.executable, os.path.abspath(__file__), "--measure", call, path, form, "--repeats", str(options.repeats)]
    limits = (options.limit, options.limit)
    done = subprocess.run(command, stdout=subprocess.PIPE, text=True,
                          preexec_fn=lambda: resource.setrlimit(resource.RLIMIT_CPU, limits))
    lines = [line.split() for line in done.stdout.splitlines()]
    times = [min((float(ms) for who, ms, _ in lines if who == name), default=None) for name in ("blocktri", "scipy")]
    return times, len({number for _, _, number in lines}) == 1


def fields(times):
    ours, theirs = times
    texts = ["-" if ms is None else f"{ms:.3g}" if ms < 100 else f"{ms:.0f}" for ms in times]
    return texts + [f"{ours / theirs:.2f}" if ours and theirs else "-"]


def table(options, call):
    """Prints the table of a call, and answers whether all answers were the same."""
    same, ratios = True, []
    print(f"\n`{call}`\n")
    print("| Family | Entries |" + "".join(f" {form.upper()}: blocktri | SciPy | ratio |" for form in options.formats))
    print("|---|---|" + "---|" * 3 * len(options.formats))
    families, sizes = run.JOBS["diagonal" if call == "full_matching" else "rank"][:2]
    for family in options.families or families.split(","):
        for entries in options.entries or map(int, sizes.split(",")):
            path, texts = run.matrix(options.work, family, entries), []
            for form in options.formats:
                times, agree = least(options, call, path, form)
                texts += fields(times)
                ratios += [times[0] / times[1]] if None not in times else []
                same = same and agree
            print(f"| {family} | {run.entries_of(path)} | " + " | ".join(texts) + " |", flush=True)
    if ratios:
        mean = statistics.geometric_mean(ratios)
        print(f"\nOf {len(ratios)} ratios the geometric mean is {mean:.2f}, the greatest {max(ratios):.2f}.")
    return same


def listed(kind):
    return lambda words: [kind(word) for word in words.split(",")]


def main():
    parser = argparse.ArgumentParser(description=__doc__, formatter_class=argparse.RawDescriptionHelpFormatter)
    parser.add_argument("--calls", type=listed(str), default=list(CALLS))
    parser.add_argument("--families", type=listed(str))
    parser.add_argument("--entries", type=listed(int))
    parser.add_argument("--formats", type=listed(str), default=["csr", "csc"])
    parser.add_argument("--repeats", type=int, default=5)
    parser.add_argument("--limit", type=int, default=60)
    parser.add_argument("--work", default=os.path.join(tempfile.gettempdir(), "bench-work"))
    parser.add_argument("--measure", nargs=3, help=argparse.SUPPRESS)
    options = parser.parse_args()
    if options.measure:
        return measure(*options.measure, options.repeats)
    os.makedirs(options.work, exist_ok=True)
    if not run.build(options.work, "generate"):
        sys.exit("python_calls.py: the generator does not compile")
    sys.exit(0 if all([table(options, call) for call in options.calls]) else 1)


if __name__ == "__main__":
    main()

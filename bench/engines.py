#!/usr/bin/env python3
"""Runs `btf` with the engine `graft`, by several numbers of workers, beside the engine `pf` on the same files,
interleaved, and prints a table.

    bench/engines.py --btf crates/btf/out/btf [--btf OLD] [--work DIR] [--entries 1000000 | --columns 100,300]
                     [--families circuit,er27] [--workers 1,2,4] [--repeats 5] [--limit SECONDS] [--busy]

It wants g++ for the generator of the files, which are those of `bench/run.py`, and go to DIR (by default bench-work in
the system's folder for temporary files). Times are those of whole processes of `btf analyse`, from a file in the page
cache to a text in a file: the least of the repeats, by the wall clock and in processor seconds (user and system, all
threads). In each field of the table: wall and processor nanoseconds an entry, in brackets the ratio of both to `pf`, and
then peak bytes an entry. With several programs each has its own lines. All must write the same text; a difference is told
and makes the exit status 1. The machine's load at the start of each file stands in the last column. With --busy as many
other processes as there are processors do nothing but turn all the while: a join then waits for a time slice. Small
files, named by --columns, want 15 repeats and more, and 60 with --busy, since a run there takes a few milliseconds and
can wait for as long. `--families parts --entries 17000000 --repeats 3 --limit 200` is a file that is searched by workers
alone after the first phases, and on which four of them take less time than one and than `pf`: all three parts are in it,
so that from either side most of what a phase reaches leads to no path. It takes some minutes.
"""
import argparse
import contextlib
import hashlib
import os
import subprocess
import sys
import tempfile

from processes import entries_of, once
from run import PATTERNS, build, matrix, matrix_of_columns


def digest(path):
    """What tells one text from another. This program stays small, since a child's peak memory is at least its parent's."""
    found = hashlib.sha256()
    with open(path, "rb") as text:
        while piece := text.read(1 << 16):
            found.update(piece)
    return found.hexdigest()


def runs(options, path):
    """For each program the least of its repeats by each engine, and all texts that were written."""
    engines = [("pf", [])] + [(f"graft {w}", ["--workers", w]) for w in options.workers.split(",")]
    least, texts = {}, set()
    for _ in range(options.repeats):
        for program in options.btf:
            for name, words in engines:
                out = os.path.join(options.work, "engine.out")
                done = once([program, "analyse", "--engine", name.split()[0]] + words, path, out, options.limit)
                if done is None:
                    continue
                texts.add(digest(out))
                before = least.get((program, name), done)
                least[program, name] = tuple(min(pair) for pair in zip(before, done))
    return [name for name, _ in engines], least, texts


@contextlib.contextmanager
def spinning(count):
    """So many processes that turn and do nothing, till the end."""
    others = [subprocess.Popen(["sh", "-c", "while :; do :; done"]) for _ in range(count)]
    try:
        yield
    finally:
        for other in others:
            other.kill()
            other.wait()


def cell(done, base, entries):
    """One field of the table."""
    if done is None:
        return "-"
    wall, processor, peak = done
    ratio = f" ({wall / base[0]:.2f}, {processor / base[1]:.2f})" if base and base is not done else ""
    return f"{wall * 1e9 / entries:.0f}, {processor * 1e9 / entries:.0f}{ratio}, {peak / entries:.0f}"


def files(options, family):
    """The files of a family, by columns where these are named, else by entries."""
    if options.columns:
        return [matrix_of_columns(options.work, family, int(count)) for count in options.columns.split(",")]
    return [matrix(options.work, family, int(count)) for count in options.entries.split(",")]


def table(options):
    """Prints the table. Whether texts differ."""
    heads, differs = None, False
    for family in options.families.split(","):
        for path in files(options, family):
            entries = entries_of(path)
            load = os.getloadavg()[0]
            names, least, texts = runs(options, path)
            if heads is None:
                heads = ["family", "entries"] + (["program"] if len(options.btf) > 1 else []) + names + ["load"]
                print("| " + " | ".join(heads) + " |\n|" + "---|" * len(heads))
            for program in options.btf:
                fields = [family, str(entries)] + ([program] if len(options.btf) > 1 else [])
                base = least.get((program, "pf"))
                fields += [cell(least.get((program, name)), base, entries) for name in names]
                print("| " + " | ".join(fields + [f"{load:.0f}"]) + " |", flush=True)
            if len(texts) > 1:
                print(f"engines.py: texts differ on {path}", file=sys.stderr)
                differs = True
    return differs


def main():
    parser = argparse.ArgumentParser(description=__doc__, formatter_class=argparse.RawDescriptionHelpFormatter)
    parser.add_argument("--btf", required=True, action="append")
    parser.add_argument("--work", default=os.path.join(tempfile.gettempdir(), "bench-work"))
    parser.add_argument("--entries", default="1000000")
    parser.add_argument("--columns")
    parser.add_argument("--families", default=PATTERNS)
    parser.add_argument("--workers", default="1,2,4")
    parser.add_argument("--repeats", type=int, default=5)
    parser.add_argument("--limit", type=int, default=60)
    parser.add_argument("--busy", action="store_true")
    options = parser.parse_args()
    os.makedirs(options.work, exist_ok=True)
    if not build(options.work, "generate"):
        sys.exit("engines.py: the generator does not compile")
    with spinning(os.cpu_count() if options.busy else 0):
        differs = table(options)
    sys.exit(1 if differs else 0)


if __name__ == "__main__":
    main()

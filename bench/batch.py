#!/usr/bin/env python3
"""Times `btf_batch` over many files with several numbers of workers beside a loop of `btf analyse` in a shell, and
beside CXSparse, which goes through the same batch in one process of one thread.

    bench/batch.py --btf crates/btf/out/btf --batch crates/btf_batch/out/btf_batch [--files 1000] [--entries 10000]
                   [--families er27,grid2d,circuit] [--workers 1,2,4] [--repeats 3] [--work DIR]

The files are made by generate.cpp, each with a seed of its own, the families in turn. All numbers of workers must give
the same bytes, the reports in them must be those of `btf analyse`, and the counts in these those of CXSparse, which drops
out where its package is missing. What reading takes is measured by a batch of as many bytes whose files are bad in their
first line. Times are medians of whole processes by the wall clock, from a file in the page cache to a text in a file.
"""
import argparse
import os
import statistics
import subprocess
import sys
import tempfile
import time

from run import COLUMNS, build


def timed(command, source, target, repeats, shell=False, status=0):
    times = []
    for _ in range(repeats):
        with open(source, "rb") as given, open(target, "wb") as taken:
            start = time.perf_counter()
            done = subprocess.run(command, stdin=given, stdout=taken, stderr=subprocess.DEVNULL, shell=shell)
            if done.returncode != status:
                sys.exit(f"batch.py: {command}: status {done.returncode}")
            times.append(time.perf_counter() - start)
    return statistics.median(times)


def counts(text):
    """The lines of reports that say how many."""
    words = (b"matrix", b"rank", b"horizontal", b"square", b"vertical")
    return [line for line in text.splitlines() if line.split()[0] in words]


def main():
    parser = argparse.ArgumentParser(description=__doc__, formatter_class=argparse.RawDescriptionHelpFormatter)
    parser.add_argument("--btf", required=True)
    parser.add_argument("--batch", required=True)
    parser.add_argument("--files", type=int, default=1000)
    parser.add_argument("--entries", type=int, default=10000)
    parser.add_argument("--families", default="er27,grid2d,circuit")
    parser.add_argument("--workers", default="1,2,4")
    parser.add_argument("--repeats", type=int, default=3)
    parser.add_argument("--work", default=os.path.join(tempfile.gettempdir(), "bench-work"))
    options = parser.parse_args()
    os.makedirs(options.work, exist_ok=True)
    if not build(options.work, "generate"):
        return 1
    families = options.families.split(",")
    folder = os.path.join(options.work, "batch-files")
    os.makedirs(folder, exist_ok=True)
    batch, unread = os.path.join(options.work, "batch"), os.path.join(options.work, "batch-bad")
    with open(batch, "wb") as frames, open(unread, "wb") as bad:
        for number in range(options.files):
            family = families[number % len(families)]
            columns = str(max(1, int(options.entries * COLUMNS[family])))
            made = subprocess.run([os.path.join(options.work, "generate"), family, columns, str(number + 1)],
                                  capture_output=True, check=True).stdout
            with open(os.path.join(folder, f"{number:06}.mtx"), "wb") as file:
                file.write(made)
            frames.write(b"file %d\n" % len(made) + made)
            bad.write(b"file %d\n" % len(made) + b"?" + made[1:])
    reading = timed([options.batch, "--workers", "1"], unread, os.devnull, options.repeats, status=1)
    print(f"reading alone: {reading:.2f} s")
    first, base = None, None
    for workers in options.workers.split(","):
        target = os.path.join(options.work, "batch-text-" + workers)
        seconds = timed([options.batch, "--workers", workers], batch, target, options.repeats)
        base = base or seconds
        apart = (seconds - reading) / (base - reading)
        print(f"btf_batch --workers {workers}: {seconds:.2f} s, {seconds / base:.2f}, reading aside {apart:.2f}")
        with open(target, "rb") as file:
            text = file.read()
        first = first or text
        if text != first:
            print("the text differs with", workers, "workers")
            return 1
    loop = f"for f in {folder}/*.mtx; do {options.btf} analyse --engine pf < $f; done"
    target = os.path.join(options.work, "loop-text")
    print(f"a loop of btf analyse: {timed(loop, os.devnull, target, options.repeats, shell=True):.2f} s")
    reports = b"".join(line for line in first.splitlines(keepends=True)
                       if not line.startswith(b"file ") and not line.startswith(b"end "))
    with open(target, "rb") as file:
        if file.read() != reports:
            print("the reports differ from those of btf analyse")
            return 1
    if build(options.work, "peers"):
        target = os.path.join(options.work, "peer-text")
        seconds = timed([os.path.join(options.work, "peers"), "batch", "cxsparse"], batch, target, options.repeats)
        print(f"CXSparse in one process: {seconds:.2f} s")
        with open(target, "rb") as file:
            if counts(file.read()) != counts(reports):
                print("the counts differ from those of CXSparse")
                return 1
    return 0


if __name__ == "__main__":
    sys.exit(main())

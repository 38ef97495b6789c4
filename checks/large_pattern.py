#!/usr/bin/env python3
"""Runs the built program on a matrix past the size that serial phases search to the end, so that workers search it.

    checks/large_pattern.py crates/btf/out/btf [--blocks 250001] [--work DIR]

The gate runs it (`checks/quick --built`). It takes a minute or two, 150 MB of a disk and 2 GB of memory. The matrix has 12 rows and 12
columns a block, together 6,000,024; `graft` searches more than 6,000,000 by workers. It is looked whether

- `analyse` by `graft` with one worker and with four writes the text that `pf` writes, byte for byte;
- its rank is the number of columns, as each block has a perfect matching;
- four workers start threads that one does not: counted by `strace`, or where that is not installed by looking again and
  again how many threads the process has.

In each block the columns 4 to 7 have entries in the rows 1 to 4, and each of the columns 1 to 3 in one of these rows, or
in two, besides rows that no other of these columns has: column 1 in the rows 1 and 2, column 2 in the rows 2 and 3, column 3 in row 3. The
start of Karp and Sipser takes rows 1 to 3 for the columns 1 to 3, and row 4 for column 4; so of each block the columns 5
to 7 and the rows 7, 10 and 12 are left. A depth-first phase goes from column 5 by the rows 1, 2 and 3 to row 12, and then
finds these rows passed from the columns 6 and 7. So it matches one of three, and no serial phase follows. Workers find the
two others: 500,002 columns are in their first frontier, enough for threads.
"""
import argparse
import os
import shutil
import subprocess
import sys
import tempfile
import time

# the rows of each column of a block
BLOCK = [
    [1, 2, 5, 6], [2, 3, 8, 9], [3, 11, 12],
    [1, 2, 3, 4], [1, 2, 3, 4], [1, 2, 3, 4], [1, 2, 3, 4],
    [5, 7], [6, 7], [8, 10], [9, 10], [11, 12],
]
SIZE = len(BLOCK)
ENTRIES = [(row, col) for col, rows in enumerate(BLOCK, 1) for row in rows]


def write_matrix(path, blocks):
    """Writes the matrix, column by column."""
    lines = "%d %d\n" * len(ENTRIES)
    flat = [number for entry in ENTRIES for number in entry]
    with open(path, "w", encoding="ascii") as file:
        file.write("%%MatrixMarket matrix coordinate pattern general\n")
        file.write(f"{blocks * SIZE} {blocks * SIZE} {blocks * len(ENTRIES)}\n")
        for block in range(blocks):
            before = block * SIZE
            file.write(lines % tuple(number + before for number in flat))


def most_tasks(process):
    """How many threads a process has at most, as far as looks tell, until it ends."""
    most = 0
    while process.poll() is None:
        try:
            most = max(most, len(os.listdir(f"/proc/{process.pid}/task")))
        except OSError:
            pass
        time.sleep(0.0005)
    return most


def run(program, words, matrix, out, work):
    """Runs the program, and gives how many threads it started, or, where `strace` is not installed, had at most."""
    trace = os.path.join(work, "trace")
    strace = ["strace", "-f", "-qq", "-e", "trace=clone,clone3", "-e", "signal=none", "-o", trace]
    command = (strace if shutil.which("strace") else []) + [program, "analyse"] + words
    start = time.monotonic()
    with open(matrix, "rb") as source, open(out, "wb") as sink:
        process = subprocess.Popen(command, stdin=source, stdout=sink)
        threads = most_tasks(process)
    if shutil.which("strace"):
        with open(trace, encoding="utf-8", errors="replace") as lines:
            threads = sum("clone" in line and "resumed" not in line for line in lines)
    if process.returncode != 0:
        sys.exit(f"{' '.join(command)}: status {process.returncode}")
    print(f"{' '.join(words)}: {threads} threads, {time.monotonic() - start:.1f} s")
    return threads


def same(first, second):
    """Whether two files have the same bytes."""
    with open(first, "rb") as one, open(second, "rb") as other:
        while True:
            piece = one.read(1 << 20)
            if piece != other.read(1 << 20):
                return False
            if not piece:
                return True


def main():
    parser = argparse.ArgumentParser(description=__doc__, formatter_class=argparse.RawDescriptionHelpFormatter)
    parser.add_argument("btf")
    parser.add_argument("--blocks", type=int, default=250_001)
    parser.add_argument("--work", default=None)
    options = parser.parse_args()
    faults = []
    with tempfile.TemporaryDirectory(dir=options.work) as work:
        matrix = os.path.join(work, "matrix.mtx")
        write_matrix(matrix, options.blocks)
        engines = {
            "pf": ["--engine", "pf"],
            "one": ["--engine", "graft", "--workers", "1"],
            "four": ["--engine", "graft", "--workers", "4"],
        }
        texts = {name: os.path.join(work, name) for name in engines}
        threads = {name: run(options.btf, words, matrix, texts[name], work) for name, words in engines.items()}
        faults += [f"{name} writes another text than pf" for name in ("one", "four") if not same(texts["pf"], texts[name])]
        with open(texts["four"], encoding="ascii") as text:
            head = [text.readline().rstrip("\n") for _ in range(3)]
    columns = options.blocks * SIZE
    if head[1:] != [f"matrix {columns} {columns} {options.blocks * len(ENTRIES)}", f"rank {columns}"]:
        faults.append(f"the text begins with {head}")
    if len(os.sched_getaffinity(0)) < 2:
        print("threads are not compared: there is one processor")
    elif threads["four"] <= threads["one"]:
        faults.append("four workers start no more threads than one")
    for fault in faults:
        print(fault)
    print(f"large_pattern: {'failed' if faults else 'passed'}")
    return 1 if faults else 0


if __name__ == "__main__":
    sys.exit(main())

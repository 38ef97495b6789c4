#!/usr/bin/env python3
"""Times klu_analyze of SuiteSparse's KLU as a whole on libbtf and on libblocktri_btf, on real matrices; prints a table.

    apt-get install libsuitesparse-dev
    make -C library
    bench/klu.py FOLDER.. [--times 15] [--rounds 3] [--entries 1] [--library library/build] [--demos KLU/Demo]

It takes each square matrix that bench/real.py finds below the folders. Symmetric ones are filled up, and an explicit zero is an entry. For each matrix and library a
process of its own calls klu_analyze several times and tells the least wall time; the two take turns for some rounds. libbtf is the one
that KLU is linked with, libblocktri_btf is loaded before it (LD_PRELOAD). The rank has to be equal, and at full rank the number of blocks
and the largest one: the exit status is 1 if not.

With --demos it compiles kludemo, kluldemo and klu_simple of KLU's sources too (they need CHOLMOD), runs them on both, the first two on
each matrix of the folders that they take, and prints what they tell beside each other.
"""
import argparse
import array
import ctypes
import math
import os
import re
import subprocess
import sys
import tempfile
import time

import real

HERE = os.path.dirname(os.path.abspath(__file__))
HEAD = "| matrix | n | rank | blocks | largest | libbtf, microseconds | libblocktri_btf, microseconds | ratio |\n|" + "---|" * 8


class Symbolic(ctypes.Structure):
    """klu_symbolic, as klu.h declares it."""

    _fields_ = [(name, ctypes.c_double) for name in ("symmetry", "est_flops", "lnz", "unz")]
    _fields_ += [("Lnz", ctypes.c_void_p), ("n", ctypes.c_int), ("nz", ctypes.c_int)]
    _fields_ += [(name, ctypes.c_void_p) for name in ("P", "Q", "R")]
    _fields_ += [(name, ctypes.c_int) for name in ("nzoff", "nblocks", "maxblock", "ordering", "do_btf", "structural_rank")]


def compressed(text):
    """The size of a square matrix, its starts and its ids, one behind the other; or nothing for another matrix."""
    head, _, rest = text.decode("latin-1").partition("\n")
    lines = (line.split() for line in rest.splitlines() if line.strip() and not line.startswith("%"))
    rows, columns, _ = (int(word) for word in next(lines)[:3])
    if "coordinate" not in head.lower() or rows != columns or rows == 0:
        return None
    places = {(int(line[1]) - 1, int(line[0]) - 1) for line in lines}
    if "general" not in head.lower():
        places |= {(row, column) for column, row in places}
    starts = [0] * (columns + 1)
    for column, _ in places:
        starts[column + 1] += 1
    for column in range(columns):
        starts[column + 1] += starts[column]
    return array.array("i", [columns, *starts, *(row for _, row in sorted(places))]).tobytes()


def measure(numbers, times):
    """Prints whether libblocktri_btf is loaded, n, rank, blocks and largest block, and the least nanoseconds of a call."""
    rows = numbers[0]
    starts, ids = ((ctypes.c_int * max(1, len(it)))(*it) for it in (numbers[1:rows + 2], numbers[rows + 2:]))
    klu = ctypes.CDLL("libklu.so.1")
    klu.klu_analyze.restype = ctypes.POINTER(Symbolic)
    common = ctypes.create_string_buffer(1024)  # klu_common is smaller
    klu.klu_defaults(common)
    least, symbolic = math.inf, None
    for _ in range(times):
        if symbolic:
            klu.klu_free_symbolic(ctypes.byref(symbolic), common)
        begin = time.perf_counter_ns()
        symbolic = klu.klu_analyze(rows, starts, ids, common)
        least = min(least, time.perf_counter_ns() - begin)
    if not symbolic:
        return
    with open("/proc/self/maps", encoding="utf-8") as maps:
        is_ours = "libblocktri_btf" in maps.read()
    it = symbolic.contents
    print(int(is_ours), it.n, it.structural_rank, it.nblocks, it.maxblock, least)


def environment(library, is_ours):
    """The environment of a process that has libblocktri_btf before libbtf, or not."""
    if not is_ours:
        return dict(os.environ)
    path = f"{library}:{os.environ.get('LD_LIBRARY_PATH', '')}"
    return dict(os.environ, LD_LIBRARY_PATH=path, LD_PRELOAD=f"{library}/libblocktri_btf.so.1")


def ask(options, lists, is_ours):
    """What a process tells: n, rank, blocks, largest, nanoseconds; or nothing for a matrix that KLU does not take."""
    command = [sys.executable, os.path.abspath(__file__), "--measure", "--times", str(options.times)]
    done = subprocess.run(command, input=lists, stdout=subprocess.PIPE, env=environment(options.library, is_ours), check=True)
    numbers = [int(word) for word in done.stdout.split()]
    if numbers and numbers[0] != is_ours:
        sys.exit("klu.py: the other library was loaded")
    return numbers[1:]


def compare(options, path, lists):
    """Prints the line of a matrix. Gives the ratio of times, or none, and whether what has to be equal is so."""
    told = [[ask(options, lists, is_ours) for is_ours in (False, True)] for _ in range(options.rounds)]
    (theirs, ours), times = told[0], [min((it[side][4] for it in told if it[side]), default=0) for side in (0, 1)]
    if not theirs or not ours:
        return None, bool(theirs) == bool(ours)
    is_full = theirs[0] == theirs[1]
    is_right = theirs[:4] == ours[:4] if is_full else theirs[:2] == ours[:2]
    numbers = [str(a) if a == b else f"{a} and {b}" for a, b in zip(theirs[:4], ours[:4])]
    ratio = times[1] / times[0]
    told_times = [f"{nanoseconds / 1000:.1f}" for nanoseconds in times]
    print("| " + " | ".join([os.path.basename(path), *numbers, *told_times, f"{ratio:.2f}"]) + " |", flush=True)
    return ratio, is_right


def matrices(options):
    """The path, the Matrix Market text and the lists of each square matrix that can be read and is large enough."""
    for path in real.files_below(options.folders):
        try:
            text = real.text_of(path)
            lists = compressed(text)
        except (OSError, EOFError, ValueError, TypeError, IndexError, StopIteration):
            continue
        if lists and len(lists) // 4 - int.from_bytes(lists[:4], sys.byteorder) - 2 >= options.entries:
            yield path, text, lists


def run_demo(options, program, text):
    """What a demo prints on both libraries, without times and memory."""
    printed = [subprocess.run([program], input=text, stdout=subprocess.PIPE, env=environment(options.library, is_ours)).stdout.decode()
               for is_ours in (False, True)]
    return [re.sub(r"(?m)^.*(memory usage|time:).*\n", "", it) for it in printed]


def demos(options, work):
    """Compiles and runs KLU's demos, and prints those lines in which the libraries differ."""
    for name in ("klu_simple", "kludemo", "kluldemo"):
        program, source = os.path.join(work, name), os.path.join(options.demos, f"{name}.c")
        if subprocess.run(["gcc", "-w", "-I/usr/include/suitesparse", "-o", program, source, "-lklu", "-lcholmod", "-lm"]).returncode:
            sys.exit(f"klu.py: {source} does not compile")
        for path, text, _ in [("", b"", b"")] if name == "klu_simple" else matrices(options):
            theirs, ours = (it.splitlines() for it in run_demo(options, program, text))
            differ = [f"    {a}\n    {b}" for a, b in zip(theirs, ours) if a != b]
            print(f"{name} {os.path.basename(path)}: {len(theirs)} and {len(ours)} lines, {len(differ)} differ", *differ, sep="\n")


def main():
    parser = argparse.ArgumentParser(description=__doc__, formatter_class=argparse.RawDescriptionHelpFormatter)
    parser.add_argument("folders", nargs="*", metavar="FOLDER")
    parser.add_argument("--times", type=int, default=15)
    parser.add_argument("--rounds", type=int, default=3)
    parser.add_argument("--entries", type=int, default=1, help="the least number of entries")
    parser.add_argument("--library", default=os.path.join(HERE, "..", "library", "build"))
    parser.add_argument("--demos", metavar="FOLDER")
    parser.add_argument("--measure", action="store_true", help=argparse.SUPPRESS)
    options = parser.parse_args()
    if options.measure:
        measure(array.array("i", sys.stdin.buffer.read()), options.times)
        return
    options.library = os.path.abspath(options.library)
    print(HEAD)
    told = [compare(options, path, lists) for path, _, lists in matrices(options)]
    ratios = [ratio for ratio, _ in told if ratio]
    if ratios:
        print(f"\n{len(ratios)} matrices, geometric mean of the ratio {math.exp(sum(map(math.log, ratios)) / len(ratios)):.2f}")
    if options.demos:
        with tempfile.TemporaryDirectory() as work:
            demos(options, work)
    sys.exit(0 if ratios and all(is_right for _, is_right in told) else 1)


if __name__ == "__main__":
    main()

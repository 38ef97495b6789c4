#!/usr/bin/env python3
"""Calls libblocktri, CXSparse and SuiteSparse BTF on real matrices: one process a file, in turns; prints tables.

    apt-get install g++ libsuitesparse-dev
    make -C library
    bench/real.py FOLDER.. [--entries 1000] [--times 15] [--limit SECONDS] [--csv FILE]
                  [--library library/build/libblocktri.a] [--work DIR]

It takes each Matrix Market file of coordinates (.mtx, .mm) and each assembled Harwell-Boeing or Rutherford-Boeing file (.rua,
.rsa, .rb, .hb and the like) below the folders, also with .gz behind the name, that has at least so many entries. Symmetric
matrices are filled up, explicit zeros are entries, and of files with the same pattern only the first by name is taken.

Times are nanoseconds an entry by the wall clock, the least of several: --times on large matrices, up to twenty times as many on
small ones (real.cpp). They hold the making of each call's lists, and no reader. "-" stands for a call that did not end within the
limit, and for the block order of a matrix that is not square.

The last table has the geometric mean, the median, the 0.9 quantile and the worst of each ratio, for all files and by kind. All
calls must find the same rank, the decompositions the same parts, and at full rank all the same number of blocks: the exit
status is 1 if not.
"""
import argparse
import collections
import csv
import gzip
import math
import os
import re
import statistics
import subprocess
import sys
import tempfile

HERE = os.path.dirname(os.path.abspath(__file__))
MATRIX_MARKET = re.compile(r"\.(mtx|mm)(\.gz)?$", re.IGNORECASE)
HARWELL_BOEING = re.compile(r"\.(rb|hb|[rcpi][usrhz]a)(\.gz)?$", re.IGNORECASE)
CALLS = ["blocktri_rank", "btf_maxtrans", "cs_maxtrans", "blocktri_block_order", "btf_order", "blocktri_decomposition", "cs_dmperm",
         "blocktri_dmperm"]
FORMS = ["cs_dmperm", "blocktri_decomposition", "blocktri_dmperm"]

# what is divided by what
RATIOS = {
    "rank to btf_maxtrans": ("blocktri_rank", "btf_maxtrans"),
    "rank to cs_maxtrans": ("blocktri_rank", "cs_maxtrans"),
    "block order to btf_order": ("blocktri_block_order", "btf_order"),
    "decomposition to cs_dmperm": ("blocktri_decomposition", "cs_dmperm"),
    "dmperm to cs_dmperm": ("blocktri_dmperm", "cs_dmperm"),
}
NOT_FULL = "less than full rank or rectangular"
KINDS = ["first look finds all, one block", "first look finds all, several blocks", "searches needed", NOT_FULL]


class Look:
    """What a file holds, before any call."""

    def __init__(self, path, text, told):
        self.path, self.text = path, text
        self.name = re.sub(r"\.\w+(\.gz)?$", "", "/".join(os.path.abspath(path).split("/")[-2:]))
        rows, columns, entries, self.pattern, finds_all = told.split()
        self.rows, self.columns, self.entries = int(rows), int(columns), int(entries)
        self.first_look_finds_all = finds_all == "1"


class Measured:
    """The nanoseconds of each call, and what it found: the rank, then the blocks and parts."""

    def __init__(self, look, told):
        self.look, self.nanoseconds, self.found = look, {}, {}
        for line in told.splitlines():
            name, *numbers = line.split()
            self.nanoseconds[name], self.found[name] = int(numbers[0]), [int(number) for number in numbers[1:]]
        self.rank, self.blocks = next(self.found[name] for name in FORMS if name in self.found)[:2]
        self.is_full = look.rows == look.columns == self.rank
        self.kind = self.kind_of()

    def kind_of(self):
        if not self.is_full:
            return NOT_FULL
        if not self.look.first_look_finds_all:
            return "searches needed"
        return KINDS[0] if self.blocks == 1 else KINDS[1]

    def ratio(self, name):
        """How long our call takes of the package's time, or none where one of them has no time."""
        ours, other = (self.nanoseconds.get(call) for call in RATIOS[name])
        return ours / other if ours and other else None

    def differences(self):
        """In what the answers of the calls differ."""
        kinds = {
            "rank": {found[0] for found in self.found.values()},
            "parts": {tuple(self.found[name]) for name in FORMS if name in self.found},
            "number of blocks": {found[1] for found in self.found.values() if self.is_full and len(found) > 1},
        }
        return [kind for kind, answers in kinds.items() if len(answers) > 1]


def whole_numbers(lines, form):
    """The numbers of lines in a Fortran format, as (16I5): fields of one width with or without spaces between."""
    width = int(re.search(r"I(\d+)", form.upper())[1])
    return [int(line[at:at + width]) for line in lines for at in range(0, len(line.rstrip()), width)]


def from_harwell_boeing(text):
    """The same pattern as a Matrix Market file."""
    lines = text.decode("latin-1").splitlines()
    starts_lines, rows_lines, *others = (int(word) for word in lines[1].split()[1:])
    kind, (rows, columns, _) = lines[2][:3].upper(), (int(word) for word in lines[2][3:].split()[:3])
    if kind[2] != "A":
        raise ValueError("not assembled")
    begin = 5 if len(others) > 1 and others[1] > 0 else 4
    middle = begin + starts_lines
    starts = whole_numbers(lines[begin:middle], lines[3][:16])
    ids = whole_numbers(lines[middle:middle + rows_lines], lines[3][16:32])
    places = [f"{row} {column + 1}\n" for column in range(columns) for row in ids[starts[column] - 1:starts[column + 1] - 1]]
    symmetry = "general" if kind[1] in "RU" else "symmetric"
    return f"%%MatrixMarket matrix coordinate pattern {symmetry}\n{rows} {columns} {len(places)}\n{''.join(places)}".encode()


def text_of(path):
    """The Matrix Market file that is there, or that is made of what is there."""
    with (gzip.open if path.lower().endswith(".gz") else open)(path, "rb") as file:
        text = file.read()
    return text if MATRIX_MARKET.search(path) else from_harwell_boeing(text)


def files_below(folders):
    for folder in folders:
        for there, folders_below, names in os.walk(folder):
            folders_below.sort()
            for name in sorted(names):
                if MATRIX_MARKET.search(name) or HARWELL_BOEING.search(name):
                    yield os.path.join(there, name)


def looks(options, program):
    """Each matrix that is large enough, once; on standard error, how many files are left out, and why."""
    left_out, patterns = collections.Counter(), set()
    for path in files_below(options.folders):
        try:
            text = text_of(path)
            told = subprocess.run([program, "look"], input=text, capture_output=True, check=True).stdout.decode()
        except (OSError, EOFError, ValueError, TypeError, IndexError, subprocess.CalledProcessError):
            left_out["not assembled, no coordinates, or not as its name says"] += 1
            continue
        look = Look(path, text, told)
        if look.entries < options.entries:
            left_out["too few entries"] += 1
        elif look.pattern in patterns:
            left_out["a pattern that was there before"] += 1
        else:
            patterns.add(look.pattern)
            yield look
    for why, number in left_out.items():
        print(f"real.py: {number} files left out: {why}", file=sys.stderr)


def short(number, places):
    return "-" if number is None else f"{number:.{places}f}"


def print_line(measured):
    look = measured.look
    times = [short(measured.nanoseconds[call] / look.entries if call in measured.nanoseconds else None, 2) for call in CALLS]
    ratios = [short(measured.ratio(name), 2) for name in RATIOS]
    numbers = [look.name, look.rows, look.columns, look.entries, measured.rank, measured.blocks, measured.kind]
    print("| " + " | ".join([*map(str, numbers), *times, *ratios]) + " |", flush=True)


def print_head():
    names = ["matrix", "rows", "columns", "entries", "rank", "blocks", "kind", *CALLS, *RATIOS]
    print("| " + " | ".join(names) + " |\n|" + "---|" * len(names), flush=True)


def print_summary(name, kind, of_kind):
    """A line of the last table, for those of these files that have the ratio."""
    ratios = sorted((measured.ratio(name), measured.look.name) for measured in of_kind if measured.ratio(name) is not None)
    if not ratios:
        return
    numbers = [ratio for ratio, _ in ratios]
    mean = math.exp(statistics.fmean(map(math.log, numbers)))
    quantile = numbers[math.ceil(0.9 * len(numbers)) - 1]
    told = " | ".join(f"{number:.2f}" for number in (mean, statistics.median(numbers), quantile, numbers[-1]))
    print(f"| {name} | {kind} | {len(numbers)} | {told} | {ratios[-1][1]} |")


def print_summaries(all_measured):
    print("\n| ratio | kind | files | mean | median | 0.9 quantile | worst | which |\n|---|---|---|---|---|---|---|---|")
    for name in RATIOS:
        only_full = name == "block order to btf_order"  # of a singular matrix there is none
        most = [measured for measured in all_measured if measured.is_full or not only_full]
        print_summary(name, "full rank" if only_full else "all", most)
        for kind in KINDS:
            shown = "square, less than full rank" if only_full and kind == NOT_FULL else kind
            print_summary(name, shown, [measured for measured in all_measured if measured.kind == kind])


def write_csv(path, all_measured):
    """All numbers: the file, the matrix, nanoseconds of each call, and ratios."""
    with open(path, "w", encoding="utf-8", newline="") as file:
        table = csv.writer(file)
        table.writerow(["file", "rows", "columns", "entries", "rank", "blocks", "kind", *CALLS, *RATIOS])
        for it in all_measured:
            look, times = it.look, [it.nanoseconds.get(call, "") for call in CALLS]
            ratios = ["" if it.ratio(name) is None else f"{it.ratio(name):.4f}" for name in RATIOS]
            table.writerow([look.path, look.rows, look.columns, look.entries, it.rank, it.blocks, it.kind, *times, *ratios])


def measure(options, program):
    """Measures each file and prints its line. What was measured, and on how many files answers differ, or the library has none."""
    all_measured, wrong = [], 0
    for look in looks(options, program):
        run = subprocess.run([program, "times", str(options.times), str(options.limit)], input=look.text, stdout=subprocess.PIPE)
        look.text = b""
        if run.returncode or b"blocktri_decomposition" not in run.stdout:
            print(f"real.py: no decomposition of {look.path}, status {run.returncode}", file=sys.stderr)
            wrong += 1
            continue
        measured = Measured(look, run.stdout.decode())
        for difference in measured.differences():
            print(f"real.py: another {difference} on {look.path}: {measured.found}", file=sys.stderr)
        wrong += bool(measured.differences())
        all_measured.append(measured)
        print_line(measured)
    return all_measured, wrong


def main():
    parser = argparse.ArgumentParser(description=__doc__, formatter_class=argparse.RawDescriptionHelpFormatter)
    parser.add_argument("folders", nargs="+", metavar="FOLDER")
    parser.add_argument("--entries", type=int, default=1000, help="the least number of entries")
    parser.add_argument("--times", type=int, default=15)
    parser.add_argument("--limit", type=int, default=10)
    parser.add_argument("--csv", metavar="FILE")
    parser.add_argument("--library", default=os.path.join(HERE, "..", "library", "build", "libblocktri.a"))
    parser.add_argument("--work", default=os.path.join(tempfile.gettempdir(), "bench-work"))
    options = parser.parse_args()
    os.makedirs(options.work, exist_ok=True)
    program, source = os.path.join(options.work, "real"), os.path.join(HERE, "real.cpp")
    packages = [options.library, "-lcxsparse", "-lbtf"]
    if subprocess.run(["g++", "-O3", "-std=c++17", "-o", program, source] + packages).returncode:
        sys.exit("real.py: real.cpp does not compile")
    print_head()
    all_measured, wrong = measure(options, program)
    print_summaries(all_measured)
    if options.csv:
        write_csv(options.csv, all_measured)
    sys.exit(1 if wrong or not all_measured else 0)


if __name__ == "__main__":
    main()

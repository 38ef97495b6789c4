#!/usr/bin/env python3
"""Calls libblocktri and what Debian packages on the same compressed columns in one process, in turns, and prints a table.

    apt-get install g++ libsuitesparse-dev libigraph-dev libmumps-seq-dev
    make -C library
    bench/library.py [--job rank|decomposition|heaviest] [--library library/build/libblocktri.a] [--work DIR] [--entries 100000]
                     [--families er10,grid2d] [--repeats 5] [--limit SECONDS] [--clock processor] [--memory]
    bench/library.py --job forms [--entries 100000] [--families er10,grid2d] [--limit SECONDS]

No reader is in the times. They are nanoseconds an entry, the least of the repeats, by the wall clock or of the processor; "-"
did not end within the limit. Behind them stands how long libblocktri takes of the fastest package's time, and for each size
and family whether that is within the aim: at most half of the package's time where that is more than 20 ns an entry; else no
more than it, or than 5 ns an entry more (of a decomposition 10). With --memory a second table has the peak memory of each call,
in bytes an entry. What the calls find is compared: the ranks, of a decomposition the sizes of its parts and the number of
blocks; a difference is told and makes the exit status 1.

The job "forms" takes no times: by forms.cpp it compares the whole answers of blocktri_dmperm and cs_dmperm, the latter with each of
three seeds, and looks whether they keep what blocktri.h says of them.
"""
import argparse
import os
import subprocess
import sys
import tempfile

from run import COLUMNS, build, matrix
from processes import entries_of

HERE = os.path.dirname(os.path.abspath(__file__))
FAMILIES = "er27,er10,rmat,grid2d,circuit,hilo,fewg,ksbad,hexa,lattice,wide,tall"
INTEGERS = "er12i,circuiti,bandi"
SEEDS = ["0", "-1", "7"]  # cs_dmperm goes through the columns as they are, backwards, or at random
MARGIN = {"rank": 5, "decomposition": 10, "heaviest": 0}

# job: pairs of one of our calls and the packages' calls that it stands beside; of which the found numbers are to be the same
BESIDE = {
    "rank": [("blocktri_rank", "cs_maxtrans,btf_maxtrans,igraph,hopcroft_karp"),
             ("blocktri_matching", "cs_maxtrans,btf_maxtrans,igraph,hopcroft_karp")],
    "decomposition": [("blocktri_decomposition", "cs_dmperm"), ("blocktri_dmperm", "cs_dmperm"), ("blocktri_block_order", "btf_order")],
    "heaviest": [("blocktri_heaviest", "mumps")],
}


def build_over(options, name, packages):
    """A program in C++, over the library that is named. Whether it compiled."""
    program, source = os.path.join(options.work, name), os.path.join(HERE, name + ".cpp")
    return subprocess.run(["g++", "-O3", "-std=c++17", "-o", program, source, options.library] + packages).returncode == 0


def build_all(options):
    """The program that makes the files, and that of the job."""
    if options.job == "forms":
        built = build_over(options, "forms", ["-lcxsparse"])
    else:
        built = build_over(options, "library", ["-lcxsparse", "-lbtf", "-ligraph", "-ldmumps_seq"])
    if not built or not build(options.work, "generate"):
        sys.exit("library.py: the programs do not compile")


def measured(options, path):
    """What the program tells of each call: wall and processor nanoseconds, bytes, and what was found; none of one too slow."""
    command = [os.path.join(options.work, "library"), options.job, str(options.repeats), str(options.limit), options.leave_out]
    with open(path, "rb") as file:
        text = subprocess.run(command, stdin=file, stdout=subprocess.PIPE, check=True).stdout.decode()
    calls = {}
    for line in text.splitlines():
        name, *numbers = line.split()
        calls[name] = None if numbers == ["-"] else [int(number) for number in numbers]
    return calls


def differing(options, calls):
    """The packages that find another rank, another size or another number of blocks."""
    found = []
    for ours, packages in BESIDE[options.job]:
        for package in packages.split(","):
            mine, other = calls.get(ours), calls.get(package)
            if mine and other and mine[3:] != other[3:]:
                found.append(package)
    return found


def within(job, ours, best):
    """Whether nanoseconds an entry are within the aim."""
    if best > 20:
        return ours <= best / 2
    return ours <= best + MARGIN[job]


def cells(options, calls, entries):
    clock = 0 if options.clock == "wall" else 1
    per_entry = {name: numbers[clock] / entries for name, numbers in calls.items() if numbers}
    times = [f"{per_entry[name]:.1f}" if name in per_entry else "-" for name in names(options)]
    for ours, packages in BESIDE[options.job]:
        others = [per_entry[package] for package in packages.split(",") if package in per_entry]
        if ours in per_entry and others:
            best = min(others)
            times.append(f"{per_entry[ours] / best:.2f}{'' if within(options.job, per_entry[ours], best) else ' !'}")
        else:
            times.append("-")
    return times


def names(options):
    """All calls of the job, ours first."""
    ours = [name for name, _ in BESIDE[options.job]]
    others = [package for _, packages in BESIDE[options.job] for package in packages.split(",")]
    return ours + list(dict.fromkeys(others))


def form(options, path, seed):
    """What forms.cpp tells: the rank and the number of blocks, or what does not hold; and its exit status. None if too slow."""
    command = [os.path.join(options.work, "forms"), seed]
    with open(path, "rb") as file:
        try:
            run = subprocess.run(command, stdin=file, stdout=subprocess.PIPE, timeout=options.limit)
        except subprocess.TimeoutExpired:
            return None
    return run.stdout.decode().strip(), run.returncode


def forms(options, paths):
    """A table of the files and seeds for which the forms are alike. Whether one is not."""
    print("| family | entries | rank, blocks | " + " | ".join("seed " + seed for seed in SEEDS) + " |")
    print("|---|---|---|" + "---|" * len(SEEDS))
    differs = False
    for family, path in paths:
        found = [form(options, path, seed) for seed in SEEDS]
        counts = {text for text, status in filter(None, found) if status == 0}
        told = ["-" if it is None else "alike" if it[1] == 0 else it[0] or f"status {it[1]}" for it in found]
        differs = differs or any(it and it[1] != 0 for it in found)
        print(f"| {family} | {entries_of(path)} | {'; '.join(counts)} | " + " | ".join(told) + " |", flush=True)
    return differs


def times(options, paths):
    """A table of the calls' times, with --memory one of their memory. Whether a package finds something else."""
    columns = names(options)
    ratios = [ours + " of the best" for ours, _ in BESIDE[options.job]]
    print("| family | entries | " + " | ".join(columns + ratios) + " |")
    print("|---|---|" + "---|" * (len(columns) + len(ratios)))
    differs, memory = False, []
    for family, path in paths:
        entries, calls = entries_of(path), measured(options, path)
        print(f"| {family} | {entries} | " + " | ".join(cells(options, calls, entries)) + " |", flush=True)
        bytes_of = [f"{calls[name][2] / entries:.0f}" if calls.get(name) else "-" for name in columns]
        memory.append(f"| {family} | {entries} | " + " | ".join(bytes_of) + " |")
        for package in differing(options, calls):
            print(f"library.py: {package} differs on {path}", file=sys.stderr)
            differs = True
    if options.memory:
        print("\n| family | entries | " + " | ".join(columns) + " |\n|---|---|" + "---|" * len(columns))
        print("\n".join(memory))
    return differs


def main():
    parser = argparse.ArgumentParser(description=__doc__, formatter_class=argparse.RawDescriptionHelpFormatter)
    parser.add_argument("--job", choices=[*BESIDE, "forms"], default="rank")
    parser.add_argument("--library", default=os.path.join(HERE, "..", "library", "build", "libblocktri.a"))
    parser.add_argument("--work", default=os.path.join(tempfile.gettempdir(), "bench-work"))
    parser.add_argument("--entries", default="100000,1000000")
    parser.add_argument("--families")
    parser.add_argument("--repeats", type=int, default=5)
    parser.add_argument("--limit", type=int, default=10)
    parser.add_argument("--clock", choices=["wall", "processor"], default="wall")
    parser.add_argument("--leave-out", default="", help="calls that are not to be run, as cs_maxtrans,igraph")
    parser.add_argument("--memory", action="store_true")
    options = parser.parse_args()
    default = {"heaviest": INTEGERS, "forms": ",".join(COLUMNS)}.get(options.job, FAMILIES)
    os.makedirs(options.work, exist_ok=True)
    build_all(options)
    families, sizes = (options.families or default).split(","), options.entries.split(",")
    paths = ((family, matrix(options.work, family, int(size))) for family in families for size in sizes)
    sys.exit(1 if (forms if options.job == "forms" else times)(options, paths) else 0)


if __name__ == "__main__":
    main()

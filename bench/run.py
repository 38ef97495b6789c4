#!/usr/bin/env python3
"""Runs `btf rank`, `analyse`, `diagonal` or `bottleneck` and what Debian packages for the same job on the same files,
interleaved, and prints a table.

    apt-get install g++ libsuitesparse-dev libigraph-dev libmumps-seq-dev python3-scipy
    bench/run.py --btf crates/btf/out/btf [--job analyse|diagonal|bottleneck] [--work DIR] [--entries 100000]
                 [--families er27,grid2d] [--repeats 3] [--peers cxsparse,suitesparse] [--limit SECONDS]
                 [--clock processor] [--other NAME=COMMAND]

Families, sizes and peers are those of the job where none are named; others are hiloi, chaini and trii, and variants of
the integer families, as er12i-twos or bandi-late (bench/generate.cpp tells what they are). A peer whose package is
missing drops out; --other adds a program of your own, in whose COMMAND the word JOB stands for the job. Files, programs
and outputs go to DIR (by default bench-work in the system's folder for temporary files). Times are those of whole
processes, from a file in the page cache to a text in a file: the median of the repeats, by the wall clock, or by
processor seconds where the machine is busy. Every program writes the text of `btf rank`, or one with the numbers of
`btf analyse`, or a diagonal with the sum of `btf diagonal` or the least weight of `btf bottleneck`; a difference is told
and makes the exit status 1. Ratios of one run compare programs, and stand there against the fastest packaged peer;
single times compare nothing.
"""
import argparse
import os
import statistics
import subprocess
import sys
import tempfile
import typing

from processes import entries_of, once

HERE = os.path.dirname(os.path.abspath(__file__))

# family: how many columns give about so many entries
COLUMNS = {
    "er27": 1 / 2.7,
    "er10": 1 / 10,
    "rmat": 1 / 8,
    "grid2d": 1 / 5,
    "circuit": 0.29,
    "hilo": 1 / 9.8,
    "fewg": 1 / 5,
    "load": 1 / 3,
    "ksbad": 1 / 11,
    "hexa": 1 / 4.5,
    "lattice": 1 / 3.84,
    "ring": 1 / 3,
    "load30": 1 / 3,
    "wide": 1 / 4,
    "tall": 1 / 5,
    "parts": 1 / 5.2,
    "er12i": 1 / 13,
    "circuiti": 0.29,
    "bandi": 1 / 11,
    "hiloi": 1 / 9.8,
    "chaini": 1 / 2,
    "trii": 1 / 5,
}
PATTERNS = "er27,er10,rmat,grid2d,circuit,hilo,fewg,load,ksbad,hexa,lattice,ring,load30,wide,tall"


class Job(typing.NamedTuple):
    """The families, sizes and peers of a job where none are named, and the statuses of its answers."""

    families: str
    entries: str
    peers: str
    answers: tuple


# status 1: there is no diagonal
JOBS = {
    "rank": Job(PATTERNS, "100000,1000000", "cxsparse,suitesparse,igraph,scipy", (0,)),
    "analyse": Job(PATTERNS, "100000,1000000", "cxsparse,suitesparse,scipy", (0,)),
    "diagonal": Job("er12i,circuiti,bandi", "20000,200000,2000000", "mumps,scipy", (0, 1)),
    "bottleneck": Job("er12i,circuiti,bandi", "20000,200000,2000000", "mumps2,mumps3", (0, 1)),
}

# program: what it is linked with
COMPILED = {
    "generate": [],
    "peers": ["-lcxsparse", "-lbtf", "-ligraph"],
    "mumps": ["-ldmumps_seq"],
}


def build(work, name):
    """A program in C++, compiled where it is older than its source. Whether it compiled."""
    program, source = os.path.join(work, name), os.path.join(HERE, name + ".cpp")
    newest = max(os.path.getmtime(path) for path in (source, os.path.join(HERE, "columns.hpp")))
    if os.path.exists(program) and os.path.getmtime(program) > newest:
        return True
    return subprocess.run(["g++", "-O3", "-std=c++17", "-o", program, source] + COMPILED[name]).returncode == 0


def matrix(work, family, entries):
    """The file of a family with about so many entries."""
    return matrix_of_columns(work, family, max(1, int(entries * COLUMNS[family.split("-")[0]])))


def matrix_of_columns(work, family, columns):
    """The file of a family with about so many columns."""
    path = os.path.join(work, f"{family}-{columns}.mtx")
    if not os.path.exists(path):
        with open(path + ".part", "wb") as file:
            subprocess.run([os.path.join(work, "generate"), family, str(columns), "1"], stdout=file, check=True)
        os.rename(path + ".part", path)
    return path


def scipy_python():
    for python in ("/usr/bin/python3", sys.executable):
        if subprocess.run([python, "-c", "import scipy.sparse.csgraph"], stderr=subprocess.DEVNULL).returncode == 0:
            return python
    return None


def peer_command(work, job, peer):
    """How a peer does the job, or none where its package is missing."""
    if peer == "scipy":
        python = scipy_python()
        script = ["scipy_diagonal.py"] if job == "diagonal" else ["scipy_pattern.py", job]
        return [python, os.path.join(HERE, script[0])] + script[1:] if python else None
    if peer.startswith("mumps"):
        command = [os.path.join(work, "mumps"), job] + list(peer[len("mumps"):])
    else:
        command = [os.path.join(work, "peers"), job, peer]
    return command if os.path.exists(command[0]) else None


def programs(options):
    found = {"btf": [options.btf, options.job]}
    known = JOBS[options.job].peers.split(",")
    for peer in options.peers.split(","):
        command = peer_command(options.work, options.job, peer) if peer in known else None
        if command:
            found[peer] = command
    for other in options.other:
        name, command = other.split("=", 1)
        found[name] = [options.job if word == "JOB" else word for word in command.split()]
    return found


def counts(text):
    """The lines of a report that say how many: they don't hang on the order of blocks and lists."""
    words = (b"matrix", b"rank", b"horizontal", b"square", b"vertical")
    return {line.split()[0]: line for line in text.splitlines() if line.startswith(words)}


def agree(job, text, other):
    """Whether a peer's text is the same, or each count of `analyse` that it tells, or the first line of a diagonal."""
    if job == "rank":
        return text == other
    if job in ("diagonal", "bottleneck"):
        return text.split(b"\n", 1)[0] == other.split(b"\n", 1)[0]
    mine = counts(text)
    return all(mine.get(word) == line for word, line in counts(other).items())


def runs(options, tools, path):
    """The seconds of each run of each tool that has an answer in time, in turns, with its peak bytes and its text."""
    clock = 0 if options.clock == "wall" else 1
    times, peaks, texts, late = {name: [] for name in tools}, {}, {}, set()
    for _ in range(options.repeats):
        for name, command in tools.items():
            if name in late:
                continue
            out = os.path.join(options.work, name + ".out")
            done = once(command, path, out, options.limit, JOBS[options.job].answers)
            if done is None:
                late.add(name)
                continue
            times[name].append(done[clock])
            peaks[name] = done[2]
            with open(out, "rb") as text:
                texts[name] = text.read()
    return times, peaks, texts


def line(options, tools, path, family):
    """One line of the table, and whether the texts agree."""
    entries = entries_of(path)
    times, peaks, texts = runs(options, tools, path)
    differing = [name for name, text in texts.items() if "btf" in texts and not agree(options.job, texts["btf"], text)]
    for name in differing:
        print(f"run.py: {name} and btf differ on {path}", file=sys.stderr)
    median = {name: statistics.median(ts) for name, ts in times.items() if ts}
    packaged = [t for name, t in median.items() if name in JOBS[options.job].peers.split(",")]
    ratio = f"{median['btf'] / min(packaged):.2f}" if packaged and "btf" in median else "-"
    cells = [f"{median[name] * 1e9 / entries:.0f}" if name in median else "-" for name in tools]
    peak = f"{peaks['btf'] / entries:.0f}" if "btf" in peaks else "-"
    return f"| {family} | {entries} | " + " | ".join(cells) + f" | {ratio} | {peak} |", not differing


def main():
    parser = argparse.ArgumentParser(description=__doc__, formatter_class=argparse.RawDescriptionHelpFormatter)
    parser.add_argument("--btf", required=True)
    parser.add_argument("--job", choices=list(JOBS), default="rank")
    parser.add_argument("--clock", choices=["wall", "processor"], default="wall")
    parser.add_argument("--work", default=os.path.join(tempfile.gettempdir(), "bench-work"))
    parser.add_argument("--entries")
    parser.add_argument("--families")
    parser.add_argument("--peers")
    parser.add_argument("--other", action="append", default=[])
    parser.add_argument("--repeats", type=int, default=3)
    parser.add_argument("--limit", type=int, default=30)
    options = parser.parse_args()
    job = JOBS[options.job]
    options.families = options.families or job.families
    options.entries = options.entries or job.entries
    options.peers = options.peers or job.peers
    os.makedirs(options.work, exist_ok=True)
    if not build(options.work, "generate"):
        sys.exit("run.py: the generator does not compile")
    build(options.work, "peers" if options.job in ("rank", "analyse") else "mumps")
    tools = programs(options)
    print("| file | entries | " + " | ".join(f"{name} ns" for name in tools) + " | ratio to the best peer | btf bytes an entry |")
    print("|---|---|" + "---|" * (len(tools) + 2))
    differs = False
    for family in options.families.split(","):
        for size in options.entries.split(","):
            text, same = line(options, tools, matrix(options.work, family, int(size)), family)
            print(text, flush=True)
            differs = differs or not same
    sys.exit(1 if differs else 0)


if __name__ == "__main__":
    main()

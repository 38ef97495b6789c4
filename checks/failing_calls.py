#!/usr/bin/env python3
"""Runs the built programs with calls of the C library that fail, one at a time, and looks at their answers.

    checks/failing_calls.py crates/btf/out/btf [crates/btf_batch/out/btf_batch]

It is no part of the gate: it runs the programs as they were built, over the real devices. For each job below
- each allocation is refused in turn, until a run makes fewer than that: the answer is the job's own, or status 7 with
  nothing on standard output and the line `btf: out of memory` (of the batch program `btf_batch: ..`, and so below);
- each read fails in turn: status 5, nothing on standard output, `btf: read fault`; a read that fails is never taken for
  the end of the input;
- each write to standard output fails in turn: status 6, `btf: write fault`, and what was written is a prefix of the text;
- reads, and then writes, move a few bytes at a time: the job's own answer, so that nothing is lost;
- no thread can be made, or one can't: the job's own answer.
A closed or full standard output, one whose reader has gone, a folder as standard input and closed descriptors are tried
besides: each has its status and line, and no signal ends the program. The last line is `N passed, M failed`.
"""
import os
import subprocess
import sys
import tempfile

HERE = os.path.dirname(os.path.abspath(__file__))
PATTERN = "%%MatrixMarket matrix coordinate pattern general\n"
INTEGER = "%%MatrixMarket matrix coordinate integer general\n"
THREE_PARTS = PATTERN + "4 4 7\n1 1\n1 2\n1 3\n2 3\n2 4\n3 4\n4 4\n"
REPORT = (
    "btf 1\nmatrix 4 4 7\nrank 3\nhorizontal 1 2\nrows 1\ncolumns 1 2\nsquare 1 1\nblock 1 1\nrows 2\ncolumns 3\n"
    "vertical 2 1\nrows 3 4\ncolumns 4\npairs 3\n1 1\n2 3\n3 4\nend\n"
)
# its report is longer than what is written at once
DIAGONAL = PATTERN + "6000 6000 6000\n" + "".join(f"{i} {i}\n" for i in range(1, 6001))
WEIGHTS = INTEGER + "2 2 4\n1 1 3\n1 2 5\n2 1 4\n2 2 1\n"

EDITS = THREE_PARTS + "set 4 2\nclear 1 3\nreport\nset 4 2\nclear 2 2\n"

# words, input, status, how the text on standard output begins
JOBS = [
    (["rank"], THREE_PARTS, 0, "matrix 4 4 7\nrank 3\nhorizontal 1 2\n"),
    (["analyse", "--engine", "graft", "--workers", "2", "--order", "--pairs"], THREE_PARTS, 0, "btf 2\nmatrix 4 4 7\nrank 3\n"),
    (["analyse", "--engine", "pf", "--order", "--pairs"], THREE_PARTS, 0, "btf 2\nmatrix 4 4 7\nrank 3\n"),
    (["analyse", "--report", "1"], DIAGONAL, 0, "btf 1\nmatrix 6000 6000 6000\nrank 6000\n"),
    (["rank", "--drop-zeros"], WEIGHTS, 0, "matrix 2 2 4\nrank 2\nhorizontal 0 0\n"),
    (["diagonal"], WEIGHTS, 0, "diagonal 2 9\n2 1 4\n1 2 5\n"),
    (["check"], THREE_PARTS + REPORT, 0, "valid\n"),
    (["load", "--size", "30", "--seed", "0"], "", 0, "matrix 30 30 85\nrank 22\nhorizontal 22 30\nsquare 0 0\nvertical 8 0\n"),
    (["analyse", "--engine", "pf", "--least"], THREE_PARTS, 0, "btf 2\nmatrix 4 4 7\nrank 3\n"),
    (["bottleneck"], WEIGHTS, 0, "bottleneck 2 4\n2 1 4\n1 2 5\nabove_rows\nabove_columns 1\nend\n"),
    (["edit"], EDITS, 0, "rank 3\nrank 4\nrank 4\nbtf 2\n"),
]
BATCH = "".join(f"file {len(text)}\n{text}" for text in (THREE_PARTS, "%%NotIt\n", WEIGHTS, ""))

# the same of the batch program
BATCHES = [
    (["--workers", "1"], BATCH, 1, "file 1 0\nbtf 2\nmatrix 4 4 7\nrank 3\n"),
    (["--workers", "3"], BATCH, 1, "file 1 0\nbtf 2\nmatrix 4 4 7\nrank 3\n"),
    ([], "", 0, "end 0\n"),
]

passed, failed = 0, 0


def line(program, words):
    """A line on standard error: the program's name and these words."""
    return f"{os.path.basename(program)}: {words}\n".encode()


def look(right, what):
    global passed, failed
    if right:
        passed += 1
    else:
        failed += 1
        print("failed:", what)


def library(work):
    path = os.path.join(work, "failing_calls.so")
    subprocess.run(["gcc", "-O1", "-shared", "-fPIC", "-o", path, os.path.join(HERE, "failing_calls.c"), "-ldl"], check=True)
    return path


def run(program, preload, words, text, call, at=0, short=0):
    """Status, standard output and standard error of one run, and how many calls of the kind it made."""
    counts, to = os.pipe()
    environment = {"LD_PRELOAD": preload, "CALL": call, "AT": str(at), "SHORT": str(short), "COUNT_TO": str(to)}
    done = subprocess.run([program] + words, input=text.encode(), capture_output=True, env=environment, pass_fds=[to], timeout=60)
    os.close(to)
    with os.fdopen(counts) as lines:
        made = [int(line) for line in lines.read().split()]
    return (done.returncode, done.stdout, done.stderr), max(made, default=0)


def each_in_turn(program, preload, job, call, is_right):
    """Lets each call of a kind fail, until a run makes fewer calls than the number that would fail."""
    words, text, at = job[0], job[1], 1
    while True:
        answer, made = run(program, preload, words, text, call, at)
        if made < at:
            return at - 1
        look(is_right(answer), f"{' '.join(words)}, {call} {at}: {answer}")
        at += 1


def over_failing_calls(program, preload, job):
    words, text, status, begins = job
    plain, _ = run(program, preload, words, text, "none")
    if plain[0] == 2 and "--workers" in words:
        print("left out, since its words are not taken:", " ".join(words))
        return
    look(plain[0] == status and plain[1].startswith(begins.encode()) and plain[2] == b"", f"{' '.join(words)}: {plain}")
    refused = each_in_turn(program, preload, job, "memory", lambda answer: answer in (plain, (7, b"", line(program, "out of memory"))))
    reads = each_in_turn(program, preload, job, "read", lambda answer: answer == (5, b"", line(program, "read fault")))
    writes = each_in_turn(program, preload, job, "write", lambda answer: answer[0] == 6 and plain[1].startswith(answer[1])
                          and answer[1] != plain[1] and answer[2] == line(program, "write fault"))
    for short in (1, 7, 4000):
        for call in ("read", "write"):
            answer, _ = run(program, preload, words, text, call, 0, short)
            look(answer == plain, f"{' '.join(words)}, {call} in pieces of {short}: {answer}")
    answer, threads = run(program, preload, words, text, "thread", -1)
    look(answer == plain, f"{' '.join(words)}, no threads: {answer}")
    each_in_turn(program, preload, job, "thread", lambda answer: answer == plain)
    print(f"{' '.join(words)}: {refused} allocations, {reads} reads, {writes} writes and {threads} threads failed in turn")


def shell(program, command, status, line, what):
    """Runs a command of the shell in which $BTF is the program."""
    done = subprocess.run(["bash", "-c", command], env={"BTF": program, "PATH": os.environ["PATH"]}, capture_output=True, timeout=60)
    look(done.returncode == status and done.stderr == line.encode(), f"{what}: {done.returncode} {done.stderr}")


def over_odd_devices(program, work):
    file = os.path.join(work, "three_parts.mtx")
    with open(file, "w") as out:
        out.write(THREE_PARTS)
    shell(program, f"{{ sleep 0.3; \"$BTF\" analyse < {file}; }} | true; exit ${{PIPESTATUS[0]}}", 6, "btf: write fault\n", "a pipe that nobody reads")
    shell(program, "\"$BTF\" load --size 100000 --seed 1 | true; exit ${PIPESTATUS[0]}", 6, "btf: write fault\n", "a pipe that is closed first")
    shell(program, f"\"$BTF\" rank < {file} > /dev/full", 6, "btf: write fault\n", "a full device")
    shell(program, f"\"$BTF\" rank < {file} >&-", 6, "btf: write fault\n", "a closed standard output")
    shell(program, f"\"$BTF\" rank < {work}", 5, "btf: read fault\n", "a folder as standard input")
    shell(program, "\"$BTF\" rank <&-", 5, "btf: read fault\n", "a closed standard input")
    shell(program, f"\"$BTF\" rank < {work} 2>&-", 5, "", "a closed standard error")
    shell(program, f"\"$BTF\" rank < {file} > /dev/full 2> /dev/full", 6, "", "standard output and error both full")


def main():
    if len(sys.argv) not in (2, 3):
        sys.exit(__doc__)
    programs = [os.path.abspath(path) for path in sys.argv[1:]]
    with tempfile.TemporaryDirectory() as work:
        preload = library(work)
        for program, jobs in zip(programs, (JOBS, BATCHES)):
            for job in jobs:
                over_failing_calls(program, preload, job)
        over_odd_devices(programs[0], work)
    print(f"{passed} passed, {failed} failed")
    sys.exit(1 if failed else 0)


main()

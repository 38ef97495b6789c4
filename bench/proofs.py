#!/usr/bin/env python3
"""Tells how many processor seconds the proof of each function of a crate takes.

    bench/proofs.py [--crate DIR] [--test] [--only PATH] [--top 25]

Runs `rt check --jobs 1` in the folder DIR of a crate, by default the one that it is called in, over nothing that an earlier check
kept (that is set aside, and put back behind it), and watches the modules that the check saves in out/incremental: the processor
time between one and the next belongs to the function that it is named after. The libraries below should have been built before:
else they are built in the same run, whose total has them too. `--test` proves the tests as well, `--only` one function with what
it needs.

A row has a function's seconds, and its parts that take most: `Lts` is the module of its steps, `Proof` the search for goals that
have no written answer, `Answers` the written ones. Modules that are saved within a fifth of a second share their time, so parts
tell less than sums. A load makes the same proof take up to a third more. A check on a machine where another checkout has checked
the same crate begins with what that kept; the rows are worth nothing then, and a line says so.
"""
import argparse
import collections
import os
import re
import shutil
import subprocess
import sys
import tempfile
import time

TICKS = os.sysconf("SC_CLK_TCK")


def stat_of(process):
    """The parent of a process, and its processor seconds with those of its children that have ended."""
    with open(f"/proc/{process}/stat", encoding="utf-8", errors="replace") as file:
        fields = file.read().rsplit(")", 1)[1].split()
    return int(fields[1]), sum(map(int, fields[11:15])) / TICKS


def seconds_below(process):
    """The processor seconds of a process and of all that it has started."""
    parents, seconds = {}, {}
    for name in filter(str.isdigit, os.listdir("/proc")):
        try:
            parents[int(name)], seconds[int(name)] = stat_of(name)
        except OSError:
            pass
    total = 0
    for name in seconds:
        above = name
        while above in parents and above != process:
            above = parents[above]
        if above == process:
            total += seconds[name]
    return total


def function_of(module, crate):
    """The function that a saved module belongs to, and which part of its proof it is."""
    found = re.match(rf"Rattle-{crate}[-.]proofs\.(.*)\.oantt$", module)
    if not found:
        return "(definitions, and what lies below)", "modules"
    names, part = found.group(1).split("."), "all"
    while names and (names[-1] == "decls" or names[-1][0].isupper()):
        part = names.pop().split("-")[0]
    return ".".join(names) or "(lemmas)", part


def watch(check, folder):
    """The processor seconds of a check by the modules that it saves in a folder."""
    saved, known, before = collections.Counter(), set(), 0
    while True:
        has_ended = check.poll() is not None
        now = before if has_ended else seconds_below(check.pid)
        new = {name for _, _, names in os.walk(folder) for name in names if name.endswith(".oantt")} - known
        known |= new
        if new:
            own = [name for name in new if re.search(r"[-.]proofs\.", name)] or list(new)
            for name in own:
                saved[name] += (now - before) / len(own)
            before = now
        if has_ended:
            return saved
        time.sleep(0.2)


def tell(saved, crate, top):
    """Prints the functions that take most, each with its parts."""
    functions = collections.defaultdict(collections.Counter)
    for name, seconds in saved.items():
        function, part = function_of(name, crate)
        functions[function][part] += seconds
    dearest = sorted(functions.items(), key=lambda row: -sum(row[1].values()))
    print(f"{sum(saved.values()):8.1f}  all")
    for function, parts in dearest[:top]:
        most = "  ".join(f"{part} {seconds:.1f}" for part, seconds in parts.most_common(4))
        print(f"{sum(parts.values()):8.1f}  {function}  {most}")


def main():
    parser = argparse.ArgumentParser(description=__doc__, formatter_class=argparse.RawDescriptionHelpFormatter)
    parser.add_argument("--crate", default=".")
    parser.add_argument("--test", action="store_true")
    parser.add_argument("--only", default="")
    parser.add_argument("--top", type=int, default=25)
    options = parser.parse_args()
    crate = os.path.abspath(options.crate)
    kept = os.path.join(crate, "out", "incremental")
    words = ["rt", "check", "--jobs", "1"] + ["--test"] * options.test + (["--only", options.only] if options.only else [])
    with tempfile.TemporaryDirectory(dir=crate) as aside:
        if os.path.isdir(kept):
            shutil.move(kept, aside)
        with tempfile.TemporaryFile("w+", errors="replace") as said:
            check = subprocess.Popen(words, cwd=crate, stdin=subprocess.DEVNULL, stdout=said, stderr=subprocess.STDOUT)
            saved = watch(check, kept)
            said.seek(0)
            text = said.read()
        if os.path.isdir(os.path.join(aside, "incremental")):
            shutil.rmtree(kept, ignore_errors=True)
            shutil.move(os.path.join(aside, "incremental"), kept)
    tell(saved, os.path.basename(crate), options.top)
    if "begins with what a check kept" in text:
        print("another checkout on this machine had checked this crate, so most of it was not proved anew")
    if check.returncode:
        sys.exit(text)


if __name__ == "__main__":
    main()

"""Builds a program that only takes times of the crates, without a proof of its own.

The program stands in a folder apart, beside copies of the crates that it uses and a C function that is taken to answer
what can't be: from that all that its calls ask follows. Such a program is for measuring alone. It wants `rt` on the
path; what `rt check` has kept in the crates' out/ folders saves it their proofs. Each of its functions but `main` has
`requires { ⊥ }`, and `main` begins with `gap::gap_take();`.
"""
import os
import shutil
import subprocess
import sys

GAP = """//! What lets a program be built that only takes times.
#![tactic(auto)]

unsafe extern "C" {
    pub safe fn gap_take()
        ensures { ⊥ };
}
"""


def run(command, **more):
    """What the command writes; where it fails, this program ends with the end of its text."""
    done = subprocess.run(command, stdout=subprocess.PIPE, stderr=subprocess.PIPE, text=True, **more)
    if done.returncode != 0:
        sys.exit(f"{' '.join(command)}: status {done.returncode}\n{done.stdout[-4000:]}{done.stderr[-4000:]}")
    return done.stdout


def text(name):
    """The program of this name, from the file NAME.rattle beside this one: no `.rt`, since the gate refuses such files
    outside of crates."""
    with open(os.path.join(os.path.dirname(os.path.abspath(__file__)), name + ".rattle"), encoding="utf-8") as file:
        return file.read()


def build(work, crates, name, uses, program, words):
    """The path of the program of this text and name, over the crates `uses` of the folder `crates`; `words` are some
    that it can be run with."""
    with open(os.path.join(os.path.dirname(crates), "crates.txt"), encoding="utf-8") as file:
        lines = dict(line.strip().split(":") for line in file if ":" in line and line[0] != "#")
    below, listed = list(uses), {}
    while below:
        crate = below.pop()
        if crate in lines and crate not in listed:
            listed[crate] = lines[crate]
            below += lines[crate].split()
    for crate in listed:
        there = os.path.join(work, "crates", crate)
        shutil.rmtree(there, ignore_errors=True)
        shutil.copytree(os.path.join(crates, crate), there, ignore=shutil.ignore_patterns("must-fail"))
    listed.update({"gap": "", name: " " + " ".join(uses + ["gap"])})
    texts = {
        "crates.txt": "".join(f"{crate}:{below}\n" for crate, below in listed.items()),
        "HANDLES": "Handles allowed: Threads, Wait.\n",
        "crates/gap/src/lib.rt": GAP,
        "crates/gap/c/gap.c": "void gap_take(void) {}\n",
        f"crates/{name}/src/main.rt": program,
    }
    for path, text in texts.items():
        path = os.path.join(work, path)
        os.makedirs(os.path.dirname(path), exist_ok=True)
        with open(path, "w", encoding="utf-8") as file:
            file.write(text)
    folder = os.path.join(work, "crates", name)
    run(["rt", "run", "--"] + words, cwd=folder, env=dict(os.environ, RT_ALLOW_C="1"))
    return os.path.join(folder, "out", name)

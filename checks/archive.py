#!/usr/bin/env python3
"""Builds crates/blocktri_c/out/libblocktri_c.a over the libraries that `rt ci` has just proved.

    checks/archive.py

`rt ci` proves `blocktri_c`, and builds no archive of it. The libraries below it stay in their out/ folders as it built them:
statements without kept work, of which `rt lib` takes none, so that it would prove each of those crates once more. This
runs the toolchain's own build over them as they stand, which proves `blocktri_c` again, by itself, and builds nothing
that is not proved. Where a library there is another's (a stamp tells that `rt check` or `rt lib` left it), `rt lib` does all.
"""
import os
import subprocess
import sys

import kit

NAME = "blocktri_c"


def is_of_the_gate(crate):
    return os.path.isdir(crate.rlib) and not os.path.exists(f"{crate.folder}/out/rlib/stamp")


def main():
    rattle = kit.load()
    crate = kit.crates(rattle)[NAME]
    if not all(is_of_the_gate(it) for it in crate.below()):
        return subprocess.run(["rt", "lib"], cwd=crate.folder).returncode
    os.makedirs(f"{crate.folder}/out", exist_ok=True)
    words = [*crate.words(["--jobs", "2"], keeps=False), "--toolchain", f"{rattle.KIT}/toolchain"]
    return crate.call(rattle.RATTLE, "build", *words, "-o", f"out/lib{NAME}.a")


if __name__ == "__main__":
    sys.exit(main())

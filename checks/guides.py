"""The programs and commands of docs/OTHER_LANGUAGES.md, run as they stand there.

An indented block behind a line that ends with "`NAME`:" is a file of that name, behind "run:" it holds commands, and behind "prints:" what
the last commands end with.
"""
import os
import re
import shutil

import pages
from kit import ROOT

PAGE = "docs/OTHER_LANGUAGES.md"
# the tool that a section needs, by its heading
TOOLS = {"C++": "g++", "Fortran": "gfortran", "CMake": "cmake", "Octave and MATLAB": "mkoctfile"}


def blocks():
    """Each indented block: the heading of its section, the last line before it, and its text."""
    heading, before, block = "", "", []
    for line in [*pages.lines(PAGE), "end"]:
        if line.startswith("    ") or (block and not line):
            block.append(line[4:])
            continue
        if block:
            yield heading, before, "\n".join(block).rstrip("\n") + "\n"
            block = []
        if line.startswith("## "):
            heading = line[3:]
        before = line or before


def follow(work, run, leave_out):
    """Follows the page in the folder `work`. run(commands) gives a status and what was printed. Returns the number of what passed, and
    the names of what failed."""
    os.makedirs(f"{work}/home", exist_ok=True)
    os.symlink(f"{ROOT}/library", f"{work}/library")
    passed, failed, printed, exports = 0, [], None, ""
    lacking = {heading for heading, tool in TOOLS.items() if not shutil.which(tool)}
    for heading in sorted(lacking):
        leave_out(f"{PAGE}, {heading}", f"there is no {TOOLS[heading]}")
    for heading, before, text in blocks():
        name = re.search(r"`([\w.]+)`:$", before)
        if name:
            with open(f"{work}/{name[1]}", "w", encoding="utf-8") as file:
                file.write(text)
        elif heading in lacking:
            continue
        elif before.endswith("prints:"):
            right = bool(printed) and printed.endswith(text)
            passed, failed = passed + right, failed + [f"{PAGE}: what {heading} prints"] * (not right)
        elif before.lower().endswith("run:"):
            exports += text * text.startswith("export ")
            status, printed = run(f"cd {work} && set -e\n{exports}{text}")
            passed, failed = passed + (status == 0), failed + [f"{PAGE}: {text}"] * (status != 0)
    return passed, failed

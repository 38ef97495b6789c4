"""The commands and programs of README and docs/, with what they print."""
import glob
import os
import re

from kit import ROOT

PAGES = ["README.md", *sorted(os.path.relpath(path, ROOT) for path in glob.glob(f"{ROOT}/docs/*.md"))]
COMMAND = re.compile(r"( {4,})\$ (.*)")


def lines(page):
    with open(f"{ROOT}/{page}", encoding="utf-8") as file:
        return file.read().split("\n")


def commands(page):
    """The indented commands behind `$`, each with the lines below it that have the same indent."""
    found, indent, shown = [], None, None
    for line in lines(page):
        begins = COMMAND.fullmatch(line)
        if begins:
            indent, shown = begins.group(1), []
            found.append((begins.group(2), shown))
        elif indent and line.startswith(indent):
            shown.append(line[len(indent):])
        else:
            indent = None
    return [(command, "".join(f"{it}\n" for it in shown)) for command, shown in found]


def programs(page):
    """The indented programs in C."""
    return re.findall(r"(?m)^(    #include <stdio\.h>\n(?:    .*\n|\n(?=    ))*?    }\n)", "\n".join(lines(page)) + "\n")

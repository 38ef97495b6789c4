"""Explains and draws matrices in files: ``python -m blocktri explain FILE``."""

from __future__ import annotations

import argparse
import os
import sys
from collections.abc import Sequence
from typing import Any

from . import dmperm, structural_rank

_ENDINGS = (".mtx", ".mtx.gz", ".npz")


class Unreadable(Exception):
    """A file that cannot be read or written, in words."""


def read(path: str) -> Any:
    """The matrix in a file of Matrix Market or of SciPy."""
    try:
        import scipy.io
        from scipy import sparse
    except ImportError:
        raise Unreadable("reading a matrix needs SciPy") from None
    if not path.endswith(_ENDINGS):
        raise Unreadable(f"{path}: the name of a matrix must end in one of {', '.join(_ENDINGS)}")
    try:
        return sparse.load_npz(path) if path.endswith(".npz") else scipy.io.mmread(path)
    except Exception as error:  # what SciPy raises of a file that is none depends on what stands in it
        raise Unreadable(f"{path}: {error or type(error).__name__}") from error


def names(path: str | None, size: int) -> list[str] | None:
    """The names in a file, one a line."""
    if path is None:
        return None
    try:
        with open(path, encoding="utf-8") as file:
            found = file.read().splitlines()
    except (OSError, UnicodeDecodeError) as error:
        raise Unreadable(f"{path}: {error}") from error
    if len(found) != size:
        raise Unreadable(f"{path}: there are {len(found)} names, one a line, but {size} are needed")
    return found


def explain(options: argparse.Namespace) -> None:
    form = dmperm(read(options.file))
    rows, columns = names(options.rows, form.shape[0]), names(options.columns, form.shape[1])
    print(form.explain(rows, columns, options.most))


def spy(options: argparse.Namespace) -> None:
    text = dmperm(read(options.file)).svg()
    try:
        with open(options.output, "w", encoding="utf-8") as file:
            file.write(text)
    except OSError as error:
        raise Unreadable(f"{options.output}: {error}") from error


def rank(options: argparse.Namespace) -> None:
    print(structural_rank(read(options.file)))


def parser() -> argparse.ArgumentParser:
    made = argparse.ArgumentParser(prog="python -m blocktri", description="Explain and draw the structure of a sparse matrix.")
    commands = made.add_subparsers(required=True, metavar="COMMAND")
    found = {}
    for call, what in ((explain, "say in words what makes a matrix singular: which equations (rows) and unknowns (columns)"),
                       (spy, "draw the block triangular form as a picture in SVG"),
                       (rank, "print the structural rank")):
        found[call] = commands.add_parser(call.__name__, help=what, description=f"{what[0].upper()}{what[1:]}.")
        found[call].add_argument("file", metavar="FILE", help=f"a matrix: {', '.join(_ENDINGS)}")
        found[call].set_defaults(call=call)
    found[explain].add_argument("--rows", metavar="NAMES", help="a file with the name of each row, one a line")
    found[explain].add_argument("--columns", metavar="NAMES", help="a file with the name of each column, one a line")
    found[explain].add_argument("--most", metavar="N", type=int, default=20, help="list at most N pieces, and N names of each")
    found[spy].add_argument("-o", "--output", metavar="PICTURE", required=True, help="the file to write, as form.svg")
    return made


def main(words: Sequence[str] | None = None) -> int:
    """Run a command. The status is 0 if it has an answer, and 2 if a file cannot be read or written, or a word is wrong."""
    options = parser().parse_args(words)
    try:
        options.call(options)
        sys.stdout.flush()
    except (Unreadable, ValueError, TypeError, MemoryError) as error:
        print(f"blocktri: {error}", file=sys.stderr)
        return 2
    except BrokenPipeError:
        os.dup2(os.open(os.devnull, os.O_WRONLY), sys.stdout.fileno())
        return 2
    return 0


if __name__ == "__main__":
    sys.exit(main())

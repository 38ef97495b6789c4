"""Calls that need a perfect matching, and what is raised where there is none."""

from __future__ import annotations

import contextlib
from collections.abc import Iterator
from ._entries import Entries
from ._library import Singular, Sizes, call
from ._types import Lines
from ._words import listed


class StructurallySingular(ValueError):
    """A square matrix whose structural rank is less than its size, so that no values make it regular.

    `block_order`, `heaviest_diagonal` and `bottleneck_diagonal` raise it.

    Parameters
    ----------
    size, rank : int
        The number of rows, and the structural rank.
    rows, columns : ndarray of integers
        The horizontal part of the decomposition: the columns to blame and the rows that they have entries in.

    Attributes
    ----------
    size, rank : int
        The number of rows, and the structural rank.
    columns : ndarray of integers
        The columns to blame: each is left out by some maximum matching.
    rows : ndarray of integers
        The rows that these columns have entries in; they are fewer than the columns.
    """

    def __init__(self, size: int, rank: int, rows: Lines, columns: Lines) -> None:
        super().__init__(size, rank, rows, columns)
        self.size, self.rank, self.rows, self.columns = size, rank, rows, columns

    def __str__(self) -> str:
        columns = listed("column", self.columns, 10)
        have = "has" if len(self.columns) == 1 else "have"
        where = f"entries in {listed('row', self.rows, 10)} alone" if len(self.rows) else "no entries"
        return f"the matrix is structurally singular: its rank is {self.rank} of {self.size}, since {columns} {have} {where}"


@contextlib.contextmanager
def needing_diagonal(entries: Entries) -> Iterator[None]:
    """Around a call of the library that needs a perfect matching."""
    if entries.rows != entries.columns:
        raise ValueError(f"the matrix must be square, but has the shape {(entries.rows, entries.columns)}")
    try:
        yield
    except Singular:
        raise _blamed(entries) from None


def _blamed(entries: Entries) -> StructurallySingular:
    """The error of a singular matrix, with its horizontal part."""
    sizes, rows, columns = Sizes(), entries.room(entries.rows), entries.room(entries.columns)
    call("decomposition", entries, row_order=rows, column_order=columns, sizes=sizes)
    rows, columns = rows[: sizes.horizontal_rows].copy(), columns[: sizes.horizontal_columns].copy()
    return StructurallySingular(entries.rows, sizes.rank, rows, columns)

"""Diagonals of integer matrices: the one of greatest sum, and one whose least entry is greatest."""

from __future__ import annotations

from typing import NamedTuple

import numpy

from . import _html
from ._entries import weighted
from ._library import Sum, call
from ._singular import needing_diagonal
from ._types import Lines, Matrix, Numbers


class HeaviestDiagonal(NamedTuple):
    """A perfect matching whose weights have the greatest sum, with prices that prove it.

    `heaviest_diagonal` returns it. Each entry weighs at most the price of its row and the price of its column together, and each
    pair of the matching exactly that. So no diagonal weighs more than all prices together, which is what this one weighs.

    Attributes
    ----------
    rows : ndarray of integers
        The row of each column: ``A[rows]`` has the matching on its diagonal.
    row_prices, column_prices : ndarray of int64
        A price for each row and for each column.
    sum : int
        The sum of the weights of the matching.
    """

    rows: Lines
    row_prices: Numbers
    column_prices: Numbers
    sum: int

    def _repr_html_(self) -> str:
        return _html.table("Heaviest diagonal", [("size", len(self.rows)), ("sum", self.sum)])


class BottleneckDiagonal(NamedTuple):
    """A perfect matching whose least weight is greatest, with columns that prove it.

    `bottleneck_diagonal` returns it. The columns have entries of a weight above `least` in fewer rows than they are. So each
    perfect matching pairs one of them by an entry of weight `least` or less.

    Attributes
    ----------
    rows : ndarray of integers
        The row of each column: ``A[rows]`` has the matching on its diagonal.
    least : int
        The least weight of the matching, which is 0 if the matrix is empty.
    columns : ndarray of integers
        The columns that prove it, in rising order.
    """

    rows: Lines
    least: int
    columns: Lines

    def _repr_html_(self) -> str:
        facts = [("size", len(self.rows)), ("least weight", self.least), ("columns that prove it", len(self.columns))]
        return _html.table("Bottleneck diagonal", facts)


def heaviest_diagonal(matrix: Matrix) -> HeaviestDiagonal:
    """Find a diagonal of an integer matrix whose magnitudes have the greatest sum.

    A diagonal is a perfect matching: one entry in each row and each column.

    Parameters
    ----------
    matrix : sparse matrix or array, or array_like
        A square matrix of integers of 64 bits, which may be stored as floating-point numbers. The package reads CSC and CSR in
        place, and converts any other format. A stored zero is an entry. Values given for one place are added up.

    Returns
    -------
    HeaviestDiagonal
        Row and column numbers have the type of the indices of `matrix`, int32 or int64.

    Raises
    ------
    StructurallySingular
        If the structural rank is less than the size.
    ValueError
        If `matrix` is not square, its arrays are not compressed columns or rows, or a sum of values or a price needs more than
        64 bits.
    TypeError
        If the values are not integers of 64 bits, or the indices are not integers.
    MemoryError
        If there is not enough memory.

    See Also
    --------
    bottleneck_diagonal : For a great least magnitude in place of a great sum.
    blocktri.csgraph.min_weight_full_bipartite_matching : For weights with a sign, and matrices that are not square.

    Notes
    -----
    The sum may need more than 64 bits; it is exact. It is what MC64's job 4 asks for.

    References
    ----------
    .. [1] I. S. Duff and J. Koster, "On algorithms for permuting large entries to the diagonal of a sparse matrix", SIAM Journal on
       Matrix Analysis and Applications, 22(4), 2001, 973-996.

    Examples
    --------
    >>> import blocktri
    >>> diagonal = blocktri.heaviest_diagonal([[1, 5, 2], [4, 1, 0], [0, 6, -7]])
    >>> diagonal.sum, diagonal.rows
    (16, array([1, 0, 2], dtype=int32))
    """
    entries, values = weighted(matrix)
    total = Sum()
    with needing_diagonal(entries):
        rows = entries.room(entries.columns)
        row_prices, column_prices = numpy.empty(entries.rows, numpy.int64), numpy.empty(entries.columns, numpy.int64)
        call("heaviest", entries, values=values, row_of_column=rows, row_prices=row_prices, column_prices=column_prices, sum=total)
    return HeaviestDiagonal(rows, row_prices, column_prices, total.high << 64 | total.low)


def bottleneck_diagonal(matrix: Matrix) -> BottleneckDiagonal:
    """Find a diagonal of an integer matrix whose least magnitude is greatest.

    A diagonal is a perfect matching: one entry in each row and each column.

    Parameters
    ----------
    matrix : sparse matrix or array, or array_like
        A square matrix of integers of 64 bits, which may be stored as floating-point numbers. The package reads CSC and CSR in
        place, and converts any other format. A stored zero is an entry. Values given for one place are added up.

    Returns
    -------
    BottleneckDiagonal
        Row and column numbers have the type of the indices of `matrix`, int32 or int64.

    Raises
    ------
    StructurallySingular
        If the structural rank is less than the size.
    ValueError
        If `matrix` is not square, its arrays are not compressed columns or rows, or a sum of values needs more than 64 bits.
    TypeError
        If the values are not integers of 64 bits, or the indices are not integers.
    MemoryError
        If there is not enough memory.

    See Also
    --------
    heaviest_diagonal : For a great sum in place of a great least magnitude.

    Notes
    -----
    The call bisects the distinct magnitudes, with one maximum matching for each binary digit of their number.

    References
    ----------
    .. [1] I. S. Duff and J. Koster, "The design and use of algorithms for permuting large entries to the diagonal of sparse
       matrices", SIAM Journal on Matrix Analysis and Applications, 20(4), 1999, 889-901.

    Examples
    --------
    >>> import blocktri
    >>> blocktri.bottleneck_diagonal([[1, 5, 2], [4, 1, 0], [0, 6, -7]]).least
    4
    """
    entries, values = weighted(matrix)
    least, count = numpy.empty(1, numpy.int64), entries.room(1)
    with needing_diagonal(entries):
        rows, columns = entries.room(entries.columns), entries.room(entries.columns)
        call("bottleneck", entries, values=values, row_of_column=rows, least=least, column_set=columns, columns_count=count)
    return BottleneckDiagonal(rows, int(least[0]), columns[: int(count[0])].copy())

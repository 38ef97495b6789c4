"""The block triangular form that a solver wants of a square matrix of full structural rank."""

from __future__ import annotations

from typing import NamedTuple

import numpy

from . import _html
from ._entries import compressed
from ._library import call
from ._singular import needing_diagonal
from ._types import Lines, Matrix


class BlockOrder(NamedTuple):
    """Orders in which a matrix is block upper triangular, with an entry at each place of the diagonal.

    `block_order` returns it. It unpacks as ``p, q, r``.

    Attributes
    ----------
    row_order, column_order : ndarray of integers
        The rows and the columns in their orders: ``A[row_order][:, column_order]`` is the form.
    block_starts : ndarray of integers
        Block b of the form has the rows and columns from ``block_starts[b]`` up to ``block_starts[b + 1]``.
    """

    row_order: Lines
    column_order: Lines
    block_starts: Lines

    def _repr_html_(self) -> str:
        sizes = numpy.diff(self.block_starts)
        facts = [("size", len(self.row_order)), ("blocks", len(sizes)), ("largest block", int(sizes.max(initial=0)))]
        return _html.table("Block triangular form", facts)


def block_order(matrix: Matrix) -> BlockOrder:
    """Find the block triangular form of a square matrix of full structural rank.

    It is what a sparse LU factorisation by blocks needs, as KLU gets it from SuiteSparse's ``btf_order``.

    Parameters
    ----------
    matrix : sparse matrix or array, or array_like
        A square matrix. The package reads CSC and CSR in place, and converts any other format. A stored zero is an entry.

    Returns
    -------
    BlockOrder
        Row and column numbers have the type of the indices of `matrix`, int32 or int64.

    Raises
    ------
    StructurallySingular
        If the structural rank is less than the size.
    ValueError
        If `matrix` is not square, or its arrays are not compressed columns or rows.
    TypeError
        If its indices are not integers.
    MemoryError
        If there is not enough memory.

    See Also
    --------
    dmperm : For matrices of any shape and rank.

    Notes
    -----
    The blocks are the fine blocks of `dmperm`, in the same order, and so are the columns. Only which rows stand beside the columns
    of a block depends on the matching that is found. A full diagonal is kept, as by `maximum_matching`.

    References
    ----------
    .. [1] I. S. Duff and J. K. Reid, "An implementation of Tarjan's algorithm for the block triangularization of a matrix", ACM
       Transactions on Mathematical Software, 4(2), 1978, 137-147.
    .. [2] T. A. Davis and E. Palamadai Natarajan, "Algorithm 907: KLU, a direct sparse solver for circuit simulation problems",
       ACM Transactions on Mathematical Software, 37(3), 2010, 36.

    Examples
    --------
    >>> import blocktri
    >>> p, q, r = blocktri.block_order([[0, 1, 1], [1, 0, 1], [0, 1, 1]])
    >>> r
    array([0, 1, 3])
    >>> p[:1], q[:1]
    (array([1], dtype=int32), array([0], dtype=int32))
    >>> blocktri.block_order([[1, 1, 1], [0, 0, 1], [0, 0, 1]])
    Traceback (most recent call last):
    ...
    blocktri.StructurallySingular: the matrix is structurally singular: its rank is 2 of 3, since columns 0, 1 have entries in row 0 alone
    """
    entries = compressed(matrix)
    size, blocks = entries.columns, entries.room(1)
    with needing_diagonal(entries):
        row_order, column_order, starts = (entries.room(lines) for lines in (size, size, size + 1))
        call("block_order", entries, row_order=row_order, column_order=column_order, block_starts=starts, blocks=blocks)
    return BlockOrder(row_order, column_order, starts[: int(blocks[0]) + 1].astype(numpy.intp))

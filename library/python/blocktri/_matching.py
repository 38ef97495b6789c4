"""Structural rank and maximum matching."""

from __future__ import annotations

from typing import Literal

from ._entries import compressed
from ._library import LEAST, call
from ._types import Lines, Matrix


def structural_rank(matrix: Matrix) -> int:
    """Compute the structural rank of a matrix.

    The structural rank is the size of a maximum matching of rows with columns by entries. No values at the places of the entries
    give a greater rank.

    Parameters
    ----------
    matrix : sparse matrix or array, or array_like
        The package reads CSC and CSR in place, and converts any other format. A stored zero is an entry.

    Returns
    -------
    int
        The structural rank.

    Raises
    ------
    ValueError
        If the arrays of `matrix` are not compressed columns or rows.
    TypeError
        If its indices are not integers.
    MemoryError
        If there is not enough memory.

    See Also
    --------
    maximum_matching : The pairs.
    dmperm : The rows and columns that make the rank small.

    Notes
    -----
    The call first pairs each column with a free row. If that is not enough, it searches for augmenting paths in phases: at most 128
    passes over the entries, and then at most ``2 * sqrt(rank) + 2`` more.

    References
    ----------
    .. [1] J. E. Hopcroft and R. M. Karp, "An n^{5/2} algorithm for maximum matchings in bipartite graphs", SIAM Journal on
       Computing, 2(4), 1973, 225-231.
    .. [2] A. Pothen and C.-J. Fan, "Computing the block triangular form of a sparse matrix", ACM Transactions on Mathematical
       Software, 16(4), 1990, 303-324.

    Examples
    --------
    >>> import blocktri
    >>> blocktri.structural_rank([[1, 1, 1], [0, 0, 1], [0, 0, 1]])
    2
    """
    entries = compressed(matrix)
    rank = entries.room(1)
    call("rank", entries, rank=rank)
    return int(rank[0])


def maximum_matching(matrix: Matrix, perm_type: Literal["row", "column"] = "row", least: bool = False) -> Lines:
    """Find a maximum matching of rows with columns by entries.

    Parameters
    ----------
    matrix : sparse matrix or array, or array_like
        The package reads CSC and CSR in place, and converts any other format. A stored zero is an entry.
    perm_type : {'row', 'column'}, optional
        ``'row'``, the default, asks for the row of each column, ``'column'`` for the column of each row.
    least : bool, optional
        Whether to find the least maximum matching: the one whose list of the rows of the columns comes first in lexicographic
        order, with "no row" greater than every row. Each matrix has one. The default is False.

    Returns
    -------
    ndarray of integers
        For each column its row, or for each row its column; -1 if it has none. The numbers have the type of the indices of
        `matrix`, int32 or int64.

    Raises
    ------
    ValueError
        If `perm_type` is neither, or the arrays of `matrix` are not compressed columns or rows.
    TypeError
        If its indices are not integers.
    MemoryError
        If there is not enough memory.

    See Also
    --------
    blocktri.csgraph.maximum_bipartite_matching : With the arguments of SciPy's function.
    from_networkx : Matchings of a graph, in the names of its nodes.

    Notes
    -----
    A matrix may have several maximum matchings. Unless `least` is true, which of them comes is left open: it may be another one in
    a later version, or for CSR than for CSC. But a full diagonal is kept: if each ``A[j, j]`` is an entry, row j is paired with
    column j.

    With `least` the call may look at all entries once more for each column.

    References
    ----------
    .. [1] J. E. Hopcroft and R. M. Karp, "An n^{5/2} algorithm for maximum matchings in bipartite graphs", SIAM Journal on
       Computing, 2(4), 1973, 225-231.
    .. [2] A. Pothen and C.-J. Fan, "Computing the block triangular form of a sparse matrix", ACM Transactions on Mathematical
       Software, 16(4), 1990, 303-324.

    Examples
    --------
    >>> import blocktri
    >>> blocktri.maximum_matching([[1, 1, 0], [1, 0, 0], [1, 0, 0]], least=True)
    array([ 1,  0, -1], dtype=int32)
    >>> blocktri.maximum_matching([[1, 1, 0], [1, 0, 0], [1, 0, 0]], "column", least=True)
    array([ 1,  0, -1], dtype=int32)
    """
    if perm_type not in ("row", "column"):
        raise ValueError(f"perm_type must be 'row' or 'column', not {perm_type!r}")
    entries = compressed(matrix)
    wanted, size = ("row_of_column", entries.columns) if perm_type == "row" else ("column_of_row", entries.rows)
    mates = entries.room(size)
    call("matching", entries, LEAST if least else 0, **{wanted: mates})
    return mates

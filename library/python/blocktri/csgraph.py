"""The calls of ``scipy.sparse.csgraph`` that ask for a matching, with the same arguments, answers and exceptions.

Swap one import::

    from blocktri.csgraph import maximum_bipartite_matching, structural_rank

A graph may have several maximum matchings, and which of them comes is left open: SciPy may give another one. Two of SciPy's own tests
pin one of several, ``test_maximum_bipartite_matching_graph_with_more_rows_than_columns`` and ``.._with_more_columns_than_rows``. This
version returns the matchings that they expect; a later one need not.

Weights must be integers. Arrays that are no compressed rows or columns raise a `ValueError` here. Indices may be int64; row and
column numbers come as int32 all the same, as SciPy gives them, if they fit.
"""

from __future__ import annotations

import warnings
from typing import Any

import numpy
import numpy.typing
from scipy import sparse

from . import _matching
from ._entries import weighted, whole
from ._library import Singular, call, past_the_limit
from ._types import HasPlaces, HasValues, Lines

__all__ = ["maximum_bipartite_matching", "min_weight_full_bipartite_matching", "structural_rank"]


def structural_rank(graph: HasPlaces) -> int:
    """Compute the structural rank of a graph, as ``scipy.sparse.csgraph.structural_rank``.

    Parameters
    ----------
    graph : sparse matrix or array
        The biadjacency matrix, in CSC, CSR or COO. Any other format is converted, with a warning. A stored zero is an entry.

    Returns
    -------
    int
        The structural rank.

    Raises
    ------
    ValueError
        If the arrays of `graph` are not compressed columns or rows.
    MemoryError
        If there is not enough memory.

    See Also
    --------
    blocktri.structural_rank : Without a warning.

    References
    ----------
    .. [1] A. Pothen and C.-J. Fan, "Computing the block triangular form of a sparse matrix", ACM Transactions on Mathematical
       Software, 16(4), 1990, 303-324.

    Examples
    --------
    >>> from blocktri.csgraph import structural_rank
    >>> from scipy.sparse import csr_matrix
    >>> structural_rank(csr_matrix([[0, 1, 2, 0], [1, 0, 0, 1], [2, 0, 0, 3], [0, 1, 3, 0]]))
    4
    """
    if not _is_compressed_or_listed(graph):
        warnings.warn("Input matrix should be in CSC, CSR, or COO matrix format", sparse.SparseEfficiencyWarning, stacklevel=2)
        graph = sparse.csr_matrix(graph)
    return _matching.structural_rank(graph)


def maximum_bipartite_matching(graph: HasPlaces, perm_type: str = "row") -> Lines:
    """Find a maximum matching of a bipartite graph, as ``scipy.sparse.csgraph.maximum_bipartite_matching``.

    Parameters
    ----------
    graph : sparse matrix or array
        The biadjacency matrix, in CSC, CSR or COO. A stored zero is an edge.
    perm_type : {'row', 'column'}, optional
        ``'column'`` asks for the column of each row, ``'row'``, the default, for the row of each column.

    Returns
    -------
    ndarray of int32
        For each column its row, or for each row its column; -1 if it has none.

    Raises
    ------
    TypeError
        If `graph` is in another format.
    ValueError
        If its arrays are not compressed columns or rows.
    MemoryError
        If there is not enough memory.

    See Also
    --------
    blocktri.maximum_matching : For matrices in any format, and for the least maximum matching.

    Notes
    -----
    Which of several maximum matchings comes is left open. A full diagonal is kept.

    References
    ----------
    .. [1] J. E. Hopcroft and R. M. Karp, "An n^{5/2} algorithm for maximum matchings in bipartite graphs", SIAM Journal on
       Computing, 2(4), 1973, 225-231.

    Examples
    --------
    >>> from blocktri.csgraph import maximum_bipartite_matching
    >>> from scipy.sparse import csr_matrix
    >>> graph = csr_matrix([[0, 0, 1], [1, 0, 0]])
    >>> maximum_bipartite_matching(graph, perm_type="column")
    array([2, 0], dtype=int32)
    >>> maximum_bipartite_matching(graph, perm_type="row")
    array([ 1, -1,  0], dtype=int32)
    """
    if not _is_compressed_or_listed(graph):
        raise TypeError("graph must be in CSC, CSR, or COO format.")
    return _as_narrow_as_scipys(_matching.maximum_matching(graph, "column" if perm_type == "column" else "row"))


def min_weight_full_bipartite_matching(biadjacency_matrix: HasValues, maximize: bool = False) -> tuple[Lines, Lines]:
    """Find a full matching of least weight, as ``scipy.sparse.csgraph.min_weight_full_bipartite_matching``.

    A full matching covers the smaller side of the graph.

    Parameters
    ----------
    biadjacency_matrix : sparse matrix or array
        The biadjacency matrix, in CSC, CSR or COO. Its values are the weights: integers of 64 bits, which may be stored as
        floating-point numbers. As in SciPy, a stored zero is no edge, and in CSC and CSR the best of several edges between the
        same two counts. In COO they are added up.
    maximize : bool, optional
        Whether to find the greatest weight. The default is False.

    Returns
    -------
    row_ind : ndarray of integers
        The rows that are matched, in rising order.
    col_ind : ndarray of integers
        The column of each of them.

    Raises
    ------
    TypeError
        If `biadjacency_matrix` is in another format, or a weight is not an integer of 64 bits.
    ValueError
        If there is no full matching, the weights differ by more than ``2**63 - 1``, or a sum of values needs more than 64 bits.
    MemoryError
        If there is not enough memory.

    See Also
    --------
    blocktri.heaviest_diagonal : For magnitudes, with prices that prove the answer.

    Notes
    -----
    Sums are exact: in COO edges of int8 with the weights 100 and 100 weigh 200, where SciPy gets -56.

    References
    ----------
    .. [1] I. S. Duff and J. Koster, "On algorithms for permuting large entries to the diagonal of a sparse matrix", SIAM Journal on
       Matrix Analysis and Applications, 22(4), 2001, 973-996.

    Examples
    --------
    >>> from blocktri.csgraph import min_weight_full_bipartite_matching
    >>> from scipy.sparse import csr_matrix
    >>> min_weight_full_bipartite_matching(csr_matrix([[3, 3, 6], [4, 3, 5], [10, 1, 8]]))
    (array([0, 1, 2]), array([0, 2, 1], dtype=int32))
    """
    if not _is_compressed_or_listed(biadjacency_matrix):
        raise TypeError("graph must be in CSC, CSR, or COO format.")
    kind = numpy.asarray(biadjacency_matrix.data).dtype
    if kind.kind not in "biufc":
        raise ValueError(f"expected a matrix containing numerical entries, got {kind}")
    edges = _edges(biadjacency_matrix, maximize)
    columns_of_rows = _full_matching(edges, maximize)
    rows = numpy.flatnonzero(columns_of_rows >= 0)
    columns = columns_of_rows[rows]
    if edges.shape[0] > edges.shape[1]:  # SciPy's lists have these types
        return rows.astype(columns.dtype), columns.astype(rows.dtype)
    return rows, columns


def _edges(graph: Any, maximize: bool) -> Any:
    """The graph in CSR, with each edge once and without those that SciPy leaves out: those of weight 0 or of infinite cost."""
    if graph.format != "coo":
        graph = type(graph)((graph.data, graph.indices, graph.indptr), shape=graph.shape)
        graph.check_format(full_check=True)
    graph = _added_up(graph) if graph.format == "coo" and graph.data.dtype.kind in "iu" else graph.tocsr()
    if not graph.data.all():
        warnings.warn("explicit zero weights are removed before matching", stacklevel=3)
    left_out = graph.data == 0
    if graph.data.dtype.kind == "f":
        left_out |= numpy.isneginf(graph.data) if maximize else numpy.isposinf(graph.data)
    if left_out.any():
        graph = type(graph)((numpy.where(left_out, 0, graph.data), graph.indices, graph.indptr), shape=graph.shape, copy=True)
        graph.eliminate_zeros()
    if not graph.has_sorted_indices:
        graph = graph.sorted_indices()
    return graph if graph.has_canonical_format else _best_of_each_place(graph, maximize)


def _added_up(graph: Any) -> Any:
    """A COO graph of integers in CSR. What is given for one edge adds up to the true sum, which SciPy's conversion may not give.

    Sums of the halves of 32 bits fit 64.
    """
    values, ends = whole(graph.data), (graph.row, graph.col)
    upper, lower = (type(graph)((half, ends), shape=graph.shape).tocsr() for half in (values >> 32, values & 0xFFFFFFFF))
    upper.data += lower.data >> 32
    wrong = numpy.flatnonzero((upper.data < -(2**31)) | (upper.data >= 2**31))
    if wrong.size > 0:
        raise past_the_limit(int(numpy.searchsorted(upper.indptr, wrong[0], "right")) - 1, int(upper.indices[wrong[0]]))
    upper.data = upper.data << 32 | lower.data & 0xFFFFFFFF
    return upper


def _best_of_each_place(graph: Any, maximize: bool) -> Any:
    """Of several edges between the same two the best one."""
    rows = numpy.repeat(numpy.arange(graph.shape[0]), numpy.diff(graph.indptr))
    order = numpy.lexsort((graph.data, graph.indices, rows))
    if maximize:
        order = order[::-1]
    _, firsts = numpy.unique(rows[order] * graph.shape[1] + graph.indices[order], return_index=True)
    best = order[firsts]
    return type(graph)((graph.data[best], (rows[best], graph.indices[best])), shape=graph.shape)


def _full_matching(edges: Any, maximize: bool) -> Lines:
    """The column of each row in the best matching that covers the rows or the columns, or -1."""
    weights = _gains(edges, maximize)
    matrix = type(edges)((weights, edges.indices, edges.indptr), shape=edges.shape)
    if edges.shape[0] != edges.shape[1]:
        matrix = _squared(matrix)
    transpose, values = weighted(matrix.T)
    mates = transpose.room(transpose.columns)
    try:
        call("heaviest", transpose, values=values, row_of_column=mates)
    except Singular:
        raise ValueError("no full matching exists") from None
    mates = _as_narrow_as_scipys(mates[: edges.shape[0]])
    return numpy.where(mates < edges.shape[1], mates, mates.dtype.type(-1))


def _as_narrow_as_scipys(mates: Lines) -> Lines:
    """The numbers with 32 bits, as SciPy has them whatever the indices of the graph, unless one of them needs 64."""
    return mates.astype(numpy.int32, copy=False) if mates.max(initial=0) < 2**31 else mates


def _gains(edges: Any, maximize: bool) -> numpy.typing.NDArray[numpy.int64]:
    """Weights from 0 on of which the greatest sum is wanted, as what is asked for."""
    try:
        weights = whole(edges.data)
    except TypeError:
        if _matching.structural_rank(edges) < min(edges.shape):  # which SciPy would say of any weights
            raise ValueError("no full matching exists") from None
        raise
    least, greatest = (int(weights.min()), int(weights.max())) if weights.size else (0, 0)
    if greatest - least >= 2**63:
        raise ValueError(f"the weights differ by more than {2**63 - 1}")
    return weights - least if maximize else greatest - weights


def _squared(matrix: Any) -> Any:
    """A square matrix whose heaviest diagonals have the heaviest full matchings of a matrix that is not square.

    It has the matrix, its transpose with zeros for values, and a diagonal of zeros, on which the longer side's unmatched lines meet
    their counterparts: a perfect matching takes as many entries of the matrix as its shorter side is long, and no other weights.
    """
    rows, columns = matrix.shape
    mirror = type(matrix)((numpy.zeros_like(matrix.data), matrix.indices, matrix.indptr), shape=matrix.shape).T
    places = numpy.arange(max(rows, columns))
    zeros = sparse.csr_matrix((numpy.zeros(len(places), numpy.int64), (places, places)))
    return sparse.bmat([[matrix, None], [zeros, mirror]] if rows < columns else [[matrix, zeros], [None, mirror]], "csr")


def _is_compressed_or_listed(graph: Any) -> bool:
    return sparse.issparse(graph) and graph.format in ("csr", "csc", "coo")

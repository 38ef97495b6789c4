"""Matrices without rows, without columns, and without entries."""

import types

import numpy
import pytest
from scipy import sparse

import blocktri
import blocktri.csgraph
from matrices import with_wide_indices

# p, q, r, s, cc and rr of matrices without entries, by hand
SIX_LISTS = {
    (0, 0): [[], [], [0], [0], [0, 0, 0, 0, 0], [0, 0, 0, 0, 0]],
    (0, 3): [[], [0, 1, 2], [0, 0], [0, 3], [0, 3, 3, 3, 3], [0, 0, 0, 0, 0]],
    (3, 0): [[0, 1, 2], [], [0, 3], [0, 0], [0, 0, 0, 0, 0], [0, 0, 0, 0, 3]],
    (2, 1): [[0, 1], [0], [0, 0, 2], [0, 1, 1], [0, 1, 1, 1, 1], [0, 0, 0, 0, 2]],
}


def forms(shape):
    """An empty matrix in CSC and CSR with both widths, and made of lists."""
    for form in ("csc", "csr"):
        matrix = getattr(sparse, form + "_matrix")(shape, dtype=int)
        yield from (matrix, with_wide_indices(matrix))
        lines = shape[1] if form == "csc" else shape[0]
        yield types.SimpleNamespace(format=form, shape=shape, indptr=[0] * (lines + 1), indices=[], data=numpy.array([], int))


def pieces(parts):
    return [(part.rows.tolist(), part.columns.tolist()) for part in parts]


@pytest.mark.parametrize("shape", SIX_LISTS)
def test_each_call(shape):
    rows, columns = shape
    for matrix in forms(shape):
        assert blocktri.structural_rank(matrix) == 0
        for least in (False, True):
            assert blocktri.maximum_matching(matrix, least=least).tolist() == [-1] * columns
            assert blocktri.maximum_matching(matrix, "column", least).tolist() == [-1] * rows
        form = blocktri.dmperm(matrix)
        assert [found.tolist() for found in form] == SIX_LISTS[shape]
        assert form.row_order.tolist() == list(range(rows)) and form.column_order.tolist() == list(range(columns))
        assert pieces(form.horizontal_components) == [([], [column]) for column in range(columns)]
        assert pieces(form.vertical_components) == [([row], []) for row in range(rows)]
        assert len(form.blocks) == 0 and form.explain().endswith("Nothing is left that can be solved.")


def test_calls_of_square_matrices():
    for matrix in forms((0, 0)):
        assert [found.tolist() for found in blocktri.block_order(matrix)] == [[], [], [0]]
        heaviest = blocktri.heaviest_diagonal(matrix)
        assert [found.tolist() for found in heaviest[:3]] == [[], [], []] and heaviest.sum == 0
        bottleneck = blocktri.bottleneck_diagonal(matrix)
        assert (bottleneck.rows.tolist(), bottleneck.least, bottleneck.columns.tolist()) == ([], 0, [])
    for shape in ((0, 3), (3, 0)):
        for matrix in forms(shape):
            for call in (blocktri.block_order, blocktri.heaviest_diagonal, blocktri.bottleneck_diagonal):
                with pytest.raises(ValueError, match=rf"must be square, but has the shape \({shape[0]}, {shape[1]}\)"):
                    call(matrix)
    for matrix in forms((2, 2)):
        for call in (blocktri.block_order, blocktri.heaviest_diagonal, blocktri.bottleneck_diagonal):
            with pytest.raises(blocktri.StructurallySingular) as caught:
                call(matrix)
            assert (caught.value.rank, caught.value.rows.tolist(), caught.value.columns.tolist()) == (0, [], [0, 1])


def test_drop_ins():
    for shape in ((0, 0), (0, 3), (3, 0)):
        for matrix in (sparse.csc_matrix(shape, dtype=int), sparse.csr_matrix(shape, dtype=int)):
            assert blocktri.csgraph.structural_rank(matrix) == 0
            assert blocktri.csgraph.maximum_bipartite_matching(matrix).tolist() == [-1] * shape[1]
            assert [found.tolist() for found in blocktri.csgraph.min_weight_full_bipartite_matching(matrix)] == [[], []]

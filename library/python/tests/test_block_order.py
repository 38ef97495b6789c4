"""Orders with entries all along the diagonal, and matrices that have none."""

import pickle

import numpy
import pytest
from scipy import sparse
from scipy.sparse import csgraph

import blocktri
from matrices import drawn, in_all_forms, pattern


def assert_block_order(matrix):
    entries, form = pattern(matrix), blocktri.dmperm(matrix)
    p, q, r = blocktri.block_order(matrix)
    size = len(entries)
    assert sorted(p) == sorted(q) == list(range(size))
    ordered = entries[p][:, q]
    assert ordered.diagonal().all()
    assert r.tolist() == [0, *numpy.cumsum(form.blocks.sizes())]
    for begin, end, block in zip(r, r[1:], form.blocks):
        assert not ordered[end:, begin:end].any()
        assert sorted(p[begin:end]) == block.rows.tolist() and sorted(q[begin:end]) == block.columns.tolist()


def test_random_matrices():
    random = numpy.random.default_rng(0)
    met = dict.fromkeys(("regular", "singular", "not square"), 0)
    for _ in range(700):
        for matrix in (drawn(random, most=5), sparse.random(5, 5, 0.5, "csr", random_state=random)):
            rank = csgraph.structural_rank(matrix)
            if matrix.shape[0] != matrix.shape[1]:
                met["not square"] += 1
                with pytest.raises(ValueError, match="must be square") as caught:
                    blocktri.block_order(matrix)
                assert caught.type is ValueError
            elif rank < matrix.shape[0]:
                met["singular"] += 1
                with pytest.raises(blocktri.StructurallySingular) as caught:
                    blocktri.block_order(matrix)
                assert_blame(caught.value, pattern(matrix), rank)
            else:
                met["regular"] += 1
                assert_block_order(matrix)
    assert min(met.values()) > 50


def assert_blame(error, entries, rank):
    """The columns have entries in the rows alone, of which there are fewer, by as many as the rank is short of the size."""
    assert error.rank == rank
    assert numpy.flatnonzero(entries[:, error.columns].any(axis=1)).tolist() == error.rows.tolist()
    assert len(error.columns) - len(error.rows) == len(entries) - rank


def test_each_format():
    for form in in_all_forms(sparse.csc_matrix(numpy.array([[0, 1, 0, 1], [1, 0, 0, 0], [0, 1, 1, 0], [0, 0, 1, 1]]))):
        if form.format != "bsr":
            assert_block_order(form)


def test_the_words_of_a_singular_matrix():
    for entries, words in (([[1, 1, 0], [0, 0, 1], [0, 0, 1]], "rank is 2 of 3, since columns 0, 1 have entries in row 0 alone"),
                           ([[1, 0], [1, 0]], "rank is 1 of 2, since column 1 has no entries")):
        with pytest.raises(blocktri.StructurallySingular, match=words):
            blocktri.block_order(sparse.csc_matrix(entries))


def test_a_singular_matrix_is_told_in_another_process():
    with pytest.raises(blocktri.StructurallySingular) as caught:
        blocktri.block_order(sparse.csc_matrix((2, 2)))
    copy = pickle.loads(pickle.dumps(caught.value))
    assert (str(copy), copy.rank, copy.columns.tolist()) == (str(caught.value), 0, [0, 1])


def test_malformed_arrays_are_refused():
    matrix = sparse.csc_matrix(numpy.eye(3))
    matrix.indices[1] = 3
    with pytest.raises(ValueError, match=r"indices\[1\] is 3, but the matrix has 3 rows"):
        blocktri.block_order(matrix)

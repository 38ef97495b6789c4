"""Ranks and matchings beside SciPy's."""

import numpy
import pytest
from scipy import sparse
from scipy.sparse import csgraph

import blocktri
from matrices import drawn, in_all_forms, pattern


def assert_matching(matrix, rows_of_columns, columns_of_rows, size):
    """The lists have the same pairs, so many, and each is an entry."""
    entries = pattern(matrix)
    assert (len(columns_of_rows), len(rows_of_columns)) == matrix.shape
    paired = numpy.flatnonzero(rows_of_columns >= 0)
    assert len(paired) == size == numpy.count_nonzero(columns_of_rows >= 0)
    assert entries[rows_of_columns[paired], paired].all()
    assert (columns_of_rows[rows_of_columns[paired]] == paired).all()
    assert rows_of_columns.min(initial=0) >= -1 and columns_of_rows.min(initial=0) >= -1


@pytest.mark.parametrize("seed", range(8))
def test_ranks_and_matchings_are_scipys(seed):
    random = numpy.random.default_rng(seed)
    for _ in range(500):
        matrix = drawn(random)
        size = csgraph.structural_rank(matrix)
        assert blocktri.structural_rank(matrix) == size
        by_row, by_column = blocktri.maximum_matching(matrix), blocktri.maximum_matching(matrix, "column")
        assert_matching(matrix, by_row, by_column, size)
        assert by_row.dtype == by_column.dtype == csgraph.maximum_bipartite_matching(matrix).dtype


def test_each_format_has_the_same_answers():
    random = numpy.random.default_rng(8)
    for _ in range(60):
        for form in in_all_forms(drawn(random)):
            by_columns = sparse.csc_matrix(pattern(form))  # a block of BSR may have stored zeros
            size, least = csgraph.structural_rank(by_columns), blocktri.maximum_matching(by_columns, least=True)
            assert blocktri.structural_rank(form) == size
            by_row, by_column = blocktri.maximum_matching(form), blocktri.maximum_matching(form, "column")
            assert_matching(form, by_row, by_column, size)
            assert (blocktri.maximum_matching(form, least=True) == least).all()


def test_larger_matrices():
    random = numpy.random.default_rng(9)
    for rows, columns, density in ((300, 200, 0.005), (200, 300, 0.005), (250, 250, 0.008), (400, 400, 0.05)):
        matrix = sparse.random(rows, columns, density, "csr", random_state=random)
        assert blocktri.structural_rank(matrix) == csgraph.structural_rank(matrix)
        by_row, by_column = blocktri.maximum_matching(matrix), blocktri.maximum_matching(matrix, "column")
        assert_matching(matrix, by_row, by_column, csgraph.structural_rank(matrix))


def test_the_least_matching_takes_the_least_row_with_which_a_maximum_one_is_left():
    random = numpy.random.default_rng(10)
    for _ in range(150):
        matrix = drawn(random, most=6)
        left, expected, size = pattern(matrix), [], csgraph.structural_rank(matrix)
        for column in range(matrix.shape[1]):
            row = -1
            for candidate in numpy.flatnonzero(left[:, column]):
                rest = left.copy()
                rest[candidate, :] = rest[:, : column + 1] = False
                found = numpy.count_nonzero(numpy.array(expected, int) >= 0)
                if found + 1 + csgraph.structural_rank(sparse.csc_matrix(rest)) == size:
                    row = candidate
                    left[row, :] = False
                    break
            left[:, column] = False
            expected.append(row)
        assert blocktri.maximum_matching(matrix, least=True).tolist() == expected
        columns_of_rows = blocktri.maximum_matching(matrix, "column", least=True)
        assert_matching(matrix, numpy.array(expected, int), columns_of_rows, size)


def test_dense_arrays_and_lists_are_converted():
    assert blocktri.structural_rank(numpy.eye(3)) == 3
    assert blocktri.structural_rank([[0, 1], [0, 1]]) == 1


def test_a_word_that_names_no_side():
    with pytest.raises(ValueError, match="perm_type must be 'row' or 'column', not 'rows'"):
        blocktri.maximum_matching(numpy.eye(2), "rows")

"""Heaviest and bottleneck diagonals against the definitions."""

import itertools

import numpy
import pytest
from scipy import sparse
from scipy.optimize import linear_sum_assignment

import blocktri
from matrices import in_all_forms, pattern, with_wide_indices

CALLS = (blocktri.heaviest_diagonal, blocktri.bottleneck_diagonal)


def drawn(random, size):
    """A square matrix of full rank in CSC, with places given twice, rows in any order, and zeros."""
    entries = [(row, column) for row in range(size) for column in range(size) if random.random() < 0.4]
    entries += list(zip(random.permutation(size), range(size)))
    rows, columns = numpy.array(entries, int).reshape(-1, 2).T
    order = numpy.argsort(columns, kind="stable")
    starts = numpy.concatenate(([0], numpy.cumsum(numpy.bincount(columns, minlength=size))))
    values = random.integers(-6, 7, len(entries))
    return sparse.csc_matrix((values, rows[order].astype("i4"), starts.astype("i4")), shape=(size, size))


def weights_of(matrix):
    """The magnitudes of the sums as an array of Python's integers, and where there are entries."""
    sums = numpy.zeros(matrix.shape, object)
    listed = sparse.csc_matrix(matrix).tocoo()
    for row, column, value in zip(listed.row, listed.col, listed.data):
        sums[row, column] += int(value)
    return abs(sums), pattern(matrix)


def assert_heaviest(matrix):
    weights, entries = weights_of(matrix)
    rows, row_prices, column_prices, total = blocktri.heaviest_diagonal(matrix)
    columns = numpy.arange(len(rows))
    assert sorted(rows) == columns.tolist() and entries[rows, columns].all()
    assert total == weights[rows, columns].sum() == sum(row_prices.tolist()) + sum(column_prices.tolist())
    bounds = row_prices.astype(object)[:, None] + column_prices.astype(object)[None, :]
    assert (weights <= bounds)[entries].all()
    return total


def assert_bottleneck(matrix):
    weights, entries = weights_of(matrix)
    rows, least, shown = blocktri.bottleneck_diagonal(matrix)
    columns = numpy.arange(len(rows))
    assert sorted(rows) == columns.tolist() and entries[rows, columns].all()
    if len(rows):
        assert least == weights[rows, columns].min()
        above = entries & (weights > least)
        assert numpy.count_nonzero(above[:, shown].any(axis=1)) < len(shown)
    return least


@pytest.mark.parametrize("form", ["csc", "csr"])
def test_small_matrices(form):
    random = numpy.random.default_rng(0)
    for time in range(200):
        matrix = drawn(random, time % 6).asformat(form)
        weights, entries = weights_of(matrix)
        size = len(entries)
        diagonals = [[weights[row, column] for column, row in enumerate(rows)]
                     for rows in itertools.permutations(range(size)) if entries[rows, range(size)].all()]
        assert assert_heaviest(matrix) == max(map(sum, diagonals))
        least = assert_bottleneck(matrix)
        assert size == 0 or least == max(map(min, diagonals))


def test_larger_matrices():
    random = numpy.random.default_rng(1)
    for size in (30, 80, 200):
        matrix = drawn(random, size)
        weights, entries = weights_of(matrix)
        costs = numpy.where(entries, -weights.astype(float), 1e6)
        assert assert_heaviest(matrix) == -costs[linear_sum_assignment(costs)].sum()
        assert_bottleneck(matrix)


def test_each_format_and_kind_of_value():
    matrix = sparse.csc_matrix(numpy.array([[1, 5, 2], [4, 1, 0], [0, 6, -7]]))
    kinds = (with_wide_indices(matrix.astype(kind)) for kind in "f8 f4 i1 i2 >i8 >f8".split())
    for form in itertools.chain(in_all_forms(matrix), kinds):
        assert assert_heaviest(form) == 16
        assert assert_bottleneck(form) == 4
    assert assert_heaviest(sparse.csr_matrix(numpy.eye(3, dtype=bool))) == 3
    assert assert_heaviest(sparse.csr_matrix(numpy.eye(3, dtype="u8"))) == 3


def test_numbers_of_all_64_bits():
    large = 2**63 - 1
    matrix = sparse.csc_matrix(numpy.array([[large, 0], [1, -large]]))
    assert assert_heaviest(matrix) == 2 * large
    assert assert_bottleneck(matrix) == large
    assert assert_heaviest(sparse.csc_matrix(numpy.diag([large, large, -large]))) == 3 * large


def chain(form):
    """Zeros on the only diagonal, and below each but the last an entry as heavy as can be, so that each row has to cost as much more
    than the one before it."""
    places = [(0, 0), (1, 0), (1, 1), (2, 1), (2, 2), (3, 2), (3, 3)]
    return form(([0, 2**63 - 1] * 3 + [0], tuple(zip(*places))), shape=(4, 4))


@pytest.mark.parametrize("form", [sparse.csc_matrix, sparse.csr_matrix])
def test_prices_that_need_more_than_64_bits(form):
    with pytest.raises(ValueError, match="a price needs more than 64 bits"):
        blocktri.heaviest_diagonal(chain(form))
    assert assert_bottleneck(chain(form)) == 0


@pytest.mark.parametrize("call", CALLS)
@pytest.mark.parametrize("value", [0.5, numpy.nan, numpy.inf, 2.0**63, 1j])
def test_values_that_are_no_integers(call, value):
    with pytest.raises(TypeError, match="values must be integers"):
        call(sparse.csc_matrix([[value]]))


@pytest.mark.parametrize("call", CALLS)
def test_values_that_are_too_large(call):
    with pytest.raises(TypeError, match="values must be integers of 64 bits, not 9223372036854775808"):
        call(sparse.csc_matrix(numpy.array([[2**63]], "u8")))
    arrays = ([1, 1, 2**62, 2**62, 1], [0, 0, 2, 2, 2], [0, 1, 4, 5])
    for form, words in ((sparse.csc_matrix, "row 2, column 1"), (sparse.csr_matrix, "row 1, column 2")):
        with pytest.raises(ValueError, match=f"the values in {words} add up to more than 9223372036854775807"):
            call(form(arrays, shape=(3, 3)))


@pytest.mark.parametrize("call", CALLS)
def test_matrices_without_a_diagonal(call):
    for form in (sparse.csc_matrix, sparse.csr_matrix):
        with pytest.raises(blocktri.StructurallySingular) as caught:
            call(form([[1, 1, 1], [0, 0, 1], [0, 0, 1]]))
        assert caught.value.columns.tolist() == [0, 1] and caught.value.rows.tolist() == [0]
        with pytest.raises(ValueError, match=r"must be square, but has the shape \(1, 2\)"):
            call(form([[1, 1]]))


@pytest.mark.parametrize("call", CALLS)
def test_malformed_arrays(call):
    for form in (sparse.csc_matrix, sparse.csr_matrix):
        matrix = form(numpy.eye(2, dtype=int))
        matrix.data = matrix.data[:1]
        with pytest.raises(ValueError, match=r"data has the shape \(1,\), but there are 2 indices"):
            call(matrix)
        matrix = form(numpy.eye(2, dtype=int))
        matrix.indices[1] = 2
        with pytest.raises(ValueError, match=r"indices\[1\] is 2"):
            call(matrix)
        matrix = form(numpy.eye(2, dtype=int))
        matrix.indptr[1] = -1
        with pytest.raises(ValueError, match=r"indptr\[1:3\] is \[-1, 2\]"):
            call(matrix)


def one_place(values, form, kind):
    """A matrix of one row and column in a format, whose one place is given once for each of the values."""
    none = numpy.zeros(len(values), numpy.int32)
    data = numpy.array(values, kind)
    if form == "coo":
        return sparse.coo_matrix((data, (none, none)), shape=(1, 1))
    if form == "bsr":
        return sparse.bsr_matrix((data.reshape(-1, 1, 1), none, [0, len(values)]), shape=(1, 1))
    kept_by = sparse.csr_matrix if form == "csr" else sparse.csc_matrix
    return kept_by((data, none, [0, len(values)]), shape=(1, 1))


# the other formats of SciPy keep a place once
SEVERAL_TIMES = ("csc", "csr", "coo", "bsr")


@pytest.mark.parametrize("form", SEVERAL_TIMES)
@pytest.mark.parametrize("call", CALLS)
@pytest.mark.parametrize("kind, values, magnitude", [
    ("i1", [100, 100], 200), ("i1", [127, 127], 254), ("i1", [-128, -128], 256), ("i1", [-128, 127], 1),
    ("u1", [200, 100], 300), ("u1", [255, 255], 510), ("bool", [True, True], 2),
    ("i2", [2**15 - 1] * 2, 2**16 - 2), ("i2", [-(2**15)] * 2, 2**16), ("u2", [2**16 - 1] * 2, 2**17 - 2),
    ("i4", [2**31 - 1] * 2, 2**32 - 2), ("i4", [-(2**31)] * 2, 2**32), ("u4", [2**32 - 1] * 2, 2**33 - 2),
    ("i8", [2**62, 2**62 - 1], 2**63 - 1), ("i8", [-(2**62), -(2**62) + 1], 2**63 - 1),
    ("i8", [2**63 - 1, 2**63 - 1, -(2**63) + 1], 2**63 - 1), ("u8", [2**62, 2**62 - 1], 2**63 - 1),
    ("f4", [2.0**24, 1.0], 2**24 + 1), ("f8", [2.0**53, 1.0], 2**53 + 1),
])
def test_sums_in_any_type(call, form, kind, values, magnitude):
    matrix = one_place(values, form, kind)
    answer = call(matrix)
    assert answer[-1 if call is blocktri.heaviest_diagonal else 1] == magnitude
    assert matrix.nnz == len(values)  # what was handed in stays


@pytest.mark.parametrize("form", SEVERAL_TIMES)
@pytest.mark.parametrize("call", CALLS)
@pytest.mark.parametrize("kind, values", [
    ("i8", [2**62] * 3), ("i8", [2**63 - 1, 1]), ("i8", [-(2**63) + 1, -1]), ("u8", [2**62] * 3), ("u8", [2**63 - 1, 1]),
    ("f8", [2.0**62] * 2),
])
def test_sums_past_the_limit(call, form, kind, values):
    with pytest.raises(ValueError, match="add up to more"):
        call(one_place(values, form, kind))

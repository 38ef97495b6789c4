"""Values of one place add up exactly, in every format and every integer type, at the ends of the type and beyond them."""

import numpy
import pytest
from scipy import sparse

import blocktri
import blocktri.csgraph

INTEGERS = ("int8", "int16", "int32", "int64", "uint8", "uint16", "uint32", "uint64", "bool")
LIMIT = 2**63 - 1


def columns(values, places, shape):
    """CSC that keeps each value, where a place stands several times."""
    order = sorted(range(len(places)), key=lambda at: places[at][1])
    starts = numpy.searchsorted([places[at][1] for at in order], numpy.arange(shape[1] + 1))
    return values[order], numpy.array([places[at][0] for at in order], "i4"), starts.astype("i4")


def lists(kind, values, places, shape):
    return kind((values, tuple(numpy.transpose(places))), shape=shape)


def by_columns(kind, values, places, shape):
    return kind(columns(values, places, shape), shape=shape)


def by_rows(kind, values, places, shape):
    return kind(columns(values, [place[::-1] for place in places], shape[::-1]), shape=shape)


def by_blocks(kind, values, places, shape):
    data, ids, starts = columns(values, [place[::-1] for place in places], shape[::-1])
    return kind((data.reshape(-1, 1, 1), ids, starts), shape=shape)


def one_by_one(kind, values, places, shape):
    """A format that has each place once."""
    matrix = kind(shape, dtype=values.dtype)
    for place, value in zip(places, values):
        matrix[place] = value
    return matrix


def diagonals(kind, values, places, shape):
    return kind(lists(sparse.coo_matrix, values, places, shape))


MADE = {"csc": by_columns, "csr": by_rows, "coo": lists, "bsr": by_blocks, "lil": one_by_one, "dok": one_by_one, "dia": diagonals}
WITH_SEVERAL = ("csc", "csr", "coo", "bsr")
KINDS = [(form, form + ending) for form in MADE for ending in ("_matrix", "_array")]


def sums(dtype):
    """Values of a place, at the ends of their type and beyond."""
    if dtype == "bool":
        return [[True], [True] * 2, [True] * 300]
    low, high = int(numpy.iinfo(dtype).min), int(numpy.iinfo(dtype).max)
    near = [[high], [low], [high, 1], [high, high], [low, high], [high - 1, 1], [high // 2 + 1] * 3, [high] + [1] * 5, [high] * 300]
    if low < 0:
        near += [[low, -1], [low, low], [low + 1], [low + 1, -1], [low, 1], [100, 100, 56], [low] * 2 + [high] * 2]
    return near


def told(call, matrix):
    """What a call answers of weights, or its error."""
    try:
        answer = call(matrix)
    except (TypeError, ValueError) as error:
        return type(error), str(error)
    return (answer.sum, answer.rows.tolist()) if call is blocktri.heaviest_diagonal else (answer.least, answer.rows.tolist())


def expected(values, place):
    """What CSC has to answer of these values of one place in a matrix that has 0 at the other one."""
    if any(value > LIMIT for value in values):
        return TypeError, f"values must be integers of 64 bits, not {next(value for value in values if value > LIMIT)}"
    if abs(sum(values)) > LIMIT:
        return ValueError, f"the values in row {place[0]}, column {place[1]} add up to more than {LIMIT} in magnitude"
    return abs(sum(values)), [1, 0]


@pytest.mark.parametrize("dtype", INTEGERS)
@pytest.mark.parametrize("form, kind", KINDS)
def test_every_format_and_type_adds_up_exactly(form, kind, dtype):
    tried, place = 0, (0, 1)
    for values in sums(dtype):
        if form not in WITH_SEVERAL and (len(values) > 1 or values == [0]):  # which these formats do not hold
            continue
        places = [(1, 0), *[place] * len(values)]
        matrix = MADE[form](getattr(sparse, kind), numpy.array([1, *values], dtype), places, (2, 2))
        assert matrix.format == form and matrix.dtype == dtype
        found = expected(values, place)
        answer = (found[0] + 1, found[1]) if isinstance(found[1], list) else found
        assert told(blocktri.heaviest_diagonal, matrix) == answer
        assert told(blocktri.bottleneck_diagonal, matrix) == ((min(found[0], 1), found[1]) if answer is not found else found)
        tried += 1
    assert tried > (5 if form in WITH_SEVERAL and dtype != "bool" else 0)


@pytest.mark.parametrize("maximize", [False, True])
@pytest.mark.parametrize("dtype", INTEGERS[:-1])
@pytest.mark.parametrize("kind", ["coo_matrix", "coo_array"])
def test_drop_ins_add_up_exactly(kind, dtype, maximize):
    """SciPy adds up the edges of a COO graph in their own type. Here the better matching of two is that of the true sums."""
    other = 50
    for values in sums(dtype):
        places = [(0, 0), (1, 1), *[(0, 1)] * len(values), (1, 0)]
        data = numpy.array([other, other, *values, other], dtype)
        graph = lists(getattr(sparse, kind), data, places, (2, 2))
        if any(value > LIMIT for value in values):
            with pytest.raises(TypeError, match="values must be integers of 64 bits"):
                blocktri.csgraph.min_weight_full_bipartite_matching(graph, maximize)
        elif max(abs(sum(values)), other - sum(values)) > LIMIT:
            with pytest.raises(ValueError, match="row 0, column 1 add up to more than|weights differ by more than"):
                blocktri.csgraph.min_weight_full_bipartite_matching(graph, maximize)
        elif sum(values) == 0:
            with pytest.warns(UserWarning, match="explicit zero weights"):
                assert blocktri.csgraph.min_weight_full_bipartite_matching(graph, maximize)[1].tolist() == [0, 1]
        elif sum(values) != other:
            found = blocktri.csgraph.min_weight_full_bipartite_matching(graph, maximize)
            assert found[1].tolist() == ([1, 0] if (sum(values) > other) == maximize else [0, 1])
    assert sparse.coo_matrix(([200, 100], ([0, 0], [0, 0])), dtype="uint8").toarray().tolist() == [[44]]


@pytest.mark.parametrize("kind", [list, tuple, numpy.array])
def test_dense_arrays_have_the_values_that_they_show(kind):
    assert blocktri.heaviest_diagonal(kind([[100, 1], [1, 100]])).sum == 200
    assert blocktri.heaviest_diagonal(numpy.array([[100, 1], [1, 100]], "i1")).sum == 200


def test_tuples_are_rows():
    """They are not SciPy's ``(data, (row, column))``, whose values it would add up in their own type."""
    assert blocktri.structural_rank(((1, 0), (0, 1))) == 2
    assert blocktri.heaviest_diagonal(((3, 0), (0, 4))).sum == 7

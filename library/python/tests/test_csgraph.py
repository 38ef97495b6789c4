"""The drop-ins for SciPy's graph module."""

import inspect
import os
import subprocess
import sys
import warnings

import numpy
import pytest
from scipy import sparse
from scipy.sparse import csgraph

import blocktri.csgraph
from matrices import drawn, in_all_forms, with_wide_indices

PACKAGE = os.path.dirname(os.path.dirname(os.path.abspath(__file__)))
TESTS = [os.path.join(os.path.dirname(csgraph.__file__), "tests", f"test_{name}.py") for name in ("matching", "reordering")]

# runs tests of SciPy's graph module that gets the calls of this package before they are read
SWAPPED = """
import sys
import blocktri.csgraph, pytest
from scipy.sparse import csgraph
for name in blocktri.csgraph.__all__:
    setattr(csgraph, name, getattr(blocktri.csgraph, name))
sys.exit(pytest.main(sys.argv[1:]))
"""


@pytest.mark.skipif(not all(map(os.path.exists, TESTS)), reason="this SciPy comes without its tests")
def test_scipys_own_tests_pass():
    environment = os.environ | {"PYTHONPATH": PACKAGE}
    command = [sys.executable, "-c", SWAPPED, "-q", "-p", "no:cacheprovider", *TESTS]
    done = subprocess.run(command, env=environment, capture_output=True, text=True, cwd=os.path.dirname(TESTS[0]))
    assert done.returncode == 0 and " passed" in done.stdout, done.stdout + done.stderr


def outcome(call, *arguments, **named):
    """The answer, or the kind and the words of the exception, and the warnings."""
    with warnings.catch_warnings(record=True) as warned:
        warnings.simplefilter("always")
        try:
            answer = call(*arguments, **named)
        except Exception as error:
            answer = (type(error), str(error))
    return answer, [(warning.category, str(warning.message)) for warning in warned]


@pytest.mark.parametrize("name", blocktri.csgraph.__all__)
@pytest.mark.parametrize("what", [numpy.eye(3), [[1, 0]], "word", None, sparse.eye(2).tolil(), sparse.eye(2).todok(), sparse.eye(2),
                                  sparse.eye(2).tobsr(), sparse.lil_array((2, 3))])
def test_other_matrices_are_taken_and_refused_as_by_scipy(name, what):
    (ours, warned), (theirs, warned_there) = (outcome(getattr(module, name), what) for module in (blocktri.csgraph, csgraph))
    assert warned == warned_there
    assert numpy.array_equal(ours, theirs)


def test_random_matrices_have_the_same_answers():
    random = numpy.random.default_rng(0)
    for _ in range(60):
        for form in in_all_forms(drawn(random)):
            if form.format in ("csc", "csr") and form.indices.itemsize == 8:
                continue  # SciPy 1.10 takes no such indices
            assert outcome(blocktri.csgraph.structural_rank, form) == outcome(csgraph.structural_rank, form)
            for perm_type in ("row", "column", "another word"):
                ours, warned = outcome(blocktri.csgraph.maximum_bipartite_matching, form, perm_type)
                theirs, warned_there = outcome(csgraph.maximum_bipartite_matching, form, perm_type)
                assert warned == warned_there
                if isinstance(theirs, numpy.ndarray):
                    assert ours.dtype == theirs.dtype and ours.shape == theirs.shape
                    assert numpy.count_nonzero(ours >= 0) == numpy.count_nonzero(theirs >= 0)
                else:
                    assert ours == theirs


def edges_of(form, maximize):
    """The weight of each edge that counts."""
    listed = form.tocsr().tocoo()
    weights = dict(zip(zip(listed.row, listed.col), map(float, listed.data)))
    return {place: weight for place, weight in weights.items() if weight not in (0, -numpy.inf if maximize else numpy.inf)}


def assert_full_matchings_are_as_good(form, maximize):
    """The lists have edges of the same total weight as SciPy's, with the same warnings; or there is no full matching.

    SciPy 1.10 isn't asked then, since it does not always come to an end.
    """
    edges, ends = edges_of(form, maximize), numpy.zeros(form.shape)
    if edges:
        ends[tuple(zip(*edges))] = 1
    ours, warned = outcome(blocktri.csgraph.min_weight_full_bipartite_matching, form, maximize)
    if csgraph.structural_rank(sparse.csr_matrix(ends)) < min(form.shape):
        assert ours == (ValueError, "no full matching exists")
        return False
    theirs, warned_there = outcome(csgraph.min_weight_full_bipartite_matching, form, maximize)
    assert warned == warned_there
    assert [(one.dtype, one.shape) for one in ours] == [(one.dtype, one.shape) for one in theirs]
    rows, columns = ours
    assert (numpy.diff(rows) > 0).all() and len(set(columns)) == len(columns)
    assert sum(edges[place] for place in zip(rows, columns)) == sum(edges[place] for place in zip(*theirs))
    return True


@pytest.mark.parametrize("maximize", [False, True])
@pytest.mark.parametrize("kind", ["int64", "int8", "float64", "bool", "with infinities"])
def test_full_matchings_of_random_matrices_are_as_good(maximize, kind):
    random, matched = numpy.random.default_rng(1), 0
    for _ in range(150):
        matrix = drawn(random, most=5, values=range(-3, 9))
        matrix.sum_duplicates()
        if kind == "with infinities":
            matrix = matrix.astype(float)
            matrix.data[random.random(len(matrix.data)) < 0.1] = -numpy.inf if maximize else numpy.inf
        else:
            matrix = matrix.astype(kind)
        for form in (matrix, matrix.tocsr(), sparse.csr_array(matrix), matrix.tocoo()):
            matched += assert_full_matchings_are_as_good(form, maximize)
    assert matched > 100


@pytest.mark.parametrize("maximize", [False, True])
def test_of_edges_between_the_same_two_the_best_one_counts(maximize):
    """In CSC and CSR, as for SciPy, which does not always find the matching then; in COO they are added up by both."""
    random, matched = numpy.random.default_rng(3), 0
    for _ in range(150):
        matrix, best = drawn(random, most=5, values=range(1, 9)), {}
        listed = matrix.tocoo()
        for place, weight in zip(zip(listed.row, listed.col), listed.data):
            best[place] = (max if maximize else min)(weight, best.get(place, weight))
        once = sparse.coo_matrix((list(best.values()), tuple(zip(*best)) or ([], [])), shape=matrix.shape, dtype=int)
        expected = outcome(blocktri.csgraph.min_weight_full_bipartite_matching, once, maximize)[0]
        for form in (matrix, matrix.tocsr()):
            ours = outcome(blocktri.csgraph.min_weight_full_bipartite_matching, form, maximize)[0]
            if isinstance(expected[0], type):
                assert ours == expected
            else:
                matched += 1
                assert sum(best[place] for place in zip(*ours)) == sum(best[place] for place in zip(*expected))
    assert matched > 50


def test_full_matchings_of_larger_matrices_are_as_good():
    random = numpy.random.default_rng(2)
    for rows, columns, density in ((60, 60, 0.2), (40, 70, 0.2), (70, 40, 0.2), (200, 200, 0.05), (150, 200, 0.05)):
        for maximize in (False, True):
            matrix = sparse.random(rows, columns, density, "csr", random_state=random)
            matrix.data = numpy.ceil(1000 * matrix.data)
            assert assert_full_matchings_are_as_good(matrix, maximize)


def test_weights_that_are_no_integers():
    for weight in (0.5, numpy.nan, 1e19, -numpy.inf, 2j):
        with pytest.raises(TypeError, match="must be integers"):
            blocktri.csgraph.min_weight_full_bipartite_matching(sparse.csr_matrix([[weight, 1], [1, 1]]))
    with pytest.raises(ValueError, match="no full matching exists"):
        blocktri.csgraph.min_weight_full_bipartite_matching(sparse.csr_matrix([[0.5, 0], [0.5, 0]]))
    with pytest.raises(ValueError, match="differ by more than 9223372036854775807"):
        blocktri.csgraph.min_weight_full_bipartite_matching(sparse.csr_matrix([[-(2**62) - 1, 1], [1, 2**62]]))
    with pytest.raises(ValueError, match="expected a matrix containing numerical entries, got <U1"):
        matrix = sparse.csr_matrix([[1]])
        matrix.data = matrix.data.astype("U1")
        blocktri.csgraph.min_weight_full_bipartite_matching(matrix)


def test_no_prices_are_asked_for():
    large = 2**63 - 1  # in each row but the first, left of a diagonal that is the only one: no prices of 64 bits prove it heaviest
    for form in (sparse.csr_matrix, sparse.csc_matrix):
        matrix = form(sparse.csr_matrix(([1, large, 1, large, 1, large, 1], [0, 0, 1, 1, 2, 2, 3], [0, 1, 3, 5, 7])))
        rows, columns = blocktri.csgraph.min_weight_full_bipartite_matching(matrix, maximize=True)
        assert rows.tolist() == columns.tolist() == [0, 1, 2, 3]
        with pytest.raises(ValueError, match="a price needs more than 64 bits"):
            blocktri.heaviest_diagonal(matrix)


def test_numbers_have_32_bits_as_scipys():
    wide = with_wide_indices(sparse.csr_matrix([[1, 2, 0], [0, 1, 3]]))
    for matrix in (wide, with_wide_indices(wide.tocsc())):
        for side in ("row", "column"):
            assert blocktri.csgraph.maximum_bipartite_matching(matrix, side).dtype == numpy.int32
        found = blocktri.csgraph.min_weight_full_bipartite_matching(matrix)
        assert [lines.dtype for lines in found] == [numpy.int64, numpy.int32]  # as SciPy's of the narrow matrix


def test_weights_beyond_those_that_floating_point_numbers_tell_apart():
    large = 2**60
    matrix = sparse.csr_matrix(numpy.array([[large, large + 1], [large + 1, large + 3]]))
    assert blocktri.csgraph.min_weight_full_bipartite_matching(matrix)[1].tolist() == [1, 0]
    assert blocktri.csgraph.min_weight_full_bipartite_matching(matrix, maximize=True)[1].tolist() == [0, 1]


def test_a_malformed_graph_with_weights():
    for form in (sparse.csr_matrix, sparse.csc_matrix):
        for name, wrong in (("indices", 5), ("indices", -1), ("indptr", -1), ("indptr", 3)):
            matrix = form(numpy.eye(3))
            getattr(matrix, name)[1] = wrong
            with pytest.raises(ValueError):
                blocktri.csgraph.min_weight_full_bipartite_matching(matrix)


def test_arguments_are_scipys():
    """SciPy's calls are compiled; their pages begin with their arguments."""
    for name in blocktri.csgraph.__all__:
        arguments = [f"{parameter.name}={parameter.default!r}" if parameter.default is not parameter.empty else parameter.name
                     for parameter in inspect.signature(getattr(blocktri.csgraph, name)).parameters.values()]
        assert getattr(csgraph, name).__doc__.strip().startswith(f"{name}({', '.join(arguments)})")

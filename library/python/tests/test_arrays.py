"""What a matrix may be made of: arrays that are read where they stand, arrays that are converted, and arrays that are refused."""

import itertools
import types

import numpy
import pytest
from scipy import sparse
from scipy.sparse import csgraph

import blocktri
from blocktri._entries import compressed
from matrices import drawn, in_all_forms, with_wide_indices

CALLS = (blocktri.structural_rank, blocktri.maximum_matching, blocktri.dmperm, lambda a: blocktri.maximum_matching(a, "column"),
         lambda a: blocktri.maximum_matching(a, least=True))


def handmade(indptr, indices, shape, form=sparse.csc_matrix, **changes):
    """A matrix whose arrays are set behind SciPy's back."""
    matrix = form(shape)
    matrix.indptr, matrix.indices = numpy.asarray(indptr), numpy.asarray(indices)
    matrix.data = numpy.ones(len(matrix.indices))
    for name, value in changes.items():
        setattr(matrix, name, value)
    return matrix


@pytest.mark.parametrize("form", ["csc", "csr"])
@pytest.mark.parametrize("width", [32, 64])
def test_compressed_arrays_are_read_where_they_stand(form, width):
    matrix = sparse.random(50, 40, 0.1, form, random_state=0)
    if width == 64:
        matrix = with_wide_indices(matrix)
    for readable in (matrix, getattr(sparse, form + "_array")(matrix) if width == 32 else matrix):
        found = compressed(readable)
        assert found.is_by_rows == (form == "csr")
        assert found.starts is readable.indptr or numpy.shares_memory(found.starts, readable.indptr)
        assert numpy.shares_memory(found.ids, readable.indices)
        assert found.starts.itemsize == found.ids.itemsize == width // 8


def test_nothing_of_the_callers_is_changed():
    random = numpy.random.default_rng(1)
    for _ in range(20):
        matrix = drawn(random)
        for readable in in_all_forms(matrix):
            arrays = [value for value in vars(readable).values() if isinstance(value, numpy.ndarray)]
            before = [array.copy() for array in arrays]
            names = set(vars(readable))
            for array in arrays:  # SciPy converts no LIL that can't be written
                array.flags.writeable = readable.format == "lil"
            for call in CALLS:
                call(readable)
            assert all((array == old).all() for array, old in zip(arrays, before))
            assert set(vars(readable)) == names or readable.format not in ("csc", "csr")


def test_integers_of_other_kinds_are_converted():
    matrix = sparse.random(20, 30, 0.1, "csc", random_state=2)
    size = csgraph.structural_rank(matrix)
    kinds = "i2 i1, u1 u1, i4 i8, i8 i4, u4 u4, u8 u8, u4 i8, >i4 <i4, >i8 >i8"
    for starts, ids in map(str.split, kinds.split(",")):
        assert blocktri.structural_rank(handmade(matrix.indptr.astype(starts), matrix.indices.astype(ids), matrix.shape)) == size


def test_arrays_with_gaps_and_off_their_bounds_are_converted():
    matrix = sparse.random(20, 30, 0.1, "csc", random_state=3)
    size = csgraph.structural_rank(matrix)
    gapped = numpy.repeat(matrix.indices, 2)[::2]
    backwards = matrix.indptr[::-1].copy()[::-1]
    shifted = numpy.frombuffer(b"x" + matrix.indices.tobytes(), numpy.int32, offset=1)
    assert not gapped.flags.c_contiguous and not shifted.flags.aligned
    for starts, ids in ((matrix.indptr, gapped), (backwards, gapped), (matrix.indptr, shifted)):
        made = handmade(starts, ids, matrix.shape)
        handed = compressed(made)
        assert all(array.flags.c_contiguous and array.flags.aligned for array in (handed.starts, handed.ids))
        assert blocktri.structural_rank(made) == size


def test_what_stands_behind_the_last_start_is_no_entry():
    matrix = handmade([0, 1, 2], [0, 1, 1, 77], (2, 2))
    assert blocktri.structural_rank(matrix) == 2
    assert blocktri.dmperm(matrix).blocks.sizes().tolist() == [1, 1]


@pytest.mark.parametrize("form", ["csc", "csr"])
def test_any_object_with_the_arrays_will_do(form):
    one = types.SimpleNamespace(format=form, shape=(2, 2), indptr=[0, 1, 2], indices=[1, 0])
    assert blocktri.structural_rank(one) == 2
    assert blocktri.maximum_matching(one).tolist() == blocktri.maximum_matching(one, least=True).tolist() == [1, 0]
    none = types.SimpleNamespace(format=form, shape=(2, 1)[:: 1 if form == "csc" else -1], indptr=[0, 0], indices=[])
    assert blocktri.structural_rank(none) == 0


MALFORMED = [
    (([0, 3, 2, 4], [0, 1, 2, 0]), r"indptr\[1:3\] is \[3, 2\]"),
    (([1, 2, 3, 4], [0, 1, 2, 0]), r"indptr\[0:1\] is \[1\]"),
    (([0, -1, 2, 4], [0, 1, 2, 0]), r"indptr\[1:3\] is \[-1, 2\]"),
    (([0, 1, 2, 5], [0, 1, 2, 0]), r"indptr\[2:4\] is \[2, 5\]"),
    (([0, 1, 2, -4], [0, 1, 2, 0]), r"indptr\[2:4\] is \[2, -4\]"),
    (([0, 1, 2, 4], [0, 1, 3, 0]), r"indices\[2\] is 3, but the matrix has 3 rows"),
    (([0, 1, 2, 4], [0, -1, 2, 0]), r"indices\[1\] is -1, but the matrix has 3 rows"),
    (([0, 1, 4], [0, 1, 2, 0]), r"indptr has the shape \(3,\), but for the shape \(3, 3\) it must be \(4,\)"),
    (([0, 1, 2, 3, 4], [0, 1, 2, 0]), r"indptr has the shape \(5,\)"),
    (([], []), r"indptr has the shape \(0,\)"),
    (([[0, 1, 2, 4]], [0, 1, 2, 0]), r"indptr has the shape \(1, 4\)"),
    (([0, 1, 2, 4], [[0, 1], [2, 0]]), "indices has 2 dimensions"),
]


@pytest.mark.parametrize("dtype", ["i4", "i8"])
@pytest.mark.parametrize("call", CALLS)
@pytest.mark.parametrize("arrays, words", MALFORMED)
def test_malformed_arrays_are_refused(arrays, words, call, dtype):
    starts, ids = (numpy.asarray(array, dtype) for array in arrays)
    with pytest.raises(ValueError, match=words):
        call(handmade(starts, ids, (3, 3)))
    with pytest.raises(ValueError, match=words.replace("rows", "columns")):
        call(handmade(starts, ids, (3, 3), sparse.csr_matrix))


def are_compressed(indptr, indices, lines):
    """The rules for the arrays of a matrix whose indices are numbers of so many lines, read once more."""
    rises = all(left <= right for left, right in zip(indptr, indptr[1:]))
    return indptr[0] == 0 and rises and indptr[-1] <= len(indices) and all(0 <= line < lines for line in indices[: indptr[-1]])


@pytest.mark.parametrize("dtype", ["i4", "i8"])
@pytest.mark.parametrize("form", [sparse.csc_matrix, sparse.csr_matrix])
def test_each_number_of_random_arrays_broken_in_turn(form, dtype):
    """Arrays that are no compressed lines are refused, and any others have SciPy's rank."""
    random = numpy.random.default_rng(4)
    for _ in range(40):
        matrix = form(drawn(random, most=5))
        for name in ("indptr", "indices"):
            for at in range(len(getattr(matrix, name))):
                for wrong in (-1, 7, 2**31 - 1, -(2**31)):
                    arrays = {"indptr": matrix.indptr.astype(dtype), "indices": matrix.indices.astype(dtype)}
                    arrays[name][at] = wrong
                    broken = handmade(**arrays, shape=matrix.shape, form=form)
                    if are_compressed(**arrays, lines=matrix.shape[form is sparse.csr_matrix]):
                        last = arrays["indptr"][-1]
                        ones = numpy.ones(last)
                        right = form((ones, arrays["indices"][:last], arrays["indptr"]), shape=matrix.shape)
                        assert blocktri.structural_rank(broken) == csgraph.structural_rank(right)
                    else:
                        with pytest.raises(ValueError, match=r"indptr\[|indices\["):
                            blocktri.structural_rank(broken)


def test_indices_that_are_no_integers():
    with pytest.raises(TypeError, match="indptr must have integers, not float64"):
        blocktri.structural_rank(handmade([0.0, 1.0], [0], (1, 1)))
    with pytest.raises(TypeError, match="indices must have integers, not bool"):
        blocktri.structural_rank(handmade([0, 1], [True], (1, 1)))


@pytest.mark.parametrize("width", ["i4", "i8"])
def test_more_rows_than_there_may_be(width):
    starts, ids = numpy.array([0, 1], width), numpy.array([0], width)
    for shape, form in (((2**32, 1), sparse.csc_matrix), ((1, 2**40), sparse.csr_matrix)):
        matrix = handmade(starts, ids, (1, 1), form, _shape=shape)
        with pytest.raises(ValueError, match=f"{max(shape)} (rows|columns), which is more than 4294967295"):
            blocktri.structural_rank(matrix)


@pytest.mark.parametrize("form", ["csc", "csr"])
def test_more_columns_or_indices_than_there_may_be(form):
    """The arrays have one number in memory."""
    many, turn = 2**32, 1 if form == "csc" else -1
    for shape, indptr, indices, what in (
            ((1, many), numpy.broadcast_to(numpy.int32(0), many + 1), [], "columns" if form == "csc" else "rows"),
            ((1, 1), [0, many], numpy.broadcast_to(numpy.int32(0), many), "indices")):
        matrix = types.SimpleNamespace(format=form, shape=shape[::turn], indptr=indptr, indices=indices)
        with pytest.raises(ValueError, match=f"the matrix has 4294967296 {what}, which is more than 4294967295"):
            blocktri.structural_rank(matrix)


def test_a_negative_number_of_32_bits_is_no_row_of_more_than_two_thousand_million():
    starts, ids = numpy.array([0, 1], "i4"), numpy.array([-2], "i4")
    for shape, form, what in (((2**32 - 1, 1), sparse.csc_matrix, "rows"), ((1, 2**32 - 1), sparse.csr_matrix, "columns")):
        with pytest.raises(ValueError, match=rf"indices\[0\] is -2, but the matrix has 4294967295 {what}"):
            blocktri.structural_rank(handmade(starts, ids, (1, 1), form, _shape=shape))


def lines_of_all(matrix):
    """All row and column numbers of all calls of a square matrix of full rank."""
    form, order = blocktri.dmperm(matrix), blocktri.block_order(matrix)
    yield from (blocktri.maximum_matching(matrix, side, least) for side in ("row", "column") for least in (False, True))
    yield from (form.p, form.q, form.row_order, form.column_order, *form.horizontal, *form.square, *form.vertical, *form.blocks[0])
    yield from (order.row_order, order.column_order)
    yield blocktri.heaviest_diagonal(matrix).rows
    bottleneck = blocktri.bottleneck_diagonal(matrix)
    yield from (bottleneck.rows, bottleneck.columns)


def test_numbers_have_the_type_of_the_indices():
    matrix = sparse.csc_matrix(numpy.triu(numpy.ones((3, 3), int)))
    kinds = "i2 i1 i4, u1 u1 i4, u2 i4 i4, i4 i4 i4, >i4 >i4 i4, i4 i8 i8, i8 i4 i8, i8 i8 i8, u4 i4 i8, u4 u4 i8, u8 u8 i8, >i8 <i8 i8"
    for form in (sparse.csc_matrix, sparse.csr_matrix):
        for starts, ids, expected in map(str.split, kinds.split(",")):
            whole = form(matrix)
            made = handmade(whole.indptr.astype(starts), whole.indices.astype(ids), (3, 3), form)
            assert {lines.dtype for lines in lines_of_all(made)} == {numpy.dtype(expected)}
    for converted in (matrix.tocoo(), matrix.tolil(), matrix.todok(), matrix.todia(), matrix.tobsr(), matrix.toarray()):
        assert {lines.dtype for lines in lines_of_all(converted)} == {numpy.dtype("i4")}


def test_numbers_of_64_bits_are_those_of_32():
    """So is -1, which stands for no row and no column."""
    random = numpy.random.default_rng(5)
    for _ in range(60):
        matrix = drawn(random)
        for narrow in (matrix, matrix.tocsr()):
            wide = with_wide_indices(narrow)
            assert blocktri.structural_rank(wide) == blocktri.structural_rank(narrow)
            for side, least in itertools.product(("row", "column"), (False, True)):
                one, other = (blocktri.maximum_matching(form, side, least) for form in (narrow, wide))
                assert one.tolist() == other.tolist() and other.dtype == numpy.int64
            one, other = map(blocktri.dmperm, (narrow, wide))
            assert one.explain() == other.explain()
            for name in ("p", "q", "r", "s", "cc", "rr", "row_order", "column_order"):
                assert getattr(one, name).tolist() == getattr(other, name).tolist()


def test_a_row_that_no_signed_number_holds_is_told_as_given():
    for kind, wrong in (("u4", 2**32 - 1), ("u8", 2**64 - 1), ("u8", 2**63 + 5)):
        for form, what in ((sparse.csc_matrix, "rows"), (sparse.csr_matrix, "columns")):
            with pytest.raises(ValueError, match=rf"indices\[1\] is {wrong}, but the matrix has 2 {what}"):
                blocktri.structural_rank(handmade(numpy.array([0, 1, 2], kind), numpy.array([0, wrong], kind), (2, 2), form))
    with pytest.raises(ValueError, match=rf"indptr\[1:3\] is \[1, {2**63 + 1}\]"):
        blocktri.structural_rank(handmade(numpy.array([0, 1, 2**63 + 1], "u8"), numpy.array([0, 1], "u8"), (2, 2)))


def test_no_matrices():
    for what in (None, "words", [[[1]]], types.SimpleNamespace(format="csc", shape=(3,), indptr=[0], indices=[])):
        with pytest.raises((TypeError, ValueError)):
            blocktri.structural_rank(what)

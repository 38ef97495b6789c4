"""A matrix in CSR has the answers that it has in CSC."""

import os
import re

import numpy
import pytest
import scipy.io
from scipy import sparse

import blocktri
import blocktri.csgraph
from blocktri import _decomposition, _library
from matrices import drawn, with_wide_indices

TOP = os.path.join(os.path.dirname(os.path.abspath(__file__)), "..", "..", "..")


def both(seed, times, **how):
    """Random matrices, each in CSC and in CSR, some with indices of 64 bits; places given twice stay so."""
    random = numpy.random.default_rng(seed)
    for time in range(times):
        matrix = drawn(random, **how)
        by_columns, by_rows = matrix, matrix.tocsr()
        yield (by_columns, by_rows) if time % 3 else (with_wide_indices(by_columns), with_wide_indices(by_rows))


def both_of_full_rank(seed, times, values=(1,)):
    """The same of square matrices of full rank."""
    random = numpy.random.default_rng(seed)
    for _ in range(times):
        size = random.integers(0, 9)
        entries = (random.random((size, size)) < 0.25) | numpy.eye(size, dtype=bool)[random.permutation(size)]
        matrix = sparse.csc_matrix(entries.astype(int))
        matrix.data = random.choice(values, matrix.nnz)
        yield matrix, matrix.tocsr()


def lists(*arrays):
    return [array.tolist() for array in arrays]


def test_ranks_and_matchings():
    for by_columns, by_rows in both(0, 200):
        assert blocktri.structural_rank(by_rows) == blocktri.structural_rank(by_columns)
        assert blocktri.csgraph.structural_rank(by_rows) == blocktri.structural_rank(by_columns)
        for side in ("row", "column"):
            one, other = (blocktri.maximum_matching(form, side, least=True) for form in (by_columns, by_rows))
            assert one.tolist() == other.tolist()
            one, other = (blocktri.maximum_matching(form, side) for form in (by_columns, by_rows))
            assert numpy.count_nonzero(one >= 0) == numpy.count_nonzero(other >= 0)


def test_decompositions():
    names = "row_order column_order r s cc rr".split()
    for by_columns, by_rows in both(1, 200):
        one, other = blocktri.dmperm(by_columns), blocktri.dmperm(by_rows)
        assert repr(one) == repr(other) and one.explain() == other.explain()
        assert lists(*(getattr(one, name) for name in names)) == lists(*(getattr(other, name) for name in names))
        for name in ("blocks", "horizontal_components", "vertical_components"):
            assert [lists(*part) for part in getattr(one, name)] == [lists(*part) for part in getattr(other, name)]


def test_orders_are_those_of_the_program():
    """docs/EXAMPLES.md has the reports of ``btf analyse --order``, in which rows and columns count from 1."""
    with open(os.path.join(TOP, "docs", "EXAMPLES.md")) as page:
        reports = re.findall(r"btf analyse --order < (\S+)\n(.*?)^    end$", page.read(), re.DOTALL | re.MULTILINE)
    assert reports
    for file, report in reports:
        lines = dict(re.findall(r"(?m)^    (row_order|column_order|rank) (.*)$", report))
        for form in ("csc", "csr", "coo"):
            found = blocktri.dmperm(scipy.io.mmread(os.path.join(TOP, file)).asformat(form))
            assert str(found.rank) == lines["rank"]
            for name in ("row_order", "column_order"):
                assert (getattr(found, name) + 1).tolist() == list(map(int, lines[name].split()))


def test_orders_of_the_identity_are_the_natural_ones():
    for form in ("csc", "csr"):
        found = blocktri.dmperm(sparse.eye(4, format=form))
        assert lists(found.p, found.q) == lists(*blocktri.block_order(sparse.eye(4, format=form))[:2]) == [[0, 1, 2, 3]] * 2


def test_block_orders():
    for by_columns, by_rows in both_of_full_rank(2, 100):
        one, other = blocktri.block_order(by_columns), blocktri.block_order(by_rows)
        assert lists(one.column_order, one.block_starts) == lists(other.column_order, other.block_starts)
        for begin, end in zip(one.block_starts, one.block_starts[1:]):
            assert sorted(one.row_order[begin:end]) == sorted(other.row_order[begin:end])


def test_what_is_to_blame():
    blamed = 0
    for by_columns, by_rows in both(3, 200, most=5):
        if by_columns.shape[0] != by_columns.shape[1] or blocktri.structural_rank(by_columns) == by_columns.shape[0]:
            continue
        for call in (blocktri.block_order, blocktri.heaviest_diagonal, blocktri.bottleneck_diagonal):
            errors = []
            for form in (by_columns, by_rows):
                with pytest.raises(blocktri.StructurallySingular) as caught:
                    call(form)
                errors.append((caught.value.size, caught.value.rank, *lists(caught.value.rows, caught.value.columns)))
            assert errors[0] == errors[1]
            blamed += 1
    assert blamed > 30


def test_diagonals():
    for by_columns, by_rows in both_of_full_rank(4, 100, values=range(-6, 7)):
        assert blocktri.heaviest_diagonal(by_rows).sum == blocktri.heaviest_diagonal(by_columns).sum
        assert blocktri.bottleneck_diagonal(by_rows).least == blocktri.bottleneck_diagonal(by_columns).least


def test_places_of_a_sum_past_the_limit():
    large = 2**63 - 1
    arrays = ([1, large, 1, 5, large, large], [0, 2, 2, 1, 0, 0], [0, 1, 3, 6])
    for form, words in ((sparse.csc_matrix, "row 2, column 1"), (sparse.csr_matrix, "row 2, column 0")):
        for call in (blocktri.heaviest_diagonal, blocktri.bottleneck_diagonal):
            with pytest.raises(ValueError, match=f"the values in {words} add up to more"):
                call(form(arrays, shape=(3, 3)))


def test_one_call_gives_the_matching_and_the_decomposition(monkeypatch):
    """Nothing is matched twice, and rows are not converted to columns."""
    called = []

    def counted(name, entries, *rest, **named):
        called.append((name, entries.is_by_rows))
        return library_call(name, entries, *rest, **named)

    library_call = _library.call
    monkeypatch.setattr(_decomposition, "call", counted)
    for form in ("csc", "csr"):
        blocktri.dmperm(sparse.random(20, 30, 0.1, form, random_state=0))
    assert called == [("dmperm", False), ("dmperm", True)]

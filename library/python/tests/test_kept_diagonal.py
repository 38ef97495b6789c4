"""A full diagonal is kept, in whatever order the indices stand."""

import itertools

import numpy
import pytest

import blocktri
from matrices import shuffled, with_wide_indices


@pytest.mark.parametrize("by_rows", [False, True])
@pytest.mark.parametrize("rows, columns", [(1, 1), (8, 8), (8, 13), (13, 8), (60, 60), (60, 40)])
def test_calls_that_match(by_rows, rows, columns):
    random = numpy.random.default_rng(rows + columns)
    shorter = numpy.arange(min(rows, columns))
    for density in (0, 0.02, 0.1, 0.4, 1):
        entries = random.random((rows, columns)) < density
        entries[shorter, shorter] = True
        matrix = shuffled(random, entries.T).T if by_rows else shuffled(random, entries)
        assert matrix.format == ("csr" if by_rows else "csc")
        for given in (matrix, with_wide_indices(matrix)):
            for side, least in itertools.product(("row", "column"), (False, True)):
                assert blocktri.maximum_matching(given, side, least)[: len(shorter)].tolist() == shorter.tolist()
            found = blocktri.dmperm(given)
            assert found.p[: found.rank].tolist() == found.q[columns - found.rank :].tolist()
            if rows == columns:
                row_order, column_order, _ = blocktri.block_order(given)
                assert row_order.tolist() == column_order.tolist()

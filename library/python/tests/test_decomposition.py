"""The decomposition against the definitions."""

import numpy
import pytest
from scipy import sparse
from scipy.sparse import csgraph

import blocktri
from matrices import drawn, in_all_forms, pattern


def rank(entries):
    return csgraph.structural_rank(sparse.csc_matrix(entries))


def missed(entries):
    """The columns that some maximum matching leaves out: without one of them the rank is the same."""
    size = rank(entries)
    return [column for column in range(entries.shape[1]) if rank(numpy.delete(entries, column, axis=1)) == size]


def assert_parts(form, entries):
    """The outer parts are what some maximum matching leaves out, with the lines that these have entries in."""
    columns, rows = missed(entries), missed(entries.T)
    assert form.rank == rank(entries)
    assert form.horizontal.columns.tolist() == columns
    assert form.horizontal.rows.tolist() == numpy.flatnonzero(entries[:, columns].any(axis=1)).tolist()
    assert form.vertical.rows.tolist() == rows
    assert form.vertical.columns.tolist() == numpy.flatnonzero(entries[rows].any(axis=0)).tolist()
    assert sorted(form.row_order) == list(range(entries.shape[0]))
    assert sorted(form.column_order) == list(range(entries.shape[1]))
    assert numpy.concatenate([form.horizontal.rows, form.square.rows, form.vertical.rows]).tolist() == form.row_order.tolist()
    assert numpy.concatenate([form.horizontal.columns, form.square.columns, form.vertical.columns]).tolist() \
        == form.column_order.tolist()


def assert_blocks(form, entries):
    """The form is block upper triangular, and each block rises, has a perfect matching and can't be split."""
    for at, (rows, columns) in enumerate(form.blocks):
        assert len(rows) == len(columns) > 0
        assert (numpy.diff(rows) > 0).all() and (numpy.diff(columns) > 0).all()
        later = numpy.concatenate([block.rows for block in form.blocks[at + 1 :]] + [form.vertical.rows]).astype(int)
        assert not entries[numpy.ix_(later, columns)].any()
        # of a block with more than one column, any proper set of columns has entries in more rows than it has columns
        block = entries[numpy.ix_(rows, columns)]
        mates = csgraph.maximum_bipartite_matching(sparse.csr_matrix(block))
        assert (mates >= 0).all()
        assert csgraph.connected_components(sparse.csr_matrix(block[mates]), connection="strong")[0] == 1
    below = numpy.concatenate([form.square.rows, form.vertical.rows])
    assert not entries[numpy.ix_(below, form.horizontal.columns)].any()
    assert form.blocks.sizes().tolist() == [len(block.rows) for block in form.blocks]


def assert_components(form, entries):
    """The components are those that SciPy finds of the outer parts, as graphs of rows and columns, in their order."""
    for part, components, first in ((form.horizontal, form.horizontal_components, 1), (form.vertical, form.vertical_components, 0)):
        rows, columns = map(len, part)
        graph = numpy.zeros((rows + columns, rows + columns), bool)
        graph[:rows, rows:] = entries[numpy.ix_(*part)]
        count, labels = csgraph.connected_components(sparse.csr_matrix(graph), directed=False)
        expected = {(tuple(part.rows[labels[:rows] == at]), tuple(part.columns[labels[rows:] == at])) for at in range(count)}
        found = [(tuple(component.rows), tuple(component.columns)) for component in components]
        assert set(found) == expected and len(found) == count
        assert [component[first][0] for component in found] == sorted(component[first][0] for component in found)


def assert_matlabs(form, entries):
    """What MATLAB's page says of p, q, r, s, cc and rr."""
    p, q, r, s, cc, rr = form
    assert sorted(p) == list(range(entries.shape[0])) and sorted(q) == list(range(entries.shape[1]))
    ordered = entries[p][:, q]
    assert (cc[0], cc[4], rr[0], rr[4]) == (0, len(q), 0, len(p)) and len(cc) == len(rr) == 5
    assert (numpy.diff(cc) >= 0).all() and (numpy.diff(rr) >= 0).all()
    for row in range(4):
        for column in range(4):
            block = ordered[rr[row] : rr[row + 1], cc[column] : cc[column + 1]]
            if column == row + 1:
                assert block.shape[0] == block.shape[1] and block.diagonal().all()
            elif column <= row and (row, column) not in ((0, 0), (3, 3)):
                assert not block.any()
    outer = int(cc[2] > 0) + int(rr[2] < rr[4])
    assert len(r) == len(s) == len(form.blocks) + outer + 1
    assert (r[0], r[-1], s[0], s[-1]) == (0, len(p), 0, len(q)) or len(r) == 1
    for k in range(len(r) - 1):
        assert not ordered[r[k + 1] :, s[k] : s[k + 1]].any()
    first = int(cc[2] > 0)
    for k, block in enumerate(form.blocks, first):
        assert sorted(p[r[k] : r[k + 1]]) == block.rows.tolist() and sorted(q[s[k] : s[k + 1]]) == block.columns.tolist()
    assert sorted(p[: rr[1]]) == form.horizontal.rows.tolist() and sorted(q[: cc[2]]) == form.horizontal.columns.tolist()
    assert sorted(p[rr[2] :]) == form.vertical.rows.tolist() and sorted(q[cc[3] :]) == form.vertical.columns.tolist()


def assert_form(form, entries):
    assert form.shape == entries.shape
    assert_parts(form, entries)
    assert_blocks(form, entries)
    assert_components(form, entries)
    assert_matlabs(form, entries)


@pytest.mark.parametrize("seed", range(4))
def test_random_matrices(seed):
    random = numpy.random.default_rng(seed)
    for _ in range(150):
        matrix = drawn(random)
        assert_form(blocktri.dmperm(matrix), pattern(matrix))
        assert_form(blocktri.dmperm(matrix.tocsr()), pattern(matrix))


def test_each_format():
    random = numpy.random.default_rng(4)
    for _ in range(15):
        matrix = drawn(random)
        for form in in_all_forms(matrix):
            assert_form(blocktri.dmperm(form), pattern(form))


def assert_dmperm(form, entries):
    """What each of the six lists is made of, by the sizes of the parts and blocks."""
    p, q, r, s, cc, rr = form
    rows, columns = entries.shape
    top, left = map(len, form.horizontal)
    square = len(form.square.rows)
    unmatched = columns - form.rank
    assert rr.tolist() == [0, top, top + square, form.rank, rows]
    assert cc.tolist() == [0, unmatched, left, left + square, columns]
    assert sorted(p) == list(range(rows)) and sorted(q) == list(range(columns))
    assert entries[p[: form.rank], q[unmatched:]].all()
    for rising in (q[:unmatched], q[unmatched:left], q[left + square :], p[form.rank :], *(block.columns for block in form.blocks)):
        assert (numpy.diff(rising) > 0).all()
    assert q[left : left + square].tolist() == [column for block in form.blocks for column in block.columns]
    heights = [top] * (left > 0) + form.blocks.sizes().tolist() + [rows - top - square] * (rows > top + square)
    widths = [left] * (left > 0) + form.blocks.sizes().tolist() + [columns - left - square] * (rows > top + square)
    assert r.tolist() == [0, *numpy.cumsum(heights, dtype=int)] and s.tolist() == [0, *numpy.cumsum(widths, dtype=int)]


@pytest.mark.parametrize("form", [sparse.csc_matrix, sparse.csr_matrix])
def test_the_six_lists_of_rectangles(form):
    random = numpy.random.default_rng(6)
    for rows, columns in ((7, 12), (12, 7), (10, 10), (1, 9), (9, 1), (30, 40), (40, 30)):
        for density in (0.05, 0.1, 0.2, 0.3):
            for _ in range(5):
                entries = random.random((rows, columns)) < density
                found = blocktri.dmperm(form(entries))
                assert found.rank == rank(entries)
                assert_dmperm(found, entries)


def test_square_matrices_with_many_blocks():
    random = numpy.random.default_rng(5)
    for size in (1, 2, 5, 20, 60):
        for _ in range(10):
            entries = numpy.triu(random.random((size, size)) < 0.1) | numpy.eye(size, dtype=bool)
            entries |= numpy.diag(random.random(size - 1) < 0.5, -1)
            entries = entries[random.permutation(size)][:, random.permutation(size)]
            for matrix in (sparse.csc_matrix(entries), sparse.csr_matrix(entries)):
                form = blocktri.dmperm(matrix)
                assert_form(form, entries)
                assert form.rank == size


def test_a_worked_flow_sheet():
    """Six equations: rows 0 and 3 with columns 0 and 3, rows 1 and 4 with columns 1 and 4, and two rows of one entry."""
    places = [(0, 0), (3, 0), (1, 1), (4, 1), (0, 2), (5, 2), (0, 3), (3, 3), (1, 4), (4, 4), (1, 5), (2, 5)]
    entries = sparse.coo_matrix(([1] * 12, tuple(zip(*places)))).toarray()
    form = blocktri.dmperm(sparse.csc_matrix(entries))
    assert form.row_order.tolist() == [0, 3, 1, 4, 5, 2]
    assert form.column_order.tolist() == [0, 3, 1, 4, 2, 5]
    assert form.blocks.sizes().tolist() == [2, 2, 1, 1]
    assert form.r.tolist() == form.s.tolist() == [0, 2, 4, 5, 6]
    assert form.cc.tolist() == [0, 0, 0, 6, 6] and form.rr.tolist() == [0, 0, 6, 6, 6]


def test_blocks_are_a_sequence():
    blocks = blocktri.dmperm(sparse.csc_matrix([[1, 1], [0, 1]])).blocks
    assert len(blocks) == 2 and [block.rows.tolist() for block in blocks] == [[0], [1]]
    assert blocks[-1].columns.tolist() == [1] and len(blocks[:1]) == 1
    with pytest.raises(IndexError):
        blocks[2]


def test_the_empty_shapes():
    for shape in ((0, 0), (0, 3), (3, 0)):
        for form in (sparse.csc_matrix(shape), sparse.csr_matrix(shape)):
            assert_form(blocktri.dmperm(form), numpy.zeros(shape, bool))
            assert_dmperm(blocktri.dmperm(form), numpy.zeros(shape, bool))

"""A picture, compared by its parts."""

import numpy
import pytest
from scipy import sparse

import blocktri
from matrices import drawn, pattern

matplotlib = pytest.importorskip("matplotlib")
matplotlib.use("Agg")
from matplotlib import pyplot  # noqa: E402


@pytest.fixture
def ax():
    figure, axes = pyplot.subplots()
    yield axes
    pyplot.close(figure)


def entries_of(ax):
    (line,) = [line for line in ax.lines if line.get_label() == "entries"]
    return {(int(row), int(column)) for column, row in line.get_xydata()}


def blocks_of(ax):
    """The least and greatest corner of each outline."""
    (outlines,) = [collection for collection in ax.collections if collection.get_label() == "blocks"]
    return [(tuple(path.vertices.min(axis=0)), tuple(path.vertices.max(axis=0))) for path in outlines.get_paths()]


def parts_of(ax):
    return {patch.get_label(): patch.get_bbox().bounds for patch in ax.patches}


def test_a_worked_matrix(ax):
    # columns 0 and 1 have row 0 alone, rows 2 and 3 have column 3 alone, row 1 and column 2 are a block; turned about
    entries = numpy.array([[1, 1, 1, 0], [0, 0, 1, 1], [0, 0, 0, 1], [0, 0, 0, 1]])[[3, 0, 1, 2]][:, [2, 3, 0, 1]]
    assert blocktri.dmperm(sparse.csc_matrix(entries)).spy(ax) is ax
    assert entries_of(ax) == {(0, 0), (0, 1), (0, 2), (1, 2), (1, 3), (2, 3), (3, 3)}
    assert blocks_of(ax) == [((1.5, 0.5), (2.5, 1.5))]
    assert parts_of(ax) == {"horizontal": (-0.5, -0.5, 2, 1), "square": (1.5, 0.5, 1, 1), "vertical": (2.5, 1.5, 1, 2)}
    assert ax.get_xlim() == (-0.5, 3.5) and ax.get_ylim() == (3.5, -0.5)


def test_a_sound_matrix_has_one_part(ax):
    blocktri.dmperm(sparse.csr_matrix([[1, 0, 1], [0, 1, 1], [0, 1, 1]])).spy(ax)
    assert parts_of(ax) == {"square": (-0.5, -0.5, 3, 3)}
    assert len(blocks_of(ax)) == 2


@pytest.mark.parametrize("form", ["csc", "csr", "coo"])
def test_random_matrices(ax, form):
    random = numpy.random.default_rng(0)
    for _ in range(15):
        matrix = drawn(random).asformat(form)
        ax.clear()
        found = blocktri.dmperm(matrix)
        found.spy(ax)
        assert entries_of(ax) == set(map(tuple, numpy.argwhere(pattern(matrix)[found.row_order][:, found.column_order])))
        assert len(blocks_of(ax)) == len(found.blocks)
        for ((left, top), (right, bottom)), block in zip(blocks_of(ax), found.blocks):
            assert found.column_order[int(left + 0.5) : int(right + 0.5)].tolist() == block.columns.tolist()
            assert found.row_order[int(top + 0.5) : int(bottom + 0.5)].tolist() == block.rows.tolist()


@pytest.mark.parametrize("kind", ["u4", "i8", "u8"])
def test_each_kind_of_index(ax, kind):
    matrix = sparse.csc_matrix([[1, 0], [1, 1]])
    matrix.indptr, matrix.indices = matrix.indptr.astype(kind), matrix.indices.astype(kind)
    blocktri.dmperm(matrix).spy(ax)
    assert len(entries_of(ax)) == 3


def test_the_current_axes_are_the_default(ax):
    pyplot.sca(ax)
    assert blocktri.dmperm(sparse.eye(3)).spy() is ax

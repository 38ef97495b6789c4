"""Random matrices, in each format of SciPy, for the tests."""

import numpy
from scipy import sparse

FORMATS = ("csc", "csr", "coo", "lil", "dok", "dia", "bsr")


def drawn(random, most=9, values=(1,)):
    """A matrix in CSC of any shape up to `most`; rows stand in any order, some places twice, and a quarter of the shapes is empty
    in a dimension."""
    rows, columns = random.integers(0, most, 2, endpoint=True) * (random.random(2) > 0.06)
    density = random.choice((0.1, 0.2, 0.35, 0.6))
    return shuffled(random, (random.random((columns, rows)) < density).T, values)


def shuffled(random, entries, values=(1,)):
    """A matrix in CSC with these entries; rows stand in any order, some places twice."""
    rows, columns = entries.shape
    places = numpy.argwhere(entries.T)
    twice = numpy.concatenate((places, places[random.random(len(places)) < 0.1]))
    twice = twice[numpy.lexsort((random.random(len(twice)), twice[:, 0]))]
    starts = numpy.concatenate(([0], numpy.cumsum(numpy.bincount(twice[:, 0], minlength=columns))))
    data = random.choice(values, len(twice))
    return sparse.csc_matrix((data, twice[:, 1].astype(numpy.int32), starts.astype(numpy.int32)), shape=(rows, columns))


def with_wide_indices(matrix):
    """The same matrix in CSC or CSR with indices of 64 bits, which SciPy's constructors would make narrow."""
    wide = matrix.copy()
    wide.indices, wide.indptr = matrix.indices.astype(numpy.int64), matrix.indptr.astype(numpy.int64)
    return wide


def in_all_forms(matrix):
    """The matrix in each format, as a matrix and as an array, and with indices of 64 bits."""
    for form in FORMATS:
        yield matrix.asformat(form)
        yield getattr(sparse, form + "_array")(matrix)
    yield with_wide_indices(matrix)
    yield with_wide_indices(matrix.tocsr())
    yield sparse.csr_matrix((matrix.data, matrix.indices, matrix.indptr), shape=matrix.shape[::-1]).T


def pattern(matrix):
    """Where a matrix has entries, as an array of truth values; a stored zero is one."""
    found = numpy.zeros(matrix.shape, bool)
    listed = sparse.csc_matrix(matrix).tocoo()
    found[listed.row, listed.col] = True
    return found

"""A million columns, many threads at once, and memory that is not there."""

import os
import subprocess
import sys
import textwrap
import threading

import numpy
import pytest
from scipy import sparse
from scipy.sparse import csgraph

import blocktri
from matrices import with_wide_indices


def band(size):
    """Each column has its own row and the one above it: every block is one row."""
    return sparse.diags((numpy.ones(size), numpy.ones(size - 1)), (0, 1), format="csc")


def ring(size):
    """Each column has its own row and the one below it, the last has the first: all of it is one block."""
    rows = numpy.arange(size)
    columns = numpy.concatenate((rows, numpy.roll(rows, 1)))
    return sparse.csc_matrix((numpy.ones(2 * size), (numpy.concatenate((rows, rows)), columns)))


@pytest.mark.parametrize("widened", [lambda matrix: matrix, with_wide_indices, sparse.csr_matrix])
def test_a_million_columns(widened):
    size = 1_000_000
    for matrix, blocks in ((band(size), size), (ring(size), 1)):
        matrix = widened(matrix)
        assert blocktri.structural_rank(matrix) == size
        assert (numpy.sort(blocktri.maximum_matching(matrix)) == numpy.arange(size)).all()
        form = blocktri.dmperm(matrix)
        assert (form.rank, len(form.blocks), len(form.square.rows)) == (size, blocks, size)
        p, q, r, s, cc, rr = form
        assert sparse.csc_matrix(matrix)[:, q][p].diagonal().all()
        if blocks == size:  # only in one order is a band of two diagonals upper triangular
            assert (p == numpy.arange(size)).all() and (q == p).all() and (r == numpy.arange(size + 1)).all()


def test_a_million_columns_at_random():
    random = numpy.random.default_rng(0)
    size = 1_000_000
    rows, columns = random.integers(0, size, 3 * size), random.integers(0, size, 3 * size)
    matrix = sparse.csr_matrix((numpy.ones(3 * size, numpy.int8), (rows, columns)), shape=(size, size))
    rank = csgraph.structural_rank(matrix)
    assert blocktri.structural_rank(matrix) == rank
    form = blocktri.dmperm(matrix)
    assert form.rank == rank
    assert len(form.horizontal.columns) - len(form.horizontal.rows) == size - rank
    assert len(form.vertical.rows) - len(form.vertical.columns) == size - rank
    listed = matrix.tocoo()
    row_at, column_at = numpy.empty(size, int), numpy.empty(size, int)
    row_at[form.p] = column_at[form.q] = numpy.arange(size)
    block_of_row = numpy.searchsorted(form.r, row_at[listed.row], "right")
    block_of_column = numpy.searchsorted(form.s, column_at[listed.col], "right")
    assert (block_of_row <= block_of_column).all()


def test_threads_that_call_at_once():
    random = numpy.random.default_rng(1)
    matrices = [sparse.random(2000, 2000, 0.001, form, random_state=random) for form in ("csc", "csr") for _ in range(2)]
    expected = [(csgraph.structural_rank(matrix), blocktri.dmperm(matrix)) for matrix in matrices]
    wrong = []

    def work(number):
        for time in range(8):
            matrix, (rank, form) = matrices[(number + time) % 4], expected[(number + time) % 4]
            found = blocktri.dmperm(matrix)
            same = all((one == other).all() for one, other in zip(found, form)) and blocktri.structural_rank(matrix) == rank
            if not same:
                wrong.append(number)

    threads = [threading.Thread(target=work, args=(number,)) for number in range(32)]
    for thread in threads:
        thread.start()
    for thread in threads:
        thread.join()
    assert not wrong


def test_memory_that_is_not_there():
    """A process that may take no more memory is told so by each call, and then goes on."""
    program = """
        import resource
        import numpy
        from scipy import sparse
        import blocktri
        size = 300_000
        places = numpy.random.default_rng(0).integers(0, size, (2, 3 * size))
        matrix = sparse.csc_matrix((numpy.ones(3 * size), tuple(places)), shape=(size, size))
        pages = int(open("/proc/self/statm").read().split()[0])
        small = resource.getpagesize() * pages + 5_000_000
        unlimited = resource.getrlimit(resource.RLIMIT_AS)
        rank, told = blocktri.structural_rank(matrix), 0
        for call in (blocktri.structural_rank, blocktri.maximum_matching, blocktri.dmperm):
            resource.setrlimit(resource.RLIMIT_AS, (small, unlimited[1]))
            try:
                call(matrix)
            except MemoryError:
                told += 1
            resource.setrlimit(resource.RLIMIT_AS, unlimited)
        print(told, blocktri.structural_rank(matrix) == rank)
    """
    environment = os.environ | {"PYTHONPATH": os.pathsep.join(sys.path), "MALLOC_MMAP_THRESHOLD_": "65536"}
    done = subprocess.run([sys.executable, "-c", textwrap.dedent(program)], env=environment, capture_output=True, text=True)
    assert (done.stdout, done.stderr) == ("3 True\n", "")

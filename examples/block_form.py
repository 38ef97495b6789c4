"""Brings a matrix to block upper triangular form with the package blocktri, and solves with it block by block.

    make -C library python
    PYTHONPATH=library/python python3 examples/block_form.py examples/process.mtx [picture.png]

SciPy reads the file and factorises the diagonal blocks; a picture of the form is drawn where a file is named for it.
"""

import sys

import blocktri
import numpy
import scipy.io
import scipy.sparse.linalg


def solve(matrix, form, right_side):
    """Solves with a matrix whose square part is all of it, from the last block to the first."""
    ordered = matrix[form.p][:, form.q]
    rest, solution = right_side[form.p].astype(float), numpy.zeros(len(form.q))
    for begin, end in reversed(list(zip(form.r[:-1], form.r[1:]))):
        block = ordered[begin:end, begin:end]
        solution[form.q[begin:end]] = scipy.sparse.linalg.splu(block).solve(rest[begin:end])
        rest[:begin] -= ordered[:begin, begin:end] @ solution[form.q[begin:end]]
    return solution


def picture(matrix):
    return "\n".join("".join(".x"[int(entry)] for entry in row) for row in (matrix != 0).toarray())


path, *files = sys.argv[1:]
matrix = scipy.io.mmread(path).tocsc()
form = blocktri.dmperm(matrix)
print(picture(matrix))
print("rows", *(form.row_order + 1), "columns", *(form.column_order + 1), "blocks", *form.blocks.sizes())
print(picture(matrix[form.row_order][:, form.column_order]))
print(form.explain())
if form.rank == len(form.p) == len(form.q):
    right_side = matrix @ numpy.arange(1, len(form.q) + 1)
    print("solution", *solve(matrix, form, right_side).round(6))
for file in files:
    form.spy().figure.savefig(file)

"""The heaviest diagonal of a square Matrix Market integer file by SciPy's sparse assignment (after Jonker and
Volgenant), in the first lines that `btf diagonal` writes; SciPy tells no prices."""
import sys

import matrix_market
import numpy
from scipy.sparse import coo_matrix
from scipy.sparse.csgraph import min_weight_full_bipartite_matching


def read(stream):
    """The weights of a file: at each place the magnitude of the sum of its values."""
    shape, numbers = matrix_market.read(stream, 3)
    rows, columns = numbers[:, :2].astype(numpy.int32).T
    return abs(coo_matrix((numbers[:, 2], (rows, columns)), shape=shape).tocsr())


weights = read(sys.stdin.buffer)
raised = weights.astype(numpy.float64)
raised.data += 1  # a weight of zero would be no entry; every diagonal gets n heavier
try:
    rows, columns = min_weight_full_bipartite_matching(raised, maximize=True)
except ValueError:
    print("singular")
    sys.exit(1)
order = numpy.argsort(columns)
rows, columns = rows[order], columns[order]
heavy = numpy.asarray(weights[rows, columns]).ravel()
out = [f"diagonal {len(rows)} {heavy.sum()}"]
out += [f"{r} {c} {w}" for r, c, w in zip((rows + 1).tolist(), (columns + 1).tolist(), heavy.tolist())]
print("\n".join(out + ["end"]))

"""A file that uses the package: ``mypy --strict`` takes it, and finds what it marks."""

from typing import Any, assert_type

import numpy
from scipy import sparse

import blocktri
import blocktri.csgraph

dense: numpy.typing.NDArray[numpy.int64] = numpy.eye(3, dtype=numpy.int64)
listed = [[1, 1], [0, 1]]

assert_type(blocktri.structural_rank(dense), int)
assert_type(blocktri.structural_rank(listed), int)
assert_type(blocktri.structural_rank(sparse.eye(3)), int)
matching = blocktri.maximum_matching(dense, "column", least=True)
assert_type(matching, numpy.typing.NDArray[numpy.signedinteger[Any]])
form = blocktri.dmperm(dense)
assert_type(form, blocktri.Decomposition)
assert_type(form.horizontal, blocktri.Part)
assert_type(form.blocks[0], blocktri.Part)
assert_type(form.blocks[0:1], list[blocktri.Part])
assert_type(form.explain(["a", "b", "c"], range(3)), str)
assert_type(form.svg(), str)
p, q, r, s, cc, rr = form
rows, columns, starts = blocktri.block_order(dense)
assert_type(blocktri.heaviest_diagonal(dense).sum, int)
assert_type(blocktri.bottleneck_diagonal(dense).least, int)
graph = blocktri.from_networkx(object(), ["a"])
assert_type(graph, blocktri.BipartiteGraph)
assert_type(blocktri.structural_rank(graph), int)
assert_type(graph.dmperm().blocks, list[blocktri.NodePart])
assert_type(blocktri.csgraph.structural_rank(sparse.eye(3)), int)
try:
    blocktri.block_order(dense)
except blocktri.StructurallySingular as error:
    assert_type(error.rank, int)

blocktri.structural_rank(None)  # type: ignore[arg-type]
blocktri.dmperm(object())  # type: ignore[arg-type]
blocktri.maximum_matching(dense, "rows")  # type: ignore[arg-type]
blocktri.dmperm(dense).explain(3)  # type: ignore[arg-type]
blocktri.dmperm(dense).rank = 3  # type: ignore[misc]

"""The structure of sparse matrices: structural rank, matchings, Dulmage-Mendelsohn decomposition, block triangular form.

The calls are those of the C library ``libblocktri``, whose answers are proved. They take SciPy's sparse matrices and arrays. They
read CSC and CSR in place, with indices of int32 or int64; SciPy converts any other format. They change nothing of yours. Calls may
run at the same time, but no thread may change the arrays of a matrix while a call reads them.

Rows and columns count from 0. Their numbers come as int32 or int64, as the matrix has its indices.

Without SciPy a matrix may be any object that has `format` (``"csc"`` or ``"csr"``), `shape`, `indptr` and `indices`, and `data` if
a call reads values.

`blocktri.csgraph` has drop-ins for ``scipy.sparse.csgraph``, and `from_networkx` takes bipartite graphs of NetworkX.
``python -m blocktri`` explains and draws matrices in files.
"""

from __future__ import annotations

import importlib
from typing import TYPE_CHECKING, Any

from ._block_order import BlockOrder, block_order
from ._decomposition import Blocks, Decomposition, Part, Parts, dmperm
from ._diagonals import BottleneckDiagonal, HeaviestDiagonal, bottleneck_diagonal, heaviest_diagonal
from ._graphs import BipartiteGraph, NodeDecomposition, NodePart, from_networkx
from ._matching import maximum_matching, structural_rank
from ._singular import StructurallySingular

if TYPE_CHECKING:
    from . import csgraph

StructurallySingular.__module__ = __name__

__all__ = [
    "BipartiteGraph",
    "BlockOrder",
    "Blocks",
    "BottleneckDiagonal",
    "Decomposition",
    "HeaviestDiagonal",
    "NodeDecomposition",
    "NodePart",
    "Part",
    "Parts",
    "StructurallySingular",
    "block_order",
    "bottleneck_diagonal",
    "csgraph",
    "dmperm",
    "from_networkx",
    "heaviest_diagonal",
    "maximum_matching",
    "structural_rank",
]

__version__ = "1.0.0"


def __getattr__(name: str) -> Any:
    """Loads `blocktri.csgraph` when it is first asked for, since it needs SciPy."""
    if name == "csgraph":
        return importlib.import_module(".csgraph", __name__)
    raise AttributeError(f"module {__name__!r} has no attribute {name!r}")


def __dir__() -> list[str]:
    return sorted({*globals(), *__all__})

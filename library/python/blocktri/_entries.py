"""Matrices as the compressed columns or rows that the library takes."""

from __future__ import annotations

from dataclasses import dataclass
from typing import Any

import numpy
import numpy.typing

from ._library import MOST
from ._types import Lines, Matrix

Indices = numpy.typing.NDArray[numpy.integer[Any]]


@dataclass(frozen=True)
class Entries:
    """The entries of a matrix, in compressed columns, or in compressed rows if `is_by_rows` is true.

    `indptr` and `indices` are the arrays as the caller gave them, `starts` and `ids` as the library takes them.
    """

    rows: int
    columns: int
    is_by_rows: bool
    indptr: Indices
    indices: Indices
    starts: Indices
    ids: Indices

    def room(self, size: int) -> Lines:
        """Room for so many numbers of the type that the library writes for this matrix."""
        return numpy.empty(size, self.starts.dtype)


def compressed(matrix: Matrix) -> Entries:
    """The entries of a matrix. The arrays of CSC and CSR are not copied if both are int32 or both int64."""
    return _as_it_stands(_with_arrays(matrix))


def weighted(matrix: Matrix) -> tuple[Entries, numpy.typing.NDArray[numpy.int64]]:
    """The entries of a matrix, and a value for each of them."""
    made = _with_arrays(matrix)
    entries, values = _as_it_stands(made), numpy.asarray(made.data)
    if values.ndim != 1 or values.size < entries.ids.size:
        raise ValueError(f"data has the shape {values.shape}, but there are {entries.ids.size} indices")
    return entries, whole(values[: entries.ids.size])


def whole(values: numpy.typing.NDArray[Any]) -> numpy.typing.NDArray[numpy.int64]:
    """The values as integers of 64 bits, where they are such; they may stand as floating-point numbers."""
    if values.dtype.kind in "bi":
        return numpy.require(values, numpy.int64, ("C", "A"))
    if values.dtype.kind not in "uf":
        raise TypeError(f"values must be integers, not {values.dtype}")
    with numpy.errstate(invalid="ignore"):
        integers = values.astype(numpy.int64)
    wrong = numpy.flatnonzero((integers != values) | (integers < 0) & (values > 0))
    if wrong.size > 0:
        raise TypeError(f"values must be integers of 64 bits, not {values[wrong[0]]}")
    return integers


def _as_it_stands(matrix: Any) -> Entries:
    """The entries of a matrix in CSC or CSR."""
    if len(matrix.shape) != 2:
        raise ValueError(f"a matrix has two dimensions, not the shape {matrix.shape}")
    rows, columns = map(int, matrix.shape)
    is_by_rows = matrix.format == "csr"
    indptr, indices = _integers(matrix.indptr, "indptr"), _integers(matrix.indices, "indices")
    lines = rows if is_by_rows else columns
    if indptr.shape != (lines + 1,):
        raise ValueError(f"indptr has the shape {indptr.shape}, but for the shape {matrix.shape} it must be ({lines + 1},)")
    if indices.ndim != 1:
        raise ValueError(f"indices has {indices.ndim} dimensions, but must have one")
    if 0 <= indptr[-1] < indices.size:  # what stands behind the last start is no entry
        indices = indices[: int(indptr[-1])]
    counts = {"rows": rows, "columns": columns, "indices": indices.size}
    for what, count in counts.items():
        if count > MOST:
            raise ValueError(f"the matrix has {count} {what}, which is more than {MOST}")
    return Entries(rows, columns, is_by_rows, indptr, indices, *_of_one_width(indptr, indices, max(counts.values())))


@dataclass(frozen=True)
class _Compressed:
    """Compressed columns as SciPy names their parts. Rows stand in any order, and a place may stand several times."""

    shape: tuple[int, ...]
    indptr: Indices
    indices: Indices
    data: numpy.typing.NDArray[Any]
    format: str = "csc"


def _with_arrays(matrix: Any) -> Any:
    """The matrix itself if it is in CSC or CSR, else its compressed columns."""
    if getattr(matrix, "format", None) in ("csc", "csr"):
        return matrix
    try:
        from scipy import sparse
    except ImportError:
        raise TypeError("without SciPy a matrix must be in one of the formats csc, csr") from None
    if not sparse.issparse(matrix):
        if hasattr(matrix, "is_multigraph"):
            raise TypeError("a graph of NetworkX is no matrix: blocktri.from_networkx makes one of it")
        return sparse.csc_matrix(numpy.asarray(matrix))  # of a tuple SciPy would make a COO matrix, and add up its values itself
    if len(matrix.shape) != 2:
        raise ValueError(f"a matrix has two dimensions, not the shape {matrix.shape}")
    return _columns_of_places(matrix.tocoo(copy=False))


def _columns_of_places(places: Any) -> _Compressed:
    """The columns of a matrix in COO.

    SciPy's own conversion adds up what stands at one place in the type of the values, where the sum may not fit. Here each value
    stays, and the library adds them up.
    """
    order = numpy.argsort(places.col, kind="stable")
    counts = numpy.bincount(places.col, minlength=places.shape[1])
    starts = numpy.concatenate((numpy.zeros(1, numpy.int64), numpy.cumsum(counts)))
    if order.size < 2**31:
        starts = starts.astype(places.row.dtype)
    return _Compressed(places.shape, starts, places.row[order], places.data[order])


def _integers(values: Any, name: str) -> Indices:
    array: numpy.typing.NDArray[Any] = numpy.asarray(values)
    if array.size == 0 and not isinstance(values, numpy.ndarray):  # NumPy takes an empty list for floating-point numbers
        array = array.astype(numpy.int32)
    if array.dtype.kind not in "iu":
        raise TypeError(f"{name} must have integers, not {array.dtype}")
    return array


def _of_one_width(indptr: Indices, indices: Indices, largest: int) -> list[Indices]:
    """Both arrays as int32, or as int64 if one of them or the largest count needs it. One that has this type is not copied."""
    is_narrow = largest < 2**31 and all(numpy.can_cast(array.dtype, numpy.int32) for array in (indptr, indices))
    kind = numpy.int32 if is_narrow else numpy.int64
    return [numpy.require(array, kind, ("C", "A")) for array in (indptr, indices)]

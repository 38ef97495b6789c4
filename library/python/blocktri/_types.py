"""The types of what the calls take and answer."""

from __future__ import annotations

from typing import Any, Protocol, TypeAlias, Union

import numpy
import numpy.typing

#: Row or column numbers.
Lines: TypeAlias = numpy.typing.NDArray[numpy.signedinteger[Any]]

#: Prices and weights.
Numbers: TypeAlias = numpy.typing.NDArray[numpy.int64]


class HasLines(Protocol):
    """Compressed columns or rows, under the names that SciPy's CSC and CSR give them."""

    @property
    def format(self) -> str: ...

    @property
    def shape(self) -> tuple[int, ...]: ...

    @property
    def indptr(self) -> numpy.typing.ArrayLike: ...

    @property
    def indices(self) -> numpy.typing.ArrayLike: ...


class HasPlaces(Protocol):
    """A sparse matrix or array of SciPy in any other format."""

    @property
    def shape(self) -> tuple[int, ...]: ...

    def tocoo(self, copy: bool = ...) -> Any: ...


class HasValues(HasPlaces, Protocol):
    """One whose values stand in an array, as in CSC, CSR and COO."""

    @property
    def data(self) -> numpy.typing.ArrayLike: ...


#: What each call takes for a matrix.
Matrix: TypeAlias = Union[HasLines, HasPlaces, numpy.typing.ArrayLike]

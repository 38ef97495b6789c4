"""Finds the shared library, and calls it.

The package takes the first of these that exists:

1. the file that the environment variable ``BLOCKTRI_LIBRARY`` names;
2. ``libblocktri.so`` beside this module, where ``make -C library python`` and an installation put it;
3. ``libblocktri.so.1`` where the system's loader finds it.
"""

from __future__ import annotations

import ctypes
import os
from typing import TYPE_CHECKING, Any

import numpy

if TYPE_CHECKING:
    from ._entries import Entries

#: The most rows, columns and indices that the library takes.
MOST = 2**32 - 1

#: Asks `matching` for the least of all maximum matchings.
LEAST = 1
_BY_ROWS = 8

# the version of the library that this package is written for, and its text; a later one of the same major number has the same calls
_NEEDED = (1, 0)
_NEEDED_TEXT = "needs version 1.0, or a later one of version 1"

# what each call writes besides the place of a fault, in the order of its arguments
_CALLS = {
    "rank": ("rank",),
    "matching": ("row_of_column", "column_of_row", "size"),
    "decomposition": ("row_order", "column_order", "block_starts", "row_component", "column_component", "sizes"),
    "dmperm": ("p", "q", "r", "s", "row_of_column", "row_component", "column_component", "sizes"),
    "block_order": ("row_order", "column_order", "block_starts", "row_of_column", "blocks", "rank"),
    "heaviest": ("row_of_column", "row_prices", "column_prices", "sum", "rank", "column_set", "columns_count"),
    "bottleneck": ("row_of_column", "least", "rank", "column_set", "columns_count"),
}
_WITH_VALUES = ("heaviest", "bottleneck")

_NO_ELEMENTS = ctypes.c_int64()

_OK = 0
_SINGULAR = 1
_SUM_LIMIT = 4
_OUT_OF_MEMORY = 7
_BAD_START = 20
_BAD_ROW = 21
_PRICE_LIMIT = 24


class Singular(Exception):
    """The matrix is square, and its structural rank is less than its size."""


class Sizes(ctypes.Structure):
    """``struct blocktri_sizes``. A number that the call was not asked for is -1."""

    _fields_ = [
        ("size", ctypes.c_uint64),
        ("rank", ctypes.c_int64),
        ("horizontal_rows", ctypes.c_int64),
        ("horizontal_columns", ctypes.c_int64),
        ("square", ctypes.c_int64),
        ("vertical_rows", ctypes.c_int64),
        ("vertical_columns", ctypes.c_int64),
        ("blocks", ctypes.c_int64),
        ("horizontal_components", ctypes.c_int64),
        ("vertical_components", ctypes.c_int64),
        ("nb", ctypes.c_int64),
        ("rr", ctypes.c_int64 * 5),
        ("cc", ctypes.c_int64 * 5),
    ]

    def __init__(self) -> None:
        super().__init__(ctypes.sizeof(Sizes))


class Sum(ctypes.Structure):
    """``struct blocktri_sum``."""

    _fields_ = [("low", ctypes.c_uint64), ("high", ctypes.c_uint64)]


def _load() -> ctypes.CDLL:
    beside = os.path.join(os.path.dirname(os.path.abspath(__file__)), "libblocktri.so")
    path = os.environ.get("BLOCKTRI_LIBRARY") or (beside if os.path.exists(beside) else "libblocktri.so.1")
    try:
        library = ctypes.CDLL(path)
    except OSError as error:
        raise ImportError(
            f"the shared library of blocktri can't be loaded: {error}. It is made by `make -C library python`; "
            "the environment variable BLOCKTRI_LIBRARY may name the file."
        ) from error
    version = _function(library, "version", [])()
    major, minor, patch = version // 1_000_000, version // 1000 % 1000, version % 1000
    if major != _NEEDED[0] or minor < _NEEDED[1]:
        raise ImportError(f"the shared library {path} has the version {major}.{minor}.{patch}, but this package {_NEEDED_TEXT}")
    return library


def _function(library: ctypes.CDLL, name: str, arguments: list[Any], result: Any = ctypes.c_int32) -> Any:
    try:
        function = library["blocktri_" + name]
    except AttributeError as error:
        raise ImportError(f"the shared library is older than this package, which {_NEEDED_TEXT}: {error}") from error
    function.argtypes, function.restype = arguments, result
    return function


def _functions(library: ctypes.CDLL) -> dict[tuple[str, int], Any]:
    """Each call for indices of 4 and of 8 bytes."""
    found, pointer = {}, ctypes.c_void_p
    for name, outputs in _CALLS.items():
        values = [pointer] if name in _WITH_VALUES else []
        written = [pointer] * (len(outputs) + 1)
        for width, index, ending in ((4, ctypes.c_int32, ""), (8, ctypes.c_int64, "_64")):
            matrix = [index, index, pointer, pointer, index, *values]
            found[name, width] = _function(library, name + ending, [*matrix, ctypes.c_uint32, *written])
    return found


_LIBRARY = _load()
_FUNCTIONS = _functions(_LIBRARY)
_TEXT = _function(_LIBRARY, "text", [ctypes.c_int32], ctypes.c_char_p)


def call(
    name: str, entries: Entries, flags: int = 0, values: numpy.ndarray[Any, Any] | None = None, **outputs: object
) -> None:
    """Calls ``blocktri_<name>``, and raises an error if it returns no answer.

    Each output has the name of its C argument, and is an array or a struct; a single number is an array of one element. What is not
    named is NULL, and the library leaves it out. The interpreter's lock is free during the call.
    """
    written = [_pointer(outputs.pop(output, None)) for output in _CALLS[name]]
    if outputs:
        raise TypeError(f"blocktri_{name} writes no {', '.join(outputs)}")
    fault = ctypes.c_int64()
    status = _FUNCTIONS[name, entries.starts.itemsize](
        entries.rows,
        entries.columns,
        _pointer(entries.starts),
        _pointer(entries.ids),
        entries.ids.size,
        *([_pointer(values)] if name in _WITH_VALUES else []),
        flags | (_BY_ROWS if entries.is_by_rows else 0),
        *written,
        ctypes.byref(fault),
    )
    if status != _OK:
        raise _error(status, entries, fault.value)


def _pointer(argument: Any) -> Any:
    """The address of an array or a struct, and NULL for None. An empty array has an address too, since NULL means "not wanted"."""
    if isinstance(argument, numpy.ndarray):
        return argument.ctypes.data if argument.size else ctypes.byref(_NO_ELEMENTS)
    return argument if argument is None else ctypes.byref(argument)


def _error(status: int, entries: Entries, fault: int) -> Exception:
    """The error for a status. It names places in the arrays that the caller gave."""
    if status == _SINGULAR:
        return Singular()
    if status == _OUT_OF_MEMORY:
        return MemoryError("there is not enough memory to analyse the matrix")
    if status == _BAD_START:
        before = max(fault - 1, 0)
        return ValueError(
            f"indptr[{before}:{fault + 1}] is {entries.indptr[before : fault + 1].tolist()}, but indptr must begin with 0, "
            f"must not fall, and must end with the number of indices, {entries.indices.size}"
        )
    if status == _BAD_ROW:
        lines = f"{entries.columns} columns" if entries.is_by_rows else f"{entries.rows} rows"
        return ValueError(f"indices[{fault}] is {entries.indices[fault]}, but the matrix has {lines}")
    if status == _SUM_LIMIT:
        place = int(entries.ids[fault]), int(numpy.searchsorted(entries.starts, fault, "right")) - 1
        return past_the_limit(*(place[::-1] if entries.is_by_rows else place))
    if status == _PRICE_LIMIT:
        return ValueError("the values are too large: a price needs more than 64 bits")
    return RuntimeError(f"libblocktri answered with the status {status}: {_TEXT(status).decode()}")


def past_the_limit(row: int, column: int) -> ValueError:
    """The error for values of one place whose sum is too large."""
    return ValueError(f"the values in row {row}, column {column} add up to more than {2**63 - 1} in magnitude")

"""A picture of a matrix in its block form."""

from __future__ import annotations

from typing import TYPE_CHECKING, Any

import numpy
import numpy.typing

from ._entries import compressed

if TYPE_CHECKING:
    from matplotlib.axes import Axes

    from ._decomposition import Decomposition
    from ._types import Lines

_COLOURS = {"horizontal": "tab:orange", "square": "tab:green", "vertical": "tab:red"}


def spy(form: Decomposition, ax: Axes | None) -> Axes:
    """What `Decomposition.spy` draws."""
    from matplotlib import pyplot
    from matplotlib.collections import PolyCollection
    from matplotlib.patches import Rectangle

    if ax is None:
        ax = pyplot.gca()
    rows, columns = form.shape
    ax.set(xlim=(-0.5, max(columns, 1) - 0.5), ylim=(max(rows, 1) - 0.5, -0.5), aspect="equal")
    ax.xaxis.tick_top()
    entry_rows, entry_columns = places_of_entries(form)
    size = _cell(ax, form.shape)
    ax.plot(entry_columns, entry_rows, "s", color="black", markersize=size, markeredgewidth=0, label="entries")
    ax.add_collection(PolyCollection(_outlines(form), facecolors="none", edgecolors="tab:blue", label="blocks"))
    top, left = 0, 0
    for name, colour in _COLOURS.items():
        part = getattr(form, name)
        height, width = len(part.rows), len(part.columns)
        if height + width > 0:
            corner, look = (left - 0.5, top - 0.5), {"fill": False, "edgecolor": colour, "linewidth": 2, "clip_on": False}
            ax.add_patch(Rectangle(corner, width, height, label=name, **look))
        top, left = top + height, left + width
    return ax


def places_of_entries(form: Decomposition) -> tuple[numpy.typing.NDArray[Any], numpy.typing.NDArray[Any]]:
    """Where the entries of the matrix stand in the block form: their rows and their columns."""
    entries = compressed(form._matrix)
    lines = numpy.repeat(numpy.arange(entries.starts.size - 1), numpy.diff(entries.starts))
    rows, columns = (lines, entries.ids) if entries.is_by_rows else (entries.ids, lines)
    return _places(form.row_order)[rows], _places(form.column_order)[columns]


def _places(order: Lines) -> numpy.typing.NDArray[numpy.intp]:
    """Where each row or column stands in an order."""
    places = numpy.empty(len(order), numpy.intp)
    places[order] = numpy.arange(len(order))
    return places


def _outlines(form: Decomposition) -> numpy.typing.NDArray[numpy.floating[Any]]:
    """The four corners of each fine block."""
    sizes = form.blocks.sizes()
    starts = numpy.cumsum(sizes) - sizes
    left, top = (starts + len(part) - 0.5 for part in (form.horizontal.columns, form.horizontal.rows))
    xs, ys = (left, left + sizes, left + sizes, left), (top, top, top + sizes, top + sizes)
    return numpy.stack((numpy.stack(xs, axis=1), numpy.stack(ys, axis=1)), axis=2)


def _cell(ax: Axes, shape: tuple[int, int]) -> float:
    """The width of a row in points, of which there are 72 in an inch, but no less than can be seen."""
    box = ax.get_window_extent()
    side = min(box.height / max(shape[0], 1), box.width / max(shape[1], 1))
    return float(max(0.8 * side * 72 / ax.figure.dpi, 0.3))

"""A picture of a matrix in its block form, in SVG, and a page for notebooks."""

from __future__ import annotations

from collections.abc import Iterator
from html import escape
from typing import TYPE_CHECKING, Any

import numpy
import numpy.typing

from . import _html
from ._picture import places_of_entries

if TYPE_CHECKING:
    from ._decomposition import Decomposition

_COLOURS = {"horizontal": "#ff9933", "square": "#55bb66", "vertical": "#dd5555"}
_SPOTS = 320  # at most so many spots side by side
_SHADES = 4
_PIXELS = 480


def page(form: Decomposition) -> str:
    """What a notebook shows of a decomposition."""
    facts: list[tuple[str, object]] = [("shape", f"{form.shape[0]} x {form.shape[1]}"), ("rank", form.rank)]
    facts += [(name, f"{len(part.rows)} x {len(part.columns)}") for name, part in _parts(form)]
    facts += [("blocks", len(form.blocks)), ("largest block", int(form.blocks.sizes().max(initial=0)))]
    table = _html.table("Dulmage-Mendelsohn decomposition", facts)
    return f"<div>{table}{picture(form)}<pre>{escape(form.explain(at_most=5))}</pre></div>"


def picture(form: Decomposition) -> str:
    """What `Decomposition.svg` answers. A unit of the picture is a spot: `step` rows and as many columns."""
    rows, columns = form.shape
    step = max(1, -(-max(rows, columns) // _SPOTS))
    height, width = (max(1, -(-lines // step)) for lines in (rows, columns))
    scale = _PIXELS / max(height, width)
    drawn = "".join([*_backgrounds(form, step, 2 / scale), *_spots(form, step, (height, width)), *_outlines(form, step, 1 / scale)])
    title = escape(f"Block triangular form of a {rows} x {columns} matrix of structural rank {form.rank}")
    return (f'<svg xmlns="http://www.w3.org/2000/svg" width="{width * scale:.4g}" height="{height * scale:.4g}" '
            f'viewBox="-0.1 -0.1 {width + 0.2:.6g} {height + 0.2:.6g}" preserveAspectRatio="none">'
            f"<title>{title}</title>\n{drawn}</svg>\n")


def _parts(form: Decomposition) -> Iterator[tuple[str, Any]]:
    return ((name, getattr(form, name)) for name in _COLOURS)


def _box(left: float, top: float, width: float, height: float, look: str) -> str:
    return f'<rect x="{left:.6g}" y="{top:.6g}" width="{width:.6g}" height="{height:.6g}" {look}/>\n'


def _backgrounds(form: Decomposition, step: int, line: float) -> Iterator[str]:
    top, left = 0, 0
    for name, part in _parts(form):
        height, width = len(part.rows), len(part.columns)
        if height + width > 0:
            look = f'class="{name}" fill="{_COLOURS[name]}" fill-opacity="0.35" stroke="{_COLOURS[name]}" stroke-width="{line:.4g}"'
            yield _box(left / step, top / step, width / step, height / step, look)
        top, left = top + height, left + width


def _outlines(form: Decomposition, step: int, line: float) -> Iterator[str]:
    """The blocks that are a spot wide at least; of smaller ones the diagonal is seen."""
    sizes = form.blocks.sizes()
    starts = numpy.cumsum(sizes) - sizes
    top, left = len(form.horizontal.rows), len(form.horizontal.columns)
    for at in numpy.flatnonzero(sizes >= step):
        size, begin = int(sizes[at]), int(starts[at])
        look = f'class="block" fill="none" stroke="#2266aa" stroke-width="{line:.4g}"'
        yield _box((left + begin) / step, (top + begin) / step, size / step, size / step, look)


def _spots(form: Decomposition, step: int, shape: tuple[int, int]) -> Iterator[str]:
    """The entries: for each shade the runs of spots that have it."""
    rows, columns = places_of_entries(form)
    counts = numpy.bincount(rows // step * shape[1] + columns // step, minlength=shape[0] * shape[1]).reshape(shape)
    most = max(int(counts.max(initial=0)), 1)
    shades = numpy.ceil(_SHADES * numpy.log1p(counts) / numpy.log1p(most)).astype(int)
    look = 'stroke-width="0.9" stroke-dasharray="0.9 0.1"' if step == 1 else 'stroke-width="1"'  # single entries stand apart
    for shade in range(1, _SHADES + 1):
        runs = " ".join(f"M{left} {top}.5h{length}" for top, left, length in _runs(shades == shade))
        if runs:
            yield f'<path class="entries" d="{runs}" stroke="black" {look} stroke-opacity="{shade / _SHADES:.2g}"/>\n'


def _runs(spots: numpy.typing.NDArray[numpy.bool_]) -> Iterator[tuple[int, int, int]]:
    """The row, the first column and the length of each run."""
    edges = numpy.diff(numpy.pad(spots.astype(numpy.int8), ((0, 0), (1, 1))), axis=1)
    tops, begins = numpy.nonzero(edges == 1)
    _, ends = numpy.nonzero(edges == -1)
    return zip(tops.tolist(), begins.tolist(), (ends - begins).tolist())

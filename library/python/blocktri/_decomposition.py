"""The Dulmage-Mendelsohn decomposition."""

from __future__ import annotations

from collections.abc import Iterator, Sequence
from dataclasses import dataclass, field
from typing import TYPE_CHECKING, NamedTuple, overload

import numpy

from . import _picture, _svg, _words
from ._entries import Entries, compressed
from ._library import MOST, Sizes, call
from ._types import Lines, Matrix

if TYPE_CHECKING:
    from matplotlib.axes import Axes


class Part(NamedTuple):
    """The rows and the columns of a part or a block, by their numbers in the matrix.

    Attributes
    ----------
    rows, columns : ndarray of integers
        The numbers of the rows and of the columns.
    """

    rows: Lines
    columns: Lines


class Parts(Sequence[Part]):
    """A sequence of parts, each of which is a `Part` that is made when it is asked for.

    Parameters
    ----------
    whole : Part
        The rows and columns of all parts, part by part.
    row_starts, column_starts : ndarray of integers
        Where each part begins in the rows and in the columns of `whole`, and where the last one ends.
    """

    def __init__(self, whole: Part, row_starts: Lines, column_starts: Lines) -> None:
        self._whole, self._row_starts, self._column_starts = whole, row_starts, column_starts

    def __len__(self) -> int:
        return len(self._row_starts) - 1

    @overload
    def __getitem__(self, index: int) -> Part: ...

    @overload
    def __getitem__(self, index: slice) -> list[Part]: ...

    def __getitem__(self, index: int | slice) -> Part | list[Part]:
        if isinstance(index, slice):
            return [self[at] for at in range(*index.indices(len(self)))]
        at = range(len(self))[index]
        return Part(
            self._whole.rows[self._row_starts[at] : self._row_starts[at + 1]],
            self._whole.columns[self._column_starts[at] : self._column_starts[at + 1]],
        )


class Blocks(Parts):
    """The fine blocks in their order, each of which is a `Part` that is made when it is asked for.

    Parameters
    ----------
    square : Part
        The rows and columns of all blocks, block by block.
    starts : ndarray of integers
        Where each block begins in them, and where the last one ends.
    """

    def __init__(self, square: Part, starts: Lines) -> None:
        super().__init__(square, starts, starts)

    def sizes(self) -> Lines:
        """Count the rows, and so the columns, of each block.

        Returns
        -------
        ndarray of integers
            The size of each block, in their order.
        """
        return numpy.diff(self._row_starts)


@dataclass(frozen=True, eq=False, repr=False)
class Decomposition:
    """The Dulmage-Mendelsohn decomposition of a matrix.

    `dmperm` returns it. Row and column numbers count from 0. It unpacks as in MATLAB: ``p, q, r, s, cc, rr = blocktri.dmperm(A)``.
    A notebook shows its sizes, its picture and `explain`.

    Attributes
    ----------
    shape : tuple of int
        The numbers of rows and of columns.
    rank : int
        The structural rank.
    horizontal, square, vertical : Part
        The three coarse parts: the one with more columns than rows (too few equations), the one that a maximum matching
        covers, and the one with more rows than columns (too many equations). Rows and columns of the outer parts rise, those
        of the square part stand block by block.
    blocks : Blocks
        The fine blocks of the square part, a sequence of `Part`. Rows and columns of a block rise.
    horizontal_components, vertical_components : Parts
        The connected components of the outer parts, sequences of `Part`: pieces that have no entry in common, each short of
        equations or of unknowns by itself. Those of the horizontal part stand by their least columns, those of the vertical
        part by their least rows.
    row_order, column_order : ndarray of integers
        The rows and the columns part by part and block by block: in these orders the matrix is block upper triangular.
    p, q : ndarray of integers
        The orders that MATLAB gives: ``C = A[p][:, q]`` has a maximum matching on the diagonals of ``A12``, ``A23`` and ``A34``
        below. It pairs row ``p[x]`` with column ``q[cc[1] + x]``, for each x less than `rank`.
    r, s : ndarray of integers
        Block k of ``C`` has the rows from ``r[k]`` up to ``r[k + 1]`` and the columns from ``s[k]`` up to ``s[k + 1]``. The
        horizontal part is one block, the first, and the vertical part one, the last, where they are there.
    cc, rr : ndarray of five integers
        Coarse block (i, j) of ``C`` has the rows from ``rr[i]`` up to ``rr[i + 1]`` and the columns from ``cc[j]`` up to
        ``cc[j + 1]``; they are ::

            A11 A12 A13 A14
            0   0   A23 A24
            0   0   0   A34
            0   0   0   A44

        ``A11`` has the columns, ``A44`` the rows that the matching leaves out.
    """

    shape: tuple[int, int]
    rank: int
    horizontal: Part
    square: Part
    vertical: Part
    blocks: Blocks
    horizontal_components: Parts
    vertical_components: Parts
    row_order: Lines
    column_order: Lines
    p: Lines
    q: Lines
    r: Lines
    s: Lines
    cc: Lines
    rr: Lines
    _matrix: Matrix = field(repr=False)

    def __iter__(self) -> Iterator[Lines]:
        return iter((self.p, self.q, self.r, self.s, self.cc, self.rr))

    def __repr__(self) -> str:
        outer = (f"{name} {len(part.rows)} x {len(part.columns)}" for name, part in
                 (("horizontal", self.horizontal), ("vertical", self.vertical)))
        blocks = _words.counted(len(self.blocks), "block")
        return (f"<Decomposition of a {self.shape[0]} x {self.shape[1]} matrix: rank {self.rank}, "
                f"{', '.join(outer)}, square {len(self.square.rows)} in {blocks}>")

    def _repr_html_(self) -> str:
        return _svg.page(self)

    def svg(self) -> str:
        """Draw the matrix in its block form, as a picture in SVG.

        The horizontal part is orange, the square part green, the vertical part red, and blocks are outlined. The picture has at most
        320 cells in each direction. In a large matrix a cell covers many places, and is darker the more entries it holds.

        Returns
        -------
        str
            The text of the picture. It needs no Matplotlib.

        Notes
        -----
        The entries are those that the matrix has now: it is kept, not copied.
        """
        return _svg.picture(self)

    def spy(self, ax: Axes | None = None) -> Axes:
        """Draw the matrix in its block form by Matplotlib, with parts and blocks outlined.

        The entries are those that the matrix has now: it is kept, not copied.

        Parameters
        ----------
        ax : matplotlib.axes.Axes, optional
            Where to draw; the current axes where it is left out.

        Returns
        -------
        matplotlib.axes.Axes
            With a line of markers labelled ``entries``, a collection labelled ``blocks``, and a rectangle for each part that
            is there, labelled by its name.
        """
        return _picture.spy(self, ax)

    def explain(
        self,
        row_names: Sequence[object] | None = None,
        column_names: Sequence[object] | None = None,
        at_most: int = 20,
    ) -> str:
        """Say in words which equations and unknowns make the matrix singular, piece by piece.

        Parameters
        ----------
        row_names, column_names : sequence, optional
            A name for each equation and for each unknown. The default is their numbers, from 0 on.
        at_most : int, optional
            The most pieces to list, and the most equations and unknowns of each to name. The default is 20.

        Returns
        -------
        str
            Some lines of text.

        Raises
        ------
        ValueError
            If there are not as many names as rows or columns.
        """
        return _words.explain(self, row_names, column_names, at_most)


def dmperm(matrix: Matrix) -> Decomposition:
    """Compute the Dulmage-Mendelsohn decomposition, with the fine blocks of its square part.

    Parameters
    ----------
    matrix : sparse matrix or array, or array_like
        A matrix of any shape. The package reads CSC and CSR in place, and converts any other format. A stored zero is an entry.

    Returns
    -------
    Decomposition
        Row and column numbers have the type of the indices of `matrix`, int32 or int64.

    Raises
    ------
    ValueError
        If the arrays of `matrix` are not compressed columns or rows.
    TypeError
        If its indices are not integers.
    MemoryError
        If there is not enough memory.

    See Also
    --------
    block_order : The block triangular form alone, of a matrix of full structural rank.
    structural_rank : The structural rank alone.

    Notes
    -----
    Each matrix has one decomposition, whatever its format. `row_order` and `column_order` are the orders of the command
    ``btf analyse --order``. Only `p` and `q` depend on which maximum matching is found, of which there may be several. They keep a
    full diagonal, as `maximum_matching` does.

    References
    ----------
    .. [1] A. L. Dulmage and N. S. Mendelsohn, "Coverings of bipartite graphs", Canadian Journal of Mathematics, 10, 1958,
       517-534.
    .. [2] A. Pothen and C.-J. Fan, "Computing the block triangular form of a sparse matrix", ACM Transactions on Mathematical
       Software, 16(4), 1990, 303-324.

    Examples
    --------
    Two unknowns in one equation, one in another, and two equations with one unknown:

    >>> import blocktri
    >>> form = blocktri.dmperm([[1, 1, 1, 0], [0, 0, 1, 1], [0, 0, 0, 1], [0, 0, 0, 1]])
    >>> form
    <Decomposition of a 4 x 4 matrix: rank 3, horizontal 1 x 2, vertical 2 x 1, square 1 in 1 block>
    >>> form.horizontal
    Part(rows=array([0], dtype=int32), columns=array([0, 1], dtype=int32))
    >>> form.blocks[0]
    Part(rows=array([1], dtype=int32), columns=array([2], dtype=int32))
    >>> [component.rows.tolist() for component in form.vertical_components]
    [[2, 3]]
    >>> p, q, r, s, cc, rr = form
    >>> r, s
    (array([0, 1, 2, 4]), array([0, 2, 3, 4]))
    """
    entries = compressed(matrix)
    sizes, p, q, r, s, numbers = _called(entries)
    top, left = sizes.horizontal_rows, sizes.horizontal_columns
    bottom, right = top + sizes.square, left + sizes.square
    row_order = _rising(p, r)
    column_order = numpy.concatenate((numpy.sort(q[:left], kind="stable"), q[left:]))  # in the blocks of q columns rise
    horizontal = Part(row_order[:top], column_order[:left])
    square = Part(row_order[top:bottom], column_order[left:right])
    vertical = Part(row_order[bottom:], column_order[right:])
    first = 1 if left > 0 else 0
    return Decomposition(
        (entries.rows, entries.columns),
        sizes.rank,
        horizontal,
        square,
        vertical,
        Blocks(square, r[first : first + sizes.blocks + 1] - top),
        _grouped(horizontal, numbers, sizes.horizontal_components),
        _grouped(vertical, numbers, sizes.vertical_components),
        row_order,
        column_order,
        p,
        q,
        r,
        s,
        numpy.array(sizes.cc, numpy.intp),
        numpy.array(sizes.rr, numpy.intp),
        matrix,
    )


def _called(entries: Entries) -> tuple[Sizes, Lines, Lines, Lines, Lines, tuple[Lines, Lines]]:
    """Sizes, MATLAB's ``p``, ``q``, ``r`` and ``s``, and the component of each row and column."""
    sizes, p, q = Sizes(), entries.room(entries.rows), entries.room(entries.columns)
    r, s = (entries.room(min(entries.rows, entries.columns) + 2) for _ in range(2))
    row_component, column_component = numpy.empty_like(p), numpy.empty_like(q)
    call("dmperm", entries, p=p, q=q, r=r, s=s, row_component=row_component, column_component=column_component, sizes=sizes)
    r, s = (starts[: sizes.nb + 1].astype(numpy.intp) for starts in (r, s))
    return sizes, p, q, r, s, (row_component, column_component)


def _rising(order: Lines, starts: Lines) -> Lines:
    """The numbers of an order, sorted within each of the pieces that begin at these starts."""
    pieces = numpy.repeat(numpy.arange(len(starts) - 1, dtype=numpy.uint64) << 32, numpy.diff(starts))
    keys = pieces | order.astype(numpy.uint64)
    keys.sort(kind="stable")  # which is fast if long runs rise, as where most pieces have one number
    return (keys & MOST).astype(order.dtype)


def _grouped(part: Part, numbers: tuple[Lines, Lines], count: int) -> Parts:
    """The components of a part, of which there are so many, by the number that each row and each column has."""
    orders: list[Lines] = []
    starts: list[Lines] = []
    for lines, of_lines in zip(part, numbers):
        of_part = of_lines[lines]
        orders.append(lines[numpy.argsort(of_part, kind="stable")])
        starts.append(numpy.append(0, numpy.cumsum(numpy.bincount(of_part, minlength=count))))
    return Parts(Part(*orders), *starts)

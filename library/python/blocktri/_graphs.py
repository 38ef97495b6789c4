"""Bipartite graphs of NetworkX."""

from __future__ import annotations

from collections.abc import Hashable, Iterable, Sequence
from dataclasses import dataclass
from typing import TYPE_CHECKING, Any, NamedTuple

import numpy

from ._decomposition import Decomposition, Part, dmperm
from ._matching import maximum_matching, structural_rank

if TYPE_CHECKING:
    from ._types import Lines


class NodePart(NamedTuple):
    """The nodes of a part, by their names.

    Attributes
    ----------
    rows, columns : list of hashable
        The nodes among the top nodes and among the bottom nodes.
    """

    rows: list[Hashable]
    columns: list[Hashable]


@dataclass(frozen=True, eq=False, repr=False)
class NodeDecomposition:
    """The Dulmage-Mendelsohn decomposition of a graph, in the names of its nodes.

    `BipartiteGraph.dmperm` returns it. Its attributes are those of `Decomposition`.

    Attributes
    ----------
    rank : int
        The size of a maximum matching.
    horizontal, square, vertical : NodePart
        The three coarse parts.
    blocks, horizontal_components, vertical_components : list of NodePart
        The fine blocks of the square part, and the connected components of the outer parts.
    by_number : Decomposition
        The decomposition in numbers.
    """

    rank: int
    horizontal: NodePart
    square: NodePart
    vertical: NodePart
    blocks: list[NodePart]
    horizontal_components: list[NodePart]
    vertical_components: list[NodePart]
    by_number: Decomposition
    _graph: BipartiteGraph

    def __repr__(self) -> str:
        return repr(self.by_number).replace("<Decomposition of a", "<NodeDecomposition of a", 1)

    def _repr_html_(self) -> str:
        return self.by_number._repr_html_()

    def explain(self, at_most: int = 20) -> str:
        """Say in words which top nodes (equations) and bottom nodes (unknowns) cannot be matched, and why.

        Parameters
        ----------
        at_most : int, optional
            The most pieces to list, and the most nodes of each to name. The default is 20.

        Returns
        -------
        str
            Some lines of text.
        """
        return self.by_number.explain(self._graph.rows, self._graph.columns, at_most)


@dataclass(frozen=True, eq=False, repr=False)
class BipartiteGraph:
    """A bipartite graph as a matrix whose rows and columns have names.

    `from_networkx` makes it. Its methods answer in node names. It is itself a matrix in CSR, which every call of this package takes;
    these answer in numbers.

    Attributes
    ----------
    rows, columns : list of hashable
        The top nodes and the bottom nodes, in the order of their numbers.
    shape : tuple of int
        How many there are of each.
    indptr, indices : ndarray of integers
        The edges as compressed rows.
    data : ndarray
        The weight of each edge.
    format : str
        ``'csr'``.
    """

    rows: list[Hashable]
    columns: list[Hashable]
    shape: tuple[int, int]
    indptr: Lines
    indices: Lines
    data: Any
    format: str = "csr"

    def __repr__(self) -> str:
        return f"<BipartiteGraph of {self.shape[0]} and {self.shape[1]} nodes with {len(self.indices)} edges>"

    def structural_rank(self) -> int:
        """Compute the size of a maximum matching.

        Returns
        -------
        int
            The number of pairs.
        """
        return structural_rank(self)

    def maximum_matching(self, least: bool = False) -> dict[Hashable, Hashable]:
        """Find a maximum matching, as ``networkx.bipartite.maximum_matching``.

        Parameters
        ----------
        least : bool, optional
            Whether to find the least maximum matching, as `maximum_matching` does. The default is False.

        Returns
        -------
        dict
            The partner of each node that has one: of top nodes and of bottom nodes.
        """
        row_of_column = maximum_matching(self, least=least)
        pairs = [(self.rows[row], column) for row, column in zip(row_of_column.tolist(), self.columns) if row >= 0]
        return dict(pairs) | {column: row for row, column in pairs}

    def dmperm(self) -> NodeDecomposition:
        """Compute the Dulmage-Mendelsohn decomposition, in node names.

        Returns
        -------
        NodeDecomposition
            With the attributes of `Decomposition`.
        """
        form = dmperm(self)
        return NodeDecomposition(
            form.rank,
            self._named(form.horizontal),
            self._named(form.square),
            self._named(form.vertical),
            [self._named(part) for part in form.blocks],
            [self._named(part) for part in form.horizontal_components],
            [self._named(part) for part in form.vertical_components],
            form,
            self,
        )

    def _named(self, part: Part) -> NodePart:
        return NodePart([self.rows[row] for row in part.rows.tolist()], [self.columns[column] for column in part.columns.tolist()])


def from_networkx(graph: Any, top_nodes: Iterable[Hashable] | None = None, weight: str | None = "weight") -> BipartiteGraph:
    """Make a matrix of a bipartite graph of NetworkX, whose rows are the top nodes.

    Parameters
    ----------
    graph : networkx.Graph
        A bipartite graph. Directions of edges do not matter, and of several edges between two nodes the values are added up.
    top_nodes : iterable of hashable, optional
        The nodes of one side, in the order that the rows are to have. The default is what ``networkx.bipartite.sets`` finds, which
        is ambiguous in a graph that is not connected.
    weight : str, optional
        The attribute of edges that `data` gets. An edge without it, or every edge if `weight` is None, gets 1.

    Returns
    -------
    BipartiteGraph
        Its methods answer in node names.

    Raises
    ------
    networkx.AmbiguousSolution
        If `top_nodes` is left out, and the graph is not connected.
    networkx.NetworkXError
        If `top_nodes` is left out, and the graph is not bipartite.
    ValueError
        If an edge does not lead from a top node to another node, or a top node is given twice or is not in the graph.

    See Also
    --------
    maximum_matching : For matrices.

    Notes
    -----
    A graph may have several maximum matchings, and which of them comes is left open.

    References
    ----------
    .. [1] A. L. Dulmage and N. S. Mendelsohn, "Coverings of bipartite graphs", Canadian Journal of Mathematics, 10, 1958,
       517-534.

    Examples
    --------
    >>> import blocktri, networkx
    >>> graph = networkx.Graph([("mass", "x"), ("mass", "y"), ("heat", "z"), ("flow", "z")])
    >>> found = blocktri.from_networkx(graph, ["mass", "heat", "flow"])
    >>> found
    <BipartiteGraph of 3 and 3 nodes with 4 edges>
    >>> found.dmperm().horizontal
    NodePart(rows=['mass'], columns=['x', 'y'])
    >>> found.structural_rank(), len(found.maximum_matching())
    (2, 4)
    """
    if top_nodes is None:
        from networkx import bipartite

        top_nodes = bipartite.sets(graph)[0]
    rows = list(top_nodes)
    row_numbers = {node: number for number, node in enumerate(rows)}
    if len(row_numbers) < len(rows):
        raise ValueError("top_nodes has a node twice")
    missing = [node for node in rows if node not in graph]
    if missing:
        raise ValueError(f"top_nodes has {missing[0]!r}, which is no node of the graph")
    columns = [node for node in graph if node not in row_numbers]
    column_numbers = {node: number for number, node in enumerate(columns)}
    places: list[tuple[int, int, Any]] = []
    for one, other, value in graph.edges(data=weight, default=1) if weight else ((*ends, 1) for ends in graph.edges()):
        top, bottom = (one, other) if one in row_numbers else (other, one)
        if top not in row_numbers or bottom not in column_numbers:
            raise ValueError(f"the edge between {one!r} and {other!r} does not lead from a top node to another node")
        places.append((row_numbers[top], column_numbers[bottom], value))
    return _by_rows(rows, columns, places)


def _by_rows(rows: list[Hashable], columns: list[Hashable], places: Sequence[tuple[int, int, Any]]) -> BipartiteGraph:
    """Compressed rows of listed edges."""
    lines = numpy.array([place[0] for place in places], numpy.int64)
    order = numpy.argsort(lines, kind="stable")
    kind = numpy.int32 if max(len(rows), len(columns), len(places)) < 2**31 else numpy.int64
    starts = numpy.append(0, numpy.cumsum(numpy.bincount(lines, minlength=len(rows)))).astype(kind)
    ids, values = numpy.array([place[1] for place in places], kind), numpy.array([place[2] for place in places])
    if not places:
        values = values.astype(numpy.int64)
    return BipartiteGraph(rows, columns, (len(rows), len(columns)), starts, ids[order], values[order])

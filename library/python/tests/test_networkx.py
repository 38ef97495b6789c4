"""Bipartite graphs of NetworkX, with answers in node names."""

import os
import subprocess
import sys

import numpy
import pytest

import blocktri

networkx = pytest.importorskip("networkx")
from networkx.algorithms import bipartite  # noqa: E402

PACKAGE = os.path.dirname(os.path.dirname(os.path.abspath(__file__)))
TESTS = os.path.join(os.path.dirname(bipartite.__file__), "tests", "test_matching.py")

# runs NetworkX' own tests of bipartite matchings over this package: those of maximum matchings
SWAPPED = """
import sys
import blocktri, pytest
from networkx.algorithms import bipartite
from networkx.algorithms.bipartite import matching

def maximum_matching(G, top_nodes=None):
    return blocktri.from_networkx(G, top_nodes).maximum_matching()

for module in bipartite, matching:
    for name in "maximum_matching", "hopcroft_karp_matching", "eppstein_matching":
        setattr(module, name, maximum_matching)
sys.exit(pytest.main(sys.argv[1:]))
"""


@pytest.mark.skipif(not os.path.exists(TESTS), reason="this NetworkX comes without its tests")
def test_networkxs_own_tests_pass():
    environment = os.environ | {"PYTHONPATH": PACKAGE}
    command = [sys.executable, "-c", SWAPPED, "-q", "-p", "no:cacheprovider", TESTS]
    done = subprocess.run(command, env=environment, capture_output=True, text=True, cwd=os.path.dirname(TESTS))
    assert done.returncode == 0 and " passed" in done.stdout, done.stdout + done.stderr


def drawn(random):
    top, bottom = random.integers(0, 7, 2)
    graph = networkx.Graph()
    graph.add_nodes_from(f"t{number}" for number in random.permutation(top))
    graph.add_nodes_from(f"b{number}" for number in random.permutation(bottom))
    graph.add_edges_from((f"t{row}", f"b{column}") if random.random() < 0.5 else (f"b{column}", f"t{row}")
                         for row, column in numpy.argwhere(random.random((top, bottom)) < 0.3))
    return graph, [node for node in graph if node[0] == "t"]


def test_random_graphs():
    random = numpy.random.default_rng(0)
    for _ in range(200):
        graph, top = drawn(random)
        found = blocktri.from_networkx(graph, top)
        assert found.rows == top and found.shape == (len(top), len(graph) - len(top)) and len(found.indices) == graph.number_of_edges()
        theirs = bipartite.maximum_matching(graph, top)
        for least in (False, True):
            ours = found.maximum_matching(least)
            assert len(ours) == len(theirs) == 2 * found.structural_rank() == 2 * blocktri.structural_rank(found)
            assert all(graph.has_edge(*pair) and ours[pair[1]] == pair[0] for pair in ours.items())
        form = found.dmperm()
        nodes = [node for part in (form.horizontal, form.square, form.vertical) for side in part for node in side]
        assert sorted(nodes) == sorted(graph) and form.rank == form.by_number.rank
        assert [node for block in form.blocks for node in block.rows] == form.square.rows
        assert set(form.horizontal.rows) == {node for column in form.horizontal.columns for node in graph[column]}
        assert form.explain() == form.by_number.explain(found.rows, found.columns)


def test_answers_have_node_names():
    graph = networkx.Graph([("mass", 1), ("mass", 2), ("heat", (3, 3)), ("flow", (3, 3))])
    found = blocktri.from_networkx(graph, ["mass", "heat", "flow"])
    assert repr(found) == "<BipartiteGraph of 3 and 3 nodes with 4 edges>"
    form = found.dmperm()
    assert repr(form).startswith("<NodeDecomposition of a 3 x 3 matrix: rank 2")
    assert form.horizontal == (["mass"], [1, 2]) and form.vertical_components == [(["heat", "flow"], [(3, 3)])]
    assert found.maximum_matching(least=True) == {1: "mass", "mass": 1, (3, 3): "heat", "heat": (3, 3)}
    assert "equations: mass\n" in form.explain() and "<svg" in form._repr_html_()


def test_weights_and_several_edges():
    graph = networkx.MultiDiGraph()
    graph.add_edge("a", "x", weight=3)
    graph.add_edge("x", "a", weight=4)
    graph.add_edge("b", "y")
    assert blocktri.heaviest_diagonal(blocktri.from_networkx(graph, "ab")).sum == 8
    assert blocktri.heaviest_diagonal(blocktri.from_networkx(graph, "ab", weight=None)).sum == 3
    assert blocktri.from_networkx(networkx.Graph(), []).maximum_matching() == {}


def test_a_side_that_is_left_out():
    graph = networkx.path_graph(4)
    assert len(blocktri.from_networkx(graph).maximum_matching()) == 4
    graph.add_node(9)
    with pytest.raises(networkx.AmbiguousSolution):
        blocktri.from_networkx(graph)
    with pytest.raises(networkx.NetworkXError, match="not bipartite"):
        blocktri.from_networkx(networkx.complete_graph(3))


def test_sides_that_do_not_fit():
    graph = networkx.path_graph(4)
    for top, words in (([0], "the edge between .* does not lead from a top node to another node"),
                       ([0, 1], "the edge between 0 and 1 does not lead"), ([0, 0, 2], "top_nodes has a node twice"),
                       ([0, 2, 5], "top_nodes has 5, which is no node of the graph")):
        with pytest.raises(ValueError, match=words):
            blocktri.from_networkx(graph, top)


def test_a_graph_that_was_not_converted():
    with pytest.raises(TypeError, match="from_networkx"):
        blocktri.dmperm(networkx.path_graph(4))

"""Finds what makes two systems of equations singular, mends them, and solves them block by block.

    make -C library python
    PYTHONPATH=library/python python3 examples/worked_case.py [--time]

The first is a flow sheet with ten named equations, the second a circuit of 10 stages with 36,010 unknowns.
"""

import sys
import time

import blocktri
import numpy
from scipy import sparse
from scipy.sparse import linalg

FLOW_SHEET = {
    "mixer balance": {"feed": 1, "recycle": -1},
    "reactor balance": {"feed": 1, "outflow": -1},
    "flash balance": {"outflow": 1, "vapour": -1, "liquid": -1},
    "splitter balance": {"liquid": 1, "product": -1, "recycle": -1},
    "overall balance": {"vapour": 1, "product": 1},
    "vapour fraction": {"vapour": 1, "outflow": -0.25},
    "recycle ratio": {"recycle": 1, "liquid": -0.6},
    "heat balance": {"feed": 3, "duty": -1, "temperature": 0.5},
    "pump pressure": {"pressure": 1},
    "pump power": {"power": 1, "pressure": -0.2},
}


class System:
    """Equations with names: the coefficients of the unknowns, and a right side."""

    def __init__(self, equations, right_side):
        self.equations = list(equations)
        self.unknowns = list(dict.fromkeys(unknown for terms in equations.values() for unknown in terms))
        column = {unknown: number for number, unknown in enumerate(self.unknowns)}
        places = [(row, column[unknown], value) for row, terms in enumerate(equations.values()) for unknown, value in terms.items()]
        rows, columns, values = zip(*places)
        self.matrix = sparse.csc_matrix((values, (rows, columns)), shape=(len(self.equations), len(self.unknowns)))
        self.right_side = numpy.array([right_side.get(name, 0.0) for name in self.equations])

    def explain(self, at_most=7):
        return blocktri.dmperm(self.matrix).explain(self.equations, self.unknowns, at_most)


def circuit(stages, side):
    """Stages of an amplifier, each a grid of resistors behind a source that follows all of the stage before."""
    equations, right_side = {}, {}
    for stage in range(stages):
        nodes = {(x, y): f"v{stage}.{x}.{y}" for x in range(side) for y in range(side)}
        for (x, y), node in nodes.items():
            terms = {node: 0.01}  # to ground
            for other in ((x - 1, y), (x + 1, y), (x, y - 1), (x, y + 1)):
                if other in nodes:
                    terms[node] += 1.0
                    terms[nodes[other]] = -1.0
            equations[f"current at {node}"] = terms
        equations[f"current at v{stage}.0.0"][f"i{stage}"] = 1.0
        equations[f"source {stage}"] = {f"v{stage}.0.0": 1.0}
        if stage > 0:
            equations[f"source {stage}"] |= {f"v{stage - 1}.{x}.{y}": -1.5 / side**2 for x, y in nodes}
    right_side["source 0"] = 5.0
    return equations, right_side


def solve_by_blocks(system):
    """The solution, the factors of the blocks, and how many entries stand above the blocks or are blocks of their own."""
    rows, columns, starts = blocktri.block_order(system.matrix)
    ordered = system.matrix[rows][:, columns].tocsc()
    rest, solution, factors, beside = system.right_side[rows], numpy.zeros(len(columns)), [], 0
    for begin, end in reversed(list(zip(starts[:-1], starts[1:]))):
        strip = ordered[:, begin:end]
        block, above = strip[begin:end], strip[:begin]
        if end - begin == 1:
            part = rest[begin:end] / block[0, 0]
        else:
            factors.append(linalg.splu(block))
            part = factors[-1].solve(rest[begin:end])
        rest[:begin] -= above @ part
        solution[columns[begin:end]] = part
        beside += above.nnz + (end - begin == 1)
    return solution, factors, beside


def solve_whole(system):
    factors = linalg.splu(system.matrix)
    return factors.solve(system.right_side), [factors], 0


def compare(system, with_time):
    answers = []
    for name, solve in (("whole", solve_whole), ("by blocks", solve_by_blocks)):
        begin = time.perf_counter()
        solution, factors, beside = solve(system)
        passed = f", {1000 * (time.perf_counter() - begin):.0f} ms" if with_time else ""
        fill = beside + sum(it.L.nnz + it.U.nnz for it in factors)
        print(f"solved {name}: {fill} entries in L and U{passed}")
        answers.append(solution)
    print("the solutions agree:", bool(numpy.allclose(*answers)))
    return answers[-1]


def main():
    with_time = "--time" in sys.argv[1:]
    print("A FLOW SHEET, with an equation too many and one too few")
    right_side = {"mixer balance": 10.0, "overall balance": 10.0, "pump pressure": 6.0, "set temperature": 350.0}
    print(System(FLOW_SHEET, right_side).explain())
    print("Without the overall balance, which follows from the other balances, and with the temperature set:")
    del FLOW_SHEET["overall balance"]
    mended = System({**FLOW_SHEET, "set temperature": {"temperature": 1}}, right_side)
    print(mended.explain())
    solution = compare(mended, with_time)
    print(", ".join(f"{name} {value:.2f}" for name, value in zip(mended.unknowns, solution)))

    print("A CIRCUIT, with a second source beside the first")
    equations, right_side = circuit(10, 60)
    equations["current at v0.0.0"]["i0b"] = 1.0
    print(System({**equations, "source 0b": {"v0.0.0": 1.0}}, right_side).explain())
    print("Without the second source:")
    del equations["current at v0.0.0"]["i0b"]
    mended = System(equations, right_side)
    print(mended.explain())
    compare(mended, with_time)


if __name__ == "__main__":
    main()

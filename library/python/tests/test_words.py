"""A decomposition in words."""

import pytest
from scipy import sparse

import blocktri

# ten equations of a flow sheet in ten unknowns: unknowns 6 and 7 stand in equation 7 alone, equations 0 to 6 have no unknowns
# but 0 to 5, and equations 8 and 9 determine unknowns 8 and 9
PLACES = [(0, 0), (0, 1), (0, 4), (1, 1), (1, 2), (2, 2), (2, 3), (2, 4), (3, 3), (3, 5), (4, 0), (4, 5), (5, 4), (6, 5), (6, 0),
          (7, 2), (7, 6), (7, 7), (8, 8), (8, 1), (9, 9), (9, 8)]


def matrix_of(places, shape):
    rows, columns = zip(*places) if places else ((), ())
    return sparse.coo_matrix(([1] * len(places), (rows, columns)), shape=shape)


def test_a_flow_sheet():
    form = blocktri.dmperm(matrix_of(PLACES, (10, 10)))
    equations = [f"E{number}" for number in range(10)]
    unknowns = [*"abcdefgh", "heat", "flow"]
    assert form.explain(equations, unknowns).splitlines() == [
        "Structurally singular: of 10 equations and 10 unknowns at most 9 can be paired.",
        "Too few equations: 1 piece.",
        "  These 2 unknowns stand in no equation but this 1, so 1 equation is missing.",
        "    unknowns: g, h",
        "    equations: E7",
        "Too many equations: 1 piece.",
        "  These 7 equations have no unknown but these 6, so 1 of them is redundant or at odds with the others.",
        "    unknowns: a, b, c, d, e, f",
        "    equations: E0, E1, E2, E3, E4, E5, E6",
        "What can be solved: 2 equations in 2 unknowns, block by block, from the last of 2 to the first; the largest has 1.",
    ]


def test_numbers_stand_for_names_and_long_lists_are_cut():
    words = blocktri.dmperm(matrix_of(PLACES, (10, 10))).explain(at_most=2)
    assert "    unknowns: 6, 7\n    equations: 7\n" in words
    assert "    unknowns: 0, 1, and 4 more\n    equations: 0, 1, and 5 more\n" in words


def test_pieces_are_told_of_one_by_one():
    # unknowns 0 and 1 have equation 0, unknowns 2 and 3 have equation 1; equations 2 to 4 have unknown 4, equation 5 has none
    places = [(0, 0), (0, 1), (1, 2), (1, 3), (2, 4), (3, 4), (4, 4)]
    form = blocktri.dmperm(matrix_of(places, (6, 5)))
    assert form.explain().splitlines()[1:] == [
        "Too few equations: 2 pieces.",
        "  These 2 unknowns stand in no equation but this 1, so 1 equation is missing.",
        "    unknowns: 0, 1",
        "    equations: 0",
        "  These 2 unknowns stand in no equation but this 1, so 1 equation is missing.",
        "    unknowns: 2, 3",
        "    equations: 1",
        "Too many equations: 2 pieces.",
        "  These 3 equations have no unknown but this 1, so 2 of them are redundant or at odds with the others.",
        "    unknowns: 4",
        "    equations: 2, 3, 4",
        "  This equation has no unknown, so it says nothing or can't hold.",
        "    equations: 5",
        "Nothing is left that can be solved.",
    ]
    assert form.explain(at_most=1).count("  And 1 piece more.\n") == 2


def test_a_sound_matrix():
    assert blocktri.dmperm(sparse.eye(2)).explain() == (
        "Not singular by its structure: 2 equations and 2 unknowns can all be paired.\n"
        "What can be solved: 2 equations in 2 unknowns, block by block, from the last of 2 to the first; the largest has 1."
    )


def test_lines_without_entries():
    assert blocktri.dmperm(matrix_of([(0, 0)], (2, 2))).explain().splitlines() == [
        "Structurally singular: of 2 equations and 2 unknowns at most 1 can be paired.",
        "Too few equations: 1 piece.",
        "  This unknown stands in no equation, so 1 equation is missing.",
        "    unknowns: 1",
        "Too many equations: 1 piece.",
        "  This equation has no unknown, so it says nothing or can't hold.",
        "    equations: 1",
        "What can be solved: 1 equation in 1 unknown, in 1 block.",
    ]


def test_shapes_that_are_not_square():
    wide = blocktri.dmperm(matrix_of([(0, 0), (0, 1), (0, 2)], (1, 3)))
    tall = blocktri.dmperm(matrix_of([(0, 0), (1, 0), (2, 0)], (3, 1)))
    assert wide.explain().splitlines()[0] == "Not square: of 1 equation and 3 unknowns at most 1 can be paired."
    assert "These 3 unknowns stand in no equation but this 1, so 2 equations are missing." in wide.explain()
    assert tall.explain().splitlines()[0] == "Not square: of 3 equations and 1 unknown at most 1 can be paired."
    assert "These 3 equations have no unknown but this 1, so 2 of them are redundant or at odds with the others." in tall.explain()
    assert wide.explain().endswith("Nothing is left that can be solved.")


def test_names_must_be_as_many_as_lines():
    form = blocktri.dmperm(matrix_of([(0, 0)], (2, 3)))
    with pytest.raises(ValueError, match="row_names has 3 names, but the matrix has 2 rows"):
        form.explain(row_names="abc")
    with pytest.raises(ValueError, match="column_names has 2 names, but the matrix has 3 columns"):
        form.explain(column_names="ab")

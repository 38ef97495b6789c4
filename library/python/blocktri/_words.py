"""A decomposition in words."""

from __future__ import annotations

from collections.abc import Iterator, Sequence
from typing import TYPE_CHECKING

if TYPE_CHECKING:
    from ._decomposition import Decomposition, Part
    from ._types import Lines


def counted(count: int, noun: str) -> str:
    """A count with its noun.

    >>> counted(1, "row"), counted(2, "row")
    ('1 row', '2 rows')
    """
    return f"{count} {noun}" if count == 1 else f"{count} {noun}s"


def listed(noun: str, numbers: Sequence[int] | Lines, at_most: int) -> str:
    """The first so many numbers behind their noun.

    >>> listed("row", [3], 2), listed("row", [3, 5, 7, 9], 2)
    ('row 3', 'rows 3, 5 and 2 more')
    """
    first, more = ", ".join(map(str, numbers[:at_most])), len(numbers) - at_most
    return f"{noun if len(numbers) == 1 else noun + 's'} {first}" + (f" and {more} more" if more > 0 else "")


def explain(
    form: Decomposition, row_names: Sequence[object] | None, column_names: Sequence[object] | None, at_most: int
) -> str:
    """What `Decomposition.explain` answers."""
    rows, columns = form.shape
    row_names, column_names = _names(row_names, rows, "row_names"), _names(column_names, columns, "column_names")
    counts = f"{counted(rows, 'equation')} and {counted(columns, 'unknown')}"
    if form.rank == rows == columns:
        return f"Not singular by its structure: {counts} can all be paired.\n" + _sound(form)
    kind = "Structurally singular" if rows == columns else "Not square"
    lines = [f"{kind}: of {counts} at most {form.rank} can be paired."]
    blamed = (("few", form.horizontal_components, _too_few), ("many", form.vertical_components, _too_many))
    for word, pieces, blame in blamed:
        if len(pieces) > 0:
            lines.append(f"Too {word} equations: {counted(len(pieces), 'piece')}.")
        for piece in pieces[:at_most]:
            lines.append(f"  {blame(piece)}")
            lines += _members("unknown", piece.columns, column_names, at_most)
            lines += _members("equation", piece.rows, row_names, at_most)
        if len(pieces) > at_most:
            lines.append(f"  And {counted(len(pieces) - at_most, 'piece')} more.")
    return "\n".join([*lines, _sound(form)])


def _names(names: Sequence[object] | None, size: int, argument: str) -> Sequence[object]:
    if names is None:
        return range(size)
    if len(names) != size:
        raise ValueError(f"{argument} has {len(names)} names, but the matrix has {size} {argument[:-6]}s")
    return names


def _too_few(part: Part) -> str:
    unknowns, equations = len(part.columns), len(part.rows)
    they = "This unknown stands" if unknowns == 1 else f"These {unknowns} unknowns stand"
    missing = unknowns - equations
    return f"{they} in {_only(equations, 'equation')}, so {counted(missing, 'equation')} {_are(missing)} missing."


def _too_many(part: Part) -> str:
    unknowns, equations = len(part.columns), len(part.rows)
    if equations == 1:
        return "This equation has no unknown, so it says nothing or can't hold."
    excess = equations - unknowns
    return (f"These {equations} equations have {_only(unknowns, 'unknown')}, "
            f"so {excess} of them {_are(excess)} redundant or at odds with the others.")


def _only(count: int, noun: str) -> str:
    return f"no {noun} but {'this 1' if count == 1 else f'these {count}'}" if count else f"no {noun}"


def _are(count: int) -> str:
    return "is" if count == 1 else "are"


def _members(noun: str, numbers: Sequence[int] | Lines, names: Sequence[object], at_most: int) -> Iterator[str]:
    if len(numbers) > 0:
        named = [str(names[number]) for number in numbers[:at_most]]
        more = len(numbers) - len(named)
        yield f"    {noun}s: " + ", ".join(named) + (f", and {more} more" if more else "")


def _sound(form: Decomposition) -> str:
    square = len(form.square.rows)
    if square == 0:
        return "Nothing is left that can be solved."
    blocks, largest = len(form.blocks), int(form.blocks.sizes().max())
    what = f"{counted(square, 'equation')} in {counted(square, 'unknown')}"
    how = "in 1 block" if blocks == 1 else f"block by block, from the last of {blocks} to the first; the largest has {largest}"
    return f"What can be solved: {what}, {how}."

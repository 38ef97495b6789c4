"""Results in a notebook."""

from __future__ import annotations

from collections.abc import Iterable
from html import escape


def table(caption: str, facts: Iterable[tuple[str, object]]) -> str:
    """A table with a line for each fact.

    >>> table("Form", [("rank", 3)])
    '<table><caption>Form</caption><tr><th>rank</th><td>3</td></tr></table>'
    """
    rows = "".join(f"<tr><th>{escape(name)}</th><td>{escape(str(value))}</td></tr>" for name, value in facts)
    return f"<table><caption>{escape(caption)}</caption>{rows}</table>"

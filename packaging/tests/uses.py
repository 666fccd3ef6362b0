"""Uses the module as its types say: `mypy --strict` has no complaint about it."""

from typing import Optional

import tera_parser


def names(source: tera_parser.Source) -> list[str]:
    """The variables that a template reads."""
    tree: tera_parser.Tree = tera_parser.parse(source, limits=tera_parser.Limits(depth=10))
    return [str(node["name"]) for node in tera_parser.walk(tree) if node["kind"] == "Var"]


def position(source: tera_parser.Source) -> Optional[tuple[int, int]]:
    """Where its fault is."""
    fault = tera_parser.fault(source, markers=tera_parser.DEFAULT_MARKERS)
    if fault is None:
        return None
    places: list[tera_parser.Span] = [fault.span, *(note.span for note in fault.notes)]
    return places[0].start_line, places[0].start_col


print(names("{{ a.b | c }}"), position(b"{{ a b }}"), position("a"))

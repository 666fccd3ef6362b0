"""The proved parser of Tera 2 templates: trees, faults, layouts, findings and components.

    >>> import tera_parser
    >>> tree = tera_parser.parse("Hi {{ user.name }}")
    >>> [node["kind"] for node in tree["nodes"]]
    ['Content', 'Expression']
    >>> tera_parser.parse("{% for a in b %}")
    Traceback (most recent call last):
    tera_parser.Fault: 1:17: Unexpected end of input
    >>> tera_parser.format("{{user.name|upper}}")
    '{{ user.name | upper }}'

A source is a `str`, or `bytes` of UTF-8. Nothing is kept from one call to the next. Other threads run during a call, so
calls may run in several threads at the same time. Nothing here renders a template.
"""

from __future__ import annotations

import ctypes
import json
import re
import sys
from collections.abc import Iterator, Mapping
from pathlib import Path
from typing import Any, NamedTuple, Optional, TypedDict, Union

__all__ = ["DEFAULT_LIMITS", "DEFAULT_MARKERS", "Fault", "Finding", "FindingNote", "Limits", "Markers", "Mended",
           "Node", "Note", "Source", "Span", "Tree", "check", "components", "fault", "format", "mend", "parse",
           "tree_text", "walk"]

Source = Union[str, bytes]
Node = dict[str, Any]
"""An object of a tree: a node, an expression or a part of one, with its `kind`."""


class Tree(TypedDict):
    """The tree of a template, with the names and in the order of its JSON."""

    parent: Optional[str]
    component_definitions: list[dict[str, Any]]
    nodes: list[Node]


class Markers(NamedTuple):
    """The six markers of a template, of two bytes each."""

    block_start: str = "{%"
    block_end: str = "%}"
    variable_start: str = "{{"
    variable_end: str = "}}"
    comment_start: str = "{#"
    comment_end: str = "#}"


class Limits(NamedTuple):
    """How far a template may go. The greatest values that are accepted are 100, 4096, 16, 8 and 100."""

    depth: int = 40
    links: int = 256
    subscripts: int = 4
    arrays: int = 2
    bodies: int = 40


DEFAULT_MARKERS = Markers()
DEFAULT_LIMITS = Limits()


class Span(NamedTuple):
    """A place: lines from 1, columns from 0 in characters, and the range in bytes of UTF-8.

    A tree has the same names, so `Span(**node["span"])` is the place of a node.
    """

    start_line: int
    start_col: int
    end_line: int
    end_col: int
    start: int
    end: int

    def of(self, source: Source) -> str:
        """The part of the source at this place."""
        return _bytes(source)[self.start : self.end].decode()


class Note(NamedTuple):
    """Another place that a fault is about, and what is there."""

    label: str
    span: Span


class Fault(ValueError):
    """Why a source has no tree: a message, its place, and notes on other places.

    It prints as `LINE:COLUMN: MESSAGE`, where both count from 1. From Python 3.11 on a traceback has the notes too.
    """

    def __init__(self, message: str, span: Span, notes: list[Note]):
        super().__init__(message, span, notes)
        self.message = message
        self.span = span
        self.notes = notes
        if sys.version_info >= (3, 11):
            for note in notes:
                self.add_note(f"{_position(note.span)}: {note.label}")

    def __str__(self) -> str:
        return f"{_position(self.span)}: {self.message}"


class FindingNote(NamedTuple):
    """What explains a finding, at a place of any file. Lines and columns count from 1; `end_column` is the column after
    the last character."""

    file: str
    line: int
    column: int
    end_line: int
    end_column: int
    message: str


class Finding(NamedTuple):
    """What is wrong in a template. `severity` is `error` or `warning`, and `kind` a word that stays the same from
    version to version, such as `missing-argument`. Places are as in a FindingNote."""

    file: str
    line: int
    column: int
    end_line: int
    end_column: int
    message: str
    severity: str
    kind: str
    notes: list[FindingNote]

    def __str__(self) -> str:
        return f"{self.file}:{self.line}:{self.column}: {self.severity}: {self.message}"


class Mended(NamedTuple):
    """What is right in a template, and its faults. `more` says whether there are more faults than these.

    The tree is that of the text with something else in the place of each fault. There is none only if nothing was read
    beside the first fault.
    """

    tree: Optional[Tree]
    faults: list[Finding]
    more: bool


def parse(source: Source, *, markers: Markers = DEFAULT_MARKERS, limits: Limits = DEFAULT_LIMITS) -> Tree:
    """Returns the tree of a template, as dictionaries and lists; raises Fault if it has none."""
    tree: Tree = _value(_of_tree(_library.tera_c_json, 12, source, markers, limits))
    return tree


def tree_text(source: Source, *, markers: Markers = DEFAULT_MARKERS, limits: Limits = DEFAULT_LIMITS) -> str:
    """Returns the tree as lines of text; raises Fault if there is none."""
    return _of_tree(_library.tera_c_tree, 2, source, markers, limits)


def fault(source: Source, *, markers: Markers = DEFAULT_MARKERS, limits: Limits = DEFAULT_LIMITS) -> Fault | None:
    """Returns the fault of a source, or None if it has a tree."""
    return _fault(_asked(source, markers, limits))


def format(source: Source, *, markers: Markers = DEFAULT_MARKERS) -> str:
    """Returns the source in its layout; raises Fault if a token of it is faulty or a tag has no end."""
    asked = _asked(source, markers, DEFAULT_LIMITS)
    status, text = _written(_library.tera_c_format, asked[:4], 512 + 2 * len(asked[0]))
    if status == _FAULTY:
        # A source without a layout has no tree either, unless memory ran out.
        raise _fault(asked) or _error(_NO_MEMORY)
    return text


def check(templates: Mapping[str, Source], library: Mapping[str, Source] | None = None, *,
          max_faults: int = 100) -> list[Finding]:
    """Returns what is wrong in templates, which are given by the names of their files.

    They are checked together, since a component may be defined in any of them, or in one of the `library`. Of a
    template of the library only its faults are found. In each template at most `max_faults` faults are found; with 0 it
    is the first fault, and nothing else of that template.
    """
    files = _files(templates, library or {})
    asked = files, len(files), len(templates), _count(max_faults)
    _, text = _written(_library.tera_c_check, asked, 4096 + 512 * len(files) + _length(files))
    return [_finding(json.loads(line)) for line in text.splitlines()]


def components(templates: Mapping[str, Source]) -> list[dict[str, Any]]:
    """Returns the components that templates define, with their parameters and a call to copy, as `tera components`."""
    files = _files(templates, {})
    _, text = _written(_library.tera_c_components, (files, len(files)), 4096 + 12 * _length(files))
    listed: list[dict[str, Any]] = json.loads(text)
    return listed


def mend(source: Source, *, name: str = "", max_faults: int = 100) -> Mended:
    """Returns the tree of a template, whatever faults it has, and these, in the order of their places.

    `name` is the file of the faults. At most `max_faults` are found; with 0 it is the first fault, and no tree.
    """
    file = _files({name: source}, {})
    _, text = _written(_library.tera_c_mend, (file, _count(max_faults)), 4096 + 12 * _length(file))
    found = _value(text.rstrip())
    return Mended(found["tree"], [_finding(it) for it in found["faults"]], found["more"])


def walk(tree: Any) -> Iterator[Node]:
    """Yields each object that has a `kind`, of a tree, a node or a list of these: first an object, then its parts."""
    waiting = [tree]
    while waiting:
        it = waiting.pop()
        if isinstance(it, dict):
            # An argument may be named `kind`. It is an object, and not a word.
            if isinstance(it.get("kind"), str):
                yield it
            waiting.extend(reversed(_parts(it)))
        elif isinstance(it, list):
            waiting.extend(reversed(it))


def _parts(it: dict[str, Any]) -> list[Any]:
    """The parts of an object that may have a `kind`. The metadata of a definition are constants by any names."""
    is_definition = "rest_param_name" in it and not isinstance(it["rest_param_name"], dict)
    return [part for name, part in it.items() if not (is_definition and name == "metadata")]


# The calls of the library, with the numbers and the types of tera.h.

_WRITTEN, _SHORT, _FAULTY, _NOTHING, _NOT_UTF8, _BAD_MARKERS, _BAD_LIMITS, _NO_MEMORY = range(8)
_ERRORS: dict[int, tuple[type[Exception], str]] = {
    _NOT_UTF8: (UnicodeError, "the source is not UTF-8"),
    _BAD_MARKERS: (ValueError, "the markers are not six texts of two bytes, of which the three starts differ"),
    _BAD_LIMITS: (ValueError, "a limit is below 1 or too great"),
    _NO_MEMORY: (MemoryError, "out of memory"),
}


class _Limits(ctypes.Structure):
    _fields_ = [(name, ctypes.c_size_t) for name in Limits._fields]


class _Span(ctypes.Structure):
    _fields_ = [(name, ctypes.c_size_t) for name in Span._fields]

    def span(self) -> Span:
        return Span(*(getattr(self, name) for name in Span._fields))


class _Fault(ctypes.Structure):
    _fields_ = [("span", _Span), ("notes", ctypes.c_size_t)]


class _File(ctypes.Structure):
    _fields_ = [("name", ctypes.c_char_p), ("name_length", ctypes.c_size_t), ("bytes", ctypes.c_char_p),
                ("length", ctypes.c_size_t)]


def _loaded() -> ctypes.CDLL:
    library = ctypes.CDLL(str(Path(__file__).with_name("libtera_parser.so")))
    text, number = ctypes.c_char_p, ctypes.c_size_t
    source = [text, number, text, number]
    asked = [*source, ctypes.POINTER(_Limits)]
    files = [ctypes.POINTER(_File), number]
    written = [ctypes.c_void_p, number, ctypes.POINTER(number)]
    for name, types in {
        "tree": [*asked, *written],
        "json": [*asked, *written],
        "fault": [*asked, *written, ctypes.POINTER(_Fault)],
        "note": [*asked, number, *written, ctypes.POINTER(_Span)],
        "format": [*source, *written],
        "check": [*files, number, number, *written],
        "components": [*files, *written],
        "mend": [*files, *written],
    }.items():
        call = getattr(library, f"tera_c_{name}")
        call.argtypes, call.restype = types, ctypes.c_uint32
    return library


_library = _loaded()


def _position(span: Span) -> str:
    return f"{span.start_line}:{span.start_col + 1}"


def _bytes(source: Source) -> bytes:
    if isinstance(source, str):
        return source.encode()
    if isinstance(source, bytes):
        return source
    raise TypeError(f"a source is str or bytes, not {type(source).__name__}")


def _utf8(source: Source) -> bytes:
    """The bytes of a source. Python's own error has the place where they are not UTF-8."""
    text = _bytes(source)
    if text is source:
        text.decode()
    return text


def _error(status: int) -> Exception:
    kind, why = _ERRORS[status]
    return kind(why)


def _asked(source: Source, markers: Markers, limits: Limits) -> tuple[Any, ...]:
    """What each call is passed first."""
    source, text = _utf8(source), "".join(markers).encode()
    if [len(it.encode()) for it in markers] != [2] * 6:
        raise _error(_BAD_MARKERS)
    # A number that the library cannot be passed is out of range too.
    if not all(0 < it < 2**31 for it in limits):
        raise _error(_BAD_LIMITS)
    return source, len(source), text, len(text), ctypes.byref(_Limits(*limits))


def _count(max_faults: int) -> int:
    """A number of faults that the library can be passed."""
    if not 0 <= max_faults < 2**31:
        raise ValueError("max_faults is below 0 or too great")
    return max_faults


def _files(templates: Mapping[str, Source], library: Mapping[str, Source]) -> Any:
    """Templates as the library is passed them, those of `templates` first."""
    pairs = [(name.encode(), _utf8(it)) for name, it in (*templates.items(), *library.items())]
    return (_File * len(pairs))(*(_File(name, len(name), text, len(text)) for name, text in pairs))


def _length(files: Any) -> int:
    """The length of these templates together."""
    return sum(it.length for it in files)


def _written(call: Any, asked: tuple[Any, ...], room: int, more: tuple[Any, ...] = ()) -> tuple[int, str]:
    """The status of a call and the text that it writes. It is made again if the text does not fit the room."""
    needed = ctypes.c_size_t()
    while True:
        buffer = bytearray(room)
        status = call(*asked, (ctypes.c_char * room).from_buffer(buffer), room, ctypes.byref(needed), *more)
        if status in (_WRITTEN, _FAULTY, _NOTHING):
            return status, str(memoryview(buffer)[: needed.value], "utf-8")
        if status != _SHORT:
            raise _error(status)
        room = needed.value


def _of_tree(call: Any, times: int, source: Source, markers: Markers, limits: Limits) -> str:
    """What a call writes of the tree, which is seldom longer than so many times the source."""
    asked = _asked(source, markers, limits)
    status, text = _written(call, asked, 512 + times * len(asked[0]))
    if status == _FAULTY:
        # The same source has no tree again, so there is a fault, unless memory ran out.
        raise _fault(asked) or _error(_NO_MEMORY)
    return text


def _fault(asked: tuple[Any, ...]) -> Fault | None:
    found = _Fault()
    status, text = _written(_library.tera_c_fault, asked, 512, (ctypes.byref(found),))
    if status == _NOTHING:
        return None
    return Fault(text, found.span.span(), [_note(asked, number) for number in range(found.notes)])


def _finding(found: dict[str, Any]) -> Finding:
    found["notes"] = [FindingNote(**it) for it in found["notes"]]
    return Finding(**found)


def _note(asked: tuple[Any, ...], number: int) -> Note:
    span = _Span()
    _, label = _written(_library.tera_c_note, (*asked, number), 512, (ctypes.byref(span),))
    return Note(label, span.span())


_TOKEN = re.compile(r'"(?:[^"\\]+|\\.)*"|[][{}:,]|[^][{}:,"]+')


def _value(text: str) -> Any:
    """The value of a JSON text. A tree may be deeper than what Python's reader accepts."""
    try:
        return json.loads(text)
    except RecursionError:
        return _deep_value(text)


def _deep_value(text: str) -> Any:
    """The same for a text without white space outside of strings, by a stack of its own."""
    stack: list[Any] = [[]]
    keys: list[str | None] = [None]

    def put(value: Any) -> None:
        if isinstance(stack[-1], list):
            stack[-1].append(value)
        elif keys[-1] is None:
            keys[-1] = value
        else:
            stack[-1][keys[-1]] = value
            keys[-1] = None

    for found in _TOKEN.finditer(text):
        token = found[0]
        if token in "{[":
            stack.append({} if token == "{" else [])
            keys.append(None)
        elif token in "}]":
            keys.pop()
            put(stack.pop())
        elif token not in ":,":
            put(json.loads(token))
    return stack[0][0]

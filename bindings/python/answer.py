"""Prints the tree of each template, with --json as JSON, or its fault: answer.py [--json] [--markers TWELVE] FILE.."""

import json
import sys

import tera_parser


def fault_text(fault):
    p = fault.span
    lines = [
        f"syntax error at {p.start_line}:{p.start_col} ({p.start}..{p.end}): {fault.message}",
        f"ends at {p.end_line}:{p.end_col}",
    ]
    for note in fault.notes:
        p = note.span
        where = f"{p.start_line}:{p.start_col}-{p.end_line}:{p.end_col} {p.start}..{p.end}"
        lines.append(f"note {note.label} at {where}")
    return "".join(line + "\n" for line in lines)


def tree_of(source, markers, as_json):
    if not as_json:
        return tera_parser.tree_text(source, markers=markers)
    tree = tera_parser.parse(source, markers=markers)
    return json.dumps(tree, ensure_ascii=False, separators=(",", ":")) + "\n"


def answer(name, markers, as_json):
    """The answer to one file: 0 for a tree, 1 for a fault, 2 if there is neither."""
    try:
        with open(name, "rb") as file:
            return 0, tree_of(file.read(), markers, as_json)
    except tera_parser.Fault as fault:
        return 1, fault_text(fault)
    except UnicodeError:
        print(f"{name}: not UTF-8", file=sys.stderr)
    except ValueError:
        print(f"{name}: no markers of a template", file=sys.stderr)
    except OSError:
        print(f"{name}: cannot be read", file=sys.stderr)
    return 2, ""


def markers_of(word):
    """Six markers of two bytes each, one after the other."""
    pieces = [word.encode()[at:at + 2] for at in range(0, 12, 2)]
    return tera_parser.Markers(*(it.decode(errors="replace") for it in pieces))


def main(words):
    # A tree may be deeper than what Python's writer of JSON accepts.
    sys.setrecursionlimit(100000)
    markers = tera_parser.DEFAULT_MARKERS
    as_json = words[:1] == ["--json"]
    if as_json:
        words = words[1:]
    if len(words) > 1 and words[0] == "--markers":
        markers, words = markers_of(words[1]), words[2:]
    worst = 0
    for name in words:
        came, text = answer(name, markers, as_json)
        sys.stdout.buffer.write(f"== {name}\n{text}".encode("utf-8", "surrogateescape"))
        worst = max(worst, came)
    return worst


if __name__ == "__main__":
    sys.exit(main(sys.argv[1:]))

"""Reads the JSON of trees by Python's own reader: reads_back.py FILE, which a caller printed with --json."""

import json
import sys


def trees(name):
    """Each template that has a tree, with its JSON."""
    with open(name, encoding="utf-8", errors="surrogateescape", newline="\n") as file:
        for line in file.read().split("\n"):
            if line.startswith("== "):
                template = line[3:]
            elif line.startswith("{"):
                yield template, line


def places(value):
    """The places in a tree."""
    if isinstance(value, dict):
        if "span" in value and "kind" in value:
            yield value["span"]
        for part in value.values():
            yield from places(part)
    elif isinstance(value, list):
        for part in value:
            yield from places(part)


def main(name):
    sys.setrecursionlimit(100000)
    count = 0
    for template, text in trees(name):
        tree = json.loads(text)
        if json.dumps(tree, ensure_ascii=False, separators=(",", ":")) != text:
            sys.exit(f"{template}: its JSON is written otherwise once it is read")
        for p in places(tree):
            if p["start"] > p["end"] or (p["start_line"], p["start_col"]) > (p["end_line"], p["end_col"]):
                sys.exit(f"{template}: {p} ends before it starts")
        count += 1
    print(f"the JSON of {count} trees reads back, and is written again as it was")


if __name__ == "__main__":
    main(*sys.argv[1:])

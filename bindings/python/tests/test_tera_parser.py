"""Tests of the module as it is installed: python3 -m unittest discover -s bindings/python/tests"""

import doctest
import json
import pickle
import sys
import threading
import traceback
import unittest
from unittest import mock

import tera_parser
from tera_parser import Fault, Limits, Markers, Span

TWICE = "{% component a() %}{% endcomponent a %}\n{% component a() %}{% endcomponent %}"


class Trees(unittest.TestCase):
    def test_a_tree(self):
        tree = tera_parser.parse("Hi {{ user.name }}")
        self.assertEqual(tree["nodes"][0], {"kind": "Content", "text": "Hi "})
        self.assertEqual([it["kind"] for it in tera_parser.walk(tree)], ["Content", "Expression", "GetAttr", "Var"])
        self.assertEqual([it["kind"] for it in tera_parser.walk(tree["nodes"][1])], ["Expression", "GetAttr", "Var"])
        self.assertEqual(list(tera_parser.walk([])), [])

    def test_text_and_bytes_are_alike(self):
        self.assertEqual(tera_parser.parse("é{{ a }}"), tera_parser.parse("é{{ a }}".encode()))
        self.assertEqual(tera_parser.tree_text("a"), 'text "a"\n')
        self.assertEqual(tera_parser.tree_text(""), "")
        self.assertEqual(tera_parser.parse(""), {"parent": None, "component_definitions": [], "nodes": []})
        self.assertEqual(tera_parser.parse("a\0b")["nodes"], [{"kind": "Content", "text": "a\0b"}])

    def test_a_span_is_of_bytes(self):
        tree = tera_parser.parse("é{{ a.b }}")
        span = Span(**tree["nodes"][1]["expr"]["span"])
        self.assertEqual(span.of("é{{ a.b }}"), "b")
        self.assertEqual(span.of("é{{ a.b }}".encode()), "b")

    def test_a_tree_that_is_longer_than_the_guess(self):
        source = "{{a}}" * 2000
        self.assertEqual(len(tera_parser.parse(source)["nodes"]), 2000)

    def test_the_names_of_arguments_and_of_metadata_are_no_kinds(self):
        source = "{% component a() {'kind': 'x'} %}{{ b }}{% endcomponent %}"
        source += "{{ f(kind=c, metadata=d, rest_param_name=e) }}"
        kinds = [it["kind"] for it in tera_parser.walk(tera_parser.parse(source))]
        self.assertEqual(kinds, ["Expression", "Var", "Expression", "FunctionCall", "Var", "Var", "Var"])

    def test_a_source_is_parsed_once(self):
        source = "{% for a in b %}{{ a.name | upper }}{{ <ui.button/> }}{% endfor %}"
        site = {f"page{number}.html": source for number in range(100)}
        for name, call, what in (
            ("json", tera_parser.parse, source),
            ("tree", tera_parser.tree_text, source),
            ("format", tera_parser.format, source),
            ("mend", tera_parser.mend, source + "{{ a b }}"),
            ("check", tera_parser.check, site),
            ("components", tera_parser.components, {**site, "ui.html": UI}),
        ):
            made = getattr(tera_parser._library, f"tera_c_{name}")
            with mock.patch.object(tera_parser._library, f"tera_c_{name}", wraps=made) as counted:
                call(what)
            self.assertEqual((name, counted.call_count), (name, 1))

    def test_other_markers_and_limits(self):
        markers = Markers("[%", "%]", "[[", "]]", "[#", "#]")
        self.assertEqual(tera_parser.parse("[[ a ]]", markers=markers), tera_parser.parse("{{ a }}"))
        with self.assertRaises(Fault):
            tera_parser.parse("{{ ((((a)))) }}", limits=Limits(depth=2))

    def test_a_long_chain(self):
        source = "{% if a %}x" + "{% elif a %}y" * 10000 + '{% else %}"z\\{% endif %}'
        tree = tera_parser.parse(source)
        self.assertEqual([len(it["branches"]) for it in tera_parser.walk(tree) if it["kind"] == "If"], [10001])
        self.assertEqual(tree["nodes"][0]["false_body"], [{"kind": "Content", "text": '"z\\'}])
        self.assertEqual(json.loads(json.dumps(tree)), tree)

    def test_a_deep_tree(self):
        """It is deeper than what Python's reader of JSON accepts."""
        source = "{% if a %}" * 99 + "{{ a" + ".b" * 4000 + " }}" + "{% endif %}" * 99
        tree = tera_parser.parse(source, limits=Limits(links=4096, bodies=100))
        kinds = [it["kind"] for it in tera_parser.walk(tree)]
        self.assertEqual((kinds.count("If"), kinds.count("GetAttr")), (99, 4000))

    def test_the_reader_of_deep_trees_reads_as_the_other(self):
        source = "{% set a = {'k': [1, true, none, '\\n\"{[,:é'], 'm': {}} %}{{ <ui.b x='y' {...c}/> }}{{ a[1] }}"
        tree = tera_parser.parse(source)
        text = json.dumps(tree, ensure_ascii=False, separators=(",", ":"))
        self.assertEqual(tera_parser._deep_value(text), tree)


class Faults(unittest.TestCase):
    def test_where_and_why(self):
        with self.assertRaises(Fault) as raised:
            tera_parser.parse(TWICE)
        fault = raised.exception
        self.assertEqual(fault.message, "Template already contains a component named `a`")
        self.assertEqual((fault.span.start_line, fault.span.start_col), (2, 13))
        self.assertEqual(str(fault), f"2:14: {fault.message}")
        self.assertEqual([it.label for it in fault.notes], ["first defined here"])
        self.assertEqual(fault.notes[0].span.of(TWICE), "a")
        if sys.version_info >= (3, 11):
            self.assertIn("1:14: first defined here", "".join(traceback.format_exception(fault)))

    def test_asked_for(self):
        self.assertIsNone(tera_parser.fault("{{ a }}"))
        self.assertEqual(tera_parser.fault("{{ a b }}").span.start_col, 5)
        self.assertRaises(Fault, tera_parser.tree_text, "{{ a b }}")
        self.assertRaises(ValueError, tera_parser.parse, "{{ a b }}")

    def test_a_fault_is_kept_by_pickle(self):
        fault = tera_parser.fault(TWICE)
        again = pickle.loads(pickle.dumps(fault))
        self.assertEqual((str(again), again.span, again.notes), (str(fault), fault.span, fault.notes))
        self.assertEqual(getattr(again, "__notes__", []), getattr(fault, "__notes__", []))

    def test_what_cannot_be_read(self):
        with self.assertRaises(UnicodeDecodeError) as raised:
            tera_parser.parse(b"ab\xff")
        self.assertEqual(raised.exception.start, 2)
        self.assertRaises(UnicodeEncodeError, tera_parser.parse, "\ud800")
        for call in (tera_parser.parse, tera_parser.tree_text, tera_parser.fault):
            self.assertRaises(UnicodeError, call, b"\xff")
            self.assertRaises(TypeError, call, 5)
            self.assertRaises(TypeError, call, None)
            for limits in (Limits(depth=0), Limits(depth=-1), Limits(depth=101), Limits(bodies=2**64)):
                self.assertRaises(ValueError, call, "a", limits=limits)
            for markers in (Markers("{{"), Markers("{", "%%}"), Markers("{%%}"), Markers("\0\0\0")):
                self.assertRaises(ValueError, call, "a", markers=markers)


UI = "{% component ui.button(label: string, size = 1) %}{{ label }}{{ size }}{% endcomponent %}"


class Work(unittest.TestCase):
    def test_layouts(self):
        self.assertEqual(tera_parser.format("{{user.name|upper}}"), "{{ user.name | upper }}")
        self.assertEqual(tera_parser.format(" é{%-if a%}{%endif%}"), " é{%- if a %}{% endif %}")
        self.assertEqual(tera_parser.format(""), "")
        markers = Markers("<%", "%>", "[[", "]]", "[#", "#]")
        self.assertEqual(tera_parser.format("[[a]]{{b}}", markers=markers), "[[ a ]]{{b}}")
        self.assertRaises(Fault, tera_parser.format, "{{ 'a }}")
        self.assertRaises(Fault, tera_parser.format, "{{ a")
        self.assertEqual(tera_parser.format("{{ a b }}"), "{{ a b }}")
        self.assertRaises(ValueError, tera_parser.format, "a", markers=Markers("aa", "bb"))

    def test_findings(self):
        self.assertEqual(tera_parser.check({"page.html": "{{ <ui.button label='a'/> }}"}, {"ui.html": UI}), [])
        found = tera_parser.check({"page.html": "{{ <ui.button/> }}", "wrong.html": b"{{ a b }}"}, {"ui.html": UI})
        self.assertEqual([(it.file, it.line, it.severity) for it in found],
                         [("page.html", 1, "error"), ("wrong.html", 1, "error")])
        self.assertEqual([it.kind for it in found], ["missing-argument", "fault"])
        self.assertEqual((found[1].column, found[1].end_line, found[1].end_column), (6, 1, 7))
        self.assertEqual(found[0].notes[0].file, "ui.html")
        self.assertTrue(str(found[1]).startswith("wrong.html:1:6: error: "), found[1])
        self.assertEqual([it.file for it in tera_parser.check({}, {"ui.html": "{{ a b }}"})], ["ui.html"])
        self.assertEqual(tera_parser.check({}), [])
        wrong = {"wrong.html": "{{ a b }}{{ c d }}{{ <ui.button/> }}"}
        kinds = [it.kind for it in tera_parser.check(wrong, {"ui.html": UI})]
        self.assertEqual(kinds, ["fault", "fault", "missing-argument"])
        self.assertEqual([it.kind for it in tera_parser.check(wrong, {"ui.html": UI}, max_faults=0)], ["fault"])
        self.assertRaises(ValueError, tera_parser.check, wrong, max_faults=-1)

    def test_components(self):
        self.assertEqual([it["name"] for it in tera_parser.components({"ui.html": UI})], ["ui.button"])
        self.assertEqual(tera_parser.components({}), [])

    def test_what_is_right_beside_faults(self):
        source = "{{ a b }}{{ c }}{% endif %}"
        tree, faults, more = tera_parser.mend(source, name="page.html")
        self.assertEqual([it["name"] for it in tera_parser.walk(tree) if it["kind"] == "Var"], ["c"])
        self.assertEqual([(it.file, it.line, it.column, it.kind) for it in faults],
                         [("page.html", 1, 6, "fault"), ("page.html", 1, 20, "fault")])
        self.assertFalse(more)
        self.assertTrue(tera_parser.mend(source, max_faults=1).more)
        self.assertEqual(tera_parser.mend(source, max_faults=0)[::2], (None, True))
        self.assertEqual(tera_parser.mend("{{ c }}"), (tera_parser.parse("{{ c }}"), [], False))
        self.assertRaises(ValueError, tera_parser.mend, source, max_faults=-1)
        self.assertRaises(UnicodeDecodeError, tera_parser.mend, b"\xff")

    def test_files_that_cannot_be_read(self):
        for call in (tera_parser.check, tera_parser.components):
            self.assertRaises(UnicodeDecodeError, call, {"a.html": b"\xff"})
            self.assertRaises(UnicodeEncodeError, call, {"\udcff.html": "a"})
            self.assertRaises(TypeError, call, {"a.html": None})


class Threads(unittest.TestCase):
    def test_calls_in_threads(self):
        texts = []

        def work():
            texts.extend(tera_parser.tree_text("{{ a | b }}") for _ in range(200))

        threads = [threading.Thread(target=work) for _ in range(8)]
        for it in threads:
            it.start()
        for it in threads:
            it.join()
        self.assertEqual((len(texts), set(texts)), (1600, {tera_parser.tree_text("{{ a | b }}")}))


def load_tests(loader, tests, pattern):
    tests.addTests(doctest.DocTestSuite(tera_parser))
    return tests


if __name__ == "__main__":
    unittest.main()

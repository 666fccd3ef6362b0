"""Edits in a site of many templates: what `tera server` needs from each of them to what is found.

The site has pages that extend layouts, include parts of pages and call components, in folders below the `root` of a
`tera.toml`, which also has lists of filters, tests and functions. Nothing is found in it. Half of the pages have under
550 bytes, nineteen of twenty under 4,400. Three documents are opened: a page of 4 KB, a file that defines components,
and a layout. Each edit touches at most one name, and is made and undone in turn.

`rows(program, options)` measures: first what is published for each edit, then the time, then the time of the processor,
and if that is wanted the instructions, each with a server of its own.
"""
import dataclasses
import itertools
import os
import pathlib
import random
import statistics
import subprocess
import tempfile
import time
from concurrent.futures import ThreadPoolExecutor

from doublings import adding, instructions, opening, publishes, talk

PAGE, COMPONENTS, LAYOUT = "pages/edited.html", "ui/edited.html", "layouts/edited.html"
# A document apart from the site: what is found in it comes after all that is found for an edit before.
MARK = "untitled:mark"
# How many edits of a kind are counted.
COUNTED = 20
WORDS = ("lorem ipsum dolor sit amet consectetur adipiscing elit sed do eiusmod tempor incididunt ut labore et "
         "dolore magna aliqua ut enim ad minim veniam quis nostrud exercitation ullamco laboris nisi").split()
SETTINGS = """root = "templates"

[known]
filters = ["safe", "upper", "lower", "title", "trim", "date", "default", "length", "first", "last", "join", "slugify"]
tests = ["defined", "undefined", "odd", "even", "string", "number"]
functions = ["get_url", "get_page", "range", "now", "super"]
"""


@dataclasses.dataclass(frozen=True)
class Edit:
    """In a file, which has it once, the first text becomes the second, or the other way round."""

    what: str
    file: str
    first: str
    second: str


@dataclasses.dataclass
class Site:
    """A site that is written, and the texts of those of its files that are edited."""

    folder: pathlib.Path
    texts: dict
    many: int

    def uri(self, file):
        return (self.folder / "templates" / file).as_uri()


def edits(many):
    """The edits, where so many documents call the component that most call."""
    heads = [("one", "one document calls"), ("some", "20 documents call"), ("many", f"{many} documents call")]
    yield Edit("a letter of a text", PAGE, "<h1>", "<h1>z")
    yield Edit("a call comes or goes", PAGE, "<hr>", '<hr>{{ <ui.own label="y"/> }}')
    yield Edit("the name in a call, which nothing defines then", PAGE, "<ui.own ", "<ui.out ")
    yield Edit("the name of an argument, which is unknown then", PAGE, " size={3}", " sizes={3}")
    yield Edit("the body of a component that 20 documents call", COMPONENTS, "<i>some", "<i>z")
    yield Edit("a component comes or goes before four others", COMPONENTS, "{% component ui.own(",
               "{% component ui.new() %}x{% endcomponent %}{% component ui.own(")
    yield Edit("the head of a component, which has a fault then", COMPONENTS, "ui.one(label: string, size = 3) %}",
               "ui.one(label: string, size = 3 %}")
    for name, which in heads:
        yield Edit(f"a default in the head of a component that {which}", COMPONENTS, f"ui.{name}(label: string, size = 3",
                   f"ui.{name}(label: string, size = 4")
    for name, which in heads:
        yield Edit(f"the name of a component that {which}", COMPONENTS, f"component ui.{name}(", f"component ui.{name}s(")
    yield Edit("an include comes or goes", PAGE, "<hr>", '<hr>{% include "parts/p0.html" %}')
    yield Edit("the name in an include, which no template has then", PAGE, '"parts/edited.html"', '"parts/gone.html"')
    yield Edit("the name in an extends, which is another layout then", PAGE, '"layouts/l1.html"', '"layouts/l2.html"')
    yield Edit("the name in an extends, which no template has then", PAGE, '"layouts/l1.html"', '"layouts/l1s.html"')
    yield Edit("the name of a block, which the parent does not have then", PAGE, "block content", "block contents")
    yield Edit("a block comes or goes in a layout that 20 documents extend", LAYOUT, "</p>", "</p>{% block own %}{% endblock %}")
    yield Edit("the name of a block of a layout that 20 documents extend", LAYOUT, "block extra", "block extras")


def line(chosen, calls, parts):
    """A line of a page, which may call one of the components or include one of so many parts."""
    words = " ".join(chosen.choices(WORDS, k=chosen.randrange(4, 16)))
    number = chosen.randrange(calls)
    included = [f'{{% include "parts/p{chosen.randrange(parts)}.html" %}}'] if parts else []
    return chosen.choice([
        f"<p>{words}</p>",
        f"<p>{words}</p>",
        f"<h2>{{{{ page.title | upper }}}} {words}</h2>",
        '{% if page.draft and not page.hidden %}<b>{{ page.date | date(format="%d %m") }}</b>{% endif %}',
        '{% for tag in page.tags %}<a href="{{ get_url(path=tag.url) | safe }}">{{ tag.name }}</a>{% endfor %}',
        f'{{{{ <ui.c{number} label="{words[:12]}" size={{{number}}}/> }}}}',
        f"{{% <ui.box{number // 3} title={{page.title}}> %}}<p>{words}</p>{{% </ui.box{number // 3}> %}}",
        *included]) + "\n"


def lines(chosen, size, calls, parts):
    """Lines of about so many bytes."""
    made = ""
    while len(made) < size:
        made += line(chosen, calls, parts)
    return made


def page(layout, blocks, content):
    inside = "".join(f"{{% block {block} %}}{{{{ page.{block} }}}}{{% endblock %}}\n" for block in blocks)
    return f'{{% extends "layouts/{layout}.html" %}}\n{inside}{{% block content %}}\n{content}{{% endblock %}}\n'


def component(name, body, head="label: string, size = 3"):
    return f"{{% component ui.{name}({head}) %}}{body}{{% endcomponent %}}\n"


def components(file):
    """A file of components: three, of which one calls another, and one with a body."""
    shown = "<b class=\"s{{ size }}\">{{ label }}</b>"
    called = f"{{{{ <ui.c{3 * file} label={{title}}/> }}}}"
    return ("".join(component(f"c{3 * file + at}", shown) for at in range(3))
            + component(f"box{file}", f"<div>{called}{{{{ body }}}}</div>", "title: string"))


def layouts():
    """The layouts by their names: one, and others that extend it."""
    whole = "<title>{% block title %}{% endblock %}</title>{% block content %}{% endblock %}{% block aside %}{% endblock %}\n"
    aside = '{% extends "layouts/base.html" %}\n{% block aside %}<p>{{ super() }}</p>{% endblock %}\n'
    extra = '{% extends "layouts/base.html" %}\n{% block aside %}<p>{% block extra %}{% endblock %}</p>{% endblock %}\n'
    return {"base": whole, "edited": extra} | {f"l{number}": aside for number in range(8)}


def files_of(templates):
    """The texts of so many templates by their files, and how many of them call the component that most call."""
    chosen, texts = random.Random(7), {}
    files, parts = templates // 20, templates // 5
    texts |= {f"layouts/{name}.html": text for name, text in layouts().items()}
    texts |= {f"ui/part{file}.html": components(file) for file in range(files)}
    texts |= {f"parts/p{at}.html": lines(chosen, 120, 3 * files, 0) for at in range(parts)}
    shown = "<i>{} {{{{ label }}}} {{{{ size }}}}</i>"
    texts[COMPONENTS] = "".join(component(name, shown.format(name)) for name in ("own", "one", "some", "many"))
    texts["parts/edited.html"] = "<p>edited</p>\n"
    texts[PAGE] = page("l1", ["title"], '<h1>a page</h1>\n<hr>\n{{ <ui.own label="x" size={3}/> }}\n'
                       '{% include "parts/edited.html" %}\n' + lines(chosen, 3900, 3 * files, parts))
    many = templates // 10
    for at in range(templates - len(texts)):
        called = [name for name, most in (("one", 1), ("some", 20), ("many", many)) if at < most]
        content = "".join(f'{{{{ <ui.{name} label="x"/> }}}}\n' for name in called)
        size = min(chosen.lognormvariate(6.3, 1.26), 20000) - 150
        layout, blocks = ("edited", ["title", "extra"]) if 20 <= at < 40 else (f"l{at % 8}", ["title"])
        texts[f"pages/s{at % 30}/page{at}.html"] = page(layout, blocks, content + lines(chosen, size, 3 * files, parts))
    return texts, many


def written(folder, templates):
    """The site of so many templates, in the folder."""
    texts, many = files_of(templates)
    (folder / "tera.toml").write_text(SETTINGS)
    for file, text in texts.items():
        path = folder / "templates" / file
        path.parent.mkdir(parents=True, exist_ok=True)
        path.write_text(text)
    return Site(folder, {file: texts[file] for file in (PAGE, COMPONENTS, LAYOUT)}, many)


def changed(uri, version, change):
    document = {"uri": uri, "version": version}
    return {"method": "textDocument/didChange", "params": {"textDocument": document, "contentChanges": [change]}}


def turns(site, edit, versions):
    """The messages that make the edit and undo it, in turn."""
    text, now, then = site.texts[edit.file], edit.first, edit.second
    assert text.count(edit.first) == 1 and edit.second not in text, edit
    at = text.index(edit.first)
    number, start = text.count("\n", 0, at), at - (text.rfind("\n", 0, at) + 1)
    while True:
        place = {"start": {"line": number, "character": start}, "end": {"line": number, "character": start + len(now)}}
        yield changed(site.uri(edit.file), next(versions), {"range": place, "text": then})
        now, then = then, now


def is_published(message):
    return message.get("method", "").endswith("publishDiagnostics")


def last_of(count):
    """Holds of the last of so many messages that publish."""
    left = itertools.count(1)
    return lambda message: is_published(message) and next(left) == count


def up_to(uri, kept):
    """Holds of the next message that publishes the document. What is published up to it is kept."""

    def is_it(message):
        if is_published(message):
            kept.append(message["params"])
        return publishes(uri)(message)

    return is_it


def marking(versions, kept):
    return changed(MARK, next(versions), {"text": "b"}), up_to(MARK, kept)


def opened(site, versions, found):
    """The site is read, and the documents are opened that are edited. All that is published is added to `found`."""
    yield adding(site.folder), None
    yield opening(MARK, "a"), up_to(MARK, found)
    for file, text in site.texts.items():
        yield opening(site.uri(file), text), up_to(site.uri(file), found)
    yield marking(versions, found)


def served(program, steps, clock=None):
    """What passes of a clock in each step; without one the time does. The processor's is one of a process."""
    with subprocess.Popen([program, "server"], stdin=subprocess.PIPE, stdout=subprocess.PIPE) as process:
        return talk(process, steps, clock(process) if clock else time.perf_counter)


def processor(process):
    """A clock: how many seconds the process had a processor, once it is at rest."""

    def now():
        time.sleep(0.002)
        return int(pathlib.Path(f"/proc/{process.pid}/schedstat").read_text().split()[0]) / 1e9

    return now


def published(program, site, kinds):
    """How many documents are published when each edit is made, and when it is undone."""
    versions, found, came = itertools.count(2), [], []
    steps = list(opened(site, versions, found))
    for edit in kinds:
        for message, _ in zip(turns(site, edit, versions), range(2)):
            came.append([])
            steps += [(message, up_to(site.uri(edit.file), came[-1])), marking(versions, came[-1])]
    served(program, steps)
    if wrong := [it for it in found if it["diagnostics"]]:
        raise SystemExit(f"something is found in the site: {wrong[0]}")
    return [(len(made) - 1, len(undone) - 1) for made, undone in zip(came[::2], came[1::2])]


def toggles(site, edit, counts, times, versions):
    """The steps that make an edit and undo it, so many in all, where so many documents are published for each."""
    return [(message, last_of(counts[at % 2]))
            for at, message in zip(range(times), turns(site, edit, versions))]


def timed(program, site, kinds, counts, times, clock=None):
    """The seconds of each turn of each edit; before them those of as many requests that the server does not know."""
    versions = itertools.count(2)
    steps = list(opened(site, versions, []))
    before = len(steps)
    steps += [({"id": 3 + at, "method": "nothing"}, lambda it, at=at: it.get("id") == 3 + at) for at in range(times)]
    for edit, count in zip(kinds, counts):
        steps += toggles(site, edit, count, times, versions)
    taken = served(program, steps, clock)[before:]
    return [taken[at:at + times] for at in range(0, len(taken), times)]


def counted(program, site, kinds, counts):
    """The instructions of one turn of each edit, on average."""

    def of(steps):
        versions = itertools.count(2)
        start = list(opened(site, versions, []))
        return instructions(program, ["server"], start + steps(versions))

    jobs = [lambda _: []] + [lambda versions, edit=edit, count=count: toggles(site, edit, count, COUNTED, versions)
                             for edit, count in zip(kinds, counts)]
    with ThreadPoolExecutor(os.cpu_count()) as pool:
        base, *all_of = pool.map(of, jobs)
    return [(whole - base) // COUNTED for whole in all_of]


def milliseconds(seconds):
    return f"{statistics.median(seconds) * 1000:.2f} | {max(seconds) * 1000:.2f}"


def rows(program, options):
    """The table, line by line."""
    times = options.times + options.times % 2
    with tempfile.TemporaryDirectory() as made:
        site = written(pathlib.Path(made).resolve(), options.templates)
        kinds = list(edits(site.many))
        counts = published(program, site, kinds)
        whole = timed(program, site, kinds, counts, times)
        alone = timed(program, site, kinds, counts, times, processor)
        numbers = counted(program, site, kinds, counts) if options.count else [None] * len(kinds)
    yield "| Edit | Documents | Median | Worst | Median of the processor | Worst | Instructions |\n|---|---|---|---|---|---|---|"
    names = [("none: a request that is not known", 0)] + [(edit.what, max(count)) for edit, count in zip(kinds, counts)]
    for (what, most), seconds, own, number in zip(names, whole, alone, [None, *numbers]):
        yield (f"| {what} | {most or ''} | {milliseconds(seconds)} | {milliseconds(own)} "
               f"| {'' if number is None else format(number, ',')} |")

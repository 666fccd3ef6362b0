"""What `tera` does with inputs that double: one long line, many faults, many documents, many paths in the settings.

`doublings(program, [])` counts, under valgrind's callgrind, the instructions of each job of JOBS at its sizes, and gives
the jobs of which a doubling of the input takes more than MOST times the instructions. A job goes no further than that.
"""
import json
import os
import pathlib
import re
import subprocess
import tempfile
import time
from concurrent.futures import ThreadPoolExecutor

MOST = 2.6
SIZES = [1000 * 2 ** n for n in range(7)]
FAULTS = [250 * 2 ** n for n in range(6)]
DOCUMENTS = [50 * 2 ** n for n in range(6)]
URI = "file:///t/page.html"


def findings(n):
    """Calls of a component that no template defines, in one line."""
    return "{{ <ui.no/> }}" * n


def edits(n):
    """Tags that the layout changes, in one line."""
    return "{{a}}" * n


def blocks(n):
    return "".join(f"{{% block b{at} %}}{{% endblock %}}" for at in range(n))


def references(n):
    """A component, and calls of it, in one line."""
    return "{% component ui.box() %}x{% endcomponent %}" + "{{ <ui.box/> }}" * n


def broken_tags(n):
    """Tags with a fault each, one in a line."""
    return "{{ a b }}\n" * n


def open_tags(n):
    """Tags without an end, one in a line."""
    return "{{ a\n" * n


def open_heads(n):
    """Heads without an end tag, one in a line."""
    return "{% if a %}\n" * n


def stray_ends(n):
    """End tags that close nothing, one in a line."""
    return "{% endif %}\n" * n


def open_strings(n):
    """Tags without an end, each with a string without an end, one in a line."""
    return '{{ "\n' * n


def open_comments(n):
    """Comments without an end, one in a line."""
    return "{# a\n" * n


def misspelt_heads(n):
    """Heads of an unknown word, one in a line."""
    return "{% iff a %}\n" * n


def crossed_heads(n):
    """Heads that an end of others crosses, two in a line."""
    return "{% for a in b %}{% if a %}{% endfor %}\n" * n


def tag_starts(n):
    """Nothing but starts of tags, in one line."""
    return "{%" * n


def arguments(n):
    """A component that takes any argument, and a call with so many, in one line."""
    passed = " ".join(f'b{at}="x"' for at in range(n))
    return f'{{% component ui.box(a, ...rest) %}}{{{{ a }}}}{{{{ rest }}}}{{% endcomponent %}}{{{{ <ui.box {passed} a="x"/> }}}}'


def parameters(n):
    """A component with so many parameters, and a call with the last of them, in one line."""
    head = ", ".join(f'_p{at} = "x"' for at in range(n))
    return f'{{% component ui.box({head}) %}}x{{% endcomponent %}}{{{{ <ui.box _p{n - 1}="x"/> }}}}'


def unknown_filters(n):
    """Filters that the program does not have, each of another name, in one line."""
    return "".join(f"{{{{ a | f{at} }}}}" for at in range(n))


def frame(message):
    body = json.dumps({"jsonrpc": "2.0"} | message).encode()
    return b"Content-Length: %d\r\n\r\n" % len(body) + body


def opening(uri, text):
    document = {"uri": uri, "version": 1, "languageId": "tera", "text": text}
    return {"method": "textDocument/didOpen", "params": {"textDocument": document}}


def asking(method, **params):
    return {"id": 1, "method": "textDocument/" + method, "params": {"textDocument": {"uri": URI}} | params}


def asking_in_the_last_value(method):
    """Of a text that ends in a call without a body: the request in the value of its last argument."""
    return lambda text: asking(method, position={"line": 0, "character": text.rindex('"')})


def adding(folder):
    event = {"added": [{"uri": folder.as_uri(), "name": "f"}], "removed": []}
    return {"method": "workspace/didChangeWorkspaceFolders", "params": {"event": event}}


def changing(file):
    changes = [{"uri": file.as_uri(), "type": 2}]
    return {"method": "workspace/didChangeWatchedFiles", "params": {"changes": changes}}


def is_answer(message):
    """Whether it has the result that was asked for, which has to have something in it."""
    if message.get("id") == 1 and not message.get("result"):
        raise SystemExit(f"no result: {str(message)[:200]}")
    return message.get("id") == 1


def publishes(uri):
    return lambda message: message.get("method", "").endswith("publishDiagnostics") and message["params"]["uri"] == uri


def finds_in(uri):
    """The same, where something has to be found."""

    def is_it(message):
        if publishes(uri)(message) and not message["params"]["diagnostics"]:
            raise SystemExit(f"nothing is found: {str(message)[:200]}")
        return publishes(uri)(message)

    return is_it


def talk(process, steps, clock=time.perf_counter):
    """Sends each message to a server, and waits until one comes of which the test beside it holds: how much passes of the
    clock from each message of the steps until then.
    """

    def read():
        length = 0
        while line := process.stdout.readline().strip():
            if line.lower().startswith(b"content-length:"):
                length = int(line.split(b":")[1])
        return json.loads(process.stdout.read(length)) if length else None

    utf_8 = {"general": {"positionEncodings": ["utf-8"]}}
    start = [({"id": 0, "method": "initialize", "params": {"capabilities": utf_8}}, lambda it: it.get("id") == 0),
             ({"method": "initialized", "params": {}}, None)]
    end = [({"id": 2, "method": "shutdown"}, lambda it: it.get("id") == 2), ({"method": "exit"}, None)]
    taken = []
    for message, is_awaited in start + steps + end:
        framed, began = frame(message), clock()
        process.stdin.write(framed)
        process.stdin.flush()
        is_here = not is_awaited
        while not is_here:
            found = read()
            if found is None:
                raise SystemExit(f"the server ended after {framed[:200]}")
            is_here = is_awaited(found)
        taken.append(clock() - began)
    process.stdin.close()
    process.stdout.read()
    return taken[len(start):len(start) + len(steps)]


def instructions(program, words, steps=None):
    """How many instructions the program takes, with these words of a command line, or in a talk with a client."""
    with tempfile.NamedTemporaryFile("r") as log:
        valgrind = ["valgrind", "--tool=callgrind", "--callgrind-out-file=/dev/null", f"--log-file={log.name}"]
        output = subprocess.PIPE if steps else subprocess.DEVNULL
        with subprocess.Popen([*valgrind, program, *words], stdin=subprocess.PIPE, stdout=output,
                              stderr=subprocess.DEVNULL) as process:
            if steps:
                talk(process, steps)
        said = log.read()
    found = re.search(r"Collected : (\d+)", said)
    if process.returncode not in (0, 1) or not found:
        raise SystemExit(f"{' '.join(map(str, words))}: not counted, status {process.returncode}: {said[-300:]}")
    return int(found.group(1))


def of_file(*words, text, settings=None):
    """A job of `tera` over a file, by these settings, if there are any."""

    def run(program, n):
        with tempfile.TemporaryDirectory() as made:
            file = pathlib.Path(made) / "page.html"
            file.write_text(text(n))
            if settings:
                (file.parent / "tera.toml").write_text(settings)
            return instructions(program, [*words, file])

    return run


def of_server(text, *after):
    """A job of `tera server`: one document is opened, and something is asked, which may depend on its text."""

    def run(program, n):
        source = text(n)
        asked = (message(source) if callable(message) else message for message in after)
        steps = [(opening(URI, source), publishes(URI)), *((message, is_answer) for message in asked)]
        return instructions(program, ["server"], steps)

    return run


def of_server_by(settings, text):
    """A job of `tera server`: a folder with these settings is opened, and then a document in it."""

    def run(program, n):
        with tempfile.TemporaryDirectory() as made:
            folder = pathlib.Path(made).resolve()
            (folder / "tera.toml").write_text(settings)
            uri = (folder / "page.html").as_uri()
            return instructions(program, ["server"], [(adding(folder), None), (opening(uri, text(n)), finds_in(uri))])

    return run


def write_left_out(folder, n):
    """Writes so many files that the settings leave out, one by one, and as many that they do not."""
    for at in range(n):
        (folder / f"out{at}.html").write_text("{{ a }}\n")
        (folder / f"in{at}.html").write_text("{{ a }}\n")
    (folder / "tera.toml").write_text(f"exclude = {json.dumps([f'out{at}.html' for at in range(n)])}\n")


def of_left_out(program, n):
    """`tera check` over that folder."""
    with tempfile.TemporaryDirectory() as made:
        folder = pathlib.Path(made).resolve()
        write_left_out(folder, n)
        return instructions(program, ["check", "--output-format=concise", folder])


def of_server_left_out(program, n):
    """The folder is opened, and its settings change."""
    with tempfile.TemporaryDirectory() as made:
        folder = pathlib.Path(made).resolve()
        write_left_out(folder, n)
        other = URI + ".other"
        steps = [(adding(folder), None), (opening(URI, "a"), publishes(URI)), (changing(folder / "tera.toml"), None),
                 (opening(other, "a"), publishes(other))]
        return instructions(program, ["server"], steps)


def of_parts(program, n):
    """The tags of a document on one line get blanks, the last first, in one change."""
    text = edits(n)
    parts = []
    for tag in reversed(range(n)):
        for at in (tag * 5 + 3, tag * 5 + 2):
            place = {"line": 0, "character": at}
            parts.append({"range": {"start": place, "end": place}, "text": " "})
    document = {"textDocument": {"uri": URI, "version": 2}, "contentChanges": parts}
    steps = [(opening(URI, text), publishes(URI)), ({"method": "textDocument/didChange", "params": document}, None),
             (asking("semanticTokens/full"), is_answer)]
    return instructions(program, ["server"], steps)


def of_folder(program, n):
    """A folder is opened whose files define a component each, and call another one."""
    with tempfile.TemporaryDirectory() as made:
        folder = pathlib.Path(made).resolve()
        for at in range(n):
            (folder / f"f{at}.html").write_text(
                f"{{% component c{at}(a) %}}{{{{ a }}}}{{% endcomponent %}}\n{{{{ <c{(at * 7 + 3) % n} a={{1}}/> }}}}\n")
        steps = [(adding(folder), None), (opening(URI, "a"), publishes(URI))]
        return instructions(program, ["server"], steps)


def of_documents(program, n):
    """Documents that call a component that none of them defines are opened one by one."""
    uris = [f"file:///t/d{at}.html" for at in range(n)]
    steps = [(opening(uri, "<p>{{ <ui.no/> }}</p>\n"), publishes(uri)) for uri in uris]
    return instructions(program, ["server"], steps)


OPTIONS = {"tabSize": 2, "insertSpaces": True}
START = {"line": 0, "character": 15}
DECLARED = {"includeDeclaration": True}
KNOWN = '[known]\nfilters = ["upper", "lower", "title", "safe", "date"]\n'
JOBS = {
    "check, full": (of_file("check", "--color=never", text=findings), SIZES),
    "check, concise": (of_file("check", "--output-format=concise", text=findings), SIZES),
    "check, json": (of_file("check", "--output-format=json", text=findings), SIZES),
    "check, github": (of_file("check", "--output-format=github", text=findings), SIZES),
    "check, sarif": (of_file("check", "--output-format=sarif", text=findings), SIZES),
    "check, broken tags": (of_file("check", "--output-format=concise", text=broken_tags), FAULTS),
    "check, open tags": (of_file("check", "--output-format=concise", text=open_tags), FAULTS),
    "check, open heads": (of_file("check", "--output-format=concise", text=open_heads), FAULTS),
    "check, stray ends": (of_file("check", "--output-format=concise", text=stray_ends), FAULTS),
    "check, unknown filters": (of_file("check", "--output-format=concise", text=unknown_filters, settings=KNOWN), SIZES),
    "check, left out": (of_left_out, FAULTS),
    "tree, broken tags": (of_file("tree", "--faulty", "--json", text=broken_tags), FAULTS),
    "tree, open strings": (of_file("tree", "--faulty", "--json", text=open_strings), FAULTS),
    "tree, open comments": (of_file("tree", "--faulty", "--json", text=open_comments), FAULTS),
    "tree, misspelt heads": (of_file("tree", "--faulty", "--json", text=misspelt_heads), FAULTS),
    "tree, crossed heads": (of_file("tree", "--faulty", "--json", text=crossed_heads), FAULTS),
    "tree, tag starts": (of_file("tree", "--faulty", "--json", text=tag_starts), FAULTS),
    "format": (of_file("format", text=edits), SIZES),
    "format, differences": (of_file("format", "--diff", text=edits), SIZES),
    "tree": (of_file("tree", text=references), SIZES),
    "server, findings": (of_server(findings), SIZES),
    "server, layout": (of_server(edits, asking("formatting", options=OPTIONS)), SIZES),
    "server, outline": (of_server(blocks, asking("documentSymbol")), SIZES),
    "server, parts of one change": (of_parts, SIZES),
    "server, references": (of_server(references, asking("references", position=START, context=DECLARED)), SIZES),
    "server, coloured tokens": (of_server(references, asking("semanticTokens/full")), SIZES),
    "server, signature of arguments": (of_server(arguments, asking_in_the_last_value("signatureHelp")), SIZES),
    "server, signature of parameters": (of_server(parameters, asking_in_the_last_value("signatureHelp")), SIZES),
    "server, unknown filters": (of_server_by(KNOWN, unknown_filters), SIZES),
    "server, left out": (of_server_left_out, FAULTS),
    "server, folder": (of_folder, FAULTS),
    "server, documents": (of_documents, DOCUMENTS),
}


def is_dearer(program, job):
    """Whether a doubling of the job takes more than it may. What each size takes is printed."""
    run, sizes = JOBS[job]
    before = None
    for n in sizes:
        now = run(program, n)
        ratio = f", {now / before:.2f} times" if before else ""
        print(f"{job}, {n}: {now}{ratio}\n", end="", flush=True)
        if before and now > before * MOST:
            return True
        before = now
    return False


def doublings(program, wanted):
    """The jobs, of those that are wanted or of all, of which a doubling takes more than it may. As many jobs are counted
    at once as there are processors.
    """
    jobs = wanted or list(JOBS)
    with ThreadPoolExecutor(os.cpu_count()) as pool:
        found = pool.map(lambda job: is_dearer(program, job), jobs)
        return [job for job, dearer in zip(jobs, found) if dearer]

"""Writes the inputs of the benchmark into a folder: inputs.py FOLDER"""
import pathlib
import random
import sys

SIZE = 1 << 20
WORDS = ("lorem ipsum dolor sit amet consectetur adipiscing elit sed do eiusmod tempor incididunt ut labore et "
         "dolore magna aliqua ut enim ad minim veniam quis nostrud exercitation ullamco laboris nisi").split()
EXPRESSIONS = ["a + b * 2", 'user.name | default(value="x y") | upper', "f(x=1, y=[1,2,3])", "not a and b or c == 12",
               "{'k': v, \"w\": 12}", "items[0].price >= 100 // 3", "a if b else 'a string of some length'"]


def text(size):
    out, length = [], 0
    while length < size:
        word = random.choice(WORDS)
        out.append(word + ("\n" if random.random() < 0.07 else " "))
        length += len(word) + 1
    return "".join(out)


def filled(part):
    out, length = [], 0
    while length < SIZE:
        out.append(part())
        length += len(out[-1])
    return "".join(out)


def tagged():
    item = random.randrange(50)
    return (f'<li class="item">{text(60)}{{{{ item{item}.name | upper }}}}</li>\n'
            f"{{% if a == {item} %}}{text(90)}{{% endif %}}\n")


def post():
    number = random.randrange(1000)
    return (f'<article class="post" id="post-{number}">\n  <h2><a href="{{{{ get_url(path=post.path) }}}}">{{{{ post.title | title }}}}</a></h2>\n'
            f'  {{% if post.date %}}<time datetime="{{{{ post.date }}}}">{{{{ post.date | date(format="%d %B %Y") }}}}</time>{{% endif %}}\n'
            f'  <p>{text(random.choice([80, 200, 400]))}</p>\n  {{# the tags, each with a link #}}\n'
            f'  <ul>{{% for tag in post.tags %}}<li><a href="/tags/{{{{ tag | slugify }}}}/">{{{{ tag }}}}</a></li>{{% else %}}<li>{text(20)}</li>{{% endfor %}}</ul>\n'
            f'  {{% if post.words > 1000 and not post.draft %}}{{{{ post.words // 200 }}}} minutes{{% elif post.draft %}}{text(20)}{{% else %}}{text(40)}{{% endif %}}\n'
            f'</article>\n')


def section():
    number = random.randrange(1000)
    return (f'  <section id="part-{number}">\n    <h2>{{{{ part_{number}.title }}}}</h2>\n    <p>{text(random.choice([900, 1500, 2400]))}</p>\n'
            f'    {{% if part_{number}.image %}}<img src="{{{{ url(path=part_{number}.image) }}}}" alt="">{{% endif %}}\n'
            f'    <p>{text(random.choice([400, 1200, 3000]))}</p>\n  </section>\n')


def site():
    return ('{% extends "base.html" %}\n{% block title %}{{ page.title | title }}{% endblock title %}\n{% block content %}\n'
            + filled(section) + '{% include "comments.html" %}\n{% endblock content %}\n')


def tree(depth):
    """A component with a body, with components inside, down to one without a body."""
    number = random.randrange(40)
    if depth == 0:
        return f'<b>{{{{ <ui.icon name="i{number}" size={{{number}}} label={{item.label}}/> }}}}</b>'
    inner = "\n".join(tree(depth - 1) for _ in range(random.choice([1, 1, 1, 2, 2, 3])))
    return (f'{{% <ui.box{number} class="level-{depth}" gap={{{number}}} wide title={{page.title | upper}}> %}}\n{inner}\n'
            f'{{% </ui.box{number}> %}}')


def numbered(part):
    numbers = iter(range(SIZE))
    return filled(lambda: part(next(numbers)))


def piece(number):
    """A block, or the definition of a component with parameters and metadata."""
    if number % 2:
        return f'{{% block part_{number} %}}\n  {text(120)}{{{{ super() }}}}{text(60)}\n{{% endblock part_{number} %}}\n'
    return (f'{{% component card_{number}(title: string, size: integer = {number}, kind = "plain", @lang: string = "en", items: array = [1, 2], ...rest)'
            f' {{"description": "{text(40).strip()}", "since": {number}, "tags": ["a", "b"], "is_open": true}} %}}\n'
            f'  <div class="{{{{ kind }}}}">{{{{ title }}}}{text(30)}</div>\n{{% endcomponent card_{number} %}}\n')


def name():
    return random.choice("abcdefghijklmnopqrstuvwxyz_") + "".join(random.choice("abcdefghijklmnopqrstuvwxyz_0123456789") for _ in range(random.randrange(2, 20)))


def main():
    random.seed(7)
    folder = pathlib.Path(sys.argv[1])
    folder.mkdir(parents=True, exist_ok=True)
    inputs = {
        "text": text(SIZE),
        "tags": filled(tagged),
        "expressions": filled(lambda: "{{ " + random.choice(EXPRESSIONS) + " }}"),
        "braces": "{ {{ a }}" * (SIZE // 9),
        "comments": filled(lambda: "{# " + text(random.choice([10, 40, 200])) + " #}" + text(30)),
        "short": "{# a #}" * (SIZE // 7),
        "dashed": "a {#- x -#} " * (SIZE // 12),
        "raw": "{% raw %}" + (body := filled(lambda: "{% if x %} " + text(10) + "{% endif %} ")) + "{% endraw %}",
        "rawdashed": "a {%- raw %}" + body + "{% endraw %}",
        "rawshort": "a {%- raw -%} x {%- endraw -%} " * (SIZE // 32),
        "escapes": "{{ 'a' " + filled(lambda: "~ 'it\\'s a string with \\n escapes in it' ") + " }}",
        "string": "{{ '" + text(SIZE) + "' }}",
        "page": filled(post),
        "chain": "{% if a %}b" + "{% elif a %}b" * 62000 + "{% endif %}",
        "site": site(),
        "components": filled(lambda: tree(10) + "\n"),
        "child": '{% extends "base.html" %}\n' + numbered(piece),
        "names": "{{ [" + filled(lambda: "x" + name() + ", ") + "] }}",
        "arguments": "{{ f(" + numbered(lambda number: f"{name()}_{number}=a, ") + ") }}",
        "keys": "{{ {" + numbered(lambda number: f'"{name()}_{number}": a, ') + "} }}",
        "constants": "{{ {" + numbered(lambda number: f'"{name()}_{number}": {number}, ') + "} }}",
        "name": "{{ " + "a_long_name" * (SIZE // 11) + " }}",
        "blanks": "{{ a" + " " * SIZE + "}}",
    }
    for title, source in inputs.items():
        (folder / title).write_text(source)
    (folder / "order").write_text("\n".join(inputs) + "\n")


main()

"""Writes the policy of an answer of `sopl` as one HTML page that needs nothing else: the tree of decisions with how likely each case is, what
each decision comes to over all cases, and the objective.

python3 page.py PAGE NAME MODEL ANSWER TREE writes the file PAGE, where NAME is what the text is called, MODEL its file or empty, ANSWER has
the line of `sopl solve`, and TREE that of `sopl tree` to the same text; where that is empty no case is said to be likely or not."""

import html
import json
import os
import re
import sys
from fractions import Fraction

STYLE = """
:root { color-scheme: light dark; --line: #8886; --chip: #4a7bd022; --bar: #4a7bd0; }
body { font: 15px/1.5 system-ui, "DejaVu Sans", sans-serif; margin: 2em auto; max-width: 70em; padding: 0 1em; }
h1 { font-size: 1.4em; margin-bottom: 0; } h2 { font-size: 1.1em; margin-top: 1.6em; }
.value { font-size: 1.3em; } .faint { opacity: .7; }
ul { list-style: none; margin: 0; padding-left: 1.4em; border-left: 1px solid var(--line); }
.tree > ul { border: 0; padding-left: 0; }
li { margin: .15em 0; } summary { cursor: pointer; } .leaf { padding-left: 1.05em; }
.decided { background: var(--chip); border-radius: .3em; padding: .05em .4em; font-weight: 600; margin-right: .3em; box-decoration-break: clone; -webkit-box-decoration-break: clone; }
.bar { display: inline-block; width: 5em; height: .6em; border: 1px solid var(--line); margin: 0 .3em; }
.bar i { display: block; height: 100%; background: var(--bar); }
table { border-collapse: collapse; } td, th { border: 1px solid var(--line); padding: .15em .6em; text-align: right; }
td:first-child, th:first-child { text-align: left; } pre { overflow-x: auto; border: 1px solid var(--line); padding: .6em; }
"""

SCRIPT = """
const tree = document.querySelector('.tree');
const openTo = depth => tree.querySelectorAll('details').forEach(node => { node.open = node.dataset.depth < depth; });
document.querySelectorAll('[data-open]').forEach(button => { button.onclick = () => openTo(Number(button.dataset.open)); });
const show = (item, words, above) => {
  const own = item.querySelector('.node').textContent.includes(words);
  let below = false;
  item.querySelectorAll(':scope > details > ul > li').forEach(child => { below = show(child, words, above || own) || below; });
  item.hidden = !(above || own || below);
  if (below && words && !own) item.firstElementChild.open = true;
  return own || below;
};
document.querySelector('#words').oninput = event => tree.querySelectorAll(':scope > ul > li').forEach(item => show(item, event.target.value, false));
"""


def read_line(name):
    """The object of an answer's file, or None where the file is empty."""
    with open(name, encoding="utf-8") as file:
        text = file.read()
    return json.loads(text) if text.strip() else None


def phrase(entries):
    """Instances with their values in words, where indices that follow each other stand as a range: x[1..3] = 0, 4, 1."""
    runs = []
    for name, indices, value in entries:
        head = name + "".join("[%d]" % index for index in indices[:-1])
        last = indices[-1] if indices else None
        if runs and runs[-1][0] == head and last is not None and runs[-1][2] == last - 1:
            runs[-1][2] = last
            runs[-1][3].append(value)
        else:
            runs.append([head, last, last, [value]])
    return [said(*run) for run in runs]


def said(head, first, last, values):
    """The instances of a name from one last index to another, with their values."""
    place = "" if first is None else "[%d]" % first if first == last else "[%d..%d]" % (first, last)
    return "%s%s = %s" % (head, place, ", ".join(str(value) for value in values))


def weights(tree):
    """The weight of each way in which chance can begin, as a tuple of what is seen; of the empty one the weight of all."""
    sums = {}
    for scenario in tree["scenarios"] if tree else []:
        seen = tuple(json.dumps(entry) for entry in scenario["seen"])
        for length in range(len(seen) + 1):
            sums[seen[:length]] = sums.get(seen[:length], 0) + int(scenario["weight"])
    return sums


def nodes(policy, sums):
    """The nodes of a policy, each as (depth, what was seen before it, its chance behind the node above and in all, its decisions, whether it is
    the last of its way), from the first on."""
    found = []

    def walk(node, depth, seen, path, above):
        weight = sums.get(path)
        chance = Fraction(weight, above) if weight and above else None
        whole = Fraction(weight, sums[()]) if weight else None
        found.append((depth, seen, chance, whole, node["decide"], not node["next"]))
        for branch in node["next"]:
            further = path + tuple(json.dumps(entry) for entry in branch["seen"])
            walk(branch["then"], depth + 1, branch["seen"], further, weight)

    walk(policy, 0, [], (), sums.get(()))
    return found


def decimal(number):
    """A fraction with ten digits at most."""
    return "%.10g" % float(number)


def percent(chance):
    return "%.4g %%" % (100 * float(chance))


def node_words(node):
    """What stands in the tree for a node: what was seen, how likely that is, and what is decided."""
    depth, seen, chance, whole, decided, _ = node
    words = []
    if depth:
        words.append("if %s" % html.escape("; ".join(phrase(seen))) if seen else "then")
    if depth and seen and chance is not None:
        words.append('<span class="bar" title="%s of all"><i style="width:%.4g%%"></i></span>%s'
                     % (percent(whole), 100 * float(chance), percent(chance)))
        if depth > 1:
            words.append('<span class="faint">(%s of all)</span>' % percent(whole))
    words.append("decide" if decided else "decide nothing")
    words.extend('<span class="decided">%s</span>' % html.escape(text) for text in phrase(decided))
    return '<span class="node">%s</span>' % " ".join(words)


def open_depth(found):
    """How many stages of the tree are open at first: as many as have sixty nodes together at most, and one below the first node at least."""
    depth = 1
    while depth < 24 and sum(1 for node in found if node[0] <= depth + 1) <= 60:
        depth += 1
    return depth


def tree_html(found):
    """The tree as lists within lists."""
    depth_open, parts, depth = open_depth(found), [], -1
    for node in found:
        parts.extend(["</ul></details></li>"] * (depth - node[0] + 1) if node[0] <= depth else [])
        if node[5]:
            parts.append('<li><div class="leaf">%s</div></li>' % node_words(node))
            depth = node[0] - 1
        else:
            is_open = " open" if node[0] < depth_open else ""
            parts.append('<li><details data-depth="%d"%s><summary>%s</summary><ul>' % (node[0], is_open, node_words(node)))
            depth = node[0]
    parts.extend(["</ul></details></li>"] * (depth + 1))
    return '<div class="tree"><ul>%s</ul></div>' % "\n".join(parts)


def summary_html(found):
    """A table of the decisions: at which stage each is taken, the least, the mean and the greatest value over all cases."""
    rows = {}
    for depth, _, _, whole, decided, _ in found:
        for name, indices, value in decided:
            key = name + "".join("[%d]" % index for index in indices)
            row = rows.setdefault(key, [depth + 1, value, value, Fraction(0), True])
            row[1], row[2] = min(row[1], value), max(row[2], value)
            row[3] += (whole or 0) * value
            row[4] = row[4] and whole is not None
    lines = ["<tr><th>decision</th><th>stage</th><th>least</th><th>mean</th><th>greatest</th></tr>"]
    for key, (stage, least, greatest, mean, known) in rows.items():
        cells = [key, stage, least, decimal(mean) if known else "", greatest]
        lines.append("<tr>%s</tr>" % "".join("<td>%s</td>" % html.escape(str(cell)) for cell in cells))
    return "<table>%s</table>" % "\n".join(lines)


def objective_of(text):
    """The objective of a text, as it is written there, or nothing."""
    bare = re.sub(r"//[^\n]*|/\*.*?\*/", " ", text, flags=re.S)
    found = re.search(r"\b(?:minimize|maximize)\b[^;]*", bare)
    return " ".join(found.group().split()) if found else ""


def fraction_words(text):
    number = Fraction(text)
    return "%s (%s)" % (decimal(number), text)


def head_html(answer, text):
    """What the answer says: its word, its value and its bound, and the objective of the text."""
    words = {"optimal": "Optimal: no policy has a better value.", "infeasible": "Infeasible: no policy meets all constraints.",
             "bounded": "Bounded: the search was ended before it was done."}[answer["answer"]]
    lines = ["<p>%s</p>" % words]
    if "value" in answer:
        lines.append('<p class="value">Value: <b>%s</b></p>' % fraction_words(answer["value"]))
    if "bound" in answer:
        lines.append("<p>No policy has a better value than <b>%s</b>.</p>" % fraction_words(answer["bound"]))
    if objective_of(text):
        lines.append("<p>Objective: <code>%s</code></p>" % html.escape(objective_of(text)))
    return "\n".join(lines)


def tools_html(found):
    """The buttons that open the tree as far as a stage, and the field that leaves the cases with some words."""
    stages = max(node[0] for node in found) + 1
    buttons = ['<button data-open="%d">open to stage %d</button>' % (stage - 1, stage) for stage in range(1, stages + 1)]
    return '<p>%s <input id="words" placeholder="show cases with, as d = 1" size="28"></p>' % " ".join(buttons)


def page_html(name, text, answer, tree):
    """The whole page."""
    body = ["<h1>%s</h1>" % html.escape(name), head_html(answer, text)]
    script = ""
    if "policy" in answer:
        found = nodes(answer["policy"], weights(tree))
        body += ["<h2>What to decide, in each case</h2>", tools_html(found), tree_html(found)]
        body += ["<h2>Each decision over all cases</h2>", summary_html(found)]
        script = "<script>%s</script>" % SCRIPT
    if text:
        body.append("<h2>The text</h2><details><summary>%s</summary><pre>%s</pre></details>" % (html.escape(name), html.escape(text)))
    head = '<meta charset="utf-8"><meta name="viewport" content="width=device-width"><title>%s</title><style>%s</style>'
    return "<!DOCTYPE html>\n<html lang=\"en\"><head>%s</head>\n<body>%s%s</body></html>\n" % (
        head % (html.escape(os.path.basename(name)), STYLE), "\n".join(body), script)


def main(page, name, model, answer, tree):
    text = ""
    if model:
        with open(model, encoding="utf-8", errors="replace") as file:
            text = file.read()
    whole = page_html(name, text, read_line(answer), read_line(tree))
    try:
        with open(page, "w", encoding="utf-8") as file:
            file.write(whole)
    except OSError as fault:
        print("sopl: the page %s cannot be written: %s" % (page, fault.strerror), file=sys.stderr)
        return 1
    return 0


if __name__ == "__main__":
    sys.exit(main(*sys.argv[1:]))

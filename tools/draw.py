#!/usr/bin/env python3
"""Draws one flow of a change, its graphs before and after in one picture, by Graphviz.

Nodes are interfaces, in the boxes of their devices, and these in the boxes of their groups where there are at most six. Of the
nodes at one interface, one before and one after are drawn as one: those with the same id, and the others in their order. What is in
both snapshots is grey, what is only before is red and dashed, what is only after is green. With a report, the word of the flow's
violated row and the path that gives it are laid along the edges as thick lines, each as a shortest walk whose locations give it.

The text for `dot` goes to standard output or to FILE.dot; FILE.svg is the picture. The same input gives the same text.
Status 0: it is done; 1: `dot` failed, or is missing and FILE.dot is written instead; 2: refused, with one line on standard error.
"""
import argparse, shutil, subprocess, sys, textwrap

sys.dont_write_bytecode = True
from flows import paths_of, read_graph, read_homes, read_row, refuse

LOOKS = {"in both": ("#707070", "solid", 1), "only before": ("#D55E00", "dashed", 2), "only after": ("#009E73", "solid", 2)}
KINDS = {"delivered": "delivers", "drops": "drops", "cyclic": "on a cycle"}
BOX = 'labeljust=c style="filled,rounded" fillcolor="%s" color="#AAAAAA"'
MOST_GROUPS, COLUMNS = 6, 100


def quoted(*lines, end="\\n"):
    """A label; with the end `\\l`, of lines that begin at the left."""
    text = end.join(line.replace("\\", "\\\\").replace('"', '\\"') for line in lines)
    return f'"{text}"' if end == "\\n" else f'"{text}{end}"'


def pen(look, *more):
    colour, style, width = LOOKS[look]
    return f'color="{colour}" style="{",".join((style, *more))}" penwidth={width}'


def look(item, before, after):
    return "in both" if item in before and item in after else "only before" if item in before else "only after"


def node_text(node, before, after):
    """The attributes of a node: its kinds by shape, fill and border, and in words those that only one snapshot has."""
    has = {kind: [node in getattr(graph, kind) for graph in (before, after)] for kind in KINDS}
    ids = dict.fromkeys(given for graph in (before, after) if (given := graph.ids.get(node)))
    extra = [" / ".join(ids)] if ids else [f"({node[1]})"] if node[1] > 1 else []
    if (of := look(node, before.ids, after.ids)) == "in both":
        extra += [f"{KINDS[kind]} only {'before' if one else 'after'}" for kind, (one, other) in has.items() if one != other]
    return f"label={quoted(node[0], *extra)} {kinds_text(of, *(any(it) for it in has.values()))}"


def kinds_text(of, delivers, drops, cycles):
    style = pen(of, "filled") if drops else pen(of, "rounded", "filled")
    shape, fill = "octagon" if drops else "box", "#FFE9A8" if cycles else "white"
    return f'{style} shape={shape} peripheries={1 + delivers} fillcolor="{fill}"'


def clusters(name, homes, texts):
    """The nodes in the boxes of their devices, and these in those of their groups."""
    inside, order = {}, {interface: at for at, interface in enumerate(homes)}
    for node in sorted(name, key=lambda node: (order[node[0]], node[1])):
        inside.setdefault(homes[node[0]][2], {}).setdefault(homes[node[0]][1], []).append(node)
    few = len(inside) <= MOST_GROUPS
    for at, (group, devices) in enumerate(inside.items()):
        if few:
            yield f'subgraph cluster_{at} {{ label={quoted(group)} {BOX % "#F2F2F2"}'
        for number, (device, nodes) in enumerate(devices.items()):
            yield f'subgraph cluster_{at}_{number} {{ label={quoted(device)} {BOX % "#FAFAFA"}'
            yield from [f"{name[node]} [{texts[node]}]" for node in nodes] + ["}"]
        yield from ["}"] * few


def thick(title):
    colour = "#E69F00" if title in ("before", "after") else "#0072B2"
    return f'color="{colour}" fontcolor="{colour}" penwidth=4 arrowsize=0.6'


def legend(paths):
    yield 'subgraph cluster_legend { label="legend" style="rounded" color="#BBBBBB" l0 [shape=point]'
    for at, (title, kind) in enumerate(zip(["start", *LOOKS], [*KINDS.values(), "node"]), 1):
        of = "only after" if kind == "node" else "in both"
        yield f'l{at} [label={quoted(kind)} {kinds_text(of, *(kind == it for it in KINDS.values()))}]'
        yield f'l{at - 1} -> l{at} [{pen(title if title in LOOKS else "in both")} label={quoted(title)}]'
    for at, title in enumerate(paths, 5):
        yield f'l{at} [shape=point] l{at - 1} -> l{at} [{thick(title)} label={quoted(title)}]'
    yield "}"


def drawing(flow, before, after, homes, row, paths, note):
    """The text for `dot`."""
    name = {node: f"n{at}" for at, node in enumerate(dict.fromkeys([*before.ids, *after.ids]))}
    wrap = textwrap.TextWrapper(COLUMNS, subsequent_indent=" " * 6, break_on_hyphens=False).wrap
    caption = quoted(*(line for part in (row or [f"flow {flow}"]) + [note] for line in wrap(part)), end="\\l")
    yield "digraph flow {"
    yield f'graph [rankdir=LR newrank=true labelloc=t labeljust=l label={caption} fontname="Helvetica"]'
    yield 'node [fontname="Helvetica" fontsize=12] edge [fontname="Helvetica" fontsize=10]'
    yield from clusters(name, homes, {node: node_text(node, before, after) for node in name})
    for node in dict.fromkeys([*before.starts, *after.starts]):
        yield f's{name[node]} [shape=point] s{name[node]} -> {name[node]} [{pen(look(node, before.starts, after.starts))}]'
    for edge in dict.fromkeys([*before.edges, *after.edges]):
        yield f"{name[edge[0]]} -> {name[edge[1]]} [{pen(look(edge, before.edges, after.edges))}]"
    for number, (title, walk) in enumerate(paths.items()):
        stops = [name[stop] if stop in name else f"p{number}_{at}" for at, stop in enumerate(walk)]
        for at, stop in enumerate(walk):
            if stop not in name:
                yield f'p{number}_{at} [label={quoted(stop)} shape=plaintext {thick(title)} fontsize=14]'
        stops = [f"s{stops[0]}"] * (walk[:1] in ([it] for it in [*before.starts, *after.starts])) + stops
        yield from (f"{one} -> {other} [{thick(title)}]" for one, other in dict.fromkeys(zip(stops, stops[1:])))
    yield from legend(paths)
    yield "}"


def write(text, file):
    """Writes the text, or the picture by `dot`; the status."""
    if file.endswith(".svg") and shutil.which("dot"):
        return min(subprocess.run(["dot", "-Tsvg", "-o", file], input=text.encode()).returncode, 1)
    to = file[:-4] + ".dot"
    try:
        with open(to, "w", encoding="utf-8") as out:
            out.write(text)
    except OSError as error:
        refuse(f"{to} can't be written: {error.strerror}")
    if to != file:
        print(f"draw.py: there is no command dot (Graphviz) here, so {to} was written, not {file}", file=sys.stderr)
    return int(to != file)


def main():
    parser = argparse.ArgumentParser(description=__doc__, formatter_class=argparse.RawDescriptionHelpFormatter)
    for word, what in (("before", "a snapshot"), ("after", "the other"), ("locations", "the location file"), ("flow", "its name")):
        parser.add_argument(word, metavar=word.upper(), help=what)
    parser.add_argument("--report", help="what `rela check` wrote of these files")
    parser.add_argument("--check", help="the check whose row is drawn, else the flow's first violated one; needs --report")
    parser.add_argument("-o", metavar="FILE", help="FILE.svg or FILE.dot")
    words = parser.parse_args()
    if words.check and not words.report:
        refuse("--check needs --report")
    if words.o and not words.o.endswith((".svg", ".dot")):
        refuse(f"{words.o} doesn't end in .svg or .dot")
    homes = read_homes(words.locations)
    (before, one), (after, other) = (read_graph(path, words.flow, homes) for path in (words.before, words.after))
    if not (one or other):
        refuse(f"neither {words.before} nor {words.after} has a flow {words.flow}")
    before.name_nodes(after)
    after.name_nodes(before)
    row = words.report and read_row(words.report, words.flow, words.check)
    paths, note = paths_of(row, before, after) if row else ({}, "")
    text = "\n".join(drawing(words.flow, before, after, homes, row, paths, note)) + "\n"
    return write(text, words.o) if words.o else print(text, end="")


if __name__ == "__main__":
    sys.exit(main())

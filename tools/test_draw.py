#!/usr/bin/env python3
"""Tests tools/draw.py on small networks in a scratch folder, by the text that it writes for `dot`.

    tools/test_draw.py

Its last line is `N passed, M failed`, and its status 1 where one failed. It needs no Graphviz, and takes seconds.
"""
import json, os, subprocess, sys, tempfile

sys.dont_write_bytecode = True
from tally import finish, holds

DRAW = os.path.join(os.path.dirname(os.path.realpath(__file__)), "draw.py")
PLACES = {"version": 1, "groups": [{"name": "g", "devices": [{"name": f"r{at}", "interfaces": [f"r{at}:0"]} for at in (1, 2, 3)]}]}
GREY, RED, GREEN = ('color="#707070" style="solid" penwidth=1', 'color="#D55E00" style="dashed" penwidth=2',
                    'color="#009E73" style="solid" penwidth=2')
BLUE, ORANGE = (f'color="{it}" fontcolor="{it}" penwidth=4 arrowsize=0.6' for it in ("#0072B2", "#E69F00"))


def flow(nodes, edges, starts, delivered, version=1, name="f"):
    parts = {"nodes": nodes, "edges": edges, "starts": starts, "delivered": delivered}
    return {"version": version, "flows": [{"name": name, "dst": "10.0.0.0/24", **parts}]}


def row(word, source, check="c", sides=("missing", "before")):
    return f"flow f check {check} violated\n  {sides[0]}: {word}\n  {sides[1]}: {source}\n"


MOVED = (flow(["r1:0", "r2:0", "r3:0"], [[0, 1], [1, 2]], [0], [2]), flow(["r1:0", "r3:0"], [[0, 1]], [0], [1]))
NAMED = [{"id": it, "at": at} for it, at in (("a", "r1:0"), ("b", "r2:0"), ("c", "r2:0"))]
LOOPS = (flow(NAMED, [["a", "b"]], ["a"], ["b"], 2), flow(NAMED[::-1], [["a", "b"], ["b", "c"], ["c", "b"]], ["a"], [], 2))


def draw(room, pair=MOVED, report=None, words=("f",), env=None):
    """The status, standard output and standard error for the two snapshots, each a value or the text of its file."""
    files = [f"{room}/{name}" for name in ("before.json", "after.json", "locations.json", "report")]
    for file, value in zip(files, [*pair, PLACES, report or ""]):
        with open(file, "w", encoding="utf-8") as out:
            out.write(value if isinstance(value, str) else json.dumps(value))
    told = [sys.executable, "-B", DRAW, *files[:3], *words, *(["--report", files[3]] if report is not None else [])]
    done = subprocess.run(told, capture_output=True, text=True, env=env)
    return done.returncode, done.stdout, done.stderr


def pictures(room):
    status, text, err = draw(room)
    holds("a picture is drawn without a report", (status, err) == (0, "") and text.startswith("digraph flow {\n"))
    edges = [f"sn0 -> n0 [{GREY}]", f"n0 -> n1 [{RED}]", f"n1 -> n2 [{RED}]", f"n0 -> n2 [{GREEN}]"]
    holds("the edges are those of both, of before and of after", all(edge in text for edge in edges) and text.count("sn0 ->") == 1)
    holds("a delivering node has two borders", 'n2 [label="r3:0" ' in text and text.count("peripheries=2") == 2)
    holds("the same input gives the same text", draw(room) == (0, text, ""))
    text = draw(room, report=row("r1 r2 r3", "r1 r2 r3"))[1]
    holds("a word that is its own source is laid once", f"n0 -> n1 [{BLUE}]\nn1 -> n2 [{BLUE}]\n" in text and ORANGE not in text)
    text = draw(room, report=row("r1 r3", "r1 r2 r3"))[1]
    holds("a word is found in the other snapshot", f"n0 -> n2 [{BLUE}]" in text and "The missing word is a path after." in text)
    text = draw(room, report=row("r1 #1 r3", "r1 r2 r3"))[1]
    holds("a marker stands between its neighbours", f"n0 -> p1_1 [{BLUE}]\np1_1 -> n2 [{BLUE}]" in text and 'label="#1"' in text)
    text = draw(room, report=row("g", "g"))[1]
    holds("a word of a group is laid along all its nodes", f"n1 -> n2 [{BLUE}]" in text)
    text = draw(room, LOOPS, row("r1 r2 loop", "r1 r2 loop", sides=("extra", "after")))[1]
    holds("a word ends in its loop", f"n0 -> n1 [{BLUE}]" in text and f"n1 -> p0_2 [{BLUE}]" in text and 'p0_2 [label="loop"' in text)
    holds("nodes of one id are one", f"n0 -> n1 [{GREY}]" in text and f"n1 -> n2 [{GREEN}]" in text and 'label="r2:0\\nb\\n' in text)
    holds("a kind of one snapshot is named", "delivers only before\\non a cycle only after" in text and "\\nc\\ndrops only before" in text)
    text = draw(room, report=row("r1 r2 r3", "r1 r2 r3", "a") + row("r1 drop", "r1 r2 r3"), words=("f", "--check", "c"))[1]
    holds("a check's own row is drawn", f"n0 -> p1_1 [{BLUE}]" in text and f"n0 -> n1 [{ORANGE}]" in text and "check c violated" in text)


def refusals(room):
    def refused(what, part, *args, **more):
        status, out, err = draw(room, *args, **more)
        holds(what, (status, out, err.count("\n")) == (2, "", 1) and part in err)

    refused("a flow of neither file", "flow g", words=("g",))
    refused("a file that is no JSON", "after.json is no JSON", (MOVED[0], "{"))
    refused("a file that is no snapshot", "isn't a snapshot", ({"version": 3, "flows": []}, MOVED[1]))
    refused("an edge to no node", "isn't a snapshot", (flow(["r1:0"], [[0, -1]], [], []), MOVED[1]))
    refused("a report without the row", "no violated row", report="flow f check c compliant\n")
    refused("a report without the check's row", "check d", report=row("r1 r3", "r1 r2 r3"), words=("f", "--check", "d"))
    refused("a report of other files", "other files", report=row("r1 r2", "r1 r2"))
    refused("a file of another kind", ".svg", words=("f", "-o", "x.png"))
    status, _, err = draw(room, words=("f", "-o", f"{room}/x.svg"), env={"PATH": room})
    holds("without dot its text is written", status == 1 and "no command dot" in err and os.path.exists(f"{room}/x.dot"))


def main():
    with tempfile.TemporaryDirectory(prefix="test-draw-") as room:
        pictures(room)
        refusals(room)
    return finish()


if __name__ == "__main__":
    sys.exit(main())

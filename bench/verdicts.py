#!/usr/bin/env python3
"""Times verdicts on graphs with very many paths: a graph of layers under checks that add and replace,
one of 10,000 nodes in a cycle with chords, and one whose first difference is short while the sets of
states that words reach are more than 10^12.

    bench/verdicts.py [PROGRAM]

PROGRAM is the built binary, crates/rela_main/out/rela_main if none is given. For each case a line has
its rows, the status, the time and peak memory of one run, and whether the answer is the one that is
known. A run that takes more than 60 s of the processor or 8 GB is stopped.
"""
import json
import os
import re
import resource
import subprocess
import sys
import tempfile
import time
from dataclasses import dataclass

TOP = os.path.dirname(os.path.dirname(os.path.abspath(__file__)))
SECONDS, BYTES = 60, 8 << 30
LAYERS = 200
NODES, CHORD = 10_000, 100
SPARE = ["spare:0", "spare:1"]


@dataclass
class Graph:
    """Interfaces by their names, with edges between them."""

    nodes: list
    edges: list
    starts: list
    delivered: list

    def without_edge(self, edge):
        return Graph(self.nodes, [e for e in self.edges if e != edge], self.starts, self.delivered)

    def without_node(self, node):
        keep = lambda names: [name for name in names if name != node]
        edges = [e for e in self.edges if node not in e]
        return Graph(keep(self.nodes), edges, keep(self.starts), keep(self.delivered))

    def with_path(self, path):
        """With new nodes along one more path."""
        return Graph(
            self.nodes + path,
            self.edges + list(zip(path, path[1:])),
            self.starts + path[:1],
            self.delivered + path[-1:],
        )

    def turned(self):
        """The same graph, listed from the other end."""
        return Graph(self.nodes[::-1], self.edges[::-1], self.starts[::-1], self.delivered[::-1])

    def snapshot(self):
        place = {name: at for at, name in enumerate(self.nodes)}
        flow = {
            "name": "f1",
            "dst": "10.0.0.0/8",
            "nodes": self.nodes,
            "edges": [[place[a], place[b]] for a, b in self.edges],
            "starts": [place[name] for name in self.starts],
            "delivered": [place[name] for name in self.delivered],
        }
        return {"version": 1, "flows": [flow]}


@dataclass
class Case:
    """One row: two graphs and a check, and the offending word where there is one."""

    title: str
    before: Graph
    after: Graph
    spec: str
    side: str = ""
    word: str = ""

    def answer(self):
        row = f"flow f1 check c1 {'violated' if self.side else 'compliant'}\n"
        if self.side:
            row += f"  {self.side}: {self.word}\n"
        return row


def layer(number, side="a"):
    return f"l{number:03}{side}:0"


def layered():
    """Two nodes at each layer, each joined to both of the next: 2^200 paths."""
    at = lambda number: [layer(number, "a"), layer(number, "b")]
    edges = [(x, y) for i in range(LAYERS - 1) for x in at(i) for y in at(i + 1)]
    return Graph([x for i in range(LAYERS) for x in at(i)], edges, at(0), at(LAYERS - 1))


def layered_cases():
    graph = layered()
    last = (layer(LAYERS - 2), layer(LAYERS - 1))
    grown = graph.with_path(SPARE)
    adds = f"check c1 : {{ .* : add({' '.join(SPARE)}) }};"
    first = " ".join(layer(i) for i in range(LAYERS))
    yield Case("layers, add", graph, grown, adds)
    yield Case("layers, add; an edge is gone", graph, grown.without_edge(last), adds, "missing", first)
    yield Case("layers, add; nothing came", graph, graph, adds, "missing", " ".join(SPARE))
    middle = layer(LAYERS // 2)
    moved = graph.without_node(middle).with_path(SPARE)
    replaces = f"check c1 : {{ .* : replace(.* {middle} .*, {' '.join(SPARE)}) }};"
    beside = " ".join(layer(i, "b" if i == LAYERS // 2 else "a") for i in range(LAYERS))
    yield Case("layers, replace", graph, moved, replaces)
    yield Case(
        "layers, replace; an edge is gone",
        graph,
        moved.without_edge(last),
        replaces,
        "missing",
        beside,
    )
    yield Case("layers, replace; all stayed", graph, grown, replaces, "extra", first)


def cyclic():
    """One cycle through all nodes, and from each a chord to the hundredth behind it."""
    node = lambda number: f"n{number % NODES:05}:0"
    edges = [(node(i), node(i + step)) for i in range(NODES) for step in (1, CHORD)]
    return Graph([node(i) for i in range(NODES)], edges, [node(0)], [node(NODES // 2)])


def cyclic_cases():
    graph = cyclic()
    preserve = "check c1 : { .* : preserve };"
    yield Case("a cycle, unchanged", graph, graph, preserve)
    yield Case("a cycle, listed from the other end", graph, graph.turned(), preserve)
    # Without the chord all nodes stay on the cycle, so that only the words along it are missing. The
    # first of them takes the chords last, since the lesser of two symbols comes first.
    chord = (f"n{NODES - 1:05}:0", f"n{CHORD - 1:05}:0")
    steps = list(range(CHORD)) + list(range(2 * CHORD - 1, NODES, CHORD)) + [CHORD - 1]
    word = " ".join(f"n{i:05}:0" for i in steps) + " loop"
    yield Case("a cycle, a chord is gone", graph, graph.without_edge(chord), preserve, "missing", word)


def short_cases():
    """All words over four names in which no two neighbours are equal."""
    names = ["a:0", "b:0", "c:0", "d:0"]
    edges = [(x, y) for x in names for y in names if x != y]
    graph = Graph(names, edges, names, names)
    # Which of the last 46 symbols were `a:0` or `b:0` has to be kept in mind, hence 2^46 sets of states.
    spec = "check c1 : { .* [a:0 b:0] .{45} | a:0 b:0 c:0 : preserve };"
    changed = graph.without_edge(("b:0", "c:0"))
    yield Case("2^46 sets, a difference of three symbols", graph, changed, spec, "missing", "a:0 b:0 c:0")


def locations(case):
    """A device for the interfaces of each name's first part, all in one group."""
    devices = {}
    for name in sorted({*case.before.nodes, *case.after.nodes, *SPARE}):
        devices.setdefault(name.split(":")[0], []).append(name)
    listed = [{"name": name, "interfaces": at} for name, at in devices.items()]
    return {"version": 1, "groups": [{"name": "all", "devices": listed}]}


def write(folder, name, value):
    path = os.path.join(folder, name)
    with open(path, "w") as file:
        file.write(value if isinstance(value, str) else json.dumps(value, separators=(",", ":")))
    return path


def limit():
    resource.setrlimit(resource.RLIMIT_CPU, (SECONDS, SECONDS))
    resource.setrlimit(resource.RLIMIT_AS, (BYTES, BYTES))


def measure(program, folder, case):
    """The line of the case."""
    words = [
        write(folder, "before.json", case.before.snapshot()),
        write(folder, "after.json", case.after.snapshot()),
        write(folder, "locations.json", locations(case)),
        write(folder, "spec.rela", case.spec),
    ]
    begin = time.perf_counter()
    run = subprocess.run(
        ["/usr/bin/time", "-f", "%M", program, "check", *words],
        capture_output=True,
        preexec_fn=limit,
    )
    took = time.perf_counter() - begin
    report = run.stdout.decode()
    peak = int(run.stderr.split()[-1]) / 1024
    total = re.match(r"total (\d+) ", report.rsplit("\n", 2)[-2]) if report.endswith("\n") else None
    rows = total[1] if total else "-"
    good = total is not None and report.startswith(case.answer()) and run.returncode == bool(case.side)
    return f"| {case.title} | {rows} | {run.returncode} | {took:.3f} | {peak:.0f} | {'yes' if good else 'NO'} |"


def main():
    program = sys.argv[1] if len(sys.argv) > 1 else os.path.join(TOP, "crates/rela_main/out/rela_main")
    print("| case | rows | status | s | MB | as known |\n|---|---|---|---|---|---|")
    with tempfile.TemporaryDirectory() as folder:
        for case in [*layered_cases(), *cyclic_cases(), *short_cases()]:
            print(measure(program, folder, case), flush=True)


if __name__ == "__main__":
    main()

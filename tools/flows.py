"""What draw.py draws: flows of snapshots as graphs, and the words of a report laid along their edges."""
import json
import sys
from collections import Counter, deque


def refuse(text):
    print(f"draw.py: {text}", file=sys.stderr)
    sys.exit(2)


def read(path, parse, what):
    try:
        with open(path, encoding="utf-8") as file:
            return parse(file.read())
    except OSError as error:
        refuse(f"{path} can't be read: {error.strerror}")
    except (ValueError, RecursionError):
        refuse(f"{path} is no {what}")


def read_homes(path):
    """Each interface with its names by level, the finest first, in the order of the file."""
    try:
        return {interface: (interface, device["name"], group["name"]) for group in read(path, json.loads, "JSON")["groups"]
                for device in group["devices"] for interface in device["interfaces"]}
    except (LookupError, TypeError):
        refuse(f"{path} isn't a location file as in docs/FORMATS.md")


def read_graph(path, name, homes):
    """The graph of the flow of that name in a snapshot, and whether it is there; without nodes where it isn't."""
    snapshot = read(path, json.loads, "JSON")
    try:
        flow = next((flow for flow in snapshot["flows"] if flow["name"] == name), None)
        return Graph(flow or {"nodes": [], "edges": []}, {1: False, 2: True}[snapshot["version"]], homes), flow is not None
    except (LookupError, TypeError, ValueError, AttributeError):
        refuse(f"{path} isn't a snapshot of these locations as in docs/FORMATS.md")


def read_row(path, flow, check):
    """The lines of the flow's first violated row, of `check` where one is named."""
    lines = read(path, str.splitlines, "text in UTF-8")
    for at, line in enumerate(lines[:-2]):
        match line.split():
            case ["flow", name, "check", other, "violated"] if name == flow and check in (None, other):
                if lines[at + 1].startswith(("  missing: ", "  extra: ")) and lines[at + 2].startswith(("  before: ", "  after: ")):
                    return lines[at:at + 3]
    refuse(f"{path} has no violated row of flow {flow}" + (f" and check {check}" if check else ""))


def finished(root, out, seen):
    """The nodes outside `seen` that `root` reaches, each after those that were first reached through it."""
    found, stack = [], [(root, iter(out[root]))]
    seen.add(root)
    while stack:
        new = next((node for node in stack[-1][1] if node not in seen), None)
        if new is None:
            found.append(stack.pop()[0])
        else:
            seen.add(new)
            stack.append((new, iter(out[new])))
    return found


class Graph:
    """A flow's graph, its nodes first as places in the list `listed` of (interface, id or None)."""

    def __init__(self, flow, named, homes):
        self.homes = homes
        self.listed = [(node["at"], node["id"]) if named else (node, None) for node in flow["nodes"]]
        if not all(homes[at] and isinstance(given, str | None) for at, given in self.listed):
            raise ValueError
        place = {given if named else at: at for at, (_, given) in enumerate(self.listed)}
        self.edges = [(place[one], place[other]) for one, other in flow["edges"]]
        self.starts, self.delivered, self.drops = (
            [place[node] for node in flow.get(part, [])] for part in ("starts", "delivered", "dropped"))

    def name_nodes(self, other):
        """Makes nodes pairs of an interface and a number, first those that `other` has by id too; and finds the kinds of nodes."""
        shared, count, name = {it for it in self.listed if it[1]} & set(other.listed), Counter(), {}
        for at in sorted(range(len(self.listed)), key=lambda at: self.listed[at] if self.listed[at] in shared else ("~",)):
            count[self.listed[at][0]] += 1
            name[at] = (self.listed[at][0], count[self.listed[at][0]])
        self.ids = {name[at]: given for at, (_, given) in enumerate(self.listed)}
        self.edges = dict.fromkeys((name[one], name[two]) for one, two in self.edges)
        self.starts, self.delivered, self.drops = (
            dict.fromkeys(name[at] for at in part) for part in (self.starts, self.delivered, self.drops))
        self.out, back = ({node: [] for node in self.ids} for _ in range(2))
        for one, two in self.edges:
            self.out[one].append(two)
            back[two].append(one)
        self.drops |= {node: None for node in self.ids if not self.out[node] and node not in self.delivered}
        seen, again = set(), set()
        order = [node for root in self.ids if root not in seen for node in finished(root, self.out, seen)]
        parts = [finished(root, back, again) for root in reversed(order) if root not in again]
        self.cyclic = {node for part in parts for node in part if len(part) > 1 or node in self.out[node]}

    def walk(self, word, level, starts, ends):
        """A shortest walk from `starts` to `ends` whose locations, each run of equal ones taken once, are the word; or None."""
        place = {node: self.homes[node[0]][level] for node in self.ids}
        queue = deque((node, 0) for node in starts if [place[node]] == word[:1])
        came = dict.fromkeys(queue)
        while queue:
            node, at = state = queue.popleft()
            if at + 1 == len(word) and node in ends:
                back = [state]
                while came[back[-1]]:
                    back.append(came[back[-1]])
                return [node for node, _ in reversed(back)]
            for target in self.out[node]:
                new = (target, at if place[target] == word[at] else at + 1)
                if new not in came and [place[target]] == word[new[1]:new[1] + 1]:
                    came[new] = state
                    queue.append(new)

    def lay(self, word, level, exactly=True):
        """The word as nodes, markers and its last `drop` or `loop`: exactly as a path, or else each part between markers as a walk
        that ends anywhere; None where that can't be done."""
        end = word[-1:] if word[-1:] in (["drop"], ["loop"]) else []
        word, laid, starts = word[:len(word) - len(end)], [], self.starts
        if exactly:
            found = self.walk(word, level, starts, self.drops if end == ["drop"] else self.cyclic if end else self.delivered)
            return found and found + end
        marks = [at for at, symbol in enumerate(word) if symbol[0] == "#"] + [len(word)]
        for begin, until in zip([0] + [at + 1 for at in marks], marks):
            found = self.walk(word[begin:until], level, starts, self.ids) if begin < until else []
            if found is None:
                return None
            laid, starts = laid + found + word[until:until + 1], self.ids
        return laid + end


def paths_of(row, before, after):
    """A row's source and its word, each as a title and what was laid, and a line that says where the word lies. The level is the
    finest at which the source is a path of its side."""
    (title, *word), (side, *source) = (line.replace(" ()", "").replace(":", "", 1).split() for line in row[1:])
    sides = [("before", before), ("after", after)][::1 if side == "before" else -1]
    level, found = next(((at, it) for at in range(3) if (it := sides[0][1].lay(source, at))), (0, None))
    if not found:
        refuse(f"the report is of other files: flow {row[0].split()[1]} has no path `{' '.join(source)}` {sides[0][0]}")
    if word == source:
        return {f"{title}, {side}": found}, ""
    for exactly, (at, graph) in [(exactly, it) for exactly in (True, False) for it in sides]:
        if (laid := graph.lay(word, level, exactly)) is not None:
            where = f"is a path {at}" if exactly else f"is no path, before or after; it is laid along edges {at}"
            return {side: found, title: laid}, f"The {title} word {where}."
    return {side: found}, f"The {title} word isn't drawn, as no walk has its locations."

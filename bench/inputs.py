"""The four inputs of `check`, for `places.py`: locations, snapshots and specifications that load
are read, the paths of a specification as terms; and small random ones are made, with up to five
devices, three flows and three checks."""
import ipaddress
import json
import random
import re
from dataclasses import dataclass
from functools import partial

LEVELS = ["interface", "device", "group"]


class Locations:
    """The interfaces, devices and groups, each with those that it lies in."""

    def __init__(self, text):
        self.homes, self.tags = [], {}
        for group in json.loads(text)["groups"]:
            self.homes.append((None, None, group["name"]))
            for device in group["devices"]:
                self.homes.append((None, device["name"], group["name"]))
                for tag in device.get("tags", []):
                    self.tags.setdefault(tag, set()).add(device["name"])
                for interface in device["interfaces"]:
                    self.homes.append((interface, device["name"], group["name"]))
        self.of_interface = {home[0]: home for home in self.homes}

    def members(self, level, by, names):
        """The names of the level's locations that lie in named ones, or in devices with a tag."""
        if by == "tag":
            by, names = "device", set().union(*(self.tags[name] for name in names))
        lying = (home for home in self.homes if home[LEVELS.index(by)] in names)
        return {home[LEVELS.index(level)] for home in lying} - {None}


@dataclass
class Graph:
    """A forwarding graph. A node is a number; `nodes` has the interface of each."""

    nodes: list
    edges: set
    starts: set
    delivered: set
    dropped: set


def read_snapshot(text):
    """The flows of a snapshot of either version by their names, each with its graph."""
    value, flows = json.loads(text), {}
    for flow in value["flows"]:
        dst = ipaddress.ip_network(flow["dst"], strict=False)
        src = flow.get("src", "0.0.0.0/0" if dst.version == 4 else "::/0")
        src = ipaddress.ip_network(src, strict=False)
        nodes, number = flow["nodes"], list(range(len(flow["nodes"])))
        if value["version"] == 2:
            number = {node["id"]: n for n, node in enumerate(nodes)}
            nodes = [node["at"] for node in nodes]
        edges = {(number[a], number[b]) for a, b in flow["edges"]}
        lists = [{number[n] for n in flow.get(k, [])} for k in ("starts", "delivered", "dropped")]
        read = {"flow": flow["name"], "dst": dst, "src": src, "class": flow.get("class", "default")}
        flows[flow["name"]] = read | {"graph": Graph(nodes, edges, *lists)}
    return flows


@dataclass(frozen=True, eq=False)
class Term:
    """A term: its form, and its parts or symbols. No other term is the same one."""

    form: str
    parts: tuple

    def subterms(self):
        """The terms in it, itself too; one that stands at several places comes once."""
        found, left = {self: None}, [self]
        while left:
            inner = [part for part in left.pop().parts if isinstance(part, Term)]
            left += [part for part in dict.fromkeys(inner) if part not in found]
            found |= dict.fromkeys(inner)
        return found


def term(form, *parts):
    """The term of a form and its parts."""
    return Term(form, parts)


def halved(join, parts):
    """A list as a tree of two parts each: of the first half, rounded up, and of the rest."""
    half = (len(parts) + 1) // 2
    if len(parts) == 1:
        return parts[0]
    return join(halved(join, parts[:half]), halved(join, parts[half:]))


class Spec:
    """A specification that loads: its level, the symbol of each name, and its checks."""

    def __init__(self, text, locations):
        name = "([A-Za-z0-9_.:/-]+)"
        pieces = re.findall(rf'#[^\n]*|"{name}"|\${name}|{name}|([^ \t\r\n])', text)
        kinds = ("quoted", "reference", "plain", "plain")
        self.left = [(k, w) for groups in pieces for k, w in zip(kinds, groups) if w][::-1]
        self.level = "interface"
        if self.takes("level"):
            self.level = self.word()
            self.word()
        self.locations, self.defined, self.checks = locations, {}, []
        names = {home[LEVELS.index(self.level)] for home in locations.homes} - {None}
        self.symbols = {n: symbol for symbol, n in enumerate([*sorted(names), "drop", "loop"])}
        while self.left:
            self.item()

    def word(self):
        """Takes the next token, whatever it is."""
        return self.left.pop()[1]

    def takes(self, *words):
        """Takes the next token where it is one of these keywords or marks."""
        return self.word() if self.left and self.left[-1] in [("plain", w) for w in words] else None

    def up_to_end(self, part):
        """A part and the closing mark after it."""
        return [part(), self.word()][0]

    def chain(self, part, join, goes_on):
        """Parts, the next one where `goes_on` says so, joined in halves."""
        parts = [part()]
        while goes_on():
            parts.append(part())
        return halved(join, parts)

    def item(self):
        """One definition or check, up to its semicolon."""
        kind, at_most = self.word(), self.takes("atmost") is not None
        name = self.word()
        if kind == "check":
            selects = self.predicate() if self.takes("for") else lambda flow: True
            self.word()
            self.checks.append((name, at_most, selects, self.body()))
        else:
            self.word()
            self.defined[name] = self.path() if kind == "path" else self.body()
        self.word()

    def path(self):
        """A path expression: alternatives, of meets, of sequences."""
        goes_on = lambda: self.left[-1] not in [("plain", end) for end in "|&):,;"]
        sequence = lambda: self.chain(self.piece, partial(term, "Concat"), goes_on)
        meet = lambda: self.chain(sequence, partial(term, "Meet"), lambda: self.takes("&"))
        return self.chain(meet, partial(term, "Union"), lambda: self.takes("|"))

    def piece(self):
        """An atom, with at most one operator after it and one `!` before it."""
        negated, piece = self.takes("!"), self.atom()
        operator = self.takes("*", "+", "?", "{")
        if operator == "*":
            piece = term("Star", piece)
        elif operator == "+":
            piece = term("Concat", piece, term("Star", piece))
        elif operator == "?":
            piece = term("Union", term("Empty"), piece)
        elif operator == "{":
            copies = [piece] * int(self.word())
            self.word()
            piece = halved(partial(term, "Concat"), copies) if copies else term("Empty")
        return term("Complement", piece) if negated else piece

    def atom(self):
        """One symbol of a class, the empty word, a reference or an expression in parentheses."""
        if self.takes("("):
            return term("Empty") if self.takes(")") else self.up_to_end(self.path)
        if self.left[-1][0] == "reference":
            return self.defined[self.word()]
        names, negated = set(), self.takes(".") is not None
        if not negated and self.takes("["):
            negated = self.takes("^") is not None
            while not self.takes("]"):
                names |= self.member()
        elif not negated:
            names = self.member()
        return term("Class", *(s for name, s in self.symbols.items() if (name in names) != negated))

    def member(self):
        """The names that a member of a class stands for."""
        if ending := self.takes("drop", "loop"):
            return {ending}
        by = self.takes("interface", "device", "group", "tag")
        if not by:
            return self.locations.members(self.level, self.level, {self.word()})
        _, name, _ = self.word(), self.word(), self.word()
        return self.locations.members(self.level, by, {name})

    def body(self):
        """The body of a check: alternatives, of parts in sequence, of units."""
        then = lambda: self.chain(self.unit, partial(term, "Then"), lambda: self.takes("then"))
        return self.chain(then, partial(term, "Else"), lambda: self.takes("else"))

    def unit(self):
        """A zone with its modifier, a reference or a body in parentheses."""
        if self.left[-1][0] == "reference":
            return self.defined[self.word()]
        if self.word() == "(":
            return self.up_to_end(self.body)
        zone, _, modifier, paths = self.path(), self.word(), self.word(), []
        while self.word() in "(,":
            paths.append(self.path())
        if paths:
            self.word()
        return term("Unit", zone, modifier, *paths)

    def predicate(self):
        """A predicate on flows, as a function."""
        both = lambda p, q: lambda flow: p(flow) and q(flow)
        either = lambda p, q: lambda flow: p(flow) or q(flow)
        conditions = lambda: self.chain(self.condition, both, lambda: self.takes("and"))
        return self.chain(conditions, either, lambda: self.takes("or"))

    def condition(self):
        """One condition on flows, or its opposite, or a predicate in parentheses."""
        kind = self.word()
        if kind == "not":
            opposite = self.condition()
            return lambda flow: not opposite(flow)
        if kind == "(":
            return self.up_to_end(self.predicate)
        if kind == "all":
            return lambda flow: True
        relation = self.word()
        if kind in ("flow", "class"):
            return lambda flow: flow[kind] == relation
        prefix = ipaddress.ip_network(self.word(), strict=False)
        holds = {"in": lambda own: own.subnet_of(prefix), "overlaps": prefix.overlaps}[relation]
        return lambda flow: flow[kind].version == prefix.version and holds(flow[kind])


class SmallInput:
    """The four texts of a small random input."""

    def __init__(self, seed):
        self.random = random.Random(seed)
        self.one = one = self.random.choice
        self.most_nodes, self.depth = one([(6, 2), (6, 2), (6, 1), (12, 0)])
        names = self.random.sample(["a", "b", "c", "B", "r1", "x.y"], one([2, 3, 4, 5]))
        self.interfaces = {d: [f"{d}:{n}" for n in range(one([1, 1, 2]))] for d in names}
        groups = [f"g{n}" for n in range(one([1, 2, 3]))]
        homes = {d: groups[n] if n < len(groups) else one(groups) for n, d in enumerate(names)}
        tags = {d: ["t1", "t2"][: one([0, 1, 2]) if d != names[0] else 2] for d in names}
        device = lambda d: {"name": d, "tags": tags[d], "interfaces": self.interfaces[d]}
        inside = {g: [device(d) for d in names if homes[d] == g] for g in groups}
        groups = [{"name": g, "devices": devices} for g, devices in inside.items()]
        self.locations = json.dumps({"version": 1, "groups": groups})
        self.level = one(["interface", "device", "device", "device", "group"])
        self.everywhere = sum(self.interfaces.values(), [])
        self.names = [self.everywhere, names, list(inside)]
        self.paths, self.bodies = [], []

    def texts(self):
        """The texts before, after, locations and spec."""
        versions, flows = [self.one([1, 2]), self.one([1, 2])], [[], []]
        prefixes = ["10.0.0.0/24", "10.1.0.0/16"] + ["2001:DB8::/32"] * (versions == [2, 2])
        for number in range(self.random.randint(1, 3)):
            chosen = {"name": f"f{number}", "dst": self.one(prefixes)}
            chosen |= self.one([{}, {"class": "gold"}])
            before = self.graph()
            graphs = [before, self.changed(before)]
            for side in self.one([[0, 1]] * 8 + [[0], [1]]):
                flows[side].append(chosen | self.written(graphs[side], versions[side]))
        self.random.shuffle(flows[1])
        snapshots = [{"version": v, "flows": listed} for v, listed in zip(versions, flows)]
        return [*map(json.dumps, snapshots), self.locations, self.spec()]

    def graph(self):
        """A graph with cycles, drops and deliveries."""
        count, back = self.random.randint(0, self.most_nodes), self.one([0, 0.1, 0.5])
        some = lambda share: {n for n in range(count) if self.random.random() < share}
        edges = {(a, b) for a in range(count) for b in some(0.4) if a < b}
        edges |= {(a, b) for a in range(count) for b in some(back) if a >= b}
        nodes = [self.one(self.everywhere) for _ in range(count)]
        ends = [some(0.1) | {0} if count else set(), some(0.2) | {count - 1} if count else set()]
        return Graph(nodes, edges, *ends, some(0.1))

    def changed(self, graph):
        """A graph after a change: the same one, one with the same paths, or another."""
        new = Graph(list(graph.nodes), *map(set, list(vars(graph).values())[1:]))
        kind = self.random.randrange(6) if graph.nodes else 5
        node, other = (self.random.randrange(len(graph.nodes) or 1) for _ in range(2))
        if kind == 1:
            new.nodes.append(self.one(self.everywhere))
        elif kind == 2:
            new.edges ^= {(node, other)}
        elif kind == 3:
            new.nodes[node] = self.one(self.everywhere)
        elif kind == 4:
            self.one([new.delivered, new.dropped]).symmetric_difference_update({node})
        return self.graph() if kind == 5 else new

    def written(self, graph, version):
        """The members of a flow in a snapshot of either version that say its graph."""
        name = {1: lambda n: n, 2: lambda n: f"n{n}"}[version]
        places = [{"id": name(n), "at": interface} for n, interface in enumerate(graph.nodes)]
        lists = {k: [name(n) for n in vars(graph)[k]] for k in ("starts", "delivered", "dropped")}
        edges = [[name(a), name(b)] for a, b in sorted(graph.edges)]
        return {"nodes": graph.nodes if version == 1 else places, "edges": edges} | lists

    def spec(self):
        """A specification of up to three definitions and three checks."""
        lines = [f"level {self.level};"]
        for name in ["p", "q"][: self.one([0, 1, 2])]:
            lines.append(f"path {name} = {self.path(self.depth)};")
            self.paths.append(f"${name}")
        if self.one([True, False, False]):
            lines.append(f"spec s = {self.body(1)};")
            self.bodies.append("$s")
        for number in range(self.one([1, 1, 2, 3])):
            words = self.one(["", "", "", "", "atmost "]) + f"c{number}"
            words += self.one(["", "", f" for {self.predicate(2)}"])
            lines.append(f"check {words} : {self.body(min(2, self.depth))};")
        return "\n".join(lines) + "\n"

    def body(self, depth):
        """The body of a check: units, joined by then and else."""
        kind = self.random.random()
        if depth and kind < 0.5:
            parts = [self.body(depth - 1) for _ in range(self.one([2, 2, 3]))]
            return f"({self.one([' then ', ' else ']).join(parts)})"
        if self.bodies and kind < 0.65:
            return self.one(self.bodies)
        modifier = self.one(["preserve"] * 4 + "drop add add remove replace any ignore".split())
        count = {"preserve": 0, "drop": 0, "replace": 2}.get(modifier, 1)
        paths = [self.path(self.depth) for _ in range(count)]
        zone = self.one([".*", f"{self.symbol()} .*", f".* {self.symbol()} .*"])
        zone = self.one([zone, self.path(self.depth)])
        inside = f"({', '.join(paths)})" if paths else ""
        return f"{{ {zone} : {modifier}{inside} }}"

    def path(self, depth):
        """A path expression, in parentheses where it has parts."""
        if depth == 0 or self.random.random() < 0.2:
            return self.one([self.symbol(), self.symbol(), ".", ".*", "()"])
        kind = self.one([" ", " ", " ", "|", "|", "&", "!", "*", "+", "?", "{}", "$"])
        parts = [self.path(depth - 1) for _ in range(self.one([2, 2, 3, 4]))]
        if kind == "$" and self.paths:
            return self.one(self.paths)
        if kind in " |&":
            return f"({kind.join(parts)})"
        if kind == "!":
            return f"(!({parts[0]}))"
        times = f"{{{self.random.randint(0, 3)}}}"
        return f"({parts[0]}){kind if kind in '*+?' else times}"

    def symbol(self):
        """A location, those of another location or of a tag, an ending, or a class."""
        rank = LEVELS.index(self.level)
        kind = self.one(["here"] * 5 + ["by", "tag", "drop", "loop", "class", "class"])
        if kind == "by":
            by = self.random.randrange(rank, 3)
            return f"{LEVELS[by]}({self.one(self.names[by])})"
        if kind == "tag" and rank < 2:
            return f"tag({self.one(['t1', 't2'])})"
        if kind == "class":
            members = self.random.sample(self.names[rank] + ["drop", "loop"], 2)
            return f"[{self.one(['', '^'])}{' '.join(members)}]"
        return kind if kind in ("drop", "loop") else self.one(self.names[rank])

    def predicate(self, depth):
        """A predicate on flows, in parentheses where it has parts."""
        if depth and self.one([True, False]):
            one, two = (self.predicate(depth - 1) for _ in range(2))
            return self.one([f"(not {one})", f"({one} and {two})", f"({one} or {two})"])
        prefix = self.one(["10.0.0.0/16", "10.0.0.7/32", "0.0.0.0/0", "2001::/16"])
        within = f"{self.one(['dst', 'src'])} {self.one(['in', 'overlaps'])} {prefix}"
        return self.one([within, within, "all", "flow f1", "class gold", "class default"])

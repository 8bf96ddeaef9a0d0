#!/usr/bin/env python3
"""Says of each row of a report which state limits may leave it undecided and which must, by
counting the places of the check's terms, and not the states of any engine.

    bench/places.py [--states N] BEFORE AFTER LOCATIONS SPEC
    bench/places.py --random COUNT [--seed S] [--binary PROGRAM]

The first form takes four files that load. A line for each row has its verdict, then

- `places`: the most places, each two of them apart, that words reach in one meet, complement,
  composition or image;
- `words`: how many words there are of which each two are told apart by a place of the two images,
  none of them after the first offending word, where there is one;
- `states`: the most words of which each two are told apart by the part of one complement;
- `licensed below L`: a limit below L may leave the row undecided, and no other may;
- `forced below F`: a limit below F must leave it undecided.

With `--states N` two more lines have the rows that may be undecided under the limit N and those
that must be. The second form makes small random inputs. With PROGRAM, a built program, it runs
`check --states N` on each for N from 1 to 100, and prints what stands in a report that may not,
with the folder of the files; without it, the rows of each input. An input with more than 5,000
places in one machine is passed over.

Words are of single symbols, and the states of a machine are the places of its term.
"""
import argparse
import itertools
import os
import shutil
import subprocess
import sys
import tempfile
from dataclasses import dataclass
from functools import partial

from inputs import LEVELS, Graph, Locations, SmallInput, Spec, Term, read_snapshot, term

FILES = ["before.json", "after.json", "locations.json", "spec.txt"]
MOST_GIVEN, MOST_RANDOM = 4_000_000, 5_000
SECONDS = 300


class TooLarge(Exception):
    """A machine has more places than are looked at."""


# The terms of a check.


def translated(body, drop, markers):
    """The relations before and after of a body, and its zone; `markers` gives the next marker."""
    if body.form != "Unit":
        one, two = (translated(part, drop, markers) for part in body.parts)
        if body.form == "Then":
            return [term("Concat", x, y) for x, y in zip(one, two)]
        guard = term("Identity", term("Complement", one[2]))
        sides = [term("Union", x, term("Compose", guard, y)) for x, y in zip(one[:2], two)]
        return [*sides, term("Union", one[2], two[2])]
    zone, modifier, *paths = body.parts
    same, union, product = (partial(term, form) for form in ("Identity", "Union", "Product"))
    without = lambda x, y: term("Meet", x, term("Complement", y))
    if modifier == "preserve":
        return [same(zone), same(zone), zone]
    target = paths[-1] if paths else term("One", drop)
    wider = union(zone, target)
    if modifier == "drop":
        return [product(wider, target), same(wider), wider]
    if modifier == "add":
        return [union(same(wider), product(zone, target)), same(wider), wider]
    if modifier == "remove":
        return [same(without(zone, target)), same(zone), zone]
    if modifier == "ignore":
        return [same(without(zone, target)), same(without(zone, target)), zone]
    if modifier == "replace":
        old = term("Meet", paths[0], zone)
        before = union(same(without(wider, old)), product(old, target))
        return [before, same(wider), wider]
    marker = term("One", next(markers))
    after = union(product(target, marker), same(without(zone, target)))
    return [product(wider, marker), after, wider]


# Machines whose states are places.


@dataclass
class Machine:
    """The places of a term that words, or pairs of words, reach, each two of them apart.

    A place is a number; `places` has its name in the numbers of its parts. The empty word, or pair,
    reaches place 0. `moves` has for each place the places after each label. A label is a symbol, of
    a relation one that is read and one that is written, with None where there is none; None for all
    of it is a silent step. What reaches a place of `finals` is in the term.
    """

    places: list
    moves: list
    finals: set


class Machines:
    """The machines of the terms of one check, over its path symbols and its markers."""

    def __init__(self, path_symbols, markers, most):
        self.path_symbols, self.symbols = range(path_symbols), range(path_symbols + markers)
        self.most, self.made = most, {}

    def of(self, which):
        """The machine of a term without path sets, made once."""
        if which not in self.made:
            parts = [self.of(part) if isinstance(part, Term) else part for part in which.parts]
            self.made[which] = getattr(self, "of_" + which.form.lower())(*parts)
        return self.made[which]

    def explored(self, first, steps, is_final):
        """The machine of the places that the steps lead to from a first one."""
        numbers, moves = {first: 0}, []
        for place in (places := [first]):
            here = {}
            for label, to in steps(place):
                if to not in numbers:
                    numbers[to] = len(places)
                    places.append(to)
                here.setdefault(label, []).append(numbers[to])
            moves.append(here)
            if len(places) > self.most:
                raise TooLarge
        return Machine(places, moves, {n for n, place in enumerate(places) if is_final(place)})

    def of_empty(self):
        """The empty word: Start."""
        return self.explored("Start", lambda place: [], lambda place: True)

    def of_class(self, *members):
        """One symbol out of some: Start, then End."""
        steps = lambda place: [(symbol, "End") for symbol in members if place == "Start"]
        return self.explored("Start", steps, lambda place: place == "End")

    of_one = of_class

    def of_union(self, x, y):
        """What is in either part: Begin, and the places of both."""
        parts = {"Left": x, "Right": y}
        both = [(None, (side, 0)) for side in parts]
        steps = lambda place: both if place == "Begin" else inner(parts[place[0]], *place)
        is_final = lambda place: place != "Begin" and place[1] in parts[place[0]].finals
        return self.explored("Begin", steps, is_final)

    def of_concat(self, x, y):
        """One of the first part, then one of the second: the places of both."""
        parts = {"Left": x, "Right": y}
        turns = lambda place: place[0] == "Left" and place[1] in x.finals
        to_second = lambda place: [(None, ("Right", 0))] if turns(place) else []
        steps = lambda place: inner(parts[place[0]], *place) + to_second(place)
        return self.explored(("Left", 0), steps, lambda p: p[0] == "Right" and p[1] in y.finals)

    def of_star(self, x):
        """Some of the part, one after the other: Begin, and the places of the part."""
        is_final = lambda place: place == "Begin" or place[1] in x.finals
        again = lambda place: [(None, ("Inner", 0))] if is_final(place) else []
        steps = lambda place: ([] if place == "Begin" else inner(x, *place)) + again(place)
        return self.explored("Begin", steps, is_final)

    def of_complement(self, x):
        """The words of path symbols that aren't in the part: the sets of its places that a word
        reaches, all of them."""
        steps = lambda seen: ((symbol, stepped(x, seen, symbol)) for symbol in self.path_symbols)
        return self.explored(closed(x, {0}), steps, x.finals.isdisjoint)

    def of_identity(self, x):
        """Each word of the part with itself: the places of the part."""
        return relabelled(x, lambda symbol: (symbol, symbol))

    def of_product(self, x, y):
        """Each word of the first part with each of the second: the places of both, those of the
        second once a whole word is read."""
        reading = relabelled(x, lambda symbol: (symbol, None))
        return self.of_concat(reading, relabelled(y, lambda symbol: (None, symbol)))

    def of_compose(self, r, s):
        """The pairs with a word between them: a place of each, where the first relation writes what
        the second reads."""

        def steps(place):
            reading = {}
            for two, ends in s.moves[place[1]].items():
                middle, written = two or (None, None)
                reading.setdefault(middle, []).append((written, ends))
            for one, tos in r.moves[place[0]].items():
                read, middle = one or (None, None)
                if middle is None:
                    yield from (((read, None), (to, place[1])) for to in tos)
                else:
                    for written, ends in reading.get(middle, []):
                        yield from (((read, written), p) for p in itertools.product(tos, ends))
            for written, ends in reading.get(None, []):
                yield from (((None, written), (place[0], end)) for end in ends)

        return self.explored((0, 0), steps, lambda p: p[0] in r.finals and p[1] in s.finals)

    def of_meet(self, x, y):
        """The words of both parts: a place of each, after a common word."""
        twice = self.of_compose(self.of_identity(x), self.of_identity(y))
        return relabelled(twice, lambda pair: pair[0])

    def image(self, x, r):
        """The words that a relation gives for the words of a set: a place of each, after a common
        word that is read."""
        return relabelled(self.of_compose(self.of_identity(x), r), lambda pair: pair[1])

    def paths(self, graph, home):
        """The path set of a graph, where `home` has the symbol of each node: Begin, the nodes, and
        End after a drop or a loop."""
        after = {n: {b for a, b in graph.edges if a == n} for n in range(len(graph.nodes))}
        drop, loop = self.path_symbols[-2:]

        def steps(place):
            if place == "Begin":
                return [(home[n], n) for n in sorted(graph.starts)]
            if place == "End":
                return []
            found = [(home[n] if home[n] != home[place] else None, n) for n in sorted(after[place])]
            stays = after[place] or place in graph.delivered
            reached = set(after[place])
            while more := {b for n in reached for b in after[n]} - reached:
                reached |= more
            found += [(drop, "End")] if place in graph.dropped or not stays else []
            return found + ([(loop, "End")] if place in reached else [])

        return self.explored("Begin", steps, lambda p: p == "End" or p in graph.delivered)

    def first_source(self, x, r, word):
        """The first word of a set that a relation relates to a word."""
        goal = self.of_empty()
        for symbol in word:
            goal = self.of_concat(goal, self.of_class(symbol))
        related = self.of_compose(self.of_compose(self.of_identity(x), r), self.of_identity(goal))
        sources = relabelled(related, lambda pair: pair[0])
        arrived = self.arrivals([sources], self.path_symbols)
        return next(source for source, (seen,) in arrived if seen & sources.finals)

    def arrivals(self, machines, symbols):
        """The different tuples of sets of places that words reach in some machines, each with the
        first word that reaches it, in the order of these words, shorter ones first."""
        words = {tuple(closed(machine, {0}) for machine in machines): ()}
        for sets in (left := list(words)):
            yield words[sets], sets
            for symbol in symbols:
                after = tuple(stepped(m, seen, symbol) for m, seen in zip(machines, sets))
                if after not in words:
                    words[after] = (*words[sets], symbol)
                    left.append(after)
            if len(left) > self.most:
                raise TooLarge

    def told_apart(self, complement):
        """How many words of path symbols there are of which each two are told apart by some way to
        go on: classes of the complement's places, split until no symbol splits one more."""
        kinds = [n in complement.finals for n in range(len(complement.places))]
        while True:
            looks = [
                (kind, *(kinds[moves[symbol][0]] for symbol in self.path_symbols))
                for kind, moves in zip(kinds, complement.moves)
            ]
            numbers = {look: number for number, look in enumerate(dict.fromkeys(looks))}
            if len(numbers) == len(set(kinds)):
                return len(numbers)
            kinds = [numbers[look] for look in looks]


def inner(machine, side, p):
    """The steps from a place of a part, as steps of the whole."""
    return [(sign, (side, to)) for sign, ends in machine.moves[p].items() for to in ends]


def relabelled(machine, change):
    """A machine with each label changed, but for silent steps; the places stay."""
    moves = [{} for _ in machine.moves]
    for new, old in zip(moves, machine.moves):
        for sign, ends in old.items():
            new.setdefault(None if sign is None else change(sign), []).extend(ends)
    return Machine(machine.places, moves, machine.finals)


def closed(machine, places):
    """A set of places with all that silent steps lead to."""
    found, left = set(places), list(places)
    while left:
        more = set(machine.moves[left.pop()].get(None, [])) - found
        found |= more
        left += more
    return frozenset(found)


def stepped(machine, places, symbol):
    """The set of places that a symbol leads to from a set."""
    return closed(machine, {to for p in places for to in machine.moves[p].get(symbol, [])})


# Verdicts, and what a limit may do to them.


@dataclass
class Row:
    """A row as it is where no limit comes in, and the counts that say where one may."""

    flow: str
    check: str = None
    side: str = None
    word: str = None
    source: str = None
    places: int = 0
    words: int = 0
    states: int = 0

    @property
    def licensed(self):
        """The least limit under which the row has to be decided."""
        return max(self.places, self.words)

    def lines(self):
        """The row's lines in a report."""
        head = f"flow {self.flow} check {self.check}"
        if self.check is None:
            return [f"flow {self.flow} unselected"]
        if self.side is None:
            return [f"{head} compliant"]
        kind = "missing" if self.side == "before" else "extra"
        return [f"{head} violated", f"  {kind}: {self.word}", f"  {self.side}: {self.source}"]

    def told(self):
        """The row on one line, with its counts."""
        verdict = " ".join(line.strip() for line in self.lines())
        counts = f"places {self.places} words {self.words} states {self.states}"
        bounds = f"licensed below {self.licensed} forced below {self.states}"
        return f"{verdict}; {counts}; {bounds}" if self.check else verdict


class Decider:
    """A check with the machines of its two relations, and the counts that no flow changes."""

    def __init__(self, spec, check, most):
        self.spec, (self.name, self.at_most, self.selects, body) = spec, check
        size = len(spec.symbols)
        markers = itertools.count(size)
        relations = translated(body, size - 2, markers)[:2]
        self.machines = Machines(size, next(markers) - size, most)
        self.relations = [self.machines.of(relation) for relation in relations]
        terms = relations[0].subterms() | relations[1].subterms()
        made = lambda *forms: [self.machines.of(t) for t in terms if t.form in forms]
        counts = [len(machine.places) for machine in made("Meet", "Complement", "Compose")]
        self.places = max(counts, default=0)
        self.states = max(map(self.machines.told_apart, made("Complement")), default=0)

    def text_of(self, word):
        """A word as reports write it."""
        names = [*self.spec.symbols, *(f"#{k}" for k in range(1, 1 + len(self.machines.symbols)))]
        return " ".join(names[symbol] for symbol in word) or "()"

    def row(self, flow, graphs):
        """The row of a flow, given its graph before and its graph after."""
        level, row = LEVELS.index(self.spec.level), Row(flow, self.name, states=self.states)
        homes = [[self.spec.locations.of_interface[n][level] for n in g.nodes] for g in graphs]
        symbols = [[self.spec.symbols[name] for name in home] for home in homes]
        paths = [self.machines.paths(*pair) for pair in zip(graphs, symbols)]
        images = [self.machines.image(*pair) for pair in zip(paths, self.relations)]
        row.places = max(self.places, *(len(image.places) for image in images))
        for word, sets in self.machines.arrivals(images, self.machines.symbols):
            row.words += 1
            held = [bool(seen & image.finals) for seen, image in zip(sets, images)]
            if held == [False, True] or held == [True, False] and not self.at_most:
                side = held.index(True)
                source = self.machines.first_source(paths[side], self.relations[side], word)
                row.side, row.word = ("before", "after")[side], self.text_of(word)
                row.source = self.text_of(source)
                break
        return row


def rows_of(before, after, locations, spec, most):
    """The rows of the report on four texts, in order."""
    spec = Spec(spec, Locations(locations))
    deciders = [Decider(spec, check, most) for check in spec.checks]
    sides, rows = [read_snapshot(before), read_snapshot(after)], []
    for name, flow in (sides[0] | sides[1]).items():
        nothing = {"graph": Graph([], set(), set(), set(), set())}
        graphs = [side.get(name, nothing)["graph"] for side in sides]
        selecting = [decider for decider in deciders if decider.selects(flow)]
        rows += [decider.row(name, graphs) for decider in selecting] or [Row(name)]
    return rows


def faults(rows, limit, text, status):
    """What stands in a report under a limit, or as its status, that may not, in words."""
    left, found = text.split("\n"), []
    kinds = {"compliant": 0, "violated": 0, "undecided": 0, "unselected": 0}
    for row in rows:
        wanted, undecided = row.lines(), f"flow {row.flow} check {row.check} undecided"
        if left[0] == undecided and row.check:
            wanted = [undecided]
            found += [f"undecided without a licence: {row.told()}"] if row.licensed <= limit else []
        elif left[: len(wanted)] != wanted:
            return [*found, f"{left[: len(wanted)]} stands where {wanted} should"]
        elif row.states > limit:
            found.append(f"decided where it must not be: {row.told()}")
        kinds[wanted[0].split()[-1]] += 1
        left = left[len(wanted) :]
    total = f"total {len(rows)} " + " ".join(f"{kind} {count}" for kind, count in kinds.items())
    if left != [total, ""]:
        found.append(f"{left} stands where {[total, '']} should")
    right = 1 if kinds["violated"] else 3 if kinds["undecided"] else 0
    return found if status == right else [*found, f"the status is {status}, not {right}"]


# The words of the command line.


def try_random(count, seed, program):
    """Makes random inputs and compares a program's reports with what is allowed. The last line has
    how many inputs and rows there were, how many inputs differ, and how many were passed over."""
    rows_seen = different = passed_over = 0
    for number in range(count):
        texts = SmallInput(f"{seed} {number}").texts()
        try:
            rows = rows_of(*texts, MOST_RANDOM)
        except TooLarge:
            passed_over += 1
            continue
        rows_seen += len(rows)
        if program is None:
            print(f"input {number}", *[row.told() for row in rows], sep="\n")
            continue
        folder = tempfile.mkdtemp(prefix="places-")
        for name, text in zip(FILES, texts):
            with open(os.path.join(folder, name), "w", encoding="latin-1") as file:
                file.write(text)
        found = differences(program, folder, rows)
        different += bool(found)
        for line in found:
            print(f"{folder}: {line}", flush=True)
        if not found:
            shutil.rmtree(folder)
    print(f"inputs {count} rows {rows_seen} different {different} passed over {passed_over}")
    return different


def differences(program, folder, rows):
    """What stands in a program's reports on the files of a folder that may not, limit by limit."""
    found = []
    for limit in range(1, 101):
        words = [program, "check", "--states", str(limit), *FILES]
        try:
            done = subprocess.run(words, cwd=folder, capture_output=True, timeout=SECONDS)
        except subprocess.TimeoutExpired:
            found.append(f"limit {limit}: no answer within {SECONDS} seconds")
            continue
        report = done.stdout.decode("latin-1")
        found += [f"limit {limit}: {f}" for f in faults(rows, limit, report, done.returncode)]
    return found


def main():
    """Does what the words of the command line say."""
    parser = argparse.ArgumentParser(usage=__doc__)
    parser.add_argument("files", nargs="*")
    parser.add_argument("--states", type=int)
    parser.add_argument("--random", type=int)
    parser.add_argument("--seed", default="0")
    parser.add_argument("--binary")
    words = parser.parse_args()
    sys.setrecursionlimit(20_000)
    if words.random is not None:
        program = words.binary and os.path.abspath(words.binary)
        sys.exit(try_random(words.random, words.seed, program) > 0)
    if len(words.files) != 4:
        parser.error("four files are needed")
    texts = []
    for name in words.files:
        with open(name, encoding="latin-1") as file:
            texts.append(file.read())
    rows = rows_of(*texts, MOST_GIVEN)
    for row in rows:
        print(row.told())
    if words.states is not None:
        for kind, bound in (("may", lambda row: row.licensed), ("must", lambda row: row.states)):
            names = [f"{row.flow} {row.check}" for row in rows if bound(row) > words.states]
            print(f"{kind} be undecided under {words.states}: {', '.join(names) or 'none'}")


if __name__ == "__main__":
    main()

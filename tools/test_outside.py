#!/usr/bin/env python3
"""Tests the built program from outside: every status, every refusal, and files, outputs, words and memory that fail.

    tools/test_outside.py PROGRAM

PROGRAM is the built program itself, which ./rela keeps as out/rela-*. A run may be silent for two minutes, and nothing may stand on
its standard error. The last line is `N passed, M failed`, and the status is 1 where one failed. It needs no kit, and takes seconds.
"""
import os
import resource
import sys
import tempfile

sys.dont_write_bytecode = True
from outside import inputs, outputs
from outside.faulty import WEB, refusals, snapshot
from outside.outputs import BAD_WORDS
from outside.program import (CERTIFICATE, FAILS, HOLDS, SNAPSHOT, ZONE, Program, audit, certify, check, demo, fib, get, limit, refused,
                             rir, zone)
from tally import finish

# How many flows a long snapshot has, and checks a long specification.
FLOWS = 10_000
# The commands with several inputs that may be refused, each with these in the order in which they are read.
ORDERS = {check: ("locations", "before", "after", "spec"), rir: ("locations", "before", "after", "assertions"),
          zone: ("locations", "spec"), certify: ("locations", "before", "after", "spec"),
          audit: ("locations", "before", "after", "spec", "certificate"), fib: ("locations", "tables", "other")}
# The most bytes of a word that Linux passes to a program.
LONGEST = 131_071
DIFFERS = "21 FlowDiffers web dst 10.1.0.0/24 src 0.0.0.0/0 class default dst 10.2.0.0/24 src 0.0.0.0/0 class default"
NOT_LIMITS = "", "0", "01", "+1", "-1", " 1", "1 ", "1e3", "0x1", "4000001", "18446744073709551617", "\uff11", "--"
BAD = [["Check"], ["--help"], ["-h"], ["--version"], [""], ["-"], ["--"], ["--", *check()], ["check"], ["fmt"],
       check()[:-1], [*check(), "spec"], [*check(), ""], ["check", ""], ["fmt", "spec", "spec"], ["fmt", "fifo-spec", "spec"],
       ["fmt", "--states=1", "spec"], ["fmt", "-x"], ["Rir", *rir()[1:]], ["rir"], rir()[:-1], [*rir(), "assertions"],
       rir("--states=0"), rir("--states=1", "--states=1"), rir("-x"), [*rir(), "--states"], ["Zone", *zone()[1:]], ["zone"],
       check("--blame", "--blame"), check("--blame=1"), check("--Blame"), rir("--blame"), zone("--blame"), ["fmt", "--blame", "spec"],
       zone()[:-1], [*zone(), "c"], zone("--states=0"), zone("--states=1", "--states=1"), zone("-x"), zone(name="-x"),
       [*zone(), "--states"], check("-x"), check("--state=1"), check("--states"), [*check(), "--states"],
       check("--states=1", "--states=1"), check("--states=1", "--states", "1"), [*check("--states", "1"), "--states=2"],
       *(["demo", it] for it in (*NOT_LIMITS, "201", "1000")), ["demo"], ["demo", "1", "1"], ["demo", "--states=1", "1"], ["Demo", "1"],
       *(check("--states", it) for it in NOT_LIMITS), *(check(f"--states={it}") for it in NOT_LIMITS),
       ["certify"], certify()[:-1], [*certify(), "certificate"], certify("--states=0"), certify("--blame"), ["Certify", *certify()[1:]],
       ["audit"], audit()[:-1], [*audit(), "certificate"], audit("--states=1"), audit("--blame"), ["fib"], fib()[:-1], [*fib(), "other"],
       fib("--states=1"), fib("-x"), ["x" * LONGEST], check(f"--states={'9' * 100_000}"), ["check", *["x" * 100_000] * 10],
       ["check", *["x"] * 100_000]]
# A certificate that lists no row.
EMPTY = b"rela certificate 1\nend\n"
NO_TEXTS = b"\xff", b"\xc3", b"\xc0\xaf", b"\xed\xa0\x80", b"\xf4\x90\x80\x80"
# Names of files, and the words before the operands with which they are names.
NAMES = {"-": [], " ": [], "\u00e9\n": [], "x" * 255: [], "-x": ["--"], "--": ["--"], "--states=1": ["--"], "--states": ["--"]}


def statuses(it):
    """The statuses 0 to 5, and 8; 6 and 7 have tests of their own."""
    it.ends("no change", it.run(*check(after="before")), (0, it.same))
    it.ends("a change", it.run(*check()), (1, it.moved))
    it.ends("no change with blame", it.run(*check("--blame", after="before")), (0, it.same))
    it.ends("a change with blame", it.run(*check("--blame")), (1, it.blamed))
    it.ends("a text", it.run("fmt", "spec"), (0, b"level interface;\n" + it.texts["spec"]))
    it.ends("no words", it.run(), (2, BAD_WORDS))
    for states, status, row in (("1", 3, "undecided\ntotal 1 compliant 0 violated 0 undecided 1"),
                                ("1000", 0, "compliant\ntotal 1 compliant 1 violated 0 undecided 0")):
        found = it.run(*check("--states", states, after="before", spec="complement"))
        it.ends(f"{states} states", found, (status, f"flow web check c {row} unselected 0\n".encode()))
    it.ends("an assertion on no change", it.run(*rir(after="before")), (0, HOLDS))
    it.ends("an assertion on a change", it.run(*rir()), (1, FAILS))
    it.put(b"assert a = equal(complement(leaf1:up), star(all));")
    for states, status, row in (("1", 3, "undecided\n  leaf 1: undecided\ntotal 1 holds 0 fails 0 undecided 1"),
                                ("1000", 1, "fails\n  leaf 1: second: leaf1:up\ntotal 1 holds 0 fails 1 undecided 0")):
        found = it.run(*rir("--states", states, assertions="input"))
        it.ends(f"an assertion under {states} states", found, (status, f"flow web assert a {row}\n".encode()))
    it.ends("a zone", it.run(*zone()), (0, ZONE))
    it.ends("a zone under 2 states", it.run(*zone("--states", "2")), (3, b"undecided\n"))
    it.ends("a zone under 1000 states", it.run(*zone("--states=1000")), (0, ZONE))
    it.ends("a certificate", it.run(*certify()), (0, CERTIFICATE))
    it.ends("a certificate of a change that is not met", it.run(*certify(after="after")), (0, EMPTY))
    it.ends("a certificate under 1000 states", it.run(*certify("--states=1000")), (0, CERTIFICATE))
    it.ends("a certificate under 1 state", it.run(*certify("--states", "1")), (0, EMPTY))
    it.ends("an audit", it.run(*audit()), (0, b"accepted 1\n"))
    it.ends("an audit of a change", it.run(*audit(after="after")), (1, b"rejected at 3\n"))
    it.ends("a snapshot", it.run(*fib()), (0, SNAPSHOT))
    for layers in (1, 2, 3, 20, 200):
        it.ends(f"{layers} layers", it.run("demo", str(layers)), (1, demo(layers)))
    it.ends("a faulty input", it.run(*check(spec="before")), refused("spec", "32 Syntax at 0"))
    it.ends("a missing file", it.run(*check(after="none")), (5, b""))
    it.ends("a word that is no text", it.run("fmt", b"\xff"), (8, b""))


def refusing(it):
    """Each refusal at each of its places, and the order of the places."""
    for operand, text, said in refusals(it.texts["locations"].decode()):
        it.put(text.encode())
        for command, in_order in ORDERS.items():
            if operand in in_order:
                found = it.run(*command(**{operand: "input"}))
                it.ends(f"{operand} {said}, under {command.__name__}", found, refused(operand, said))
    it.put(b"?", "bad")
    for operand, flow in (("before", WEB), ("after", WEB.replace("10.1", "10.2"))):
        it.put(snapshot(flow).encode(), f"other-{operand}")
    for command, in_order in ORDERS.items():
        for at, operand in enumerate(in_order[:-1]):
            rest, under = in_order[at + 1:], f"under {command.__name__}"
            found = it.run(*command(**{operand: "bad"}, **dict.fromkeys(rest, "none")))
            said = "32 Syntax at 0" if operand == "spec" else "11 NotJson"
            it.ends(f"a faulty file as {operand} before missing ones, {under}", found, refused(operand, said))
            found = it.run(*command(**{operand: "none"}, **dict.fromkeys(rest, "bad")))
            it.ends(f"a missing file as {operand} before faulty ones, {under}", found, (5, b""))
    differ = {"before": "other-before", "after": "other-after"}
    found = it.run(*check(**differ, spec="none"))
    it.ends("flows that differ before a missing specification", found, refused("pair", DIFFERS))
    it.ends("flows that differ before missing assertions", it.run(*rir(**differ, assertions="none")), refused("pair", DIFFERS))
    for name in ("C", "none", "", "\u00e9", "x" * LONGEST):
        it.ends(f"no check {name[:9]!r}", it.run(*zone(name=name)), refused("words", "33 UnknownName"))
    it.ends("a faulty specification before no check", it.run(*zone(spec="bad", name="none")), refused("spec", "32 Syntax at 0"))
    it.ends("a missing specification before no check", it.run(*zone(spec="none", name="none")), (5, b""))


def certificates(it):
    """Texts that are no certificate of the example, each rejected at its first faulty line, or where a line is missing."""
    it.put(EMPTY, "empty")
    it.ends("a certificate of no row", it.run(*audit(certificate="empty")), (0, b"accepted 0\n"))
    head, row, images, *words, end = lines = CERTIFICATE.splitlines(keepends=True)
    last = len(lines)
    for what, text, line in (
            ("an empty text", b"", 1), ("another version", CERTIFICATE.replace(b"1", b"2", 1), 1),
            ("no last line", b"".join(lines[:-1]), last), ("no last line feed", CERTIFICATE[:-1], last),
            ("a line behind the last", CERTIFICATE + end, last + 1), ("a byte behind the last", CERTIFICATE + b"x", last + 1),
            ("a row twice", b"".join([head, *lines[1:-1] * 2, end]), last), ("an unknown flow", CERTIFICATE.replace(b"web", b"dns"), 2),
            ("an unknown check", CERTIFICATE.replace(b"keep", b"lose"), 2), ("no row", b"".join([head, images, *words, end]), 2),
            ("a complement too many", b"".join([head, row, b"complement\n", images, *words, end]), 3),
            ("no images", b"".join([head, row, end]), 3), ("images twice", b"".join([*lines[:-1], images, end]), last),
            ("a word that isn't there yet", b"".join([head, row, images, b"1 0\n", end]), 4),
            ("a symbol that there isn't", b"".join([head, row, images, b"0 8\n", end]), 4),
            ("a number with a zero before it", b"".join([head, row, images, b"0 00\n", end]), 4),
            ("two blanks", b"".join([head, row, images, b"0  0\n", end]), 4),
            ("a number of a thousand digits", b"".join([head, row, images, b"0 " + b"1" * 1000 + b"\n", end]), 4),
            ("a carriage return", CERTIFICATE.replace(b"\n", b"\r\n"), 1),
            ("words that aren't closed", b"".join([head, row, images, end]), 3)):
        it.put(text)
        it.ends(f"a certificate with {what}", it.run(*audit(certificate="input")), (1, b"rejected at %d\n" % line))
    it.put(b"".join([head, row, images]) + b"0 0\n" * 8_388_000)
    found = it.run(*audit(certificate="input"))
    it.ends("a certificate of many words", found, (1, b"rejected at 8388004\n"))


def command_lines(it):
    for some in BAD:
        it.ends(f"the words {str(some)[:100]}", it.run(*some), (2, BAD_WORDS))
    for word in NO_TEXTS:
        for some in ([word], ["fmt", word], check("--", spec=word), [*check(), word], rir(assertions=word), zone(name=word)):
            it.ends(f"the words {some}", it.run(*some), (8, b""))
    for name, options in NAMES.items():
        it.put(it.texts["spec"], name)
        it.ends(f"a file with the name {name!r}", it.run(*check(*options, spec=name)), (1, it.moved))
    for some in ([*check(), "--"], check("--states=4000000", "--"), ["check", "before", "--states", "1000", *check()[2:]]):
        it.ends(f"the words {some}", it.run(*some), (1, it.moved))
    for some in ([*check(), "--blame"], check("--blame", "--states=1000", "--"), ["check", "before", "--blame", *check()[2:]]):
        it.ends(f"the words {some}", it.run(*some), (1, it.blamed))
    it.ends("a file with the name of the flag", it.run(*check("--", before="--blame")), (5, b""))
    for some in ([*rir(), "--"], rir("--states=4000000", "--"), ["rir", "before", "--states", "1000", *rir()[2:]]):
        it.ends(f"the words {some}", it.run(*some), (1, FAILS))
    it.put(b"check -x : { .* : preserve };")
    found = it.run(*zone("--", spec="input", name="-x"))
    it.ends("a check with a dash before its name", found, (0, b"states 1\nstate 0 accept\n  else to 0\n"))
    for some in ([*certify(), "--"], certify("--states=4000000", "--")):
        it.ends(f"the words {some}", it.run(*some), (0, CERTIFICATE))
    for words, wanted in ((audit, b"accepted 1\n"), (fib, SNAPSHOT)):
        it.ends(f"-- before the operands of {words.__name__}", it.run(*words("--")), (0, wanted))
    for some in ([*zone(), "--"], zone("--states=4000000", "--"), ["zone", "locations", "--states", "1000", *zone()[2:]]):
        it.ends(f"the words {some}", it.run(*some), (0, ZONE))
    it.ends("a number of layers behind --", it.run("demo", "--", "3"), (1, demo(3)))
    it.ends("the longest words as files", it.run("check", *["x" * LONGEST] * 4), (5, b""))


def long_runs(it):
    """Writes long files, and returns two runs over them, each as its words, its status and its output."""
    one, other = (it.texts[name].decode().rsplit("]", 1)[0].split('"flows": [', 1) for name in ("before", "after"))
    for name, kinds in (("long-before", (one, one)), ("long-after", (one, other))):
        flows = ",".join(kinds[at % 2][1].replace("web", f"f{at}") for at in range(FLOWS))
        it.put(f'{one[0]}"flows": [{flows}]}}'.encode(), name)
    kinds = [report.decode().rsplit("total", 1)[0] for report in (it.same, it.moved)]
    rows = "".join(kinds[at % 2].replace("web", f"f{at}") for at in range(FLOWS))
    total = f"total {FLOWS} compliant {FLOWS // 2} violated {FLOWS // 2} undecided 0 unselected 0\n"
    it.put(it.texts["spec"] * FLOWS, "long-spec")
    return ((check(before="long-before", after="long-after"), 1, (rows + total).encode()),
            (["fmt", "long-spec"], 0, b"level interface;\n" + it.texts["spec"] * FLOWS))


def memory(it, words, *wanted):
    """Gives it more and more memory, from just so much that the system can load it up to what suffices."""
    size, ends = 1_000_000, []
    while it.run(preexec_fn=limit(resource.RLIMIT_AS, size))[0] not in (2, 7) and size < 100_000_000:
        size += 100_000
    while not ends or ends[-1] == 7:
        found = it.run(*words, preexec_fn=limit(resource.RLIMIT_AS, size))
        it.ends(f"{size} bytes of memory", found, wanted, (7, b""))
        ends.append(found[0])
        size += size // 10
    it.holds(f"with little memory the status is 7, and with enough as usual, not {ends}", {*ends} == {7, wanted[0]})


def main(words):
    if len(words) != 1 or words[0].startswith("-") or not os.access(words[0], os.X_OK):
        print(__doc__, file=sys.stderr)
        return 2
    with tempfile.TemporaryDirectory(prefix="test-outside-") as room:
        it = Program(words[0], room)
        for test in (statuses, refusing, certificates, inputs.cannot_be_read, inputs.other_kinds, inputs.same_file, inputs.sizes,
                     inputs.changes, command_lines, outputs.takes_nothing, outputs.starts_otherwise):
            test(it)
        for run in long_runs(it):
            for test in (outputs.takes_some, outputs.slowly, outputs.breaks_off, memory):
                test(it, *run)
        it.holds("no input is changed", all(get(f"{room}/{name}") == text for name, text in it.texts.items()))
    return finish()


if __name__ == "__main__":
    sys.exit(main(sys.argv[1:]))

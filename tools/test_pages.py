#!/usr/bin/env python3
"""Tests that the pages tell the truth: each shows what the runs of its example gave, the guide's mistakes have their answers, and
the README's workflow does what it says.

    tools/test_pages.py

Its last line is `N passed, M failed`, and its status 1 where one failed. It needs no kit and no program, and takes seconds.
"""
import os
import re
import subprocess
import sys
import tempfile

sys.dont_write_bytecode = True
from run_examples import EXAMPLES, runs_of
from tally import finish, holds

TOP = os.path.dirname(EXAMPLES)
GUIDE = f"{TOP}/docs/GUIDE.md"
# With this behind it, a command on a page shows no compliant rows.
CUT = " | grep -v 'compliant$'"


def text_of(path):
    with open(path, encoding="utf-8", newline="") as file:
        return file.read()


def put(text, path):
    with open(path, "w", encoding="utf-8", newline="") as file:
        file.write(text)
    return path


def answers(page, folder):
    """The blocks of a page that begin with a command for the program: its words, what is written, and whether CUT is behind."""
    for block in re.findall(r"^```\n\$ (.*?)^```", text_of(page), re.M | re.S):
        command, _, output = block.partition("\n")
        command, cut, _ = command.partition(CUT)
        words = command.replace(f"examples/{folder}/", "").split()
        if words[0] in ("./rela", "../../rela") and "\n$ " not in block:
            yield words[1:], output, bool(cut)


def without_compliant(report):
    """What CUT leaves of a report."""
    return "".join(it for it in report.splitlines(keepends=True) if not it.endswith("compliant\n"))


def files_below(folder):
    return [os.path.relpath(f"{at}/{it}", folder) for at, _, names in os.walk(folder) for it in names]


def is_shown(text, page):
    """Whether a page has a text as lines of their own, or a text of one line between marks."""
    return f"```\n{text}```" in page or f"\n{text}```" in page or (text.count("\n") == 1 and f"`{text[:-1]}`" in page)


def shows_what_runs_gave(name):
    folder = f"{EXAMPLES}/{name}"
    path = GUIDE if name == "first-steps" else f"{folder}/README.md"
    runs, shown, page = runs_of(folder), list(answers(path, name)), text_of(path)
    kept = {" ".join(words): text_of(f"{folder}/{report}") for report, _, *words in runs}
    known = [(*words, cut) for words, _, cut in shown]
    wanted = [(without_compliant if cut else str)(kept.get(" ".join(words), "")) for words, _, cut in shown]
    holds(f"what {name} shows is what runs gave", shown and wanted == [output for _, output, _ in shown])
    reports = {it: words for it, _, *words in runs if it.endswith(".report")}
    holds(f"{name} shows each report", all(
        is_shown(text_of(f"{folder}/{it}"), page) or (*words, True) in known for it, words in reports.items()))
    files = files_below(folder)
    holds(f"each report of {name} has a run", {it for it in files if it.endswith(".report")} == {*reports})
    specs = [it for it in files if it.endswith((".rela", ".assert")) and not it.startswith("mistakes/")]
    holds(f"{name} shows each specification", specs and all(is_shown(text_of(f"{folder}/{it}"), page) for it in specs))
    calls = re.findall(r"^\$ \.\./\.\./rela (fib .*) >(.*)$", page, re.M)
    made = [(" ".join(words), it) for it, _, *words in runs if words[0] == "fib"]
    holds(f"{name} shows how each snapshot is made of tables", calls == made)
    files = [it for it in ("locations.json", "before.tables.json") if name == "own-network"]
    holds(f"{name} shows what is written by hand", all(is_shown(text_of(f"{folder}/{it}"), page) for it in files))
    for report, status, *words in runs:
        text = kept[" ".join(words)]
        failed = " violated\n" in text or " fails\n" in text or text.startswith("rejected at ")
        wanted = "4" if text.startswith("refused ") else "1" if failed else "0"
        holds(f"the status of {name}/{report} fits it", status == wanted)


def pairs_mistakes_with_answers():
    folder = f"{EXAMPLES}/first-steps/mistakes"
    kept = [(text_of(f"{folder}/{it}"), text_of(f"{folder}/{it[:-7]}.rela")) for it in os.listdir(folder) if it.endswith(".report")
            and not it.startswith("after")]
    rows = re.findall(r"^\| (.*?) \| `(refused spec .*?)` \|", text_of(GUIDE), re.M)
    for written, answer in rows:
        piece = [*re.findall(r"`(.*?)(?: \.\.)?;?`", written), ""][0]
        holds(f"{written} has its answer", any(answer + "\n" == report and piece in spec for report, spec in kept))
    holds("the guide has each mistake", len(rows) == sum(report.startswith("refused") for report, _ in kept))


def tells_places():
    blocks = re.findall(r"^```\n\$ (.*?)^```", text_of(GUIDE), re.M | re.S)
    found = [it.partition("\n") for it in blocks if not it.startswith("../../rela")]
    for command, _, output in found:
        done = subprocess.run(["bash", "-c", command], cwd=f"{EXAMPLES}/first-steps", capture_output=True, text=True)
        holds(f"the guide's command `{command[:40]} ..` gives what it shows", (done.returncode, done.stdout) == (0, output))
    holds("the guide has commands for an offset and for a row", len(found) == 2)


def follows_the_workflow(room):
    found = re.search(r"run: \|\n((?: {10}.*\n)+)```", text_of(f"{TOP}/README.md"))
    script, unchecked = found[1].replace("/opt/rela/rela", f"{room}/rela"), "Not all was checked"
    total = "total {} compliant 119 violated {} undecided {} unselected {}\n".format
    violated, undecided = "flow f check c violated\n  extra: a\n  after: a\n", "flow f check c undecided\n"
    cases = [("all is well", 0, total(120, 0, 0, 0), 0, ""), ("a row is unselected", 0, total(120, 0, 0, 1), 1, unchecked),
             ("a row is lacking", 0, total(119, 0, 0, 0), 1, unchecked),
             ("a row is violated", 1, violated + total(120, 1, 0, 0), 1, violated),
             ("a row is undecided", 3, undecided + total(120, 0, 1, 0), 3, undecided),
             ("an input is refused", 4, "refused spec 32 Syntax at 9\n", 4, "refused spec 32 Syntax at 9"),
             ("memory ran out", 7, "", 7, "ended with status 7"), ("the build failed", 126, "", 126, "ended with status 126")]
    for what, status, text, wanted, told in cases:
        put(text, f"{room}/said")
        os.chmod(put(f"#!/bin/sh\ncat {room}/said\nexit {status}\n", f"{room}/rela"), 0o755)
        how = {"cwd": room, "env": {**os.environ, "ROWS": "120"}, "capture_output": True, "text": True}
        done = subprocess.run(["bash", "-e", "-c", script], **how)
        is_told = told in done.stdout and ("::error::" in done.stdout) == (wanted != 0)
        holds(f"the workflow tells where {what}", (done.returncode, is_told, done.stderr) == (wanted, True, ""))


def main():
    with tempfile.TemporaryDirectory(prefix="test-pages-") as room:
        follows_the_workflow(room)
    for name in sorted(it.name for it in os.scandir(EXAMPLES) if it.is_dir()):
        shows_what_runs_gave(name)
    pairs_mistakes_with_answers()
    tells_places()
    return finish()


if __name__ == "__main__":
    sys.exit(main())

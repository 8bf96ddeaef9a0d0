#!/usr/bin/env python3
"""Counts what checks cost: instructions, time and peak memory, of one program or of several beside each other.

    bench/costs.py [--program LABEL=PROGRAM].. [--callgrind] [--repeat N] FOLDER..

A FOLDER has before.json, after.json, loc.json and specifications, files *.rela; each specification is one line of the
table, and the files without one, which is what loading costs, are another. PROGRAM is the built binary,
crates/rela_main/out/rela_main if none is given. For each program there are the least seconds of N runs, 3 if N isn't
given, the peak memory in MB by GNU time and, with --callgrind, the million instructions by valgrind, which don't
depend on the machine; for each but the first also the ratio of the first to it. An answer that differs from the first
program's is marked DIFFERS, and the status is then 1.
"""
import argparse
import os
import re
import subprocess
import sys
import tempfile
import time
from dataclasses import dataclass

TOP = os.path.dirname(os.path.dirname(os.path.abspath(__file__)))
PROGRAM = os.path.join(TOP, "crates", "rela_main", "out", "rela_main")
MISSING = "a-specification-that-is-not-there.rela"
COUNTED = re.compile(rb"Collected : (\d+)")


@dataclass
class Cost:
    """What one program's run of a check gave, and what it cost. Counts that weren't made are None."""

    status: int
    text: bytes
    seconds: float
    megabytes: float
    instructions: float | None

    def cells(self, first):
        """Returns the cells of the table, beside the first program's cost."""
        same = (self.status, self.text) == (first.status, first.text)
        return [f"{self.seconds:.3f}{'' if same else ' DIFFERS'}", f"{self.megabytes:.1f}", self.counted(first)]

    def counted(self, first):
        if self.instructions is None:
            return "-"
        ratio = "" if self is first else f" ({first.instructions / self.instructions:.2f})"
        return f"{self.instructions:.1f}{ratio}"


def run(command):
    """Returns the status, the standard output, the seconds and the peak memory in MB of a run, by GNU time: the peak of a
    child of this process would be at least that of Python."""
    with tempfile.NamedTemporaryFile("r") as told:
        words = ["/usr/bin/time", "--quiet", "-f", "%M", "-o", told.name, *command]
        begun = time.perf_counter()
        ran = subprocess.run(words, stdin=subprocess.DEVNULL, stdout=subprocess.PIPE, stderr=subprocess.DEVNULL)
        seconds = time.perf_counter() - begun
        return ran.returncode, ran.stdout, seconds, int(told.read()) / 1024


def instructions(command):
    """Returns the million instructions of a run."""
    words = ["valgrind", "--tool=callgrind", f"--callgrind-out-file={os.devnull}", *command]
    said = subprocess.run(words, stdin=subprocess.DEVNULL, stdout=subprocess.DEVNULL, stderr=subprocess.PIPE).stderr
    return int(COUNTED.search(said)[1]) / 1e6


def cost(command, repeat, callgrind):
    runs = [run(command) for _ in range(repeat)]
    status, text, _, _ = runs[0]
    counted = instructions(command) if callgrind else None
    return Cost(status, text, min(it[2] for it in runs), max(it[3] for it in runs), counted)


def checks(folder):
    """Returns the lines of a folder: what is loaded alone, and each specification's check."""
    files = [os.path.join(folder, name) for name in ("before.json", "after.json", "loc.json")]
    specs = sorted(name for name in os.listdir(folder) if name.endswith(".rela"))
    return [(name, ["check", *files, os.path.join(folder, name)]) for name in [MISSING, *specs]]


def main():
    words = argparse.ArgumentParser(description=__doc__, formatter_class=argparse.RawDescriptionHelpFormatter)
    words.add_argument("--program", action="append", metavar="LABEL=PROGRAM")
    words.add_argument("--callgrind", action="store_true")
    words.add_argument("--repeat", type=int, default=3)
    words.add_argument("folders", nargs="+", metavar="FOLDER")
    asked = words.parse_args()
    programs = [it.partition("=")[::2] for it in asked.program or [f"rela={PROGRAM}"]]
    head = ["input", "check", "status", "rows"]
    for label, _ in programs:
        head += [f"{label} s", f"{label} MB", f"{label} M instructions"]
    print(f"| {' | '.join(head)} |\n|{'---|' * len(head)}", flush=True)
    differs = False
    for folder in asked.folders:
        for name, command in checks(folder):
            costs = [cost([program, *command], asked.repeat, asked.callgrind) for _, program in programs]
            first = costs[0]
            rows = re.search(rb"^total (\d+)", first.text, re.M)
            shown = "loading alone" if name == MISSING else name.removesuffix(".rela")
            cells = [os.path.basename(os.path.normpath(folder)), shown, str(first.status), rows[1].decode() if rows else "-"]
            for it in costs:
                cells += it.cells(first)
            differs |= any((it.status, it.text) != (first.status, first.text) for it in costs)
            print(f"| {' | '.join(cells)} |", flush=True)
    return int(differs)


if __name__ == "__main__":
    sys.exit(main())

#!/usr/bin/env python3
"""Compares the snapshots that forwarding tables give with those of a plain Rust program, and what both cost.

    bench/fib_twin.py [--size ROUTES DEVICES CLASSES].. [--files TABLES OTHER LOCATIONS].. [--folder FOLDER]
                      [PROGRAM]

PROGRAM is called as `PROGRAM fib TABLES OTHER LOCATIONS`; it is the built binary, crates/rela_main/out/rela_main,
if none is given. The plain program is bench/plain/fib.rs, which rustc builds here. The inputs are those of
bench/tables.py: the given files, and files made for the given sizes, two of them if neither is given. For each
input a line has whether the bytes that are written are the same, and of each program the least time of five runs,
the peak memory and, where the files are small and valgrind is there, the million instructions, each with how
many times the plain program's it is. FOLDER keeps the made files, the plain program and the profiles.
"""
import argparse
import os
import shutil
import subprocess
import sys
import tempfile

from tables import TOP, measure, write

SIZES = [(2_000, 50, 300), (100_000, 1_000, 9_900)]
SMALL = 1 << 20


def build(folder):
    """The path of the plain program, built there."""
    path = os.path.join(folder, "plain")
    source = os.path.join(TOP, "bench/plain/fib.rs")
    subprocess.run(["rustc", "--edition=2024", "-C", "opt-level=3", "-o", path, source], check=True)
    return path


def compare(title, programs, paths, folder):
    """Prints what an input costs both programs, and says whether they write the same."""
    small = sum(map(os.path.getsize, paths)) < SMALL and shutil.which("valgrind")
    runs = []
    for name, program in programs.items():
        profile = os.path.join(folder, f"{title}-{name}.callgrind")
        runs.append(measure([program, "fib", *paths], profile if small else None))
    (status, text, *costs), (plain_status, plain_text, *plain_costs) = runs
    same = status == plain_status == 0 and text == plain_text
    cells = [title, len(text), "yes" if same else "NO"]
    for cost, plain, form in zip(costs, plain_costs, ("{:.3f}", "{:.1f}", "{:.0f}")):
        if cost == "-":
            cells += ["-"] * 3
        else:
            cost, plain = float(cost), float(plain)
            cells += [form.format(cost), form.format(plain), f"{cost / plain:.2f}"]
    print("| " + " | ".join(map(str, cells)) + " |", flush=True)
    return same


def main():
    words = argparse.ArgumentParser(description=__doc__, formatter_class=argparse.RawDescriptionHelpFormatter)
    words.add_argument("--size", nargs=3, type=int, action="append", default=[])
    words.add_argument("--files", nargs=3, action="append", default=[])
    words.add_argument("--folder")
    words.add_argument("program", nargs="?", default=os.path.join(TOP, "crates/rela_main/out/rela_main"))
    asked = words.parse_args()
    head = ["input", "bytes", "same"]
    head += [cell for unit in ("s", "MB", "M instructions") for cell in (unit, "plain", "ratio")]
    print("| " + " | ".join(head) + " |\n" + "|---" * len(head) + "|")
    all_same = True
    with tempfile.TemporaryDirectory() as passing:
        folder = asked.folder or passing
        os.makedirs(folder, exist_ok=True)
        programs = {"proved": asked.program, "plain": build(folder)}
        for place, paths in enumerate(asked.files):
            all_same &= compare(f"files {place + 1}", programs, paths, folder)
        for size in asked.size or ([] if asked.files else SIZES):
            all_same &= compare("-".join(map(str, size)), programs, write(folder, size), folder)
    sys.exit(not all_same)


if __name__ == "__main__":
    main()

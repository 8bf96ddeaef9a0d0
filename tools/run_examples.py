#!/usr/bin/env python3
"""Runs the examples, and compares the program's standard output, to the byte, and its status with those that are kept.

    tools/run_examples.py PROGRAM [FOLDER ..]

PROGRAM is ./rela or the built program, and the folders are those of examples/ where none is given. A run is a line of a folder's
runs.txt: the file that has the output, the status, and the words for the program, which is run in that folder. Empty lines and
lines that begin with `#` are no runs.

Each run that differs has a line, and so has a folder without runs. The last line is `N passed, M failed`, and the status is 1
where one failed or there was none. Before all runs PROGRAM formats an empty specification, for which ./rela builds it; where
that fails, nothing is compared, and the status is 2. A run that takes more than 60 seconds is ended, and has failed.
"""
import os
import subprocess
import sys

EXAMPLES = os.path.join(os.path.dirname(os.path.dirname(os.path.realpath(__file__))), "examples")
SECONDS = 60


def why_not_built(program):
    """Has the program built, which may take long, and says why it can't be run, or returns None."""
    try:
        done = subprocess.run([program, "fmt", "/dev/null"], stdin=subprocess.DEVNULL, stdout=subprocess.DEVNULL)
    except OSError as error:
        return error.strerror
    return f"its status on an empty specification is {done.returncode}" if done.returncode else None


def runs_of(folder):
    """Returns the runs of a folder, as lists of words. A ValueError or an OSError says why there are none."""
    with open(f"{folder}/runs.txt", encoding="utf-8") as file:
        runs = [line.split() for line in file if line.strip() and not line.startswith("#")]
    bad = next((run for run in runs if len(run) < 3 or not run[1].isdecimal()), None)
    if bad or not runs:
        raise ValueError(f"a line is no run: {' '.join(bad)}" if bad else "there are no runs")
    return runs


def difference(wanted, found):
    """Says where two different outputs first differ."""
    lines = [text.splitlines(keepends=True) for text in (found, wanted)]
    at = next((at for at, (one, other) in enumerate(zip(*lines)) if one != other), min(map(len, lines)))
    found, wanted = (repr(text[at].decode("latin-1"))[:120] if at < len(text) else "the end" for text in lines)
    return f"line {at + 1} is {found}, not {wanted}"


def fault_of(program, folder, output, status, *words):
    """Runs the program, and says what differs, or returns None."""
    try:
        with open(f"{folder}/{output}", "rb") as file:
            wanted = file.read()
        done = subprocess.run([program, *words], cwd=folder, stdin=subprocess.DEVNULL, capture_output=True, timeout=SECONDS)
    except subprocess.TimeoutExpired:
        return f"no answer within {SECONDS} seconds"
    except OSError as error:
        return str(error)
    faults = [] if done.returncode == int(status) else [f"the status is {done.returncode}, not {status}"]
    faults += [] if done.stdout == wanted else [difference(wanted, done.stdout)]
    return "; ".join(faults) or None


def results_of(program, folder):
    """Yields for each run of a folder its name, and what differs, or None."""
    name = os.path.basename(os.path.abspath(folder))
    try:
        runs = runs_of(folder)
    except (OSError, ValueError) as error:
        yield f"{name}/runs.txt", str(error)
        return
    for run in runs:
        yield f"{name}/{run[0]}", fault_of(program, folder, *run)


def main(words):
    if words[:1] in (["-h"], ["--help"]):
        print(__doc__)
        return 0
    if not words or words[0].startswith("-"):
        print(__doc__, file=sys.stderr)
        return 2
    program = os.path.abspath(words[0]) if os.sep in words[0] else words[0]
    why = why_not_built(program)
    if why:
        print(f"run_examples: {words[0]} can't be run: {why}", file=sys.stderr)
        return 2
    counts = [0, 0]
    for folder in words[1:] or sorted(it.path for it in os.scandir(EXAMPLES) if it.is_dir()):
        for name, fault in results_of(program, folder):
            counts[fault is not None] += 1
            if fault is not None:
                print(f"{name}: {fault}", flush=True)
    print(f"{counts[0]} passed, {counts[1]} failed")
    return 0 if counts[0] and not counts[1] else 1


if __name__ == "__main__":
    sys.exit(main(sys.argv[1:]))

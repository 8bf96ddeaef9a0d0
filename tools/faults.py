#!/usr/bin/env python3
"""Runs the built program again and again, and each time refuses another of its requests for memory, or fails or shortens
another of its reads and writes.

    tools/faults.py [--most N] PROGRAM

A run is right where it ends as without the fault, or as the fault is told: with status 7 and nothing written where memory is
refused, with 5 and nothing where a file can't be opened or read, with 6 and a part of the text where a write fails. A read or
write of one byte changes nothing. Of a run's requests N are tried at most, spread evenly, each alone and with all after it. For
each run and kind of fault a line says how many runs ended which way. The last line is `N passed, M failed`. It needs a C
compiler, Linux and glibc, and takes minutes.
"""
import argparse
import collections
import concurrent.futures
import os
import subprocess
import sys
import tempfile

TOP = os.path.dirname(os.path.dirname(os.path.realpath(__file__)))
SHIM = f"{TOP}/tools/outside/faults.c"
# A specification of the example first-steps that has each modifier.
MODIFIERS = f"{TOP}/tools/outside/every-modifier.rela"
CHECK = "before.json", "after.json", "locations.json"
# The folders of examples, with the words for the program in them.
RUNS = {
    "check": ("first-check", ["check", *CHECK, "keep-the-path.rela"]),
    "check of every modifier": ("first-steps", ["check", *CHECK, MODIFIERS]),
    "check with blame": ("drain", ["check", "--blame", "before.json", "after-bad.json", "locations.json", "drain.rela"]),
    "check with undecided rows": ("first-steps", ["check", "--states=1", *CHECK, MODIFIERS]),
    "check of a file that is no specification": ("first-check", ["check", *CHECK, "before.json"]),
    "rir": ("drain", ["rir", "before.json", "after-bad.json", "locations.json", "drain.assert"]),
    "rir with undecided rows": ("drain", ["rir", "--states=1", "before.json", "after-bad.json", "locations.json", "drain.assert"]),
    "certify": ("drain", ["certify", "before.json", "after-good.json", "locations.json", "drain.rela"]),
    "certify that leaves rows out": ("drain", ["certify", "--states=1", "before.json", "after-bad.json", "locations.json", "drain.rela"]),
    "audit": ("drain", ["audit", "before.json", "after-good.json", "locations.json", "drain.rela", "good.certificate"]),
    "audit that rejects": ("drain", ["audit", "before.json", "after-bad.json", "locations.json", "drain.rela", "good.certificate"]),
    "zone": ("first-steps", ["zone", "locations.json", "step4.rela", "moved"]),
    "zone that is undecided": ("first-steps", ["zone", "--states=1", "locations.json", "step4.rela", "moved"]),
    "fmt": ("first-check", ["fmt", "keep-the-path.rela"]),
    "fib": ("own-network", ["fib", "before.tables.json", "after-good.tables.json", "locations.json"]),
    "demo": ("first-check", ["demo", "3"]),
    "words that ask for nothing": ("first-check", ["check"]),
}
# The kinds of fault, each with the status that tells it; None where it changes nothing.
FAULTS = {"memory": 7, "open": 5, "read": 5, "write": 6, "short-read": None, "short-write": None}
ALL = str(2**63)


def run(program, folder, words, shim, fault, first, last):
    """Returns the status and the output of one run, and how many calls of the fault's kind it made."""
    with tempfile.NamedTemporaryFile() as counts:
        env = {"LD_PRELOAD": shim, "FAULT": fault, "FIRST": first, "LAST": last, "COUNTS": counts.name}
        done = subprocess.run([program, *words], cwd=folder, env=env, capture_output=True, stdin=subprocess.DEVNULL, timeout=120)
        return done.returncode, done.stdout, int(counts.read() or 0)


def ending(found, own, told):
    """Returns how a run ended: as without a fault, as the fault is told, or None."""
    (status, out, _), (own_status, own_out, _) = found, own
    if (status, out) == (own_status, own_out):
        return "as without it"
    part = own_out.startswith(out) if told == 6 else out == b""
    return f"status {told}" if told is not None and status == told and part else None


def tries(count, most):
    """Returns the first and last calls that are refused: each alone, and each with all that follow."""
    step = max(1, count // most)
    chosen = [*range(1, count + 1, step), *([count] if count else [])]
    return [(str(at), last) for at in dict.fromkeys(chosen) for last in (str(at), ALL)]


def main(program, most):
    program, passed, failed = os.path.abspath(program), 0, 0
    with tempfile.TemporaryDirectory() as room, concurrent.futures.ThreadPoolExecutor(os.cpu_count()) as pool:
        shim = f"{room}/faults.so"
        subprocess.run(["cc", "-O2", "-shared", "-fPIC", "-o", shim, SHIM], check=True)
        for name, (folder, words) in RUNS.items():
            place = f"{TOP}/examples/{folder}"
            for fault, told in FAULTS.items():
                own = run(program, place, words, shim, fault, "1", "0")
                ends = collections.Counter()
                places = tries(own[2], most)
                for (first, last), found in zip(places, pool.map(lambda at: run(program, place, words, shim, fault, *at), places)):
                    end = ending(found, own, told)
                    ends[end] += 1
                    if end is None:
                        print(f"FAILED: {name}, {fault} from {first} to {last}: {found[:2]!r}"[:300], flush=True)
                passed, failed = passed + ends.total() - ends[None], failed + ends[None]
                told_ends = ", ".join(f"{count} {end}" for end, count in sorted(ends.items(), key=str))
                print(f"{name}, {fault}: {own[2]} calls; {told_ends or 'none'}", flush=True)
    print(f"{passed} passed, {failed} failed")
    return 1 if failed else 0


if __name__ == "__main__":
    how = argparse.ArgumentParser(description=__doc__, formatter_class=argparse.RawDescriptionHelpFormatter)
    how.add_argument("--most", type=int, default=20_000, metavar="N", help="how many of a run's requests are refused at most")
    how.add_argument("program", metavar="PROGRAM")
    args = how.parse_args()
    sys.exit(main(args.program, args.most))

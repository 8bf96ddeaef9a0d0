#!/usr/bin/env python3
"""Times the snapshots that forwarding tables give, and compares programs that write them.

    bench/tables.py [--size ROUTES DEVICES CLASSES].. [--files TABLES OTHER LOCATIONS].. [--callgrind]
                    [--folder FOLDER] [PROGRAM..]

A PROGRAM is called as `PROGRAM fib TABLES OTHER LOCATIONS`; it is the built binary,
crates/rela_main/out/rela_main, if none is given. The inputs are the given files, and files made for the
given sizes, three of them if neither is given. For each input and program a line has the flows and bytes
that are written, whether the bytes are the first program's, the least time of five runs, the peak memory,
and with --callgrind the million instructions. FOLDER keeps the made files and the profiles.
"""
import argparse
import hashlib
import json
import os
import random
import re
import subprocess
import sys
import tempfile
import time

TOP = os.path.dirname(os.path.dirname(os.path.abspath(__file__)))
SIZES = [(1_000, 100, 1_000), (10_000, 300, 4_000), (100_000, 1_000, 9_900)]
LIMIT, NODES = 33_554_432, 10_000
PORTS, NEAR = 4, 6


def prefixes_for(classes, dice):
    """Prefixes that cut so many classes or a few more: one more than there are cells of the trie that have a
    prefix as a proper part."""
    found, cells = set(), set()
    while len(cells) + 1 < classes:
        length = dice.choice([16, 20, 24, 24, 24])
        number = (10 << 24 | dice.randrange(1 << 24)) >> 32 - length
        found.add((number << 32 - length, length))
        cells.update((number >> up, length - up) for up in range(1, length + 1))
    return sorted(found)


def text_of(prefix):
    address, length = prefix
    return ".".join(str(address >> shift & 255) for shift in (24, 16, 8, 0)) + f"/{length}"


def route(prefix, near, dice):
    """One of ten routes drops, one delivers, and the others have up to three equal hops."""
    kind = dice.randrange(10)
    hops = [] if kind == 0 else dice.sample(near, dice.randint(1, min(3, len(near))))
    return {"prefix": prefix} if kind == 1 else {"prefix": prefix, "hops": hops}


def made(routes, devices, classes):
    """Tables before and after a change that announces 2% of the prefixes and moves 1% of the routes, and the
    locations. Traffic starts and goes on at the ports of some first devices: of as many as let a snapshot hold
    its classes, at 30 bytes a node and 150 a flow."""
    dice = random.Random(f"{routes} {devices} {classes}")
    prefixes = [text_of(prefix) for prefix in prefixes_for(classes, dice)]
    new = set(dice.sample(prefixes, len(prefixes) // 50))
    dice.shuffle(prefixes)
    each = min(len(prefixes), max(1, routes // devices - 1))
    ports = [[f"r{device:05}:{port}" for port in range(PORTS)] for device in range(devices)]
    core = ports[: max(1, min(NODES, (LIMIT // classes - 150) // 30) // PORTS)]
    before, after = [], []
    for device in range(devices):
        near = dice.sample([port for at in core for port in at], min(NEAR, PORTS * len(core)))
        default = {"prefix": "0.0.0.0/0", "hops": near[: device % 2]}
        picked = sorted(prefixes[(device * each + place) % len(prefixes)] for place in range(each))
        listed = [route(prefix, near, dice) for prefix in picked]
        moved = [route(one["prefix"], near, dice) if dice.random() < 0.01 else one for one in listed]
        kept = [one for one in listed if one["prefix"] not in new]
        before.append({"device": f"r{device:05}", "routes": [default, *kept]})
        after.append({"device": f"r{device:05}", "routes": [default, *moved]})
    starts = [at[0] for at in core]
    groups = []
    for first in range(0, devices, 100):
        inside = range(first, min(first + 100, devices))
        those = [{"name": f"r{device:05}", "interfaces": ports[device]} for device in inside]
        groups.append({"name": f"g{first // 100}", "devices": those})
    tables, other = ({"version": 1, "starts": starts, "tables": listed} for listed in (before, after))
    return {"tables": tables, "other": other, "locations": {"version": 1, "groups": groups}}


def write(folder, size):
    """The paths of the files made for a size."""
    paths = []
    for name, value in made(*size).items():
        paths.append(os.path.join(folder, "-".join(map(str, size)) + f"-{name}.json"))
        with open(paths[-1], "w") as file:
            json.dump(value, file, separators=(",", ":"))
        assert os.path.getsize(paths[-1]) <= LIMIT, paths[-1]
    return paths


def measure(command, profile):
    """The status of a run and what it wrote, the least time of five runs, the peak memory in MB, and the
    million instructions where there is a profile to be written."""
    run = subprocess.run(["/usr/bin/time", "-f", "%M", *command], capture_output=True)
    peak = int(run.stderr.split()[-1]) / 1024
    least = float("inf")
    for _ in range(5):
        begin = time.perf_counter()
        subprocess.run(command, stdout=subprocess.DEVNULL)
        least = min(least, time.perf_counter() - begin)
    count = "-"
    if profile:
        words = ["valgrind", "--tool=callgrind", f"--callgrind-out-file={profile}", *command]
        told = subprocess.run(words, stdout=subprocess.DEVNULL, stderr=subprocess.PIPE).stderr
        count = f"{int(re.search(rb'Collected : ([0-9]+)', told)[1]) / 1e6:.0f}"
    return run.returncode, run.stdout, least, peak, count


def main():
    words = argparse.ArgumentParser(description=__doc__, formatter_class=argparse.RawDescriptionHelpFormatter)
    words.add_argument("--size", nargs=3, type=int, action="append", default=[])
    words.add_argument("--files", nargs=3, action="append", default=[])
    words.add_argument("--callgrind", action="store_true")
    words.add_argument("--folder")
    words.add_argument("program", nargs="*", default=[os.path.join(TOP, "crates/rela_main/out/rela_main")])
    asked = words.parse_args()
    all_same = True
    print("| input | program | status | flows | bytes | same | s | MB | M instructions |\n" + "|---" * 9 + "|")
    with tempfile.TemporaryDirectory() as passing:
        folder = asked.folder or passing
        os.makedirs(folder, exist_ok=True)
        sizes = asked.size or ([] if asked.files else SIZES)
        inputs = [(paths[0], paths) for paths in asked.files]
        inputs += [("{:,} routes, {:,} devices, {:,} classes".format(*size), write(folder, size)) for size in sizes]
        for place, (title, paths) in enumerate(inputs):
            first = None
            for program in asked.program:
                profile = os.path.join(folder, f"{place}-{os.path.basename(program)}.callgrind")
                command = [program, "fib", *paths]
                status, text, least, peak, count = measure(command, asked.callgrind and profile)
                digest = hashlib.sha256(text).digest()
                first = first or digest
                same = digest == first and status == 0
                all_same &= same
                cells = [title, os.path.basename(program), status, text.count(b'"dst":'), len(text)]
                cells += ["yes" if same else "NO", f"{least:.3f}", f"{peak:.1f}", count]
                print("| " + " | ".join(map(str, cells)) + " |", flush=True)
    sys.exit(not all_same)


if __name__ == "__main__":
    main()

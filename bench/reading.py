#!/usr/bin/env python3
"""Times the reading of large inputs: a location file of 100,000 interfaces, a snapshot near 32 MiB,
and one graph of 10,000 nodes and 100,000 edges, for a path along it.

    bench/reading.py [PROGRAM]

PROGRAM is the built binary, crates/rela_main/out/rela_main if none is given. For each input the least
time of three runs and the peak memory are printed, and what `check` answers.
"""
import json
import os
import random
import subprocess
import sys
import tempfile
import time

TOP = os.path.dirname(os.path.dirname(os.path.abspath(__file__)))
LIMIT = 33_554_432


def locations(interfaces, devices, groups):
    """Interfaces over devices over groups, evenly."""
    per_device, per_group = interfaces // devices, devices // groups
    return {
        "version": 1,
        "groups": [
            {
                "name": f"g{g:05}",
                "devices": [
                    {
                        "name": f"d{d:06}",
                        "tags": [f"t{d % 97}"],
                        "interfaces": [f"d{d:06}:{i}" for i in range(per_device)],
                    }
                    for d in range(g * per_group, (g + 1) * per_group)
                ],
            }
            for g in range(groups)
        ],
    }


def flow(number, nodes, edges):
    return {
        "name": f"f{number}",
        "dst": f"10.{number // 256 % 256}.{number % 256}.0/24",
        "nodes": nodes,
        "edges": edges,
        "starts": [0],
        "delivered": [len(nodes) - 1],
    }


def chain(number, devices, length):
    """A flow along a chain of some devices' first interfaces."""
    picked = random.Random(number).sample(range(devices), length)
    return flow(number, [f"d{d:06}:0" for d in picked], [[i, i + 1] for i in range(length - 1)])


def large_snapshot(devices):
    """As many flows of 200 nodes as a file of 32 MiB holds."""
    flows, size = [], 0
    while True:
        one = chain(len(flows), devices, 200)
        size += len(json.dumps(one, separators=(",", ":"))) + 1
        if size > LIMIT - 1_000:
            return {"version": 1, "flows": flows}
        flows.append(one)


def large_graph(nodes, fan):
    """One flow whose node n leads to the next ten."""
    edges = [[n, n + k] for n in range(nodes) for k in range(1, fan + 1) if n + k < nodes]
    edges += [[nodes - 1, 0]]
    return {"version": 1, "flows": [flow(0, [f"d{d:06}:0" for d in range(nodes)], edges)]}


def write(folder, name, value):
    path = os.path.join(folder, name)
    with open(path, "w") as file:
        file.write(value if isinstance(value, str) else json.dumps(value, separators=(",", ":")))
    assert os.path.getsize(path) <= LIMIT, name
    return path


def measure(program, words):
    """The least time of three runs, the peak memory, and the last line of the answer."""
    least, answer = None, b""
    for _ in range(3):
        begin = time.perf_counter()
        answer = subprocess.run([program, *words], capture_output=True).stdout
        took = time.perf_counter() - begin
        least = took if least is None else min(least, took)
    peak = subprocess.run(["/usr/bin/time", "-f", "%M", program, *words], capture_output=True)
    return least, int(peak.stderr.split()[-1]) // 1024, answer.decode().strip().split("\n")[-1]


def main():
    program = sys.argv[1] if len(sys.argv) > 1 else os.path.join(TOP, "crates/rela_main/out/rela_main")
    devices = 10_000
    with tempfile.TemporaryDirectory() as folder:
        many = write(folder, "locations.json", locations(100_000, devices, 100))
        none = write(folder, "none.json", {"version": 1, "flows": []})
        near_limit = write(folder, "snapshot.json", large_snapshot(devices))
        graph = write(folder, "graph.json", large_graph(10_000, 10))
        short = write(folder, "short.rela", "check c1 : { d000000:0 : preserve };")
        along = " ".join(f"d{d:06}:0" for d in range(0, 10_000, 10))
        long = write(folder, "long.rela", f"check c1 : {{ {along} : preserve }};")
        for title, before, spec in [
            ("100,000 interfaces", none, short),
            ("100,000 interfaces and a snapshot near 32 MiB, twice", near_limit, short),
            ("10,000 nodes and 100,000 edges, twice; a path of 1,000 nodes", graph, long),
        ]:
            size = sum(os.path.getsize(path) for path in (before, before, many, spec))
            took, peak, answer = measure(program, ["check", before, before, many, spec])
            print(f"{title}: {size / 1e6:.1f} MB in {took:.3f} s, {peak} MB\n  {answer}")


if __name__ == "__main__":
    main()

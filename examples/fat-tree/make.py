#!/usr/bin/env python3
"""Writes the location file and the snapshots of a fat tree of four-port switches, before and after core1 is drained.

    examples/fat-tree/make.py [FOLDER]

FOLDER is that of this script where none is given. The same call writes the same bytes.

Each of the four pods has two edge switches and two aggregation switches; agg1 of a pod has links to core1 and core2, agg2 to
core3 and core4. A flow is the traffic to the hosts of one edge switch, from those of all others, over each shortest path.
"""
import json
import os
import sys

PODS, TWO = range(1, 5), (1, 2)
EDGES = [(pod, edge) for pod in PODS for edge in TWO]
DRAINED = "core1"


def device(name, ports):
    return {"name": name, "interfaces": [f"{name}:{port}" for port in ports]}


def groups():
    yield {"name": "core", "devices": [device(f"core{it}", [f"pod{pod}" for pod in PODS]) for it in range(1, 5)]}
    for pod in PODS:
        edges = [device(f"p{pod}-edge{it}", ["hosts", "up1", "up2"]) for it in TWO]
        aggs = [device(f"p{pod}-agg{it}", ["down1", "down2", "up1", "up2"]) for it in TWO]
        yield {"name": f"pod{pod}", "devices": edges + aggs}


def paths(pod, edge, senders, forwards):
    """The interfaces that packets to the hosts of an edge switch pass, path by path. `senders` are the pods that send to the
    drained switch, and `forwards` says whether it has routes."""
    for source, start in EDGES:
        for agg in TWO if (source, start) != (pod, edge) else ():
            up = [f"p{source}-edge{start}:hosts", f"p{source}-edge{start}:up{agg}", f"p{source}-agg{agg}:down{start}"]
            down = [f"p{pod}-agg{agg}:down{edge}", f"p{pod}-edge{edge}:up{agg}", f"p{pod}-edge{edge}:hosts"]
            if source == pod:
                yield up + down
                continue
            for port in TWO:
                core = f"core{2 * agg - 2 + port}"
                over = [f"p{source}-agg{agg}:up{port}", f"{core}:pod{source}", f"{core}:pod{pod}", f"p{pod}-agg{agg}:up{port}"]
                if core != DRAINED or forwards:
                    yield up + over + down
                elif source in senders:
                    yield up + over[:2]


def flow(pod, edge, senders, forwards):
    found = list(paths(pod, edge, senders, forwards))
    place = {name: at for at, name in enumerate(dict.fromkeys(name for path in found for name in path))}
    edges = dict.fromkeys((place[one], place[two]) for path in found for one, two in zip(path, path[1:]))
    return {"name": f"to-p{pod}-edge{edge}", "dst": f"10.{pod}.{edge}.0/24", "nodes": list(place), "edges": list(edges),
            "starts": list(dict.fromkeys(place[path[0]] for path in found)), "delivered": [place[f"p{pod}-edge{edge}:hosts"]]}


def write(name, key, entries):
    """Writes a file whose list `key` has an entry on each line."""
    lines = ",\n".join(json.dumps(it, separators=(",", ":")) for it in entries)
    with open(name, "w", encoding="ascii", newline="\n") as file:
        file.write(f'{{"version":1,"{key}":[\n{lines}\n]}}\n')


def main():
    folder = sys.argv[1] if len(sys.argv) > 1 else os.path.dirname(os.path.realpath(__file__))
    write(f"{folder}/locations.json", "groups", groups())
    # In the bad change agg1 of pod 3 still sends to core1, which has no routes any more.
    for name, senders, forwards in (("before", PODS, True), ("after-good", (), False), ("after-bad", (3,), False)):
        write(f"{folder}/{name}.json", "flows", [flow(*it, senders, forwards) for it in EDGES])


if __name__ == "__main__":
    main()

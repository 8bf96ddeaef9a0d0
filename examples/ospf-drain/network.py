#!/usr/bin/env python3
"""Runs eight routers on this machine, and collects what they print before core1 is drained, after that, and after a drain that
forgot one link.

    examples/ospf-drain/network.py FOLDER

Two cores are linked with four edges and two borders, and all run OSPF, by FRR, each in a network namespace. An edge has servers,
and a border a way out; these links end in a namespace `world`, where nobody is. What a router prints goes to FOLDER/before,
FOLDER/after-good and FOLDER/after-bad, laid out with an entry of it on each line; what Linux prints of the same routes before the
drain goes to FOLDER/before-linux.

It needs root, iproute2 and FRR (Debian's packages iproute2 and frr), takes some two minutes, and leaves FOLDER alone behind.
"""
import contextlib
import json
import os
import signal
import sys
import tempfile

sys.dont_write_bytecode = True
from lab import Failed, Lab

CORES, EDGES, BORDERS = ("core1", "core2"), ("edge1", "edge2", "edge3", "edge4"), ("border1", "border2")
ROUTERS = CORES + EDGES + BORDERS
DRAINED, FORGOTTEN, COST, HIGH_COST = "core1", "edge3", 10, 10_000
# Loopbacks, links, servers, ways out, and the default route.
PREFIXES = len(ROUTERS) + len(CORES) * len(EDGES + BORDERS) + len(EDGES) + len(BORDERS) + 1
PRINTS = {"routes": "show ip route json", "interfaces": "show interface json"}
LINUX_PRINTS = {"routes": ("ip", "-j", "route"), "interfaces": ("ip", "-j", "addr")}
LINK = [f"ip ospf cost {COST}", "ip ospf network point-to-point", "ip ospf hello-interval 1", "ip ospf dead-interval 4"]


def links():
    """Yields the two ends of each link, with their addresses."""
    for at, core in enumerate(CORES):
        for to, other in enumerate(EDGES + BORDERS):
            first = 32 + 16 * at + 2 * to
            yield (core, f"10.0.0.{first}/31"), (other, f"10.0.0.{first + 1}/31")


def config(router):
    """Returns the router's frr.conf."""
    own = f"10.0.0.{ROUTERS.index(router) + 1}"
    interfaces, more = {"lo": [f"{own}/32", "ip ospf passive"]}, []
    for ends in links():
        for (here, address), (other, _) in (ends, ends[::-1]):
            if here == router:
                interfaces[other] = [address, *LINK]
    if router in EDGES:
        interfaces["servers"] = [f"10.0.{EDGES.index(router) + 1}.1/24", "ip ospf passive"]
    if router in BORDERS:
        first = 16 + 2 * BORDERS.index(router)
        interfaces["wan"] = [f"10.0.0.{first}/31", "ip ospf passive"]
        more = [" default-information originate", f"ip route 0.0.0.0/0 10.0.0.{first + 1}"]
    texts = [f"interface {name}\n ip address {address}\n" + "".join(f" {it}\n" for it in ["ip ospf area 0", *lines])
             for name, (address, *lines) in interfaces.items()]
    return "".join(texts) + "\n".join(["router ospf", f" ospf router-id {own}", *more]) + "\n"


def set_cost(lab, cost, *others):
    """Sets what it costs the drained router to send over its links with others."""
    lines = [line for it in others for line in (f"interface {it}", f"ip ospf cost {cost}")]
    lab.ask(DRAINED, "configure terminal", *lines)


def write(path, text):
    """Writes what is printed, with an entry of the object or the array on each line."""
    value = json.loads(text)
    entries = [json.dumps(it, separators=(",", ":")) for it in (value if isinstance(value, list) else value.values())]
    if isinstance(value, dict):
        entries = [f"{json.dumps(key)}:{it}" for key, it in zip(value, entries)]
    begin, end = "[]" if isinstance(value, list) else "{}"
    with open(path, "w", encoding="ascii", newline="\n") as file:
        file.write(begin + "\n" + ",\n".join(entries) + "\n" + end + "\n")


def collect(lab, folder):
    """Collects what the routers print when their routes have settled."""
    lab.settle(PREFIXES)
    os.makedirs(folder)
    for router in ROUTERS:
        for kind, command in PRINTS.items():
            write(f"{folder}/{router}.{kind}.json", lab.ask(router, command))


def collect_linux(lab, folder):
    os.makedirs(folder)
    for router in ROUTERS:
        for kind, words in LINUX_PRINTS.items():
            write(f"{folder}/{router}.{kind}.json", lab.inside(router, *words))


def change(lab, folder):
    """Collects before the change, makes the change as it was meant, and makes it with one link forgotten."""
    collect(lab, f"{folder}/before")
    collect_linux(lab, f"{folder}/before-linux")
    set_cost(lab, HIGH_COST, *EDGES, *BORDERS)
    collect(lab, f"{folder}/after-good")
    set_cost(lab, COST, FORGOTTEN)
    collect(lab, f"{folder}/after-bad")


def main(words):
    if len(words) != 1 or words[0].startswith("-"):
        print(__doc__, file=sys.stderr)
        return 2
    if os.path.exists(words[0]):
        print(f"network.py: {words[0]} is there already", file=sys.stderr)
        return 2
    signal.signal(signal.SIGTERM, lambda *_: sys.exit(1))
    try:
        with tempfile.TemporaryDirectory(prefix="rela-network-") as room, contextlib.ExitStack() as undo:
            os.chmod(room, 0o755)
            lab = Lab(room, undo)
            for place in ("world", *ROUTERS):
                lab.add(place)
            for (one, _), (other, _) in links():
                lab.link((one, other), (other, one))
            for router in EDGES + BORDERS:
                lab.link((router, "servers" if router in EDGES else "wan"), ("world", router))
            for router in ROUTERS:
                lab.start(router, config(router))
            change(lab, words[0])
    except (OSError, LookupError, Failed) as error:
        print(f"network.py: {error}", file=sys.stderr)
        return 1
    return 0


if __name__ == "__main__":
    sys.exit(main(sys.argv[1:]))

#!/usr/bin/env python3
"""Makes the table files and the location file of `rela fib` from what routers print.

    tools/from_frr.py FOLDER ..

For each router a folder has the files ROUTER.routes.json and ROUTER.interfaces.json: what FRR prints by `show ip route json` and
`show interface json`, or Linux by `ip -j route` and `ip -j addr`. The tables of a folder go to FOLDER.tables.json, and the
routers and interfaces of all folders to locations.json, both here, or in the folder that -o names.

Two interfaces that are up and on one subnet are joined: a next hop is the interface that has its address there, on another
router. Connected prefixes and a router's own addresses are delivered, blackhole and unreachable routes dropped. Of a prefix the
route counts that the router uses, with the next hops that it uses. The interface eth0 of r1 is called r1:eth0; the group of a
router is its name without the number at the end. Traffic starts at the interfaces on subnets without another router.

IPv4 alone is read, of the default VRF and the main table.

Status 0: all is written; 1: where some routes lead can't be told, and each has a line on standard error; 2: refused, with one
line there. Nothing is written with status 1 and 2.
"""
import argparse
import ipaddress
import json
import os
import re
import sys

sys.dont_write_bytecode = True
from reports import Refused, reason
from routers.network import Network, check_name


def compact(value):
    return json.dumps(value, separators=(",", ":"))


def lines(texts):
    return "[\n" + ",\n".join(texts) + "\n]"


def tables_text(starts, tables):
    """Returns a table file with a line for each route."""
    texts = []
    for device, routes in tables.items():
        rows = [{"prefix": str(it)} if routes[it] is None else {"prefix": str(it), "hops": routes[it]} for it in sorted(routes)]
        texts.append(f'{{"device":{compact(device)},"routes":{lines(map(compact, rows))}}}')
    return f'{{"version":1,"starts":{compact(starts)},"tables":{lines(texts)}}}\n'


def group_of(router):
    """Returns the name of a router's group: its own without the number at the end, and the marks before that."""
    name = re.sub(r"[_.:/-]*[0-9]+$", "", router) or router
    return check_name(name, f"for {router}, the group")


def locations_text(devices, one_group):
    """Returns a location file with a line for each device."""
    groups = {}
    for router, names in sorted(devices.items()):
        device = {"name": router, "interfaces": sorted(names)}
        groups.setdefault(one_group or group_of(router), []).append(compact(device))
    texts = [f'{{"name":{compact(name)},"devices":{lines(them)}}}' for name, them in groups.items()]
    return f'{{"version":1,"groups":{lines(texts)}}}\n'


def devices_of(networks):
    """Returns the interfaces of the routers of all networks."""
    devices, homes = {}, {}
    for network in networks.values():
        for router in network.routers:
            devices.setdefault(router, set())
        for router, name, _ in network.interfaces():
            if homes.setdefault(name, router) != router:
                raise Refused(f"{name} is an interface of {homes[name]} and of {router}")
            devices[router].add(name)
    return devices


def starts_of(folder, network, devices, named):
    """Returns the interfaces where traffic starts: those that are named, or else those that the subnets tell."""
    known = {name for names in devices.values() for name in names}
    unknown = [it for it in named if it not in known]
    if unknown:
        raise Refused(f"no interface is called {unknown[0]}")
    starts = sorted({*named}) or sorted(network.starts())
    if not starts:
        raise Refused(f"{folder}: traffic starts nowhere: each subnet has two routers; name interfaces by --start")
    return starts


def texts_of(words):
    """Returns the texts of the files by their names, and what can't be told."""
    folders = {os.path.basename(os.path.abspath(it)): it for it in words.folders}
    if len(folders) < len(words.folders):
        raise Refused("two folders have one name")
    if words.one_group:
        check_name(words.one_group, "the group")
    networks = {name: Network(path, {*map(str, words.outside)}) for name, path in folders.items()}
    devices, untold = devices_of(networks), []
    texts = {"locations.json": locations_text(devices, words.one_group)}
    for name, network in networks.items():
        tables = {}
        for router in network.routers:
            tables[router], faults = network.table(router)
            untold += [f"{folders[name]}: {router}: {prefix}: {why}" for prefix, why in sorted(faults.items())]
        texts[f"{name}.tables.json"] = tables_text(starts_of(folders[name], network, devices, words.start), tables)
    return texts, untold


def main(words=None):
    parser = argparse.ArgumentParser(description=__doc__, formatter_class=argparse.RawDescriptionHelpFormatter)
    parser.add_argument("folders", nargs="+", metavar="FOLDER", help="what the routers printed at one time")
    parser.add_argument("-o", metavar="OUT", default=".", help="the folder for what is written")
    parser.add_argument("--one-group", metavar="NAME", help="put all routers into one group of this name")
    many = {"action": "append", "default": []}
    parser.add_argument("--start", metavar="ROUTER:INTERFACE", **many,
                        help="traffic starts here, and not where the subnets tell; may be given more than once")
    parser.add_argument("--outside", metavar="ADDRESS", type=ipaddress.IPv4Address, **many,
                        help="this next hop is a router outside: packets to it leave the network, and count as delivered")
    words = parser.parse_args(words)
    try:
        texts, untold = texts_of(words)
        for line in untold:
            print(f"from_frr: {line}", file=sys.stderr)
        for name, text in texts.items() if not untold else ():
            with open(os.path.join(words.o, name), "w", encoding="ascii", newline="\n") as file:
                file.write(text)
    except (OSError, Refused) as error:
        print(f"from_frr: {reason(error)}", file=sys.stderr)
        return 2
    return 1 if untold else 0


if __name__ == "__main__":
    sys.exit(main())

"""A network of routers, by what they print: who is joined with whom, where traffic starts, and the routers' tables."""
import ipaddress
import json
import os
import re
from typing import Dict, List, NamedTuple, Union

from reports import NAME, Refused
from routers import frr, linux
from routers.printed import Hop, Interface, fitting

FILE = re.compile(r"(.+)\.(routes|interfaces)\.json", re.S)


class Router(NamedTuple):
    """A router: by prefix the hops of its routes, and by name its interfaces."""

    routes: Dict[ipaddress.IPv4Network, Union[None, List[Hop], str]]
    interfaces: Dict[str, Interface]


class Untold(Exception):
    """Where a route leads can't be told."""


def read(path, kind):
    """Returns the routes or the interfaces of a file. FRR prints an object, and Linux an array."""
    with open(path, "rb") as file:
        try:
            value = json.loads(file.read())
        except (ValueError, RecursionError) as error:
            raise Refused(f"{path}: it isn't JSON: {error}") from None
    form = linux if type(value) is list else frr
    return getattr(form, kind)(fitting(value, list if form is linux else dict, path), path)


def read_routers(folder):
    """Returns the routers of a folder, by name. Each has two files."""
    kinds = {}
    for file in sorted(os.listdir(folder)):
        found = FILE.fullmatch(file)
        if not found:
            raise Refused(f"{folder}/{file}: the name is neither ROUTER.routes.json nor ROUTER.interfaces.json")
        kinds.setdefault(check_name(found[1], "the router"), []).append(found[2])
    for router, (kind, *others) in kinds.items():
        if not others:
            other = "routes" if kind == "interfaces" else "interfaces"
            raise Refused(f"{folder}/{router}.{other}.json is missing")
    if not kinds:
        raise Refused(f"{folder}: no router is here")
    return {it: Router(*(read(f"{folder}/{it}.{kind}.json", kind) for kind in ("routes", "interfaces"))) for it in kinds}


def check_name(name, what):
    """Returns a name, which has to be one of a location."""
    if not re.fullmatch(NAME, name) or name in ("drop", "loop"):
        raise Refused(f"{what} {name!r} can't be the name of a location")
    return name


class Network:
    """The routers of a folder, and the addresses of the next hops that are routers outside."""

    def __init__(self, folder, outside):
        self.routers, self.outside = read_routers(folder), outside
        # Of each subnet the interfaces that are up, by address, each with its router.
        self.subnets = {}
        for router, name, it in self.interfaces():
            for address in it.addresses if it.is_up else ():
                self.subnets.setdefault(address.network, {}).setdefault(str(address.ip), []).append((router, name))
        owners = {subnet: {router for found in by.values() for router, _ in found} for subnet, by in self.subnets.items()}
        self.shared = {subnet for subnet, routers in owners.items() if len(routers) > 1}

    def interfaces(self):
        """Yields each interface, with its router and its name in the network."""
        for router, it in self.routers.items():
            for name, interface in it.interfaces.items():
                yield router, check_name(f"{router}:{name}", "the interface"), interface

    def starts(self):
        """Returns the interfaces that are up and on a subnet without another router, but for loopbacks and host prefixes."""
        return [name for _, name, it in self.interfaces() if it.is_up and not it.is_loopback and any(
            one.network.prefixlen < 32 and one.network not in self.shared for one in it.addresses)]

    def next_of(self, router, hop):
        """Returns the interface that a router's hop leads to, or None where it leads out of the network."""
        it = self.routers[router].interfaces.get(hop.interface)
        if it is None or not it.is_up:
            raise Untold(f"the interface {hop.interface} {'is down' if it else 'is not among those printed'}")
        if hop.address is None:
            if any(one.network in self.shared for one in it.addresses):
                raise Untold(f"it has no next hop, and other routers are on the subnet of {hop.interface}")
            return None
        around = (self.subnets[one.network].get(hop.address, ()) for one in it.addresses)
        found = sorted({name for owners in around for owner, name in owners if owner != router})
        if len(found) > 1:
            raise Untold(f"{' and '.join(found)} have the address of the next hop {hop.address}")
        if not found and hop.address not in self.outside:
            raise Untold(f"no router on the subnet of {hop.interface} is the next hop {hop.address}")
        return found[0] if found else None

    def hops(self, router, hops):
        """Returns the hops of a route as in a table file."""
        if isinstance(hops, str):
            raise Untold(hops)
        if not hops:
            return hops
        names = {self.next_of(router, it) for it in hops}
        if None in names and len(names) > 1:
            raise Untold("some next hops lead out of the network, and others don't")
        return None if None in names else sorted(names)

    def table(self, router):
        """Returns the hops by prefix, and for each route that can't be told why, by prefix too."""
        routes, untold = {}, {}
        for prefix, hops in self.routers[router].routes.items():
            try:
                routes[prefix] = self.hops(router, hops)
            except Untold as why:
                untold[prefix] = str(why)
        self.add_own(router, routes)
        return routes, untold

    def add_own(self, router, routes):
        """Adds a host route for each address of a router that isn't in a connected prefix, or is in a longer one too."""
        printed, interfaces = self.routers[router]
        lengths = sorted({it.prefixlen for it in printed}, reverse=True)
        for it in interfaces.values():
            for ip in [one.ip for one in it.addresses if it.is_up and not one.is_loopback]:
                around = (ipaddress.IPv4Network((int(ip), length), strict=False) for length in lengths)
                chosen = next((prefix for prefix in around if prefix in printed), None)
                if chosen is None or printed[chosen] is not None:
                    routes[ipaddress.IPv4Network(ip)] = None

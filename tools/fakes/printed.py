"""What routers print, made up for tests: FRR's objects and Linux's arrays, and the routes whose hops are asked for."""

PREFIX = "10.9.0.0/16"


def frr_hop(interface, address=None, **more):
    """A next hop of FRR that is in the forwarding table."""
    return {"fib": True, "interfaceName": interface, **({"ip": address} if address else {}), **more}


def frr_route(protocol, *hops, **more):
    return {"protocol": protocol, "selected": True, "nexthops": [*hops], **more}


def frr_interface(*addresses, **more):
    texts = [{"address": it} for it in addresses]
    return {"administrativeStatus": "up", "operationalStatus": "up", "flags": "<UP,LOWER_UP>", "ipAddresses": texts, **more}


def linux_route(**more):
    return {"dst": PREFIX, "flags": [], **more}


def linux_interface(name, *addresses, **more):
    pairs = [it.split("/") for it in addresses]
    known = [{"family": "inet6" if ":" in local else "inet", "local": local, "prefixlen": int(it)} for local, it in pairs]
    return {"ifname": name, "flags": ["UP", "LOWER_UP"], "addr_info": known, **more}


LOOPBACK = "127.0.0.1/8", "::1/128"
# Routers a and b on the subnet 10.0.0.0/31, each with a network of hosts: what they print, in FRR's form and in Linux's.
FRR = {"a": ({}, {"lo": frr_interface(*LOOPBACK, flags="<UP,LOWER_UP,LOOPBACK>"), "lan": frr_interface("10.1.0.1/24"),
                  "up": frr_interface("10.0.0.0/31", "fe80::a/64")}),
       "b": ({}, {"up": frr_interface("10.0.0.1/31"), "lan": frr_interface("10.2.0.1/24")})}
LINUX = {"a": ([], [{}, linux_interface("lo", *LOOPBACK, flags=["LOOPBACK", "UP", "LOWER_UP"]),
                    linux_interface("lan", "10.1.0.1/24"), linux_interface("up", "10.0.0.0/31", "fe80::a/64")]),
         "b": ([], [linux_interface("up", "10.0.0.1/31"), linux_interface("lan", "10.2.0.1/24")])}

# What is written of a and b, where a has routes to its hosts and to those of b.
TABLES = """{"version":1,"starts":["a:lan","b:lan"],"tables":[
{"device":"a","routes":[
{"prefix":"10.0.0.0/32"},
{"prefix":"10.1.0.0/24"},
{"prefix":"10.2.0.0/24","hops":["b:up"]}
]},
{"device":"b","routes":[
{"prefix":"10.0.0.1/32"},
{"prefix":"10.2.0.1/32"}
]}
]}
"""
LOCATIONS = """{"version":1,"groups":[
{"name":"a","devices":[
{"name":"a","interfaces":["a:lan","a:lo","a:up"]}
]},
{"name":"b","devices":[
{"name":"b","interfaces":["b:lan","b:up"]}
]}
]}
"""
LABELS, OUT = "a next hop has labels", "some next hops lead out of the network, and others don't"
UNINSTALLED = "the selected route isn't in the forwarding table"
NOBODY = "no router on the subnet of {} is the next hop {}".format
SHARED = "it has no next hop, and other routers are on the subnet of up"
AT_B, GONE, DROP = frr_hop("up", "10.0.0.1"), frr_hop("up", "10.0.0.9"), {"fib": True, "unreachable": True}
OUTSIDE = "10.1.0.9"
# Routes to PREFIX that a prints, and its hops in the table; or what is told of it, or "unused".
FRR_ROUTES = [
    ("by a next hop", [frr_route("ospf", AT_B)], ["b:up"]),
    ("by one next hop twice", [frr_route("ospf", AT_B, frr_hop("up", "10.0.0.1", duplicate=True))], ["b:up"]),
    ("connected", [frr_route("connected", frr_hop("up", directlyConnected=True))], None),
    ("its own", [frr_route("local", frr_hop("up", directlyConnected=True))], None),
    ("to hosts", [frr_route("static", frr_hop("lan", directlyConnected=True))], None),
    ("to hosts, beside routers", [frr_route("static", frr_hop("up", directlyConnected=True))], SHARED),
    ("dropping", [frr_route("static", DROP)], []),
    ("dropping in part", [frr_route("static", DROP, AT_B)], "some next hops drop packets, and others don't"),
    ("selected among others", [frr_route("bgp", GONE, selected=False), frr_route("ospf", AT_B)], ["b:up"]),
    ("not selected", [frr_route("bgp", AT_B, selected=False)], "unused"),
    ("recursive", [frr_route("bgp", frr_hop("up", "10.0.0.9", recursive=True), AT_B)], ["b:up"]),
    ("with a next hop that isn't used", [frr_route("ospf", frr_hop("up", "10.0.0.9", fib=False), AT_B)], ["b:up"]),
    ("not installed", [frr_route("ospf", frr_hop("up", "10.0.0.1", fib=False))], UNINSTALLED),
    ("with labels", [frr_route("bgp", frr_hop("up", "10.0.0.1", labels=[16]))], LABELS),
    ("by nobody", [frr_route("ospf", GONE, AT_B)], NOBODY("up", "10.0.0.9")),
    ("by an IPv6 address", [frr_route("bgp", frr_hop("up", "fe80::b"))], NOBODY("up", "fe80::b")),
    ("by itself", [frr_route("ospf", frr_hop("up", "10.0.0.0"))], NOBODY("up", "10.0.0.0")),
    ("by another subnet", [frr_route("ospf", frr_hop("lan", "10.0.0.1"))], NOBODY("lan", "10.0.0.1")),
    ("by no interface", [frr_route("ospf", frr_hop("x", "10.0.0.1"))], "the interface x is not among those printed"),
    ("to the outside", [frr_route("static", frr_hop("lan", OUTSIDE))], None),
    ("to the outside in part", [frr_route("static", frr_hop("lan", OUTSIDE), AT_B)], OUT)]
LINUX_ROUTES = [
    ("by a next hop", [linux_route(gateway="10.0.0.1", dev="up")], ["b:up"]),
    ("by two next hops", [linux_route(nexthops=[{"gateway": "10.0.0.1", "dev": "up"}, {"gateway": "10.0.0.9", "dev": "up"}])],
     NOBODY("up", "10.0.0.9")),
    ("by a dead next hop", [linux_route(nexthops=[{"gateway": "10.0.0.1", "dev": "up", "flags": []},
                                                  {"gateway": "10.0.0.9", "dev": "up", "flags": ["dead"]}])], ["b:up"]),
    ("dead", [linux_route(gateway="10.0.0.1", dev="up", flags=["dead", "linkdown"])], "unused"),
    ("of the least metric", [linux_route(type="blackhole", metric=20), linux_route(gateway="10.0.0.1", dev="up", metric=10),
                             linux_route(type="blackhole", metric=10)], ["b:up"]),
    ("without a metric", [linux_route(type="blackhole", metric=20), linux_route(gateway="10.0.0.1", dev="up")], ["b:up"]),
    ("of the least metric, dead", [linux_route(gateway="10.0.0.9", dev="up", flags=["dead"]),
                                   linux_route(gateway="10.0.0.1", dev="up", metric=10)], ["b:up"]),
    ("connected", [linux_route(dev="up", protocol="kernel", scope="link")], None),
    ("to hosts", [linux_route(dev="lan", protocol="static", scope="link")], None),
    ("to hosts, beside routers", [linux_route(dev="up", protocol="static", scope="link")], SHARED),
    ("its own", [linux_route(type="local", dev="lo")], None),
    *((f"of type {it}", [linux_route(type=it)], []) for it in ("blackhole", "unreachable", "prohibit")),
    ("of type throw", [linux_route(type="throw")], "it is a route of type throw"),
    ("for a service", [linux_route(gateway="10.0.0.1", dev="up", tos="0x10")], "it is for one type of service"),
    ("with labels", [linux_route(gateway="10.0.0.1", dev="up", encap="ip")], LABELS),
    ("by an IPv6 address", [linux_route(via={"family": "inet6", "host": "fe80::b"}, dev="up")], NOBODY("up", "fe80::b")),
    ("to the outside", [linux_route(gateway=OUTSIDE, dev="lan")], None)]

# Files of a that are refused: what they are, and what is said of them behind the name of the file.
FAULTY_FRR = [
    ("routes", 5, " isn't an object"), ("routes", {PREFIX: {}}, f": {PREFIX} isn't an array"),
    ("routes", {PREFIX: [5]}, f": {PREFIX}: entry 0 isn't an object"), ("routes", {"default": []}, ": 'default' isn't IPv4"),
    ("routes", {"fd00::/8": []}, ": 'fd00::/8' isn't IPv4"), ("routes", {"10.0.0.1/8": []}, ": '10.0.0.1/8' isn't IPv4"),
    *(("routes", {PREFIX: it}, f": {PREFIX}: {told}") for it, told in (
        ([{"selected": True}] * 2, "2 routes are selected"), ([{"selected": True}], "`nexthops` isn't an array"),
        ([frr_route(7, AT_B)], "`protocol` isn't a string"), ([frr_route("ospf", frr_hop(7))], "`interfaceName` isn't a string"),
        ([frr_route("ospf", frr_hop("up", 7))], "`ip` isn't a string"))),
    ("interfaces", None, " isn't an object"), ("interfaces", {"up": []}, ": up isn't an object"),
    *(("interfaces", {"up": frr_interface(**{name: 7})}, f": up: `{name}` isn't {kind}") for name, kind in (
        *((it, "a string") for it in ("administrativeStatus", "operationalStatus", "flags")), ("ipAddresses", "an array"))),
    ("interfaces", {"up": frr_interface(7)}, ": up: `address` isn't a string"),
    ("interfaces", {"up": frr_interface("10.0.0.1/33")}, ": up: '10.0.0.1/33' isn't IPv4")]
ADDRESS = {"family": "inet", "local": "10.0.0.1", "prefixlen": 8}
FAULTY_LINUX = [
    ("routes", [5], ": entry 0 isn't an object"), ("routes", [linux_route(dst=7)], ": `dst` isn't a string"),
    ("routes", [linux_route(dst="10.0.0.1/8")], ": '10.0.0.1/8' isn't IPv4"),
    *(("routes", [linux_route(**{"dev": "up", **it})], f": {PREFIX}: {told}") for it, told in (
        ({"table": "local"}, "it isn't in the table `main`"), ({"metric": "1"}, "`metric` isn't a whole number"),
        ({"flags": {}}, "`flags` isn't an array"), ({"nexthops": {}}, "`nexthops` isn't an array"),
        ({"nexthops": [5]}, "`nexthops`: entry 0 isn't an object"), ({"dev": 7}, "`dev` isn't a string"),
        ({"gateway": 7}, "`gateway` isn't a string"), ({"via": 7}, "`via` isn't an object"),
        ({"via": {"host": 7}}, "`host` isn't a string"))),
    ("interfaces", [linux_interface(7)], ": `ifname` isn't a string"),
    *(("interfaces", [linux_interface("up", **{it: 7})], f": up: `{it}` isn't an array") for it in ("flags", "addr_info")),
    *(("interfaces", [linux_interface("up", addr_info=[{**ADDRESS, **it}])], f": up: {told}") for it, told in (
        ({"local": 7}, "`local` isn't a string"), ({"prefixlen": True}, "`prefixlen` isn't a whole number"),
        ({"prefixlen": 33}, "'10.0.0.1/33' isn't IPv4")))]

#!/usr/bin/env python3
"""Tests tools/from_frr.py on what made-up routers print, and on what the routers of examples/ospf-drain printed.

    tools/test_from_frr.py

Its last line is `N passed, M failed`, and its status 1 where one failed. It needs no kit and no routers.
"""
import json
import os
import sys
import tempfile

sys.dont_write_bytecode = True
import from_frr
from fakes.change import get, put
from fakes.printed import (AT_B, FAULTY_FRR, FAULTY_LINUX, FRR, FRR_ROUTES, LINUX, LINUX_ROUTES, LOCATIONS, OUTSIDE, PREFIX,
                           TABLES, frr_interface, frr_route, linux_route)
from tally import finish, holds
from test_reports import run

EXAMPLE = os.path.join(os.path.dirname(os.path.dirname(os.path.realpath(__file__))), "examples", "ospf-drain")


def put_routers(routers, folder):
    """Writes what routers print, in place of what is in the folder."""
    os.makedirs(folder, exist_ok=True)
    for file in os.listdir(folder):
        os.remove(f"{folder}/{file}")
    for name, (routes, interfaces) in routers.items():
        put(json.dumps(routes), f"{folder}/{name}.routes.json")
        put(json.dumps(interfaces), f"{folder}/{name}.interfaces.json")
    return folder


def made(room, routers, *words):
    """Runs the tool on routers, and returns its status, the parts of the tables and the locations, and what it says."""
    folder, out = put_routers(routers, f"{room}/net"), f"{room}/out"
    put_routers({}, out)
    status, _, err = run(from_frr, folder, "-o", out, *words)
    paths = [f"{out}/{it}" for it in ("net.tables.json", "locations.json") if os.path.exists(f"{out}/{it}")]
    return status, [json.loads(get(it)) for it in paths], err.replace(room, "")


def with_a(routers, routes, **interfaces):
    """The routers, where a has other routes, and some other interfaces in FRR's form."""
    return {**routers, "a": (routes, {**routers["a"][1], **interfaces} if interfaces else routers["a"][1])}


def chooses(room):
    for form, routers, cases in (("FRR", FRR, FRR_ROUTES), ("Linux", LINUX, LINUX_ROUTES)):
        for what, routes, wanted in cases:
            status, files, err = made(room, with_a(routers, {PREFIX: routes} if form == "FRR" else routes), "--outside", OUTSIDE)
            told = f"from_frr: /net: a: {PREFIX}: {wanted}\n" if isinstance(wanted, str) and wanted != "unused" else ""
            rows = {it["prefix"]: it.get("hops") for it in files[0]["tables"][0]["routes"]} if files else {PREFIX: wanted}
            holds(f"{form}'s route {what}", (status, len(files), err) == ((1, 0, told) if told else (0, 2, "")))
            holds(f"{form}'s route {what} has its hops", rows.get(PREFIX, "unused") == wanted)
    routes = {PREFIX: [frr_route("ospf", AT_B)], "10.1.0.1/32": [frr_route("ospf", AT_B)]}
    down, twin = {"up": frr_interface("10.0.0.0/31", operationalStatus="down")}, {**with_a(FRR, routes), "c": FRR["b"]}
    holds("a down interface leads nowhere", "the interface up is down" in made(room, with_a(FRR, routes, **down))[2])
    alone = {**with_a(FRR, routes), "b": ({}, {"up": frr_interface("10.0.0.1/31", administrativeStatus="down")})}
    holds("nothing leads to a down interface", "no router on the subnet of up is the next hop" in made(room, alone)[2])
    holds("two have one address", "b:up and c:up have the address of the next hop 10.0.0.1\n" in made(room, twin)[2])
    told = made(room, with_a(FRR, routes, up=frr_interface()))[2]
    holds("each route that isn't told has a line", [it.split(": ")[3] for it in told.splitlines()] == ["10.1.0.1/32", PREFIX])
    rows = made(room, with_a(FRR, routes))[1][0]["tables"][0]["routes"]
    holds("no route leads away what is for the router", {"prefix": "10.1.0.1/32"} in rows)


def writes(room):
    routes = {"10.2.0.0/24": [frr_route("ospf", AT_B)], "10.1.0.0/24": [frr_route("connected", {"fib": True})]}
    linux = [linux_route(gateway="10.0.0.1", dev="up"), linux_route(dev="lan", protocol="kernel", scope="link")]
    linux = [{**it, "dst": prefix} for it, prefix in zip(linux, routes)]
    for form, routers in (("FRR", with_a(FRR, routes)), ("Linux", with_a(LINUX, linux))):
        status, found = made(room, routers)[0], [get(f"{room}/out/{it}") for it in ("net.tables.json", "locations.json")]
        holds(f"{form}'s routers give these bytes", (status, found) == (0, [TABLES, LOCATIONS]))
    names = {it: ({}, {"e0": frr_interface(f"10.0.{at}.0/24")}) for at, it in enumerate(("edge1", "edge-12", "x", "7"))}
    groups = {it["name"]: [one["name"] for one in it["devices"]] for it in made(room, names)[1][1]["groups"]}
    holds("a group is a name without its number", groups == {"edge": ["edge-12", "edge1"], "x": ["x"], "7": ["7"]})
    holds("one group is made", [it["name"] for it in made(room, names, "--one-group", "all")[1][1]["groups"]] == ["all"])
    tables = made(room, with_a(LINUX, [linux_route(dst="default", type="blackhole")]))[1][0]["tables"]
    holds("a default route is one", tables[0]["routes"][0] == {"prefix": "0.0.0.0/0", "hops": []})
    more = {"host": frr_interface("10.3.0.1/32"), "off": frr_interface("10.4.0.1/24", administrativeStatus="down"),
            "red": frr_interface("10.5.0.1/24", vrfName="red"), "also": frr_interface("10.0.0.2/31", "10.6.0.1/24")}
    tables, places = made(room, with_a(FRR, {}, **more))[1]
    holds("traffic starts on subnets with hosts", tables["starts"] == ["a:also", "a:lan", "b:lan"])
    holds("another VRF has no place", [f"a:{it}" in json.dumps(places) for it in ("red", "off")] == [False, True])
    own = [it["prefix"] for it in tables["tables"][0]["routes"]]
    holds("addresses that are up are delivered", own == [f"10.{it}/32" for it in ("0.0.0", "0.0.2", "1.0.1", "3.0.1", "6.0.1")])
    named = made(room, FRR, "--start=b:up", "--start=a:lo", "--start=b:up")[1][0]["starts"]
    holds("traffic starts where it is said", named == ["a:lo", "b:up"])


def refuses(room):
    def is_refused(routers, told, *words):
        holds(f"it is refused: {told}", made(room, routers, *words) == (2, [], f"from_frr: {told}\n"))

    for routers, faulty in ((FRR, FAULTY_FRR), (LINUX, FAULTY_LINUX)):
        for kind, value, told in faulty:
            files = (value, routers["a"][1]) if kind == "routes" else (routers["a"][0], value)
            is_refused({**routers, "a": files}, f"/net/a.{kind}.json{told}")
    is_refused({}, "/net: no router is here")
    nameless, empty = "can't be the name of a location", frr_interface()
    for name in ("a b", "drop", "\u00e9", "a" * 65):
        is_refused({name: FRR["a"]}, f"the router {name!r} {nameless}")
    is_refused(with_a(FRR, {}, **{"x" * 63: empty}), f"the interface 'a:{'x' * 63}' {nameless}")
    is_refused({"loop-1": FRR["a"]}, f"for loop-1, the group 'loop' {nameless}")
    is_refused(FRR, f"the group 'a b' {nameless}", "--one-group", "a b")
    is_refused({"a": ({}, {"b:c": empty}), "a:b": ({}, {"c": empty})}, "a:b:c is an interface of a and of a:b")
    is_refused(FRR, "no interface is called a:x", "--start", "a:up", "--start", "a:x")
    is_refused({"a": ({}, {})}, "/net: traffic starts nowhere: each subnet has two routers; name interfaces by --start")
    folder = put_routers(FRR, f"{room}/net")
    holds("an address is one", run(from_frr, folder, "--outside", "10.0.0")[0] == 2)
    holds("two folders have two names", run(from_frr, folder, f"{folder}/.")[::2] == (2, "from_frr: two folders have one name\n"))
    holds("a folder is there", "No such file" in run(from_frr, f"{room}/gone")[2])
    put("{", f"{folder}/a.routes.json")
    holds("a file is JSON", f"{folder}/a.routes.json: it isn't JSON: " in run(from_frr, folder)[2])
    os.remove(f"{folder}/a.routes.json")
    holds("a router has two files", run(from_frr, folder)[2] == f"from_frr: {folder}/a.routes.json is missing\n")
    put("{}", f"{folder}/a.json")
    holds("a file has its name", f"{folder}/a.json: the name is neither ROUTER.routes.json nor " in run(from_frr, folder)[2])


def reads_two_folders(room):
    one, other = put_routers(FRR, f"{room}/one"), put_routers({"b": LINUX["b"], "c": FRR["a"]}, f"{room}/other")
    holds("two folders are read", run(from_frr, f"{other}/", one, "-o", room) == (0, "", ""))
    devices = [it["name"] for group in json.loads(get(f"{room}/locations.json"))["groups"] for it in group["devices"]]
    tables = [[it["device"] for it in json.loads(get(f"{room}/{name}.tables.json"))["tables"]] for name in ("one", "other")]
    holds("locations are those of all folders", (devices, tables) == (["a", "b", "c"], [["a", "b"], ["b", "c"]]))


def reads_what_was_collected(room):
    folders = [f"{EXAMPLE}/routers/{it}" for it in ("before", "after-good", "after-bad", "before-linux")]
    words = *folders, "--outside=10.0.0.17", "--outside=10.0.0.19", "-o", room
    holds("what was printed is read", run(from_frr, *words) == (0, "", ""))
    for name in [*(f"{it}.tables.json" for it in ("before", "after-good", "after-bad")), "locations.json"]:
        holds(f"{name} is made to the byte", get(f"{room}/{name}") == get(f"{EXAMPLE}/{name}"))
    holds("Linux says the same as FRR", get(f"{room}/before-linux.tables.json") == get(f"{room}/before.tables.json"))


def main():
    with tempfile.TemporaryDirectory(prefix="test-from-frr-") as room:
        for test in (chooses, writes, refuses, reads_two_folders, reads_what_was_collected):
            test(room)
    return finish()


if __name__ == "__main__":
    sys.exit(main())

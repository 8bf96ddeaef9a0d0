"""Reads what FRR prints: `show ip route json` and `show interface json`."""
from reports import Refused
from routers.printed import Hop, Interface, addresses, fitting, member, members, objects, prefix


def routes(value, where):
    """The hops of the selected routes, by prefix."""
    found = {}
    for text, entries in value.items():
        at, place = prefix(text, where), f"{where}: {text}"
        selected = [it for it in objects(entries, place) if it.get("selected") is True]
        if len(selected) > 1:
            raise Refused(f"{place}: {len(selected)} routes are selected")
        if selected:
            found[at] = hops(selected[0], place)
    return found


def hops(route, where):
    """The hops of a selected route: those in the forwarding table. A recursive one isn't; those that it comes to are."""
    used = [it for it in members(route, "nexthops", where) if it.get("fib") is True and it.get("recursive") is not True]
    dropping = [it.get("unreachable") is True for it in used]
    if not used:
        return "the selected route isn't in the forwarding table"
    if any(dropping):
        return [] if all(dropping) else "some next hops drop packets, and others don't"
    if any(it.get("labels") for it in used):
        return "a next hop has labels"
    if member(route, "protocol", str, where) in ("connected", "local"):
        return None
    return [Hop(member(it, "interfaceName", str, where), member(it, "ip", str, where, None)) for it in used]


def interfaces(value, where):
    """The interfaces of the default VRF, by name. An IPv6 address has a colon, and isn't read."""
    found = {}
    for name, it in value.items():
        place = f"{where}: {name}"
        if fitting(it, dict, place).get("vrfName", "default") != "default":
            continue
        statuses = [member(it, key, str, place) for key in ("administrativeStatus", "operationalStatus")]
        texts = [member(one, "address", str, place) for one in members(it, "ipAddresses", place, [])]
        own = addresses([text for text in texts if ":" not in text], place)
        found[name] = Interface(own, statuses == ["up", "up"], "LOOPBACK" in member(it, "flags", str, place))
    return found

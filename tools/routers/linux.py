"""Reads what Linux prints: `ip -j route` and `ip -j addr`."""
from reports import Refused
from routers.printed import Hop, Interface, addresses, member, members, objects, prefix

DROPPING = "blackhole", "unreachable", "prohibit"


def routes(value, where):
    """The hops of the routes, by prefix. Of a prefix's routes the first of the least metric counts, where some hop isn't dead."""
    found, metrics = {}, {}
    for route in objects(value, where):
        text = member(route, "dst", str, where)
        at, place = prefix("0.0.0.0/0" if text == "default" else text, where), f"{where}: {text}"
        if route.get("table", "main") != "main":
            raise Refused(f"{place}: it isn't in the table `main`")
        used = members(route, "nexthops", place, [route])
        used = [it for it in used if "dead" not in member(it, "flags", list, place, [])]
        metric = member(route, "metric", int, place, 0)
        if used and (at not in metrics or metric < metrics[at]):
            found[at], metrics[at] = hops(route, used, place), metric
    return found


def hops(route, used, where):
    """The hops of a route, of which these next hops are used. A route of the kernel's own without next hop is a connected one."""
    kind = route.get("type", "unicast")
    if kind == "local" or kind in DROPPING:
        return None if kind == "local" else []
    if kind != "unicast":
        return f"it is a route of type {kind}"
    if "tos" in route:
        return "it is for one type of service"
    if any("encap" in it for it in used):
        return "a next hop has labels"
    if (route.get("protocol"), route.get("scope"), "gateway" in route) == ("kernel", "link", False):
        return None
    others = [member(member(it, "via", dict, where, {}), "host", str, where, None) for it in used]
    return [Hop(member(it, "dev", str, where), member(it, "gateway", str, where, other)) for it, other in zip(used, others)]


def interfaces(value, where):
    """The interfaces, by name. `ip -4` prints `{}` for one without addresses. An IPv6 address is of another family."""
    found = {}
    for it in filter(None, objects(value, where)):
        name = member(it, "ifname", str, where)
        place = f"{where}: {name}"
        flags, known = member(it, "flags", list, place), members(it, "addr_info", place)
        texts = [f"{member(one, 'local', str, place)}/{member(one, 'prefixlen', int, place)}"
                 for one in known if one.get("family") == "inet"]
        found[name] = Interface(addresses(texts, place), {"UP", "LOWER_UP"} <= {*map(str, flags)}, "LOOPBACK" in flags)
    return found

"""What routers print of their routes and interfaces, in any form.

The hops of a route are as in a table file: None where packets are delivered, no hops where they are dropped, and else each hop.
In their place a text says why they can't be told.
"""
import ipaddress
from typing import List, NamedTuple, Optional

from reports import Refused

KINDS = {dict: "an object", list: "an array", str: "a string", int: "a whole number"}


class Hop(NamedTuple):
    """Where a route sends packets: the interface by which they leave, and the address of the next hop, if the route names one."""

    interface: str
    address: Optional[str]


class Interface(NamedTuple):
    """An interface: its IPv4 addresses, each with its subnet, whether it is up, and whether it is a loopback."""

    addresses: List[ipaddress.IPv4Interface]
    is_up: bool
    is_loopback: bool


def fitting(value, kind, what):
    """Returns a value, which has to be of a kind."""
    if type(value) is not kind:
        raise Refused(f"{what} isn't {KINDS[kind]}")
    return value


def member(owner, name, kind, where, *default):
    """Returns a member of an object, which has to be of a kind, and has to be there where no default is given."""
    return default[0] if default and name not in owner else fitting(owner.get(name), kind, f"{where}: `{name}`")


def objects(value, where):
    """Returns the entries of an array, which have to be objects."""
    return [fitting(it, dict, f"{where}: entry {at}") for at, it in enumerate(fitting(value, list, where))]


def members(owner, name, where, *default):
    """Returns the entries of a member that is an array of objects."""
    return objects(member(owner, name, list, where, *default), f"{where}: `{name}`")


def prefix(text, where):
    return parsed(ipaddress.IPv4Network, text, where)


def addresses(texts, where):
    """Returns addresses, each with its subnet."""
    return [parsed(ipaddress.IPv4Interface, it, where) for it in texts]


def parsed(kind, text, where):
    try:
        return kind(text)
    except ValueError:
        raise Refused(f"{where}: {text!r} isn't IPv4") from None

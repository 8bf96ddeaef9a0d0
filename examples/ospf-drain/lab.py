"""Runs FRR on routers in network namespaces of this machine, each of its own, with links that are pairs of virtual interfaces."""
import contextlib
import json
import os
import shutil
import signal
import subprocess
import time

# The daemons that a router runs: mgmtd is one of newer versions alone.
DAEMONS, PROGRAMS = ("mgmtd", "zebra", "staticd", "ospfd"), "/usr/lib/frr"
# The routes have settled when they stay so long, and have to settle within so long: seconds.
STAY, PATIENCE = 12, 120


class Failed(Exception):
    """The system didn't do what was asked of it."""


def run(*words):
    """Runs a command, and returns its output."""
    done = subprocess.run(words, stdin=subprocess.DEVNULL, capture_output=True, text=True)
    if done.returncode:
        raise Failed(f"{' '.join(words)}: status {done.returncode}: {(done.stderr or done.stdout).strip()}")
    return done.stdout


def stop(pid_file):
    """Ends the daemon whose process this file names, and waits for its end."""
    with open(pid_file, encoding="ascii") as file:
        pid = int(file.read())
    with contextlib.suppress(ProcessLookupError):
        os.kill(pid, signal.SIGTERM)
        # (the files of a process that has ended are gone, even where nobody has asked for its status yet)
        while os.path.exists(f"/proc/{pid}/exe"):
            time.sleep(0.1)


class Lab:
    """Namespaces that last until `undo`, an ExitStack, is closed. `room` is a folder for configurations and sockets."""

    def __init__(self, room, undo):
        self.room, self.undo, self.routers = room, undo, []

    def inside(self, place, *words):
        """Runs a command in a namespace."""
        return run("ip", "netns", "exec", f"rela-{place}", *words)

    def add(self, place):
        """Adds a namespace, with a loopback alone."""
        run("ip", "netns", "add", f"rela-{place}")
        self.undo.callback(run, "ip", "netns", "delete", f"rela-{place}")
        self.inside(place, "ip", "link", "set", "lo", "up")

    def link(self, *ends):
        """Links two namespaces. An end is a namespace and the name that the interface has there."""
        (one, name), (other, its_name) = ends
        peer = "type", "veth", "peer", "name", its_name, "netns", f"rela-{other}"
        run("ip", "link", "add", name, "netns", f"rela-{one}", *peer)
        for place, it in ends:
            self.inside(place, "ip", "link", "set", it, "up")

    def start(self, router, config):
        """Starts FRR on a router, and gives it the text of an frr.conf."""
        self.routers.append(router)
        place = f"{self.room}/{router}"
        os.mkdir(place)
        for daemon in [it for it in DAEMONS if os.path.exists(f"{PROGRAMS}/{it}")]:
            with open(f"{place}/{daemon}.conf", "w", encoding="ascii") as file:
                file.write(f"hostname {router}\n")
        with open(f"{place}/frr.conf", "w", encoding="ascii") as file:
            file.write(config)
        for name in ["", *os.listdir(place)]:
            shutil.chown(f"{place}/{name}", "frr", "frr")
        for daemon in [it for it in DAEMONS if os.path.exists(f"{place}/{it}.conf")]:
            files = "-f", f"{place}/{daemon}.conf", "-i", f"{place}/{daemon}.pid", "-z", f"{place}/zserv.api"
            self.inside(router, f"{PROGRAMS}/{daemon}", "-d", "-P", "0", "--vty_socket", place, *files)
            self.undo.callback(stop, f"{place}/{daemon}.pid")
        run("vtysh", "--vty_socket", place, "-f", f"{place}/frr.conf")

    def ask(self, router, *commands):
        """Returns what a router's console prints for commands."""
        return run("vtysh", "--vty_socket", f"{self.room}/{router}", *(word for it in commands for word in ("-c", it)))

    def routes(self, router):
        """Returns the addresses of the next hops that a router uses, by prefix."""
        entries = json.loads(self.ask(router, "show ip route json"))
        used = {prefix: [it["nexthops"] for it in found if it.get("selected")] for prefix, found in entries.items()}
        return {prefix: sorted(str(it.get("ip")) for hops in found for it in hops) for prefix, found in used.items() if found}

    def settle(self, prefixes):
        """Waits until each router has routes to so many prefixes, and they stay as they are."""
        begin = since = time.monotonic()
        last = None
        while last is None or time.monotonic() - since < STAY:
            time.sleep(1)
            now = {it: self.routes(it) for it in self.routers}
            if now != last or any(len(it) != prefixes for it in now.values()):
                last, since = now, time.monotonic()
            if time.monotonic() - begin > PATIENCE:
                raise Failed(f"the routers should have {prefixes} prefixes and have {({it: len(now[it]) for it in now})}")

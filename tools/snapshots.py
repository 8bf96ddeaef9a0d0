"""Finds the flows of a snapshot's file, of any size: their names, and where in the file they are."""
import json
import mmap
import os
import re
from array import array

from reports import NAME, Refused

# The most bytes of a snapshot that `rela check` reads, and so of a flow.
MOST = 33_554_432
# How many bytes are tried for a value, 0 standing for those that are in memory anyhow.
WINDOWS = (0, *(1 << it for it in range(20, 27)))
BLANKS, NAMES, DECODER = re.compile(rb"[ \t\n\r]*"), re.compile(NAME), json.JSONDecoder()


class Snapshot:
    """A snapshot's file: its version, the names of its flows, and where each begins and ends.

    It is looked at no further: what else is in a flow may be wrong. The text is read as Latin-1, so that a place in it is one
    in the file; a name is ASCII anyhow. Of a member that is repeated the last counts.
    """

    def __init__(self, path):
        self.path, self.window, self.base = path, "", 0
        self.version, self.names, self.begins, self.ends = None, None, array("Q"), array("Q")
        with open(path, "rb") as file:
            is_empty = os.fstat(file.fileno()).st_size == 0
            self.data = b"" if is_empty else mmap.mmap(file.fileno(), 0, access=mmap.ACCESS_READ)
        self.read()
        if type(self.version) is not int or self.version not in (1, 2):
            raise Refused(f"{path}: its version is neither 1 nor 2")
        if self.names is None:
            raise Refused(f"{path}: it has no list of flows")

    def refuse(self, at, why):
        raise Refused(f"{self.path}: at byte {at}: {why}")

    def skip(self, at):
        return BLANKS.match(self.data, at).end()

    def mark(self, marks, at):
        """Returns which of these marks comes next, and the place of what follows it."""
        at = self.skip(at)
        mark = self.data[at:at + 1]
        if not mark or mark not in marks:
            self.refuse(at, f"no {' or '.join(marks.decode())} is here")
        return mark, self.skip(at + 1)

    def value(self, at):
        """Returns the JSON value that begins at a place, and the place behind it."""
        for size in WINDOWS:
            if size:
                self.base, self.window = at, str(self.data[at:at + size], "latin-1")
            is_last = self.base + len(self.window) == len(self.data)
            try:
                value, end = DECODER.raw_decode(self.window, at - self.base)
                # (a number at the window's end may go on behind it)
                if is_last or end < len(self.window):
                    return value, self.base + end
            except (ValueError, RecursionError):
                pass
            if size and is_last:
                break
        return self.refuse(at, f"no JSON value of at most {MOST} bytes is here")

    def read(self):
        mark, at = self.mark(b"{", 0)
        while mark != b"}":
            key, at = self.value(at)
            _, at = self.mark(b":", at)
            if key == "flows":
                at = self.read_flows(at)
            else:
                value, at = self.value(at)
                self.version = value if key == "version" else self.version
            mark, at = self.mark(b",}", at)
        if at < len(self.data):
            self.refuse(at, "text follows the snapshot")

    def read_flows(self, at):
        """Reads the list of flows, and returns the place behind it."""
        self.names, self.begins, self.ends, seen = [], array("Q"), array("Q"), set()
        mark, at = self.mark(b"[", at)
        if self.data[at:at + 1] == b"]":
            return at + 1
        while mark != b"]":
            flow, end = self.value(at)
            name = flow.get("name") if isinstance(flow, dict) else None
            if not isinstance(name, str) or not NAMES.fullmatch(name):
                self.refuse(at, "no flow with a name is here")
            if name in seen:
                self.refuse(at, f"an earlier flow has the name {name}")
            seen.add(name)
            self.names.append(name)
            self.begins.append(at)
            self.ends.append(end)
            mark, at = self.mark(b",]", end)
        return at

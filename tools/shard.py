#!/usr/bin/env python3
"""Splits the two snapshot files of a change into PARTS pairs of files, for runs of `rela check` on each pair.

Pair K, from 0 to PARTS - 1, is OUTDIR/K.before.json and OUTDIR/K.after.json. Each is a snapshot of the version of the file
that it comes from, with some of that file's flows, byte for byte and in their order. The part of a flow is the first eight
bytes of the SHA-256 of its name, as a number with the highest byte first, modulo PARTS: the same in both files, in each
run and on each machine. Members of a snapshot other than `version` and `flows` are left out.

A snapshot may have 10,000 flows and 33,554,432 bytes. Where a part would have more, nothing is written, and a number of parts
that is enough is named on standard error. Of a flow only this is looked at: that it is JSON, and has a name that no other flow
has. `rela check` looks at the rest, in the part.

The files have to be on a disk, as they are read twice. OUTDIR is made, or has to be empty. The status is 0 where all parts
are written, and else 2, with the reason on standard error.
"""
import argparse
import hashlib
import os
import sys
from array import array

from reports import Refused, reason
from snapshots import MOST, Snapshot

MOST_FLOWS, MOST_PARTS = 10_000, 1_000_000
BETWEEN, TAIL = b",\n", b"\n]}\n"


class Shards:
    """A snapshot, with a hash of each flow's name."""

    def __init__(self, path):
        self.snapshot, self.path = Snapshot(path), path
        self.head = b'{"version":%d,"flows":[\n' % self.snapshot.version
        digests = (hashlib.sha256(it.encode()).digest() for it in self.snapshot.names)
        self.hashes = array("Q", (int.from_bytes(it[:8], "big") for it in digests))

    def sizes(self):
        """Yields the bytes that each flow takes in a part, with what stands between it and the next."""
        yield from (end - begin + len(BETWEEN) for begin, end in zip(self.snapshot.begins, self.snapshot.ends))

    def frame(self):
        """Returns the bytes of a part beside those of its flows."""
        return len(self.head) + len(TAIL) - len(BETWEEN)

    def fit(self, parts):
        """Tells whether each of so many parts may be a snapshot."""
        flows, sizes = [0] * parts, [self.frame()] * parts
        for number, size in zip(self.hashes, self.sizes()):
            flows[number % parts] += 1
            sizes[number % parts] += size
        return max(flows) <= MOST_FLOWS and max(sizes) <= MOST

    def least(self):
        """Returns a number below which no number of parts does. No number does where a flow is too large by itself."""
        for name, size in zip(self.snapshot.names, self.sizes()):
            if self.frame() + size > MOST:
                raise Refused(f"{self.path}: flow {name} alone makes a snapshot of more than {MOST} bytes")
        return max(len(self.hashes) // MOST_FLOWS, sum(self.sizes()) // MOST)

    def write(self, parts, folder, side):
        rows = [array("L") for _ in range(parts)]
        for row, number in enumerate(self.hashes):
            rows[number % parts].append(row)
        it = self.snapshot
        for part in range(parts):
            with open(f"{folder}/{part}.{side}.json", "xb") as file:
                file.write(self.head)
                for at, row in enumerate(rows[part]):
                    file.write(BETWEEN if at else b"")
                    file.write(it.data[it.begins[row]:it.ends[row]])
                file.write(TAIL)


def enough(pair, parts):
    """Returns a number of parts that would do, greater than this one."""
    parts = max(parts + 1, *(it.least() for it in pair))
    while not all(it.fit(parts) for it in pair):
        parts += 1 + parts // 50
    return parts


def number_of_parts(word):
    if not word.isdecimal() or not 1 <= int(word) <= MOST_PARTS:
        raise argparse.ArgumentTypeError(f"{word} is no number from 1 to {MOST_PARTS}")
    return int(word)


def main(words=None):
    how = {"description": __doc__, "formatter_class": argparse.RawDescriptionHelpFormatter}
    parser = argparse.ArgumentParser(**how)
    parser.add_argument("before", metavar="BEFORE", help="the snapshot before the change")
    parser.add_argument("after", metavar="AFTER", help="the snapshot after it")
    parser.add_argument("parts", metavar="PARTS", type=number_of_parts, help=f"from 1 to {MOST_PARTS}")
    parser.add_argument("folder", metavar="OUTDIR", help="where the parts are written")
    words = parser.parse_args(words)
    try:
        pair = Shards(words.before), Shards(words.after)
        if not all(it.fit(words.parts) for it in pair):
            raise Refused(f"{words.parts} parts don't do, as one would pass {MOST_FLOWS} flows or {MOST} bytes; "
                          f"{enough(pair, words.parts)} parts would do")
        os.makedirs(words.folder, exist_ok=True)
        if os.listdir(words.folder):
            raise Refused(f"{words.folder} isn't empty")
        for it, side in zip(pair, ("before", "after")):
            it.write(words.parts, words.folder, side)
    except (OSError, Refused) as error:
        print(f"shard: {reason(error)}", file=sys.stderr)
        return 2
    return 0


if __name__ == "__main__":
    sys.exit(main())

#!/usr/bin/env python3
"""Proves the crates that the program stands on, side by side, and builds the program. ./rela calls it.

    tools/build.py LOGS

A crate's turn comes once those below it are proved. Of the crates whose turn it is, the one with the most text on a chain
of crates above it goes first, while there are processors and memory. Where a chain is more text than each processor has
left, its crates get all idle processors but one, two at least, and the others one each; else each gets a fair share. Where
a build was cut off, or one crate failed, the next goes on from what was proved.

Each crate that is proved has a line on standard error, and what `rt` says of a crate goes to LOGS/NAME.log. The status is 0
where the program is built, 1 where it isn't, and 128 and a signal's number where that ended the build. It needs Python
3.8, as `rt` does.
"""
import argparse
import os
import re
import signal
import sys
import time

from lanes import TOP, Lane, crates_of, end_with_parent, remove_left, started

PROGRAM, MOST_JOBS = "rela_main", 4
# How `rt` ends where its check was killed, most likely for memory.
KILLED = (-9, 247, 137)
# The lines of `rt` on what went well, and how many of the others are shown of a crate that failed.
WELL, SHOWN = re.compile(r"^(by-macro|statements|logic) |: proved$|^checked "), 20
# The signals that came to end the build.
ENDING = []


def say(text):
    print(f"rela: {text}", file=sys.stderr, flush=True)


def number(file, pattern, unit=1):
    """Returns the number that the pattern finds in a file, times the unit, or infinity."""
    try:
        with open(file) as it:
            return int(re.search(pattern, it.read(), re.M)[1]) * unit
    except (OSError, TypeError):
        return float("inf")


class Build:
    """The crates that are still to be proved, and the lanes in which some of them are."""

    def __init__(self, libraries, logs):
        self.left, self.lanes, self.logs = libraries, [], logs
        self.processors = len(os.sched_getaffinity(0))
        free = number("/proc/meminfo", r"^MemAvailable:\s+(\d+)", 1024)
        self.memory = 0.85 * min(free, number("/sys/fs/cgroup/memory.max", r"^(\d+)"))

    def start(self):
        """Starts the crates whose turn it is, while there are processors and memory."""
        at_work = [it.crate for it in self.lanes]
        unproved = {*self.left, *at_work}
        ready = sorted((it for it in self.left if not unproved & {*it.below}), key=lambda it: -it.chain)
        for at, crate in enumerate(ready):
            idle = self.processors - sum(it.jobs for it in self.lanes)
            room = self.memory - sum(it.memory for it in self.lanes)
            jobs = min(self.share(crate, unproved, len(ready) - at, idle), idle, MOST_JOBS)
            jobs = next((it for it in range(jobs, 1, -1) if crate.memory(it) <= room), 1)
            # (what was killed has nothing beside it)
            if idle < 1 or any(it.crate.was_killed for it in self.lanes):
                return
            if not self.lanes or (crate.memory(jobs) <= room and not crate.was_killed):
                self.left.remove(crate)
                self.lanes.append(Lane(crate, 1 if crate.was_killed else jobs, f"{self.logs}/{crate.name}.log"))

    def share(self, crate, unproved, ready, idle):
        """Returns how many of the idle processors a crate gets, where so many crates are ready."""
        text = sum(it.text for it in unproved)
        is_long = lambda it: it.chain * self.processors > text
        if is_long(crate):
            return max(idle // ready, 2, idle - 1)
        return 1 if any(is_long(it) for it in unproved) else idle // ready

    def prove(self):
        """Proves all libraries, and returns the first that isn't proved, if any."""
        try:
            while (self.left or self.lanes) and not ENDING:
                self.start()
                time.sleep(0.1)
                for lane in [it for it in self.lanes if it.run.poll() is not None]:
                    self.lanes.remove(lane)
                    status, crate = lane.end(), lane.crate
                    if status in KILLED and not crate.was_killed:
                        say(f"the proof of {crate.name} was killed, most likely for memory; it is tried again alone")
                        crate.was_killed = True
                        self.left.append(crate)
                    elif status:
                        return crate
                    else:
                        say(f"proved {crate.name} ({len(self.left) + len(self.lanes) + 1} left)")
        finally:
            for lane in self.lanes:
                lane.end()
        return None


def build(program, logs):
    """Proves and builds the program over its libraries, and returns whether it did. `rt` has no word for that alone, so it
    also runs the program, which has nothing to do on an empty specification."""
    run = started(["run", "--", "fmt", "/dev/null"], f"{TOP}/{program.folder}", f"{logs}/{program.name}.log")
    while run.poll() is None and not ENDING:
        time.sleep(0.1)
    if run.poll() is None:
        run.terminate()
    return run.wait() == 0


def tell(crate, logs):
    """Says where the log of a crate that failed is, and how it ends."""
    log = f"{logs}/{crate.name}.log"
    with open(log, errors="replace") as it:
        lines = [line for line in it.read().splitlines() if line.strip() and not WELL.search(line)]
    say(f"{crate.name} was not proved or built; {log} ends so:")
    print(*lines[-SHOWN:], sep="\n", file=sys.stderr, flush=True)


def main(logs):
    end_with_parent()
    for it in (signal.SIGHUP, signal.SIGINT, signal.SIGTERM):
        signal.signal(it, lambda number, _: ENDING.append(number))
    remove_left()
    *libraries, program = crates_of(PROGRAM)
    failed = Build(libraries, logs).prove()
    if not failed and not ENDING and not build(program, logs):
        failed = program
    if ENDING:
        say("the build was ended; the next goes on from what was proved")
        return 128 + ENDING[0]
    if failed:
        tell(failed, logs)
        return 1
    say(f"proved {program.name} (0 left)")
    return 0


if __name__ == "__main__":
    how = argparse.ArgumentParser(description=__doc__, formatter_class=argparse.RawDescriptionHelpFormatter)
    how.add_argument("logs", metavar="LOGS", help="the folder for what `rt` says of each crate")
    sys.exit(main(os.path.abspath(how.parse_args().logs)))

"""Proves a crate in a lane: a copy of the crates that it stands on, among the temporary files.

`rt` holds a crate and all below it for one command at a time, so two crates over the same ones can be proved side by side
only in two copies of the repository. The libraries below are linked into a lane, and what `rt` makes goes to the crate's
own out/, where a later `rt` finds it.
"""
import ctypes
import fcntl
import os
import shutil
import signal
import subprocess
import tempfile

TOP = os.path.dirname(os.path.dirname(os.path.realpath(__file__)))
PARTS, MADE = ("src", "specs", "proofs"), ("rlib", "incremental")
# The memory of a check in bytes: at least, for a byte of the crate's text, for one of those below; and, as a share of
# all that, for each job after the first.
LEAST, OF_OWN, OF_BELOW, OF_JOB = 1_000_000_000, 6_000, 300, 0.6


class Crate:
    """A crate by its line of crates.txt, with those it uses, all `below` it, and the bytes of its `text` and of the longest
    `chain` that begins with it, of crates that stand each on the one before."""

    def __init__(self, name, line, uses):
        self.name, self.line, self.uses, self.folder, self.was_killed = name, line, uses, f"crates/{name}", False
        self.below = list(dict.fromkeys(it for use in uses for it in [*use.below, use]))
        walked = [it for part in PARTS for it in os.walk(f"{TOP}/{self.folder}/{part}")]
        self.text = self.chain = sum(os.path.getsize(f"{at}/{name}") for at, _, names in walked for name in names)

    def memory(self, jobs):
        below = sum(it.text for it in self.below)
        return (LEAST + OF_OWN * self.text + OF_BELOW * below) * (1 + OF_JOB * (jobs - 1))

    def hand(self, part, one, other, hand):
        """Hands a part of out/ from one copy of the repository to another, once no other `rt` is in the crate's folder."""
        held = os.open(f"{TOP}/{self.folder}", os.O_RDONLY)
        try:
            fcntl.flock(held, fcntl.LOCK_EX)
            one, other = (f"{top}/{self.folder}/out/{part}" for top in (one, other))
            if os.path.isdir(one):
                shutil.rmtree(other, ignore_errors=True)
                os.makedirs(os.path.dirname(other), exist_ok=True)
                hand(one, other)
        finally:
            os.close(held)


def crates_of(program):
    """Returns the crates that the program stands on and itself, each after those that it uses, by crates.txt."""
    rows, crates = {}, {}
    with open(f"{TOP}/crates.txt") as file:
        for line in (it.partition("#")[0].strip() for it in file):
            head, _, uses = line.partition(":")
            if head:
                rows[head.split()[0]] = line, uses.replace(",", " ").split()

    def add(name):
        if name in rows:
            line, uses = rows.pop(name)
            for it in uses:
                add(it)
            crates[name] = Crate(name, line, [crates[it] for it in uses if it in crates])

    add(program)
    for crate in reversed([*crates.values()]):
        for it in crate.uses:
            it.chain = max(it.chain, it.text + crate.chain)
    return [*crates.values()]


class Lane:
    """A copy of what a crate is proved from, and the `rt lib` at work there."""

    def __init__(self, crate, jobs, log):
        self.crate, self.jobs, self.memory = crate, jobs, crate.memory(jobs)
        self.top = tempfile.mkdtemp(prefix=f"rela-lane-{os.getpid()}-", dir=place())
        with open(f"{self.top}/crates.txt", "w") as it:
            it.writelines(f"{one.line}\n" for one in [*crate.below, crate])
        for folder in (f"{one.folder}/{part}" for one in [*crate.below, crate] for part in PARTS):
            if os.path.isdir(f"{TOP}/{folder}"):
                shutil.copytree(f"{TOP}/{folder}", f"{self.top}/{folder}", symlinks=True)
        for one in crate.below:
            one.hand("rlib", TOP, self.top, lambda *of: shutil.copytree(*of, copy_function=link_or_copy))
        for part in MADE:
            crate.hand(part, TOP, self.top, shutil.move)
        self.run = started(["lib", "--jobs", str(jobs)], f"{self.top}/{crate.folder}", log)

    def end(self):
        """Hands over what was made, and returns the status of `rt`, which is ended where it is still at work."""
        if self.run.poll() is None:
            self.run.terminate()
        self.run.wait()
        for part in MADE:
            self.crate.hand(part, self.top, TOP, shutil.move)
        shutil.rmtree(self.top, ignore_errors=True)
        return self.run.returncode


def place():
    """Returns where lanes go: on the repository's disk where it has such a place, as links don't lead to another."""
    places = [it for it in (tempfile.gettempdir(), os.path.dirname(TOP)) if os.access(it, os.W_OK)]
    return next((it for it in places if os.stat(it).st_dev == os.stat(TOP).st_dev), None)


def link_or_copy(one, other):
    """Gives a library's file a second name: `rt` removes such a file before it makes it anew, and never writes into it."""
    try:
        os.link(one, other)
    except OSError:
        shutil.copy2(one, other)


def started(words, folder, log):
    """Starts `rt` with these words. It ends when this process does."""
    with open(log, "wb") as out:
        how = {"stdin": subprocess.DEVNULL, "stdout": out, "stderr": subprocess.STDOUT, "preexec_fn": end_with_parent}
        return subprocess.Popen(["rt", *words], cwd=folder, **how)


def end_with_parent():
    """Has the system end this process by SIGTERM where its parent ends."""
    ctypes.CDLL(None).prctl(1, signal.SIGTERM)


def remove_left():
    """Removes the lanes of builds that were killed."""
    at = place() or tempfile.gettempdir()
    for name in os.listdir(at):
        words = name.split("-")
        if words[:2] == ["rela", "lane"] and not os.path.exists(f"/proc/{words[2]}"):
            shutil.rmtree(f"{at}/{name}", ignore_errors=True)

"""Runs the built program, each time with a deadline, in a folder with the files of an example, and notes what is seen."""
import contextlib
import errno
import os
import resource
import select
import signal
import subprocess
import time

import tally

EXAMPLE = os.path.join(os.path.dirname(os.path.dirname(os.path.dirname(os.path.realpath(__file__)))), "examples/first-check")
# The operands of check, which are the names of their files in the folder, and the files of the example.
FILES = {"before": "before.json", "after": "after.json", "locations": "locations.json", "spec": "keep-the-path.rela"}
# An assertion, and the reports on it: of no change, and of the example's.
ASSERTION = b"assert a = equal(pre, post);"
HOLDS = b"flow web assert a holds\ntotal 1 holds 1 fails 0 undecided 0\n"
FAILS = b"""flow web assert a fails
  leaf 1: first: leaf1:up spine1:down leaf2:up leaf2:host
total 1 holds 0 fails 1 undecided 0
"""
# A specification of one check with a complement, and the text of its zone.
COMPLEMENT = b"check c : { !leaf1:up : preserve };"
ZONE = b"""states 3
state 0 accept
  to 2 : leaf1:up
  else to 1
state 1 accept
  else to 1
state 2
  else to 1
"""
# Tables by which one half of the addresses goes from leaf1 over spine1 to leaf2 and the other is dropped, others that drop all, and
# the snapshot of the first beside these.
TABLES = b"""{"version":1,"starts":["leaf1:up"],"tables":[
{"device":"leaf1","routes":[{"prefix":"0.0.0.0/1","hops":["spine1:down"]}]},
{"device":"spine1","routes":[{"prefix":"0.0.0.0/0","hops":["leaf2:up"]}]},{"device":"leaf2","routes":[{"prefix":"0.0.0.0/0"}]}]}
"""
OTHER = b"""{"version":1,"starts":["leaf1:up"],"tables":[{"device":"leaf1","routes":[{"prefix":"0.0.0.0/0","hops":[]}]}]}"""
# The certificate of the example's check, where nothing is changed.
CERTIFICATE = b"""rela certificate 1
row web keep-the-path
images
0 0
0 1
2 4
3 3
4 2
end
"""
NODES = b'"nodes":["leaf1:up","leaf2:up","spine1:down"],"starts":[0]'
SNAPSHOT = (b'{"flows":[{"delivered":[1],"dropped":[],"dst":"0.0.0.0/1","edges":[[0,2],[2,1]],"name":"0.0.0.0/1",%b},'
            b'{"delivered":[1],"dropped":[0],"dst":"128.0.0.0/1","edges":[[2,1]],"name":"128.0.0.0/1",%b}],"version":1}\n') % (NODES, NODES)
SECONDS = 120


def demo(layers):
    """Returns the report on the input of so many layers."""
    rows = "".join(f"flow f{flow} check c{2 if flow == 7 else 1} compliant\n" for flow in range(1, 8))
    path = " ".join(f"a{layer:03}" for layer in range(1, layers + 1))
    rows += f"flow f8 check c1 violated\n  missing: {path}\n  before: {path}\n"
    return f"{rows}total 8 compliant 7 violated 1 undecided 0 unselected 0\n".encode()


def get(path):
    with open(path, "rb") as file:
        return file.read()


def check(*options, **others):
    """Returns the words that check the example, where some operands may have other files."""
    return ["check", *options, *(others.get(it, it) for it in FILES)]


def rir(*options, **others):
    """Returns the words that report on the assertion, where some operands may have other files."""
    return ["rir", *options, *(others.get(it, it) for it in ("before", "after", "locations", "assertions"))]


def certify(*options, **others):
    """Returns the words that certify the example where nothing is changed; some operands may have other files."""
    return ["certify", *options, *({"after": "before", **others}.get(it, it) for it in FILES)]


def audit(*options, **others):
    """Returns the words that audit the certificate of the example where nothing is changed; some operands may have other files."""
    return ["audit", *options, *({"after": "before", **others}.get(it, it) for it in (*FILES, "certificate"))]


def fib(*options, **others):
    """Returns the words that draw the snapshot of the tables, where some operands may have other files."""
    return ["fib", *options, *(others.get(it, it) for it in ("tables", "other", "locations"))]


def zone(*options, **others):
    """Returns the words that write the zone of the check with a complement, where some operands may be others."""
    return ["zone", *options, *{"locations": "locations", "spec": "complement", "name": "c", **others}.values()]


def refused(operand, said):
    """Returns the status and the line of a refusal."""
    return 4, f"refused {operand} {said}\n".encode()


def limit(kind, size):
    """Returns what sets a limit in a new process. A file that would grow above it is told by an error, and by no signal."""
    def prepare():
        signal.signal(signal.SIGXFSZ, signal.SIG_IGN)
        resource.setrlimit(kind, (size, size))
    return prepare


def told(status, out, err=b""):
    return f"status {status} and {len(out)} bytes {out[:80]!r}" + (f", standard error {err[:80]!r}" if err else "")


def place(pid, path):
    """Returns how far a process has read a file, and 0 where it doesn't have it open."""
    with contextlib.suppress(OSError):  # (what was there has been closed)
        for it in os.listdir(f"/proc/{pid}/fd"):
            if os.readlink(f"/proc/{pid}/fd/{it}") == path:
                return int(get(f"/proc/{pid}/fdinfo/{it}").split()[1])
    return 0


class Program:
    def __init__(self, path, room):
        self.path, self.room = os.path.abspath(path), os.path.realpath(room)
        self.texts = {name: get(f"{EXAMPLE}/{file}") for name, file in FILES.items()}
        self.texts |= {"assertions": ASSERTION, "complement": COMPLEMENT, "certificate": CERTIFICATE, "tables": TABLES, "other": OTHER}
        for name, text in self.texts.items():
            self.put(text, name)
        # The reports on the example: of the change, and of no change; and of the change with the branch that is to blame.
        self.moved, self.same = (get(f"{EXAMPLE}/{it}.report") for it in ("moved", "same"))
        brace = self.texts["spec"].index(b"{")
        self.blamed = self.moved.replace(b"total", b"  zone: 1 at %d\ntotal" % brace)

    def put(self, text, name="input"):
        """Writes a file in the folder, and returns its name."""
        with open(f"{self.room}/{name}", "wb") as file:
            file.write(text)
        return name

    def holds(self, what, is_so, why=""):
        tally.holds(f"{what}{why}", is_so)

    def ends(self, what, found, *wanted):
        """Notes whether a run has ended with one of these statuses and outputs, and nothing on standard error."""
        why = f": {told(*found) if found else 'it was never seen there'}, not {' or '.join(told(*it) for it in wanted)}"
        self.holds(what, found in [(*it, b"") for it in wanted], why)

    def start(self, *words, **how):
        usual = {"stdin": subprocess.DEVNULL, "stdout": subprocess.PIPE, "stderr": subprocess.PIPE, "cwd": self.room}
        return subprocess.Popen([self.path, *words], **{**usual, **how})

    def end(self, call):
        """Returns the status, the output and what stands on standard error."""
        try:
            out, err = call.communicate(timeout=SECONDS)
        except subprocess.TimeoutExpired:
            call.kill()
            out, err = call.communicate()
            return f"none in {SECONDS} seconds", out or b"", err
        return call.returncode, out or b"", err

    def read(self, call, size):
        """Reads some bytes of the output. A call that gives none in time is killed."""
        if not select.select([call.stdout], [], [], SECONDS)[0]:
            call.kill()
        return os.read(call.stdout.fileno(), size)

    def run(self, *words, **how):
        return self.end(self.start(*words, **how))

    def run_fed(self, words, fifos):
        """Runs it, and feeds it FIFOs, by their names and in this order, in pieces and with pauses."""
        call = self.start(*words)
        for name, pieces in fifos.items():
            fifo = self.opened(call, f"{self.room}/{name}")
            for piece in pieces if fifo else ():
                with contextlib.suppress(BrokenPipeError):
                    os.write(fifo, piece)
                time.sleep(0.002)
            if fifo:
                os.close(fifo)
        return self.end(call)

    def opened(self, call, path):
        """Opens a FIFO as soon as the call reads from it, if it ever does."""
        late = time.monotonic() + SECONDS
        while call.poll() is None and time.monotonic() < late:
            try:
                return os.open(path, os.O_WRONLY | os.O_NONBLOCK)
            except OSError as error:
                if error.errno != errno.ENXIO:
                    raise
                time.sleep(0.001)
        return None

    def run_changing(self, words, name, change):
        """Runs it, and stops it in the middle of a file, which is changed then. Returns None where this can't be done."""
        for _ in range(100):
            call = self.start(*words)
            is_within = self.stops_within(call, f"{self.room}/{name}")
            if is_within:
                change(f"{self.room}/{name}")
            call.send_signal(signal.SIGCONT)
            found = self.end(call)
            if is_within:
                return found
        return None

    def stops_within(self, call, path):
        """Stops the call as soon as it has read a part of the file, and returns whether it hasn't read all of it."""
        late, size = time.monotonic() + SECONDS, os.path.getsize(path)
        while call.poll() is None and time.monotonic() < late:
            if place(call.pid, path) > 0:
                call.send_signal(signal.SIGSTOP)
                os.waitid(os.P_PID, call.pid, os.WSTOPPED | os.WEXITED | os.WNOWAIT)
                return 0 < place(call.pid, path) < size
        return False

"""What the program does where standard output, and what else it starts with, isn't as usual: closed, full, slow, limited."""
import os
import resource
import socket
import time

from outside.program import CERTIFICATE, FAILS, SNAPSHOT, ZONE, audit, certify, check, demo, fib, get, limit, refused, rir, zone

BAD_WORDS = b"rela: bad command line\n"


def answers(it):
    """Returns the words of runs that write something, by what it is, each with its status and output."""
    return {"a report": (check(), 1, it.moved), "a report with blame": (check("--blame"), 1, it.blamed),
            "a refusal": (check(spec="before"), *refused("spec", "32 Syntax at 0")),
            "no words": ([], 2, BAD_WORDS), "a text": (["fmt", "spec"], 0, b"level interface;\n" + it.texts["spec"]),
            "a report on assertions": (rir(), 1, FAILS), "a zone": (zone(), 0, ZONE),
            "an undecided zone": (zone("--states=2"), 3, b"undecided\n"),
            "a certificate": (certify(), 0, CERTIFICATE), "an audit": (audit(), 0, b"accepted 1\n"),
            "an audit of a change": (audit(after="after"), 1, b"rejected at 3\n"), "a snapshot": (fib(), 0, SNAPSHOT),
            "the report on a made input": (["demo", "3"], 1, demo(3))}


def to_nothing(it, words, signals=True):
    """Runs it with a pipe that nobody reads, which raises a signal or doesn't."""
    end, other = os.pipe()
    os.close(end)
    found = it.run(*words, stdout=other, restore_signals=signals)
    os.close(other)
    return found


def to_closed_socket(it, words):
    one, other = socket.socketpair()
    other.close()
    with one:
        return it.run(*words, stdout=one)


def takes_nothing(it):
    for what, (words, *_) in answers(it).items():
        it.ends(f"{what} to a closed descriptor", it.run(*words, stdout=None, preexec_fn=lambda: os.close(1)), (6, b""))
        with open("/dev/full", "wb") as full, open("/dev/null", "rb") as unwritable:
            it.ends(f"{what} to a full disk", it.run(*words, stdout=full), (6, b""))
            it.ends(f"{what} to a file that is open to read", it.run(*words, stdout=unwritable), (6, b""))
        it.ends(f"{what} to a pipe that nobody reads", to_nothing(it, words), (6, b""))
        it.ends(f"{what} to a pipe that nobody reads, without signals", to_nothing(it, words, False), (6, b""))
        it.ends(f"{what} to a closed socket", to_closed_socket(it, words), (6, b""))
    words = check(after="none")
    it.ends("nothing to a closed descriptor", it.run(*words, stdout=None, preexec_fn=lambda: os.close(1)), (5, b""))
    it.ends("nothing to a pipe that nobody reads", to_nothing(it, words), (5, b""))


def takes_some(it, words, status, whole):
    """Runs it where a file may have a number of bytes."""
    for size in (0, 1, len(whole) // 2, len(whole) - 1, len(whole)):
        with open(f"{it.room}/report", "wb") as file:
            code, _, err = it.run(*words, stdout=file, preexec_fn=limit(resource.RLIMIT_FSIZE, size))
        wanted = (6 if size < len(whole) else status, whole[:size])
        it.ends(f"{size} of {len(whole)} bytes may be written", (code, get(f"{it.room}/report"), err), wanted)


def slowly(it, words, status, whole):
    call, read = it.start(*words), []
    while not read or read[-1]:
        time.sleep(0.002)
        read.append(it.read(call, 10_000))
    code, _, err = it.end(call)
    it.ends("a slow reader gets all bytes", (code, b"".join(read), err), (status, whole))


def breaks_off(it, words, _, whole):
    call = it.start(*words)
    read = it.read(call, 1000)
    call.stdout.close()
    code, _, err = it.end(call)
    it.ends("a reader goes after a part", (code, read, err), (6, whole[:len(read)]))
    end, other = os.pipe()
    os.set_blocking(other, False)
    code, _, err = it.run(*words, stdout=other)
    os.close(other)
    with open(end, "rb") as file:
        part = file.read()
    it.ends("a pipe that doesn't wait is full", (code, part, err), (6, whole[:min(len(part), len(whole) - 1)]))


def starts_otherwise(it):
    """Other descriptors and limits than usual change no answer."""
    for what, shut in (("input", [0]), ("error", [2]), ("input and error", [0, 2])):
        found = it.run(*check(), preexec_fn=lambda shut=shut: [os.close(at) for at in shut])
        it.ends(f"standard {what} closed", found, (1, it.moved))
    it.ends("all closed", it.run(*check(), stdout=None, preexec_fn=lambda: os.closerange(0, 3)), (6, b""))
    it.ends("no environment", it.run(*check(), env={}), (1, it.moved))
    # (two files are open at a time)
    found = it.run(*check(), preexec_fn=limit(resource.RLIMIT_NOFILE, 4))
    it.ends("only one more descriptor", found, (5, b""), (1, it.moved))
    for what, (words, status, whole) in answers(it).items():
        takes_some(it, words, status, whole)

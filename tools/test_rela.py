#!/usr/bin/env python3
"""Tests the launcher ./rela in a scratch copy, with an `rt` and a program that only pretend (tools/fakes).

    tools/test_rela.py

Its last line is `N passed, M failed`, and its status 1 where one failed. It needs no kit, and takes seconds.
"""
import os
import signal
import sys
import tempfile

from fakes.scratch import CRATES, Copy
from tally import finish, holds

WORDS, ANSWER = ["check", "x", "x", "x", "status"], b"one\n\0\xff"


def builds(copy):
    status, out, err, notes = copy.run(*WORDS, env={**copy.env, "SECONDS": "1"})
    holds("a first call builds and runs", (status, out) == (0, ANSWER))
    at = {it: number for number, it in enumerate(notes)}
    order = [("a", "b"), ("a", "c"), ("b", "d"), ("c", "d"), ("d", "rela_main")]
    holds("a crate waits for those below", all(at[f"ends {one}"] < at[f"begins {other}"] for one, other in order))
    is_beside = at["begins c"] < at["ends b"] and at["begins b"] < at["ends c"]
    holds("crates are proved side by side", is_beside or len(os.sched_getaffinity(0)) < 2)
    holds("each crate that is proved is told", all(it in err for it in ("proved a (4 left)", "proved rela_main (0 left)")))
    holds("the log's place is told", f"{copy.top}/out/log" in err)
    holds("no other crate is built", len(notes) == 10)
    holds("no lane is left", not [it for it in os.listdir(copy.room) if it.startswith("rela-lane")])


def passes_on(copy):
    for status in (0, 1, 4, 6, 7):
        copy.write("status", str(status))
        holds(f"status {status} passes", copy.run(*WORDS) == (status, ANSWER, "", []))
    copy.write("status", "KILL")
    holds("the signal that ended the program passes", copy.run(*WORDS)[0] == -signal.SIGKILL)
    copy.write("status", "0")
    status, out, err, _ = copy.run("check", "x")
    used = ["check [--states N] [--blame] BEFORE AFTER LOCATIONS SPEC", "rir [--states N] BEFORE AFTER LOCATIONS ASSERTIONS",
            "zone [--states N] LOCATIONS SPEC NAME"]
    is_told = all(f" ./rela {it}\n" in err for it in used)
    holds("status 2 has the words on standard error", (status, out) == (2, ANSWER) and is_told)
    gone = copy.run("check", "x", "gone", "x", "status")
    holds("status 5 names the operand", gone == (5, ANSWER, "rela: AFTER can't be opened: gone\n", []))
    holds("options are no operands", copy.run("check", "--states", "5", "x", "x", "x", "status") == (0, ANSWER, "", []))
    gone = copy.run("check", "--states", "5", "x", "gone", "x", "status")
    holds("status 5 names the operand behind an option", gone == (5, ANSWER, "rela: AFTER can't be opened: gone\n", []))
    holds("a flag is no operand", copy.run("check", "x", "--blame", "x", "x", "status") == (0, ANSWER, "", []))
    gone = copy.run("rir", "x", "x", "x", "gone")
    holds("status 5 names the operand of another command", gone == (5, ANSWER, "rela: ASSERTIONS can't be opened: gone\n", []))
    holds("the name of a check is no file", copy.run("zone", "x", "status", "gone") == (0, ANSWER, "", []))
    gone = copy.run("zone", "--states", "5", "gone", "status", "gone")
    holds("status 5 names the files among the operands", gone == (5, ANSWER, "rela: LOCATIONS can't be opened: gone\n", []))
    holds("a number of layers is no file", copy.run("demo", "3") == (0, ANSWER, "", []))
    status, out, err, _ = copy.run("demo")
    holds("status 2 has the words of each command", (status, out) == (2, ANSWER) and " ./rela demo LAYERS\n" in err)
    closed = copy.run("check", preexec_fn=lambda: os.close(2))
    holds("a closed standard error changes nothing", closed[:2] == (2, ANSWER))


def keeps(copy):
    for file in ("crates/a_tests/src/lib.rt", "crates/b/must-fail/one.edit", "docs/page.md", "crates/b/out/one", "HANDLES"):
        copy.write(file, "changed")
        holds(f"{file} starts no build", copy.run(*WORDS)[3] == [])
    copy.write("crates.txt", CRATES.replace("a_tests: a", "a_tests: a b"))
    holds("a line of another crate starts no build", copy.run(*WORDS)[3] == [])
    os.utime(f"{copy.top}/crates/a/src/lib.rt")
    holds("a new time of the same bytes starts no build", copy.run(*WORDS)[3] == [])
    for what, text in (("added", "one"), ("changed", "two")):
        copy.write("crates/c/specs/One.antt", text)
        holds(f"a spec that is {what} starts a build", "ends rela_main" in copy.run(*WORDS)[3])
    os.remove(f"{copy.top}/crates/c/specs/One.antt")
    holds("a spec that is deleted starts a build", "ends rela_main" in copy.run(*WORDS)[3])
    copy.write("crates.txt", CRATES.replace("c: a", "c: a b"))
    notes = copy.run(*WORDS)[3]
    holds("a changed line starts a build", notes.index("ends b") < notes.index("begins c"))


def fails(copy):
    copy.write("crates/c/src/lib.rt", "BROKEN")
    for call in ("first", "second"):
        status, out, err, notes = copy.run(*WORDS)
        holds(f"a failed build has status 126 and no answer ({call})", (status, out, "begins c" in notes) == (126, b"", True))
        is_told = "error: c []" in err and f"{copy.top}/out/log/c.log" in err and "fn c" not in err
        holds(f"the end of its log is told ({call})", is_told)
    holds("with no rt the status is 127", copy.run(*WORDS, env=copy.no_rt)[:2] == (127, b""))
    copy.write("crates/c/src/lib.rt", "mended")
    holds("a mended crate is built and run", copy.run(*WORDS)[:2] == (0, ANSWER))
    holds("a built program needs no rt", copy.run(*WORDS, env=copy.no_rt)[:2] == (0, ANSWER))
    copy.write("crates/rela_main/src/main.rt", copy.program.replace("exit 0", "exit 2"))
    holds("a program that doesn't answer as it is built isn't run", copy.run(*WORDS)[:2] == (126, b""))
    copy.write("crates/rela_main/src/main.rt", copy.program)


def takes_turns(copy):
    copy.write("crates/d/src/lib.rt", "changed")
    calls = [copy.start(*WORDS) for _ in range(3)]
    told = [(*it.communicate(timeout=60), it.returncode) for it in calls]
    holds("of three calls at once one builds", copy.noted().count("ends rela_main") == 1)
    holds("each of them runs the program", all((out, status) == (ANSWER, 0) for out, _, status in told))
    holds("two say that they wait", sum(b"waiting" in err for _, err, _ in told) == 2)
    copy.write("crates/a/src/lib.rt", "changed")
    call = copy.start(*WORDS, env={**copy.env, "SECONDS": "30"})
    holds("a build begins with the lowest crate", copy.wait_for("begins a"))
    call.terminate()
    holds("a signal ends a build", call.communicate(timeout=10)[0] == b"" and call.returncode == -signal.SIGTERM)
    status, _, _, notes = copy.run(*WORDS)
    holds("the next call builds again", status == 0 and "ends a" in notes)
    copy.write("crates/b/src/lib.rt", "changed")
    call = copy.start(*WORDS, env={**copy.env, "SECONDS": "0.5"})
    holds("a build gets to the highest library", copy.wait_for("begins d"))
    copy.write("crates/a/src/lib.rt", "changed meanwhile")
    out, err = call.communicate(timeout=60)
    holds("files that change during a build end it", (call.returncode, out) == (126, b"") and b"changed while" in err)


def main():
    with tempfile.TemporaryDirectory(prefix="test-rela-") as room:
        copy = Copy(room)
        for test in (builds, passes_on, keeps, fails, takes_turns):
            test(copy)
    return finish()


if __name__ == "__main__":
    sys.exit(main())

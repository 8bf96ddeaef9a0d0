#!/usr/bin/env python3
"""Tests tools/run_examples.py with a program that only pretends, and the script that makes the fat tree.

    tools/test_run_examples.py

Its last line is `N passed, M failed`, and its status 1 where one failed. It needs no kit and no program, and takes seconds.
"""
import contextlib
import io
import os
import subprocess
import sys
import tempfile

sys.dont_write_bytecode = True
import run_examples
from run_examples import EXAMPLES
from tally import finish, holds

TOP = os.path.dirname(EXAMPLES)
# It writes a file of the folder where it is run and ends with a status, or does what its first word says.
PROGRAM = """#!/usr/bin/env bash
case $1 in
    fmt) exit "$(cat "$(dirname "$0")/built")" ;;
    kill) kill -KILL $$ ;;
    sleep) exec sleep 60 ;;
    told) echo "not compared" >&2 ;;
esac
cat "$1"
exit "$2"
"""
REPORT = "flow web check keep compliant\ntotal 1 compliant 1 violated 0 undecided 0 unselected 0\n"


def put(text, path):
    os.makedirs(os.path.dirname(path), exist_ok=True)
    with open(path, "w", encoding="latin-1", newline="") as file:
        file.write(text)
    return path


def get(path):
    with open(path, "rb") as file:
        return file.read()


def ran(*words):
    """Runs the tool, and returns its status, the lines that it writes, and what it says on standard error."""
    with contextlib.redirect_stdout(io.StringIO()) as out, contextlib.redirect_stderr(io.StringIO()) as err:
        status = run_examples.main([*words])
    return status, out.getvalue().splitlines(), err.getvalue()


def compares(program, room):
    put(REPORT, f"{room}/one/kept")
    runs = lambda *lines: put("\n".join(lines) + "\n", f"{room}/one/runs.txt")
    runs("# a comment", "", "kept 0 kept 0", "kept 3 kept 3")
    holds("equal outputs and statuses pass", ran(program, f"{room}/one") == (0, ["2 passed, 0 failed"], ""))
    runs("kept 0 kept 1")
    holds("a status is compared", ran(program, f"{room}/one")[:2] == (
        1, ["one/kept: the status is 1, not 0", "0 passed, 1 failed"]))
    others = {"a byte": (REPORT.replace("1 viol", "2 viol"), "line 2 is "), "its end": (REPORT[:-1], "line 2 is "),
              "a lost line": (REPORT[:30], "line 2 is the end"), "a line more": (REPORT + "\n", "line 3 is '\\n', not the end"),
              "no output": ("", "line 1 is the end"), "an end of line": (REPORT.replace("\n", "\r\n"), "line 1 is "),
              "a byte that is no text": (REPORT[:9] + "\xff" + REPORT[10:], "line 1 is 'flow web \xff")}
    for what, (text, told) in others.items():
        put(text, f"{room}/one/other")
        runs("kept 0 other 0", "kept 0 kept 0")
        status, lines, _ = ran(program, f"{room}/one")
        holds(f"{what} is compared", (status, lines[1:]) == (1, ["1 passed, 1 failed"]) and f"one/kept: {told}" in lines[0])
    runs("kept 0 kill 0")
    holds("a signal isn't status 0", "the status is -9, not 0; line 1 is the end" in ran(program, f"{room}/one")[1][0])
    run_examples.SECONDS = 0.2
    runs("kept 0 sleep 0")
    holds("a run is ended", "no answer within 0.2 seconds" in ran(program, f"{room}/one")[1][0])
    run_examples.SECONDS = 60


def refuses(program, room):
    for what, text in (("no run", "# a comment\n"), ("two words", "kept 0\n"), ("no status", "kept zero kept 0\n"),
                       ("no text", "kept 0 \xff\n")):
        put(text, f"{room}/two/runs.txt")
        status, (told, *lines), _ = ran(program, f"{room}/two")
        holds(f"a table with {what} fails", (status, lines) == (1, ["0 passed, 1 failed"]) and told.startswith("two/runs.txt: "))
    put("gone 0 runs.txt 0\n", f"{room}/two/runs.txt")
    holds("a report that is missing fails", "two/gone: " in ran(program, f"{room}/two")[1][0])
    os.makedirs(f"{room}/three", exist_ok=True)
    holds("a folder without a table fails", ran(program, f"{room}/three")[1][1:] == ["0 passed, 1 failed"])
    put("kept 0 kept 0\n", f"{room}/one/runs.txt")
    put("kept 0 kept 0\n", f"{room}/two/runs.txt")
    holds("one failed run doesn't end the others", ran(program, *(f"{room}/{it}" for it in ("two", "one", "three")))[1][2:] == [
        "1 passed, 2 failed"])
    run_examples.EXAMPLES = f"{room}/none"
    os.makedirs(run_examples.EXAMPLES)
    holds("no runs are no success", ran(program)[:2] == (1, ["0 passed, 0 failed"]))
    run_examples.EXAMPLES = EXAMPLES
    put("126", f"{room}/built")
    status, lines, err = ran(program, f"{room}/one")
    holds("a program that isn't built compares nothing", (status, lines) == (2, []) and "126" in err)
    put("0", f"{room}/built")
    status, lines, err = ran(f"{room}/gone", f"{room}/one")
    holds("a program that is missing compares nothing", (status, lines) == (2, []) and "No such file" in err)
    holds("no words are told how it is used", ran()[0] == 2 and "PROGRAM" in ran()[2])
    holds("--help says how it is used", ran("--help") == (0, run_examples.__doc__.splitlines() + [""], ""))
    words = [sys.executable, "-B", f"{TOP}/tools/run_examples.py", "./program", "one"]
    done = subprocess.run(words, cwd=room, capture_output=True)
    holds("a relative program is found from where it is called", (done.returncode, done.stdout) == (0, b"1 passed, 0 failed\n"))


def makes_the_tree(room):
    os.makedirs(f"{room}/tree")
    subprocess.run([sys.executable, f"{EXAMPLES}/fat-tree/make.py", f"{room}/tree"], check=True)
    made = {it: get(f"{room}/tree/{it}") for it in os.listdir(f"{room}/tree")}
    holds("the fat tree has four files", len(made) == 4)
    holds("the fat tree is made to the byte", all(get(f"{EXAMPLES}/fat-tree/{it}") == text for it, text in made.items()))


def main():
    with tempfile.TemporaryDirectory(prefix="test-run-examples-") as room:
        program = put(PROGRAM, f"{room}/program")
        os.chmod(program, 0o755)
        put("0", f"{room}/built")
        compares(program, room)
        refuses(program, room)
        makes_the_tree(room)
    return finish()


if __name__ == "__main__":
    sys.exit(main())

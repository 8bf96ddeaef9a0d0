#!/usr/bin/env python3
"""Tests tools/report_json.py, tools/shard.py and tools/merge.py, with a function that stands for the program.

    tools/test_reports.py

Its last line is `N passed, M failed`, and its status 1 where one failed. It needs no kit.
"""
import contextlib
import io
import json
import os
import re
import sys
import tempfile
import xml.etree.ElementTree as ET

import merge
import report_json
import shard
from fakes.change import FAULTY, NONE, REFUSED, REPORT, flow, get, program, put, snapshot
from tally import finish, holds

# The flows f0 to f9 in each of seven parts.
PARTS = [[], ["f8"], [], ["f0", "f1", "f2", "f3"], ["f4", "f5"], ["f6"], ["f7", "f9"]]


def run(tool, *words):
    """Runs a tool, and returns its status, its output and what it says on standard error."""
    with contextlib.redirect_stdout(io.StringIO()) as out, contextlib.redirect_stderr(io.StringIO()) as err:
        try:
            status = tool.main([*words])
        except SystemExit as ending:
            status = ending.code
    return status, out.getvalue(), err.getvalue()


def converts(room):
    path = put(REPORT, f"{room}/report")
    status, out, _ = run(report_json, path)
    rows = [("f1", "c1", "compliant", None, None, None),
            ("f1", "c2", "violated", "before", ["r1", "#1", "r4"], ["r1:0", "drop"]),
            ("f2", "c1", "undecided", None, None, None), ("f3", None, "unselected", None, None, None),
            ("f4", "c2", "violated", "after", [], ["r1"])]
    names = "flow", "check", "verdict", "side", "word", "source"
    wanted = {"rows": [dict(zip(names, it)) for it in rows],
              "total": {"rows": 5, "compliant": 1, "violated": 2, "undecided": 1, "unselected": 1}}
    holds("JSON has each kind of row", (status, json.loads(out)) == (0, wanted))
    status, out, _ = run(report_json, path, "--junit")
    root = ET.fromstring(out)
    counts = [root.get(it) for it in ("tests", "failures", "errors", "skipped")]
    holds("XML counts the rows", (status, counts) == (0, [*"5211"]))
    wanted = [("f1", "c1"), ("f1", "c2", "failure"), ("f2", "c1", "error"), ("f3", "(no check)", "skipped"),
              ("f4", "c2", "failure")]
    cases = [(suite.get("name"), it.get("name"), *(kind.tag for kind in it)) for suite in root for it in suite]
    holds("XML has each kind of row", cases == wanted)
    lines = re.findall("flow .* violated\n.*\n.*\n", REPORT)
    holds("a failure has the lines of its row", [it.text for it in root.iter("failure")] == lines)
    holds("a report without rows is one", json.loads(run(report_json, put(NONE, path))[1])["rows"] == [])
    for text, number in FAULTY:
        status, out, err = run(report_json, put(text, path))
        holds(f"line {number} is refused of {text!r}", (status, out) == (2, "") and f" line {number}: " in err)


def splits(room, parts):
    before, after = [flow(it) for it in range(40)], [flow(it) for it in range(59, 4, -1)]
    one = put(f'{{"version":1,"more":{{"flows":0}},"flows":[{", ".join(before)}]}}', f"{room}/before")
    other = put(f' {{ "flows" : [ {" ,".join(after)} ] , "version" : 2 }} \n', f"{room}/after")
    whole, reports, at = program(one, other), [], f"{room}/of-{parts}"
    holds(f"{parts} parts are made", run(shard, one, other, str(parts), at) == (0, "", "") and len(os.listdir(at)) == 2 * parts)
    for side, version, flows in (("before", 1, before), ("after", 2, after)):
        texts = [get(f"{at}/{it}.{side}.json") for it in range(parts)]
        found = [[it for it in flows if it in text] for text in texts]
        wanted = [f'{{"version":{version},"flows":[\n' + ",\n".join(it) + "\n]}\n" for it in found]
        holds(f"parts have the version, and flows as they are and in order ({side}, {parts})", texts == wanted)
        holds(f"each flow is in one part ({side}, {parts})", sorted(sum(found, [])) == sorted(flows))
    for it in reversed(range(parts)):
        reports.append(put(program(f"{at}/{it}.before.json", f"{at}/{it}.after.json"), f"{at}/{it}.report"))
    holds(f"the merged report is that on the whole ({parts})", run(merge, one, other, *reports) == (1, whole, ""))
    put(REFUSED, f"{at}/refused")
    for why, after, given in (("has rows in another report too", other, [*reports, reports[0]]),
                              ("is in neither snapshot", one, reports), ("have no rows", other, reports[1:]),
                              (REFUSED[:-1], other, [*reports, f"{at}/refused"])):
        # (where the only report is left out, the command line is refused)
        status, out, err = run(merge, one, after, *given)
        holds(f"it is refused that {why} ({parts})", (status, out) == (2, "") and (not given or why in err))


def refuses(room):
    empty, out, at = put(snapshot(), f"{room}/empty"), f"{room}/out", f"{room}/faulty"
    flow_a = '{"name":"a"}'
    faulty = ["", "{}", "[]", '{"version":1}', '{"flows":[]}', snapshot().replace("1", "3"), snapshot() + "x", snapshot("1"),
              snapshot("{}"), snapshot('{"name":"a b"}'), snapshot(flow_a, flow_a), snapshot(flow_a, ""), snapshot(flow_a)[:-1]]
    for text in faulty:
        holds(f"{text!r} isn't split", run(shard, empty, put(text, at), "2", out)[0] == 2 and not os.path.exists(out))
    for word in ("0", "1000001", "x", "-1"):
        holds(f"{word} parts are refused", run(shard, empty, empty, word, out)[0] == 2)
    gone = f"{room}/gone"
    for tool, *words in ((shard, empty, gone, "1", out), (merge, empty, empty, gone), (report_json, gone)):
        told = f"{tool.__name__}: {gone}: No such file or directory\n"
        holds(f"{tool.__name__} names a file that is missing", run(tool, *words) == (2, "", told))
    holds("a folder with files is refused", run(shard, empty, empty, "1", room)[0] == 2)
    most = 33_554_432 - len(snapshot("") + "\n\n\n")
    put(snapshot('{"name":"a"' + " " * (most - 12) + "}"), at)
    status = run(shard, at, empty, "1", out)[0]
    holds("a part may have all the bytes", (status, os.path.getsize(f"{out}/0.before.json")) == (0, 33_554_432))
    put(snapshot('{"name":"a"' + " " * (most - 11) + "}"), at)
    holds("it may have no more, even with one flow", "flow a alone" in run(shard, at, empty, "1", f"{room}/large")[2])
    for what, flows in (("flows", [f'{{"name":"f{it}"}}' for it in range(20_001)]),
                        ("bytes", ['{"name":"f%d"%s}' % (it, " " * 9_000_000) for it in range(4)])):
        put(snapshot(*flows), at)
        to = f"{room}/{what}"
        told = re.search(r"(\d+) parts would do", run(shard, at, empty, "1", to)[2])
        holds(f"a number of parts is told that has few enough {what}", told and run(shard, at, empty, told[1], to)[0] == 0)


def keeps(room):
    one = put(snapshot(*(f'{{"name":"f{it}"}}' for it in range(10))), f"{room}/ten")
    run(shard, one, one, "7", f"{room}/seven")
    parts = [re.findall("f[0-9]", get(f"{room}/seven/{it}.after.json")) for it in range(7)]
    holds("the parts of flows never change", parts == PARTS)
    other = put(snapshot('{"name":"f1"}'), f"{room}/one")
    for verdict, status in (("compliant", 0), ("undecided", 3)):
        text = f"flow f1 check c1 {verdict}\n{NONE}".replace("total 0", "total 1").replace(f"{verdict} 0", f"{verdict} 1")
        holds(f"the status is {status}", run(merge, other, other, put(text, f"{room}/report")) == (status, text, ""))


def main():
    with tempfile.TemporaryDirectory(prefix="test-reports-") as room:
        converts(room)
        for parts in (1, 3, 7):
            splits(room, parts)
        refuses(room)
        keeps(room)
    return finish()


if __name__ == "__main__":
    sys.exit(main())

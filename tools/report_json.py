#!/usr/bin/env python3
"""Writes a report of `rela check` as JSON, or as JUnit XML for the pages of a CI service.

The JSON has an object for each row, one a line, and the counts of the total line:

    {"rows":[
    {"flow":"f1","check":"keep","verdict":"violated","side":"before","word":["r1","drop"],"source":["r1","r2"]},
    {"flow":"f2","check":null,"verdict":"unselected","side":null,"word":null,"source":null}
    ],"total":{"rows":2,"compliant":0,"violated":1,"undecided":0,"unselected":1}}

The side is "before" where the word is missing, and "after" where it is extra; "source" is that snapshot's path. The empty
word is [], and what a row doesn't have is null.

The XML has a test suite for each flow with a test case for each row: a violated row is a failure with its lines, an
undecided one an error, and an unselected flow a skipped case.

Text that isn't exactly a report is refused: nothing is written but the number of the line at fault, on standard error.
The status is 0 where the answer is written, whatever the verdicts, and 2 where it isn't.
"""
import argparse
import io
import itertools
import json
import sys
import xml.etree.ElementTree as ET
from collections import Counter

from reports import LABELS, VERDICTS, Refused, Report, reason


def write_json(rows, counts, out):
    begin = '{"rows":[\n'
    for row in rows:
        members = {name: value for name, value in row._asdict().items() if name != "lines"}
        out.write(begin + json.dumps(members, separators=(",", ":")))
        begin = ",\n"
    total = {"rows": sum(counts.values()), **{it: counts[it] for it in VERDICTS}}
    end = "\n]" if counts else begin + "]"
    out.write(f'{end},"total":{json.dumps(total, separators=(",", ":"))}}}\n')


def numbers(counts):
    """Returns the counts by verdict as the attributes of a test suite."""
    names = {"failures": "violated", "errors": "undecided", "skipped": "unselected"}
    return {"tests": str(sum(counts.values())), **{name: str(counts[it]) for name, it in names.items()}}


def write_junit(rows, counts, out):
    head = ET.tostring(ET.Element("testsuites", name="rela check", **numbers(counts)), encoding="unicode")
    out.write(f'<?xml version="1.0" encoding="UTF-8"?>\n{head.replace(" />", ">")}\n')
    for flow, group in itertools.groupby(rows, lambda it: it.flow):
        group = [*group]
        suite = ET.Element("testsuite", name=flow, **numbers(Counter(it.verdict for it in group)))
        for row in group:
            case = ET.SubElement(suite, "testcase", classname=flow, name=row.check or "(no check)")
            if row.verdict == "violated":
                kind = LABELS[row.side]
                message = f"{kind}: {' '.join(row.word) or '()'}"
                ET.SubElement(case, "failure", type=kind, message=message).text = row.lines
            elif row.verdict == "undecided":
                ET.SubElement(case, "error", type="undecided", message=row.lines.rstrip())
            elif row.verdict == "unselected":
                ET.SubElement(case, "skipped", message="no check selects this flow")
        out.write(ET.tostring(suite, encoding="unicode") + "\n")
    out.write("</testsuites>\n")


def main(words=None):
    how = {"description": __doc__, "formatter_class": argparse.RawDescriptionHelpFormatter}
    parser = argparse.ArgumentParser(**how)
    parser.add_argument("report", nargs="?", metavar="REPORT", help="the report's file; without it, standard input")
    parser.add_argument("--junit", action="store_true", help="write JUnit XML in place of JSON")
    words = parser.parse_args(words)
    try:
        with open(words.report, "rb") if words.report else sys.stdin.buffer as file:
            text = file.read()
        name = words.report or "standard input"
        counts = Counter(it.verdict for it in Report(io.BytesIO(text), name).rows())
        (write_junit if words.junit else write_json)(Report(io.BytesIO(text), name).rows(), counts, sys.stdout)
    except (OSError, Refused) as error:
        print(f"report_json: {reason(error)}", file=sys.stderr)
        return 2
    return 0


if __name__ == "__main__":
    sys.exit(main())

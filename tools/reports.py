"""Reads reports of `rela check`, and refuses what isn't exactly a report."""
import re
from collections import Counter
from typing import List, NamedTuple, Optional

NAME = r"[A-Za-z0-9_.:/-]{1,64}"
SYMBOL = rf"(?:{NAME}|#[1-9][0-9]{{0,4}})"
WORD = rf"(\(\)|{SYMBOL}(?: {SYMBOL})*)"
ROW = re.compile(rf"flow ({NAME}) (?:unselected|check ({NAME}) (compliant|violated|undecided))")
LABELS = {"before": "missing", "after": "extra"}
WITNESSES = {side: re.compile(rf"  {label}: {WORD}") for side, label in LABELS.items()}
SOURCES = {side: re.compile(rf"  {side}: {WORD}") for side in LABELS}
VERDICTS = "compliant", "violated", "undecided", "unselected"


class Refused(Exception):
    """What was read isn't as it has to be."""


def reason(error):
    """Returns what is said of an error of the system, or of what is refused."""
    parts = (error.filename, error.strerror) if isinstance(error, OSError) else (error,)
    return ": ".join(str(it) for it in parts if it is not None)


class Row(NamedTuple):
    """A row of a report: its members in JSON, and its lines in the report."""

    flow: str
    check: Optional[str]
    verdict: str
    side: Optional[str]
    word: Optional[List[str]]
    source: Optional[List[str]]
    lines: str


class Report:
    """A report that is read from a binary file, line by line. The name of the file is for what is said of faults."""

    def __init__(self, file, name):
        self.file, self.name, self.number = file, name, 0

    def refuse(self, why, number=None):
        raise Refused(f"{self.name}: line {number or self.number}: {why}")

    def line(self):
        """Returns the next line without its newline. Bytes that aren't ASCII become letters that no row has."""
        self.number += 1
        line = self.file.readline().decode("latin-1")
        if not line.endswith("\n"):
            self.refuse("it doesn't end with a newline" if line else "the report ends before its total line")
        return line[:-1]

    def row(self, line):
        """Returns the row that begins with this line, and reads the other lines of a violated one."""
        found = ROW.fullmatch(line)
        if not found:
            self.refuse(f"it is neither a row nor a total line: {line[:100]!r}")
        flow, check, verdict = found.groups()
        if verdict != "violated":
            return Row(flow, check, verdict or "unselected", None, None, None, f"{line}\n")
        witness = self.line()
        side = next((it for it in LABELS if WITNESSES[it].fullmatch(witness)), None)
        if not side:
            self.refuse("no missing or extra word is here")
        source = self.line()
        if not SOURCES[side].fullmatch(source):
            self.refuse(f"no path of the snapshot {side} is here")
        word, path = (symbols_of(it.split(": ", 1)[1]) for it in (witness, source))
        return Row(flow, check, verdict, side, word, path, f"{line}\n{witness}\n{source}\n")

    def rows(self):
        """Yields the rows up to the total line, which has to be right and the last."""
        counts, flows, checks, last = Counter(), set(), set(), None
        line = self.line()
        while not line.startswith("total "):
            number, row = self.number, self.row(line)
            if row.flow == last and (row.check in checks or None in (row.check, *checks)):
                self.refuse("a row above says otherwise of this flow, or the same", number)
            if row.flow != last:
                if row.flow in flows:
                    self.refuse(f"the rows of flow {row.flow} don't stand together", number)
                flows.add(row.flow)
                checks, last = set(), row.flow
            checks.add(row.check)
            counts[row.verdict] += 1
            yield row
            line = self.line()
        if line != total_line(counts):
            self.refuse(f"the rows above have {total_line(counts)!r}")
        self.number += 1
        if self.file.read(1):
            self.refuse("text follows the total line")


def symbols_of(word):
    return [] if word == "()" else word.split(" ")


def total_line(counts):
    return " ".join([f"total {sum(counts.values())}", *(f"{it} {counts[it]}" for it in VERDICTS)])

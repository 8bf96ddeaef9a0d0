#!/usr/bin/env python3
"""Merges the reports on the parts of a change into the report on the whole, and writes it to standard output.

BEFORE and AFTER are the snapshots that were split, and give the order of the flows. The reports may be given in any order.
Each flow has to have its rows in exactly one of them, and no other flow may have any; a file that isn't exactly a report,
such as the line on a part that the program refused, is refused as well, and then nothing is written.

The status is the program's: 1 where a row is violated, else 3 where one is undecided, else 0. Where a file is refused it
is 2, with the reason on standard error.
"""
import argparse
import itertools
import sys
from collections import Counter

from reports import Refused, Report, reason, total_line
from snapshots import Snapshot


def rows_in_order(before, after):
    """Returns a map with the name of each flow, in the order of a report, and None in place of its rows."""
    return dict.fromkeys(itertools.chain(Snapshot(before).names, Snapshot(after).names))


def merged(rows, reports):
    """Fills in the rows of each flow from the reports, and returns how many there are by verdict."""
    counts = Counter()
    for path in reports:
        with open(path, "rb") as file:
            for flow, group in itertools.groupby(Report(file, path).rows(), lambda it: it.flow):
                if rows.get(flow, "") is not None:
                    why = "has rows in another report too" if flow in rows else "is in neither snapshot"
                    raise Refused(f"{path}: flow {flow} {why}")
                group = [*group]
                rows[flow] = "".join(it.lines for it in group)
                counts.update(it.verdict for it in group)
    left = [flow for flow, text in rows.items() if text is None]
    if left:
        raise Refused(f"{len(left)} flows have no rows in these reports; the first is {left[0]}")
    return counts


def main(words=None):
    how = {"description": __doc__, "formatter_class": argparse.RawDescriptionHelpFormatter}
    parser = argparse.ArgumentParser(**how)
    parser.add_argument("before", metavar="BEFORE", help="the whole snapshot before the change")
    parser.add_argument("after", metavar="AFTER", help="the whole snapshot after it")
    parser.add_argument("reports", metavar="REPORT", nargs="+", help="the report on a part")
    words = parser.parse_args(words)
    try:
        rows = rows_in_order(words.before, words.after)
        counts = merged(rows, words.reports)
        sys.stdout.writelines(rows.values())
        print(total_line(counts), flush=True)
    except (OSError, Refused) as error:
        print(f"merge: {reason(error)}", file=sys.stderr)
        return 2
    return 1 if counts["violated"] else 3 if counts["undecided"] else 0


if __name__ == "__main__":
    sys.exit(main())

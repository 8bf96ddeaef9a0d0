"""Data for the tests of reports: a report with each kind of row, flows of snapshots, and what stands for the program."""
import json

ROWS = """flow f1 check c1 compliant
flow f1 check c2 violated
  missing: r1 #1 r4
  before: r1:0 drop
flow f2 check c1 undecided
flow f3 unselected
flow f4 check c2 violated
  extra: ()
  after: r1
"""
REPORT = f"{ROWS}total 5 compliant 1 violated 2 undecided 1 unselected 1\n"
NONE = "total 0 compliant 0 violated 0 undecided 0 unselected 0\n"
REFUSED = "refused before 17 UnknownLocation row 0\n"
# What is no report, and the line that is at fault: first other texts, and then what is put in place of a piece of the report.
FAULTY = [("", 1), (NONE[:-1], 1), (NONE + "\n", 2), (REPORT + " ", 11), (ROWS, 10), (REPORT * 2, 11), (REFUSED, 1)]
FAULTY += [(REPORT.replace(piece, other, 1), number) for piece, other, number in (
    ("total 5", "total 6", 10), ("violated 2", "violated 02", 10), ("flow f2", "flow f1", 5), ("flow f3", "flow f2", 6),
    ("flow f4", "flow f3", 7), ("flow f4", "flow f1", 7), ("f2", "a" * 65, 5), ("f2", "f 2", 5), ("f3", "f\xe9", 6),
    ("f3", "f3 ", 6), ("unselected\n", "unselected\r\n", 6), ("extra", "missing", 9), ("  after", " after", 9),
    ("missing", "more", 3), ("r1 #1", "r1  #1", 3), ("#1", "#0", 3), ("()", "() r1", 8), ("undecided\n", "violated\n", 6),
    ("r1:0 drop", "", 4))]
PATHS = [f"r1 r{it} r4" for it in range(3)]


def put(text, path):
    with open(path, "w", encoding="latin-1", newline="") as file:
        file.write(text)
    return path


def get(path):
    with open(path, encoding="latin-1", newline="") as file:
        return file.read()


def program(before, after):
    """Stands for `rela check`: returns a report on two snapshots, in which the rows of a flow depend on that flow alone."""
    one, other = ({it["name"]: it for it in json.loads(get(path))["flows"]} for path in (before, after))
    rows, counts = [], dict.fromkeys(("compliant", "violated", "undecided", "unselected"), 0)
    for name in {**one, **other}:
        number, missing = int(name[1:]), f"violated\n  missing: {PATHS[0]}\n  before: {PATHS[1]}"
        verdicts = [missing] if name not in other else ["violated\n  extra: #1\n  after: r1"] if name not in one else [
            ["compliant"], ["compliant", "undecided"], [], ["compliant", missing, "compliant"]][number % 4]
        rows += [f"flow {name} check c{at} {it}\n" for at, it in enumerate(verdicts)] or [f"flow {name} unselected\n"]
        for it in verdicts or ["unselected"]:
            counts[it.split("\n")[0]] += 1
    return "".join(rows) + " ".join([f"total {sum(counts.values())}", *(f"{it} {counts[it]}" for it in counts)]) + "\n"


def snapshot(*flows):
    return '{"version":1,"flows":[' + ",".join(flows) + "]}"


def flow(number):
    """Returns a flow of a snapshot of version 1, laid out in one of three ways."""
    node = f'"nodes" : [ "r{number}:0" ],"edges":[],"starts":[0]'
    return [f'{{"name":"f{number}","dst":"10.0.0.0/24",{node}}}', f'{{"name":"x","n\\u0061me":"\\u0066{number}",\n{node}}}',
            f'{{"note":["}},\\"","\xc3\xa9",1e5,null], "name" : "f{number}" , {node}\t}}'][number % 3]

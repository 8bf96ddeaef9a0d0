"""What the program does with files that can't be read, that aren't plain, that are large, and that change while they are read."""
import os
import stat

from outside.program import ASSERTION, CERTIFICATE, COMPLEMENT, FAILS, FILES, ZONE, audit, check, fib, refused, rir, zone

JSON = "before", "after", "locations"
MOST_BYTES = 33_554_432
BLANKS = b" " * 8_000_000
UNSELECTED = b"flow web unselected\ntotal 1 compliant 0 violated 0 undecided 0 unselected 1\n"


def pipe_of(text):
    """Returns the end of a pipe from which this short text can be read."""
    end, other = os.pipe()
    os.write(other, text)
    os.close(other)
    return end


def cannot_be_read(it):
    unreadable = {"a missing file": "none", "an empty name": "", "a directory": ".", "a name below a file": "spec/spec",
                  "a long name": "x" * 1000, "a long path": "./" * 3000 + "spec", "a link to nothing": "nowhere",
                  "a link to itself": "circle", "a socket": "socket", "a process's memory": "/proc/self/mem"}
    os.symlink("none", f"{it.room}/nowhere")
    os.symlink("circle", f"{it.room}/circle")
    os.chmod(f"{it.room}/{it.put(b'', 'shut')}", 0)
    if os.access(f"{it.room}/shut", os.R_OK):
        print("skipped: a file that may not be read, since this user may read all files", flush=True)
    else:
        unreadable["a file that may not be read"] = "shut"
    os.mknod(f"{it.room}/socket", stat.S_IFSOCK | 0o600)
    for what, name in unreadable.items():
        for operand in FILES:
            it.ends(f"{what} as {operand}", it.run(*check(**{operand: name})), (5, b""))
        for operand in ("locations", "spec"):
            it.ends(f"{what} as {operand} of a zone", it.run(*zone(**{operand: name})), (5, b""))
        it.ends(f"{what} as assertions", it.run(*rir(assertions=name)), (5, b""))
        it.ends(f"{what} as a certificate", it.run(*audit(certificate=name)), (5, b""))
        for operand in ("tables", "other"):
            it.ends(f"{what} as {operand}", it.run(*fib(**{operand: name})), (5, b""))
        it.ends(f"{what} as the text", it.run("fmt", name), (5, b""))


def cuts(operand, text):
    """Returns lengths at which a text can end early, each with what is said of what is left then."""
    half, end = len(text) // 2, len(text.rstrip()) - 1
    if operand != "spec":
        return [(size, refused(operand, "11 NotJson")) for size in (0, 1, half, end)]
    in_word = (1, refused("spec", "32 Syntax at 0"))
    return [(0, (0, UNSELECTED)), in_word, *((size, refused("spec", f"32 Syntax at {size}")) for size in (5, half, end))]


def other_kinds(it):
    for operand in FILES:
        link, fifo, text = f"link-{operand}", f"fifo-{operand}", it.texts[operand]
        os.symlink(operand, f"{it.room}/{link}")
        os.mkfifo(f"{it.room}/{fifo}")
        it.ends(f"a link as {operand}", it.run(*check(**{operand: link})), (1, it.moved))
        pieces = [text[at:at + 29] for at in range(0, len(text), 29)]
        it.ends(f"a slow FIFO as {operand}", it.run_fed(check(**{operand: fifo}), {fifo: pieces}), (1, it.moved))
        for size, wanted in cuts(operand, text):
            found = it.run_fed(check(**{operand: fifo}), {fifo: [text[:size]]})
            it.ends(f"a FIFO that ends early, at {size}, as {operand}", found, wanted)
        it.ends(f"/dev/zero as {operand}", it.run(*check(**{operand: "/dev/zero"})), refused(operand, "2 TooLong"))
        end = pipe_of(text)
        it.ends(f"a pipe as {operand}", it.run(*check(**{operand: f"/dev/fd/{end}"}), pass_fds=[end]), (1, it.moved))
        os.close(end)
    fifos = {operand: f"fifo-{operand}" for operand in ("locations", "before", "after", "spec")}
    found = it.run_fed(check(**fifos), {fifo: [it.texts[operand]] for operand, fifo in fifos.items()})
    it.ends("a FIFO for each operand", found, (1, it.moved))
    os.mkfifo(f"{it.room}/fifo-assertions")
    fed = {fifo: [it.texts[operand]] for operand, fifo in fifos.items() if operand != "spec"} | {"fifo-assertions": [ASSERTION]}
    found = it.run_fed(rir(**{fifo[5:]: fifo for fifo in fed}), fed)
    it.ends("a FIFO for each operand, under rir", found, (1, FAILS))
    os.mkfifo(f"{it.room}/fifo-certificate")
    fed = {fifo: [it.texts[operand]] for operand, fifo in fifos.items()} | {"fifo-certificate": [CERTIFICATE]}
    words = audit(**{"after": "fifo-after", **{fifo[5:]: fifo for fifo in fed}})
    it.ends("a FIFO for each operand, under audit", it.run_fed(words, fed), (1, b"rejected at 3\n"))
    fed = {"fifo-locations": [it.texts["locations"]], "fifo-spec": [COMPLEMENT]}
    it.ends("a FIFO for each file of a zone", it.run_fed(zone(locations="fifo-locations", spec="fifo-spec"), fed), (0, ZONE))
    for operand in JSON:
        it.ends(f"/dev/null as {operand}", it.run(*check(**{operand: "/dev/null"})), refused(operand, "11 NotJson"))
    it.ends("/dev/null as spec", it.run(*check(spec="/dev/null")), (0, UNSELECTED))
    it.ends("/dev/null as the text", it.run("fmt", "/dev/null"), (0, b"level interface;\n"))
    it.ends("/dev/null as assertions", it.run(*rir(assertions="/dev/null")), (0, b"total 0 holds 0 fails 0 undecided 0\n"))
    it.ends("/dev/zero as assertions", it.run(*rir(assertions="/dev/zero")), refused("assertions", "2 TooLong"))
    it.ends("/dev/null as a certificate", it.run(*audit(certificate="/dev/null")), (1, b"rejected at 1\n"))
    it.ends("/dev/zero as a certificate", it.run(*audit(certificate="/dev/zero")), refused("certificate", "2 TooLong"))
    for operand in ("tables", "other"):
        it.ends(f"/dev/null as {operand}", it.run(*fib(**{operand: "/dev/null"})), refused(operand, "11 NotJson"))
        it.ends(f"/dev/zero as {operand}", it.run(*fib(**{operand: "/dev/zero"})), refused(operand, "2 TooLong"))


def same_file(it):
    one = it.texts["locations"].rstrip()[:-1] + b"," + it.texts["before"].lstrip()[1:]
    it.put(one, "one")
    it.ends("a file for three operands", it.run(*check(before="one", after="one", locations="one")), (0, it.same))
    for name, *wanted in (("locations", "before", "12 WrongShape rule 23 row 0"),
                          ("before", "locations", "12 WrongShape rule 3 row 0"), ("spec", "locations", "11 NotJson")):
        it.ends(f"{name} for all operands", it.run("check", *[name] * 4), refused(*wanted))
    words = check(before="/dev/stdin", after="/dev/stdin")
    with open(f"{it.room}/before", "rb") as file:
        it.ends("a file as standard input, twice", it.run(*words, stdin=file), (0, it.same))
    end = pipe_of(it.texts["before"])
    it.ends("a pipe as standard input, twice", it.run(*words, stdin=end), refused("after", "11 NotJson"))
    os.close(end)


def sizes(it):
    for operand in FILES:
        name = it.put(it.texts[operand].ljust(MOST_BYTES), "large")
        it.ends(f"the most bytes as {operand}", it.run(*check(**{operand: name})), (1, it.moved))
        append(b" ")(f"{it.room}/large")
        it.ends(f"a byte too many as {operand}", it.run(*check(**{operand: name})), refused(operand, "2 TooLong"))
    name = it.put(ASSERTION.ljust(MOST_BYTES), "large")
    it.ends("the most bytes as assertions", it.run(*rir(assertions=name)), (1, FAILS))
    append(b" ")(f"{it.room}/large")
    it.ends("a byte too many as assertions", it.run(*rir(assertions=name)), refused("assertions", "2 TooLong"))


def append(text):
    def change(path):
        with open(path, "ab") as file:
            file.write(text)
    return change


def shorten(size):
    return lambda path: os.truncate(path, size)


def changes(it):
    """The answer is that for the file as it was or as it is after the change, or the file is refused as one that isn't whole."""
    text, spec = it.texts["after"].rstrip(), it.texts["spec"]
    whole, cut = (1, it.moved), refused("after", "11 NotJson")
    more = b"check rest : { () : preserve };\n"
    both = it.run(*check(spec=it.put(spec + more)))[:2]
    it.put(it.texts["after"], "new")
    for what, operand, old, change, *wanted in (
            ("grows until it is whole", "after", text[:-1] + BLANKS, append(b"}"), whole, cut),
            ("grows after it is whole", "after", text + BLANKS, append(text), whole, cut),
            ("grows above the most bytes", "after", text.ljust(MOST_BYTES), append(b" "), whole, refused("after", "2 TooLong")),
            ("is cut to nothing", "after", b"{" + BLANKS + text[1:], shorten(0), whole, cut),
            ("loses its last byte", "after", text[:-1] + BLANKS + b"}", shorten(len(text) + len(BLANKS) - 1), whole, cut),
            ("loses blanks at its end", "after", text + BLANKS, shorten(len(text)), whole),
            ("is removed", "after", text + BLANKS, os.remove, whole),
            ("is replaced", "after", text + BLANKS, lambda path: os.replace(f"{it.room}/new", path), whole),
            ("grows by a check", "spec", spec + BLANKS, append(more), whole, both)):
        it.put(old, "changing")
        found = it.run_changing(check(**{operand: "changing"}), "changing", change)
        it.ends(f"a file {what} while it is read as {operand}", found, *wanted)

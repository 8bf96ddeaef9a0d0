"""Counts what a test script looks at, and says which of it failed."""

_seen = []


def holds(what, is_so):
    """Counts a thing that is to hold, and names it where it doesn't."""
    _seen.append(bool(is_so))
    if not is_so:
        print(f"FAILED: {what}", flush=True)


def finish():
    """Writes the last line, `N passed, M failed`, and returns the status: 1 where something failed."""
    failed = _seen.count(False)
    print(f"{len(_seen) - failed} passed, {failed} failed")
    return 1 if failed else 0

"""Keeping count of what failed."""

FAILURES = []


def expect(name, got, want):
    if got != want:
        FAILURES.append("%s: got %s, expected %s" % (name, short(got), short(want)))


def short(thing):
    text = repr(thing)
    return text if len(text) <= 300 else text[:300] + "..."

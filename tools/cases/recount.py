"""The line `total=` of a listing, counted anew from the clauses that the listing prints.

The Rust prints no such line, so no answer of it can be compared: document 02, 2.2 asks for this recount."""


def members(line):
    """Literals and comparisons of a line `clause=LITERALS;COMPARISON;COMPARISON..`."""
    literals, *comparisons = line.removeprefix(b"clause=").split(b";")
    return (len(literals.split(b",")) if literals else 0), len(comparisons)


def recounted(listing):
    """The listing with its total counted anew, and the numbers of literals and comparisons in it."""
    counts = [members(line) for line in listing.split(b"\n") if line.startswith(b"clause=")]
    literals, comparisons = (sum(column) for column in zip((0, 0), *counts))
    body, key, _ = listing.rpartition(b"total=")
    if not key:
        return listing, 0, 0
    return body + key + b"%d\n" % (literals + comparisons), literals, comparisons

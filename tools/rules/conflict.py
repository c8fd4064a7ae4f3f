"""A small subset of rules that no roster keeps, by leaving out rules and solving again."""

from solve.errors import Failed


def smallest(count, exists):
    """Indices below count of rules that cannot be kept together, and whether each of them is needed.

    exists(indices) says whether a roster keeps those rules. Half of the rules at a time are left out, then a quarter, down
    to single ones. Where exists raises Failed (a timeout), what was left out stays, and the subset may not be as small as
    it could be.
    """
    kept, sure, size = list(range(count)), True, count
    while size > 1:
        size = (size + 1) // 2
        kept, sure = without_blocks(kept, size, exists)
    return kept, sure


def without_blocks(kept, size, exists):
    """What stays when each block of this size that is not needed is left out; and whether all could be told."""
    at, sure = 0, True
    while at < len(kept):
        fewer = kept[:at] + kept[at + size:]
        try:
            needed = exists(fewer)
        except Failed:
            needed, sure = True, False
        if needed:
            at += size
        else:
            kept = fewer
    return kept, sure

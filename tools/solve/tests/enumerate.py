"""The rosters of a small set, found by trying every assignment."""

import itertools

from .. import meaning, sets


def rosters(problem):
    """The satisfying assignments as `values=` has them, without the key."""
    choices = [[0, 1]] * problem.bools + [list(sets.values_of(domain)) for domain in problem.domains]
    for values in itertools.product(*choices):
        bools, ints = [value == 1 for value in values[:problem.bools]], values[problem.bools:]
        if not meaning.first_broken(problem, bools, ints):
            yield ",".join(map(str, values))

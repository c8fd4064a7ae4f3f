"""Random sets, small enough that every assignment can be tried. A seed decides a set."""

import random

from .. import sets
from ..sets import AND, CMP, CONST, DIFFERENT, ICONST, IF, IFF, IMP, IVAR, NOT, OR, RANGE, RULE, STAR, SUM, TABLE, VALUES, VAR, XOR


class Generator:
    def __init__(self, seed):
        self.random = random.Random(seed)

    def problem(self):
        bools, ints = self.random.randint(0, 4), self.random.randint(0, 3)
        domains = [self.domain() for _ in range(ints)]
        if self.random.random() < 0.3:  # equal domains, whose values an AllDifferent may use up
            domains = domains[:1] * ints
        statements = [self.statement(bools, ints) for _ in range(self.random.randint(1, 4))]
        return sets.Problem(bools, domains, statements)

    def domain(self):
        """A range, or as often values with gaps between them, of which a solver must not take any."""
        low = self.random.randint(-4, 3)
        if self.random.random() < 0.5:
            return (RANGE, low, low + self.random.randint(0, 4))
        return (VALUES, sorted(self.random.sample(range(-6, 7), self.random.randint(1, 4))))

    def statement(self, bools, ints):
        kind = self.random.random()
        if kind < 0.25:
            return self.table(ints)
        if kind < 0.45:
            return self.different(ints)
        return (RULE, self.boolean(bools, ints, 3))

    def boolean(self, bools, ints, levels):
        codes = [CONST] + [VAR] * 4 * (bools > 0) + [CMP] * 5
        if levels:
            codes += [AND, OR, OR, OR, NOT, NOT, XOR, IFF, IMP]
        code = self.random.choice(codes)
        below = lambda: self.boolean(bools, ints, levels - 1)
        if code == CONST:
            return (CONST, self.random.randint(0, 1))
        if code == VAR:
            return (VAR, self.random.randrange(bools))
        if code == CMP:
            return (CMP, self.random.randrange(6), self.integer(ints, 2), self.integer(ints, 1))
        if code in (AND, OR):
            return (code, [below() for _ in range(self.random.choice([0, 1, 2, 2, 2, 3, 3]))])
        return (NOT, below()) if code == NOT else (code, below(), below())

    def integer(self, ints, levels):
        codes = [ICONST] + [IVAR] * 4 * (ints > 0) + [SUM] * 2 * (levels > 0)
        code = self.random.choice(codes)
        if code == ICONST:
            return (ICONST, self.random.randint(-6, 6))
        if code == IVAR:
            return (IVAR, self.random.randrange(ints))
        terms = range(self.random.choice([0, 1, 1, 2, 2, 3]))
        return (SUM, [(self.random.choice([1, 1, 1, -1, 2, -3, 0]), self.integer(ints, levels - 1)) for _ in terms])

    def different(self, ints):
        """All the variables, as often as not, or any expressions."""
        if self.random.random() < 0.5:
            return (DIFFERENT, [(IVAR, index) for index in self.random.sample(range(ints), ints)])
        return (DIFFERENT, [self.integer(ints, 1) for _ in range(self.random.randint(0, 4))])

    def table(self, ints):
        columns = [self.integer(ints, 1) for _ in range(self.random.choice([0, 1, 2, 2, 3]))]
        cells = [STAR] if self.random.random() < 0.3 else []
        cells += list(range(-6, 7))
        return (TABLE, columns, [[self.random.choice(cells) for _ in columns] for _ in range(self.random.randint(0, 12))])


class WithIfs(Generator):
    """The same with Ifs, at most one in another's condition."""

    inside = 0

    def statement(self, bools, ints):
        self.bools = bools
        return super().statement(bools, ints)

    def integer(self, ints, levels):
        if self.inside > 1 or not levels or self.random.random() < 0.6:
            return super().integer(ints, levels)
        self.inside += 1
        condition = self.boolean(self.bools, ints, levels - 1)
        self.inside -= 1
        return (IF, condition, self.integer(ints, levels - 1), self.integer(ints, levels - 1))

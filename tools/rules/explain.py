"""An answer's clauses by names."""

from solve.listing import FOLLOWING
from solve.sets import OPERATORS


class Explainer:
    """Emitted numbers by name. A new variable has the solver's name in square brackets, as no declared one can have."""

    def __init__(self, rules, listing):
        self.rules, self.listing = rules, listing
        self.bools = {mapped: name for name, mapped in zip(rules.bools, listing.bools) if mapped}
        self.ints = {mapped - 1: name for name, mapped in zip(rules.ints, listing.ints) if mapped}

    def lines(self):
        return [*self.fixed(), *map(self.clause, self.listing.clauses), *self.new()]

    def fixed(self):
        for name, value in zip(self.rules.bools, self.listing.fixed):
            if value in (0, 1):
                yield "%s   (fixed)" % (name if value else "not " + name)

    def new(self):
        """The new integers with what their records say, which the solver must know too."""
        for number, record in enumerate(self.listing.records):
            if number not in self.ints:
                yield "%s %s   (new)" % (self.integer(number), self.record(*record))

    def record(self, kind, first, second, third):
        if kind == FOLLOWING:
            return "is %d if %s, else %d" % (third, self.literal(first), second)
        return "from %d to %d" % (first, second)

    def clause(self, clause):
        literals, comparisons = clause
        return " or ".join([self.literal(word) for word in literals] + [self.comparison(*found) for found in comparisons]) or "false"

    def comparison(self, operator, constant, terms):
        total = ""
        for variable, factor in terms:
            sign = "-" if factor < 0 else "+"
            total += (" %s " % sign) if total else sign.replace("+", "")
            total += ("" if abs(factor) == 1 else "%d " % abs(factor)) + self.integer(variable)
        return "%s %s %d" % (total or "0", OPERATORS[operator], -constant)

    def literal(self, word):
        return ("" if word > 0 else "not ") + self.boolean(abs(word))

    def boolean(self, number):
        return self.bools.get(number, "[b%d]" % number)

    def integer(self, number):
        return self.ints.get(number, "[x%d]" % number)

"""A listing as an SMT-LIB 2 script, and the values that a solver prints back.

The emitted Boolean that the listing calls n is b<n> (from 1), the emitted integer n is x<n> (from 0).
"""

import re

from .errors import Failed
from .listing import FOLLOWING
from .sets import RANGE

OPERATORS = ["=", "distinct", "<=", "<", ">=", ">"]


def number(value):
    return str(value) if value >= 0 else "(- %d)" % -value


def joined(operator, parts, none):
    """An application that is right for no part and for one part too: SMT-LIB's own want two."""
    if not parts:
        return none
    return parts[0] if len(parts) == 1 else "(%s %s)" % (operator, " ".join(parts))


def within(name, domain):
    if domain[0] == RANGE:
        return "(<= %s %s %s)" % (number(domain[1]), name, number(domain[2]))
    return joined("or", ["(= %s %s)" % (name, number(value)) for value in domain[1]], "false")


def comparison(operator, constant, terms):
    total = joined("+", ["(* %s x%d)" % (number(factor), variable) for variable, factor in terms], "0")
    return "(%s %s %s)" % (OPERATORS[operator], total, number(-constant))


def literal(word):
    return "b%d" % word if word > 0 else "(not b%d)" % -word


def clause(literals, comparisons):
    return joined("or", [literal(word) for word in literals] + [comparison(*found) for found in comparisons], "false")


def record(name, kind, first, second, third):
    """What an emitted integer's record says: from lowest to highest, or the value that its literal gives."""
    if kind == FOLLOWING:
        return "(= %s (ite %s %s %s))" % (name, literal(first), number(third), number(second))
    return within(name, (RANGE, first, second))


def held(listing, problem):
    """What holds of each emitted integer: a declared one has its declared values, a new one those of its record."""
    parts = [record("x%d" % i, *found) for i, found in enumerate(listing.records)]
    for mapped, declared in zip(listing.ints, problem.domains):
        if mapped:
            parts[mapped - 1] = within("x%d" % (mapped - 1), declared)
    return parts


def names(listing):
    return ["b%d" % (i + 1) for i in range(listing.emitted)] + ["x%d" % i for i in range(len(listing.records))]


def script(listing, problem):
    lines = ["(set-option :produce-models true)", "(set-logic QF_LIA)"]
    lines += ["(declare-const b%d Bool)" % (i + 1) for i in range(listing.emitted)]
    for i, said in enumerate(held(listing, problem)):
        lines += ["(declare-const x%d Int)" % i, "(assert %s)" % said]
    lines += ["(assert %s)" % clause(*found) for found in listing.clauses]
    lines.append("(check-sat)")
    if names(listing):
        lines.append("(get-value (%s))" % " ".join(names(listing)))
    return "\n".join(lines) + "\n"


PAIR = re.compile(r"\(\s*([bx][0-9]+)\s+(true|false|[0-9]+|\(\s*-\s+[0-9]+\s*\))\s*\)")


def values(printed, wanted):
    """The values by name that a solver prints for get-value; every wanted name must have one of its kind."""
    found = {}
    for name, value in PAIR.findall(printed):
        found[name] = value == "true" if value in ("true", "false") else int(re.sub(r"[()\s]", "", value))
    for name in wanted:
        if type(found.get(name)) is not (bool if name[0] == "b" else int):
            raise Failed("the solver found a roster but printed no value of %s: %s" % (name, printed[:200]))
    return found

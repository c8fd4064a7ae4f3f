"""Whether a roster satisfies a set, worked out from the set's own statements (document 01, "When an assignment passes"; AllDifferent and If: document 02, 2.1 and 2.5).

It is the tools' own reading of a set: it shares nothing with the port, the listing or a solver.
"""

import operator

from .sets import AND, CMP, CONST, DIFFERENT, ICONST, IF, IFF, IMP, IVAR, NOT, OR, RULE, STAR, VAR, XOR, values_of

COMPARE = [operator.eq, operator.ne, operator.le, operator.lt, operator.ge, operator.gt]


def integer_value(tree, bools, ints):
    if tree[0] == ICONST:
        return tree[1]
    if tree[0] == IVAR:
        return ints[tree[1]]
    if tree[0] == IF:
        return integer_value(tree[2] if holds(tree[1], bools, ints) else tree[3], bools, ints)
    return sum(factor * integer_value(term, bools, ints) for factor, term in tree[1])


def holds(tree, bools, ints):
    code = tree[0]
    if code == CONST:
        return tree[1] == 1
    if code == VAR:
        return bools[tree[1]]
    if code == CMP:
        return COMPARE[tree[1]](*(integer_value(side, bools, ints) for side in tree[2:]))
    if code == AND:
        return all(holds(member, bools, ints) for member in tree[1])
    if code == OR:
        return any(holds(member, bools, ints) for member in tree[1])
    if code == NOT:
        return not holds(tree[1], bools, ints)
    left, right = holds(tree[1], bools, ints), holds(tree[2], bools, ints)
    return {XOR: left != right, IFF: left == right, IMP: right or not left}[code]


def statement_holds(statement, bools, ints):
    if statement[0] == RULE:
        return holds(statement[1], bools, ints)
    values = [integer_value(member, bools, ints) for member in statement[1]]
    if statement[0] == DIFFERENT:
        return len(set(values)) == len(values)
    return any(all(cell in (STAR, value) for cell, value in zip(row, values)) for row in statement[2])


def outside(problem, ints):
    """The index of the first integer whose value is not one of its declared ones, or None."""
    for index, (domain, value) in enumerate(zip(problem.domains, ints)):
        if value not in values_of(domain):
            return index
    return None


def first_broken(problem, bools, ints):
    """The number of the first statement that does not hold, from 1, or 0 if all hold."""
    for number, statement in enumerate(problem.statements, 1):
        if not statement_holds(statement, bools, ints):
            return number
    return 0

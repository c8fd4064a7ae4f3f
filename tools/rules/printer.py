"""A set as rules with names: translating what is printed gives the same words."""

from solve import sets
from solve.sets import AND, CMP, CONST, DIFFERENT, ICONST, IF, IVAR, NOT, OR, RANGE, RULE, VAR

from . import language

WORDS = {code: word for table in (language.LISTS, language.PAIRS) for word, code in table.items()}


class Printer:
    def __init__(self, problem, bools=None, ints=None):
        self.problem = problem
        self.bools = bools or ["b%d" % i for i in range(problem.bools)]
        self.ints = ints or ["x%d" % i for i in range(len(problem.domains))]

    def text(self):
        lines = [bracket("bool", self.bools)] if self.bools else []
        lines += [self.declaration(name, domain) for name, domain in zip(self.ints, self.problem.domains)]
        lines += [self.statement(statement) for statement in self.problem.statements]
        return "".join(line + "\n" for line in lines)

    def declaration(self, name, domain):
        values = [domain[1], domain[2]] if domain[0] == RANGE else [bracket(None, domain[1])]
        return bracket("int", [name, *values])

    def statement(self, statement):
        if statement[0] == RULE:
            return self.boolean(statement[1])
        if statement[0] == DIFFERENT:
            return bracket("alldifferent", map(self.integer, statement[1]))
        _, columns, rows = statement
        cells = [bracket(None, [language.STAR if cell == sets.STAR else cell for cell in row]) for row in rows]
        return bracket("table", [bracket(None, map(self.integer, columns)), *cells])

    def boolean(self, tree):
        code = tree[0]
        if code == CONST:
            return "true" if tree[1] else "false"
        if code == VAR:
            return self.bools[tree[1]]
        if code == CMP:
            return bracket(sets.OPERATORS[tree[1]], [self.integer(tree[2]), self.integer(tree[3])])
        members = tree[1] if code in (AND, OR) else tree[1:]
        return bracket("not" if code == NOT else WORDS[code], map(self.boolean, members))

    def integer(self, tree):
        if tree[0] == ICONST:
            return str(tree[1])
        if tree[0] == IVAR:
            return self.ints[tree[1]]
        if tree[0] == IF:
            return bracket("if", [self.boolean(tree[1]), *map(self.integer, tree[2:])])
        return bracket("+", [self.term(*term) for term in tree[1]])

    def term(self, factor, tree):
        return self.integer(tree) if factor == 1 else bracket("*", [factor, self.integer(tree)])


def bracket(word, parts):
    return "(%s)" % " ".join(([word] if word else []) + list(map(str, parts)))

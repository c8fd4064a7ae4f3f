"""A set as text, as words and as trees (docs/FORMAT.md). Nothing here depends on the port.

Trees are tuples that begin with the set's own code:
  Boolean    (CONST, 0 or 1) (VAR, index) (AND, members) (OR, members) (NOT, e) (XOR, l, r) (IFF, l, r) (IMP, l, r)
             (CMP, operator, l, r)
  integer    (ICONST, value) (IVAR, index) (SUM, [(coefficient, e), ..]) (IF, Boolean, e, e)
  statement  (RULE, e) (TABLE, columns, rows) (DIFFERENT, [integer, ..])
  domain     (RANGE, low, high) (VALUES, [value, ..])
"""

import re
from collections import namedtuple

from .errors import Failed

RANGE, VALUES = 0, 1
RULE, TABLE, DIFFERENT = 1, 2, 3
CONST, VAR, AND, OR, NOT, XOR, IFF, IMP, CMP = range(10, 19)
ICONST, IVAR, SUM, IF = 20, 21, 22, 23
OPERATORS = ["=", "!=", "<=", "<", ">=", ">"]
STAR = -2147483648
LIMIT = 1073741823  # the largest absolute value of a value, coefficient or constant
MAX_BOOLS, MAX_INTS, MAX_COUNT, MAX_WORDS, MAX_LEVELS = 512, 256, 4096, 4096, 64

Problem = namedtuple("Problem", "bools domains statements")

LINE = re.compile(r"(bools|ints|int|statements|statement)=(-?[0-9]{1,10}(?:,-?[0-9]{1,10})*)")


def values_of(domain):
    """The values of a declared domain, rising: something to iterate over and to test membership in."""
    return range(domain[1], domain[2] + 1) if domain[0] == RANGE else domain[1]


def words_of_text(text):
    """The words of a set's text. How they are divided among the lines does not matter."""
    words = []
    for number, line in enumerate(text.splitlines(), 1):
        found = LINE.fullmatch(line)
        if not found:
            raise Failed("line %d of the set's text is none of bools= ints= int= statements= statement=" % number)
        words += [int(word) for word in found[2].split(",")]
    return words


def text_of_input(given):
    """A set's text from a set's text, or from its bare words parted by blanks or commas."""
    if not re.fullmatch(r"[-0-9,\s]+", given):
        return given
    words = given.replace(",", " ").split()
    if len(words) < 3:
        raise Failed("the words end early: a set has at least three, two counts of variables and one of statements")
    try:
        return text_of_problem(problem_of_words([int(word) for word in words]))
    except (Failed, ValueError):  # no well-formed set: the listing program says by number what is wrong
        return "bools=%s\nints=%s\nstatements=%s\n" % tuple(words[:3]) + (
            "statement=%s\n" % ",".join(words[3:]) if words[3:] else "")


class Cursor:
    """Words taken from the front."""

    def __init__(self, words):
        self.words, self.at = words, 0

    def take(self):
        if self.at == len(self.words):
            raise Failed("the set's words end early, after %d of them" % self.at)
        self.at += 1
        return self.words[self.at - 1]

    def count(self):
        count = self.take()
        if not 0 <= count <= MAX_COUNT:
            raise Failed("word %d: %d is no count: 0 to %d is expected" % (self.at, count, MAX_COUNT))
        return count

    def many(self, read):
        """A count and as many things."""
        return [read() for _ in range(self.count())]

    def domain(self):
        kind = self.take()
        if kind == RANGE:
            return (RANGE, self.take(), self.take())
        if kind == VALUES:
            return (VALUES, self.many(self.take))
        self.unknown("domain", kind)

    def statement(self):
        code = self.take()
        if code == RULE:
            return (RULE, self.boolean(1))
        if code == TABLE:
            width, height = self.count(), self.count()
            columns = [self.integer(1) for _ in range(width)]
            return (TABLE, columns, [[self.take() for _ in range(width)] for _ in range(height)])
        if code == DIFFERENT:
            return (DIFFERENT, self.many(lambda: self.integer(1)))
        self.unknown("statement", code)

    def boolean(self, level):
        code = self.code(level)
        below = level + 1
        if code in (CONST, VAR):
            return (code, self.take())
        if code in (AND, OR):
            return (code, self.many(lambda: self.boolean(below)))
        if code == NOT:
            return (code, self.boolean(below))
        if code in (XOR, IFF, IMP):
            return (code, self.boolean(below), self.boolean(below))
        if code == CMP:
            return (code, self.take(), self.integer(below), self.integer(below))
        self.unknown("Boolean expression", code)

    def integer(self, level):
        code = self.code(level)
        below = level + 1
        if code in (ICONST, IVAR):
            return (code, self.take())
        if code == SUM:
            return (code, self.many(lambda: (self.take(), self.integer(below))))
        if code == IF:
            return (code, self.boolean(below), self.integer(below), self.integer(below))
        self.unknown("integer expression", code)

    def code(self, level):
        if level > MAX_LEVELS:
            raise Failed("word %d: an expression is deeper than %d levels" % (self.at + 1, MAX_LEVELS))
        return self.take()

    def unknown(self, what, code):
        raise Failed("word %d: %d is no code of a %s" % (self.at, code, what))


def problem_of_words(words):
    cursor = Cursor(words)
    bools = cursor.take()
    problem = Problem(bools, cursor.many(cursor.domain), cursor.many(cursor.statement))
    if cursor.at < len(words):
        raise Failed("words follow the last statement, from word %d on" % (cursor.at + 1))
    return problem


def problem_of_text(text):
    return problem_of_words(words_of_text(text))


def domain_words(domain):
    return [RANGE, domain[1], domain[2]] if domain[0] == RANGE else [VALUES, len(domain[1])] + list(domain[1])


def expression_words(tree):
    code = tree[0]
    if code in (AND, OR):
        return [code, len(tree[1])] + [word for member in tree[1] for word in expression_words(member)]
    if code == SUM:
        return [code, len(tree[1])] + [word for factor, term in tree[1] for word in [factor] + expression_words(term)]
    words = [code]
    for part in tree[1:]:
        words += expression_words(part) if isinstance(part, tuple) else [part]
    return words


def statement_words(statement):
    if statement[0] == RULE:
        return [RULE] + expression_words(statement[1])
    if statement[0] == DIFFERENT:
        return [DIFFERENT, len(statement[1])] + [word for member in statement[1] for word in expression_words(member)]
    _, columns, rows = statement
    return ([TABLE, len(columns), len(rows)] + [word for column in columns for word in expression_words(column)]
            + [cell for row in rows for cell in row])


def words_of_problem(problem):
    words = [problem.bools, len(problem.domains)]
    for domain in problem.domains:
        words += domain_words(domain)
    words.append(len(problem.statements))
    for statement in problem.statements:
        words += statement_words(statement)
    return words


def text_of_problem(problem):
    def line(key, words):
        return "%s=%s\n" % (key, ",".join(map(str, words)))

    return (line("bools", [problem.bools]) + line("ints", [len(problem.domains)])
            + "".join(line("int", domain_words(domain)) for domain in problem.domains)
            + line("statements", [len(problem.statements)])
            + "".join(line("statement", statement_words(statement)) for statement in problem.statements))

"""Rules with names into a set: declarations first, wherever they stand, then the statements in their order."""

import difflib
from collections import namedtuple

from solve import sets
from solve.errors import Failed
from solve.sets import CMP, CONST, DIFFERENT, ICONST, IF, IVAR, NOT, RANGE, RULE, SUM, TABLE, VALUES, VAR

from . import language, reader
from .reader import Wrong

# bools, ints: the names in the order of their indices. problem: the set. places: the node of each statement.
Rules = namedtuple("Rules", "bools ints problem places")


def translate(text):
    nodes = reader.read(text)
    names = Names()
    for node in nodes:
        if head(node) in language.DECLARATIONS:
            names.declare(node)
    places = [node for node in nodes if head(node) not in language.DECLARATIONS]
    statements = [Statement(names).of(node) for node in places]
    problem = sets.Problem(len(names.bools), names.domains, statements)
    count = len(sets.words_of_problem(problem))
    if count > sets.MAX_WORDS:
        raise Failed("these rules make a set of %d words, and one has at most %d" % (count, sets.MAX_WORDS))
    return Rules(list(names.bools), list(names.ints), problem, places)


def head(node):
    """The first word in a bracket, or None."""
    return node.items[0].text if node.items else None


def shown(node, limit=40):
    source = node.source
    return source if len(source) <= limit else source[:limit - 2] + ".."


def number(node):
    if node.text is None or not language.NUMBER.fullmatch(node.text):
        raise Wrong(node, "a number is expected, not %s" % shown(node))
    value = int(node.text[:20])  # enough of it to see that it is too large
    if abs(value) > sets.LIMIT:
        raise Wrong(node, "a number from -%d to %d is expected, not %s" % (sets.LIMIT, sets.LIMIT, shown(node)))
    return value


class Names:
    """The declared variables: index by name, and the domains of the integers."""

    def __init__(self):
        self.bools, self.ints, self.domains, self.lines = {}, {}, [], {}

    def declare(self, node):
        kind, *parts = node.items
        if kind.text == "bool":
            for part in parts:
                self.add(part, self.bools, sets.MAX_BOOLS, "Booleans")
        else:
            self.declare_ints(node, parts)

    def declare_ints(self, node, parts):
        if parts and parts[-1].items is not None:
            names, domain = parts[:-1], self.values(parts[-1])
        elif len(parts) > 2:
            names, domain = parts[:-2], self.range(*parts[-2:])
        else:
            names, domain = [], None
        if not names:
            raise Wrong(node, "(int NAME LOW HIGH) or (int NAME (VALUE ..)) is expected")
        for name in names:
            self.add(name, self.ints, sets.MAX_INTS, "integers")
            self.domains.append(domain)

    def range(self, low, high):
        if number(low) > number(high):
            raise Wrong(high, "a highest value of at least %s is expected, not %s" % (low.text, high.text))
        return (RANGE, number(low), number(high))

    def values(self, node):
        values = set()
        for item in node.items:
            if number(item) in values:
                raise Wrong(item, "%s stands twice among the values" % item.text)
            values.add(number(item))
        if not values:
            raise Wrong(node, "at least one value is expected")
        return (VALUES, sorted(values))

    def add(self, node, table, limit, kind):
        if node.text is None or not language.is_name(node.text):
            raise Wrong(node, "a name is expected (it begins with a letter and is no word of the language), not %s" % shown(node))
        if node.text in self.lines:
            raise Wrong(node, "%s is declared already, on line %d" % (node.text, self.lines[node.text]))
        if len(table) == limit:
            raise Wrong(node, "this is one more than the %d %s that a set has at most" % (limit, kind))
        self.lines[node.text] = node.line
        table[node.text] = len(table)


class Statement:
    """The tree of a statement over declared names."""

    def __init__(self, names):
        self.names = names

    def of(self, node):
        if head(node) == "table":
            return self.table(node)
        if head(node) == "alldifferent":
            return (DIFFERENT, [self.integer(part, 1) for part in node.items[1:]])
        return (RULE, self.boolean(node, 1))

    def table(self, node):
        if len(node.items) < 2 or node.items[1].items is None:
            raise Wrong(node, "(table (COLUMN ..) (CELL ..) ..) is expected")
        columns = [self.integer(column, 1) for column in node.items[1].items]
        rows = [self.row(row, len(columns)) for row in node.items[2:]]
        return (TABLE, columns, rows)

    def row(self, node, width):
        if node.items is None or len(node.items) != width:
            raise Wrong(node, "a row (CELL ..) of %d cells is expected, not %s" % (width, shown(node)))
        return [sets.STAR if cell.text == language.STAR else number(cell) for cell in node.items]

    def boolean(self, node, level):
        deep(node, level)
        if node.items is None:
            return self.choice(node)
        word, parts = head(node), node.items[1:]
        if word in language.LISTS:
            return (language.LISTS[word], [self.boolean(part, level + 1) for part in parts])
        if word == "not":
            return (NOT, *self.booleans(node, 1, level))
        if word in language.PAIRS:
            return (language.PAIRS[word], *self.booleans(node, 2, level))
        if word in sets.OPERATORS:
            sides = [self.integer(part, level + 1) for part in exactly(node, 2)]
            return (CMP, sets.OPERATORS.index(word), *sides)
        if word in language.STATEMENTS and level > 1:
            raise Wrong(node, "a rule is expected: %s stands only by itself, in no other rule" % word)
        self.refuse(node, "a rule is expected, a Boolean or a bracket that begins with one of " + " ".join(language.RULES))

    def booleans(self, node, count, level):
        return [self.boolean(part, level + 1) for part in exactly(node, count)]

    def choice(self, node):
        if node.text in language.CONSTANTS:
            return (CONST, language.CONSTANTS[node.text])
        if node.text in self.names.bools:
            return (VAR, self.names.bools[node.text])
        if node.text in self.names.ints:
            raise Wrong(node, "a Boolean is expected, and %s is an integer: compare it, as in (= %s 1)" % (node.text, node.text))
        self.refuse(node, "a Boolean is expected")

    def integer(self, node, level):
        deep(node, level)
        if node.items is None:
            return self.leaf(node)
        word, parts = head(node), node.items[1:]
        if word == "+":
            return (SUM, [self.term(part, level + 1) for part in parts])
        if word == "-" and len(parts) == 1:
            return (SUM, [(-1, self.integer(parts[0], level + 1))])
        if word == "-":
            left, right = (self.integer(part, level + 1) for part in exactly(node, 2))
            return (SUM, [(1, left), (-1, right)])
        if word == "*":
            return (SUM, [self.term(node, level + 1)])
        if word == "if":
            condition, *branches = exactly(node, 3)
            return (IF, self.boolean(condition, level + 1), *(self.integer(part, level + 1) for part in branches))
        self.refuse(node, "an integer is expected: a number, a name or a bracket that begins with one of " + " ".join(language.INTEGERS))

    def term(self, node, level):
        """A summand with its coefficient: (* NUMBER e) is one term, not a sum of its own."""
        if head(node) != "*":
            return (1, self.integer(node, level))
        factor, inner = exactly(node, 2)
        return (number(factor), self.integer(inner, level))

    def leaf(self, node):
        if language.NUMBER.fullmatch(node.text):
            return (ICONST, number(node))
        if node.text in self.names.ints:
            return (IVAR, self.names.ints[node.text])
        if node.text in self.names.bools:
            raise Wrong(node, "an integer is expected, and %s is a Boolean" % node.text)
        self.refuse(node, "an integer is expected")

    def refuse(self, node, expected):
        if node.text is not None and language.is_name(node.text):
            near = difflib.get_close_matches(node.text, self.names.lines, 1)
            raise Wrong(node, "%s is not declared" % node.text + (": %s is" % near[0] if near else ""))
        raise Wrong(node, "%s, not %s" % (expected, shown(node)))


def exactly(node, count):
    parts = node.items[1:]
    if len(parts) != count:
        raise Wrong(node, "%s with %d part%s is expected, not with %d" % (head(node), count, "s" * (count > 1), len(parts)))
    return parts


def deep(node, level):
    if level > sets.MAX_LEVELS:
        raise Wrong(node, "at most %d levels are expected: this is one deeper" % sets.MAX_LEVELS)

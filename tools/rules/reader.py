"""Bracketed text as trees that know their place. A comment goes from a semicolon to the end of its line."""

import re
from collections import namedtuple

from solve.errors import Failed

COMMENT = re.compile(";[^\n]*")
TOKEN = re.compile(r"[()]|[^\s();]+")


class Node(namedtuple("Node", "text items line column start end whole")):
    """text: the word of an atom, None of a bracket. items: the nodes in a bracket, None of an atom.

    line and column are counted from 1; whole[start:end] is the node as it was written.
    """

    @property
    def source(self):
        """The node as it was written, without comments and line ends."""
        written = COMMENT.sub("", self.whole[self.start:self.end])
        return " ".join(written.split())


class Wrong(Failed):
    """A mistake at a place of the text."""

    def __init__(self, place, why):
        super().__init__("line %d, column %d: %s" % (place.line, place.column, why))
        self.line, self.column = place.line, place.column


Token = namedtuple("Token", "text line column start")


def tokens(text):
    start = 0
    for number, line in enumerate(text.split("\n"), 1):
        for found in TOKEN.finditer(COMMENT.sub("", line)):
            yield Token(found[0], number, found.start() + 1, start + found.start())
        start += len(line) + 1


def read(text):
    """The nodes of a text, outermost first."""
    outer, open_brackets = [], []
    for token in tokens(text):
        end = token.start + len(token.text)
        if token.text == "(":
            open_brackets.append((token, []))
            continue
        if token.text == ")":
            if not open_brackets:
                raise Wrong(token, "no bracket is open here")
            first, items = open_brackets.pop()
            node = Node(None, items, first.line, first.column, first.start, end, text)
        else:
            node = Node(token.text, None, token.line, token.column, token.start, end, text)
        (open_brackets[-1][1] if open_brackets else outer).append(node)
    if open_brackets:
        raise Wrong(open_brackets[-1][0], "this bracket is not closed")
    return outer

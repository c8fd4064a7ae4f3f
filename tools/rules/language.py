"""The words of the rules' language, with the codes that they become."""

import re

from solve.sets import AND, IFF, IMP, OPERATORS, OR, XOR

LISTS = {"and": AND, "or": OR}
PAIRS = {"xor": XOR, "iff": IFF, "=>": IMP}
CONSTANTS = {"false": 0, "true": 1}
DECLARATIONS = ("bool", "int")
RULES = [*LISTS, "not", *PAIRS, *OPERATORS]
INTEGERS = ["+", "-", "*", "if"]
# What stands only by itself, in no other rule.
STATEMENTS = ("table", "alldifferent")
RESERVED = {*RULES, *INTEGERS, *CONSTANTS, *DECLARATIONS, *STATEMENTS}
STAR = "*"

NUMBER = re.compile(r"0|-?[1-9][0-9]*")  # as in a set's text


def is_name(text):
    """A name begins with a letter or _, and is no word of the language."""
    return (text[0].isalpha() or text[0] == "_") and text not in RESERVED

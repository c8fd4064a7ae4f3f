"""The listing of a set: running the program `listing`, and reading what it prints (docs/FORMAT.md, "The listing")."""

import os
import re
import subprocess
from collections import namedtuple

from .errors import Failed

ROOT = os.path.dirname(os.path.dirname(os.path.dirname(os.path.realpath(__file__))))
PROGRAM = os.path.join(ROOT, "crates", "listing", "out", "listing")

# answer: compiled, contradiction, unread or a refusal's number. fixed, bools, ints: a word for each declared variable, in bools
# negative for the negation of an emitted one (of merged answers; several variables may then have the same number).
# emitted: how many Booleans are emitted. records: of each emitted integer its kind and three numbers, (RANGING, lowest, highest,
# number of values) or (FOLLOWING, literal, value where it is false, value where it is true).
# clauses: (literals, comparisons), a comparison being (operator, constant, [(variable, coefficient), ..]).
Listing = namedtuple("Listing", "answer fixed bools ints emitted records clauses")

RANGING, FOLLOWING = 0, 1

REFUSALS = {
    1: "the work slice has fewer than 16384 words",
    2: "the set has more than 4096 words",
    3: "the set ends early, or words follow the last statement",
    4: "a count, value, operator or cell is out of range",
    5: "an expression, statement or domain code is unknown at its place",
    6: "a variable is not declared",
    7: "a domain is empty or its values do not rise",
    8: "an expression is deeper than 64 levels",
    9: "a weight is over 1073741823",
    10: "over 64 different integer variables in one comparison or pair of an AllDifferent, or over 63 in one column",
    11: "a column's span is over 4096",
    12: "the answer is longer than the 16384 words that the program lends",
}


def run(text, program=PROGRAM):
    """The listing's text of a set's text."""
    try:
        done = subprocess.run([program], input=text.encode(), capture_output=True)
    except OSError as problem:
        raise Failed("cannot run %s (%s): `rt run` in crates/listing builds it" % (program, problem.strerror))
    if done.returncode != 0:
        raise Failed("%s ended with status %d" % (program, done.returncode))
    return done.stdout.decode("ascii", "replace")


def numbers(text):
    return [int(number) for number in text.split(",")] if text else []


def clause(text):
    literals, *comparisons = text.split(";")
    return numbers(literals), [comparison(part) for part in comparisons]


def comparison(text):
    operator, constant, terms = text.split(":")
    flat = numbers(terms)
    return int(operator), int(constant), list(zip(flat[::2], flat[1::2], strict=True))


def cut_off(why):
    return Failed("the listing is cut off or damaged: " + why)


class Lines:
    """The lines of a listing, taken in their order."""

    def __init__(self, text):
        if not text.endswith("\n"):
            raise cut_off("its last line does not end")
        self.lines, self.at = text.splitlines(), 0

    def all_of(self, key):
        found = []
        while self.at < len(self.lines) and self.lines[self.at].startswith(key + "="):
            found.append(self.lines[self.at][len(key) + 1:])
            self.at += 1
        return found

    def one(self, key):
        found = self.all_of(key)
        if len(found) != 1:
            raise cut_off("it has %d lines %s= where one is expected" % (len(found), key))
        return found[0]

    def end(self):
        if self.at < len(self.lines):
            raise cut_off("%r is not expected there" % self.lines[self.at][:40])


def read(text):
    """The listing of a listing's text. A text that is not whole raises Failed: clauses might be missing."""
    lines = Lines(text)
    try:
        answer = lines.one("answer")
        if answer == "compiled":
            return compiled(lines)
        lines.end()
    except ValueError:
        raise cut_off("line %d cannot be read" % lines.at) from None
    if answer in ("contradiction", "unread"):
        return Listing(answer, [], [], [], 0, [], [])
    if re.fullmatch(r"refused,[0-9]+", answer):
        return Listing(int(answer[8:]), [], [], [], 0, [], [])
    raise cut_off("answer=%s is unknown" % answer)


def compiled(lines):
    fixed, bools, ints = (numbers(lines.one(key)) for key in ("fixed", "bools", "ints"))
    emitted = numbers(lines.one("emitted"))
    records = [tuple(numbers(line)) for line in lines.all_of("domain")]
    clauses = [clause(line) for line in lines.all_of("clause")]
    count = numbers(lines.one("clauses"))
    total = numbers(lines.one("total"))  # the last line: without it the listing is cut off
    lines.end()
    if len(emitted) != 2 or len(records) != emitted[1] or not all(sound(record, emitted[0]) for record in records):
        raise cut_off("its domains are not those that emitted= counts")
    if any(abs(word) > emitted[0] for word in bools) or any(not 0 <= word <= emitted[1] for word in ints):
        raise cut_off("its maps name variables that emitted= does not count")
    if count != [len(clauses)]:
        raise cut_off("it has %d clauses, and clauses= says %s" % (len(clauses), count))
    parts = sum(len(literals) + len(comparisons) for literals, comparisons in clauses)
    if total != [parts]:
        raise cut_off("its clauses have %d literals and comparisons, and total= says %s" % (parts, total))
    return Listing("compiled", fixed, bools, ints, emitted[0], records, clauses)


def sound(record, bools):
    """Whether a record is of one of the two kinds: lowest not above highest; an emitted literal and two values that rise."""
    if len(record) != 4 or record[0] not in (RANGING, FOLLOWING):
        return False
    kind, first, second, third = record
    return first <= second and third >= 1 if kind == RANGING else 1 <= abs(first) <= bools and second < third


def explain_answer(listing):
    """What an answer that is neither compiled nor a contradiction says to a person."""
    if listing.answer == "unread":
        return "answer=unread: the text is not a set's text (docs/FORMAT.md), or has more than 65536 bytes"
    return "answer=refused,%d: %s" % (listing.answer, REFUSALS.get(listing.answer, "see docs/FORMAT.md"))

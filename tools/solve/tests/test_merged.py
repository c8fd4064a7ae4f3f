"""Listings of merged answers (request 2.7): several Booleans with one number, negative where one is the other's negation.

The listing program does not merge; these are what the Rust gives with merging on (tools/reference, `merged`), as a listing has them.
"""

import itertools
import unittest

from .. import listing, roster, sets, smt
from ..errors import Failed
from .enumerate import rosters

# v0 is not v1; v2 is v0; v1 or v3
SET = [4, 0, 3, 1, 15, 11, 0, 11, 1, 1, 16, 11, 2, 11, 0, 1, 13, 2, 11, 1, 11, 3]
MERGED = """answer=compiled
fixed=2,2,2,2
bools=1,-1,1,2
ints=
emitted=2,0
clause=1,-1
clause=-1,1
clause=1,-1
clause=-1,1
clause=-1,2
clauses=5
total=10
"""


def true_of(clause, found):
    return any(found["b%d" % abs(literal)] == (literal > 0) for literal in clause[0])


class Merged(unittest.TestCase):
    def test_negative_and_shared_numbers_are_read(self):
        found = listing.read(MERGED)
        self.assertEqual((found.bools, found.emitted), ([1, -1, 1, 2], 2))
        self.assertEqual(smt.names(found), ["b1", "b2"])

    def test_values_go_through_the_signs(self):
        problem = sets.problem_of_words(SET)
        read = listing.read(MERGED)
        self.assertEqual(roster.of_values(read, problem, {"b1": False, "b2": True}),
                         roster.Roster([False, True, False, True], [], ([], [])))
        self.assertEqual(roster.of_values(read, problem, {"b1": True, "b2": True}).bools, [True, False, True, True])

    def test_what_passes_is_what_satisfies(self):
        problem, read = sets.problem_of_words(SET), listing.read(MERGED)
        passing = []
        for values in itertools.product([False, True], repeat=read.emitted):
            found = dict(zip(smt.names(read), values))
            if all(true_of(clause, found) for clause in read.clauses):
                made = roster.of_values(read, problem, found)
                self.assertEqual(roster.by_evaluation(problem, made), "yes")
                passing.append(roster.values_line(made)[len("values="):-1])
        self.assertEqual(sorted(passing), list(rosters(problem)))

    def test_a_fixed_variable_and_a_free_one(self):
        read = listing.read(MERGED.replace("fixed=2,2,2,2", "fixed=1,2,2,2").replace("bools=1,-1,1,2", "bools=0,-1,0,2"))
        made = roster.of_values(read, sets.problem_of_words(SET), {"b1": True, "b2": False})
        self.assertEqual(made, roster.Roster([True, False, False, False], [], ([2], [])))

    def test_numbers_that_are_not_emitted(self):
        for bools in ("3,-1,1,2", "1,-3,1,2"):
            with self.assertRaisesRegex(Failed, "cut off"):
                listing.read(MERGED.replace("bools=1,-1,1,2", "bools=" + bools))

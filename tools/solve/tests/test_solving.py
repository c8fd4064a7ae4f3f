"""Both solvers against enumeration: P1 to P12, small AllDifferents and Ifs, the worked example, 300 generated sets, and as many with Ifs."""

import os
import unittest

from .. import listing, roster, sets, solvers
from .cases import CASES
from .enumerate import rosters
from .generate import Generator, WithIfs

SETS = int(os.environ.get("SETS", "300"))


def found(text, solver):
    got = roster.find(text, solver)
    return None if got is None else roster.values_line(got)[len("values="):-1]


class Solving(unittest.TestCase):
    def agree(self, problem, name):
        expected = set(rosters(problem))
        for solver in solvers.COMMANDS:
            got = found(sets.text_of_problem(problem), solver)
            self.assertTrue(got in expected if expected else got is None, (name, solver, got))
        return bool(expected)

    def test_cases(self):
        for name, words, _ in CASES:
            self.agree(sets.problem_of_words([int(word) for word in words.split()]), name)

    def test_worked_example(self):
        with open(os.path.join(listing.ROOT, "crates", "listing", "stdin")) as file:
            text = file.read()
        problem = sets.problem_of_text(text)
        for solver in solvers.COMMANDS:
            self.assertEqual(roster.by_evaluation(problem, roster.find(text, solver)), "yes")

    def test_the_smallest_set_whose_gap_matters(self):
        self.assertFalse(self.agree(sets.problem_of_words([0, 1, 1, 2, 0, 2, 1, 1, 18, 0, 21, 0, 20, 1]), "gap"))

    def test_free_variables(self):
        text = "bools=2\nints=1\nint=1,2,3,5\nstatements=1\nstatement=1,11,1\n"
        self.assertEqual(roster.find(text), roster.Roster([False, True], [3], ([0], [0])))

    def test_generated_sets(self):
        for kind in (Generator, WithIfs):
            existing = [self.agree(kind(seed).problem(), (kind, seed)) for seed in range(SETS)]
            self.assertTrue(SETS < 100 or min(existing.count(True), existing.count(False)) > SETS // 5, "both answers are wanted")

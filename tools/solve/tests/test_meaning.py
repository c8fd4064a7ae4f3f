import unittest

from .. import meaning, sets
from .cases import CASES
from .enumerate import rosters


def holding(text):
    """Which of 00, 01, 10, 11 make a Boolean expression over two variables true."""
    problem = sets.problem_of_words([2, 0, 1, 1] + [int(word) for word in text.split()])
    return " ".join(roster.replace(",", "") for roster in rosters(problem))


class Meaning(unittest.TestCase):
    def test_connectives(self):
        for text, expected in [("10 0", ""), ("10 1", "00 01 10 11"), ("11 1", "01 11"), ("14 11 0", "00 01"),
                               ("12 2 11 0 11 1", "11"), ("12 0", "00 01 10 11"), ("13 2 11 0 11 1", "01 10 11"),
                               ("13 0", ""), ("15 11 0 11 1", "01 10"), ("16 11 0 11 1", "00 11"),
                               ("17 11 0 11 1", "00 01 11")]:
            self.assertEqual(holding(text), expected, text)

    def test_comparisons(self):
        for operator, expected in enumerate(["1", "0,2", "0,1", "0", "1,2", "2"]):  # of x over 0 to 2 against 1
            problem = sets.problem_of_words([0, 1, 0, 0, 2, 1, 1, 18, operator, 21, 0, 20, 1])
            self.assertEqual(",".join(rosters(problem)), expected)

    def test_sums_tables_and_domains(self):
        x, y = (sets.IVAR, 0), (sets.IVAR, 1)
        nested = (sets.SUM, [(2, x), (-3, (sets.SUM, [(1, y), (0, x), (1, (sets.ICONST, 4))]))])
        self.assertEqual(meaning.integer_value(nested, [], [10, 1]), 20 - 15)
        table = (sets.TABLE, [x, y], [[1, sets.STAR], [2, 3]])
        self.assertEqual([meaning.statement_holds(table, [], ints) for ints in ([1, 9], [2, 3], [2, 4])], [True, True, False])
        problem = sets.Problem(0, [(sets.RANGE, 0, 4), (sets.VALUES, [0, 4])], [])
        self.assertEqual([meaning.outside(problem, ints) for ints in ([4, 4], [5, 4], [2, 2])], [None, 0, 1])

    def test_ifs(self):
        x, four = (sets.IVAR, 0), (sets.ICONST, 4)
        inner = (sets.IF, (sets.CMP, 0, x, four), (sets.ICONST, 7), x)
        outer = (sets.SUM, [(2, (sets.IF, (sets.NOT, (sets.VAR, 0)), inner, four))])
        found = [meaning.integer_value(outer, bools, ints) for bools, ints in [([0], [4]), ([0], [3]), ([1], [3])]]
        self.assertEqual(found, [14, 6, 8])

    def test_all_different(self):
        x, y = (sets.IVAR, 0), (sets.IVAR, 1)
        different = (sets.DIFFERENT, [x, y, (sets.SUM, [(2, x)])])
        found = [meaning.statement_holds(different, [], ints) for ints in ([1, 3], [1, 1], [1, 2], [0, 3])]
        self.assertEqual(found, [True, False, False, False])
        for members in ([], [x]):
            self.assertTrue(meaning.statement_holds((sets.DIFFERENT, members), [], [5]))

    def test_cases(self):
        for name, words, expected in CASES:
            problem = sets.problem_of_words([int(word) for word in words.split()])
            if expected is not None:
                self.assertEqual(list(rosters(problem)), expected, name)

import unittest

from .. import sets
from ..errors import Failed
from .cases import CASES
from .generate import Generator, WithIfs


def words(text):
    return [int(word) for word in text.split()]


class Sets(unittest.TestCase):
    def test_words_and_text_come_back(self):
        problems = [sets.problem_of_words(words(case)) for _, case, _ in CASES]
        problems += [kind(seed).problem() for kind in (Generator, WithIfs) for seed in range(500)]
        for problem in problems:
            self.assertEqual(sets.problem_of_words(sets.words_of_problem(problem)), problem)
            self.assertEqual(sets.problem_of_text(sets.text_of_problem(problem)), problem)

    def test_trees(self):
        problem = sets.problem_of_words(words("1 2 0 -1 4 1 2 3 5  2  1 17 11 0 18 4 22 2 2 21 0 -3 21 1 20 7  2 1 2 21 1 3 -2147483648"))
        self.assertEqual(problem.domains, [(sets.RANGE, -1, 4), (sets.VALUES, [3, 5])])
        rule, table = problem.statements
        total = (sets.SUM, [(2, (sets.IVAR, 0)), (-3, (sets.IVAR, 1))])
        self.assertEqual(rule, (sets.RULE, (sets.IMP, (sets.VAR, 0), (sets.CMP, 4, total, (sets.ICONST, 7)))))
        self.assertEqual(table, (sets.TABLE, [(sets.IVAR, 1)], [[3], [sets.STAR]]))

    def test_all_different(self):
        problem = sets.problem_of_words(words("0 1 0 0 4 2  3 2 22 1 -2 21 0 20 7  3 0"))
        self.assertEqual(problem.statements, [(sets.DIFFERENT, [(sets.SUM, [(-2, (sets.IVAR, 0))]), (sets.ICONST, 7)]), (sets.DIFFERENT, [])])
        self.assertTrue(sets.text_of_problem(problem).endswith("statements=2\nstatement=3,2,22,1,-2,21,0,20,7\nstatement=3,0\n"))

    def test_ifs(self):
        problem = sets.problem_of_words(words("2 1 0 0 4 1  1 18 0 23 15 11 0 11 1 21 0 23 11 0 20 1 20 2 20 3"))
        inner = (sets.IF, (sets.VAR, 0), (sets.ICONST, 1), (sets.ICONST, 2))
        outer = (sets.IF, (sets.XOR, (sets.VAR, 0), (sets.VAR, 1)), (sets.IVAR, 0), inner)
        self.assertEqual(problem.statements, [(sets.RULE, (sets.CMP, 0, outer, (sets.ICONST, 3)))])

    def test_words_that_say_no_set(self):
        for case, why in [("1 0", "end early"), ("0 0 0 7", "follow"), ("0 0 1 9", "no code of a statement"),
                          ("0 0 1 1 20 0", "no code of a Boolean"), ("0 0 1 1 23 10 1 20 0 20 0", "no code of a Boolean"), ("0 0 1 3 1 23 20 0", "no code of a Boolean"), ("0 1 2 0", "no code of a domain"),
                          ("0 0 1 2 0 1000000000", "no count"), ("0 0 1 3 -1", "no count"), ("0 0 1 3 1 11 0", "no code of an? integer"),
                          ("0 0 1 3 1 " + "22 1 1 " * 64 + "20 0", "deeper than 64 levels"), ("0 0 1 4 0", "no code of a statement"), ("0 0 -1", "no count"),
                          ("1 0 1 1 " + "14 " * 64 + "11 0", "deeper than 64 levels")]:
            with self.assertRaisesRegex(Failed, why, msg=case):
                sets.problem_of_words(words(case))

    def test_input_as_words_or_text(self):
        text = "bools=0\nints=1\nint=0,0,2\nstatements=1\nstatement=2,1,2,21,0,0,2\n"
        self.assertEqual(sets.text_of_input(text), text)
        self.assertEqual(sets.text_of_input("0 1 0,0,2\n1 2 1 2 21 0 0 2\n"), text)
        broken = sets.text_of_input("0 1 0 0 2 1 9")
        self.assertEqual(sets.words_of_text(broken), [0, 1, 0, 0, 2, 1, 9])
        with self.assertRaisesRegex(Failed, "at least three"):
            sets.text_of_input("0 0")

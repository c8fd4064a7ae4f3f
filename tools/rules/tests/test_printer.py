"""Set to rules to set, and rules to set to rules to set: the same words."""

import os
import unittest

from solve import sets
from solve.listing import ROOT
from solve.tests.cases import CASES
from solve.tests.generate import Generator, WithIfs

from .. import printer, translate
from .test_translate import FORMS, NAMES

SETS = int(os.environ.get("SETS", "2000"))


def again(problem, bools=None, ints=None):
    return translate.translate(printer.Printer(problem, bools, ints).text())


class Printing(unittest.TestCase):
    def same(self, problem):
        self.assertEqual(sets.words_of_problem(again(problem).problem), sets.words_of_problem(problem))

    def test_generated_sets(self):
        for seed in range(SETS):
            self.same((WithIfs if seed % 2 else Generator)(seed).problem())

    def test_cases(self):
        for _, words, _ in CASES:
            self.same(sets.problem_of_words([int(word) for word in words.split()]))

    def test_every_form(self):
        for text, _ in FORMS:
            rules = translate.translate(NAMES + text)
            back = again(rules.problem, rules.bools, rules.ints)
            self.assertEqual(back[:3], rules[:3], text)

    def test_the_week_by_its_names(self):
        with open(os.path.join(ROOT, "docs", "week.rules")) as file:
            rules = translate.translate(file.read())
        text = printer.Printer(rules.problem, rules.bools, rules.ints).text()
        self.assertEqual(translate.translate(text)[:3], rules[:3])
        self.assertIn("(<= (+ cem-1 cem-2 cem-3 cem-4 cem-5 cem-6) 2)\n", text)

    def test_printed_forms(self):
        text = "(bool a b)\n(int x 0 9)\n(int y (-3 5))\n(=> a (!= (+ (* -2 x) (+ y) 4) 0))\n(table (x) (1) (*))\n(alldifferent x (+ (* 2 y)) 4)\ntrue\n"
        rules = translate.translate(text)
        self.assertEqual(printer.Printer(rules.problem, rules.bools, rules.ints).text(), text)

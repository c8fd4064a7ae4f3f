"""Each form against words written by hand from docs/FORMAT.md, and the errors with their places."""

import os
import unittest

from solve import sets
from solve.listing import ROOT

from .. import translate
from ..reader import Wrong

NAMES = "(bool a b) (int x y 0 9)\n"
HEAD = [2, 2, 0, 0, 9, 0, 0, 9, 1]

FORMS = [
    ("true", "1 10 1"), ("false", "1 10 0"), ("b", "1 11 1"), ("(not a)", "1 14 11 0"),
    ("(and)", "1 12 0"), ("(and a b a)", "1 12 3 11 0 11 1 11 0"), ("(or a)", "1 13 1 11 0"),
    ("(xor a b)", "1 15 11 0 11 1"), ("(iff a b)", "1 16 11 0 11 1"), ("(=> a b)", "1 17 11 0 11 1"),
    ("(= x 3)", "1 18 0 21 0 20 3"), ("(!= x 3)", "1 18 1 21 0 20 3"), ("(<= x 3)", "1 18 2 21 0 20 3"),
    ("(< x 3)", "1 18 3 21 0 20 3"), ("(>= x 3)", "1 18 4 21 0 20 3"), ("(> x -3)", "1 18 5 21 0 20 -3"),
    ("(= (+ x y 4) 0)", "1 18 0 22 3 1 21 0 1 21 1 1 20 4 20 0"), ("(= (+) 0)", "1 18 0 22 0 20 0"),
    ("(= (+ (* -2 x) y) 0)", "1 18 0 22 2 -2 21 0 1 21 1 20 0"), ("(= (* 2 x) 0)", "1 18 0 22 1 2 21 0 20 0"),
    ("(= (- x y) 0)", "1 18 0 22 2 1 21 0 -1 21 1 20 0"), ("(= (- x) 0)", "1 18 0 22 1 -1 21 0 20 0"),
    ("(= (+ (+ (* 3 x))) 0)", "1 18 0 22 1 1 22 1 3 21 0 20 0"),
    ("(= (* 2 (+ x y)) 0)", "1 18 0 22 1 2 22 2 1 21 0 1 21 1 20 0"),
    ("(table (x (+ x y)) (1 *) (2 3))", "2 2 2 21 0 22 2 1 21 0 1 21 1 1 -2147483648 2 3"),
    ("(table (x))", "2 1 0 21 0"), ("(table () () ())", "2 0 2"),
    ("(alldifferent x y)", "3 2 21 0 21 1"), ("(alldifferent)", "3 0"), ("(alldifferent (* 2 x))", "3 1 22 1 2 21 0"),
    ("(alldifferent (+ x (* 2 y)) 7 x)", "3 3 22 2 1 21 0 2 21 1 20 7 21 0"),
    ("(= (if a 2 x) y)", "1 18 0 23 11 0 20 2 21 0 21 1"), ("(= (+ (* 2 (if (xor a b) x 0))) 1)", "1 18 0 22 1 2 23 15 11 0 11 1 21 0 20 0 20 1"),
    ("(table ((if (= (if a 1 0) x) x y)) (1))", "2 1 1 23 18 0 23 11 0 20 1 20 0 21 0 21 0 21 1 1"),
    ("(alldifferent (if a x y) 7)", "3 2 23 11 0 21 0 21 1 20 7"),
]

ERRORS = [  # the text, the place, a part of what is said
    ("a)", 1, 2, "no bracket is open"), ("(and a\n  (or b", 2, 3, "not closed"), ("(bool a)\n(and a c)", 2, 8, "c is not declared"),
    ("(bool late-ana)\n late-anna", 2, 2, "late-anna is not declared: late-ana is"),
    ("(bool a)\n(int a 0 1)", 2, 6, "declared already, on line 1"), ("(bool a 1st)", 1, 9, "a name is expected"),
    ("(bool table)", 1, 7, "a name is expected"), ("(bool (a))", 1, 7, "a name is expected"), ("(int x 0)", 1, 1, "LOW HIGH"),
    ("(int 0 1)", 1, 1, "LOW HIGH"), ("(int)", 1, 1, "LOW HIGH"), ("(int (1 2))", 1, 1, "LOW HIGH"),
    ("(int x 3 2)", 1, 10, "at least 3 is expected"), ("(int x ())", 1, 8, "at least one value"),
    ("(int x (1 3 1))", 1, 13, "1 stands twice"), ("(int x 0 z)", 1, 10, "a number is expected, not z"),
    ("(int x 0 1073741824)", 1, 10, "1073741823"), ("(int x 007 9)", 1, 8, "a number is expected, not 007"),
    ("(int x 0 %s)" % ("9" * 5000), 1, 10, "1073741823"), ("()", 1, 1, "a rule is expected"), ("7", 1, 1, "a Boolean is expected, not 7"),
    ("(sum 1 2)", 1, 1, "a rule is expected"), (NAMES + "x", 2, 1, "compare it, as in \\(= x 1\\)"),
    (NAMES + "(= a 1)", 2, 4, "an integer is expected, and a is a Boolean"), (NAMES + "(= x (and a))", 2, 6, "an integer is expected"),
    (NAMES + "(= x 1.5)", 2, 6, "an integer is expected, not 1.5"), (NAMES + "(not a b)", 2, 1, "not with 1 part is expected, not with 2"),
    (NAMES + "(=> a)", 2, 1, "=> with 2 parts is expected, not with 1"), (NAMES + "(= x)", 2, 1, "= with 2 parts"),
    (NAMES + "(= (* x 2) 1)", 2, 7, "a number is expected, not x"), (NAMES + "(= (- x y x) 1)", 2, 4, "- with 2 parts"),
    (NAMES + "(if a b a)", 2, 1, "a rule is expected"), (NAMES + "(= (if x 1 2) 1)", 2, 8, "compare it"), (NAMES + "(= (if a b 2) 1)", 2, 10, "b is a Boolean"),
    (NAMES + "(= (if a 1) 1)", 2, 4, "if with 3 parts is expected, not with 2"), ("(bool if)", 1, 7, "a name is expected"),
    (NAMES + "(= " + "(if a 1 " * 63 + "x" + ")" * 63 + " 1)", 2, 4 + 62 * 8 + 4, "64 levels"),
    (NAMES + "(table x (1))", 2, 1, "\\(table \\(COLUMN"), (NAMES + "(table (x y) (1 2) (1))", 2, 20, "of 2 cells"),
    (NAMES + "(table (x) (y))", 2, 13, "a number is expected"), (NAMES + "(table (a) (1))", 2, 9, "a is a Boolean"),
    (NAMES + "(not " * 64 + "a" + ")" * 64, 2, 1 + 64 * 5, "64 levels"),
    ("; one\n\n (foo ; two\n)", 3, 2, "not \\(foo \\)"),
    (NAMES + "(alldifferent x a)", 2, 17, "a is a Boolean"), (NAMES + "(alldifferent x z)", 2, 17, "z is not declared"),
    (NAMES + "(not (alldifferent x y))", 2, 6, "alldifferent stands only by itself"), (NAMES + "(or (table (x)) a)", 2, 5, "table stands only by itself"),
    ("(int alldifferent 0 1)", 1, 6, "a name is expected"), (NAMES + "(alldifferent " + "(- " * 64 + "x" + ")" * 65, 2, 15 + 64 * 3, "64 levels"),
]


class Translate(unittest.TestCase):
    def test_forms(self):
        for text, words in FORMS:
            found = sets.words_of_problem(translate.translate(NAMES + text).problem)
            self.assertEqual(found, HEAD + [int(word) for word in words.split()], text)

    def test_declarations(self):
        rules = translate.translate("(int x (5 -1 3)) late ; used before it is declared\n(bool early late) (int y -2 0)")
        self.assertEqual((rules.bools, rules.ints), (["early", "late"], ["x", "y"]))
        self.assertEqual(sets.words_of_problem(rules.problem), [2, 2, 1, 3, -1, 3, 5, 0, -2, 0, 1, 1, 11, 1])

    def test_nothing(self):
        self.assertEqual(sets.words_of_problem(translate.translate("; no rules\n").problem), [0, 0, 0])

    def test_errors(self):
        for text, line, column, why in ERRORS:
            with self.assertRaisesRegex(Wrong, why, msg=text) as caught:
                translate.translate(text)
            self.assertEqual((caught.exception.line, caught.exception.column), (line, column), text)
            self.assertIn("line %d, column %d: " % (line, column), str(caught.exception))

    def test_limits(self):
        translate.translate("(bool %s)" % " ".join("b%d" % i for i in range(512)))
        with self.assertRaisesRegex(Wrong, "one more than the 512 Booleans"):
            translate.translate("(bool %s)" % " ".join("b%d" % i for i in range(513)))
        with self.assertRaisesRegex(Wrong, "one more than the 256 integers"):
            translate.translate("(int %s 0 1)" % " ".join("x%d" % i for i in range(257)))
        translate.translate("(bool a) " + "(and a a) " * 584)
        with self.assertRaisesRegex(Exception, "4098 words"):
            translate.translate("(bool a) " + "(and a a) " * 585)

    def test_many_brackets_are_an_error_and_no_crash(self):
        with self.assertRaisesRegex(Wrong, "64 levels"):
            translate.translate("(not " * 100000 + "true" + ")" * 100000)

    def test_the_week_is_the_worked_example(self):
        with open(os.path.join(ROOT, "docs", "week.rules")) as file:
            words = sets.words_of_problem(translate.translate(file.read()).problem)
        with open(os.path.join(ROOT, "crates", "listing", "stdin")) as file:
            self.assertEqual(words, sets.words_of_text(file.read()))

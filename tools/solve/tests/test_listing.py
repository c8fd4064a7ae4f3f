import unittest

from .. import listing, sets, smt
from ..errors import Failed

COMPILED = """answer=compiled
fixed=0,2
bools=0,1
ints=2,1
emitted=2,4
domain=0,0,8,3
domain=0,-2,1,4
domain=0,0,5,6
domain=1,-2,-3,5
clause=1,-2
clause=-1;0:-1:0,1;4:3:0,-2,2,1
clause=
clause=;0:-1:
clauses=4
total=6
"""


class Listings(unittest.TestCase):
    def test_a_listing(self):
        found = listing.read(COMPILED)
        self.assertEqual((found.fixed, found.bools, found.ints, found.emitted), ([0, 2], [0, 1], [2, 1], 2))
        self.assertEqual(found.records, [(0, 0, 8, 3), (0, -2, 1, 4), (0, 0, 5, 6), (1, -2, -3, 5)])
        self.assertEqual(found.clauses, [([1, -2], []), ([-1], [(0, -1, [(0, 1)]), (4, 3, [(0, -2), (2, 1)])]),
                                         ([], []), ([], [(0, -1, [])])])

    def test_every_part_of_a_listing_is_refused(self):
        for end in range(len(COMPILED)):
            with self.assertRaisesRegex(Failed, "cut off", msg=COMPILED[:end]):
                listing.read(COMPILED[:end])

    def test_a_listing_without_one_of_its_lines_is_refused(self):
        lines = COMPILED.splitlines(True)
        for missing in range(len(lines)):
            with self.assertRaisesRegex(Failed, "cut off", msg=lines[missing]):
                listing.read("".join(lines[:missing] + lines[missing + 1:]))

    def test_a_listing_with_another_total_is_refused(self):
        for total in ("total=3\n", "total=7\n", "total=\n", "total=6,6\n"):  # three literals, three comparisons
            with self.assertRaisesRegex(Failed, "cut off", msg=total):
                listing.read(COMPILED.replace("total=6\n", total))

    def test_a_listing_with_an_unsound_record_is_refused(self):
        # no kind, another kind, lowest above highest, no value, literal 0, one not emitted, values that do not rise
        for record in ("1,-3,5", "2,-2,-3,5", "0,6,5,1", "0,0,5,0", "1,0,-3,5", "1,3,-3,5", "1,-2,5,5"):
            with self.assertRaisesRegex(Failed, "cut off", msg=record):
                listing.read(COMPILED.replace("domain=1,-2,-3,5\n", "domain=%s\n" % record))

    def test_other_answers(self):
        self.assertEqual(listing.read("answer=contradiction\n").answer, "contradiction")
        self.assertEqual(listing.read("answer=refused,12\n").answer, 12)
        self.assertIn("longer", listing.explain_answer(listing.read("answer=refused,12\n")))
        self.assertIn("docs/FORMAT.md", listing.explain_answer(listing.read("answer=unread\n")))
        for text in ("answer=perhaps\n", "answer=contradiction\ntotal=0\n", "answer=refused,\n"):
            with self.assertRaises(Failed):
                listing.read(text)


class Scripts(unittest.TestCase):
    def test_a_script(self):
        problem = sets.Problem(2, [(sets.RANGE, -2, 1), (sets.VALUES, [0, 3, 8])], [])
        self.assertEqual(smt.script(listing.read(COMPILED), problem).splitlines()[2:-1], [
            "(declare-const b1 Bool)", "(declare-const b2 Bool)",
            "(declare-const x0 Int)", "(assert (or (= x0 0) (= x0 3) (= x0 8)))",  # declared: its values
            "(declare-const x1 Int)", "(assert (<= (- 2) x1 1))",
            "(declare-const x2 Int)", "(assert (<= 0 x2 5))",  # new: lowest to highest
            "(declare-const x3 Int)", "(assert (= x3 (ite (not b2) 5 (- 3))))",  # new: it follows its literal
            "(assert (or b1 (not b2)))",
            "(assert (or (not b1) (= (* 1 x0) 1) (>= (+ (* (- 2) x0) (* 1 x2)) (- 3))))",
            "(assert false)", "(assert (= 0 1))", "(check-sat)"])

    def test_values(self):
        self.assertEqual(smt.values("((b1 true)\n (x0 (- 7)))\n((x1 12))", ["b1", "x0"]), {"b1": True, "x0": -7, "x1": 12})
        for printed, wanted in [("((b1 true))", "b2"), ("((x0 true))", "x0"), ("", "b1"), ("((b1 1))", "b1")]:
            with self.assertRaisesRegex(Failed, "no value of " + wanted):
                smt.values(printed, [wanted])

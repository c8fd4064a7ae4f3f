"""What the documents show is what the tools print, or a roster that keeps the rules."""

import os
import re
import unittest

from solve import listing, meaning, sets
from solve.listing import ROOT

from .. import translate
from .test_commands import EXPLAINED, RULES, run_rules, week


def read(*parts):
    with open(os.path.join(ROOT, *parts)) as file:
        return file.read()


class Documents(unittest.TestCase):
    def test_the_rosters_shown_keep_the_rules(self):
        rules = translate.translate(RULES)
        for text in (read("README.md"), read("docs", "EXAMPLE.md")):
            shown = dict(re.findall(r"^ *(\S+) = (true|1)$", text, re.M))
            self.assertTrue(set(shown) <= set(rules.bools + rules.ints))
            bools, ints = [name in shown for name in rules.bools], [int(name in shown) for name in rules.ints]
            self.assertEqual(meaning.first_broken(rules.problem, bools, ints), 0)

    def test_the_clauses_and_the_conflict_shown_are_printed(self):
        text = read("docs", "EXAMPLE.md")
        explained = re.search(r"```\n(not late-ana   \(fixed\)\n.*?)```", text, re.S)[1].splitlines()
        self.assertEqual([line for line in explained if line != ".." and line not in EXPLAINED.splitlines()], [])
        added = re.search(r'echo "(.*)"\) \| tools/rules/rules --conflict', text)[1]
        self.assertIn("```\n%s```" % run_rules(RULES + added, "--conflict")[1], text)

    def test_the_smallest_set_with_a_gap(self):
        text = read("docs", "FORMAT.md")
        shown = re.search(r"```\n(bools=0\nints=1\nint=1,2,0,2\n.*?)```", text, re.S)[1]
        printed = listing.run(shown)
        for line in ("ints=1", "domain=0,0,2,2", "clause=;0:-1:0,1"):
            self.assertIn("`%s`" % line, text)
            self.assertIn("%s\n" % line, printed)

    def test_the_set_of_all_different_readers(self):
        shown = re.search(r"```\n(bools=0\nints=3\n.*?)```.*?```\n(answer=compiled\n.*?)```", read("docs", "FORMAT.md"), re.S)
        self.assertEqual(listing.run(shown[1]), shown[2])

    def test_the_set_with_ifs(self):
        text, example = read("docs", "FORMAT.md"), read("docs", "EXAMPLE.md")
        shown = re.search(r"```\n(bools=1\nints=3\n.*?)```.*?```\n(answer=compiled\n.*?)```", text, re.S)
        self.assertEqual(listing.run(shown[1]), shown[2])
        for line in re.findall(r"domain=1.*|clause=.*", shown[2]):
            self.assertIn(line.removeprefix("clause="), example)
        rules = re.search(r"```\n(\(<= .*?)```", example, re.S)[1]
        problem = translate.translate("(bool half) (int b1 b2 b3 0 1)\n" + rules).problem
        self.assertEqual(problem, sets.problem_of_text(shown[1]))

    def test_the_clauses_and_the_sheet_of_the_example(self):
        text, printed = read("docs", "EXAMPLE.md"), read("crates", "listing", "stdout").splitlines()
        counts = [line for line in printed if line.startswith(("clauses=", "total="))]
        self.assertEqual([line for line in counts if "`%s`" % line not in text], [])
        for line in read("crates", "sheet", "stdout").splitlines():
            self.assertIn("    %s\n" % line.rstrip(), text + "\n")

    def test_the_words_of_a_week(self):
        words = len(sets.words_of_problem(translate.translate(week(34, 6)).problem))
        self.assertIn("{:,} words (`tools/rules/week 34 6`)".format(words), read("docs", "FORMAT.md"))

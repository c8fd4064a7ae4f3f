"""The commands as a user runs them."""

import contextlib
import io
import os
import subprocess
import tempfile
import unittest

from solve import meaning
from solve.errors import Failed
from solve.listing import ROOT

from .. import cli, conflict, translate

WEEK = os.path.join(ROOT, "docs", "week.rules")
with open(WEEK) as file:
    RULES = file.read()

EXPLAINED = """not late-ana   (fixed)
late-ben or late-cem
not late-ben or not late-cem
not late-ben or ben-1 = 0
not late-cem or cem-1 = 0
ben-1 + cem-1 + ana-1 = 1
ana-2 + ben-2 + cem-2 = 1
ana-3 + ben-3 + cem-3 = 1
ana-4 + ben-4 + cem-4 = 1
ana-5 + ben-5 + cem-5 = 1
ana-6 + ben-6 + cem-6 = 2
cem-1 + cem-2 + cem-3 + cem-4 + cem-5 + cem-6 <= 2
not [b3] or ana-4 = 1
not [b3] or ana-5 = 1
[b3] or ben-4 = 1
[b3] or ben-5 = 1
ana-6 = 1
ana-6 != 1 or ben-6 != 0 or cem-6 = 1
ana-6 != 1 or ben-6 != 1 or cem-6 = 0
ben-1 + 2 cem-1 - ben-2 - 2 cem-2 != 0
ben-1 + 2 cem-1 - ben-3 - 2 cem-3 != 0
ben-2 + 2 cem-2 - ben-3 - 2 cem-3 != 0
"""


def run_rules(text, *options):
    """Status, standard output and standard error of the command on a file of this text, which is called FILE."""
    with tempfile.NamedTemporaryFile("w", suffix=".rules") as file:
        file.write(text)
        file.flush()
        out, err = io.StringIO(), io.StringIO()
        with contextlib.redirect_stdout(out), contextlib.redirect_stderr(err):
            status = cli.main([*options, file.name])
        return status, out.getvalue(), err.getvalue().replace(file.name, "FILE")


def week(blocks, scorers):
    command = [os.path.join(ROOT, "tools/rules/week"), str(blocks), str(scorers)]
    return subprocess.run(command, capture_output=True, text=True, check=True).stdout


class Commands(unittest.TestCase):
    def test_solve_the_week_with_both_solvers(self):
        problem = translate.translate(RULES).problem
        for solver in ("z3", "cvc5"):
            status, out, err = run_rules(RULES, "--solve", "--all", "--solver", solver)
            self.assertEqual((status, err), (0, ""))
            values = [line.split(" = ")[1] for line in out.splitlines()]
            bools, ints = [value == "true" for value in values[:3]], [int(value) for value in values[3:]]
            self.assertEqual((len(ints), meaning.outside(problem, ints), meaning.first_broken(problem, bools, ints)), (18, None, 0))
            short = [line for line in out.splitlines() if not line.endswith(("= false", "= 0"))]
            self.assertEqual(run_rules(RULES, "--solve", "--solver", solver)[1].splitlines(), short + ["the others are false or 0"])

    def test_free_variables(self):
        status, out, _ = run_rules("(bool a b) (int x 3 5) (int y -1 -1) a", "--solve")
        self.assertEqual((status, out), (0, "a = true\ny = -1\nany value does for: b x\n"))

    def test_explain(self):
        self.assertEqual(run_rules(RULES, "--explain"), (0, EXPLAINED, ""))
        text = "(int x y 0 3) (table ((- x (* 2 y))) (1)) (= (+ 0) 1)"
        self.assertEqual(run_rules(text, "--explain")[1], "x - 2 y - [x2] = 0\n[x2] = 1\n0 = 1\n[x2] from -6 to 3   (new)\n")
        self.assertIn("contradiction", run_rules("false", "--explain")[1])
        used_up = run_rules("(int x y 1 2) (alldifferent x y)", "--explain")
        self.assertEqual(used_up, (0, "x - y != 0\nx = 1 or y = 1\nx = 2 or y = 2\n", ""))

    def test_set_and_print(self):
        status, text, _ = run_rules(RULES)
        self.assertEqual((status, run_rules(RULES, "--set")[1]), (0, text))
        printed = run_rules(text, "--print")[1]
        self.assertEqual(run_rules(printed)[1], text)
        self.assertEqual(run_rules("1 0 1 1 14 11 0", "--print")[1], "(bool b0)\n(not b0)\n")
        self.assertRegex(run_rules("1 0 1 1 14", "--print")[2], "^rules: FILE: the set's words end early")

    def test_conflict(self):
        status, out, _ = run_rules(RULES + "(and late-cem (= (+ ana-1 ben-1) 0))\n", "--conflict")
        self.assertEqual(status, 0)
        self.assertEqual([line.split(":")[0] for line in out.splitlines()[1:]], ["line 12", "line 15", "line 30"])
        self.assertIn("without any one of them", out)
        self.assertEqual(run_rules(RULES, "--conflict")[:2], (1, "there is no conflict: a roster keeps all the rules\n"))
        status, out, _ = run_rules("(bool a) a (not a)", "--solve")
        self.assertEqual((status, "--conflict" in out), (1, True))

    def test_different_readers(self):
        text = "(int a b c 1 3) (alldifferent a b c) (= a 2) (< b c)"
        self.assertEqual(run_rules(text, "--solve"), (0, "a = 2\nb = 1\nc = 3\n", ""))
        status, out, _ = run_rules("(int a b c 1 2)\n(alldifferent a b c)\n(< a 9)", "--conflict")
        self.assertEqual((status, out.splitlines()[1:]), (0, ["line 2: (alldifferent a b c)"]))

    def test_errors_name_file_and_place(self):
        for text, why in [("(bool a)\n (and a x)", "rules: FILE: line 2, column 9: x is not declared\n"),
                          ("(int x 0 1073741823)\ntrue\n (= x 1)", "rules: FILE: line 3, column 2: answer=refused,9: a weight is over 1073741823\n"),
                          ("(int x 0 5000)\n(table (x) (1))", "rules: FILE: line 2, column 1: answer=refused,11: a column's span is over 4096\n"),
                          ("(int x 0 1073741823)\n(alldifferent x x)", "rules: FILE: line 2, column 1: answer=refused,9: a weight is over 1073741823\n")]:
            self.assertEqual(run_rules(text, "--solve"), (2, "", why))

    def test_missing_file(self):
        done = subprocess.run([os.path.join(ROOT, "tools/rules/rules"), "no-such-file"], capture_output=True, text=True)
        self.assertEqual((done.returncode, done.stdout), (2, ""))
        self.assertRegex(done.stderr, "^rules: cannot read no-such-file: No such file")

    def test_help(self):
        done = subprocess.run([os.path.join(ROOT, "tools/rules/rules"), "--help"], capture_output=True, text=True)
        self.assertEqual(done.returncode, 0)
        for option in ("--solve", "--explain", "--conflict", "--print", "--solver", "--timeout"):
            self.assertIn(option, done.stdout)

    def test_a_whole_week_fits(self):
        status, out, _ = run_rules(week(34, 6), "--solve", "--solver", "cvc5")
        self.assertEqual((status, len([line for line in out.splitlines() if line.startswith("s")])), (0, 34))


class Smallest(unittest.TestCase):
    def test_leaving_out(self):
        for count in range(1, 9):
            for bits in range(1, 2 ** count):
                needed = {i for i in range(count) if bits >> i & 1}
                self.assertEqual(conflict.smallest(count, lambda kept: not needed <= set(kept)), (sorted(needed), True))

    def test_few_calls_for_few_rules(self):
        calls = []
        conflict.smallest(1000, lambda kept: calls.append(kept) or not {400, 401} <= set(kept))
        self.assertLess(len(calls), 60)

    def test_what_cannot_be_told_stays(self):
        def exists(indices):
            if 2 not in indices:
                raise Failed("timeout")
            return 1 not in indices

        self.assertEqual(conflict.smallest(4, exists), ([1, 2], False))

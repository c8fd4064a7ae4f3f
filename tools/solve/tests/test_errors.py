"""The errors that a user can meet, through the command line, with stand-ins for the listing program and the solver."""

import contextlib
import io
import os
import tempfile
import unittest

from .. import cli, listing, roster, sets
from ..errors import Failed

SET = "bools=0\nints=1\nint=1,2,0,2\nstatements=1\nstatement=1,18,4,21,0,20,1\n"  # x of 0 and 2, at least 1


class Errors(unittest.TestCase):
    def setUp(self):
        folder = tempfile.TemporaryDirectory()
        self.addCleanup(folder.cleanup)
        self.folder = folder.name
        path = os.environ["PATH"]
        self.addCleanup(os.environ.__setitem__, "PATH", path)
        os.environ["PATH"] = self.folder + os.pathsep + path

    def program(self, name, body):
        path = os.path.join(self.folder, name)
        with open(path, "w") as file:
            file.write("#!/bin/sh\n" + body)
        os.chmod(path, 0o755)
        return path

    def run_solve(self, *options, text=SET):
        path = os.path.join(self.folder, "set")
        with open(path, "w") as file:
            file.write(text)
        out, err = io.StringIO(), io.StringIO()
        with contextlib.redirect_stdout(out), contextlib.redirect_stderr(err):
            status = cli.main([path, *options])
        return status, out.getvalue(), err.getvalue()

    def test_roster_and_none(self):
        self.assertEqual(self.run_solve(), (0, "values=2\n", ""))
        self.assertEqual(self.run_solve(text=SET.replace("18,4,", "18,0,")), (1, "roster=none\n", ""))

    def expect(self, why, *options, text=SET):
        status, out, err = self.run_solve(*options, text=text)
        self.assertEqual((status, out), (2, ""), err)
        self.assertRegex(err, "^solve: .*" + why)

    def test_cut_off_listing(self):
        self.expect("cut off", "--listing", self.program("cut", "%s | sed '$d'\n" % listing.PROGRAM))

    def test_listing_program_missing_or_failing(self):
        self.expect("`rt run` in crates/listing", "--listing", os.path.join(self.folder, "none"))
        self.expect("status 3", "--listing", self.program("failing", "exit 3\n"))

    def test_refused_and_unread(self):
        self.expect("answer=refused,7: a domain is empty", text=SET.replace("1,2,0,2", "1,2,2,0"))
        self.expect("answer=unread", text=SET.replace("=", ":"))

    def test_solver_missing(self):
        os.environ["PATH"] = self.folder
        self.expect("apt-get install z3")

    def test_solver_error(self):
        self.program("z3", "echo '(error \"line 1: no\")'; echo sat; exit 1\n")
        self.expect("status 1 .*line 1: no")
        self.program("z3", "echo unknown\n")
        self.expect("said: unknown")
        self.program("z3", "echo broken >&2; exit 7\n")
        self.expect("status 7 and said: broken")

    def test_solver_timeout(self):
        self.program("z3", "exec sleep 5\n")
        self.expect("no answer within 0.2 seconds.*--solver cvc5", "--timeout", "0.2")

    def test_solver_that_prints_no_values(self):
        self.program("z3", "echo sat\n")
        self.expect("no value of x0")

    def test_wrong_roster_is_never_printed(self):
        self.program("z3", "echo sat; echo '((x0 1))'\n")
        self.expect("fails the set's own check")
        self.program("z3", "echo sat; echo '((x0 0))'\n")
        self.expect("fails the set's own check.*broken,1")

    def test_roster_program_is_asked_where_it_is_built(self):
        problem, found = sets.problem_of_text(SET), roster.Roster([], [2], ([], []))
        saved = os.path.join(self.folder, "asked")
        yes = self.program("roster", "cat > %s; echo roster=yes\n" % saved)
        roster.check(SET, problem, found, yes)
        with open(saved) as file:
            self.assertEqual(file.read(), SET + "values=2\n")
        with self.assertRaisesRegex(Failed, "broken,1"):
            roster.check(SET, problem, found, self.program("roster", "echo roster=broken,1\n"))
        with self.assertRaisesRegex(Failed, "status 1"):
            roster.check(SET, problem, found, self.program("roster", "exit 1\n"))
        roster.check(SET, problem, found, os.path.join(self.folder, "none"))

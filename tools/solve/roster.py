"""From a solver's values to a roster, and the check of a roster against the set's own statements."""

import os
import subprocess
from collections import namedtuple

from . import listing as listings
from . import meaning, sets, smt, solvers
from .errors import Failed

PROGRAM = os.path.join(listings.ROOT, "crates", "roster", "out", "roster")
OPEN = 2

# bools, ints: a value for each declared variable. free: (Boolean indices, integer indices) that may have any value.
Roster = namedtuple("Roster", "bools ints free")


def of_values(listing, problem, found):
    """The roster of a solver's values: fixed Booleans as `fixed=` has them, numbered variables as found, others free.

    A Boolean whose number is negative has the opposite of that emitted one's value (request 2.7).
    """
    bools, ints, free = [], [], ([], [])
    for index, (fixed, mapped) in enumerate(zip(listing.fixed, listing.bools, strict=True)):
        if fixed == OPEN and not mapped:
            free[0].append(index)
        bools.append(fixed == 1 if fixed != OPEN else found["b%d" % abs(mapped)] == (mapped > 0) if mapped else False)
    for index, (mapped, domain) in enumerate(zip(listing.ints, problem.domains, strict=True)):
        if not mapped and len(sets.values_of(domain)) > 1:
            free[1].append(index)
        ints.append(found["x%d" % (mapped - 1)] if mapped else sets.values_of(domain)[0])
    return Roster(bools, ints, free)


def values_line(roster):
    """The line that program `roster` reads behind a set's text: every declared variable, Booleans first."""
    return "values=%s\n" % ",".join(str(int(value)) for value in roster.bools + roster.ints)


def check(text, problem, roster, program=PROGRAM):
    """Raises Failed unless the roster satisfies every statement of the set.

    By the proved check (request 2.6) where its program is built, else by the tool's own evaluation.
    """
    said = by_program(text, roster, program) if os.path.exists(program) else by_evaluation(problem, roster)
    if said != "yes":
        raise Failed("the roster found fails the set's own check (%s): please report this with the set" % said)


def by_program(text, roster, program):
    done = subprocess.run([program], input=(text + values_line(roster)).encode(), capture_output=True)
    line = done.stdout.decode("ascii", "replace")
    if done.returncode != 0 or not line.startswith("roster=") or not line.endswith("\n"):
        raise Failed("%s ended with status %d and said: %r" % (program, done.returncode, line[:200]))
    return line[len("roster="):].strip()


def by_evaluation(problem, roster):
    index = meaning.outside(problem, roster.ints)
    if index is not None:
        return "integer %d is outside its domain" % index
    broken = meaning.first_broken(problem, roster.bools, roster.ints)
    return "broken,%d" % broken if broken else "yes"


def find(text, solver="z3", timeout=60, program=listings.PROGRAM):
    """A checked roster of a set's text, or None where no roster exists."""
    return of_listing(text, listings.read(listings.run(text, program)), solver, timeout)


def of_listing(text, listing, solver="z3", timeout=60):
    """The same with the set's listing at hand."""
    if listing.answer == "contradiction":
        return None
    problem, script = script_of(text, listing)
    printed = solvers.run(script, solver, timeout)
    if printed is None:
        return None
    roster = of_values(listing, problem, smt.values(printed, smt.names(listing)))
    check(text, problem, roster)
    return roster


def script_of(text, listing):
    """A compiled set's trees, and the solver's script of its listing."""
    if listing.answer != "compiled":
        raise Failed(listings.explain_answer(listing))
    problem = sets.problem_of_text(text)
    if len(listing.bools) != problem.bools or len(listing.ints) != len(problem.domains):
        raise Failed("the listing is not this set's: it has other counts of variables")
    return problem, smt.script(listing, problem)

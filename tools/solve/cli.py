"""The command line of tools/solve."""

import argparse
import sys

from . import listing as listings
from . import roster as rosters
from . import sets, solvers
from .errors import Failed

ABOUT = """Finds a roster of a set: the clauses of its listing go to an SMT solver, and the roster found is checked
against the set's own statements before it is printed."""
PRINTS = """Prints `values=`, a value for each declared variable, Booleans first (status 0), or `roster=none` if no roster
exists (status 1). Anything else is an error on standard error (status 2): a set that is refused, a listing that is cut
off, a solver that fails or takes too long."""


def add_solver_options(parser):
    parser.add_argument("--solver", choices=sorted(solvers.COMMANDS), default="z3", help="default: z3")
    parser.add_argument("--timeout", type=positive, default=60, metavar="SECONDS",
                        help="for each run of the solver (default: 60)")
    parser.add_argument("--listing", default=listings.PROGRAM, metavar="PROGRAM",
                        help="the listing program (default: crates/listing/out/listing of this repository)")


def positive(text):
    value = float(text)
    if not 0 < value < float("inf"):
        raise argparse.ArgumentTypeError("a positive number of seconds is expected")
    return value


def read_file(name):
    try:
        if name == "-":
            return sys.stdin.buffer.read().decode()
        with open(name, "rb") as file:
            return file.read().decode()
    except OSError as problem:
        raise Failed("cannot read %s: %s" % (name, problem.strerror))
    except UnicodeDecodeError:
        raise Failed("%s is no UTF-8 text" % name) from None


def run(options):
    text = sets.text_of_input(read_file(options.set))
    if options.smt:
        listing = listings.read(listings.run(text, options.listing))
        if listing.answer == "contradiction":
            raise Failed("answer=contradiction: there are no clauses; no roster exists")
        print(rosters.script_of(text, listing)[1], end="")
        return 0
    roster = rosters.find(text, options.solver, options.timeout, options.listing)
    print("roster=none" if roster is None else rosters.values_line(roster).rstrip("\n"))
    return 1 if roster is None else 0


def main(arguments=None):
    parser = argparse.ArgumentParser(prog="solve", description=ABOUT, epilog=PRINTS)
    parser.add_argument("set", nargs="?", default="-", metavar="SET",
                        help="a file with a set's text, or with its bare words; default: standard input")
    add_solver_options(parser)
    parser.add_argument("--smt", action="store_true", help="print the solver's input (SMT-LIB 2) instead")
    return guarded("solve", run, parser.parse_args(arguments))


def guarded(name, command, options):
    """A command's status; 2 with its message where it failed."""
    try:
        return command(options)
    except Failed as failed:
        print("%s: %s" % (name, failed), file=sys.stderr)
        return 2
    except BrokenPipeError:
        sys.stderr.close()
        return 2

"""The command line of tools/rules."""

import argparse

from solve import listing as listings
from solve import roster as rosters
from solve import sets
from solve.cli import add_solver_options, guarded, read_file
from solve.errors import Failed

from . import conflict, explain, printer, translate

ABOUT = "Rules with names: into a set, to the clauses of its answer, to a roster, to a conflict. The language: README.md beside this."
PRINTS = """Status: 0 if it prints what was asked for; 1 if no roster exists (--solve) or no conflict (--conflict);
2 with a message for any error."""


def in_file(name, work):
    """What work gives; its errors name the file."""
    try:
        return work()
    except Failed as failed:
        raise Failed("%s: %s" % ("standard input" if name == "-" else name, failed)) from None


def print_set(options, rules, text):
    print(text, end="")
    return 0


def print_clauses(options, rules, text):
    listing = list_rules(options, rules, text)
    if listing.answer == "contradiction":
        print("no roster keeps all the rules (answer=contradiction)")
        return 0
    for line in explain.Explainer(rules, listing).lines():
        print(line)
    return 0


def print_roster(options, rules, text):
    roster = rosters.of_listing(text, list_rules(options, rules, text), options.solver, options.timeout)
    if roster is None:
        print("no roster keeps all the rules; --conflict names some that cannot be kept together")
        return 1
    for line in roster_lines(rules, roster, options.all):
        print(line)
    return 0


def roster_lines(rules, roster, everything):
    free = [rules.bools[i] for i in roster.free[0]] + [rules.ints[i] for i in roster.free[1]]
    shown = [(name, value, "true" if value else "false") for name, value in zip(rules.bools, roster.bools)]
    shown += [(name, value, str(value)) for name, value in zip(rules.ints, roster.ints)]
    if not everything:
        shown = [line for line in shown if line[1] and line[0] not in free]
    for name, _, value in shown:
        yield "%s = %s" % (name, value)
    if len(shown) + len(free) < len(rules.bools) + len(rules.ints):
        yield "the others are false or 0" if shown else "all are false or 0"
    if free:
        yield "any value does for: " + " ".join(free)


def print_conflict(options, rules, text):
    def exists(indices):
        statements = [rules.problem.statements[i] for i in indices]
        part = sets.text_of_problem(rules.problem._replace(statements=statements))
        return rosters.find(part, options.solver, options.timeout, options.listing) is not None

    if rosters.of_listing(text, list_rules(options, rules, text), options.solver, options.timeout) is not None:
        print("there is no conflict: a roster keeps all the rules")
        return 1
    kept, sure = conflict.smallest(len(rules.places), exists)
    print("no roster keeps these together" + (", and without any one of them there is one:" if sure else ":"))
    for index in kept:
        print("line %d: %s" % (rules.places[index].line, translate.shown(rules.places[index], 300)))
    return 0


def list_rules(options, rules, text):
    """The listing of a set that is not refused; else Failed names the first rule that is refused by itself."""
    listing = listings.read(listings.run(text, options.listing))
    if listing.answer in ("compiled", "contradiction"):
        return listing
    for place, statement in zip(rules.places, rules.problem.statements):
        alone = sets.text_of_problem(rules.problem._replace(statements=[statement]))
        if listings.read(listings.run(alone, options.listing)).answer == listing.answer:
            raise Failed("line %d, column %d: %s" % (place.line, place.column, listings.explain_answer(listing)))
    raise Failed(listings.explain_answer(listing))


def run(options):
    given = read_file(options.file)
    if options.print:
        problem = in_file(options.file, lambda: sets.problem_of_text(sets.text_of_input(given)))
        print(printer.Printer(problem).text(), end="")
        return 0
    rules = in_file(options.file, lambda: translate.translate(given))
    return in_file(options.file, lambda: options.command(options, rules, sets.text_of_problem(rules.problem)))


def main(arguments=None):
    parser = argparse.ArgumentParser(prog="rules", description=ABOUT, epilog=PRINTS)
    parser.add_argument("file", metavar="FILE", help="a file of rules, - for standard input (a set's text for --print)")
    what = parser.add_mutually_exclusive_group()
    what.add_argument("--set", dest="command", action="store_const", const=print_set,
                      help="print the set's text (the default)")
    what.add_argument("--explain", dest="command", action="store_const", const=print_clauses,
                      help="print the clauses of the set's answer by names")
    what.add_argument("--solve", dest="command", action="store_const", const=print_roster,
                      help="print a roster that keeps all the rules, checked, by names")
    what.add_argument("--conflict", dest="command", action="store_const", const=print_conflict,
                      help="name a few rules that no roster keeps together")
    what.add_argument("--print", action="store_true", help="print a set's text as rules, with names b0, x0, ..")
    parser.add_argument("--all", action="store_true", help="with --solve: false and 0 too")
    add_solver_options(parser)
    parser.set_defaults(command=print_set)
    return guarded("rules", run, parser.parse_args(arguments))

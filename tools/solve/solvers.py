"""Running an SMT solver on a script."""

import subprocess

from .errors import Failed

COMMANDS = {"z3": ["z3", "-smt2", "-in"], "cvc5": ["cvc5", "--lang=smt2", "--no-interactive", "-"]}


def run(script, solver="z3", timeout=60):
    """What the solver prints after `sat`, or None where it says `unsat`. Anything else raises Failed."""
    try:
        done = subprocess.run(COMMANDS[solver], input=script.encode(), capture_output=True, timeout=timeout)
    except OSError as problem:
        raise Failed("cannot run %s (%s): on Debian, apt-get install %s" % (solver, problem.strerror, solver)) from None
    except subprocess.TimeoutExpired:
        other = " or ".join("--solver " + name for name in COMMANDS if name != solver)
        raise Failed("%s gave no answer within %g seconds: try --timeout or %s" % (solver, timeout, other)) from None
    verdict, _, rest = done.stdout.decode("utf-8", "replace").partition("\n")
    if verdict.strip() == "sat":
        return rest
    if verdict.strip() == "unsat":  # the get-value behind it is then an error, as it should be
        return None
    said = (verdict + " " + done.stderr.decode("utf-8", "replace")).strip() or "nothing"
    raise Failed("%s ended with status %d and said: %s" % (solver, done.returncode, said[:300]))

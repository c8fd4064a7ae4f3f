"""From a set to a roster through an SMT solver: see README.md beside this file."""

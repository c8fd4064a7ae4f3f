"""Rules with names: see README.md beside this file."""

#!/usr/bin/env python3
"""Tests of `believe` on a small crate of its own."""
import importlib.machinery
import importlib.util
import os
import sys
import tempfile
import unittest

sys.dont_write_bytecode = True
PATH = os.path.join(os.path.dirname(os.path.realpath(__file__)), "believe")
LOADER = importlib.machinery.SourceFileLoader("believe", PATH)
believe = importlib.util.module_from_spec(importlib.util.spec_from_loader("believe", LOADER))
LOADER.exec_module(believe)

TOP = """-- a comment
use lib.IntN.{ℤ, pos, ◌+ℤ◌}
use Rattle.low.specs.Base.{Tree as Wood, leaf, size}

pub record Claim (t : Wood) : Type 0 where
  pub small : size t ≡ pos 1
  -- another comment
  pub large : unused t ≡ pos 2

unused : Wood → ℤ
unused t = pos 3
"""
BASE = """use lib.IntN.{ℤ, pos, ◌+ℤ◌}

pub data Tree : Type 0 where
  leaf : Tree
  node : Tree → Tree → Tree

module _ (n : ℤ) where
  unfoldable mutual
    pub size : Tree → ℤ
    size leaf = one
    size (node a b) = both (size a) (size b)
      where
        both : ℤ → ℤ → ℤ
        both x y = x +ℤ y

    pub other : Tree → ℤ
    other t = size t

abbrev pub one : ℤ
one = pos 1
"""


class Believe(unittest.TestCase):
    def setUp(self):
        folder = tempfile.TemporaryDirectory()
        self.addCleanup(folder.cleanup)
        self.addCleanup(setattr, believe, "ROOT", believe.ROOT)
        believe.ROOT = folder.name
        for crate, name, text in [("top", "Top", TOP), ("low", "Base", BASE)]:
            os.makedirs(os.path.join(folder.name, "crates", crate, "specs"))
            with open(os.path.join(folder.name, "crates", crate, "specs", name + ".antt"), "w") as file:
                file.write(text)

    def reached(self, root):
        reader = believe.Reader()
        reader.root(root)
        return [(d.file, d.name, len(d.lines)) for d in reader.found], sorted(reader.library)

    def test_a_field(self):
        found, library = self.reached("top/Top:Claim.small")
        self.assertEqual(found, [("top/Top", "Claim.small", 1), ("low/Base", "size", 6), ("low/Base", "Tree", 3), ("low/Base", "one", 2)])
        self.assertEqual(library, ["pos", "ℤ", "◌+ℤ◌"])

    def test_a_record(self):
        self.assertEqual([name for _, name, _ in self.reached("top/Top:Claim")[0]], ["Claim", "Tree", "size", "one", "unused"])

    def test_errors(self):
        for root in ("top/Top:Nothing", "top/Top:Claim.none", "top/None:Claim", "Claim"):
            with self.assertRaises(SystemExit):
                self.reached(root)


class Counts(unittest.TestCase):
    def lines(self, *roots):
        reader = believe.Reader()
        for root in roots:
            reader.root(root)
        return "{:,} lines in {} files".format(sum(len(d.lines) for d in reader.found), len({d.file for d in reader.found}))

    def test_the_readme_has_the_counts(self):
        with open(os.path.join(believe.ROOT, "README.md")) as file:
            text = file.read()
        self.assertIn(self.lines("station/Returned:Returns.exact", "station/Returned:Returns.unsatisfied"), text)
        self.assertIn(self.lines("station/Returned:Returns"), text)


if __name__ == "__main__":
    unittest.main()

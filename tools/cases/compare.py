#!/usr/bin/env python3
"""Compares the proved program's listings with tools/reference's, byte for byte, on generated texts, malformed ones included.
The line `total=` is not the reference's: it is counted anew from the printed clauses (recount.py).

    python3 tools/cases/compare.py SEED COUNT [FAMILY]

FAMILY is text, or iftext for sets with Ifs. Run at the repository's root, after `(cd crates/listing && rt run < stdin)` (crates/listing/out) and the
reference's build."""
import re
import subprocess
import sys
from collections import Counter

from recount import recounted

REFERENCE = "tools/reference/target/release/reference"


def unescape(s):
    return s.encode("latin-1").decode("unicode_escape").encode("latin-1")


def main(seed, count, family="text"):
    agree = differ = 0
    kinds = {}
    counted = Counter()
    source = subprocess.Popen([REFERENCE, "record", seed, family, count], stdout=subprocess.PIPE)
    for index, line in enumerate(source.stdout):
        given, expected = map(unescape, re.fullmatch(r"text=(.*) listing=(.*)\n", line.decode()).groups())
        listed, literals, comparisons = recounted(expected)
        counted.update(literals=literals, comparisons=comparisons, listings=comparisons > 0, others=listed != expected)
        expected = listed
        kind = expected.split(b"\n")[0].decode()
        kinds[kind] = kinds.get(kind, 0) + 1
        printed = subprocess.run(["crates/listing/out/listing"], input=given, capture_output=True, check=True).stdout
        if printed == expected:
            agree += 1
            continue
        differ += 1
        print(f"text {index} differs: {given!r}")
    print(f"{agree} texts agree, {differ} differ")
    print(", ".join(f"{k} {n}" for k, n in sorted(kinds.items())))
    print("recounted: {literals} literals, {comparisons} comparisons; {listings} listings have comparisons; the reference's total differs in {others}".format(**counted))


main(*sys.argv[1:])

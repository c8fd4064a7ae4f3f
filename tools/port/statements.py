#!/usr/bin/env python3
"""Compares two trees: each theorem's statement and each definition's text of specs/ in the first, wherever in the crate it stands in the second.

usage: statements.py OLD NEW      two checkouts; OLD is the landed commit in today's spelling (port.py, then respell.py)

Prints what is missing, and what differs by more than layout. Names qualify by crate; in a module block a definition is compared as it stands.
"""
import collections
import os
import re
import sys

sys.path.insert(0, os.path.dirname(os.path.realpath(__file__)))
N = r"[^\s(){}.;,@\"«»]+"
ITEM = re.compile(rf"^( *)((?:(?:pub|abbrev|unfoldable|record|data|ruleset) +)*)({N})((?: .*)?) :(?: (.*))?$")


def squeeze(text):
    text = re.sub(r"(?m)--( .*)?$", "", text)
    text = re.sub(r",(\s*[)\]}])", r"\1", text)
    text = re.sub(r"\s+", " ", text)
    return re.sub(r"\s*([(){}\[\],;])\s*", r"\1", text).strip()


def items(text):
    """Returns [(name, is a definition, statement, whole text)]."""
    lines = text.split("\n")
    heads = []
    field = -1
    for k, line in enumerate(lines):
        inner = len(line) - len(line.lstrip())
        if field >= 0 and line.strip() and inner > field:
            continue
        field = -1
        m = ITEM.match(line)
        if m and not line.strip().startswith(("use ", "--", "let ", "module ")) and "=" not in m[4].split(" :")[0] and "↦" not in line.split(" : ")[0]:
            heads.append((k, inner, m))
            if "record" in m[2] or "data" in m[2]:
                field = inner
    found = []
    for (k, inner, m), after in zip(heads, heads[1:] + [(len(lines), 0, None)]):
        end = after[0]
        body = lines[k:end]
        name = m[3]
        sig = []
        for j, line in enumerate(body):
            if j and (re.match(rf"^ *{re.escape(name)}(\s|$)", line) or re.match(r"^ *unfolding\b", line)):
                break
            if j and not line.strip():
                break
            sig.append(line)
        defines = bool(re.search(r"\b(abbrev|unfoldable|record|data)\b", m[2]))
        found.append([name, defines, squeeze(re.sub(r"^ *((pub|abbrev|unfoldable|mutual) +)*", "", "\n".join(sig))), squeeze("\n".join(body)), inner])
    # what a mutual block's mark makes of its members
    mark = None
    at = -1
    marks = {}
    for k, line in enumerate(lines):
        inner = len(line) - len(line.lstrip())
        if at >= 0 and line.strip() and inner <= at:
            mark, at = None, -1
        w = re.match(r"^ *((?:unfoldable|abbrev) )?(?:pub )?mutual\b", line)
        if w:
            mark, at = bool(w[1]), inner
        if mark:
            marks[k] = True
    for it, (k, _, _) in zip(found, heads):
        it[1] = it[1] or marks.get(k, False)
    return found


def read(folder, parts):
    found = collections.defaultdict(list)
    for part in parts:
        top = os.path.join(folder, part)
        for p, dirs, files in os.walk(top):
            dirs.sort()
            for f in sorted(files):
                if f.endswith(".antt") and f not in ("Proof.antt", "Answers.antt", "Invariants.antt"):
                    for name, defines, sig, text, inner in items(open(os.path.join(p, f), encoding="utf-8").read()):
                        found[name].append((defines, sig, re.sub(r"\bpub ", "", text), os.path.relpath(os.path.join(p, f), folder)))
    return found


def main(argv):
    old, new = argv
    count = missing = differ = 0
    for crate in sorted(os.listdir(os.path.join(old, "crates"))):
        a = read(os.path.join(old, "crates", crate), ["specs"])
        if not os.path.isdir(os.path.join(new, "crates", crate)):
            print(f"{crate}: the crate is gone")
            continue
        b = read(os.path.join(new, "crates", crate), ["specs", "proofs"])
        for name, each in a.items():
            for defines, sig, text, where in each:
                count += 1
                there = b.get(name, [])
                if not there:
                    missing += 1
                    print(f"{crate}/{where}: {name} is missing")
                elif defines and not any(t == text for _, _, t, _ in there):
                    differ += 1
                    print(f"{crate}/{where}: definition {name} differs\n   old: {text[:1500]}\n   new: {there[0][2][:1500]}")
                elif not defines and not any(s == sig for _, s, _, _ in there):
                    differ += 1
                    print(f"{crate}/{where}: statement {name} differs\n   old: {sig[:1500]}\n   new: {there[0][1][:1500]}")
    print(f"{count} compared, {missing} missing, {differ} differ")


if __name__ == "__main__":
    main(sys.argv[1:])

#!/usr/bin/env python3
"""Drops imported names that a function's Answers.antt or Invariants.antt does not use (the converter takes over all of a Proof.antt's imports).

usage: unimport.py [CRATE ..]     at the top of the repository
"""
import os
import re
import sys

N = r"[^\s(){}.;,@\"«»]+"
USE = re.compile(r"(?ms)^use ([^\s{]+)\.\{([^}]*)\}$\n?")


def used(name, text):
    shown = name.split(" as ")[-1].strip()
    parts = [p for p in shown.split("◌") if p]
    if "◌" in shown:
        return all(re.search(rf"(?<![^\s(){{}}.;,\w]){re.escape(p)}|{re.escape(p)}(?![^\s(){{}}.;,])", text) for p in parts)
    return bool(re.search(rf"(?<![^\s(){{}}.;,@«»]){re.escape(shown)}(?![^\s(){{}}.;,@«»])", text))


def main(argv):
    count = 0
    for crate in argv or sorted(os.listdir("crates")):
        for folder, _, files in os.walk(os.path.join("crates", crate, "proofs")):
            for f in files:
                if f not in ("Answers.antt", "Invariants.antt"):
                    continue
                path = os.path.join(folder, f)
                text = open(path, encoding="utf-8").read()
                body = USE.sub("", text)

                def sub(m):
                    names = [n.strip() for n in m[2].split(",") if n.strip()]
                    keep = [n for n in names if used(n, body)]
                    return f"use {m[1]}.{{{', '.join(keep)}}}\n" if keep else ""

                new = USE.sub(sub, text)
                if new != text:
                    count += 1
                    with open(path, "w", encoding="utf-8") as it:
                        it.write(new)
    print(f"unimport: {count} files")


if __name__ == "__main__":
    main(sys.argv[1:])

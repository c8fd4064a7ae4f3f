#!/usr/bin/env python3
"""Spells this repository's own definitions, lemmas and fields as today's Rattle does: words joined by `_`, types in camel case.

usage: respell.py        at the top of the repository, once, after port.py

A name is our own if a file of specs/ or proofs/ declares it (a function's Proof.antt aside) and no library's name that some file imports is spelled so.
It is turned in .antt files, in contracts and `ghost use` lines of .rt files, in the texts of .edit files, and between backticks in pages and comments.
Functions of src/, strings, inputs and outputs keep their names. It stops where two names would fall together.
Last it renames specs/Contracts.antt, since Rattle makes a module `specs.contracts`.
"""
import collections
import os
import re
import subprocess
import sys

NAME = r"[^\s(){}.;,@\"«»`]+"
DECLARED = re.compile(
    rf"(?m)^ *((?:(?:pub|abbrev|unfoldable|mutual|record|data|ruleset) +)*)({NAME}(?: {NAME})*?)"
    r"((?: \{[^{}\n]*\}| \([^()\n]*(?:\([^()\n]*\)[^()\n]*)*\))*) :(?: (.*))?$"
)
USE = re.compile(r"\buse ([^\s;{]+)\.\{([^}]*)\}")
# Where the camel-case spelling is another name's already.
OTHERWISE = {
    "Declared-int": "IntIsDeclared",
    "One-value": "HasOneValue",
    "Reads-terms": "TermsRead",
    "Row-at": "RowStandsAt",
    "Rows-at": "RowsStandAt",
    "Sized-at": "DomainSizedAt",
}
KINDS = {"pub", "abbrev", "unfoldable", "mutual", "record", "data", "ruleset"}


def files(root, *endings):
    for folder, dirs, names in os.walk(root):
        dirs[:] = sorted(d for d in dirs if d not in (".git", "target", "out"))
        for name in sorted(names):
            if name.endswith(endings):
                yield os.path.join(folder, name)


def read(path):
    with open(path, encoding="utf-8") as it:
        return it.read()


def is_type(words, rest):
    rest = (rest or "").strip()
    return "record" in words or "data" in words or bool(re.search(r"(^|→ )Type( \d)?( where)?$", rest))


def declared(crates):
    """Returns our names, each with whether it is a type somewhere."""
    found = {}
    for crate in sorted(os.listdir(crates)):
        for part in ("specs", "proofs"):
            for path in files(os.path.join(crates, crate, part), ".antt"):
                if os.path.basename(path) == "Proof.antt":
                    continue
                for it in DECLARED.finditer(read(path)):
                    for name in it[2].split(" "):
                        if name not in KINDS:
                            found[name] = found.get(name, False) or is_type(it[1].split(), it[4])
    return found


def imported(crates):
    """Returns the names that some file imports from a library."""
    ours, found = set(os.listdir(crates)), set()
    for path in files(crates, ".antt", ".rt"):
        for it in USE.finditer(read(path)):
            steps = it[1].split(".")
            if not (steps[0] == "Rattle" and steps[1] in ours):
                found |= {word.strip() for part in it[2].split(",") for word in part.split(" as ")}
    return found


def spelled(name, a_type):
    if name in OTHERWISE:
        return OTHERWISE[name]
    if a_type and name[0].isupper():
        return "".join(word[:1].upper() + word[1:] for word in name.split("-"))
    return name.replace("-", "_")


def table(crates):
    ours, theirs = declared(crates), imported(crates)
    turned = {}
    for name, a_type in ours.items():
        if "-" in name.strip("-") and (name[0].isalpha() or "ℤ" in name) and name not in theirs:
            turned[name] = spelled(name, a_type)
    back = collections.Counter(turned.values())
    met = [n for n in turned if back[turned[n]] > 1 or turned[n] in theirs or (turned[n] in ours and turned[n] not in turned)]
    if met:
        sys.exit("two names would fall together: " + ", ".join(sorted(met)))
    return turned


def turner(turned):
    token = re.compile(rf"(?<![^\s(){{}}.;,@«»`]){NAME}")
    return lambda text: token.sub(lambda it: turned.get(it[0], it[0]), text)


def in_backticks(turn, text):
    return re.sub(r"`[^`\n]*`", lambda it: turn(it[0]), text)


def antt(turn, text):
    """Code as it is, comments between backticks alone."""
    lines = []
    for line in text.split("\n"):
        at = re.search(r"(^|\s)--(\s|$)", line)
        k = at.start() if at else len(line)
        lines.append(turn(line[:k]) + in_backticks(turn, line[k:]))
    return "\n".join(lines)


def rust(turn, text):
    """`ghost use` lines and contracts: what stands between a function's head and its body."""
    lines, inside = [], False
    for line in text.split("\n"):
        bare = line.strip()
        if bare.startswith("//"):
            lines.append(in_backticks(turn, line))
            continue
        if re.match(r"(requires|ensures|ghost|also_owns|also_shares)\b", bare):
            inside = True
        elif bare == "{" or (inside and re.match(r"(pub |fn |let |use |mod )", bare)):
            inside = False
        lines.append(turn(line) if inside else line)
        if inside and bare.startswith("ghost use") and bare.endswith(";"):
            inside = False
    return "\n".join(lines)


def edit(turn, text):
    """An edit of specs/ is turned; one of code only in its comments, which no check reads."""
    lines, of_antt = [], False
    for line in text.split("\n"):
        if line.startswith("file:"):
            of_antt = line.strip().endswith(".antt")
        elif line.startswith(("old:", "new:")) and of_antt:
            line = line[:4] + turn(line[4:])
        lines.append(line)
    return "\n".join(lines)


def write(path, old, new):
    if new != old:
        with open(path, "w", encoding="utf-8") as it:
            it.write(new)
        return 1
    return 0


def main():
    if not os.path.isdir("crates"):
        sys.exit(__doc__)
    turned = table("crates")
    turn, count = turner(turned), 0
    ways = ((".antt", antt), (".rt", rust), (".edit", edit))
    for path in files("crates", ".antt", ".rt", ".edit"):
        text = read(path)
        way = next(it for ending, it in ways if path.endswith(ending))
        count += write(path, text, way(turn, text))
    for path in [*files("docs", ".md"), *files("tools", ".md"), "README.md"]:
        text = read(path)
        count += write(path, text, in_backticks(turn, text))
    for crate in sorted(os.listdir("crates")):
        old, new = (os.path.join("crates", crate, "specs", it + ".antt") for it in ("Contracts", "Contract"))
        if os.path.exists(old):
            if os.path.exists(new):
                sys.exit(f"{new} is there already")
            subprocess.run(["git", "mv", old, new], check=True)
            for path in [*files("crates", ".antt", ".rt"), *files("docs", ".md"), "README.md"]:
                text = read(path)
                fresh = text.replace(f"Rattle.{crate}.specs.Contracts", f"Rattle.{crate}.specs.Contract")
                fresh = fresh.replace(f"crates/{crate}/specs/Contracts", f"crates/{crate}/specs/Contract")
                write(path, text, fresh)
            lib = os.path.join("crates", crate, "specs", "Lib.antt")
            write(lib, read(lib), re.sub(r"(?m)^(pub mod |mod )Contracts$", r"\1Contract", read(lib)))
    print(f"respell: {len(turned)} names, {count} files")


if __name__ == "__main__":
    main()

#!/usr/bin/env python3
"""Moves the theorems that rest on an edited definition from specs/ to proofs/, their statements unchanged, and turns every import of them.

usage: theorems.py CRATE=MODULE,MODULE.. ..     at the top of the repository: the modules of specs/ that the crate's must-fail edits change
       theorems.py --imports                    turns imports again, by what earlier runs wrote to tools/port/moved.json

An edit of a definition reads as a BAD EDIT where a theorem of specs/ breaks under it; in proofs/ the broken theorem refuses it.
A module that holds theorems and that no contract and no definition left in specs/ names moves whole. Of another module the theorems go to proofs/MODULELaws.
"""
import json
import os
import re
import sys

N = r"[^\s(){}.;,@\"«»]+"
TABLE = "tools/port/moved.json"
USE = re.compile(r"(?m)^((?:pub |unfoldable pub |ghost )*use )Rattle\.(\w+)\.specs\.(\w+)((?:\.\{([^}]*)\})|( as \S+)?)(;?)$")
DEFINING = ("abbrev", "unfoldable", "record", "data", "pub record", "pub data", "pub unfoldable", "pub abbrev")


def read(path):
    with open(path, encoding="utf-8") as f:
        return f.read()


def write(path, text):
    with open(path, "w", encoding="utf-8") as f:
        f.write(text)


def blocks(text):
    """Returns the head (comment and imports) and the items [name, lines], each with the comments above it."""
    head, found, lead, current = [], [], [], None
    for line in text.split("\n"):
        starts = bool(line) and not line[0].isspace()
        if starts and (line.startswith("use ") or re.match(r"(pub |unfoldable pub )use ", line)):
            (head if not found else current[1]).append(line)
        elif starts and line.startswith("--"):
            lead.append(line)
        elif starts:
            m = re.match(rf"^((?:pub |abbrev |unfoldable |record |data |mutual |ruleset |module )*)({N})?", line)
            opens = re.match(r"((?:pub|abbrev|unfoldable) )*(record|data|mutual|ruleset|module)\b", line) or re.match(rf"((?:pub|abbrev|unfoldable) )*{N} :( |$)", line)
            if current and not opens:
                current[1].extend(lead + [line])
                lead = []
                continue
            current = [m[2], lead + [line], line]
            lead = []
            found.append(current)
        elif lead and not line.strip():
            # a heading of its own
            (current[1] if current else head).extend(lead + [line])
            lead = []
        elif current:
            current[1].extend(lead + [line])
            lead = []
        else:
            head.extend(lead + [line])
            lead = []
    if current:
        current[1].extend(lead)
    return head, found


def kind(block):
    first = block[2]
    if first.startswith(DEFINING):
        return "D"
    if first.startswith("module"):
        inner = "\n".join(x[2:] for x in block[1][block[1].index(first) + 1 :])
        kinds = {kind(b) for b in blocks(inner)[1]}
        return "D" if kinds == {"D"} else "M" if "D" in kinds or "M" in kinds else "T"
    return "T"


def names_of(block):
    found, field = set(), -1
    for line in block[1]:
        # what is indented below a record is its fields
        inner = len(line) - len(line.lstrip())
        if field >= 0 and line.strip() and inner > field:
            continue
        field = inner if re.match(r"^ *(pub )?record ", line) else -1
        m = re.match(rf"^ *((?:pub |abbrev |unfoldable |record |data )*)({N})(?: .*)? :(?: |$)", line)
        if m and m[2] not in ("module", "mutual"):
            found.add(m[2])
    m = re.match(rf"^((?:pub )?(?:record|data|ruleset|unfoldable|abbrev) (?:pub )?)({N})", block[2])
    if m:
        found.add(m[2])
    return found


def all_files():
    for folder, dirs, files in os.walk("crates"):
        dirs[:] = sorted(d for d in dirs if d != "out")
        for f in sorted(files):
            if f.endswith((".rt", ".antt")) and f != "Proof.antt":
                yield os.path.join(folder, f)


def turn_imports(moved):
    count = 0
    for path in all_files():
        text = read(path)

        def sub(m):
            head, crate, module, listed, end = m[1], m[2], m[3], m[5], m[7]
            it = moved.get(f"{crate}.{module}")
            if it is None:
                return m[0]
            if it["whole"]:
                return f"{head}Rattle.{crate}.proofs.{module}{m[4]}{end}"
            if listed is None:
                return m[0]
            words = [w.strip() for w in listed.split(",") if w.strip()]
            there = [w for w in words if w.split(" as ")[0] in it["names"]]
            here = [w for w in words if w not in there]
            lines = []
            if here:
                lines.append(f"{head}Rattle.{crate}.specs.{module}.{{{', '.join(here)}}}{end}")
            if there:
                lines.append(f"{head}Rattle.{crate}.proofs.{it['to']}.{{{', '.join(there)}}}{end}")
            return "\n".join(lines)

        new = USE.sub(sub, text)
        if new != text:
            write(path, new)
            count += 1
    print(f"theorems: imports of {count} files turned")


def declare(lib, line):
    text = read(lib) if os.path.exists(lib) else ""
    if not re.search(rf"(?m)^pub mod {line}$", text):
        text = re.sub(rf"(?m)^mod {line}$\n?", "", text)
        write(lib, text + ("" if not text or text.endswith("\n") else "\n") + f"pub mod {line}\n")


def move(crate, edited, moved):
    there = os.path.join("crates", crate)
    modules = {}
    for f in sorted(os.listdir(os.path.join(there, "specs"))):
        if f.endswith(".antt") and f != "Lib.antt":
            text = read(os.path.join(there, "specs", f))
            modules[f[:-5]] = (text, *blocks(text))
    needs = {m: set(re.findall(rf"Rattle\.{crate}\.specs\.(\w+)", t[0])) & set(modules) for m, t in modules.items()}
    rests = set(edited)
    while True:
        more = {m for m in modules if m not in rests and needs[m] & rests}
        if not more:
            break
        rests |= more
    kinds = {m: [kind(b) for b in t[2]] for m, t in modules.items()}
    cited = set()
    for path in all_files():
        if path.endswith(".rt"):
            cited |= set(re.findall(rf"\bRattle\.{crate}\.specs\.(\w+)", read(path)))
    going = {m for m in rests if set(kinds[m]) - {"D"}}
    whole = {m for m in going if m not in edited and m not in cited}
    while True:
        # what a module that stays, or the part of one that stays, names can't go whole
        kept = {m for m in modules if m not in whole}
        back = set()
        for m in kept:
            text = "\n".join("\n".join(b[1]) for b, k in zip(modules[m][2], kinds[m]) if k == "D") if m in going else modules[m][0]
            for target in needs[m] & whole:
                imported = set()
                for u in USE.finditer("\n".join(modules[m][1])):
                    if u[3] == target and u[5]:
                        imported |= {w.strip().split(" as ")[-1] for w in u[5].split(",")}
                if any(re.search(rf"(?<![^\s(){{}}.;,@«»]){re.escape(w)}(?![^\s(){{}}.;,@«»])", text) for w in imported):
                    back.add(target)
        if not back:
            break
        whole -= back
    split = going - whole
    for m in sorted(whole):
        moved[f"{crate}.{m}"] = {"whole": True}
        os.makedirs(os.path.join(there, "proofs"), exist_ok=True)
        to = os.path.join(there, "proofs", m + ".antt")
        if os.path.exists(to):
            sys.exit(f"{to} is there already")
        os.rename(os.path.join(there, "specs", m + ".antt"), to)
        lib = os.path.join(there, "specs", "Lib.antt")
        write(lib, re.sub(rf"(?m)^(pub )?mod {m}$\n?", "", read(lib)))
        declare(os.path.join(there, "proofs", "Lib.antt"), m)
    for m in sorted(split):
        text, head, found = modules[m]
        stay, go = [], []
        for b, k in zip(found, kinds[m]):
            (stay if k == "D" else go).append(b)
        names_go = set().union(*(names_of(b) for b in go))
        names_stay = set().union(set(), *(names_of(b) for b in stay))
        body_go = "\n".join("\n".join(b[1]).rstrip("\n") + "\n" for b in go)
        wanted = sorted(n for n in names_stay if re.search(rf"(?<![^\s(){{}}.;,@«»]){re.escape(n)}(?![^\s(){{}}.;,@«»])", body_go))
        out = []
        for b in stay:
            if b[0] in wanted and not re.search(r"\bpub\b", b[2]):
                k = b[1].index(b[2])
                b[1][k] = re.sub(r"^(abbrev |unfoldable )", r"\1pub ", b[2]) if b[2].startswith(("abbrev", "unfoldable")) else "pub " + b[2]
            for k, line in enumerate(b[1]):
                n = re.match(rf"^( +)(abbrev |unfoldable |record |data |)({N})(?: .*)? :(?: |$)", line)
                if n and n[3] in wanted and n[2] and b[2] is not line:
                    word = "pub " if n[2].startswith(("record", "data")) else ""
                    b[1][k] = n[1] + word + n[2] + ("" if word else "pub ") + line[len(n[1] + n[2]) :]
                elif n and n[3] in wanted and not n[2] and re.search(r"\bmutual\b", "\n".join(b[1][:k])):
                    b[1][k] = n[1] + "pub " + line[len(n[1]) :]
            out.append("\n".join(b[1]).rstrip("\n") + "\n")
        if any(k == "M" for k in kinds[m]):
            print(f"{crate}/{m}: a module block with definitions goes to proofs/: {[b[2][:60] for b, k in zip(found, kinds[m]) if k == 'M']}")
        uses = [l for l in head if re.match(r"(pub |unfoldable pub )?use ", l)]
        comments = [l for l in head if l.startswith("--")]
        to = m + "Laws"
        path = os.path.join(there, "proofs", to + ".antt")
        if os.path.exists(path):
            sys.exit(f"{path} is there already")
        os.makedirs(os.path.join(there, "proofs"), exist_ok=True)
        plain = [re.sub(r"^(unfoldable pub|pub) use", "use", l) for l in uses]
        own = [f"use Rattle.{crate}.specs.{m}.{{{', '.join(wanted)}}}"] if wanted else []
        write(path, "\n".join([f"-- What holds of the definitions of specs/{m}."] + plain + own) + "\n\n" + body_go)
        write(os.path.join(there, "specs", m + ".antt"), "\n".join(comments + uses) + "\n\n" + "\n".join(out))
        declare(os.path.join(there, "proofs", "Lib.antt"), to)
        moved[f"{crate}.{m}"] = {"whole": False, "to": to, "names": sorted(names_go - names_stay)}
    print(f"{crate}: whole {sorted(whole)}; in part {sorted(split)}")


def main(argv):
    moved = json.loads(read(TABLE)) if os.path.exists(TABLE) else {}
    for word in argv:
        if word != "--imports":
            crate, edited = word.split("=")
            move(crate, edited.split(","), moved)
    write(TABLE, json.dumps(moved, indent=1, ensure_ascii=False, sort_keys=True) + "\n")
    turn_imports(moved)


if __name__ == "__main__":
    main(sys.argv[1:])

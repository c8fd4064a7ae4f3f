#!/usr/bin/env python3
"""Gives rounds the pairs that turn names in proof files: a condition with another constant has another name, and answers cite it by name.

usage: turn.py LOGS CRATE/ROUND PROGRAM [OLD=NEW..]    LOGS: the folder that VERDICTS_LOGS named for tools/verdicts/run
       turn.py --again                       writes every such pair anew, after proof files changed

A program's pairs stand below its own, for each line of Answers.antt and Invariants.antt that has the name. The prover then asks each answer of the edited
code, so that what refuses the program is a fact and not a missing name.
"""
import glob
import json
import os
import re
import sys

TABLE = "tools/port/turned.json"


def read(path):
    with open(path, encoding="utf-8") as f:
        return f.read()


def programs_of(text):
    """Returns the head and [name, lines] of each program."""
    head, found = [], []
    for line in text.split("\n"):
        m = re.match(r"# ([a-z][a-z0-9_]*): ", line)
        if m:
            found.append([m[1], [line]])
        elif found:
            found[-1][1].append(line)
        else:
            head.append(line)
    return head, found


def place_of(crate, file, old):
    """Returns the folder below proofs/ of the function that holds the text, and the function's name."""
    kind = fn = ""
    for line in read(f"crates/{crate}/{file}").split("\n"):
        m = re.match(r'( *)(?:pub )?(?:extern "C" )?fn (\w+)', line)
        if m:
            fn, indent = m[2], m[1]
        elif re.match(r"impl\b", line):
            kind = re.match(r"impl(?:<[^>]*>)? (\w+)", line)[1] + "/"
        if old in line:
            break
        if fn and line == indent + "}":
            fn = ""
        if line == "}":
            kind = ""
    at = re.sub(r"^src/|\.rt$", "", file)
    folder = ("" if at in ("lib", "main") else at + "/") + kind
    root = f"crates/{crate}/proofs/{folder}"
    if os.path.isdir(f"{root}{fn}"):
        return f"proofs/{folder}{fn}", fn, False
    for it in sorted(os.listdir(root)):
        if it == f"+{fn}":
            return f"proofs/{folder}{it}", fn, False
    for it in sorted(os.listdir(root)):
        if it.startswith("+") and re.search(rf"[+_]{fn}(_|$)", it) and re.search(rf"(?m)^pub {fn}-", read(f"{root}{it}/Answers.antt")):
            return f"proofs/{folder}{it}", fn, True
    return None, fn, False


def turned(line, names):
    for old, new in names:
        line = re.sub(rf"(?<=-){re.escape(old)}(?![\w])", new, line)
    return line


def pairs_for(crate, folder, fn, is_cycle, names):
    found = []
    for path in sorted(glob.glob(f"crates/{crate}/{folder}/*.antt")):
        text = read(path)
        lines, mine, todo = text.split("\n"), True, []
        for line in lines:
            m = re.match(r"(?:abbrev |unfoldable )?pub (\S+) :|(?:abbrev )?(\S+) :", line)
            if is_cycle and m:
                name = m[1] or m[2]
                mine = name.startswith(fn + "-") or name == f"decreases-{fn}"
            if line.startswith("use ") and is_cycle:
                mine = False
            if mine and turned(line, names) != line:
                todo.append(line)
        out, now = [], text
        for line in todo:
            new = turned(line, names)
            if now.count(line) != 1:
                # the shortest stretch around the first change that is there once
                prefix = os.path.commonprefix([line, new])
                raise SystemExit(f"turn: {path}: not once: {line}")
            out += [f"old: {line}", f"new: {new}"]
            now = now.replace(line, new)
        if out:
            found += [f"file: {path[len(f'crates/{crate}/'):]}"] + out
    return found


def names_in(log, crate, folder, fn, is_cycle):
    """Returns the conditions' old and new names, from the refusals of the log."""
    text = read(log)
    answers = "".join(read(it) for it in glob.glob(f"crates/{crate}/{folder}/*.antt"))
    found = {}
    for m in re.finditer(rf"(?m)^\./{re.escape(folder)}/\w+\.antt:\d+:\d+: error: `([^`]*)`: (.*)$", text):
        if is_cycle and not m[1].startswith(fn + "-"):
            continue
        field = re.search(r"has no field `if-([^`]*)` \(nearest: ([^)]*)\)", m[2])
        if field:
            near = [it.strip()[len(".if-"):] for it in field[2].split(",") if it.strip().startswith(".if-")]
            near = [it for it in near if not re.search(rf"-{re.escape(it)}(?!\w)", answers)]
            if near and field[1] not in found:
                found[field[1]] = near[0]
    return found


def main(args):
    table = json.loads(read(TABLE)) if os.path.exists(TABLE) else {}
    if args[0] == "--again":
        todo = [(key.rsplit("/", 1)) for key in table]
    else:
        logs, round, names = args[0], args[1], args[2:]
        given = dict(it.split("=") for it in names[1:])
        todo = [(round, names[0])]
    for round, program in todo:
        crate, label = round.split("/")
        path = f"crates/{crate}/must-fail/{label}.edit"
        head, found = programs_of(read(path))
        lines = next(it[1] for it in found if it[0] == program)
        # its own pairs
        own, file, keep = [], "", True
        for line in lines:
            if line.startswith("file: "):
                file = line[6:]
                keep = not file.startswith("proofs/")
            if keep or not line.strip():
                own.append(line)
        while own and not own[-1].strip():
            own.pop()
        file = next(it[6:] for it in own if it.startswith("file: "))
        old = next(it[5:] for it in own if it.startswith("old: "))
        folder, fn, is_cycle = place_of(crate, file, old)
        if not folder:
            print(f"turn: {round} {program}: {fn} has no proof folder")
            continue
        if args[0] != "--again":
            names = dict(given)
            for log in sorted(glob.glob(f"{logs}/{crate}.{label}.log") + glob.glob(f"{logs}/{crate}.{label}.*.log")) if not names else []:
                for a, b in names_in(log, crate, folder, fn, is_cycle).items():
                    names.setdefault(a, b)
            if not names:
                print(f"turn: {round} {program}: no names found")
                continue
            table[f"{round}/{program}"] = names
        names = table[f"{round}/{program}"]
        pairs = pairs_for(crate, folder, fn, is_cycle, list(names.items()))
        print(f"turn: {round} {program}: {fn}: {names}: {len(pairs)} lines")
        lines[:] = own + pairs + [""]
        text = "\n".join(head + [line for it in found for line in it[1]])
        with open(path, "w", encoding="utf-8") as f:
            f.write(text.rstrip("\n") + "\n")
    with open(TABLE, "w", encoding="utf-8") as f:
        f.write(json.dumps(table, indent=1, sort_keys=True) + "\n")


main(sys.argv[1:])

#!/usr/bin/env python3
"""Writes Invariants.antt and Answers.antt from the Proof.antt files of an older kit, in one crate.

usage: answers.py [--keep] [--only WORD] CRATE    at the top of the repository, after port.py and respell.py

It asks the check for the crate's names (`rt check --generated DIR --old-names`), reads each Proof.antt below proofs/,
and gives each answer its goal's new name and each citation of an earlier step its new path. Answers by `search rules` alone are left out.
What it can't turn it prints. A Proof.antt that was turned goes (with --keep it stays, and nothing is written over).
"""
import json
import os
import re
import subprocess
import sys

N = r"[^\s(){}.;,@\"«»]+"


def norm(name):
    name = name.replace("-", "_")
    for old, new in (("loop_holds", "loop_init"), ("loop_again", "loop_preserved"), ("loop_less", "loop_smaller")):
        name = re.sub(rf"^{old}", new, name)
        name = re.sub(rf"^(.*_?)loop(\d*)_{old[5:]}", rf"\1loop\2_{new[5:]}", name)
    name = re.sub(r"^slice_bounds_(.*_(?:start|end)(?:_\d+)?)$", r"part_\1", name)
    return re.sub(r"^overflow_", "", name)


def snake(name):
    """Returns a step's name where respell.py took a function's name for a type's: node_at for Node-at, is_leaf for is_IsLeaf."""
    name = norm(re.sub(r"(?<=[a-z])(?=[A-Z])", "_", name)).lower()
    return name[3:] if name.startswith("is_is_") else name


def is_new(place):
    """Says whether the older kit had no such step."""
    return place.startswith("After-way_told")


class Lts:
    def __init__(self, raw):
        self.stem, self.is_cycle = raw["stem"], False
        self.needs = [(norm(a), b) for a, b in raw["needs"]]
        self.asked = [a for a, _ in raw["asked_at"]]
        self.places, self.by_norm = {}, {}
        names = raw["places_by_name"]
        self.claims = bool(raw.get("params"))
        self.record_goals = {norm(a): b for a, b in (raw.get("asked") or {}).items()}
        self.typed = set()
        for i, (name, *_) in enumerate(raw["places"]):
            if raw["typed"][i]:
                self.typed.add(name)
        for i, (name, parent, step, callee, _) in enumerate(raw["places"]):
            self.places[name] = (parent, step, raw["arms"][i], names[i])
            self.by_norm[norm(name)] = name
        self.fields = {pl[0]: (cl or {}).get("fields") for pl, cl in zip(raw["places"], raw.get("clauses") or [None] * len(raw["places"]))}
        self.callee = {pl[0]: pl[3] for pl in raw["places"]}
        self.params = raw.get("params") or {}
        self.pre = (raw.get("pre") or {}).get("fields") or []
        self.loops = {}
        for (pair, variables), changed in zip(raw["loops"], raw["changed"]):
            self.loops[norm(pair[0])] = (pair[1], variables, changed)

    def up(self, place):
        while is_new(place):
            place = self.parent(place)
        place = self.parent(place)
        while place and is_new(place):
            place = self.parent(place)
        return place

    def parent(self, place):
        return self.places[place][0]


class View(str):
    """The place of an answer's argument, whose record has one more `before` where the place says types."""


MUTS = {}


def muts(callee):
    """Returns the names of a function's parameters that are &mut."""
    crate, _, rest = callee.partition("::")
    if crate not in MUTS:
        MUTS[crate] = {}
        for folder, _, names in os.walk(os.path.join("crates", crate, "src")):
            for name in names:
                if name.endswith(".rt"):
                    text = open(os.path.join(folder, name), encoding="utf-8").read()
                    for m in re.finditer(r"\bfn (\w+)\s*(?:<[^>]*>)?\s*\(([^)]*)\)", text):
                        each = []
                        for a in m[2].split(","):
                            if "&mut self" in a:
                                each.append("self")
                            elif re.search(r":\s*&(?:'\w+ )?mut\b", a):
                                each.append(a.split(":", 1)[0].replace("mut ", "").strip())
                        MUTS[crate][m[1]] = each
    return MUTS[crate].get(rest.split("::")[-1])


FLAT = {"args", "requires", "ranges", "lifetimes", "well_formed", "type_inv", "utf8"}


class Trouble(Exception):
    pass


def clause(fields, rest):
    """Turns the numbers of a pair of clauses into the clause's name."""
    if len(fields) < 2 or not rest or rest[0] not in ("0", "1"):
        return rest
    k, i = 0, 0
    while i < len(rest) and rest[i] == "1" and k < len(fields) - 1:
        k, i = k + 1, i + 1
    if k < len(fields) - 1:
        if i == len(rest) or rest[i] != "0":
            return rest
        i += 1
    return [fields[k]] + rest[i:]


def path(lts, place, var, parts, notes):
    """Returns the new text of var.parts, where var is a record of the place."""
    here, i = place, 0
    while i < len(parts) and parts[i] == "before":
        here, i = lts.up(here) or here, i + 1
    if i == len(parts):
        count, at = 0, place
        while at != here:
            count, at = count + 1, lts.parent(at)
        return var + ".before" * (count + (isinstance(place, View) and place in lts.typed))
    field, rest = parts[i], parts[i + 1 :]
    if field == "pre":
        field = "requires"
    if lts.is_cycle and field == "requires":
        if rest[:1] == ["0"]:
            return ".".join([var, "decreases"] + rest[1:])
        if rest[:1] == ["1"]:
            return ".".join([var, "requires"] + clause(lts.pre, rest[1:]))
        return ".".join([var, "requires-raw"] + rest)
    if len(lts.pre) > 1 and field == "requires":
        by = clause(lts.pre, rest)
        return ".".join([var, "requires"] + by) if by[:1] and by[0] in lts.pre else ".".join([var, "requires-raw"] + rest)
    if norm(field) in {norm(x) for x in FLAT}:
        if field == "requires":
            rest = clause(lts.pre, rest)
        return ".".join([var, norm(field)] + rest)

    def seek(at, named=norm):
        while at is not None:
            parent, step, arm, _ = lts.places[at]
            if step and norm(step[0]) == named(field):
                return at
            if step and arm and any(norm(e[1]) == named(field) for e in arm[2]):
                return at
            at = parent
        return None

    at = seek(here) or seek(place) or seek(here, snake) or seek(place, snake)
    if at is None:
        notes.append(f"no step {field} at {here}: {var}.{'.'.join(parts)}")
        return f"{var}.{'.'.join(parts)}"
    parent, step, arm, _ = lts.places[at]
    if rest[:1] == ["new"] and lts.callee.get(at):
        k, m = 1, muts(lts.callee[at])
        while rest[k : k + 1] == ["1"]:
            k += 1
        if m and rest[k : k + 1] == ["0"] and k - 1 < len(m):
            rest = ["new", m[k - 1]] + rest[k + 1 :]
    if arm:
        best = None
        for new, old, tail in arm[2]:
            if norm(old) == norm(field) and rest[: len(tail)] == tail and (best is None or len(tail) > len(best[1])):
                best = (new, tail)
        if best:
            return ".".join([var, arm[0], best[0]] + rest[len(best[1]) :])
    if rest[:1] in (["auto"], ["new"]) and lts.callee.get(at) in lts.params:
        k = 1
        while k < len(rest) and rest[k] == "1":
            k += 1
        here_params = lts.params[lts.callee[at]]
        if k < len(rest) and rest[k] == "0" and k - 1 < len(here_params):
            rest = [rest[0], here_params[k - 1]] + rest[k + 1 :]
    if rest[:1] == ["ensures"]:
        rest = ["ensures"] + clause(lts.fields.get(at) or [], rest[1:])
    tested = re.match(r"if-not-(.+)$", step[1])
    if tested and rest in (["true"], ["false"]):
        calls = {c.split("::")[-1] for c in lts.callee.values() if c}
        if any(tested[1] == c or tested[1].startswith(c + "-") for c in calls):
            # the test of `!f(x)` says `result ≡ false` by now
            return f"(ap not {var}.{step[1]}.{rest[0]})"
    return ".".join([var, step[1]] + rest)


def cite(lts, text, places, notes, helpers=None):
    """Rewrites each path that begins at a variable of a known place."""
    if not places:
        return text
    helpers = helpers or {}
    for m in list(re.finditer(rf"\blet ({N}) = ({N})((?:\.before)+) in\b", text)):
        # a name for an earlier record of which only fields are cited: the flat record has them
        use = rf"(?<![^\s(){{}};,]){re.escape(m[1])}(?=[\s(){{}};,.]|$)(\.{N})?"
        if m[0] in text:
            before, after = text.split(m[0], 1)
            uses = re.findall(use, after)
            if uses and all(u and not u.startswith(".before") for u in uses):
                after = re.sub(use, lambda u: m[2] + u[1], after.lstrip(" "))
                text = before + (after if before.endswith(" ") and not before.endswith("\n    ") else after.lstrip())
    more = True
    while more:
        more = False
        for m in re.finditer(rf"\blet ({N}) = ({'|'.join(map(re.escape, places))})((?:\.before)*) in\b", text):
            here = places[m[2]]
            for _ in range(m[3].count(".before")):
                here = lts.up(here) if here else here
            if here and m[1] not in places:
                places, more = {**places, m[1]: str(here)}, True
        for h, (its, pl) in helpers.items():
            if its is not lts or not pl:
                continue
            for m in re.finditer(rf"\blet ({N}) = {re.escape(h)}(?: \([^()]*\)| {N}(?:\.{N})*)+ in\b", text):
                if m[1] not in places:
                    places, more = {**places, m[1]: str(pl)}, True
    for m in list(re.finditer(rf"\blet ({N}) = ({'|'.join(map(re.escape, places))})((?:\.before)*)\.({N}) in\s*", text)):
        # a name for an arm's step: the arm's record has its fields under other names
        at = places[m[2]]
        while at is not None and not (lts.places[at][1] and norm(lts.places[at][1][0]) == norm(m[4])):
            at = lts.parent(at)
        use = rf"(?<![^\s(){{}};,]){re.escape(m[1])}(?=[\s(){{}};,.]|$)(\.{N})?"
        if at and lts.places[at][2] and all(re.findall(use, text[text.index(m[0]) + len(m[0]) :])):
            before, after = text.split(m[0], 1)
            text = before + re.sub(use, lambda u: f"{m[2]}{m[3]}.{m[4]}{u[1]}", after)
    names = "|".join(sorted(map(re.escape, places), key=len, reverse=True))
    turn = re.compile(rf"(?<![^\s(){{}};,«»])({names})((?:\.{N})+)")
    text = turn.sub(lambda m: path(lts, places[m[1]], m[1], m[2][1:].split("."), notes), text)
    for v, pl in places.items():
        up, at = int(pl in lts.typed), pl
        while is_new(at):
            up, at = up + 1, lts.parent(at)
        if isinstance(pl, View) and up:
            alone = re.compile(rf"(?<![^\s(){{}};,]){re.escape(v)}(?=[\s(){{}};,]|$)")
            lines = text.split("\n")
            for k, line in enumerate(lines):
                left = ""
                if line and not line[0].isspace() and " =" in line:
                    left, line = re.split(r"(?<=\s=)", line, maxsplit=1)
                lines[k] = left + alone.sub(v + ".before" * up, line)
            text = "\n".join(lines)
    steps = {}
    for _, step, _, _ in lts.places.values():
        if step:
            steps.setdefault(norm(step[0]), set()).add(step[1])

    def of_record(m):
        new = steps.get(norm(m[2]), set())
        return f"{m[1]}{next(iter(new))} =" if len(new) == 1 else m[0]

    return re.sub(rf"(record \{{ before = [^;{{}}]*; )({N}) =", of_record, text)


def items(text):
    """Splits a file into its head (comments and imports) and its items: [name, modifiers, type, lines after]."""
    lines, head, found, current = text.split("\n"), [], [], None
    top = re.compile(rf"^((?:pub |abbrev |unfoldable )*)({N}) :(?: (.*))?$")
    k = 0
    while k < len(lines):
        line = lines[k]
        m = top.match(line)
        if m and not line.startswith("use "):
            current = {"mods": m[1], "name": m[2], "type": m[3] or "", "body": [], "lead": []}
            k += 1
            # a type that goes on below
            while k < len(lines) and lines[k].startswith("    ") and not re.match(rf"^{re.escape(current['name'])}\b", lines[k]):
                current["type"] += ("\n" if current["type"] else "\n") + lines[k]
                k += 1
            found.append(current)
            continue
        if current is None:
            head.append(line)
        else:
            current["body"].append(line)
        k += 1
    for it in found:
        while it["body"] and not it["body"][-1].strip():
            it["body"].pop()
    return head, found


def arrows(text):
    parts, depth, start, i = [], 0, 0, 0
    flat = text.replace("\n", " ")
    while i < len(flat):
        ch = flat[i]
        if ch in "({":
            depth += 1
        elif ch in ")}":
            depth -= 1
        elif ch == "→" and depth == 0:
            parts.append(flat[start:i].strip())
            start = i + 1
        i += 1
    parts.append(flat[start:].strip())
    return parts


def head_args(item):
    """Returns the arguments of each clause: [(line number, [words])]."""
    found = []
    for k, line in enumerate(item["body"]):
        if re.match(rf"^{re.escape(item['name'])}(?=\s|$)", line) and " =" in line + " ":
            left = re.split(r"\s=(?:\s|$)", line, maxsplit=1)[0]
            found.append((k, left[len(item["name"]) :].split()))
    return found


def fn_params(crate_dir):
    """Returns for each function of the crate its parameters' names and whether each is a reference."""
    found = {}
    for folder, _, names in os.walk(os.path.join(crate_dir, "src")):
        for name in names:
            if name.endswith(".rt"):
                text = open(os.path.join(folder, name), encoding="utf-8").read()
                for m in re.finditer(r"\bfn (\w+)\s*\(([^)]*)\)", text):
                    each = []
                    for p in m[2].split(","):
                        if ":" in p:
                            a, b = p.split(":", 1)
                            each.append((a.replace("mut ", "").strip(), b.strip().startswith("&")))
                    found[m[1]] = each
    return found


def asked_clauses(crate):
    """Returns the names of the clauses that each function requires, this crate's functions first."""
    found = {}
    for name in [crate] + sorted(os.listdir("crates")):
        for folder, _, files in os.walk(os.path.join("crates", name, "src")):
            for file in files:
                if file.endswith(".rt"):
                    text = open(os.path.join(folder, file), encoding="utf-8").read()
                    for m in re.finditer(r"\bfn (\w+)[^{};]*?\([^)]*\)[^{}]*?((?:\n    (?:ghost|requires|ensures)\b[^\n]*)+)", text):
                        found.setdefault(norm(m[1]), re.findall(r"\n    requires (\w+) \{", m[2]))
    return found


def as_record(text, fields):
    """Turns the tuple that ends an answer into a record of the clauses, or returns None."""
    text = text.rstrip()
    if not text.endswith(")"):
        return None
    depth, k = 0, len(text) - 1
    while k >= 0:
        depth += {")": 1, "(": -1}.get(text[k], 0)
        if depth == 0:
            break
        k -= 1
    head, inner = text[:k], text[k + 1 : -1]
    last = re.split(r"(?:\s=|\sin|λ [^.=]*\.)(?=\s|$)", head)[-1].strip()
    if last and not re.match(r"(?:rw|simp) \S", last):
        return None

    def cut(t):
        parts, depth, start = [], 0, 0
        for i, ch in enumerate(t):
            depth += {"(": 1, "{": 1, ")": -1, "}": -1}.get(ch, 0)
            if ch == "," and depth == 0:
                parts.append(t[start:i].strip())
                start = i + 1
        return parts + [t[start:].strip()]

    def whole(t):
        if not (t.startswith("(") and t.endswith(")")):
            return False
        depth = 0
        for i, ch in enumerate(t):
            depth += {"(": 1, ")": -1}.get(ch, 0)
            if depth == 0:
                return i == len(t) - 1
        return False

    parts = cut(inner)
    while len(parts) < len(fields) and parts and whole(parts[-1]) and len(cut(parts[-1][1:-1])) > 1:
        parts = parts[:-1] + cut(parts[-1][1:-1])
    n = len(fields)
    if len(parts) < n:
        return None
    if len(parts) > n:
        parts = parts[: n - 1] + ["(" + ", ".join(parts[n - 1 :]) + ")"]
    record = "record { " + "; ".join(f"{f} = {p}" for f, p in zip(fields, parts)) + " }"
    return head + record


def turn_invariant(item, lts, loop, where, notes, skip=0):
    new, variables, changed = lts.loops[loop]
    wanted = []
    for v, c in zip(variables, changed):
        wanted.append(f"l.initial.{v}" if c else f"l.{v}")
    wanted += [f"l.{v}" for v, c in zip(variables, changed) if c]
    body = "\n".join(item["body"])
    clauses = head_args(item)
    if len(clauses) != 1:
        notes.append(f"{where}: {item['name']} has {len(clauses)} clauses")
    k, args = clauses[0]
    args = args[skip:]
    right = re.split(r"\s=(?:\s|$)", item["body"][k], maxsplit=1)[1]
    tail = "\n".join([right] + item["body"][k + 1 :])
    lead = [x for x in item["body"][:k]]
    if len(args) > len(wanted):
        notes.append(f"{where}: {item['name']} takes {len(args)}, not {len(wanted)}: {args} {wanted}")
    table = {a: w for a, w in zip(args, wanted) if a != "_"}
    if len(args) < len(wanted):
        tail = f"({tail}) " + " ".join(wanted[len(args) :])
    bound = set(re.findall(rf"λ ({N})\.", tail)) | {x for b in re.findall(r"λ \(([^:)]*):", tail) for x in b.split()} | set(re.findall(rf"\(({N}) :", tail))
    lets = ""
    for a in list(table):
        if a in bound:
            lets += f"let {a} = {table[a]} in "
            del table[a]
    if table:
        names = "|".join(sorted(map(re.escape, table), key=len, reverse=True))
        tail = re.sub(rf"(?<![^\s(){{}};,@«»])({names})(?! =\s)(?=[\s(){{}}.;,@«»]|$)", lambda m: table[m[1]], tail)
    tail = re.sub(r"\(to_z w\d+ (l\.[\w.]+)\)", r"\1", tail)
    tail = re.sub(r"\bto_z w\d+ (l\.[\w.]+)", r"\1", tail)
    return new, lead, lets + tail


def convert(crate, proof, names, params, asked, keep):
    folder = os.path.dirname(proof)
    module = os.path.relpath(folder, os.path.join("crates", crate, "proofs")).replace(os.sep, ".")
    text = open(proof, encoding="utf-8").read()
    # an import over several lines
    text = re.sub(r"(?m)^(use \S+\.\{)\n((?:[ \t]+[^\n]*,?\n)+)\}", lambda m: m[1] + ", ".join(m[2].replace(",", " ").split()) + "}", text)
    head, found = items(text)
    notes = []
    is_cycle = os.path.basename(folder).startswith("+")
    base = f"Rattle-{crate}-proofs.{module}."
    alias = {}
    for m in re.finditer(rf"(?m)^use (\S+)\.(Lts-?{N}|Lts|Tie) as ({N})$", text):
        key = m[2] if m[2] != "Tie" else "Lts"
        alias[m[3]] = key
    ltss = {key[len(base) :]: Lts(raw) for key, raw in names.items() if key.startswith(base) and isinstance(raw, dict) and "needs" in raw}
    for it in ltss.values():
        it.is_cycle = is_cycle
    if not ltss:
        raise Trouble("no names for " + base)

    def lts_of(prefix):
        key = alias.get(prefix)
        if key is None:
            return None
        if key in ltss:
            return ltss[key]
        for k, v in ltss.items():
            if norm(k) == norm(key):
                return v
        return None

    aliases = {}

    def local_alias(lts, pl):
        name = pl
        args = (["Tie.the-claims"] if lts.claims else []) + ["Reads.Pre", "Reads.Post"]
        for new, _, _ in lts.loops.values():
            args += [f"goal.the-invariant-{new}", f"goal.the-decreases-{new}"]
        if lts.pre:
            args.append("Tie.handed_clauses")
        aliases[name] = f"abbrev {name} : Type 0\n{name} = Lts.{pl} {' '.join(args)}"
        return name

    invariants, answers, helpers = [], [], []
    placed, inlined = {}, {}

    def at_helpers(text, var, place, lts):
        """Gives each call of a helper of this file the place that it takes, or writes its body out where Goals has no such place."""
        for h, (its, pl) in placed.items():
            if its is not lts or not pl:
                continue

            def there(m):
                count, at = 0, place
                while at is not None and at != pl:
                    count, at = count + 1, lts.parent(at)
                if at is None:
                    notes.append(f"{h}: no way from {place} to {pl}")
                    return m[0]
                if h in inlined:
                    v, body = inlined[h]
                    body = re.sub(rf"(?<![^\s(){{}};,]){re.escape(v)}(?=\.)", var, body)
                    return "(" + body + ")"
                return h + " " + var + ".before" * (count + (count > 0 and isinstance(place, View) and place in lts.typed))

            turn = rf"(?<![^\s(){{}}.;,]){re.escape(h)} {re.escape(var)}(?:\.before)*(?![^\s(){{}};,])"
            if h in inlined:
                text = re.sub(r"\(" + turn + r"\)", there, text)
            text = re.sub(turn, there, text)
        return text

    helper_places = {}
    used_old = set()
    order = {}
    for it in found:
        flat = it["type"].replace("\n", " ")
        name = it["name"]
        m = re.search(rf"(?:^|→ )({N})\.Need-({N})", flat)
        if m and lts_of(m[1]):
            lts = lts_of(m[1])
            old = norm(m[2])
            hits = [k for k, (a, b) in enumerate(lts.needs) if a == old]
            if not hits:
                notes.append(f"need {m[2]} has no goal now")
                continue
            k = hits[0]
            place = lts.asked[k]
            body = "\n".join(it["body"])
            bodies = head_args(it)
            if not bodies:
                notes.append(f"{name}: no clause")
                continue
            _, args = bodies[0]
            if len(bodies) == 1 and re.fullmatch(rf"{re.escape(name)}(?: \S+)* = \(?(?:λ \S+\. )*search rules\)?", body.strip()):
                continue
            new = lts.stem + lts.needs[k][1]
            is_t = flat.startswith("(t :") or bool(re.match(r"^\(\S+ : ℕ\) →", flat))
            lines = []
            for j, line in enumerate(it["body"]):
                if re.match(rf"^{re.escape(name)}(?=\s|$)", line):
                    left, right = re.split(r"\s=(?=\s|$)", line, maxsplit=1)
                    words = left[len(name) :].split()
                    if is_t and words:
                        words_c = words[1:2]
                        keep_args = words[:2]
                        dropped = words[2:]
                    else:
                        words_c = words[:1]
                        keep_args = words[:1]
                        dropped = words[1:]
                    rest_text = "\n".join([right] + it["body"][j + 1 :])
                    cited = [d for d in dropped if re.search(rf"(?<![^\s(){{}}.;,]){re.escape(d)}(?![^\s(){{}}.;,])", rest_text)]
                    if cited and not re.search(r"_requires(_\d+)?$", old):
                        right = f" λ {' '.join(dropped)}.{right}"
                    else:
                        notes += [f"{name}: cites {d}" for d in cited]
                    lines.append(f"{new} {' '.join(keep_args)} ={right}")
                else:
                    lines.append(line)
            var = (args[1] if is_t and len(args) > 1 else args[0]) if args else "c"
            out = at_helpers(cite(lts, "\n".join(lines), {var: View(place)}, notes, helper_places), var, View(place), lts)
            out = re.sub(rf"\b(to_z w\d+ {re.escape(var)}\.loop-[\w-]+\.\w+)(?=[\s)])", r"\1-bits", out)
            # a let of an earlier place that only names fields: every step is a field of the argument itself
            for m in list(re.finditer(rf"\blet ({N}) = {re.escape(var)}(?:\.before)+ in\b", out)):
                uses = re.findall(rf"(?<![^\s(){{}};,«»]){re.escape(m[1])}(\.{N}|(?=[\s(){{}};,]|$))", out[: m.start()] + out[m.end() :])
                if uses and all(u and u != ".before" for u in uses):
                    out = out.replace(m[0], f"let {m[1]} = {var} in")
            asks = re.match(r"^(.+?)_requires(?:_\d+)?$", old)
            fields = lts.record_goals.get(old) or (asked.get(asks[1], []) if asks else [])
            if len(fields) > 1 and (old in lts.record_goals or not (is_cycle and any(norm(k) == "Lts_" + asks[1] for k in ltss))):
                record = as_record(out, fields)
                whole = re.fullmatch(rf"(.*\s=\s+)({N})\.requires(?:-raw)?\s*", out, re.S)
                if record is None and whole and set(fields) <= set(lts.pre):
                    record = whole[1] + "record { " + "; ".join(f"{f} = {whole[2]}.requires.{f}" for f in fields) + " }"
                if record is None:
                    notes.append(f"{new}: write it as a record of {', '.join(fields)}")
                else:
                    out = record
            answers.append((new, f"pub {new} : goal.{new}\n{out}"))
            order.setdefault(id(lts), []).append(k)
            continue
        m = re.search(rf"(?:^|→ )({N})\.(?:invariant|decreases|InvT|MeasureT|Inv|μ)-({N})", flat)
        if m and lts_of(m[1]):
            lts = lts_of(m[1])
            loop = norm(m[2])
            is_measure = "decreases" in flat or "MeasureT" in flat
            skip = 1 if re.match(r"^\(\S+ : ℕ\) →", flat) else 0
            if loop not in lts.loops:
                notes.append(f"no loop {m[2]}: {list(lts.loops)}")
                continue
            new, lead, tail = turn_invariant(it, lts, loop, proof, notes, skip)
            word = ("decreases-" if is_measure else "invariant-") + lts.stem + new
            lead = "\n".join(lead) + ("\n" if lead else "")
            invariants.append((word, f"abbrev pub {word} : goal.{word}\n{lead}{word} l = {tail}"))
            continue
        if is_cycle and re.match(rf"^Measures ", flat):
            fn = re.sub(r"^(μ|decreases)-", "", name)
            each = [f for f in params if norm(f) == norm(fn)]
            if not each:
                notes.append(f"measure {name}: no function")
                continue
            body = "\n".join(it["body"])
            left, right = re.split(r"\s=(?=\s|$)", body, maxsplit=1)
            var = left.split()[-1]

            def arg(m):
                steps = m[1].split(".")[1:]
                at = 0
                k = 0
                while k < len(steps) and steps[k] == "1" and at < len(params[each[0]]):
                    at, k = at + 1, k + 1
                if k < len(steps) and steps[k] == "0":
                    k += 1
                    pname, is_ref = params[each[0]][at]
                    return ".".join([f"l.{pname}"] + steps[k:])
                notes.append(f"measure {name}: {m[0]}")
                return m[0]

            right = re.sub(rf"(?<![^\s(){{}};,]){re.escape(var)}((?:\.{N})+)", arg, right)
            invariants.append((f"decreases-{each[0]}", f"abbrev pub decreases-{each[0]} : goal.decreases-{each[0]}\ndecreases-{each[0]} l ={right}"))
            continue
        if re.search(r"→ statement M$|^statement\b", flat) or re.search(r"(_|-)spec$", name) and "statement" in flat:
            continue
        if is_cycle and (re.match(r"^ℕ → In ", flat) or flat.rstrip().endswith(".Claims") or re.search(r"\.Claims\b", flat)):
            continue
        # a helper of this file
        parts = arrows(it["type"])
        place_re = rf"({N})\.((?:Start|Then|Else|After|In|At|Joined|Met|Join)[^\s(){{}}.;,]*)"
        vars_at, by_pos = {}, []
        lts = None
        for part in parts[:-1]:
            b = re.match(rf"^\(({N}(?: {N})*) : {place_re}[^()]*\)$", part)
            u = re.match(rf"^{place_re}(?: [^()]*)?$", part)
            if b and lts_of(b[2]):
                lts = lts_of(b[2])
                pl = lts.by_norm.get(norm(b[3]))
                if pl is None:
                    notes.append(f"{name}: no place {b[3]}")
                for v in b[1].split():
                    vars_at[v] = pl
                    by_pos.append(pl)
            elif u and lts_of(u[1]):
                lts = lts_of(u[1])
                pl = lts.by_norm.get(norm(u[2]))
                if pl is None:
                    notes.append(f"{name}: no place {u[2]}")
                by_pos.append(pl)
            else:
                mm = re.match(rf"^\(({N}(?: {N})*) : .*\)$", part)
                by_pos += [None] * (len(mm[1].split()) if mm else 1)
        res = re.match(rf"^{place_re}(?: [^()]*)?$", parts[-1])
        typ, out = it["type"], list(it["body"])
        def place_name(m):
            l = lts_of(m[1])
            if not l:
                return m[0]
            pl = l.by_norm.get(norm(m[2]))
            if pl and not is_cycle:
                return local_alias(l, pl)
            return f"goal.{l.stem}{l.places[pl][3]}" if pl else m[0]
        typ = re.sub(rf"{place_re}((?: (?:invariant|decreases|Inv|μ)-{N})*)", place_name, typ)
        if lts:
            typ = cite(lts, typ, {v: p for v, p in vars_at.items() if p}, notes)
            text_out = []
            clauses = head_args(it)
            for ci, (k, args) in enumerate(clauses):
                end = clauses[ci + 1][0] if ci + 1 < len(clauses) else len(out)
                local = {a: p for a, p in zip(args, by_pos) if p and re.fullmatch(N, a)}
                block = cite(lts, "\n".join(out[k:end]), local, notes, helper_places)
                for v, pl in local.items():
                    block = at_helpers(block, v, pl, lts)
                text_out.append(block)
            lead = "\n".join(out[: clauses[0][0]]) if clauses else ""
            body = (lead + "\n" if lead else "") + "\n".join(text_out)
            if is_cycle and len(clauses) == 1 and len(clauses[0][1]) == 1 and by_pos[:1] and by_pos[0]:
                placed[name] = (lts, by_pos[0])
                if by_pos[0] not in lts.asked and by_pos[0] != "Start":
                    v = clauses[0][1][0]
                    said = re.split(r"\s=(?:\s|$)", body[body.index(f"\n{name} ") if f"\n{name} " in body else 0 :], maxsplit=1)[1].strip()
                    bound = re.match(rf"^\(({N}) :", parts[0])
                    claim = arrows(typ)[-1]
                    if bound:
                        claim = re.sub(rf"(?<![^\s(){{}};,]){re.escape(bound[1])}(?=\.)", v, claim)
                    inlined[name] = (v, f"let {name} : {claim} = {said} in {name}")
                    continue
            if res and lts_of(res[1]):
                helper_places[name] = (lts, lts.by_norm.get(norm(res[2])))
        else:
            body = "\n".join(out)
        helpers.append((name, f"{it['mods']}{name} : {typ}\n{body}".replace("pub ", "", 1) if it["mods"].startswith("pub ") else f"{it['mods']}{name} : {typ}\n{body}"))

    def through(textual):
        for h, (lts, pl) in helper_places.items():
            if not pl:
                continue
            turn = re.compile(rf"\(({re.escape(h)}(?: \([^()]*\)| {N}(?:\.{N})*)+)\)((?:\.{N})+)")
            def sub(m):
                new = path(lts, pl, "(" + m[1] + ")", m[2][1:].split("."), notes)
                return new
            textual = turn.sub(sub, textual)
        return textual

    helpers = [(n, through(t)) for n, t in helpers]
    answers = [(n, through(t)) for n, t in answers]
    for ks in order.values():
        if ks != sorted(ks):
            notes.append("the order of the goals differs: look at goals with a count")
    uses, comments = [], []
    for line in head:
        if line.startswith("use "):
            if re.search(rf"\.(Statement|Tie|Reads|Kinds|Lts[^\s.]*)(\.\{{| as |$)", line) or re.search(rf"proofs\.\+\S*\.\{{statement\b", line):
                continue
            if re.search(r"\bborrow\.Fn\.(Kinds|PlainCycle)\b", line):
                continue
            uses.append(line)
        elif line.strip():
            comments.append(line)
    where = f"Rattle.{crate}.proofs.{module}"
    wrote = []
    inv_text = "\n\n".join(t for _, t in invariants)
    helper_text = "\n\n".join(t for _, t in helpers)
    pre = [n for n, _ in helpers if re.search(rf"(?<![^\s(){{}}.;,]){re.escape(n)}(?![^\s(){{}}.;,])", inv_text)]
    if invariants:
        first = "\n\n".join(t for n, t in helpers if n in pre)
        body = "\n".join(comments + uses + [f"use {where}.Given as goal", ""]) + "\n" + (first + "\n\n" if first else "") + inv_text + "\n"
        wrote.append(("Invariants.antt", body))
    if answers:
        more = [f"use {where}.{x}" for x in ("Lts", "Tie", "Reads") if any(f"{x}." in t for t in aliases.values())]
        body = "\n".join(comments + uses + more + [f"use {where}.Goals as goal", ""]) + "\n"
        body += "\n\n".join(list(aliases.values()) + [t for _, t in helpers] + [t for _, t in answers]) + "\n"
        wrote.append(("Answers.antt", body))
    if keep and any(os.path.exists(os.path.join(folder, n)) for n, _ in wrote):
        raise Trouble("files are there already")
    # a width that no goal tells any more; every signed number here is an i32
    for k, (n, t) in enumerate(wrote):
        t = re.sub(rf"\(not[-_]true (?:_|{N}) \(ap not ({N})\)\)", r"\1", t)
        t = re.sub(rf"\bnot[-_]true (?:_|{N}) \(ap not ({N})\)", r"\1", t)
        if "(ap not " in t:
            for word, module in (("not", "mathlib.Core.Bool"), ("ap", "mathlib.Core.Path")):
                if not re.search(rf"(?m)^use [^\n]*[{{, ]{word}[,}}]", t):
                    t = re.sub(r"(?m)^use ", f"use {module}.{{{word}}}\nuse ", t, count=1)
        turned = re.sub(r"to_z-of_z (?=\((?:sfits_of|record))", "to_z-of_z {w = w32} ", t)
        if turned != t and not re.search(r"(?m)^use mir\.Syntax\.\{[^}]*\bw32\b", turned):
            turned = re.sub(r"(?m)^use ", "use mir.Syntax.{w32}\nuse ", turned, count=1)
        wrote[k] = (n, turned)
    for n, t in wrote:
        with open(os.path.join(folder, n), "w", encoding="utf-8") as f:
            f.write(t)
    if not keep:
        os.remove(proof)
        if not wrote and not os.listdir(folder):
            os.rmdir(folder)
    return notes


def main(argv):
    keep = "--keep" in argv
    argv = [a for a in argv if a != "--keep"]
    only = None
    if "--only" in argv:
        k = argv.index("--only")
        only = argv[k + 1]
        del argv[k : k + 2]
    for crate in argv:
        out = f"/tmp/names/{crate}"
        os.makedirs(out, exist_ok=True)
        there = os.path.join("crates", crate)
        said = subprocess.run(["rt", "check", "--generated", out, "--old-names"], cwd=there, capture_output=True, text=True)
        table = os.path.join(out, "names.json")
        if not os.path.exists(table):
            print(said.stdout[-3000:] + said.stderr[-2000:])
            return 1
        names = json.load(open(table))
        params = fn_params(there)
        asked = asked_clauses(crate)
        count = 0
        for folder, _, files in sorted(os.walk(os.path.join(there, "proofs"))):
            if "Proof.antt" in files and (only is None or only in folder):
                try:
                    notes = convert(crate, os.path.join(folder, "Proof.antt"), names, params, asked, keep)
                    count += 1
                except Trouble as e:
                    notes = [str(e)]
                for n in notes:
                    print(f"{folder}: {n}")
        print(f"{crate}: {count} proofs turned")
    return 0


if __name__ == "__main__":
    sys.exit(main(sys.argv[1:]))

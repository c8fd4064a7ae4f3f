#!/usr/bin/env python3
"""Writes tools/cases/recorded: texts with the listings that tools/reference gives them.

Run at the repository's root, after `cargo build --release --manifest-path tools/reference/Cargo.toml`.
The named cases are document 01's P1 to P12 and "Also" cases, AllDifferents and Ifs (document 02, 2.1 and 2.5), each refusal that a text
can reach, and texts of each form that is unread; the others are generated sets of each family, and generated texts, good and damaged.
Each listing's `total=` is held to a recount of its clauses (document 02, 2.2; recount.py).
Nothing here is taken from the port."""
import re
import subprocess

from recount import recounted

REFERENCE = "tools/reference/target/release/reference"
MOST = 262000  # bytes of all cases together


def reference(*args, text=b""):
    return subprocess.run([REFERENCE, *args], input=text, capture_output=True, check=True).stdout


def text(bools, ints, domains, statements):
    lines = [f"bools={bools}", f"ints={ints}"]
    lines += ["int=" + d for d in domains]
    lines += [f"statements={len(statements)}"]
    lines += ["statement=" + s for s in statements]
    return ("\n".join(lines) + "\n").encode()


def rules(bools, *statements):
    return text(bools, 0, [], ["1," + s for s in statements])


def column(rows, cells):
    return text(0, 1, ["0,0,2"], [f"2,1,{rows},21,0,{cells}"])


def ands(*pairs):
    return ",".join(f"12,2,11,{a},11,{b}" for a, b in pairs)


def different(domains, *expressions):
    return text(0, len(domains), domains, [f"3,{len(expressions)}" + "".join("," + e for e in expressions)])


def pair_of(count):
    """Two sums that have so many different variables together."""
    sums = [range(0, count // 2), range(count // 2, count)]
    words = [f"22,{len(s)}," + ",".join(f"1,21,{i}" for i in s) for s in sums]
    return different(["0,0,1"] * count, *words)


def compiled(maps, emitted, domains, *clauses):
    """The listing of an answer in which no Boolean is fixed."""
    bools, ints = maps
    fixed = ",".join("2" for _ in bools.split(",") if bools)
    lines = ["answer=compiled", "fixed=" + fixed, "bools=" + bools, "ints=" + ints, f"emitted={emitted},{len(domains)}"]
    lines += ["domain=" + d for d in domains] + ["clause=" + c for c in clauses]
    return recounted("\n".join([*lines, f"clauses={len(clauses)}", "total=0\n"]).encode())[0].decode()


def listed(ints, domains, *clauses):
    """The listing of an answer without Booleans, every record of kind 0."""
    return compiled(("", ints), 0, ["0," + d for d in domains], *clauses)


def over(bools, *statements):
    """One integer from 0 to 5."""
    return text(bools, 1, ["0,0,5"], statements)


def equals(left, right):
    return f"1,18,0,{left},{right}"


def nested(levels, branch):
    """c_0 = v0 and v1, c_k = (If(c_(k-1), branch, 0) = 0)."""
    return "18,0,23," * levels + "12,2,11,0,11,1" + f",{branch},20,0,20,0" * levels


def branch_of(count):
    """The only expression of an AllDifferent: an If whose branch has so many variables."""
    terms = ",".join(f"1,21,{i}" for i in range(count))
    return text(1, count, ["0,0,1"] * count, [f"3,1,23,11,0,22,{count},{terms},20,0"])


def beside(count):
    """A comparison of so many variables and an If of constants."""
    terms = ",".join(f"1,21,{i}" for i in range(count))
    return text(1, count, ["0,0,1"] * count, [f"1,18,0,22,{count + 1},{terms},1,23,11,0,20,1,20,2,20,0"])


OPEN = "23,11,0,21,0,20,7"
PAIR = "23,11,0,20,2,20,7"
XOR = "23,15,11,0,11,1,21,0,20,7"
X = "0,0,5,6"
MADE = ["1,-2", "-2;0:0:0,1,1,-1", "-1,2", "2;0:7:1,-1"]  # the clauses of OPEN

STAR = "-2147483648"
BITS = ["0,1,2"] * 2
NONE = text(0, 0, [], [])
WIDE = "13,2045," + ",".join(["11,0"] * 2045)
LONG = b"bools=0\nints=0\nstatements=0\nstatement="


def many_variables(count, kind):
    """A comparison of, or a column over, a sum of so many different variables."""
    terms = ",".join(f"1,21,{i}" for i in range(count))
    domains = ["0,0,1"] * count
    if kind == "comparison":
        return text(0, count, domains, [f"1,18,0,22,{count},{terms},20,0"])
    return text(0, count, domains, [f"2,1,0,22,{count},{terms}"])


def wide_table():
    """Eight columns, a hundred rows: the answer is longer than 16384 words."""
    columns = ",".join(f"21,{i}" for i in range(8))
    cells = ",".join(str((r * (i + 1) + i) % 100) for r in range(100) for i in range(8))
    return text(0, 8, ["0,0,99"] * 8, [f"2,8,100,{columns},{cells}"])


# name, text, what document 01 says of the answer (its first line, or all of it)
NAMED = [
    ("P1", rules(3, "16,11,0,12,2,11,1,11,2"), "answer=compiled\nfixed=2,2,2\nbools=1,2,3\nints=\nemitted=3,0\nclause=1,-2,-3\nclause=2,-1\nclause=3,-1\nclauses=3\ntotal=7\n"),
    ("P2", rules(4, "13,2," + ands((0, 1), (2, 3))), "answer=compiled"),
    ("P3", rules(6, "13,3," + ands((0, 1), (2, 3), (4, 5))), "answer=compiled"),
    ("P4", rules(2, "11,0", "13,2,14,11,0,11,1"), "answer=compiled"),
    ("P5", rules(1, "11,0", "14,11,0"), "answer=contradiction\n"),
    ("P6", NONE, "answer=compiled"),
    ("P7", rules(0, "13,0"), "answer=contradiction\n"),
    ("P8", rules(0, "12,0"), "answer=compiled"),
    ("P9", column(2, "0,2"), "answer=compiled\nfixed=\nbools=\nints=1\nemitted=0,1\ndomain=0,0,2,3\nclause=;0:0:0,1;0:-2:0,1\nclauses=1\ntotal=2\n"),
    ("P10", column(3, "0,1,2"), "answer=compiled"),
    ("P11", column(1, "5"), "answer=compiled"),
    ("P12", text(0, 2, ["0,0,1", "0,0,1"], ["2,2,2,21,0,21,1,0,0,1,1"]), "answer=compiled"),
    ("1 = 2", rules(0, "18,0,20,1,20,2"), "answer=compiled"),
    ("1073741823 against 0", rules(0, "18,0,20,1073741823,20,0"), "answer=compiled"),
    ("1073741823 against 1", rules(0, "18,0,20,1073741823,20,1"), "answer=refused,9\n"),
    ("depth 64", rules(1, "14," * 63 + "11,0"), "answer=compiled"),
    ("depth 65", rules(1, "14," * 64 + "11,0"), "answer=refused,8\n"),
    ("4096 words", rules(1, WIDE), "answer=compiled"),
    ("4097 words", rules(1, WIDE + ",0"), "answer=refused,2\n"),
    ("stars only", column(1, STAR), "answer=compiled"),
    ("stars and values", text(0, 2, ["0,0,1", "1,2,0,5"], [f"2,2,2,21,0,21,1,0,{STAR},{STAR},5"]), "answer=compiled"),
    ("rule and table", text(1, 1, ["0,0,2"], ["1,17,11,0,18,2,21,0,20,1", "2,1,2,21,0,0,2"]), "answer=compiled"),
    ("different, used up", different(["0,0,1", "1,2,0,1"], "21,0", "21,1"), listed("1,2", BITS, ";1:0:0,1,1,-1", ";0:0:0,1;0:0:1,1", ";0:-1:0,1;0:-1:1,1")),
    ("different, turned", different(["0,0,2"] * 2, "21,1", "21,0"), listed("2,1", ["0,2,3"] * 2, ";1:0:0,1,1,-1")),
    ("different, other values", different(["0,0,1", "1,2,0,2"], "21,0", "21,1"), listed("1,2", ["0,1,2", "0,2,2"], ";1:0:0,1,1,-1")),
    ("different, twice", different(["0,0,1"], "21,0", "21,0"), listed("1", BITS[:1], ";1:0:", ";0:0:0,1;0:0:0,1", ";0:-1:0,1;0:-1:0,1")),
    ("different, one value", different(["0,0,1", "0,1,1"], "21,0", "21,1"), listed("1,0", BITS[:1], ";1:-1:0,1")),
    ("different, 1 times x", different(["0,0,1"] * 2, "22,1,1,21,0", "21,1"), listed("1,2", BITS, ";1:0:0,1,1,-1", ";0:0:0,1;0:0:1,1", ";0:-1:0,1;0:-1:1,1")),
    ("different, a sum", different(["0,0,1"] * 2, "22,1,-1,21,0", "21,1"), listed("1,2", BITS, ";1:0:0,-1,1,-1")),
    ("different, none", different(["0,0,1"]), listed("0", [])),
    ("different, one", different(["0,0,1073741823"], "21,0"), listed("0", [])),
    ("different, constants", different([], "20,4", "20,4"), listed("", [], ";1:0:")),
    ("different, three", different(["0,1,3"] * 3, "21,0", "21,1", "21,2"), "answer=compiled"),
    ("different, a wide pair", different(["0,0,500000000"] * 2, "21,0", "21,1"), listed("1,2", ["0,500000000,500000001"] * 2, ";1:0:0,1,1,-1")),
    ("different and others", text(1, 2, ["0,0,1"] * 2, ["3,2,21,0,21,1", "1,17,11,0,18,0,21,0,20,1", "2,1,1,21,1,0"]), "answer=compiled"),
    ("different, count -1", text(0, 0, [], ["3,-1"]), "answer=refused,4\n"),
    ("different, count 4097", text(0, 0, [], ["3,4097"]), "answer=refused,4\n"),
    ("different, a Boolean", text(1, 0, [], ["3,1,11,0"]), "answer=refused,5\n"),
    ("statement 4", text(0, 0, [], ["4,0"]), "answer=refused,5\n"),
    ("different, depth 64", different([], "22,1,1," * 63 + "20,0", "20,0"), listed("", [], ";1:0:")),
    ("different, depth 65", different([], "22,1,1," * 64 + "20,0"), "answer=refused,8\n"),
    ("different, weight 2^30-1", different([], "20,1073741823", "20,0"), listed("", [], ";1:1073741823:")),
    ("different, weight 2^30", different([], "20,1073741823", "20,1"), "answer=refused,9\n"),
    ("different, one too heavy", different([], "22,1,2,20,1073741823"), "answer=refused,9\n"),
    ("different, 64 in a pair", pair_of(64), "answer=compiled"),
    ("different, 65 in a pair", pair_of(65), "answer=refused,10\n"),
    ("different, too long", different(["0,0,1"], *["21,0"] * 90), "answer=refused,12\n"),
    ("If, two values", over(2, equals(PAIR, "21,0")), compiled(("1,0", "2"), 1, ["1,-1,2,7", X], ";0:0:0,1,1,-1")),
    ("If, the higher first", over(1, equals("23,11,0,20,7,20,2", "21,0")), compiled(("1", "2"), 1, ["1,1,2,7", X], ";0:0:0,1,1,-1")),
    ("If, one value twice", over(1, equals("23,11,0,20,3,20,3", "21,0")), compiled(("1", "2"), 1, ["0,3,3,1", X], ";0:0:0,1,1,-1")),
    ("If, a negated condition", over(2, equals("23,14,11,0,20,2,20,7", "21,0")), compiled(("2,0", "2"), 2, ["1,-1,2,7", X], "1,2", "-1,-2", ";0:0:0,1,1,-1")),
    ("If, two in a condition", over(2, equals("23,12,2,11,0,11,1,20,2,20,7", "21,0")), compiled(("2,3", "2"), 3, ["1,-1,2,7", X], "1,-2,-3", "2,-1", "3,-1", ";0:0:0,1,1,-1")),
    ("If, a branch cancels", over(1, equals("23,11,0,22,3,1,21,0,-1,21,0,1,20,3,20,4", "20,2")), compiled(("1", "1"), 1, [X, "1,-1,3,4"], ";0:-2:1,1")),
    ("If, open", text(2, 2, ["0,0,5", "0,2,9"], ["1,18,0,23,12,2,11,0,11,1,21,0,21,1,20,4"]), compiled(("1,2", "1,2"), 3, [X, "0,2,9,8", "0,0,9,10"], "1,-3", "2,-3", "-3;0:0:0,1,2,-1", "-1,-2,3", "3;0:0:1,1,2,-1", ";0:-4:2,1")),
    ("If, found again", over(1, equals(OPEN, "20,1"), "1,18,1," + OPEN + ",20,2"), compiled(("1", "1"), 2, [X, "0,0,7,8"], *MADE, ";0:-1:1,1", ";1:-2:1,1")),
    ("If, on both sides", over(1, equals(OPEN, OPEN)), compiled(("1", "1"), 2, [X, "0,0,7,8"], *MADE, ";0:0:")),
    ("If, constants again", over(1, equals(PAIR, PAIR)), compiled(("1", "0"), 1, ["1,-1,2,7"] * 2, ";0:0:0,1,1,-1")),
    ("If, both signs", over(2, "1,15,18,0," + PAIR + ",20,2,11,1"), compiled(("1,2", "0"), 2, ["1,-1,2,7"] * 2, "2;0:-2:0,1", "-2;1:-2:1,1")),
    ("If, split twice", over(3, equals(XOR, XOR)), "answer=compiled\nfixed=2,2,2\nbools=5,6,0\nints=1\nemitted=8,3"),
    ("If, split in an If", over(3, equals("23,15,11,0,11,1,23,16,11,1,11,2,21,0,20,1,20,7", "20,4")), "answer=compiled\nfixed=2,2,2\nbools=5,6,7\nints=1\nemitted=9,3"),
    ("If, in a column", over(1, "2,1,2,23,11,0,20,1,20,3,1,3"), compiled(("1", "0"), 1, ["1,-1,1,3", "0,1,3,3"], ";0:0:0,1,1,-1", ";0:-1:1,1;0:-3:1,1")),
    ("If, a column's domain", over(1, "2,1,3,23,11,0,20,1,20,3,1,2,3"), compiled(("1", "0"), 1, ["1,-1,1,3", "0,1,3,3"], ";0:0:0,1,1,-1")),
    ("If, Iff in a column", over(2, "2,1,1,23,16,11,0,11,1,21,0,20,3,1"), compiled(("1,2", "1"), 3, [X] * 3, "1,-2,-3", "-1,2,-3", "-3;0:0:0,1,1,-1", "1,2,3", "-1,-2,3", "3;0:3:1,-1", ";0:0:1,1,2,-1", ";0:-1:2,1")),
    ("If, column then rule", over(1, "2,1,1," + OPEN + ",1", equals(OPEN, "20,2")), "answer=compiled\nfixed=2\nbools=1\nints=1\nemitted=2,3"),
    ("If, starred rows", over(1, f"2,2,2,{OPEN},21,0,7,{STAR},{STAR},2"), "answer=compiled"),
    ("If, different", over(2, "3,3," + OPEN + ",20,1,20,2"), compiled(("1,0", "1"), 2, [X, "0,0,7,8"], *MADE, ";1:-1:1,1", ";1:-2:1,1", ";1:-1:")),
    ("If, different, split", over(2, "3,3," + XOR + ",20,1,20,2"), "answer=compiled\nfixed=2,2\nbools=3,4\nints=1\nemitted=8,3"),
    ("If, different, constants", over(2, "3,3,23,11,0,20,0,20,3,20,1,20,2"), compiled(("1,0", "0"), 1, ["1,-1,0,3"] * 2, ";1:-1:0,1", ";1:-2:1,1", ";1:-1:")),
    ("If, open in conditions", over(2, "1," + nested(9, "21,0")), "answer=compiled"),
    ("If, five doublings", text(2, 0, [], ["1," + nested(5, "20,1")]), "answer=compiled"),
    ("If, a known condition", over(2, "1,11,0", equals(OPEN, "20,1")), compiled(("0,0", "1"), 0, [X], ";0:-1:0,1").replace("fixed=2,2", "fixed=1,2")),
    ("If, ties", over(2, "1,15,11,0,11,1", equals("23,11,1,20,2,20,7", "21,0")), compiled(("1,2", "2"), 2, ["1,-2,2,7", X], "1,2", "-1,-2", ";0:0:0,1,1,-1")),
    ("If ends early", rules(1, "18,0,23,11,0,20,1"), "answer=refused,3\n"),
    ("If, an integer condition", rules(1, "18,0,23,20,0,20,1,20,2,20,0"), "answer=refused,5\n"),
    ("If, a Boolean branch", rules(1, "18,0,23,11,0,11,0,20,2,20,0"), "answer=refused,5\n"),
    ("If for a rule", rules(1, "23,11,0,20,1,20,2"), "answer=refused,5\n"),
    ("If, depth 64", over(1, "2,1,0,23," + "14," * 62 + "11,0,21,0,20,1"), "answer=compiled"),
    ("If, depth 65", over(1, "2,1,0,23," + "14," * 63 + "11,0,21,0,20,1"), "answer=refused,8\n"),
    ("If, weight 2^30-1", rules(1, "18,0,23,11,0,20,1073741822,20,5,20,1"), "answer=compiled"),
    ("If, weight 2^30", rules(1, "18,0,23,11,0,20,5,20,1073741823,20,1"), "answer=refused,9\n"),
    ("If, heavy condition", over(0, "2,1,0,23,18,0,20,1073741823,20,1,20,1,20,2"), "answer=refused,9\n"),
    ("If and 63 variables", beside(63), "answer=compiled"),
    ("If and 64 variables", beside(64), "answer=refused,10\n"),
    ("If, a branch of 63", branch_of(63), "answer=compiled"),
    ("If, a branch of 64", branch_of(64), "answer=refused,10\n"),
    ("If, span 4096", text(1, 0, [], ["2,1,0,23,11,0,20,0,20,4095"]), "answer=compiled"),
    ("If, span 4097", text(1, 0, [], ["2,1,0,23,11,0,20,0,20,4096"]), "answer=refused,11\n"),
    ("If, ten doublings", text(2, 0, [], ["1," + nested(10, "20,1")]), "answer=refused,12\n"),
    ("If, 30 doublings", text(2, 0, [], ["1," + nested(30, "20,1")]), "answer=refused,12\n"),
    ("If, 60 nested Iff", text(2, 0, [], ["2,1,0,23," + "16," * 60 + "11,0" + ",11,1" * 60 + ",20,0,20,1"]), "answer=refused,12\n"),
    ("ends early", rules(1, "11"), "answer=refused,3\n"),
    ("words after the last", text(0, 0, [], ["1,12,0"]).replace(b"12,0", b"12,0,7"), "answer=refused,3\n"),
    ("statement missing", b"bools=0\nints=0\nstatements=1\n", "answer=refused,3\n"),
    ("negative count", rules(1, "12,-1"), "answer=refused,4\n"),
    ("513 Booleans", text(513, 0, [], []), "answer=refused,4\n"),
    ("operator 6", rules(0, "18,6,20,0,20,0"), "answer=refused,4\n"),
    ("unknown code", rules(0, "19"), "answer=refused,5\n"),
    ("integer for Boolean", rules(0, "20,1"), "answer=refused,5\n"),
    ("index not declared", rules(1, "11,1"), "answer=refused,6\n"),
    ("low above high", text(0, 1, ["0,2,1"], []), "answer=refused,7\n"),
    ("values not rising", text(0, 1, ["1,2,3,3"], []), "answer=refused,7\n"),
    ("65 in a comparison", many_variables(65, "comparison"), "answer=refused,10\n"),
    ("64 in a comparison", many_variables(64, "comparison"), "answer=compiled"),
    ("64 in a column", many_variables(64, "column"), "answer=refused,10\n"),
    ("span 4097", text(0, 1, ["0,0,4096"], ["2,1,0,21,0"]), "answer=refused,11\n"),
    ("span 4096", text(0, 1, ["0,0,4095"], ["2,1,0,21,0"]), "answer=compiled"),
    ("answer too long", wide_table(), "answer=refused,12\n"),
    ("lines divided", b"bools=0\nints=2\nint=0\nint=0,1,0,0\nint=1\nstatements=0\n", "answer=compiled"),
    ("nothing", b"", "answer=unread\n"),
    ("a line feed", b"\n", "answer=unread\n"),
    ("last line unended", NONE[:-1], "answer=unread\n"),
    ("empty line", NONE + b"\n", "answer=unread\n"),
    ("empty line first", b"\n" + NONE, "answer=unread\n"),
    ("carriage returns", NONE.replace(b"\n", b"\r\n"), "answer=unread\n"),
    ("blank", NONE.replace(b"=0\ni", b"= 0\ni"), "answer=unread\n"),
    ("blank at the end", NONE.replace(b"=0\ni", b"=0 \ni"), "answer=unread\n"),
    ("leading zero", rules(1, "11,00"), "answer=unread\n"),
    ("minus zero", rules(1, "11,-0"), "answer=unread\n"),
    ("plus", rules(1, "11,+0"), "answer=unread\n"),
    ("minus alone", rules(1, "11,-"), "answer=unread\n"),
    ("letter", rules(1, "11,a"), "answer=unread\n"),
    ("2147483648", rules(1, "11,2147483648"), "answer=unread\n"),
    ("-2147483649", rules(1, "11,-2147483649"), "answer=unread\n"),
    ("2147483647", rules(1, "11,2147483647"), "answer=refused,6\n"),
    ("-2147483648", rules(1, "11,-2147483648"), "answer=refused,6\n"),
    ("twenty digits", rules(1, "11,18446744073709551616"), "answer=unread\n"),
    ("two counts", NONE.replace(b"bools=0", b"bools=0,0"), "answer=unread\n"),
    ("no count", NONE.replace(b"bools=0", b"bools="), "answer=unread\n"),
    ("no number", NONE + b"statement=\n", "answer=unread\n"),
    ("comma at the end", rules(1, "11,0,"), "answer=unread\n"),
    ("comma in front", NONE + b"statement=,1\n", "answer=unread\n"),
    ("keys in another order", b"ints=0\nbools=0\nstatements=0\n", "answer=unread\n"),
    ("a key missing", b"bools=0\nstatements=0\n", "answer=unread\n"),
    ("unknown key", NONE + b"rule=1\n", "answer=unread\n"),
    ("domain after statements", NONE + b"int=0,0,1\n", "answer=unread\n"),
    ("key in capitals", NONE.replace(b"bools", b"Bools"), "answer=unread\n"),
    ("byte 255", NONE + b"\xff\n", "answer=unread\n"),
    ("65536 bytes", LONG + b"1" + b",1" * ((65536 - len(LONG) - 2) // 2) + b"\n", "answer=refused,2\n"),
    ("65537 bytes", LONG + b"11" + b",1" * ((65536 - len(LONG) - 2) // 2) + b"\n", "answer=unread\n"),
]


# how many sets of each family
FAMILIES = dict.fromkeys(["rules", "chains", "comparisons", "tables", "mixed", "different", "kinds"], 9)
FAMILIES |= dict.fromkeys(["ifs", "ifcolumns", "ifmixed", "ifdifferent", "ifequal", "ifcancel", "ifchains", "ifties"], 3)


def sets(family, seed, count):
    """Generated sets as texts, the domains in one line and the statements in another."""
    for index, line in enumerate(reference("generate", str(seed), family, str(count)).decode().splitlines()):
        words = re.match(r"set=(\S*) ", line).group(1).split(",")
        at = 2
        for _ in range(int(words[1])):
            at += 3 if words[at] == "0" else 2 + int(words[at + 1])
        lines = [f"bools={words[0]}", f"ints={words[1]}"]
        lines += ["int=" + ",".join(words[2:at])] * (at > 2)
        lines += [f"statements={words[at]}"]
        lines += ["statement=" + ",".join(words[at + 1 :])] * (at + 1 < len(words))
        yield f"{family} {index}", ("\n".join(lines) + "\n").encode()


def recorded(seed, count):
    """Generated texts, good and damaged, without and with Ifs in turn."""
    lines = [reference("record", str(seed), family, str(count)).decode().splitlines() for family in ("text", "iftext")]
    for index, pair in enumerate(zip(*lines)):
        for family, line in zip(("text", "iftext"), pair):
            found = re.fullmatch(r"text=(.*) listing=(.*)", line)
            yield f"{family} {index}", unescape(found.group(1)), unescape(found.group(2))


def unescape(s):
    return s.encode("latin-1").decode("unicode_escape").encode("latin-1")


def case(name, given, expected):
    assert len(name) <= 24 and len(given) <= 65537 and len(expected) <= 262144, name
    assert recounted(expected)[0] == expected, name
    return f"{name:<24} {len(given):06} {len(expected):06}\n".encode() + given + expected


def main():
    all_cases = []
    for name, given, said in NAMED:
        expected = reference("listing", text=given)
        assert expected.decode().startswith(said) and (not said.endswith("\n") or expected.decode() == said), (name, expected)
        all_cases.append(case(name, given, expected))
    for family, count in FAMILIES.items():
        short = [(n, t) for n, t in sets(family, 7, 60) if len(t) <= 700]
        listed = [(n, t, reference("listing", text=t)) for n, t in short]
        all_cases += [case(*c) for c in listed if len(c[2]) <= 2000][:count]
    size = sum(map(len, all_cases))
    unread = 0
    for name, given, expected in recorded(7, 600):
        unread += expected == b"answer=unread\n"
        if len(given) + len(expected) > 1500 or size + len(given) + len(expected) + 39 > MOST or (expected == b"answer=unread\n" and unread > 60):
            continue
        all_cases.append(case(name, given, expected))
        size += len(all_cases[-1])
    with open("tools/cases/recorded", "wb") as out:
        out.write(b"".join(all_cases))


main()

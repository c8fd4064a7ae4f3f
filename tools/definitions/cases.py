#!/usr/bin/env python3
"""cases.py RECORDS CRATE: writes a crate whose theorems say that the definition of the call gives the recorded results."""
import sys

LIMIT = 120  # words of a set; larger ones take the checker long


def word(text):
    n = int(text)
    return f"pos {n}" if n >= 0 else f"negsuc {-n - 1}"


def words(text):
    return " ∷ ".join([word(w) for w in text.split(",") if w] + ["[]"])


def result(text):
    if text == "contradiction":
        return "contradiction"
    kind, _, rest = text.partition(",")
    return f"(refused {rest})" if kind == "refused" else f"(compiled ({words(rest)}))"


def main(records, crate):
    out = ["-- Recorded answers, computed by the definition of the call.",
           "use Rattle.std.specs.Prelude.{◌≡◌, refl, true, false, List, [], ◌∷◌, ℤ, pos, negsuc}",
           "use Rattle.call.specs.Call.{compiled, contradiction, refused}",
           "use Rattle.call.specs.Compute.{case, agrees}", "use Rattle.call.specs.declared.Choices.{Choices}", "",
           "abbrev chosen_0 : Choices", "chosen_0 = record { merge = false }", "",
           "abbrev chosen_1 : Choices", "chosen_1 = record { merge = true }", ""]
    count = 0
    for line in open(records):
        fields = dict(f.partition("=")[::2] for f in line.split())
        if "set" not in fields or fields["set"].count(",") >= LIMIT or len(fields["result"]) > 6000:
            continue
        count += 1
        chosen = fields.get("choices", "0")
        out += [f"case_{count} : agrees chosen_{chosen} (case ({words(fields['set'])}) {fields['out']} {fields['work']} {result(fields['result'])}) ≡ true",
                "unfolding agrees", f"case_{count} = refl", ""]
    open(f"{crate}/specs/Cases.antt", "w").write("\n".join(out))
    open(f"{crate}/specs/Lib.antt", "w").write("pub mod Cases\n")
    open(f"{crate}/src/lib.rt", "w").write("// Recorded answers; theorems in specs/.\n#![tactic(auto)]\n")
    print(f"{count} cases")


main(sys.argv[1], sys.argv[2])

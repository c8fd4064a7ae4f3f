# One round: what the log of its check shows of each wrong program in it. The working folder is the crate's, without the edit; standard input
# lists the files below its proofs/. Variables: crate, label, edit (the file), log, only (the programs that were tried, or "" for all).
# strict (1: an open goal shows nothing where names are gone, unless the prover finds values at which it is false).
# Prints a line for each wrong program.

# The kinds of error that say of a fact that it does not hold; any other error shows nothing by itself.
function is_fact(m) {
    return m ~ /^(as printed|computed as far as they go), the two (types|sides) / || m ~ /^the two (types|sides) / || m ~ /^expected type `/ ||
        m ~ /^`(omega|grind|simp|decide)`: / || m ~ /^`search`: no proof of / || m ~ /^computed as a goal is, one side reads / || m ~ /^`rw`: no occurrence of / ||
        m ~ /^give a proof of that as the last argument/ || m ~ /^it is not proved that /
}

function fail(program, text) { print "verdicts: " crate "/" label " " program ": NOT SHOWN: " text }

# Which function of `file` holds the text `old`: its place below proofs/, as `bools/read_list` or `Cursor/word`; "" if none does. Its lines,
# attributes directly above it too (an open goal is told there), go to first_line[] and last_line[], by that place.
function function_at(file, old,    line, found, here, type, fn, indent, at, n, started, from, above) {
    found = n = above = 0
    type = fn = ""
    while ((getline line < file) > 0) {
        n++
        if (match(line, /^ *(pub )?(extern "C" )?fn [A-Za-z0-9_]+/)) {
            fn = substr(line, 1, RLENGTH); sub(/.* /, "", fn)
            match(line, /^ */); indent = substr(line, 1, RLENGTH)
            started = above ? above : n
        } else if (match(line, /^impl(<[^>]*>)? [A-Za-z0-9_]+/)) { type = substr(line, 1, RLENGTH); sub(/.* /, "", type); type = type "/" }
        above = line ~ /^ *#\[/ ? (above ? above : n) : 0
        if (match(line, /#\[cycle\([A-Za-z0-9_]+\)\]/)) is_cycle[substr(line, RSTART + 8, RLENGTH - 10)] = 1
        if (index(line, old)) { found++; here = fn == "" ? "" : type fn; from = started }
        if (fn != "" && line == indent "}") { if (here == type fn && from == started) ended = n; fn = "" }
        if (line == "}") type = ""
    }
    close(file)
    if (found != 1 || here == "") return ""
    at = file
    sub(/^src\//, "", at); sub(/\.rt$/, "", at)
    at = at == "lib" || at == "main" ? "" : at "/"
    first_line[at here] = from; last_line[at here] = ended
    return at here
}

# The log: its errors in order, without those that only say that something else was not admitted; its open goals; and each function's last word.
function read_log(    line, rest, text, current) {
    while ((getline line < log_file) > 0) {
        if (line ~ /^logic=not-proved/) refused = 1
        if (current && line ~ /^  computed as far as they go, /) error_more[current] = substr(line, 3)
        if (line !~ /^ /) current = 0
        if (line ~ /^fn /) { tried = 1; text = line; sub(/^fn /, "", text); rest = text; sub(/: .*/, "", rest); word_on[rest] = substr(text, length(rest) + 3) }
        if (match(line, /^note: src\/[^:]*:[0-9]+:[0-9]+: it is not proved that /)) {
            goal_file[++goals] = substr(line, 7); sub(/:.*/, "", goal_file[goals])
            rest = substr(line, 7 + length(goal_file[goals]) + 1); goal_line[goals] = rest + 0
            goal_text[goals] = substr(line, 7); sub(/^[^ ]* /, "", goal_text[goals])
            continue
        }
        if (!match(line, /^(\.\/)?[^ :]*:[0-9]+:[0-9]+: error: /)) continue
        if (line ~ /was not admitted|declarations? that depends? on .*, which was rejected, /) continue
        text = substr(line, RSTART + RLENGTH)
        rest = line; sub(/^\.\//, "", rest)
        error_path[++errors] = rest; sub(/:.*/, "", error_path[errors])
        error_line[errors] = substr(rest, length(error_path[errors]) + 2) + 0
        error_at[errors] = "-"
        if (match(text, /^`[^`]*`: /)) { error_at[errors] = substr(text, 2, RLENGTH - 4); text = substr(text, RLENGTH + 1) }
        error_text[errors] = text
        current = errors
    }
    close(log_file)
}

# The folders of proofs: `f`, or of a cycle `+name`, whose answers begin with the function's name where the cycle has several.
function read_proofs(    path) {
    while ((getline path) > 0) {
        sub(/^proofs\//, "", path)
        if (sub(/\/[^\/]*$/, "", path)) has_proof[path] = 1
    }
}

function is_own(e, place,    folder, last, in_folder) {
    folder = last = place
    if (!sub(/[^\/]*$/, "", folder)) folder = ""
    sub(/.*\//, "", last)
    if (index(error_path[e], "proofs/" place "/") == 1) return 1
    in_folder = "proofs/" folder "+"
    if (index(error_path[e], in_folder) != 1) return 0
    # in a cycle of one function, which src gives no name, the answers have no such prefix
    if (index(error_path[e], in_folder last "/") == 1 && !(last in is_cycle)) return 1
    return index(error_at[e], last "-") == 1 || error_at[e] == "decreases-" last || error_at[e] == last
}

# The start of an error's text, no character cut in two.
function cut(text) {
    text = substr(text, 1, 160)
    sub(/[\300-\377][\200-\277]*$/, "", text)
    return text
}

function shown(program, text) { print "verdicts: " crate "/" label " " program ": " text }

BEGIN {
    log_file = log_of
    read_edit(label); read_proofs(); read_log()
    for (p = 1; p <= pairs; p++) {
        if (only != "" && index(" " only " ", " " name[pair_of[p]] " ") == 0) continue
        program = name[pair_of[p]]
        has[pair_of[p]] = 1
        # (pairs that turn names in proof files change no program)
        if (pair_file[p] ~ /^proofs\//) continue
        if (pair_file[p] !~ /^src\//) { fail(program, "an edit of a definition stands in a round"); bad[pair_of[p]] = 1; continue }
        changed = function_at(pair_file[p], pair_old[p])
        if (changed == "") { fail(program, "it changes no function, and stands in a round"); bad[pair_of[p]] = 1; continue }
        if (changed in owner) {
            if (owner[changed] != pair_of[p]) { fail(program, changed " is changed by " name[owner[changed]] " too"); bad[pair_of[p]] = 1 }
            continue
        }
        owner[changed] = pair_of[p]; order[++functions] = changed; file_of[changed] = pair_file[p]
    }
    for (k = 1; k <= programs; k++) {
        if (only != "" && index(" " only " ", " " name[k] " ") == 0) continue
        if (k in bad) continue
        if (!(k in has)) fail(name[k], "it changes nothing")
        else if (!tried) { fail(name[k], "it was not tried"); bad[k] = 1 }
        else if (!refused) { fail(name[k], "it was not refused"); bad[k] = 1 }
    }
    for (k = 1; k <= functions; k++) {
        changed = order[k]; program = name[owner[changed]]
        if (owner[changed] in bad) continue
        path = crate "/" changed; gsub(/\//, "::", path)
        if (word_on[path] == "proved") { fail(program, changed " is still proved"); continue }
        own = first = missing = 0
        for (e = 1; e <= errors; e++) {
            if (!is_own(e, changed)) continue
            if (!first) first = e
            if (is_fact(error_text[e])) { own = e; break }
            missing = e
        }
        if (own) { shown(program, changed ", " error_path[own] ":" error_line[own] ": " error_at[own] ": " cut(own in error_more ? error_more[own] : error_text[own])); continue }
        goal = false = 0
        for (g = 1; g <= goals; g++) {
            if (goal_file[g] != file_of[changed] || goal_line[g] < first_line[changed] || goal_line[g] > last_line[changed]) continue
            if (!goal) goal = g
            if (!false && goal_text[g] ~ /allow values at which this goal is false/) false = g
        }
        # a goal that was proved with no answer of its own, or that the facts at hand don't give
        if (false) goal = false
        if (goal && missing && !false && !strict) { shown(program, changed ", names are gone (" error_at[missing] "), " goal_file[goal] ":" goal_line[goal] ": " cut(goal_text[goal])); continue }
        if (goal && (false || !missing)) { shown(program, changed ", " goal_file[goal] ":" goal_line[goal] ": " cut(goal_text[goal])); continue }
        if (missing) fail(program, changed " is not refused at a fact: " error_at[missing] ": " cut(error_text[missing]) (goal ? "; open: " goal_text[goal] : ""))
        else fail(program, changed " has no error of its own: " cut(word_on[path]))
    }
}

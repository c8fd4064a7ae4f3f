# The edit files, for apply.awk and verdicts.awk. Variable: edit (the file).

# Fills name[] (the wrong programs: in a round each stands below a comment `# name: what is wrong`) and, for each pair, pair_of[], pair_file[],
# pair_old[] and pair_new[]. label: the name of the one program of a file with no such comment.
function read_edit(label,    line, file, old) {
    while ((getline line < edit) > 0) {
        if (match(line, /^# [a-z][a-z0-9_]*: /)) name[++programs] = substr(line, 3, RLENGTH - 4)
        else if (line ~ /^file: /) file = substr(line, 7)
        else if (line ~ /^old: /) old = substr(line, 6)
        else if (line ~ /^new:/) {
            if (!programs) name[++programs] = label
            pair_of[++pairs] = programs; pair_file[pairs] = file; pair_old[pairs] = old
            pair_new[pairs] = substr(line, 5); sub(/^ /, "", pair_new[pairs])
        }
    }
    close(edit)
}

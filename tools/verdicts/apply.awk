# Applies wrong programs of one edit to the crate in the working folder. Variables: edit (the file), only (their names, or "" for all).
# Status 1 if a text is not found exactly once.
BEGIN {
    read_edit("all")
    for (p = 1; p <= pairs; p++) {
        if (only != "" && index(" " only " ", " " name[pair_of[p]] " ") == 0) continue
        file = pair_file[p]
        if (!(file in text)) {
            while ((getline line < file) > 0) text[file] = text[file] line "\n"
            close(file)
        }
        at = index(text[file], pair_old[p])
        rest = substr(text[file], at + length(pair_old[p]))
        if (!at || index(rest, pair_old[p])) exit 1
        text[file] = substr(text[file], 1, at - 1) pair_new[p] rest
    }
    for (file in text) {
        printf "%s", text[file] > (file ".edited")
        close(file ".edited")
        # (a file of its own: the copy's files may be links)
        if (system("mv -f '" file ".edited' '" file "'")) exit 1
    }
}

# Reads a must-fail edit, beside the crate in the folder `crate`; after libexec/type_of.awk.
# -v what=owners: for each pair of `old:` and `new:` a line with the function of src/ that it changes, by its path,
#     `constant` for a line outside functions, `nothing` for a text that is not there, or the file, if it is not of src/.
# -v what=lines: for each line of the files of src/ that it changes, FILE:LINE and its function.
# -v what=apply: writes the changed files. With -v only=FUNCTION it leaves out the pairs that change another function,
#     or another function's proof.
function load(name,   line, n, type, current, indent, module) {
    if (name in text) return
    n = 0; type = ""; current = "constant"
    module = name
    sub(/^src\//, "", module)
    sub(/\.rt$/, "", module)
    gsub(/\//, "::", module)
    module = module == "lib" || module == "main" ? "" : module "::"
    text[name] = ""
    while ((getline line < (crate "/" name)) > 0) {
        text[name] = text[name] line "\n"
        if (line ~ /^impl[ <]/) {
            type = type_of(line) "::"
        }
        if (match(line, /^ *(pub(\([a-z]*\))? )?(extern "C" )?fn [a-z_0-9]+/)) {
            current = substr(line, RSTART, RLENGTH); indent = match(line, /[^ ]/)
            sub(/.* /, "", current); current = module type current
        }
        owner[name, ++n] = current
        if (line ~ /^ *}/ && match(line, /[^ ]/) == indent) current = "constant"
        if (line ~ /^}/) type = ""
    }
    close(crate "/" name)
}
function owner_at(name, at,   before) {
    if (name !~ /^src\//) return name
    before = substr(text[name], 1, at - 1)
    return owner[name, gsub(/\n/, "", before) + 1]
}
# The function whose proof the file is, if it is one.
function proof_of(name) {
    if (name !~ /^proofs\/.*\//) return ""
    sub(/^proofs\//, "", name)
    sub(/\/[^\/]*$/, "", name)
    sub(/\+/, "", name)
    gsub(/\//, "::", name)
    return name
}
function is_left_out(of) {
    if (only == "" || of == "constant") return 0
    if (file ~ /^src\//) return of != only
    return proof_of(file) != "" && proof_of(file) != only
}
/^file: / { file = substr($0, 7); load(file) }
/^old: / { old = substr($0, 6) }
/^new:/ {
    new = substr($0, 5)
    sub(/^ /, "", new)
    at = index(text[file], old)
    of = at ? owner_at(file, at) : "nothing"
    if (what == "owners") print of
    else if (what == "apply" && !at && only == "") { print FILENAME ": not there: " old > "/dev/stderr"; failed = 1 }
    if (at && !is_left_out(of)) text[file] = substr(text[file], 1, at - 1) new substr(text[file], at + length(old))
}
END {
    if (failed) exit 1
    if (what == "lines") for (at in owner) {
        split(at, place, SUBSEP)
        print place[1] ":" place[2], owner[at]
    }
    if (what == "apply") for (name in text) printf "%s", text[name] > (crate "/" name)
}

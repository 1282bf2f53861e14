# The name that the prover gives a block `impl` by its first line: the type, and, where it is of a trait, the type and then the
# trait with its arguments, each begun with a capital.
function type_of(line,   trait, words, name, i) {
    sub(/^impl(<[^>]*>)? /, "", line)
    sub(/ *\{.*/, "", line)
    if (line !~ / for /) { sub(/[^A-Za-z0-9_].*/, "", line); return line }
    trait = line
    sub(/ for .*/, "", trait)
    sub(/^.* for /, "", line)
    split(line " " trait, words, /[^A-Za-z0-9_]+/)
    for (i = 1; i in words; i++) name = name toupper(substr(words[i], 1, 1)) substr(words[i], 2)
    return name
}

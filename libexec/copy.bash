# For scripts to source, at the top of the repository: a copy of the crates, in which a change is tried.

# copy_crates FOLDER: copies the sources there, and the library that was built of each crate, so that a check in the copy
# begins with what is proved: rt holds a library to the sources that it is made of. The libraries' files are linked where
# that can be done, since rt replaces such a file and writes into none.
copy_crates() {
    local crate part
    mkdir -p -- "$1/crates"
    cp -- crates.txt "$1"
    [[ ! -f HANDLES ]] || cp -- HANDLES "$1"
    for crate in crates/*; do
        mkdir -p -- "$1/$crate/out"
        for part in src specs proofs; do
            [[ ! -d $crate/$part ]] || cp -a -- "$crate/$part" "$1/$crate"
        done
        [[ -d $crate/out/rlib ]] || continue
        cp -al -- "$crate/out/rlib" "$1/$crate/out" 2>/dev/null || {
            rm -rf -- "${1:?}/$crate/out/rlib"
            cp -a -- "$crate/out/rlib" "$1/$crate/out"
        }
    done
}

# copy_kept FOLDER CRATE: copies what the checks of a crate kept.
copy_kept() {
    rm -rf -- "${1:?}/crates/$2/out/incremental"
    [[ ! -d crates/$2/out/incremental ]] || cp -a -- "crates/$2/out/incremental" "$1/crates/$2/out"
}

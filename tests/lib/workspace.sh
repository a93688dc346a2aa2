# To be sourced by a script that proves and builds a program of its own over crates of this repository, in a workspace of its own in
# the folder $work.

# build_over CRATES NAME FILE: the program NAME of this file, over these crates; $program is then what was built. The crates come
# with what was proved of them.
build_over() {
    local crate name=$2
    mkdir -p "$work/crates/$name/src" || exit 1
    for crate in $1; do
        cp -a "crates/$crate" "$work/crates/$crate" || exit 1
        grep "^$crate:" crates.txt
    done > "$work/crates.txt"
    echo "$name: $1" >> "$work/crates.txt"
    cp "$3" "$work/crates/$name/src/main.rt"
    (cd "$work/crates/$name" && rt run > "$work/build.log" 2>&1) || { cat "$work/build.log"; exit 1; }
    program=$work/crates/$name/out/$name
}

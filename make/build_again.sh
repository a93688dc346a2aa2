#!/usr/bin/env bash
# Has `rattle build` prove the program once more over its libraries as they were built, and make a file of it: by the kit's own clang its
# object, which the program is linked of. It takes about a minute behind `make`, and four behind the gate, which keeps no steps of the proof.
#
#   make/build_again.sh FILE LOG [TOOLCHAIN]   TOOLCHAIN: a folder as the kit's own, with another clang. What rattle says is in LOG
set -euo pipefail
made=$(realpath -m "$1")
log=$(realpath -m "$2")
cd "$(dirname "$0")/.."
top=$PWD
kit=$(dirname "$(dirname "$(readlink -f "$(command -v rt)")")")
toolchain=$(realpath "${3-$kit/toolchain}")

# Libraries that were built in a crate's folder have a stamp, and may be of an earlier state than the program: `rt lib` proves and builds
# those again, and else does nothing. Those that the gate built have none, and are the program's own.
renew_libraries() {
    local library
    compgen -G 'crates/*/out/rlib/stamp' > /dev/null || return 0
    for library in $(sed -n 's/^ninecheck: *//p' crates.txt); do
        (cd "crates/$library" && rt lib) > "$log" 2>&1 || { cat "$log" >&2; exit 1; }
    done
}

# What `rattle build` is told of the program, a word a line: its libraries of this repository and of the kit, where those below them stand, and
# what was proved of it before, if `make` proved it.
words_for_rattle() {
    local crate library
    printf '%s\n' --crate-name ninecheck src/main.rt --extern "std=$kit/rlibs/std.rlib" -L "dependency=$kit/rlibs"
    for library in $(sed -n 's/^ninecheck: *//p' crates.txt); do
        if [ -d "crates/$library" ]; then
            printf '%s\n' --extern "$library=$top/crates/$library/out/rlib/$library.rlib"
        else
            printf '%s\n' --extern "$library=$kit/rlibs/$library.rlib"
        fi
    done
    for crate in crates/*/out/rlib; do printf '%s\n' -L "dependency=$top/$crate"; done
    printf '%s\n' --antt-project "$kit/rattle/logic/antt-project.json" --logic-built "$kit/logic_built"
    printf '%s\n' --links ninecheck= --backend llvm
    [ ! -d crates/ninecheck/out/incremental ] || printf '%s\n' --incremental out/incremental
}

renew_libraries
mapfile -t words < <(words_for_rattle)
(cd crates/ninecheck && "$kit/bin/rattle" build "${words[@]}" --toolchain "$toolchain" -o "$made") > "$log" 2>&1 ||
    { cat "$log" >&2; exit 1; }
grep -q '^logic=proved ' "$log" || { cat "$log" >&2; exit 1; }

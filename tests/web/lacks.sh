#!/usr/bin/env bash
# What `make web` says where something is missing for it. The last line is 'N passed, M failed'.
set -u
cd "$(dirname "$0")/../.." || exit 1
. tests/lib/judge.sh

# A copy of the script where nothing is built, and a path with no more than the script needs to say so.
mkdir -p "$work/copy/crates/ninecheck/out" "$work/bin"
cp -r web "$work/copy"
for tool in bash dirname cat; do ln -s "$(type -P "$tool")" "$work/bin"; done

# has TOOL...: these are on the path too.
has() {
    local tool
    for tool; do ln -s "$(type -P true)" "$work/bin/$tool"; done
}

# run_build WORDS...: leaves what it says in $work/out and $work/err.
run_build() {
    PATH=$work/bin bash "$work/copy/web/build.sh" "$@" > "$work/out" 2> "$work/err"
    status=$?
}
without='the page for a browser is not made without'

run_build
expect 'nothing is there' 1 '' "$without the proved program: \`make\` proves and builds it
$without \`rt\`, the command of the Rattle kit: it is not on the path
$without \`wasm-opt\`: it is in the package binaryen
$without \`node\`: it is in the package nodejs
$without \`python3\`: it is in the package of that name"
run_build stands
expect 'nothing is there, and it is asked whether the page is' 1 '' ''
has rt node 'python3'
run_build lacks
expect 'what is missing' 0 'the proved program: `make` proves and builds it
`wasm-opt`: it is in the package binaryen' ''
has wasm-opt
run_build
expect 'nothing is proved' 1 '' "$without the proved program: \`make\` proves and builds it"
ln -s "$(type -P true)" "$work/copy/crates/ninecheck/out/ninecheck"
run_build lacks
expect 'nothing is missing' 0 '' ''
run_build made
expect 'another word' 2 '' 'usage: web/build.sh [lacks | stands]'

tell_counts

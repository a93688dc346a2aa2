#!/usr/bin/env bash
# Makes out/ninecheck-VERSION.html: the program for a browser, and all that its page needs, in one file. It takes the module of the proved
# program, which is what `rattle build` lowers the proved code to before a compiler has it, compiles that for WebAssembly, and packs it
# (pack.py). What each step makes stays in out/web, and is made again where what it is made from has changed.
#
#   web/build.sh           makes it, as `make web` does
#   web/build.sh lacks     says what is missing for it, in a line each
#   web/build.sh stands    ends with status 0 where it is there, and is made from all as it stands now
set -euo pipefail
cd "$(dirname "$0")/.."
work=out/web
program=crates/ninecheck/out/ninecheck

# lacks: what is missing, in a line each. The tools are of Debian's packages, but for `rt`.
lacks() {
    [ -x "$program" ] || echo 'the proved program: `make` proves and builds it'
    command -v rt > /dev/null || echo '`rt`, the command of the Rattle kit: it is not on the path'
    command -v wasm-opt > /dev/null || echo '`wasm-opt`: it is in the package binaryen'
    command -v node > /dev/null || echo '`node`: it is in the package nodejs'
    command -v python3 > /dev/null || echo '`python3`: it is in the package of that name'
}

missing=$(lacks)
case ${1-} in
    lacks)
        [ -z "$missing" ] || echo "$missing"
        exit 0
        ;;
    '' | stands) ;;
    *) echo 'usage: web/build.sh [lacks | stands]' >&2; exit 2 ;;
esac
if [ -n "$missing" ]; then
    [ "${1-}" = stands ] || while IFS= read -r it; do echo "the page for a browser is not made without $it"; done <<< "$missing" >&2
    exit 1
fi
kit=$(dirname "$(dirname "$(readlink -f "$(command -v rt)")")")
clang=$kit/toolchain/bin/clang

# step FILE WHAT COMMAND FROM...: has this command make the file, unless it was made from the same: these files, the kit and this script.
only_asked=${1-}
step() {
    local file=$1 what=$2 command=$3 sum
    shift 3
    sum=$(cat "$kit/KIT-ID" web/build.sh "$@" | sha256sum)
    [ -e "$file" ] && [ "$sum" = "$(cat "$file.made-from" 2> /dev/null)" ] && return
    [ -z "$only_asked" ] || exit 1
    echo "$what"
    rm -f "$file" "$file.made-from"
    "$command"
    echo "$sum" > "$file.made-from"
}

# The module of the proved program. `rattle build` hands it to the clang of the folder that it is given; the one here hands it on as it is.
lower() {
    hand_on
    make/build_again.sh "$work/module.bc" "$work/lower.log" "$work/hands_on"
}

# The folder of a toolchain whose clang hands on. It is started in an empty environment, so it finds nothing by a path.
hand_on() {
    rm -rf "$work/hands_on"
    mkdir -p "$work/hands_on/bin"
    ln -s "$kit/toolchain/lib" "$work/hands_on/lib"
    for tool in "$kit"/toolchain/bin/*; do
        [ "${tool##*/}" = clang ] || ln -s "$tool" "$work/hands_on/bin"
    done
    install -m 755 web/hand_on.sh "$work/hands_on/bin/clang"
}

for_wasm=(--target=wasm64-unknown-unknown -mcpu=lime1 -O3 -ffunction-sections -fdata-sections)
# There is no division of 128 bits to call, so each stands where it is used.
for_wasm+=(-mllvm -expand-div-rem-bits=64)

compile() {
    "$clang" -x ir "$work/module.bc" -S -emit-llvm -Xclang -disable-llvm-passes -o - | python3 web/retarget.py > "$work/module.ll"
    "$clang" "${for_wasm[@]}" -x ir -c "$work/module.ll" -o "$work/program.o"
    rm "$work/module.ll"
}

# The whole as wasm64, and from that as wasm32, which every browser takes. Its stack begins at address 0, so that it can't run over into
# what is kept in memory; and memory ends 16 MiB below 2^32, so that an address below 0 is none in it either.
link() {
    local source objects=()
    for source in shim compiler_calls; do
        "$clang" "${for_wasm[@]}" -fno-builtin -Wall -Wextra -Werror -c "web/$source.c" -o "$work/$source.o"
        objects+=("$work/$source.o")
    done
    ln -sf "$clang" "$work/wasm-ld"
    "$work/wasm-ld" -mwasm64 --no-entry --stack-first -z stack-size=8388608 --max-memory=4278190080 --export=__stack_pointer \
        --gc-sections --fatal-warnings --strip-all "$work/program.o" "${objects[@]}" -o "$work/wasm64.wasm"
    python3 web/untable.py "$work/wasm64.wasm"
    wasm-opt --enable-memory64 --enable-bulk-memory --enable-sign-ext --enable-nontrapping-float-to-int --enable-mutable-globals \
        --memory64-lowering -O1 "$work/wasm64.wasm" -o "$work/ninecheck.wasm"
    # An engine looks at the whole of it as it loads it.
    node -e 'new WebAssembly.Module(require("fs").readFileSync(process.argv[1]))' "$work/ninecheck.wasm"
}

mkdir -p "$work"
step "$work/module.bc" 'the module of the proved program is made: some minutes' lower "$program" web/hand_on.sh make/build_again.sh
step "$work/program.o" 'it is compiled for WebAssembly: about two minutes' compile "$work/module.bc" web/retarget.py
step "$work/ninecheck.wasm" 'it is linked' link "$work/program.o" web/*.c web/integers.h web/untable.py

# The page is packed in a second, so it is packed to be compared too. Several scripts may ask at once.
version=$(make/version.sh)
page=out/ninecheck-$version.html
packed=$work/page-$$.html
trap 'rm -f "$packed"' EXIT
python3 -B web/pack.py "$work/ninecheck.wasm" "$version" "$packed"
if [ -n "$only_asked" ]; then
    cmp -s "$packed" "$page"
else
    mv "$packed" "$page"
    echo "made: $page"
fi

#!/usr/bin/env bash
# Tries the parts that stand beside the program in the page, each alone: the heap, what stands over the program, the worker, and what
# makes the module and packs the page. The last line is 'N passed, M failed'.
set -u
cd "$(dirname "$0")/../.." || exit 1
. tests/lib/tools.sh
need_tools node=nodejs python3 wasm-opt=binaryen
. tests/lib/judge.sh
. tests/lib/program.sh
. tests/lib/browser.sh

clang=$(dirname "$(dirname "$(readlink -f "$(command -v rt)")")")/toolchain/bin/clang
ln -s "$clang" "$work/wasm-ld"

# The heap, compiled and linked as web/build.sh does it, but for a memory of 4 MiB.
"$clang" --target=wasm64-unknown-unknown -mcpu=lime1 -O3 -fno-builtin -c tests/web/heap.c -o "$work/heap.o"
"$work/wasm-ld" -mwasm64 --no-entry --stack-first -z stack-size=65536 --max-memory=4194304 --strip-all "$work/heap.o" -o "$work/heap64.wasm"
python3 web/untable.py "$work/heap64.wasm"
wasm-opt --enable-memory64 --enable-bulk-memory --memory64-lowering "$work/heap64.wasm" -o "$work/heap.wasm"

# stub NAME BODY [ROOM]: a module in the place of the program, which does this, and has the words put at ROOM.
stub() {
    cat > "$work/$1.wat" << EOF
(module (memory (export "memory") 1) (global \$stack (mut i64) (i64.const 65536)) (export "__stack_pointer" (global \$stack))
    (func (export "room") (param i64) (result i64) (i64.const ${3-16}))
    (func \$run (export "run") (param i64 i64) (result i32) $2))
EOF
    wasm-as --enable-mutable-globals "$work/$1.wat" -o "$work/$1.wasm"
}
stub unreachable '(unreachable)'
stub divides '(i32.div_s (i32.const 1) (i32.const 0))'
stub outside '(i32.load (i32.const 70000))'
stub recursion '(i32.add (i32.const 1) (call $run (local.get 0) (local.get 1)))'
stub stack '(global.set $stack (i64.const -16)) (i32.load (i32.const -16))'
stub no-room '(i32.const 0)' 0
judge_all 'the parts' node tests/web/parts.js "$wasm" "$work/heap.wasm" "$work" "$program"

# ends_by LINE COMMAND...: it fails, and says no more than this.
ends_by() {
    ! "${@:2}" > "$work/out" 2> "$work/err" && [ "$(cat "$work/err")" = "$1" ]
}
layout='target datalayout = "e-m:e-p270:32:32-p271:32:32-p272:64:64-i64:64-i128:128-f80:128-n8:16:32:64-S128"'
retarget() { printf '%b\n' "$1" | python3 web/retarget.py; }
judge 'a layout that is not that of x86-64' ends_by 'retarget.py: the layout is none that it knows: target datalayout = "e-p:32:32"' \
    retarget 'target datalayout = "e-p:32:32"'
judge 'another target' ends_by 'retarget.py: the module is not for x86_64-unknown-linux-gnu: target triple = "aarch64-unknown-linux-gnu"' \
    retarget "$layout\\ntarget triple = \"aarch64-unknown-linux-gnu\""
judge 'assembly' ends_by 'retarget.py: there is assembly in the module: call void asm sideeffect "cpuid", ""()' \
    retarget '  call void asm sideeffect "cpuid", ""()'
judge 'a line of the program' [ "$(retarget '  %r1 = add i64 %r0, 1')" = '  %r1 = add i64 %r0, 1' ]
judge 'attributes' [ "$(retarget 'attributes #0 = { nounwind "target-cpu"="x86-64-v2" }')" = 'attributes #0 = { nounwind }' ]
judge 'attributes of x86 alone' [ "$(retarget 'attributes #0 = { "target-cpu"="x86-64-v2" }')" = 'attributes #0 = { "none" }' ]

echo '(module (table 1 funcref) (elem (i32.const 0) $one) (func $one))' > "$work/table.wat"
wasm-as "$work/table.wat" -o "$work/table.wasm"
judge 'a table in which a function stands' ends_by 'untable.py: functions stand in the table' python3 web/untable.py "$work/table.wasm"

python3 -B web/pack.py "$wasm" "$(make/version.sh)" "$work/page.html"
judge 'a page that is packed again has the same bytes' cmp "$work/page.html" "$page"
judge 'no mark is left in the page' [ "$(grep -cE '@[A-Z]+@' "$page")" = 0 ]
judge 'the page has at most 1.2 MB' [ "$(stat -c %s "$page")" -le 1200000 ]

tell_counts

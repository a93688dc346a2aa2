#!/usr/bin/env bash
# Links the program that `make` proved and built once more, statically and without symbols, as out/static/ninecheck: so it needs no library
# of the system that it runs on. That is what is installed and packed. It needs a C compiler and a C library to link with (Debian's gcc
# and libc6-dev).
#
# It is linked of the object that lies beside the built program. Where the gate took the program from an earlier run on this machine there
# is none: then the program is proved once more, and its object made.
#
#   make/static.sh           links it, unless it stands
#   make/static.sh stands    ends with status 0 where it is there, and is made of the program as it is now
set -euo pipefail
cd "$(dirname "$0")/.."
made=crates/ninecheck/out/ninecheck
linked=out/static/ninecheck

give_up() {
    echo "the program is not linked statically: $1" >&2
    exit 1
}

case ${1-} in '' | stands) ;; *) echo 'usage: make/static.sh [stands]' >&2; exit 2 ;; esac
sum=$(cat make/static.sh "$made" "$made.o" 2> /dev/null | sha256sum) || true
[ ! -x "$linked" ] || [ "$sum" != "$(cat "$linked.made-from" 2> /dev/null)" ] || exit 0
[ "${1-}" != stands ] || exit 1
command -v rt > /dev/null || give_up '`rt`, the command of the Rattle kit, is not on the path'
command -v gcc > /dev/null || give_up '`gcc` is missing: it is in the package of that name'
kit=$(dirname "$(dirname "$(readlink -f "$(command -v rt)")")")
mkdir -p out/static
rm -f "$linked" "$linked.made-from"

if [ ! -f "$made.o" ]; then
    echo 'the object of the built program is made: some minutes'
    make/build_again.sh out/static/object.o out/static/object.log || give_up 'its object was not made: what stands above says why'
    mv out/static/object.o "$made.o"
fi
sum=$(cat make/static.sh "$made" "$made.o" | sha256sum)
gcc -static -s -o "$linked" "$made.o" "$kit/c/libos_c.a" "$kit/c/liblibc_c.a" || give_up 'gcc did not link it: what stands above says why'
[ "$(echo time_us,wire,byte | "$linked" check)" = 'yes: records 0, exchanges 0, open 0' ] || give_up 'what was linked does not run here'
echo "$sum" > "$linked.made-from"

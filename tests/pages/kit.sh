#!/usr/bin/env bash
# Compares the logic that the README names with that of the `rt` on this machine. Kits with other names may have the same logic, so
# another kit is told, and is no failure. The last line is 'N passed, M failed'.
set -u
cd "$(dirname "$0")/../.." || exit 1
. tests/lib/judge.sh

# named WORD: what the README has in marks after this word.
named() { tr '\n' ' ' < README.md | grep -o "$1 \`[^\`]*\`" | cut -d '`' -f 2; }

rt --version > "$work/out" 2>&1
read -r kit _ logic < "$work/out"
judge "the README names the logic: $(named 'the logic')" [ "$(named 'the logic')" = "$logic" ]
[ "$(named 'the kit')" = "$kit" ] || echo "The README names the kit $(named 'the kit'), and this one is $kit."

tell_counts

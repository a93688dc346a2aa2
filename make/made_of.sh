#!/usr/bin/env bash
# Writes what the program was made of besides the sources here, for whoever hands it on: the crates of the Rattle kit that are linked in,
# with the licences that their folders have, and the C library. Behind the list stands the text of each licence once.
set -euo pipefail
cd "$(dirname "$0")/.."
command -v rt > /dev/null || { echo 'the licences of the kit are not known: `rt` is not on the path' >&2; exit 1; }
kit=$(dirname "$(dirname "$(readlink -f "$(command -v rt)")")")

# take CRATE...: puts these crates of the kit, and those that each is made of, into `crates`.
declare -A crates=()
take() {
    local crate
    for crate; do
        [ -z "${crates[$crate]-}" ] || continue
        crates[$crate]=taken
        # shellcheck disable=SC2046
        take $(sed -n 's/^dep //p' "$kit/rlibs/$crate.rlib/format")
    done
}
for crate in $(awk -F: '!/^#/ && $1 !~ /_tests$/ { print $2 }' crates.txt | tr ' ' '\n' | sort -u); do
    [ ! -d "$kit/rlibs/$crate.rlib" ] || take "$crate"
done
mapfile -t names < <(printf '%s\n' "${!crates[@]}" | sort)

# licences_of CRATE: the files of its folder that are licences.
licences_of() { find "$kit/rattle/$1" -maxdepth 1 -type f -name 'LICEN*' 2> /dev/null | sort; }

cat << 'END'
# What ninecheck was made of

Besides its own sources the program has these in it. `ninecheck` itself has no licence yet: that is its owner's to choose.

| Part | Licence |
|---|---|
END
for crate in "${names[@]}"; do
    what=$(licences_of "$crate" | sed 's,.*/LICENSE-*,,; s/^$/the text below/; s/APACHE/Apache-2.0/' | paste -s -d '|' | sed 's/|/ or /g')
    echo "| \`$crate\`, of the Rattle kit | ${what:-none is named in the kit} |"
done
cat << 'END'
| the C library of the machine that it was linked on, GNU libc | LGPL-2.1 or later |

It is linked statically with GNU libc. Its licence asks that whoever gets the program can link it with another version: whoever hands the
program on has to offer the object file that `make` leaves beside it, and the two C archives of the kit.

END
for crate in "${names[@]}"; do licences_of "$crate"; done | while IFS= read -r file; do
    echo "$(sha256sum < "$file" | cut -c 1-16)|$file"
done | sort -s -t '|' -k 1,1 | awk -F '|' '
    { files[$1] = crate = $2; sub(/\/LICEN[^\/]*$/, "", crate); sub(/.*\//, "", crate); of[$1] = of[$1] ", " crate }
    END { for (sum in files) print files[sum] "|" substr(of[sum], 3) }' | sort | while IFS='|' read -r file of; do
    printf '## %s, of %s\n\n' "$(basename "$file")" "$of"
    sed 's/^/    /; s/ *$//' "$file"
    echo
done

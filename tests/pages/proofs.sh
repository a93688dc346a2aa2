#!/usr/bin/env bash
# Checks that the page of each crate's proofs names each of their files once, after the files that it cites.
# The last line is 'N passed, M failed'.
set -u
cd "$(dirname "$0")/../.." || exit 1
. tests/lib/judge.sh

# The files that a page names, in its order, and those that there are.
named() { sed -n 's/^| `\([A-Za-z]*\)` |.*/\1/p' "$1/README.md"; }
there() { find "$1" -maxdepth 1 -name '*.antt' ! -name Lib.antt | sed 's#.*/##; s#\.antt$##' | sort; }

# cites_earlier PROOFS FILE EARLIER...: whether a file cites those alone that the page names before it.
cites_earlier() {
    local proofs=$1 file=$2 cited
    shift 2
    for cited in $(grep -oE "\.$(basename "$(dirname "$proofs")")\.proofs\.[A-Z][A-Za-z]*" "$proofs/$file.antt" | sed 's/.*\.//' | sort -u); do
        case " $* " in *" $cited "*) ;; *) return 1 ;; esac
    done
}

for proofs in crates/*/proofs; do
    judge "$proofs has a page" [ -f "$proofs/README.md" ]
    judge "the page of $proofs names its files" [ "$(named "$proofs" | sort)" = "$(there "$proofs")" ]
    earlier=''
    for file in $(named "$proofs"); do
        judge "$proofs/$file cites what is named before it" cites_earlier "$proofs" "$file" $earlier
        earlier="$earlier $file"
    done
done

tell_counts

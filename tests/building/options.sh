#!/usr/bin/env bash
# Each option that a word takes, by the sources of crates/words9 (options.py), stands in all places that name it: the word's help, the
# completions of three shells for that word, the man page and a page of docs/. No place has another. Each word stands there too. The last
# line is 'N passed, M failed'.
set -u
cd "$(dirname "$0")/../.." || exit 1
. tests/lib/tools.sh
need_tools zsh fish python3
. tests/lib/judge.sh
. tests/lib/program.sh

# listed: the long options of standard input, one a line, without their hyphens and each once.
listed() { grep -o -- '--[a-z-]*' | sed 's/^--//' | sort -u; }

in_help() {
    # shellcheck disable=SC2086
    "$program" $1 --help | sed -n '/^Options:/,$s/^ *\(-h, \)\{0,1\}\(--[a-z-]*\).*/\2/p' | listed
}
in_bash() {
    bash -c 'source package/ninecheck.bash; _ninecheck_options "$1"' bash "${1#convert }" | listed
}
# What the list of its options is, for a word; `return` leaves a word that has none.
in_zsh() {
    zsh -fc "options_of() { local asked=\$1; local -a options; $(sed -n '/^local hands=/,/^esac/p' package/ninecheck.zsh)
        print -l -- --help \$options }; options_of \"\$1\"" zsh "${1#convert }" | sed 's/\[.*//' | listed
}
in_fish() {
    HOME=$work XDG_DATA_DIRS=$work fish -c 'source package/ninecheck.fish; complete -C $argv[1]' "ninecheck $1 --" | cut -f 1 | listed
}

# The options that the man page has an entry for, and its synopsis; and all pages.
manual=$(sed 's/\\-/-/g' package/ninecheck.1)
in_manual=$(sed -n '/^\.SH OPTIONS/,/^\.SH EXIT/p' <<< "$manual" | grep -A 1 '^\.TP' | listed)
synopsis=$(sed -n '/^\.SH SYNOPSIS/,/^\.SH DESC/p' <<< "$manual")
pages=$(cat README.md docs/*.md)

judge_word() {
    local word=$1 options=$2 place option
    tr ' ' '\n' <<< "$options help" | sort -u > "$work/want"
    for place in help bash zsh fish; do
        "in_$place" "$word" > "$work/out" 2> "$work/err"
        judge "$word: the options in $place" cmp "$work/out" "$work/want"
    done
    for option in $options; do
        judge "$word: --$option has an entry in the man page" grep -qxF -- "$option" <<< "$in_manual"
        judge "$word: --$option stands on a page" grep -qE -- "--$option([^a-z-]|$)" <<< "$pages"
    done
    judge "$word stands in the man page" grep -qE "(^|[ .|\"])${word##* }([ |\"]|$)" <<< "$synopsis"
    judge "$word stands on a page" grep -qE "(ninecheck |\`)${word}[ \`]" <<< "$pages"
}

# The words that completions offer, and those that there are: of `json` and `convert` the first alone.
python3 -B tests/building/options.py > "$work/words"
judge 'the words are those of the help' cmp <(cut -d '|' -f 1 "$work/words" | sort) \
    <("$program" --help | sed -n '/^Commands:/,/^$/s/^  \([a-z ]*[a-z]\)  .*/\1/p' | grep -v '^help$' | sort)
judge 'the words of the completion of bash' cmp <({ echo help && cut -d '|' -f 1 "$work/words" | cut -d ' ' -f 1; } | sort -u) \
    <(sed -n "s/^    local words='\(.*\)'/\1/p" package/ninecheck.bash | tr ' ' '\n' | sort)
while IFS='|' read -r word options _; do
    judge_word "$word" "$options"
done < "$work/words"

# What a word only takes, and help does not list, does no harm there.
while IFS='|' read -r word _ options; do
    for option in $options; do
        # shellcheck disable=SC2086
        "$program" $word "--$option" examples/late-reply.csv > "$work/out" 2> "$work/err"
        status=$?
        judge "$word takes --$option" [ "$status" = 1 ]
    done
done < "$work/words"

tell_counts

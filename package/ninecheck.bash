# Completes the words of ninecheck in bash.

# _ninecheck_options WORD...: the options of a word, or of an export.
_ninecheck_options() {
    local always='--hands --sync --rate --deck'
    local judging="$always --all --line-buffered"
    case $1 in
        check) echo "$judging --help" ;;
        explain) echo "--bytes $judging --help" ;;
        json | 'json explain') echo "--bytes $judging --from --to --help" ;;
        digest | motion | 'json check' | 'json why') echo "$judging --from --to --help" ;;
        delays) echo "$always --all --from --to --help" ;;
        page) echo "$always --from --to --help" ;;
        why) echo "$judging --quiet --help" ;;
        run | 'json run') echo "$always --help" ;;
        picture) echo "$always --all --at --width --help" ;;
        touches) echo '--sync --rate --deck --help' ;;
        try) echo '--all --sync --rate --deck --help' ;;
        clock) echo '--seconds --help' ;;
        info) echo '--sync --rate --help' ;;
        split) echo '--to --rows --help' ;;
        sigrok) echo '--samplerate --from --to --help' ;;
        saleae) echo '--controller --deck --from --to --help' ;;
        log) echo '--controller --deck --unit --live --from --to --help' ;;
    esac
}

# _ninecheck_sheets WORD: the sheets inside the program, for a word whose --deck is a sheet.
_ninecheck_sheets() {
    case $1 in
        saleae | log) ;;
        *) echo '9pin edit eject jog no-bit rewind standby user-bits var-play' ;;
    esac
}

_ninecheck() {
    local word=${COMP_WORDS[COMP_CWORD]} before=${COMP_WORDS[COMP_CWORD - 1]} asked=${COMP_WORDS[1]}
    local words='check explain run why convert split try digest delays motion touches picture page json clock info help'
    if [ "$COMP_CWORD" = 1 ]; then
        mapfile -t COMPREPLY < <(compgen -W "$words --help --version" -- "$word")
        return
    fi
    case $asked:$COMP_CWORD in
        help:2) mapfile -t COMPREPLY < <(compgen -W "$words" -- "$word") && return ;;
        convert:2) mapfile -t COMPREPLY < <(compgen -W 'sigrok saleae log --help' -- "$word") && return ;;
        json:2) [[ $word == -* ]] || { mapfile -t COMPREPLY < <(compgen -fW 'check explain run why' -- "$word") && return; } ;;
    esac
    case $asked:$COMP_CWORD:${COMP_WORDS[2]} in
        convert:*) asked=${COMP_WORDS[2]} ;;
        json:2:*) ;;
        json:*:check | json:*:explain | json:*:run | json:*:why) asked="json ${COMP_WORDS[2]}" ;;
    esac
    # In `--rate=25` the equals sign is a word of its own.
    [ "$word" != = ] || word=
    [ "$before" != = ] || before=${COMP_WORDS[COMP_CWORD - 2]}
    case $before in
        --rate) mapfile -t COMPREPLY < <(compgen -W '24 25 30 29.97df' -- "$word") && return ;;
        --unit) mapfile -t COMPREPLY < <(compgen -W 'ms us' -- "$word") && return ;;
    esac
    case $before:$word in
        --deck:*) mapfile -t COMPREPLY < <(compgen -f -W "$(_ninecheck_sheets "$asked")" -- "$word") ;;
        *:-*) mapfile -t COMPREPLY < <(compgen -W "$(_ninecheck_options "$asked")" -- "$word") ;;
        *) mapfile -t COMPREPLY < <(compgen -f -- "$word") ;;
    esac
}
complete -o filenames -F _ninecheck ninecheck

# To be sourced by a script of tests that compares what stands on standard error.

# both_lines LINE [FIELD [FILE [HINT]]]: the first line that is said of a capture or a stream, and the second that belongs to it;
# nothing where nothing is said. FIELD is what the row has in the field that is wrong, as it is shown between the quotes; FILE that of the
# capture, of none where it is standard input. Of a header FIELD is the capture's first line, and the HINT stands after it; where memory
# was refused, it is what the word keeps, which is a row if left out.
both_lines() {
    local named=${3:+$3: }
    [ -n "$1" ] || return 0
    echo "$1"
    case $1 in
        *': header')
            [ -n "${2-}" ] && default='; ninecheck convert makes captures of exports, see docs/CAPTURE.md' || default='; there is no text in it'
            echo "${3:-standard input}: expected the header time_us,wire,byte; the first line is \"${2-}\"${4:-$default}" ;;
        *': fields') echo "${named}expected three fields: time_us,wire,byte" ;;
        *': time') echo "${named}expected 1 to 15 decimal digits, the time in microseconds; the row has \"${2-}\"" ;;
        *': wire') echo "${named}expected C for the controller's wire, or D for the deck's; the row has \"${2-}\"" ;;
        *': byte') echo "${named}expected two hexadecimal digits; the row has \"${2-}\"" ;;
        *': backwards') echo "${named}expected a time no earlier than that of the row before; the row has \"${2-}\"" ;;
        *': too many rows')
            echo "${named}expected at most 4000000 rows; --all judges a longer capture" ;;
        'read fault at row '*) echo "${named}expected a capture that can be read to its end, not a directory" ;;
        'write fault')
            echo 'standard output is full or closed; it has only the first part of the report' ;;
        'out of memory')
            case ${2-} in
                exchanges) echo 'the exchanges are kept, and may be too many, or a row may never end: ninecheck split cuts a capture, or see ulimit -v' ;;
                capture) echo 'the whole capture is kept, and may be too large: ninecheck split cuts it, or see ulimit -v' ;;
                export) echo 'every byte of the export is kept, and it may be too large: convert a part with --from and --to, or see ulimit -v' ;;
                line) echo 'a line may never end, or memory is short: see ulimit -v' ;;
                *) echo 'a row may never end, or memory is short: see ulimit -v' ;;
            esac ;;
        *) echo "no second line is known of: $1" ;;
    esac
}

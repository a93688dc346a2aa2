#!/usr/bin/env bash
# Runs the built program on what docs/PROFILE.md says of commands that are not listed, and of replies that are P5 here,
# row by row of its tables, and compares the table of second lines in docs/OUTPUT.md with the one that the other tests go by.
# The last line is 'N passed, M failed'.
set -u
cd "$(dirname "$0")/../.." || exit 1
. tests/lib/judge.sh
. tests/lib/program.sh
. tests/lib/errors.sh
. tests/lib/blocks.sh

# blocks BLOCKS: a capture of blocks, each a wire and its bytes without the sum, parted by commas.
blocks() {
    records "${1//,/ sum } sum"
}

# table TITLE: the rows of the tables after this title, their cells parted by bars without blanks and marks.
table() {
    sed -n "/^### $1/,/^##/p" docs/PROFILE.md | grep '^| `' | sed 's/^| //; s/ |$//; s/`//g; s/ | /|/g'
}

# is_told NAME TEXT: the last exchange's line of the explanation has this text.
is_told() {
    judge "$command: $1" grep -q "$2" <(tail -n 2 "$work/out" | head -n 1)
}

# in_sheet TABLE FORM: this table of the sheet 9pin has a line of this form.
in_sheet() { sed -n "/^\[$1\]/,/^\[/p" decks/nine-pin-commands.toml | grep -q "$2"; }

# not_in_sheet TABLE COMMAND: it has no line for this command.
not_in_sheet() { ! in_sheet "$1" "^\"$2\""; }

# reply_of FORM: a reply of this form, without its checksum: of any number of data none.
reply_of() {
    local first=${1%% *} count
    first=${first/\*/0}
    count=$((0x$first % 16))
    echo "$first ${1##* }$(printf "%${count}s" '' | sed 's/ / 00/g')"
}

# The deck is in remote, goes for STOP and shows it, and has IN at 10:00:00:00; then comes the command; and then the deck shows REC.
known='C 61 20 01,D 71 20 00,C 20 00,D 10 01,C 61 20 12,D 72 20 20 00,C 44 14 00 00 00 10,D 10 01'
recording='C 61 20 12,D 72 20 02 00'
rows=0
while IFS='|' read -r command name sheet; do
    first=${command%% *}
    # Group 2 touches the tape and the registers, group 4 the registers. Of a sense request the table has the replies.
    replies='10 01'
    case $first in
        2*) forgets='the tape and the registers' ;;
        4*) forgets='the registers' ;;
        *) forgets=nothing replies=$sheet sheet='not named' ;;
    esac
    data=$(printf "%$((0x$first % 16))s" '' | sed 's/ / 00/g')
    blocks "$known,C $command$data,D 10 01" | "$program" explain > "$work/out" 2>&1
    is_told 'its bytes' ": $command -> ACK,"
    is_told 'remote is kept' ', local no,'
    case $forgets in
        nothing) is_told 'IN is kept' ', in 10:00:00:00,' ;;
        'the registers' | 'the tape and the registers') is_told 'IN is forgotten' ', in unknown,' ;;
    esac
    blocks "$known,C $command$data,D 10 01,$recording" | "$program" check > "$work/out" 2>&1
    case $sheet in
        'not named') judge "$command: the sheet 9pin does not say what is forgotten" not_in_sheet forgets "$command" ;;
        '['*) judge "$command: the sheet 9pin's goals" in_sheet goals "^\"$command\" = \\$sheet  *# $name\$" ;;
        *) judge "$command: the sheet 9pin's word" in_sheet forgets "^\"$command\" = $sheet  *# $name\$" ;;
    esac
    # With the sheet it has its name, takes its replies and a NAK, and no other reply.
    IFS=',' read -ra forms <<< "$replies"
    for form in "${forms[@]}"; do
        blocks "C $command$data,D $(reply_of "${form# }")" | "$program" explain --deck decks/nine-pin-commands.toml > "$work/out" 2>&1
        judge "$command: its name, with $form" grep -q "^record [0-9]*: $name -> " "$work/out"
        judge "$command: takes $form" grep -q '^yes' "$work/out"
    done
    blocks "C $command$data,D 11 12 01" | "$program" check --deck decks/nine-pin-commands.toml > "$work/out" 2>&1
    judge "$command: takes a NAK" grep -q '^yes' "$work/out"
    blocks "C $command$data,D 72 3F 00 00" | "$program" check --deck decks/nine-pin-commands.toml > "$work/out" 2>&1
    judge "$command: takes no other reply" grep -q ': P5 ' "$work/out"
    blocks "$known,C $command$data,D 10 01,$recording" | "$program" check > "$work/out" 2>&1
    case $forgets in
        'the tape and the registers') judge "$command: the mode is forgotten" grep -q '^yes' "$work/out" ;;
        *) judge "$command: the mode is kept" grep -q ': M1 ' "$work/out" ;;
    esac
    rows=$((rows + 1))
done < <(table 'Not listed')
judge "rows of commands: $rows" [ "$rows" = 48 ]

rows=0
while IFS='|' read -r command reply what; do
    blocks "C $command,D $reply" > "$work/capture"
    "$program" check < "$work/capture" > "$work/out" 2>&1
    judge "$command answered by $what" grep -q "^no at record $(($(wc -l < "$work/capture") - 1)): P5 " "$work/out"
    rows=$((rows + 1))
done < <(table 'Forms of replies')
judge "rows of replies: $rows" [ "$rows" = 6 ]

# The rows of second lines, but for the three that name a file, which tests/program/program.sh has.
rows=0
while IFS='|' read -r first second; do
    both_lines "${first/row K/row 7}" F > "$work/out"
    judge "the second line of '$first'" [ "$(tail -n +2 "$work/out")" = "$second" ]
    rows=$((rows + 1))
done < <(sed -n '/^| First line | Second line |$/,/^$/p' docs/OUTPUT.md | grep '^| `' | grep -v 'FILE' |
    sed 's/^| `//; s/` |$//; s/` | `/|/')
judge "rows of second lines: $rows" [ "$rows" = 9 ]
for kept in exchanges capture export line; do
    both_lines 'out of memory' "$kept" > "$work/out"
    judge "the second line of a word that keeps this: $kept" grep -qF "| \`$(tail -n +2 "$work/out")\` |" docs/OUTPUT.md
done

tell_counts

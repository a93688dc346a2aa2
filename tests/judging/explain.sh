#!/usr/bin/env bash
# Runs the built program's `explain` on captures whose lines are known. The last line is 'N passed, M failed'.
set -u
cd "$(dirname "$0")/../.." || exit 1
. tests/lib/judge.sh
. tests/lib/program.sh
. tests/lib/errors.sh
. tests/lib/blocks.sh

# What stands for a line's end, where nothing is known of the audio registers.
audio=', ain unknown, aout unknown'

# explain RECORDS [WORDS...]: the program on a capture of these records.
explain() {
    run explain "${@:2}" < <(records "$1")
}

# is_report STATUS: the whole report is $want, and nothing was said beside it.
is_report() {
    printf '%s\n' "$want" > "$work/want"
    [ "$status" = "$1" ] && cmp -s "$work/out" "$work/want" && [ ! -s "$work/err" ]
}

# has_line N LINE: line N of the report.
has_line() {
    [ "$(sed -n "$1p" "$work/out")" = "$2" ]
}

# The end of the tape: the deck may have reached PLAY and fallen to STOP between two replies.
explain "$remote C 20 10 30 $ack C 61 20 12 93 D 72 20 04 00 96 C 20 01 21 $ack C 61 20 12 93 D 72 20 20 00 B2"
want="record 8: STATUS SENSE -> 71 20, delay 400, goal unknown, shown unknown, in unknown, out unknown, local no$audio
record 14: FAST FWD -> ACK, delay 400, goal FF, shown unknown, in unknown, out unknown, local no$audio
record 23: STATUS SENSE -> 72 20, delay 400, goal FF, shown FF, in unknown, out unknown, local no$audio
record 29: PLAY -> ACK, delay 400, goal PLAY, shown unknown, in unknown, out unknown, local no$audio
record 38: STATUS SENSE -> 72 20, delay 400, goal unknown, shown STOP, in unknown, out unknown, local no$audio
yes: records 38, exchanges 5, open 0"
judge 'five exchanges' is_report 0

# One exchange and no more: a refusal with two bits, and a command that is not listed.
explain 'C 20 01 21 D 11 12 14 37'
want="record 7: PLAY -> NAK 14 checksum+parity, delay 400, goal unknown, shown unknown, in unknown, out unknown, local unknown$audio
yes: records 7, exchanges 1, open 0"
judge 'a refusal with two bits' is_report 0
explain "C 20 40 60 $ack"
want="record 6: 20 40 -> ACK, delay 400, goal unknown, shown unknown, in unknown, out unknown, local unknown$audio
yes: records 6, exchanges 1, open 0"
judge 'a command that is not listed' is_report 0

# The verdict line alone: no record, an open command, and a record that breaks a rule before an exchange is whole.
explain ''
want='yes: records 0, exchanges 0, open 0'
judge 'no record' is_report 0
explain 'C 20 01'
want='yes: records 2, exchanges 0, open 2'
judge 'an open command' is_report 0
explain 'C 20 01 22'
want='no at record 3: B2 wrong sum'
judge 'a wrong checksum' is_report 1

# The exchange at which the reason is found has no line.
explain "$remote C 40 10 50 $ack C 60 10 70 D 74 10 00 00 00 05 89 C 60 10 70 D 74 10 01 00 00 05 8A"
judge 'no run remains, the verdict' has_line 4 'no at record 34: M1 no run remains'
judge 'no run remains, the lines' has_lines 4
judge 'no run remains, the status' [ "$status" = 1 ]

# A refused preset changes nothing.
explain "$remote $preset C 44 14 00 00 00 11 69 D 11 12 01 24 C 60 10 70 D 74 10 00 00 00 10 94"
judge 'a refused preset' has_line 3 \
    "record 29: IN DATA PRESET -> NAK 01 undefined, delay 400, goal unknown, shown unknown, in 10:00:00:00, out unknown, local no$audio"
judge 'a refused preset, the verdict' has_line 5 'yes: records 39, exchanges 4, open 0'

# Hands on the panel: tests/cases/panel.txt has the lines of the first capture with hands.
hands="C 00 0C 0C $ack $remote $preset C 00 1D 1D $ack C 60 10 70 D 74 10 00 00 00 11 95"
explain "$hands"
judge 'the same without hands' has_line 5 'no at record 40: M1 no run remains'
explain 'C 00 0C 0C D 11 12 01 24' --hands
want="record 7: LOCAL DISABLE -> NAK 01 undefined, delay 400, goal unknown, shown unknown, in unknown, out unknown, local unknown$audio, panel unknown
yes: records 7, exchanges 1, open 0"
judge 'a refused LOCAL DISABLE' is_report 0
explain "$local" --hands
judge 'a deck in local' has_line 2 'yes: records 8, exchanges 1, open 0'

# A bad row ends the lines, and there is no verdict.
{
    cat examples/play.csv
    echo '2800,C,G1'
} | "$program" explain > "$work/out" 2> "$work/err"
status=$?
judge 'a bad row, the status' [ "$status" = 3 ]
judge 'a bad row, the lines on standard error' [ "$(cat "$work/err")" = "$(both_lines 'unreadable at row 7: byte' G1)" ]
judge 'a bad row, the lines before it' has_lines 1
judge 'a bad row, the line of PLAY' has_line 1 \
    "record 6: PLAY -> ACK, delay 400, goal unknown, shown unknown, in unknown, out unknown, local unknown$audio"

# A pipe that closes while a long report is written ends the program, which says nothing of it.
records "$play" 100000 > "$work/long.csv"
judge_closed_pipe explain "$work/long.csv"
"$program" explain "$work/long.csv" > "$work/out" 2> "$work/err"
status=$?
judge 'a long report, the status' [ "$status" = 0 ]
judge 'a long report, its lines' has_lines 100001
judge 'a long report, the last line' has_line 100001 'yes: records 600000, exchanges 100000, open 0'

tell_counts

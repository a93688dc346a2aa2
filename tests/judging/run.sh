#!/usr/bin/env bash
# Runs the built program's `run`. Which of several runs it hands out is not promised, so each line is held to its form,
# and to what `explain` says is known after the same exchange. The last line is 'N passed, M failed'.
set -u
cd "$(dirname "$0")/../.." || exit 1
. tests/lib/judge.sh
. tests/lib/program.sh
. tests/lib/errors.sh
. tests/lib/blocks.sh

# The forms of what a line holds.
mode='(STOP|PLAY|REC|FF|REW|SHUTTLE|JOG|VAR|CUED|EJECT)'
time='([01][0-9]|2[0-3]):[0-5][0-9]:[0-5][0-9]:([01][0-9]|2[0-4])'
register="(clear|$time)"

# line_form RECORD GOAL SHOWN IN OUT LOCAL: the form of a line with these, but for the panel.
line_form() {
    echo "record $1: goal $2, shown $3, in $4, out $5, local $6, ain $register, aout $register"
}
any_line=$(line_form '[0-9]+' "$mode" "$mode" "$register" "$register" '(yes|no)')

# run_of FILE [WORDS...]: the program's run on this capture. Its text is left in $work/out.
run_of() {
    run run "$@" < /dev/null
}

# has_line N FORM: line N of the text has this form.
has_line() {
    sed -n "$1p" "$work/out" | grep -qxE -- "$2"
}

# agrees: each line of a run is of its form, with this at its end, and names the record of the line of the explanation
# in $work/explained, and each field that is known there; the last line is the same. What the deck may do by itself is in none of a run.
agrees() {
    sed '$d' "$work/out" | { ! grep -vxE -- "$any_line$1"; } &&
        sed -E 's/^(record [0-9]+: ).*, delay [0-9]+, /\1/; s/, may (run|lose) [^,]*//g' "$work/explained" |
        paste -d '\n' - "$work/out" | awk -F ', ' '
            NR % 2 == 1 { split($0, known, ", "); fields = NF; whole = $0; next }
            fields == 3 { if ($0 != whole) exit 1; next }
            fields != NF { exit 1 }
            {
                for (field = 1; field <= NF; field++) {
                    name = known[field]
                    sub(/ [^ ]+$/, "", name)
                    if (index($field, name " ") != 1) exit 1
                    if (known[field] == name " unknown") continue
                    if (known[field] == name " set" && $field != name " clear") continue
                    if (known[field] != $field) exit 1
                }
            }'
}

# is_run FILE [WORDS...]: a yes, with a run that agrees with the explanation.
is_run() {
    local panel=
    case " $* " in *' --hands '*) panel=', panel (on|off)' ;; esac
    "$program" explain "$@" > "$work/explained" < /dev/null && run_of "$@" &&
        [ "$status" = 0 ] && [ ! -s "$work/err" ] && has_lines "$(wc -l < "$work/explained")" && agrees "$panel"
}

# is_untouched FILE: a yes without hands. Nobody has to touch the deck, so the run with hands is the run without, but for the panel.
is_untouched() {
    "$program" run "$1" > "$work/untouched" < /dev/null && run_of "$1" --hands &&
        [ "$status" = 0 ] && [ -s "$work/untouched" ] && sed 's/, panel o[nf]*$//' "$work/out" | cmp -s - "$work/untouched"
}

# The examples: a run where the answer is a yes, else the verdict's line alone, or nothing.
while IFS='|' read -r file want_status want_out want_err; do
    case "$file" in '#'* | '') continue ;; esac
    run_of "examples/$file"
    if [ "$want_status" = 0 ]; then
        judge "examples/$file" is_run "examples/$file"
        judge "examples/$file with hands" is_run "examples/$file" --hands
        judge "examples/$file, its last line" [ "$(tail -n 1 "$work/out")" = "$want_out" ]
        judge "examples/$file, with hands as without" is_untouched "examples/$file"
    else
        judge "examples/$file" is_text "$want_status" "$want_out" "${want_err//|/$'\n'}"
    fi
done < examples/ANSWERS

# The end of the tape, line by line: in FF the deck falls to STOP between two replies, or does not stop before it has
# the goal PLAY; its registers stay as they are.
run_of examples/fast-forward.csv
judge 'five exchanges, the lines' has_lines 6
judge 'five exchanges, the first line' has_line 1 "$(line_form 8 "$mode" "$mode" "$register" "$register" no)"
judge 'five exchanges, the second line' has_line 2 "$(line_form 14 FF "$mode" "$register" "$register" no)"
judge 'five exchanges, the third line' has_line 3 "$(line_form 23 FF FF "$register" "$register" no)"
judge 'five exchanges, the fourth line' has_line 4 "$(line_form 29 PLAY '(FF|STOP)' "$register" "$register" no)"
judge 'five exchanges, the fifth line' has_line 5 "$(line_form 38 '(PLAY|STOP)' STOP "$register" "$register" no)"
judge 'five exchanges, the last line' has_line 6 'yes: records 38, exchanges 5, open 0'
judge 'five exchanges, the registers' [ "$(sed -n 's/^record.*, in /in /p' "$work/out" | sort -u | wc -l)" = 1 ]
run_of examples/fast-forward.csv --hands
judge 'five exchanges with hands, the records' \
    [ "$(sed -n 's/^record \([0-9]*\): .*, panel o[nf]*$/\1/p' "$work/out" | tr '\n' ' ')" = '8 14 23 29 38 ' ]
judge 'five exchanges with hands, the panel' has_line 3 \
    "$(line_form 23 FF FF "$register" "$register" '(yes|no)'), panel (on|off)"

# No exchange, and records that break a rule after one: the verdict's line alone.
capture_of ''
run_of "$work/capture.csv"
judge 'no record' is_text 0 'yes: records 0, exchanges 0, open 0' ''
capture_of 'C 20 01'
run_of "$work/capture.csv" --hands
judge 'an open command' is_text 0 'yes: records 2, exchanges 0, open 2' ''
capture_of "C 20 01 21 $ack C 20 01 22"
run_of "$work/capture.csv"
judge 'a wrong sum after an exchange' is_text 1 'no at record 9: B2 wrong sum' ''
capture_of "$remote C 40 10 50 $ack C 60 10 70 D 74 10 00 00 00 05 89 C 60 10 70 D 74 10 01 00 00 05 8A"
run_of "$work/capture.csv"
judge 'no run remains' is_text 1 'no at record 34: M1 no run remains' ''

# A bad row, also after an exchange: nothing is written of a run.
capture_of "C 20 01 21 $ack"
echo '2800,C,G1' >> "$work/capture.csv"
run_of "$work/capture.csv"
judge 'a bad row' is_text 3 '' "$(both_lines 'unreadable at row 7: byte' G1 "$work/capture.csv")"

# Two of three shifts of a local deck are done: which, is not known before the register is sensed.
capture_of "$local_at_10 $shift $shift $shift C 60 10 70 D 74 10 02 00 00 10 96"
judge 'shifts of a local deck' is_run "$work/capture.csv"
at='10:00:00:0'
judge 'shifts, the register sensed' has_line 2 "$(line_form 21 "$mode" "$mode" "${at}0" clear yes)"
judge 'shifts, the first' has_line 3 "$(line_form 27 "$mode" "$mode" "${at}[01]" clear yes)"
judge 'shifts, the second' has_line 4 "$(line_form 33 "$mode" "$mode" "${at}[12]" clear yes)"
judge 'shifts, the third' has_line 5 "$(line_form 39 "$mode" "$mode" "${at}2" clear yes)"
judge 'shifts, the register sensed again' has_line 6 "$(line_form 49 "$mode" "$mode" "${at}2" clear yes)"

# The dispute, which needs a hand: it moves the IN point while the panel is on.
capture_of "C 00 0C 0C $ack $remote $preset C 00 1D 1D $ack C 60 10 70 D 74 10 00 00 00 11 95"
run_of "$work/capture.csv"
judge 'the dispute without hands' is_text 1 'no at record 40: M1 no run remains' ''
judge 'the dispute with hands' is_run "$work/capture.csv" --hands
judge 'the dispute, the preset' has_line 3 \
    "$(line_form 24 "$mode" "$mode" 10:00:00:00 "$register" no), panel off"
judge 'the dispute, the panel' has_line 4 \
    "$(line_form 30 "$mode" "$mode" 10:00:00:00 "$register" no), panel on"
judge 'the dispute, the hand' has_line 5 \
    "$(line_form 40 "$mode" "$mode" 11:00:00:00 "$register" '(yes|no)'), panel on"

# What a deck does by itself: it runs an edit with the goal STOP, and clears IN some time after EJECT, where STOP keeps no cassette in.
acting='--deck tests/cases/acting.toml'
capture_of "$remote C 20 00 20 $ack C 61 20 12 93 D 72 20 20 00 B2 C 20 42 62 $ack C 61 20 12 93 D 72 20 00 20 B2 C 61 20 12 93 D 72 20 02 80 14"
for words in "$acting" "--hands $acting"; do
    # shellcheck disable=SC2086
    judge "an edit, $words" is_run "$work/capture.csv" $words
done
# shellcheck disable=SC2086
run_of "$work/capture.csv" $acting
judge 'an edit, SHUTTLE' has_line 5 "$(line_form 38 STOP SHUTTLE "$register" "$register" no)"
judge 'an edit, REC' has_line 6 "$(line_form 47 STOP REC "$register" "$register" no)"
capture_of "$remote $preset C 20 0F 2F $ack C 61 20 31 B2 D 71 20 01 92 C 20 00 20 $ack C 61 20 31 B2 D 71 20 00 91"
for words in "$acting" "--hands $acting"; do
    # shellcheck disable=SC2086
    judge "IN is lost, $words" is_run "$work/capture.csv" $words
done
# shellcheck disable=SC2086
run_of "$work/capture.csv" $acting
judge 'IN is lost, while it is set' has_line 4 "$(line_form 32 "$mode" "$mode" "${at}0" clear no)"
judge 'IN is lost, and it is clear' has_line 6 "$(line_form 46 STOP "$mode" clear clear no)"

# What may be ignored, refused, forgotten or captured, and what only one view can tell.
while IFS='|' read -r name records; do
    capture_of "$records"
    judge "$name" is_run "$work/capture.csv"
    judge "$name, with hands" is_run "$work/capture.csv" --hands
done <<END
a refusal with two bits|C 20 01 21 D 11 12 14 37
a command that is not listed|C 20 40 60 $ack
a capture of IN that is sensed twice|C 40 10 50 $ack C 60 10 70 D 74 10 00 00 00 05 89 C 60 10 70 D 74 10 00 00 00 05 89
a refused preset|$remote $preset C 44 14 00 00 00 11 69 D 11 12 01 24 C 60 10 70 D 74 10 00 00 00 10 94
an audio preset|$remote C 44 16 00 00 00 10 6A $ack C 60 12 72 D 74 12 00 00 00 10 96
a refused LOCAL DISABLE|C 00 0C 0C D 11 12 01 24
a deck in local|$local
a preset that a deck in local ignores|$local_at_10 C 44 14 00 00 00 11 69 $ack C 60 10 70 D 74 10 00 00 00 10 94
a shift over midnight|$remote C 44 14 24 59 59 23 51 $ack $shift C 60 10 70 D 74 10 00 00 00 00 84
END

# Longer than several stretches of exchanges: in turn a preset, a shift and a sense, of a deck in local that does every
# second preset and every third shift.
capture_of "$(awk '
    function bcd(n) { return int(n / 10) * 16 + n % 10 }
    function at(frame) { return sprintf("%02X %02X %02X 10 sum", bcd(frame % 25), bcd(int(frame / 25) % 60), bcd(int(frame / 1500) % 60)) }
    BEGIN {
        print "C 61 20 01 82 D 71 20 01 92 C 60 10 70 D 74 10 " at(held = 0)
        for (turn = 1; turn <= 2000; turn++) {
            print "C 44 14 " at(turn * 3) " D 10 01 11"
            if (turn % 2 == 0) held = turn * 3
            print "C 40 18 58 D 10 01 11"
            if (turn % 3 == 0) held++
            if (turn % 5 == 0) print "C 60 10 70 D 74 10 " at(held)
        }
    }')"
mv "$work/capture.csv" "$work/long.csv"
judge 'many stretches' is_run "$work/long.csv"
judge 'many stretches, the lines' has_lines 4403
judge 'many stretches, with hands' is_run "$work/long.csv" --hands
judge 'many stretches, with hands as without' is_untouched "$work/long.csv"

# A pipe that closes while a long text is written ends the program, with two lines on standard error.
records "$play" 100000 > "$work/long.csv"
judge_closed_pipe run "$work/long.csv"
run_of "$work/long.csv"
judge 'a long text, the status' [ "$status" = 0 ]
judge 'a long text, its lines' has_lines 100001
in_order=$(awk -F '[ :]' '/^record/ && $2 == 6 * NR { n++ } END { print n }' "$work/out")
judge 'a long text, the records' [ "$in_order" = 100000 ]
judge 'a long text, the last line' has_line 100001 'yes: records 600000, exchanges 100000, open 0'

tell_counts

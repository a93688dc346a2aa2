#!/usr/bin/env bash
# Runs the built program's `why`: the lines of the replies that contradict one another, and of what the deck could show;
# the lines of what is open where a record breaks a rule of blocks, pairing or timing, and of that record; and the line of
# the verdict. The last line is 'N passed, M failed'.
set -u
cd "$(dirname "$0")/../.." || exit 1
. tests/lib/judge.sh
. tests/lib/program.sh
. tests/lib/errors.sh
. tests/lib/blocks.sh

# A sense of IN that answers 11:00:00:00.
sensed_at_11='C 60 10 70 D 74 10 00 00 00 11 95'

# why FILE [WORDS...]: the program's why of this capture. Its text is left in $work/out.
why() {
    run why "$@" < /dev/null
}

# is_why STATUS VERDICT ERROR: the text ends with this verdict, and has the lines before it that a no has.
is_why() {
    case "$2" in
        *': M1 '*)
            [ "$status" = "$1" ] && [ ! -s "$work/err" ] && [ "$(tail -n 1 "$work/out")" = "$2" ] &&
                sed '$d' "$work/out" | tail -n 1 | grep -qE '^could show: shown ' &&
                sed '$d' "$work/out" | sed '$d' | grep -qE '^records [0-9]+ to [0-9]+ at [0-9]+: ' &&
                ! sed '$d' "$work/out" | sed '$d' | grep -qvE '^records [0-9]+ to [0-9]+ at [0-9]+: .* -> '
            ;;
        no*)
            [ "$status" = "$1" ] && [ ! -s "$work/err" ] && [ "$(tail -n 1 "$work/out")" = "$2" ] &&
                sed '$d' "$work/out" | tail -n 1 | grep -qE '^record [0-9]+ at [0-9]+: [CD] [0-9A-F]{2}(, |$)' &&
                ! sed '$d' "$work/out" | sed '$d' | grep -qvE '^records [0-9]+ to [0-9]+ at [0-9]+: '
            ;;
        *) is_text "$@" ;;
    esac
}

# The examples: the verdict's line, with lines before it where it is a no, or nothing.
while IFS='|' read -r file want_status want_out want_err; do
    case "$file" in '#'* | '') continue ;; esac
    why "examples/$file"
    judge "examples/$file" is_why "$want_status" "$want_out" "${want_err//|/$'\n'}"
    "$program" check --hands "examples/$file" > "$work/checked" 2> "$work/checked_err"
    want_status=$?
    why --hands "examples/$file"
    judge "examples/$file with hands" is_why "$want_status" "$(cat "$work/checked")" "$(cat "$work/checked_err")"
done < examples/ANSWERS

# The dispute: three replies that no deck can have given together, unless a hand moved the point.
capture_of "$remote $preset $sensed_at_11"
why "$work/capture.csv"
judge 'the dispute' is_text 1 'records 1 to 8 at 400: STATUS SENSE 61 20 01 82 -> 71 20 00 91, says local no
records 9 to 18 at 3600: IN DATA PRESET 10:00:00:00 44 14 00 00 00 10 68 -> 10 01 11
records 19 to 28 at 7600: IN DATA SENSE 60 10 70 -> 11:00:00:00 74 10 00 00 00 11 95
could show: shown any, in 10:00:00:00, out unknown, local no, ain unknown, aout unknown
no at record 28: M1 no run remains' ''
why --hands "$work/capture.csv"
judge 'the dispute with hands' is_text 0 'yes: records 28, exchanges 3, open 0' ''
why "$work/capture.csv" --hands
judge 'the dispute with hands, after the file' is_text 0 'yes: records 28, exchanges 3, open 0' ''

# is_no NAME TEXT [WORDS...]: the whole text of why the capture is a no by M1.
is_no() {
    why "$work/capture.csv" "${@:3}"
    judge "$1" is_text 1 "$2" ''
}

# is_yes NAME COUNTS [WORDS...]: the whole text where the capture is a yes: the line of the verdict with these counts.
is_yes() {
    why "$work/capture.csv" "${@:3}"
    judge "$1" is_text 0 "yes: $2, open 0" ''
}

# More that stands for blocks: statuses of the mode that fit PLAY, REW, and no mode (the bits of REC and SHUTTLE); an entry
# of IN, and senses that answer 05:00:00:00 and the frame after it; a shift of IN that is refused; LOCAL DISABLE; a command of
# group 3, which is not listed.
shows_play='C 61 20 12 93 D 72 20 01 00 93'
shows_rew='C 61 20 12 93 D 72 20 08 00 9A'
shows_no_mode='C 61 20 12 93 D 72 20 02 20 B4'
entry="C 40 10 50 $ack"
sensed_at_5='C 60 10 70 D 74 10 00 00 00 05 89'
sensed_a_frame_on='C 60 10 70 D 74 10 01 00 00 05 8A'
refused='D 11 12 01 24'
disable="C 00 0C 0C $ack"
unlisted="C 30 00 30 $ack"

# After PLAY, and a status that shows it, a deck can show PLAY or STOP. That it is in REMOTE is needed, since one in LOCAL may
# have ignored PLAY, and pass PLAY and REW on the way to where it cues.
capture_of "$remote $play $shows_play $shows_rew"
is_no 'PLAY, and REW after it' 'records 1 to 8 at 400: STATUS SENSE 61 20 01 82 -> 71 20 00 91, says local no
records 9 to 14 at 3600: PLAY 20 01 21 -> 10 01 11
records 15 to 23 at 6000: STATUS SENSE 61 20 12 93 -> 72 20 01 00 93, says shown PLAY
records 24 to 32 at 9600: STATUS SENSE 61 20 12 93 -> 72 20 08 00 9A, says shown REW
could show: shown STOP|PLAY, in unknown, out unknown, local no, ain unknown, aout unknown
no at record 32: M1 no run remains'
capture_of "$play $shows_play $shows_rew"
is_yes 'PLAY, and REW after it, of a deck that may be in local' 'records 24, exchanges 3'

# What fits CUED fits EJECT without a cassette too. On the way to a cue a deck may show each mode but REC, and EJECT is there for one
# that began without a cassette.
capture_of "$remote C 24 31 04 03 02 01 5F $ack C 61 20 12 93 D 72 20 00 01 93 C 61 20 12 93 D 72 20 02 00 94"
is_no 'a cue, and REC after it' 'records 1 to 8 at 400: STATUS SENSE 61 20 01 82 -> 71 20 00 91, says local no
records 9 to 18 at 3600: CUE UP WITH DATA 01:02:03:04 24 31 04 03 02 01 5F -> 10 01 11
records 19 to 27 at 7600: STATUS SENSE 61 20 12 93 -> 72 20 00 01 93, says shown CUED|EJECT
records 28 to 36 at 11200: STATUS SENSE 61 20 12 93 -> 72 20 02 00 94, says shown REC
could show: shown STOP|PLAY|FF|REW|SHUTTLE|JOG|VAR|CUED|EJECT, in unknown, out unknown, local no, ain unknown, aout unknown
no at record 36: M1 no run remains'

# 500 polls between the preset and a shift, and 500 between the shift and a sense that does not know of it: of the time, with
# eleven records each, and of the status datum with the motion bits, with eight. So the shift begins 5,500 records after record
# 18, which ends the preset, and the sense 4,000 after record 5524, which ends the shift.
capture_of "$remote $preset $(repeated 500 'C 61 0C 01 6E D 74 04 00 00 00 01 79') C 40 18 58 $ack \
    $(repeated 500 'C 61 20 11 92 D 71 20 20 B1') C 60 10 70 D 74 10 00 00 00 10 94"
is_no 'a preset, a shift and a sense, far apart' 'records 1 to 8 at 400: STATUS SENSE 61 20 01 82 -> 71 20 00 91, says local no
records 9 to 18 at 3600: IN DATA PRESET 10:00:00:00 44 14 00 00 00 10 68 -> 10 01 11
records 5519 to 5524 at 2207600: IN SHIFT + 40 18 58 -> 10 01 11
records 9525 to 9534 at 3810000: IN DATA SENSE 60 10 70 -> 10:00:00:00 74 10 00 00 00 10 94
could show: shown any, in 10:00:00:01, out unknown, local no, ain unknown, aout unknown
no at record 9534: M1 no run remains'

# An IN point that was captured answers one time. Two are answered by a deck in LOCAL alone, which ignored the entry: its IN is
# Clear, and so it answers anything.
capture_of "$entry $sensed_at_5 $sensed_a_frame_on $remote"
is_no 'an entry, and two senses' 'records 1 to 6 at 400: IN ENTRY 40 10 50 -> 10 01 11
records 7 to 16 at 2800: IN DATA SENSE 60 10 70 -> 05:00:00:00 74 10 00 00 00 05 89
records 17 to 26 at 6800: IN DATA SENSE 60 10 70 -> 05:00:00:01 74 10 01 00 00 05 8A
records 27 to 34 at 10800: STATUS SENSE 61 20 01 82 -> 71 20 00 91, says local no
could show: shown any, in clear, out unknown, local yes, ain unknown, aout unknown
no at record 34: M1 no run remains'
capture_of "$entry $sensed_at_5 $sensed_a_frame_on"
is_yes 'an entry, and two senses, of a deck that may be in local' 'records 26, exchanges 3'

# No mode has these data, whatever was told before, and whoever touches the deck.
capture_of "$shows_no_mode"
is_no 'a status that fits no mode' 'records 1 to 9 at 400: STATUS SENSE 61 20 12 93 -> 72 20 02 20 B4, says shown none
could show: shown any, in unknown, out unknown, local unknown, ain unknown, aout unknown
no at record 9: M1 no run remains'
capture_of "$play C 00 1D 1D $ack $shows_no_mode"
is_no 'a status that fits no mode, with hands' 'records 13 to 21 at 5200: STATUS SENSE 61 20 12 93 -> 72 20 02 20 B4, says shown none
could show: shown any, in unknown, out unknown, local unknown, ain unknown, aout unknown, panel on
no at record 21: M1 no run remains' --hands

# What a status says alone: all four data that are judged, and two modes that fit. The status says too that the deck is not in
# local, so it clears IN.
capture_of "C 61 20 04 85 D 74 20 00 20 01 01 B6 C 40 20 60 $ack C 61 20 31 B2 D 71 20 01 92"
is_no 'a register that was cleared' 'records 1 to 11 at 400: STATUS SENSE 61 20 04 85 -> 74 20 00 20 01 01 B6, says local no, shown STOP|CUED, in set, out clear, ain clear, aout clear
records 12 to 17 at 4800: IN FLAG RESET 40 20 60 -> 10 01 11
records 18 to 25 at 7200: STATUS SENSE 61 20 31 B2 -> 71 20 01 92, says in set, out clear, ain clear, aout clear
could show: shown any, in clear, out clear, local no, ain clear, aout clear
no at record 25: M1 no run remains'
capture_of "C 61 20 01 82 D 71 20 01 92 $remote"
is_no 'local twice' 'records 1 to 8 at 400: STATUS SENSE 61 20 01 82 -> 71 20 01 92, says local yes
records 9 to 16 at 3600: STATUS SENSE 61 20 01 82 -> 71 20 00 91, says local no
could show: shown any, in unknown, out unknown, local yes, ain unknown, aout unknown
no at record 16: M1 no run remains'
is_yes 'local twice, with hands' 'records 16, exchanges 2' --hands

# The bytes are as they were captured: 64 80 80 C0 has flags, and reads as the last frame of the first second; C0 80 80 D1 as
# 11:00:00:00. Bytes that are no time have none before them: the register is Clear.
capture_of "$remote C 44 14 64 80 80 C0 7C $ack C 60 10 70 D 74 10 C0 80 80 D1 15"
is_no 'times with flags' 'records 1 to 8 at 400: STATUS SENSE 61 20 01 82 -> 71 20 00 91, says local no
records 9 to 18 at 3600: IN DATA PRESET 00:00:00:24 44 14 64 80 80 C0 7C -> 10 01 11
records 19 to 28 at 7600: IN DATA SENSE 60 10 70 -> 11:00:00:00 74 10 C0 80 80 D1 15
could show: shown any, in 00:00:00:24, out unknown, local no, ain unknown, aout unknown
no at record 28: M1 no run remains'
capture_of 'C 60 10 70 D 74 10 FF FF FF FF 80 C 61 20 31 B2 D 71 20 01 92'
is_no 'bytes that are no time' 'records 1 to 10 at 400: IN DATA SENSE 60 10 70 -> 74 10 FF FF FF FF 80
records 11 to 18 at 4400: STATUS SENSE 61 20 31 B2 -> 71 20 01 92, says in set, out clear, ain clear, aout clear
could show: shown any, in clear, out unknown, local unknown, ain unknown, aout unknown
no at record 18: M1 no run remains'

# The audio registers: each preset and sensed, and one told to be Clear where IN and audio IN are Set.
capture_of "$remote C 44 16 00 00 00 10 6A $ack C 60 12 72 D 74 12 00 00 00 11 97"
is_no 'audio IN' 'records 1 to 8 at 400: STATUS SENSE 61 20 01 82 -> 71 20 00 91, says local no
records 9 to 18 at 3600: AUDIO IN DATA PRESET 10:00:00:00 44 16 00 00 00 10 6A -> 10 01 11
records 19 to 28 at 7600: AUDIO IN DATA SENSE 60 12 72 -> 11:00:00:00 74 12 00 00 00 11 97
could show: shown any, in unknown, out unknown, local no, ain 10:00:00:00, aout unknown
no at record 28: M1 no run remains'
capture_of "$remote C 44 17 00 00 00 10 6B $ack C 60 13 73 D 74 13 00 00 00 11 98"
is_no 'audio OUT' 'records 1 to 8 at 400: STATUS SENSE 61 20 01 82 -> 71 20 00 91, says local no
records 9 to 18 at 3600: AUDIO OUT DATA PRESET 10:00:00:00 44 17 00 00 00 10 6B -> 10 01 11
records 19 to 28 at 7600: AUDIO OUT DATA SENSE 60 13 73 -> 11:00:00:00 74 13 00 00 00 11 98
could show: shown any, in unknown, out unknown, local no, ain unknown, aout 10:00:00:00
no at record 28: M1 no run remains'
capture_of "$remote C 44 17 00 00 00 10 6B $ack C 61 20 31 B2 D 71 20 05 96"
is_no 'audio OUT told to be clear' 'records 1 to 8 at 400: STATUS SENSE 61 20 01 82 -> 71 20 00 91, says local no
records 9 to 18 at 3600: AUDIO OUT DATA PRESET 10:00:00:00 44 17 00 00 00 10 6B -> 10 01 11
records 19 to 26 at 7600: STATUS SENSE 61 20 31 B2 -> 71 20 05 96, says in set, out clear, ain set, aout clear
could show: shown any, in unknown, out unknown, local no, ain unknown, aout 10:00:00:00
no at record 26: M1 no run remains'

# The dispute of a deck that somebody may touch: it is one after LOCAL DISABLE alone, which is a line of it then. Where nobody may,
# LOCAL DISABLE does nothing.
capture_of "$disable $remote $preset $sensed_at_11"
disputed='records 7 to 14 at 2800: STATUS SENSE 61 20 01 82 -> 71 20 00 91, says local no
records 15 to 24 at 6000: IN DATA PRESET 10:00:00:00 44 14 00 00 00 10 68 -> 10 01 11
records 25 to 34 at 10000: IN DATA SENSE 60 10 70 -> 11:00:00:00 74 10 00 00 00 11 95
could show: shown any, in 10:00:00:00, out unknown, local no, ain unknown, aout unknown'
is_no 'the dispute after LOCAL DISABLE' "$disputed
no at record 34: M1 no run remains"
is_no 'the dispute after LOCAL DISABLE, with hands' "records 1 to 6 at 400: LOCAL DISABLE 00 0C 0C -> 10 01 11
$disputed, panel off
no at record 34: M1 no run remains" --hands

# A command that is not listed made the deck forget everything, local and the panel too. So neither what was told before it nor
# itself is named: after it a deck in LOCAL could have ignored the preset, and the last status says that it is in none.
capture_of "$remote $preset $unlisted $preset $sensed_at_11 $remote"
is_no 'what a deck has forgotten' 'records 25 to 34 at 10000: IN DATA PRESET 10:00:00:00 44 14 00 00 00 10 68 -> 10 01 11
records 35 to 44 at 14000: IN DATA SENSE 60 10 70 -> 11:00:00:00 74 10 00 00 00 11 95
records 45 to 52 at 18000: STATUS SENSE 61 20 01 82 -> 71 20 00 91, says local no
could show: shown any, in unknown, out unknown, local yes, ain unknown, aout unknown
no at record 52: M1 no run remains'
capture_of "$disable $remote $preset $unlisted $disable $preset $sensed_at_11 $remote"
is_no 'what a deck has forgotten, with hands' 'records 31 to 36 at 12400: LOCAL DISABLE 00 0C 0C -> 10 01 11
records 37 to 46 at 14800: IN DATA PRESET 10:00:00:00 44 14 00 00 00 10 68 -> 10 01 11
records 47 to 56 at 18800: IN DATA SENSE 60 10 70 -> 11:00:00:00 74 10 00 00 00 11 95
records 57 to 64 at 22800: STATUS SENSE 61 20 01 82 -> 71 20 00 91, says local no
could show: shown any, in unknown, out unknown, local yes, ain unknown, aout unknown, panel off
no at record 64: M1 no run remains' --hands

# A refusal says that a command was not done, which is needed where doing it would fit: a shift; and one that is not listed, which has
# no name, and would have made the deck forget. A NAK says nothing more.
capture_of "$remote $preset C 40 18 58 $refused C 60 10 70 D 74 10 01 00 00 10 95"
is_no 'a refused shift' 'records 1 to 8 at 400: STATUS SENSE 61 20 01 82 -> 71 20 00 91, says local no
records 9 to 18 at 3600: IN DATA PRESET 10:00:00:00 44 14 00 00 00 10 68 -> 10 01 11
records 19 to 25 at 7600: IN SHIFT + 40 18 58 -> 11 12 01 24
records 26 to 35 at 10400: IN DATA SENSE 60 10 70 -> 10:00:00:01 74 10 01 00 00 10 95
could show: shown any, in 10:00:00:00, out unknown, local no, ain unknown, aout unknown
no at record 35: M1 no run remains'
capture_of "$remote $preset C 30 00 30 $refused $sensed_at_11"
is_no 'a refused command that is not listed' 'records 1 to 8 at 400: STATUS SENSE 61 20 01 82 -> 71 20 00 91, says local no
records 9 to 18 at 3600: IN DATA PRESET 10:00:00:00 44 14 00 00 00 10 68 -> 10 01 11
records 19 to 25 at 7600: 30 00 30 -> 11 12 01 24
records 26 to 35 at 10400: IN DATA SENSE 60 10 70 -> 11:00:00:00 74 10 00 00 00 11 95
could show: shown any, in 10:00:00:00, out unknown, local no, ain unknown, aout unknown
no at record 35: M1 no run remains'

# What contradicts nothing has no line: PLAY, before the three and between them. What follows the break is not judged.
capture_of "C 20 01 21 $ack $remote C 20 01 21 $ack $preset $sensed_at_11 C 20 01 22"
why "$work/capture.csv"
judge 'the dispute among others, the records' \
    [ "$(sed -n 's/^records \([0-9]* to [0-9]*\) .*/\1/p' "$work/out" | tr '\n' ',')" = '7 to 14,21 to 30,31 to 40,' ]
judge 'the dispute among others, the verdict' [ "$(tail -n 1 "$work/out")" = 'no at record 40: M1 no run remains' ]
judge 'the dispute among others, the status' [ "$status" = 1 ]

# A yes: the verdict's line alone.
capture_of ''
why "$work/capture.csv"
judge 'no record' is_text 0 'yes: records 0, exchanges 0, open 0' ''
capture_of 'C 20 01'
why "$work/capture.csv" --hands
judge 'an open command' is_text 0 'yes: records 2, exchanges 0, open 2' ''

# is_break NAME TEXT: the whole text of why a capture of these records breaks a rule, also with hands.
is_break() {
    why "$work/capture.csv"
    judge "$1" is_text 1 "$2" ''
    why --hands "$work/capture.csv"
    judge "$1, with hands" is_text 1 "$2" ''
}

# Each rule of blocks, pairing and timing: what is open, and the record that breaks.
capture_of 'C 71'
is_break 'a wrong group' 'record 1 at 400: C 71
no at record 1: B1 wrong group for this wire'
capture_of "C 20 01 21 $ack C 20 01 22"
is_break 'a wrong sum after an exchange' 'records 7 to 8 at 2800: 20 01
record 9 at 3600: C 22, 400 after the record before, sum 21
no at record 9: B2 wrong sum'
capture_of 'C 61 +10288 20'
is_break 'a gap' 'records 1 to 1 at 400: 61, 1 of 4 bytes
record 2 at 10688: C 20, 10288 after the record before, limit 10287
no at record 2: B3 gap inside a block'
capture_of 'C 61 20 03 84 D 73 +10288 20'
is_break 'a gap inside a reply' 'records 1 to 4 at 400: STATUS SENSE 61 20 03 84
records 5 to 5 at 2000: -> 73, 1 of 6 bytes
record 6 at 12288: D 20, 10288 after the record before, limit 10287
no at record 6: B3 gap inside a block'
capture_of "C 20 01 21 $ack $ack"
is_break 'a reply without a command' 'records 1 to 6 at 400: PLAY 20 01 21 -> 10 01 11
record 7 at 2800: D 10, 400 after the record before
no at record 7: P1 reply without a command'
capture_of 'C 61 20 D 73'
is_break 'a reply inside a command' 'records 1 to 2 at 400: 61 20, 2 of 4 bytes
record 3 at 1200: D 73, 400 after the record before
no at record 3: P2 reply before the end of the command'
capture_of 'C 44 14 00 00 00 10 68 20'
is_break 'a command before the reply' 'records 1 to 7 at 400: IN DATA PRESET 10:00:00:00 44 14 00 00 00 10 68
record 8 at 3200: C 20, 400 after the record before, limit 9287
no at record 8: P3 command before the reply'
capture_of 'C 61 20 03 84 D 73 20 C 61'
is_break 'a command inside a reply' 'records 1 to 4 at 400: STATUS SENSE 61 20 03 84
records 5 to 6 at 2000: -> 73 20, 2 of 6 bytes
record 7 at 2800: C 61, 400 after the record before
no at record 7: P4 command inside a reply'
capture_of 'C 60 10 70 D 10 01 11'
is_break 'a wrong kind of reply' 'records 1 to 3 at 400: IN DATA SENSE 60 10 70
records 4 to 5 at 1600: -> 10 01
record 6 at 2400: D 11, 400 after the record before
no at record 6: P5 wrong kind of reply'
capture_of 'C 44 14 25 00 00 10 8D'
is_break 'an invalid time in a command' 'records 1 to 6 at 400: 44 14 25 00 00 10
record 7 at 2800: C 8D, 400 after the record before
no at record 7: P6 invalid time in a command'
capture_of 'C 61 0C 01 6E D 74 04 25 00 00 10 AD'
is_break 'an invalid time in a reply' 'records 1 to 4 at 400: CURRENT TIME SENSE 61 0C 01 6E
records 5 to 10 at 2000: -> 74 04 25 00 00 10
record 11 at 4400: D AD, 400 after the record before
no at record 11: P7 invalid time in a reply'
capture_of 'C 61 20 03 84 D +9288 73'
is_break 'a late reply' 'records 1 to 4 at 400: STATUS SENSE 61 20 03 84
record 5 at 10888: D 73, 9288 after the record before, limit 9287
no at record 5: L1 late reply'
capture_of 'C 40 7F BF +9288 40'
is_break 'no reply to an unlisted command' 'records 1 to 3 at 400: 40 7F BF
record 4 at 10488: C 40, 9288 after the record before, limit 9287
no at record 4: L2 no reply'

# A bad row, also after an exchange: nothing is written. Behind the record that breaks no row is looked at.
capture_of "C 20 01 21 $ack"
echo '2800,C,G1' >> "$work/capture.csv"
why "$work/capture.csv"
judge 'a bad row' is_text 3 '' "$(both_lines 'unreadable at row 7: byte' G1 "$work/capture.csv")"
why "$work/capture.csv" --hands
judge 'a bad row, with hands' is_text 3 '' "$(both_lines 'unreadable at row 7: byte' G1 "$work/capture.csv")"
capture_of "$remote $preset $sensed_at_11"
echo '12000,C,G1' >> "$work/capture.csv"
why "$work/capture.csv"
judge 'a bad row after the break' is_why 1 'no at record 28: M1 no run remains' ''

tell_counts

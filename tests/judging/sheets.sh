#!/usr/bin/env bash
# Runs the built program with `--deck` on sheets of its own: what they change of a verdict, by hand; each way in which a sheet can be
# wrong; and that the sheet is read before the capture. The last line is 'N passed, M failed'.
set -u
cd "$(dirname "$0")/../.." || exit 1
. tests/lib/judge.sh
. tests/lib/program.sh
. tests/lib/blocks.sh

# sheet NAME LINES...: writes a sheet.
sheet() {
    local name=$1
    shift
    printf '%s\n' "$@" > "$work/$name.toml"
}

# What stands for blocks: a NAK; a deck that shows STOP in REMOTE, and in LOCAL, and one that shows REC; STOP; senses of IN that answer with that time, and with 00:00:00:00; FULL EE ON and AUTO EDIT; commands of
# group 0 and of group 8.
nak='D 11 12 01 24'
stopped='C 61 20 03 84 D 73 20 00 20 00 B3'
stopped_in_local='C 61 20 03 84 D 73 20 01 20 00 B4'
shows_rec='C 61 20 03 84 D 73 20 00 02 00 95'
stop="C 20 00 20 $ack"
at_10='C 60 10 70 D 74 10 00 00 00 10 94'
lost='C 60 10 70 D 74 10 00 00 00 00 84'
full_ee="C 20 61 81 $ack"
auto_edit="C 20 42 62 $ack"
in_group_0="C 00 50 50 $ack"
in_group_8="C 80 00 80 $ack"

# says WORDS STATUS TEXT: the program with these words on $work/capture.csv.
says() {
    # shellcheck disable=SC2086
    run $1 "$work/capture.csv"
    judge "$1: $3" is_text "$2" "$3" ''
}

# ends WORDS STATUS VERDICT: the same, and this is the last line.
ends() {
    # shellcheck disable=SC2086
    run $1 "$work/capture.csv"
    judge "$1: $3" has_verdict "$2" "$3"
}

# ---- A preset that got lost behind FULL EE ON.

sheet empty ''
: > "$work/no-bytes.toml"
sheet ee '[forgets]' '"20 61" = "nothing"  # FULL EE ON'
sheet next '[forgets]' '"20 62" = "nothing"' '"20 60" = "nothing"'
lost_point="$stopped $preset $full_ee $lost"
capture_of "$lost_point"
yes='yes: records 36, exchanges 4, open 0'
no='no at record 36: M1 no run remains'
for sheet in '' "--deck $work/no-bytes.toml" "--deck $work/empty.toml" "--deck $work/next.toml"; do
    for verb in check explain run why; do ends "$verb $sheet" 0 "$yes"; done
done
says "check --deck $work/ee.toml" 1 "$no"
says "check --all --deck $work/ee.toml" 1 "$no
breaks 1: records 36, exchanges 3, passed over 10, open 0"
says "run --deck $work/ee.toml" 1 "$no"
says "explain --deck $work/ee.toml" 1 "record 10: STATUS SENSE -> 73 20, delay 400, goal unknown, shown STOP, in unknown, out unknown, local no, ain unknown, aout unknown
record 20: IN DATA PRESET -> ACK, delay 400, goal unknown, shown unknown, in 10:00:00:00, out unknown, local no, ain unknown, aout unknown
record 26: 20 61 -> ACK, delay 400, goal unknown, shown unknown, in 10:00:00:00, out unknown, local no, ain unknown, aout unknown
$no"
run why --deck "$work/ee.toml" "$work/capture.csv"
judge 'why names the preset' grep -q '^records 11 to 20 at 4400: IN DATA PRESET 10:00:00:00 ' "$work/out"
judge 'why names the sense' grep -q '^records 27 to 36 at 10800: IN DATA SENSE ' "$work/out"
judge 'why names that the deck was in REMOTE, and no more' [ "$(grep -c '^records ' "$work/out")" = 3 ]
# A hand may have set IN again, where hands are allowed.
ends "check --hands --deck $work/ee.toml" 0 "$yes"
# The same with a late acknowledgement of FULL EE ON, which ends no part: what the sheet says of the command counts.
capture_of "$stopped $preset C 20 61 81 +9400 $ack $lost"
late='no at record 24: L1 late reply'
says "check --all --deck $work/ee.toml" 1 "$late
$no
breaks 2: records 36, exchanges 3, passed over 10, open 0"
says "explain --all --deck $work/ee.toml" 1 "record 10: STATUS SENSE -> 73 20, delay 400, goal unknown, shown STOP, in unknown, out unknown, local no, ain unknown, aout unknown
record 20: IN DATA PRESET -> ACK, delay 400, goal unknown, shown unknown, in 10:00:00:00, out unknown, local no, ain unknown, aout unknown
$late
record 26: 20 61 -> ACK, delay 9400, goal unknown, shown unknown, in 10:00:00:00, out unknown, local no, ain unknown, aout unknown
$no
breaks 2: records 36, exchanges 3, passed over 10, open 0"
says 'check --all' 1 "$late
breaks 1: records 36, exchanges 4, passed over 0, open 0"
says "check --deck $work/ee.toml" 1 "$late"

# ---- What is forgotten.

sheet motion '[forgets]' '"20 42" = "motion"  # AUTO EDIT'
sheet tape '[forgets]' '"20 42" = "tape"'
sheet registers '[forgets]' '"20 42" = "registers"'
capture_of "$stop $stopped $preset $auto_edit $lost"
all='yes: records 42, exchanges 5, open 0'
ends check 0 "$all"
ends "check --deck $work/motion.toml" 1 'no at record 42: M1 no run remains'
ends "check --deck $work/tape.toml" 0 "$all"
ends "check --deck $work/registers.toml" 0 "$all"
run explain --deck "$work/motion.toml" "$work/capture.csv"
judge 'motion alone is forgotten' grep -q '^record 32: 20 42 -> ACK, delay 400, goal unknown, shown unknown, in 10:00:00:00, out unknown, local no,' "$work/out"
run explain --deck "$work/registers.toml" "$work/capture.csv"
judge 'registers alone are forgotten' grep -q '^record 32: 20 42 -> ACK, delay 400, goal STOP, shown STOP, in unknown, out unknown, local no,' "$work/out"

# A command that the deck refused does nothing.
capture_of "$stopped $preset C 20 42 62 $nak $lost"
ends "check --deck $work/tape.toml" 1 'no at record 37: M1 no run remains'

# Commands of group 0 and of group 8, which else forget everything.
sheet groups '[forgets]' '"00 50" = "nothing"' '"80 00" = "registers"'
capture_of "$stopped_in_local $preset $in_group_0 $at_10 $in_group_8 $lost"
ends "check --deck $work/groups.toml" 0 'yes: records 52, exchanges 6, open 0'
run explain --deck "$work/groups.toml" "$work/capture.csv"
judge 'a named command of group 0' grep -q '^record 26: 00 50 -> ACK, .*, local yes, ' "$work/out"
judge 'a named command of group 8' grep -q '^record 42: 80 00 -> ACK, .*, in unknown, out unknown, local yes, ' "$work/out"
run explain "$work/capture.csv"
judge 'without the sheet' grep -q '^record 26: 00 50 -> ACK, .*, local unknown, ' "$work/out"

# In LOCAL too, such a command is never ignored: IN was read there, and is forgotten.
capture_of "$stopped_in_local $at_10 $in_group_8 $lost"
ends "check --deck $work/groups.toml" 0 'yes: records 36, exchanges 4, open 0'

# Everything: where nobody touches the panel it stays off, and where hands are allowed it may be on after that.
sheet everything '[forgets]' '"20 42" = "everything"'
capture_of "C 00 0C 0C $ack $stopped $auto_edit $stopped_in_local"
for words in check 'check --hands'; do
    ends "$words --deck $work/motion.toml" 1 'no at record 32: M1 no run remains'
    ends "$words --deck $work/everything.toml" 0 'yes: records 32, exchanges 4, open 0'
done
run explain --hands --deck "$work/everything.toml" "$work/capture.csv"
judge 'the panel is forgotten' grep -q '^record 22: 20 42 -> ACK, .*, panel unknown$' "$work/out"
run explain --hands --deck "$work/motion.toml" "$work/capture.csv"
judge 'the panel stays' grep -q '^record 22: 20 42 -> ACK, .*, panel off$' "$work/out"

# ---- Modes on the way.

# CUE UP WITH DATA, and a status that shows REC.
sheet rec '[passes]' 'CUED = ["REC"]'
sheet jog '[passes]' 'CUED = ["JOG", "JOG", "CUED"]' 'REC = []'
sheet halt '[passes]' 'STOP = ["REC"]'
capture_of "$stop $stopped C 24 31 00 00 00 10 65 $ack $shows_rec"
for words in check "check --deck $work/jog.toml"; do ends "$words" 1 'no at record 36: M1 no run remains'; done
ends "check --deck $work/rec.toml" 0 'yes: records 36, exchanges 4, open 0'
# A deck that has come to a halt goes on to the modes on the way to STOP.
ends "check --deck $work/halt.toml" 0 'yes: records 36, exchanges 4, open 0'

# A hand sets IN and no more: a deck at goal JOG that shows STOP comes to show JOG, halts, and passes to CUED by itself.
sheet cued '[passes]' 'STOP = ["CUED"]'
capture_of "C 61 20 04 85 D 74 20 00 20 00 00 B4 C 21 21 40 82 $ack C 61 20 04 85 D 74 20 00 00 01 01 96 C 61 20 11 92 D 71 20 20 B1"
says "run --hands --deck $work/cued.toml" 0 "record 11: goal STOP, shown STOP, in clear, out clear, local no, ain clear, aout clear, panel on
record 18: goal JOG, shown STOP, in clear, out clear, local no, ain clear, aout clear, panel on
record 29: goal STOP, shown CUED, in 00:00:00:00, out clear, local no, ain clear, aout clear, panel on
record 37: goal STOP, shown STOP, in 00:00:00:00, out clear, local no, ain clear, aout clear, panel on
yes: records 37, exchanges 4, open 0"

# ---- Names.

sheet named '[names]' '"20 61" = "FULL EE ON"' '"6f 0a" = "A"' '[forgets]' '"20 61" = "nothing"'
capture_of "$full_ee C 21 61 00 82 $ack C 6F 0A 00 00 00 00 00 00 00 00 00 00 00 00 00 00 00 79 $ack"
unknown='goal unknown, shown unknown, in unknown, out unknown, local unknown, ain unknown, aout unknown'
says "explain --deck $work/named.toml" 0 "record 6: FULL EE ON -> ACK, delay 400, $unknown
record 13: 21 61 -> ACK, delay 400, $unknown
record 34: A -> ACK, delay 400, $unknown
yes: records 34, exchanges 3, open 0"
says explain 0 "record 6: 20 61 -> ACK, delay 400, $unknown
record 13: 21 61 -> ACK, delay 400, $unknown
record 34: 6F 0A -> ACK, delay 400, $unknown
yes: records 34, exchanges 3, open 0"

# ---- Replies.

# takes NAME COMMAND REPLY: with the sheet of this name the command takes the reply, which ends an exchange.
takes() {
    capture_of "$2 $3"
    ends "check --deck $1" 0 "yes: records $(($(wc -l < "$work/capture.csv") - 1)), exchanges 1, open 0"
}

# refuses SHEET COMMAND REPLY: it does not, at the reply's last record.
refuses() {
    capture_of "$2 $3"
    ends "check --deck $1" 1 "no at record $(($(wc -l < "$work/capture.csv") - 1)): P5 wrong kind of reply"
}

shipped=decks/nine-pin-commands.toml
remaining='C 60 2B 8B'
tc_gen='C 61 0A 01 6C'
extended='C 62 21 00 01 84'
signal_control='C 62 23 00 01 86'
for reply in "$ack" 'D 74 10 00 00 00 10 94' 'D 74 04 FF FF FF FF 74'; do
    for command in "$remaining" "$tc_gen" 'C 20 61 81'; do
        capture_of "$command $reply"
        ends check 0 "yes: records $(($(wc -l < "$work/capture.csv") - 1)), exchanges 1, open 0"
    done
done
refuses $shipped "$remaining" "$ack"
refuses $shipped "$tc_gen" 'D 74 10 00 00 00 10 94'
refuses $shipped 'C 20 61 81' 'D 74 04 FF FF FF FF 74'
for command in "$remaining" "$tc_gen" "$extended" 'C 20 61 81'; do takes $shipped "$command" "$nak"; done
takes $shipped "$remaining" 'D 76 2B 00 00 00 00 00 00 A1'
refuses $shipped "$remaining" 'D 75 2B 00 00 00 00 00 A0'
refuses $shipped "$remaining" 'D 76 2A 00 00 00 00 00 00 A0'
# One of several, and none of them.
takes $shipped "$tc_gen" 'D 74 08 00 00 00 00 7C'
takes $shipped "$tc_gen" 'D 74 09 00 00 00 00 7D'
takes $shipped "$tc_gen" 'D 78 08 00 00 00 00 00 00 00 00 80'
refuses $shipped "$tc_gen" 'D 78 09 00 00 00 00 00 00 00 00 81'
# Any number of data, of this code and group alone.
for data in '70 21 91' '71 21 05 97' '7F 21 00 00 00 00 00 00 00 00 00 00 00 00 00 00 00 A0'; do takes $shipped "$extended" "D $data"; done
refuses $shipped "$extended" 'D 71 23 05 99'
refuses $shipped "$extended" 'D 30 21 51'
refuses $shipped "$signal_control" 'D 70 21 91'
# The next command is not named, and takes any reply.
takes $shipped 'C 60 2C 8C' "$ack"
# CURRENT TIME SENSE with a selector that has no line of its own: the line of 61 0C.
user_bits='D 74 05 FF FF FF FF 75'
takes $shipped 'C 61 0C 05 72' 'D 74 04 00 00 00 10 88'
takes $shipped 'C 61 0C 05 72' 'D 78 06 FF FF FF FF FF FF FF FF 76'
# With one that is not listed, and has a line: that line alone.
takes $shipped 'C 61 0C 10 7D' "$user_bits"
takes $shipped 'C 61 0C 10 7D' 'D 74 15 FF FF FF FF 85'
refuses $shipped 'C 61 0C 10 7D' 'D 74 04 00 00 00 10 88'
takes $shipped 'C 61 0C 20 8D' 'D 74 07 FF FF FF FF 77'
refuses $shipped 'C 61 0C 20 8D' "$user_bits"
takes $shipped 'C 61 0C 33 A0' 'D 78 06 FF FF FF FF FF FF FF FF 76'
refuses $shipped 'C 61 0C 11 7E' 'D 78 06 FF FF FF FF FF FF FF FF 76'
for command in 'C 61 0C 05 72' 'C 61 0C 10 7D' 'C 61 0C 11 7E'; do
    refuses $shipped "$command" "$ack"
    takes $shipped "$command" "$nak"
    capture_of "$command $ack"
    ends check 0 'yes: records 7, exchanges 1, open 0'
done
# With one that is listed: its own replies, and those of its line; so no user bits.
capture_of "C 61 0C 01 6E $user_bits"
ends check 1 'no at record 11: P5 wrong kind of reply'
for command in 'C 61 0C 01 6E' 'C 61 0C 03 70'; do
    refuses $shipped "$command" "$user_bits"
    takes $shipped "$command" 'D 74 16 00 00 00 10 9A'
done
# A line for one selector leaves the others as they are; with a line for 61 0C beside it, that is what the others take.
sheet selector '[replies]' '"61 0c 03" = ["74 05"]'
takes "$work/selector.toml" 'C 61 0C 03 70' "$user_bits"
refuses "$work/selector.toml" 'C 61 0C 01 6E' "$user_bits"
takes "$work/selector.toml" 'C 61 0C 05 72' "$ack"
sheet selectors '[replies]' '"61 0C" = ["74 07"]' '"61 0C 03" = ["74 05"]' '"61 0C 05" = ["7* 06"]'
takes "$work/selectors.toml" 'C 61 0C 01 6E' 'D 74 07 FF FF FF FF 77'
refuses "$work/selectors.toml" 'C 61 0C 03 70' 'D 74 07 FF FF FF FF 77'
takes "$work/selectors.toml" 'C 61 0C 03 70' "$user_bits"
takes "$work/selectors.toml" 'C 61 0C 05 72' 'D 78 06 FF FF FF FF FF FF FF FF 76'
refuses "$work/selectors.toml" 'C 61 0C 05 72' 'D 74 07 FF FF FF FF 77'
# No time is judged in the replies to one that is not listed, even where the same reply to one that is listed would be judged.
takes "$work/selectors.toml" 'C 61 0C 05 72' 'D 74 06 FF FF FF FF 76'
capture_of 'C 61 0C 03 70 D 74 06 FF FF FF FF 76'
ends "check --deck $work/selectors.toml" 1 'no at record 11: P7 invalid time in a reply'
# The time in a reply of its own is judged, also where the sheet names that reply; in one that only the sheet allows it is not.
capture_of 'C 61 0C 01 6E D 74 04 FF FF FF FF 74'
ends "check --deck $shipped" 1 'no at record 11: P7 invalid time in a reply'
# A group that only the sheet allows, in place of an acknowledgement: the command has its effect.
sheet further '[replies]' '"20 01" = ["10 02"]' '"60 10" = ["74 04", "74 10"]' '"61 20" = ["7* 20"]' '"61 0C" = ["11 12"]' '"20 61" = ["11 12"]'
acked_otherwise='D 10 02 12'
capture_of "$stopped $stop $stopped C 20 01 21 $acked_otherwise $shows_rec"
ends check 1 'no at record 32: P5 wrong kind of reply'
ends "check --deck $work/further.toml" 1 'no at record 42: M1 no run remains'
run explain --deck "$work/further.toml" "$work/capture.csv"
judge 'PLAY has its effect' grep -q '^record 32: PLAY -> 10 02, delay 400, goal PLAY, ' "$work/out"
# A reply that is none of its own shows nothing; its own does, though the sheet names it too.
capture_of "$stopped $preset C 60 10 70 D 74 04 00 00 00 00 78"
says "explain --deck $work/further.toml" 0 "record 10: STATUS SENSE -> 73 20, delay 400, goal unknown, shown STOP, in unknown, out unknown, local no, ain unknown, aout unknown
record 20: IN DATA PRESET -> ACK, delay 400, goal unknown, shown unknown, in 10:00:00:00, out unknown, local no, ain unknown, aout unknown
record 30: IN DATA SENSE -> 74 04, delay 400, goal unknown, shown unknown, in 10:00:00:00, out unknown, local no, ain unknown, aout unknown
yes: records 30, exchanges 3, open 0"
run explain --bytes --deck "$work/further.toml" "$work/capture.csv"
judge 'no time stands before its bytes' grep -q -- '-> 74 04 00 00 00 00 78, delay' "$work/out"
capture_of "$stopped $preset $lost"
ends "check --deck $work/further.toml" 1 'no at record 30: M1 no run remains'
# A status of more data than were asked for.
capture_of "$stopped C 61 20 01 82 D 72 20 01 00 93"
ends check 1 'no at record 19: P5 wrong kind of reply'
ends "check --deck $work/further.toml" 0 'yes: records 19, exchanges 2, open 0'
# A NAK in the list is the NAK.
takes "$work/further.toml" 'C 20 61 81' "$nak"
refuses "$work/further.toml" 'C 20 61 81' "$ack"
takes "$work/further.toml" 'C 61 0C 05 72' "$nak"
refuses "$work/further.toml" 'C 61 0C 05 72' 'D 74 04 00 00 00 10 88'
takes "$work/further.toml" 'C 61 0C 01 6E' 'D 74 04 00 00 00 10 88'
# Why, and a part that goes on.
capture_of "$remaining $ack $play"
says "why --deck $shipped" 1 "records 1 to 3 at 400: REMAINING TIME SENSE 60 2B 8B
records 4 to 5 at 1600: -> 10 01
record 6 at 2400: D 11, 400 after the record before
no at record 6: P5 wrong kind of reply"
says "explain --all --deck $shipped" 1 "no at record 6: P5 wrong kind of reply
record 12: PLAY -> ACK, delay 400, $unknown
breaks 1: records 12, exchanges 1, passed over 6, open 0"

# ---- What a listed command forgets beside its effect.

sheet eject '[forgets]' '"20 0f" = "registers"'
sheet eject_motion '[forgets]' '"20 0F" = "motion"'
eject="C 20 0F 2F $ack"
shows_stop_in_local='C 61 20 03 84 D 73 20 01 20 00 B4'
shows_eject_in_local='C 61 20 03 84 D 73 20 01 10 00 A4'
# In REMOTE: the points are lost, and nothing else. EJECT has its effect.
capture_of "$stopped $preset $eject $lost"
ends check 1 'no at record 36: M1 no run remains'
ends "check --deck $work/eject.toml" 0 'yes: records 36, exchanges 4, open 0'
says "explain --deck $work/eject.toml" 0 "record 10: STATUS SENSE -> 73 20, delay 400, goal unknown, shown STOP, in unknown, out unknown, local no, ain unknown, aout unknown
record 20: IN DATA PRESET -> ACK, delay 400, goal unknown, shown unknown, in 10:00:00:00, out unknown, local no, ain unknown, aout unknown
record 26: EJECT -> ACK, delay 400, goal EJECT, shown unknown, in unknown, out unknown, local no, ain unknown, aout unknown
record 36: IN DATA SENSE -> 74 10, delay 400, goal unknown, shown unknown, in unknown, out unknown, local no, ain unknown, aout unknown
yes: records 36, exchanges 4, open 0"
run run --deck "$work/eject.toml" "$work/capture.csv"
judge 'a run loses the point at EJECT' eval '[ "$status" = 0 ] && grep -q "^record 20: .*, in 10:00:00:00, " "$work/out" && ! grep -q "^record 26: .*, in 10:00:00:00, " "$work/out" && grep -q "^record 26: goal EJECT, " "$work/out"'
capture_of "$stopped $stop $stopped $preset $eject $shows_rec"
ends "check --deck $work/eject.toml" 1 'no at record 52: M1 no run remains'
ends "check --deck $work/eject_motion.toml" 0 'yes: records 52, exchanges 6, open 0'
# After a NAK nothing is forgotten.
capture_of "$stopped $preset C 20 0F 2F $nak $lost"
ends "check --deck $work/eject.toml" 1 'no at record 37: M1 no run remains'
# In LOCAL the deck may do it or leave it undone; the points are lost either way.
for shows in "$shows_stop_in_local" "$shows_eject_in_local"; do
    capture_of "$stopped_in_local $stop $stopped_in_local $at_10 $eject $lost $shows"
    ends "check --deck $work/eject.toml" 0 'yes: records 62, exchanges 7, open 0'
    capture_of "$stopped_in_local $preset $at_10 C 61 20 31 B2 D 71 20 01 92 $eject $lost"
    ends check 1 'no at record 54: M1 no run remains'
    ends "check --deck $work/eject.toml" 0 'yes: records 54, exchanges 6, open 0'
done
# With hands too, where nobody can have touched the panel.
capture_of "C 00 0C 0C $ack $stopped $preset $eject $lost"
ends 'check --hands' 1 'no at record 42: M1 no run remains'
ends "check --hands --deck $work/eject.toml" 0 'yes: records 42, exchanges 5, open 0'
# Where its reply is not believed, the points are lost all the same: `why` names two replies after EJECT, and not the preset.
capture_of "$stopped $preset $eject $at_10 C 61 20 31 B2 D 71 20 01 92 $lost"
run why --deck "$work/eject.toml" "$work/capture.csv"
judge 'why looks behind EJECT' is_text 1 "records 27 to 36 at 10800: IN DATA SENSE 60 10 70 -> 10:00:00:00 74 10 00 00 00 10 94
records 37 to 44 at 14800: STATUS SENSE 61 20 31 B2 -> 71 20 01 92, says in set, out clear, ain clear, aout clear
records 45 to 54 at 18000: IN DATA SENSE 60 10 70 -> 00:00:00:00 74 10 00 00 00 00 84
could show: shown any, in 10:00:00:00, out clear, local no, ain clear, aout clear
no at record 54: M1 no run remains" ''
# A preset with "motion" in LOCAL: the point may be set or not, and the motion is forgotten either way.
sheet preset_motion '[forgets]' '"44 14" = "motion"'
capture_of "$stopped_in_local $stop $stopped_in_local $preset C 61 20 03 84 D 73 20 01 02 00 96"
ends "check --deck $work/preset_motion.toml" 0 'yes: records 46, exchanges 5, open 0'
for in_point in "$at_10" "$lost"; do
    capture_of "$stopped_in_local $preset $in_point"
    ends "check --deck $work/preset_motion.toml" 0 'yes: records 30, exchanges 3, open 0'
done
# In REMOTE the point is set, and only the motion may be anything.
capture_of "$stopped $preset $lost"
ends "check --deck $work/preset_motion.toml" 1 'no at record 30: M1 no run remains'
capture_of "$stopped $stop $stopped $preset $shows_rec"
ends check 1 'no at record 46: M1 no run remains'
ends "check --deck $work/preset_motion.toml" 0 'yes: records 46, exchanges 5, open 0'
# LOCAL DISABLE with "everything" and hands: the panel too may be anything.
sheet disable '[forgets]' '"00 0C" = "everything"'
capture_of "$stopped C 00 0C 0C $ack $stopped_in_local"
ends 'check --hands' 0 'yes: records 26, exchanges 3, open 0'
ends check 1 'no at record 26: M1 no run remains'
for words in check 'check --hands'; do ends "$words --deck $work/disable.toml" 0 'yes: records 26, exchanges 3, open 0'; done
run explain --hands --deck "$work/disable.toml" "$work/capture.csv"
judge 'LOCAL DISABLE forgets the panel' grep -q '^record 16: LOCAL DISABLE -> ACK, .*, local unknown, .*, panel unknown$' "$work/out"
run explain --deck "$work/disable.toml" "$work/capture.csv"
judge 'without hands it stays off' grep -q '^record 16: LOCAL DISABLE -> ACK, .*, local unknown, ain unknown, aout unknown$' "$work/out"

# ---- What a deck does by itself. The verdicts by a sheet of its own are in tests/cases/acting.txt.

# A mode twice, both tables at one command, and a listed command: PLAY, after which this deck shuttles and loses audio IN by itself.
sheet acting '[loses]' '"20 01" = "registers"' '[runs]' '"20 01" = ["SHUTTLE", "SHUTTLE"]'
capture_of "C 61 20 01 82 D 71 20 00 91 $play C 44 16 00 00 00 10 6A $ack C 61 20 31 B2 D 71 20 04 95 C 61 20 31 B2 D 71 20 00 91 C 61 20 12 93 D 72 20 00 20 B2"
ends check 1 'no at record 40: M1 no run remains'
ends "check --deck $work/acting.toml" 0 'yes: records 49, exchanges 6, open 0'
says "explain --deck $work/acting.toml" 0 "record 8: STATUS SENSE -> 71 20, delay 400, goal unknown, shown unknown, in unknown, out unknown, local no, ain unknown, aout unknown, may run SHUTTLE, may lose in|out|ain|aout
record 14: PLAY -> ACK, delay 400, goal PLAY, shown unknown, in unknown, out unknown, local no, ain unknown, aout unknown, may run SHUTTLE, may lose in|out|ain|aout
record 24: AUDIO IN DATA PRESET -> ACK, delay 400, goal unknown, shown unknown, in unknown, out unknown, local no, ain 10:00:00:00, aout unknown, may run SHUTTLE, may lose in|out|ain|aout
record 32: STATUS SENSE -> 71 20, delay 400, goal unknown, shown unknown, in clear, out clear, local no, ain 10:00:00:00, aout clear, may run SHUTTLE, may lose in|out|ain|aout
record 40: STATUS SENSE -> 71 20, delay 400, goal unknown, shown unknown, in clear, out clear, local no, ain clear, aout clear, may run SHUTTLE, may lose in|out|ain|aout
record 49: STATUS SENSE -> 72 20, delay 400, goal unknown, shown SHUTTLE, in clear, out clear, local no, ain clear, aout clear, may run SHUTTLE, may lose in|out|ain|aout
yes: records 49, exchanges 6, open 0"
# What goes on is ended by a late acknowledgement too, which ends no part.
capture_of "C 61 20 01 82 D 71 20 00 91 $play C 20 02 22 +9400 $ack C 61 20 12 93 D 72 20 02 00 94 C 61 20 12 93 D 72 20 00 20 B2"
says "check --all --deck $work/acting.toml" 1 'no at record 18: L1 late reply
no at record 38: M1 no run remains
breaks 2: records 38, exchanges 4, passed over 9, open 0'
# Somebody has to touch nothing where the deck does it by itself.
capture_of "C 61 20 01 82 D 71 20 00 91 $play C 61 20 12 93 D 72 20 01 00 93 C 61 20 12 93 D 72 20 00 20 B2"
ends check 1 'no at record 32: M1 no run remains'
run touches --deck "$work/acting.toml" "$work/capture.csv"
judge 'nobody touched it' has_verdict 0 'yes: records 32, exchanges 4, open 0'
judge 'no touch is told' eval '[ "$(grep -c "^between " "$work/out")" = 0 ]'
run touches "$work/capture.csv"
judge 'somebody did' eval '[ "$(grep -c "^between " "$work/out")" = 1 ]'

# ---- Sheets that are refused.

# refused WHAT LINES...: this is wrong with a sheet of these lines, and the capture is not read. Each report refuses one further below.
refused() {
    sheet wrong "${@:2}"
    run check --deck "$work/wrong.toml" "$work/no-capture.csv"
    judge "$1" is_text 3 '' "unreadable deck sheet
$work/wrong.toml: $1"
}
sense='a listed sense request: it changes nothing'
for key in '61 0C' '60 10' '60 13' '61 20'; do refused "[forgets] \"$key\": $sense" '[forgets]' "\"$key\" = \"nothing\""; done
refused "[forgets] \"10 01\": groups 1 and 7 are a deck's replies, not commands" '[forgets]' '"10 01" = "nothing"'
refused "[forgets] \"7A 20\": groups 1 and 7 are a deck's replies, not commands" '[forgets]' '"7A 20" = "nothing"'
for key in '2 61' '20 6' '020 61' '20  61' '2061' '20-61' '20 6G' ' 20 61' '' 'EDIT ON'; do
    refused "[forgets] \"$key\": not two bytes in hexadecimal, as \"20 61\"" '[forgets]' "\"$key\" = \"nothing\""
done
refused '[forgets] "20 6a": named twice' '[forgets]' '"20 6a" = "nothing"' '"20 6A" = "motion"'
refused 'line 3: not TOML' '[forgets]' '"20 61" = "nothing"' '"20 61" = "nothing"'
refused '"forget": unknown key: only [forgets], [goals], [loses], [names], [passes], [replies] and [runs] are read' '[forget]'
refused '"title": unknown key: only [forgets], [goals], [loses], [names], [passes], [replies] and [runs] are read' 'title = "an edit deck"'
not_forgotten='not "nothing", "motion", "registers", "tape" or "everything"'
for value in '"local"' '"Nothing"' '""' 1 true '[]' '{}' 1979-05-27; do
    refused "[forgets] \"20 61\": $not_forgotten" '[forgets]' "\"20 61\" = $value"
done
refused '"forgets": not a table' 'forgets = 1'
refused '"passes": not a table' 'passes = ["REC"]'
# Goals, of one entry in the order of what may be wrong with it.
refused '"goals": not a table' 'goals = ["REC"]'
refused '[goals] "20 65 01": not two bytes in hexadecimal, as "20 61"' '[goals]' '"20 65 01" = 1'
refused '[goals] "20 01": a listed command: the rules say where it leads' '[goals]' '"20 01" = 1'
for key in '40 2D' '61 0A' '00 50' '80 00'; do refused "[goals] \"$key\": a command of another group than 2 leads to no mode" '[goals]' "\"$key\" = 1"; done
for value in 1 '"REC"' '{}' '["REC", 1]'; do refused '[goals] "20 65": not a list of modes, as ["SHUTTLE", "JOG"]' '[goals]' "\"20 65\" = $value"; done
refused '[goals] "20 65": an empty list: at least one mode is wanted' '[goals]' '"20 65" = []' '[forgets]' '"20 65" = "tape"'
goals_clash='[forgets] has another word for it than "nothing" and "registers"'
for word in motion tape everything; do refused "[goals] \"20 65\": $goals_clash" '[goals]' '"20 65" = ["REC"]' '"20 66" = 1' '[forgets]' "\"20 65\" = \"$word\""; done
refused '[goals] "20 6a": named twice' '[goals]' '"20 6a" = ["REC"]' '"20 6A" = ["REC"]'
modes='STOP, PLAY, REC, FF, REW, SHUTTLE, JOG, VAR, CUED or EJECT'
# What a deck does by itself, of one entry in the order of what may be wrong with it. Listed commands may begin something.
refused '"loses": not a table' 'loses = "points"'
refused '"runs": not a table' 'runs = ["REC"]'
for table in loses runs; do
    for key in '20 65 01' '2065' '20 6g' '' 'AUTO EDIT' '61 0C 03'; do
        refused "[$table] \"$key\": not two bytes in hexadecimal, as \"20 61\"" "[$table]" "\"$key\" = 1"
    done
    for key in '10 01' '7A 20'; do refused "[$table] \"$key\": groups 1 and 7 are a deck's replies, not commands" "[$table]" "\"$key\" = 1"; done
    for key in '40 2D' '40 10' '61 0A' '61 20' '00 0C' '80 00'; do
        refused "[$table] \"$key\": a command of another group than 2 begins nothing" "[$table]" "\"$key\" = 1"
    done
done
for value in 1 '"REC"' '{}' '["REC", 1]'; do refused '[runs] "20 42": not a list of modes, as ["SHUTTLE", "JOG"]' '[runs]' "\"20 42\" = $value"; done
refused '[runs] "20 42": an empty list: at least one mode is wanted' '[runs]' '"20 42" = []'
refused "[runs] \"20 42\": \"jog\" is not $modes" '[runs]' '"20 42" = ["REC", "jog"]' '"20 4a" = 1'
for value in 1 '"tape"' '"motion"' '"Points"' '""' '["points"]' '{}'; do
    refused '[loses] "20 0F": not "points" or "registers"' '[loses]' "\"20 0F\" = $value"
done
refused '[loses] "20 0f": named twice' '[loses]' '"20 0f" = "points"' '"20 0F" = "points"'
refused '[runs] "20 4a": named twice' '[runs]' '"20 4a" = ["REC"]' '"20 4A" = ["REC"]'
refused "[passes] \"RECORD\": not $modes" '[passes]' 'RECORD = ["JOG"]'
refused "[passes] \"rec\": not $modes" '[passes]' 'rec = ["JOG"]'
refused "[passes] \"REC\": \"jog\" is not $modes" '[passes]' 'REC = ["STOP", "jog"]'
refused "[goals] \"20 65\": \"jog\" is not $modes" '[goals]' '"20 65" = ["REC", "jog"]' '[forgets]' '"20 65" = "tape"'
refused '[passes] "REC": not a list of modes, as ["SHUTTLE", "JOG"]' '[passes]' 'REC = "JOG"'
refused '[passes] "REC": not a list of modes, as ["SHUTTLE", "JOG"]' '[passes]' 'REC = [1]'
# Names.
for key in '2061' '20 6' ''; do refused "[names] \"$key\": not two bytes in hexadecimal, as \"20 61\"" '[names]' "\"$key\" = \"A\""; done
refused "[names] \"74 08\": groups 1 and 7 are a deck's replies, not commands" '[names]' '"74 08" = "A"'
for key in '20 01' '61 0C' '61 20'; do refused "[names] \"$key\": a listed command: it has its name" '[names]' "\"$key\" = \"A\""; done
for value in 1 true '["A"]' '{}'; do refused '[names] "20 61": not a text, as "FULL EE ON"' '[names]' "\"20 61\" = $value"; done
for value in 'Full EE' 'EE_ON' 'EE.' 'ÉE'; do
    refused '[names] "20 61": a name has only A to Z, 0 to 9, blanks, +, - and /' '[names]' "\"20 61\" = \"$value\""
done
for value in '' '1 FULL' ' FULL' '+' '-1'; do refused '[names] "20 61": a name begins with a letter' '[names]' "\"20 61\" = \"$value\""; done
refused '[names] "20 61": a name has no more than 24 characters' '[names]' '"20 61" = "ABCDEFGHIJKLMNOPQRSTUVWXY"'
for value in 'A  B' 'A ' 'A+ '; do
    refused '[names] "20 61": a name has no blank at its end, and no two together' '[names]' "\"20 61\" = \"$value\""
done
refused '[names] "20 6a": named twice' '[names]' '"20 6a" = "A"' '"20 6A" = "A"'
refused '"names": not a table' 'names = "FULL EE ON"'
# Replies.
refused "[replies] \"10 01\": groups 1 and 7 are a deck's replies, not commands" '[replies]' '"10 01" = ["10 01"]'
refused '[replies] "20 0": not two bytes in hexadecimal, as "20 61"' '[replies]' '"20 0" = ["10 01"]'
no_replies='not a list of replies, as ["74 08", "7* 21"]'
for value in 1 '"10 01"' '{}' '[1]' '["10 01", 1]'; do refused "[replies] \"20 61\": $no_replies" '[replies]' "\"20 61\" = $value"; done
refused '[replies] "20 61": an empty list: at least one reply is wanted' '[replies]' '"20 61" = []'
for item in '' '1001' '10 0' '*7 21' '7* *1' '7** 21' '7g 21' 'ACK' '10 01 11'; do
    refused "[replies] \"20 61\": \"$item\" is no reply, as \"74 08\" or \"7* 21\"" '[replies]' "\"20 61\" = [\"10 01\", \"$item\"]"
done
for item in '20 01' '0* 11' '4F 01' '61 0C'; do
    refused "[replies] \"20 61\": \"$item\" is no reply: groups 0, 2, 4 and 6 are a controller's commands" '[replies]' "\"20 61\" = [\"$item\"]"
done
refused '[replies] "20 6a": named twice' '[replies]' '"20 6a" = ["10 01"]' '"20 6A" = ["10 01"]'
refused '[replies] "61 0c 0A": named twice' '[replies]' '"61 0C 0a" = ["74 05"]' '"61 0c 0A" = ["74 05"]'
# A key of three bytes is CURRENT TIME SENSE with a selector, and stands in [replies] alone.
for key in '60 20 01' '62 0C 03' '61 0C 3' '61 0C 0g' '61 0C03' '61 0C-03' '61-0C 03' '61 0C 03 '; do
    refused "[replies] \"$key\": not two bytes in hexadecimal, as \"20 61\"" '[replies]' "\"$key\" = [\"74 05\"]"
done
refused '[names] "61 0C 03": not two bytes in hexadecimal, as "20 61"' '[names]' '"61 0C 03" = "A"'
refused '[forgets] "61 0C 03": not two bytes in hexadecimal, as "20 61"' '[forgets]' '"61 0C 03" = "nothing"'
refused '[goals] "61 0C 03": not two bytes in hexadecimal, as "20 61"' '[goals]' '"61 0C 03" = ["REC"]'
refused '"replies": not a table' 'replies = []'
# The first of several, whatever their order in the file: what is no TOML, a key at the top, and the tables by their names.
wrong_lines=('[runs]' '"20 42" = []' '[replies]' '"20 61" = []' '[passes]' 'X = []' '[names]' '"20 61" = 1' '[loses]' '"20 0F" = 1'
    '[goals]' '"20 65" = []' '[forgets]' '"20 61" = 1')
refused "[forgets] \"20 61\": $not_forgotten" "${wrong_lines[@]}"
refused '[goals] "20 65": an empty list: at least one mode is wanted' "${wrong_lines[@]:0:12}"
refused '[loses] "20 0F": not "points" or "registers"' "${wrong_lines[@]:0:10}"
refused '[names] "20 61": not a text, as "FULL EE ON"' "${wrong_lines[@]:0:8}"
refused "[passes] \"X\": not $modes" "${wrong_lines[@]:0:6}"
refused '[replies] "20 61": an empty list: at least one reply is wanted' "${wrong_lines[@]:0:4}"
refused '[runs] "20 42": an empty list: at least one mode is wanted' "${wrong_lines[@]:0:2}"
refused '"other": unknown key: only [forgets], [goals], [loses], [names], [passes], [replies] and [runs] are read' "${wrong_lines[@]}" '[other]'
refused 'line 16: not TOML' "${wrong_lines[@]}" '[other]' 'x'
# Of one entry the key's fault comes before the value's, and that it is named twice last.
refused '[names] "20 01": a listed command: it has its name' '[names]' '"20 01" = 1'
refused "[replies] \"20 6a\": $no_replies" '[replies]' '"20 6a" = 1' '"20 6A" = ["10 01"]'
refused 'line 1: not TOML' 'time_us,wire,byte'
refused 'line 2: not TOML' '[forgets]' '"20 61"'
# A key that would move the cursor of a terminal is written in plain letters.
refused '"\x1b[2J": unknown key: only [forgets], [goals], [loses], [names], [passes], [replies] and [runs] are read' '"\u001b[2J" = 1'

# Not UTF-8.
printf '[forgets]\n"20 61" = "\xff"\n' > "$work/latin.toml"
run check --deck "$work/latin.toml" "$work/capture.csv"
judge 'not UTF-8' is_text 3 '' "unreadable deck sheet
$work/latin.toml: line 2: not TOML"

# ---- Sheets that are taken.

# What TOML has for the same table; a listed code with another number of data bytes; and 10 MB of comments.
capture_of "$lost_point"
sheet inline 'forgets = { "20 61" = "nothing" }'
sheet other '[forgets]' '"21 01" = "tape"' '"62 0C" = "nothing"' '"20 61" = "nothing"'
{ cat "$work/ee.toml"; yes '# a comment of thirty-two letters' | head -c 10485760; echo; } > "$work/long.toml"
sheet limits '[names]' '"20 6a" = "ABCDEFGHIJKLMNOPQRSTUVWX"' '"20 6B" = "A"' '"41 32" = "A/B-1 +"' '[replies]' '"20 6b" = ["10 01", "10 01", "7* 2b", "F* FF"]' '"20 01" = ["10 02"]' '[forgets]' '"20 61" = "nothing"'
for name in inline other long limits; do ends "check --deck $work/$name.toml" 1 "$no"; done
ends "check --deck decks/nine-pin-commands.toml" 1 "$no"

# After EDIT ON a deck that plays shows REC, and after EDIT OFF it shows PLAY again: with the sheet 9pin it may.
plays='C 61 20 03 84 D 73 20 00 01 00 94'
edit_on="C 20 65 85 $ack"
edit_off="C 20 64 84 $ack"
sheet untouched '[forgets]' '"20 64" = "nothing"' '"20 65" = "nothing"'
capture_of "$play $plays $edit_on $shows_rec $edit_off $plays"
ends "check --deck $work/untouched.toml" 1 'no at record 32: M1 no run remains'
ends 'check --deck decks/nine-pin-commands.toml' 0 'yes: records 48, exchanges 6, open 0'

# EDIT ON may lead to REC, and to nothing else: a deck that shuttles then is accused, as is one that loses IN, unless the sheet says
# that it may. A NAK leads nowhere.
two_shown='C 61 20 12 93'
plays_of_two="$two_shown D 72 20 01 80 13"
shuttles="$two_shown D 72 20 00 20 B2"
records_of_two="$two_shown D 72 20 03 80 15"
sheet goals '[goals]' '"20 65" = ["REC"]' '"20 64" = ["PLAY"]'
sheet goals_beside '[goals]' '"20 65" = ["REC"]' '[forgets]' '"20 65" = "registers"'
sheet more_goals '[goals]' '"20 65" = ["REC", "SHUTTLE"]'
sheet forgets_motion '[forgets]' '"20 65" = "motion"'
capture_of "$remote $play $plays_of_two $edit_on $shuttles"
says "check --deck $work/goals.toml" 1 'no at record 38: M1 no run remains'
for name in more_goals forgets_motion; do ends "check --deck $work/$name.toml" 0 'yes: records 38, exchanges 5, open 0'; done
capture_of "$remote $play $plays_of_two $edit_on $records_of_two $shuttles"
run why --deck "$work/goals.toml" "$work/capture.csv"
judge 'PLAY, REC and SHUTTLE contradict one another' eval '[ "$(sed -n "s/^records \([0-9]* to [0-9]*\) .*STATUS SENSE .*/\1/p" "$work/out" | paste -s -d ,)" = "15 to 23,30 to 38,39 to 47" ] && [ "$(grep -c "^records " "$work/out")" = 3 ]'
capture_of "$remote $play $plays_of_two $edit_on $records_of_two"
ends "check --deck $work/goals.toml" 0 'yes: records 38, exchanges 5, open 0'
run explain --deck "$work/goals.toml" "$work/capture.csv"
judge 'what may become the goal is not known' grep -q '^record 29: 20 65 -> ACK, delay 400, goal unknown, shown unknown, ' "$work/out"
capture_of "$remote $play $plays_of_two C 20 65 85 $nak $records_of_two"
ends "check --deck $work/goals.toml" 1 'no at record 39: M1 no run remains'
capture_of "$remote $preset $edit_on C 60 10 70 D 74 10 00 00 00 11 95"
ends "check --deck $work/goals.toml" 1 'no at record 34: M1 no run remains'
ends "check --deck $work/goals_beside.toml" 0 'yes: records 34, exchanges 4, open 0'

# A deck that clears IN at the end of an edit may do so with "tape" at AUTO EDIT, but not once a status has shown that IN is set. IN
# DATA SENSE alone does not show that.
sheet clears '[forgets]' '"20 42" = "tape"'
has_in='C 61 20 31 B2 D 71 20 01 92'
has_no_in='C 61 20 31 B2 D 71 20 00 91'
capture_of "$remote $preset $auto_edit $lost"
ends "check --deck $work/clears.toml" 0 'yes: records 34, exchanges 4, open 0'
capture_of "$remote $preset $auto_edit $at_10 $lost"
ends "check --deck $work/clears.toml" 0 'yes: records 44, exchanges 5, open 0'
capture_of "$remote $preset $auto_edit $has_in $has_no_in"
ends "check --deck $work/clears.toml" 1 'no at record 40: M1 no run remains'
capture_of "$lost_point"

judge 'the sheet may come as a stream' eval 'run check --deck /dev/stdin "$work/capture.csv" < "$work/ee.toml"; [ "$status" = 1 ]'

# ---- Sheets that are not there.

for verb in check explain run why; do
    run $verb --deck "$work/none.toml" "$work/no-capture.csv"
    judge "$verb and no such sheet" is_text 4 '' "cannot open
$work/none.toml: No such file or directory"
    run $verb --deck "$work" "$work/no-capture.csv"
    judge "$verb and a folder" is_text 4 '' "cannot open
$work: Is a directory"
    run $verb --deck "$work/ee.toml" "$work/no-capture.csv"
    judge "$verb and no capture" is_text 4 '' "cannot open
$work/no-capture.csv: No such file or directory"
    run $verb --deck
    judge "$verb and no sheet" [ "$status" = 2 -a ! -s "$work/out" ]
    run $verb --deck "$work/ee.toml" "$work/capture.csv"
    cp "$work/out" "$work/once"
    once=$status
    run $verb --deck "$work/ee.toml" --deck "$work/ee.toml" "$work/capture.csv"
    cmp -s "$work/once" "$work/out" || status=different
    judge "$verb and a sheet twice" [ "$status" = "$once" ]
done

# ---- The sheet is read before the capture is opened: nobody writes to this one, so whoever opens it waits.

mkfifo "$work/unwritten"
sheet torn '[forgets'
# waits_for SECONDS WORDS...: runs the program on it for so long at most, after which the status is 124.
waits_for() {
    timeout "$1" "$program" "${@:2}" "$work/unwritten" > "$work/out" 2> "$work/err"
    status=$?
}
for verb in check explain run why; do
    waits_for 20 $verb --deck "$work/torn.toml"
    judge "$verb and a sheet that is none, before the capture" is_text 3 '' "unreadable deck sheet
$work/torn.toml: line 1: not TOML"
    waits_for 20 $verb --deck "$work/none.toml"
    judge "$verb and no such sheet, before the capture" is_text 4 '' "cannot open
$work/none.toml: No such file or directory"
done
waits_for 1 check --deck "$work/ee.toml"
judge 'with a sheet that is one it waits for the capture' [ "$status" = 124 -a ! -s "$work/out" ]

# ---- The sheet 9pin names each command as the profile's page does, with its replies and what is forgotten.
# everyday: the page's rows, as COMMAND|NAME|WHAT: what the sheet says is forgotten or where it leads, or of a sense request its replies.
everyday() {
    sed -n '/^### Not listed/,/^### Replies/s/^| \(`[0-9A-F ]*`\) | \([A-Z0-9 +/-]*\) | \(.*\) |$/\1|\2|\3/p' docs/PROFILE.md | tr -d '`'
}
judge 'the sheet 9pin and the page say the same is forgotten' cmp -s \
    <(everyday | sed -n 's/^\(.*\)|.*|\("[a-z]*"\)$/"\1" = \2/p') \
    <(sed -n 's/^\("[0-9A-F ]*" = "[a-z]*"\) .*/\1/p' decks/nine-pin-commands.toml)
judge 'and the same goals' cmp -s \
    <(everyday | sed -n 's/^\(.*\)|.*|\(\["[A-Z]*"\]\)$/"\1" = \2/p') \
    <(sed -n '/^\[goals\]/,$p' decks/nine-pin-commands.toml | sed -n 's/^\("[0-9A-F ]*" = \["[A-Z]*"\]\) .*/\1/p')
judge 'the names' cmp -s \
    <(everyday | sed 's/^\(.*\)|\(.*\)|.*$/"\1" = "\2"/') \
    <(sed -n '/^\[names\]/,/^\[replies\]/p' decks/nine-pin-commands.toml | grep '^"')
# What is no sense request takes 10 01.
judge 'the replies' cmp -s \
    <(everyday | sed 's/|["[].*$/|10 01/; s/, /", "/g; s/^\([^|]*\)|.*|\(.*\)$/"\1" = ["\2"]/') \
    <(sed -n '/^\[replies\]/,/^\[forgets\]/p' decks/nine-pin-commands.toml | sed -n 's/^\("[0-9A-F][0-9A-F] [0-9A-F][0-9A-F]" = \[.*\]\) .*/\1/p')
# by_selector: the page's table of replies by selector, as lines of a sheet: a row may be of several selectors.
by_selector() {
    local selectors replies selector
    sed -n '/^### Replies by selector/,/^### [^R]/s/^| \(`.*`\) | [^|]* | \(.*\) |$/\1|\2/p' docs/PROFILE.md | tr -d '`' |
        while IFS='|' read -r selectors replies; do
            for selector in ${selectors//,/ }; do echo "\"61 0C $selector\" = [\"${replies//, /\", \"}\"]"; done
        done
}
judge 'the replies by selector' cmp -s <(by_selector) <(sed -n 's/^\("61 0C [0-9A-F]*" = \[[^]]*\]\).*/\1/p' decks/nine-pin-commands.toml)
# What was compared is not two empty lists.
judge 'there are 11 or more' [ "$(by_selector | wc -l)" -ge 11 ]
judge 'there are 48 or more' [ "$(sed -n '/^\[names\]/,/^\[replies\]/p' decks/nine-pin-commands.toml | grep -c '^"')" -ge 48 ]

tell_counts

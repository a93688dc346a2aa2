#!/usr/bin/env bash
# Runs the commands of sigrok on the page of captures as they stand there: the one that records with sigrok's demo device in
# place of an analyser, and those that decode and convert on drawn recordings of both wires, whose bytes are known. The last
# line is 'N passed, M failed'.
set -u
cd "$(dirname "$0")/../.." || exit 1
. tests/lib/tools.sh
need_tools sigrok-cli
. tests/lib/judge.sh
. tests/lib/program.sh
top=$PWD

ln -s "$top/ninecheck" "$work/ninecheck"

# in_work COMMAND: runs it in a folder that has the script beside it.
in_work() {
    rm -f "$work/capture.csv"
    (cd "$work" && bash -c "$1") > "$work/out" 2> "$work/err" < /dev/null
    status=$?
}

# The page's commands: the one that records, and those that decode a recording and convert what is printed.
record=$(sed -n 's/^    \(sigrok-cli -d .*\)/\1/p' docs/CAPTURE.md)
decode=$(sed -n '/^    sigrok-cli -i /,/ > capture.csv$/s/^    //p' docs/CAPTURE.md)
commands=$(grep -c '^    sigrok-cli ' docs/CAPTURE.md)
: > "$work/out"
: > "$work/err"
judge "the page's commands of sigrok: $commands" [ "$commands" = 2 ]

# is_recorded RATE: the last run made a recording of this rate in which both channels have the page's names.
is_recorded() {
    [ "$status" = 0 ] && (cd "$work" && sigrok-cli -i recording.sr --show) > "$work/out" 2> "$work/err" &&
        grep -qx "Samplerate: $1" "$work/out" && grep -qx -- '- controller: logic' "$work/out" &&
        grep -qx -- '- deck: logic' "$work/out"
}

# draw RATE DAMAGE: makes a recording with so many samples a second of $work/sent.csv, a capture: each record's start bit
# begins at its stamp, and its eight data bits, the lowest first, the bit of odd parity and the stop bit follow. Of the
# fifth record the parity bit is wrong where DAMAGE is parity, and the stop bit where it is stop.
draw() {
    awk -F, -v rate="$1" -v damage="$2" '
        function put(at, level,    k, last) {
            last = int(start + (at + 1) * rate / 38400 + 0.5)
            for (k = int(start + at * rate / 38400 + 0.5); k < last; k++) low[$2, k] = !level
            if (last > samples) samples = last
        }
        NR == 1 { next }
        {
            start = $1 * rate / 1000000
            value = (index("0123456789ABCDEF", substr($3, 1, 1)) - 1) * 16 + index("0123456789ABCDEF", substr($3, 2, 1)) - 1
            odd = 1
            put(0, 0)
            for (k = 1; k <= 8; k++) {
                put(k, value % 2)
                odd = (odd + value) % 2
                value = int(value / 2)
            }
            put(9, damage == "parity" && NR == 6 ? !odd : odd)
            put(10, !(damage == "stop" && NR == 6))
        }
        END {
            print "controller,deck"
            for (k = 0; k < samples + 1000; k++) print !low["C", k] "," !low["D", k]
        }' "$work/sent.csv" > "$work/samples.csv"
    in_work "sigrok-cli -I csv:samplerate=$1:column_formats=2l -i samples.csv -o recording.sr"
}

# is_sent: the page's capture has the records that were sent, each where its start bit ends, 26 microseconds after its
# stamp.
is_sent() {
    awk -F, -v OFS=, 'NR > 1 { $1 += 26 } { print }' "$work/sent.csv" > "$work/want"
    [ "$status" = 0 ] && [ ! -s "$work/err" ] && cmp "$work/capture.csv" "$work/want"
}

# is_refused ERROR: the converter refused the fifth record for this error, and nothing else went wrong.
is_refused() {
    [ "$status" = 3 ] && [ ! -s "$work/capture.csv" ] && [ "$(wc -l < "$work/err")" = 1 ] &&
        grep -qE "^ninecheck convert sigrok: export.txt: line [0-9]+: a damaged byte: [0-9]+-[0-9]+ uart-2: $1\$" "$work/err"
}

# is_answer LINE: the program says this of the page's capture.
is_answer() {
    [ "$("$program" check "$work/capture.csv" 2> "$work/err")" = "$1" ]
}

in_work "$(echo "$record" | sed 's/-d fx2lafw/-d demo/; s/--time 60s/--time 60ms/')"
judge 'a recording of the demo device' is_recorded 2000000
rm -f "$work/recording.sr"
in_work "(sleep 0.3; echo) | $(echo "$record" | sed 's/-d fx2lafw/-d demo/; s/--time 60s/--continuous/')"
judge 'a recording of the demo device that a key ends' is_recorded 2000000

for file in disputed-in-point second-reply; do
    cp "examples/$file.csv" "$work/sent.csv"
    answer=$("$program" check "examples/$file.csv")
    for rate in 2000000 1000000; do
        draw $rate none
        judge "$file at $rate samples a second is recorded" is_recorded $rate
        in_work "$(echo "$decode" | sed "s/--samplerate 2000000/--samplerate $rate/")"
        judge "$file at $rate samples a second is what was sent" is_sent
        judge "$file at $rate samples a second has its answer" is_answer "$answer"
    done
    in_work "$decode"
    judge "$file with the rate of another recording" grep -q ': is the rate wrong?$' "$work/err"
    draw 2000000 none
    in_work "$(echo "$decode" | sed 's/=controller:/=other:/; s/=deck:/=controller:/; s/=other:/=deck:/')"
    judge "$file with both wires swapped" is_answer 'no at record 1: P1 reply without a command'
done

# Damage is printed, but with the bytes alone it is not.
cp examples/disputed-in-point.csv "$work/sent.csv"
while IFS='|' read -r damage error; do
    draw 2000000 $damage
    in_work "$decode"
    judge "a wrong $damage bit is refused" is_refused "$error"
    in_work "$(echo "$decode" | sed 's/uart=rx-data:[^ ]*/uart=rx-data/')"
    judge "a wrong $damage bit is no damage with the bytes alone" is_sent
done <<'END'
parity|Parity error
stop|Frame error
END

tell_counts

#!/usr/bin/env bash
# Who is blamed, on drawn captures with one fault each (blamed.py): what `check` and `info` say of it, the head of the page, what to ask
# next, and with which sheet it is a yes; and on honest ones, of which nothing is to be said. blamed.sh [DRAWN [HONEST]] draws so many of
# each fault, and so many honest ones. The last line is 'N passed, M failed'.
set -u
cd "$(dirname "$0")/../.." || exit 1
. tests/lib/tools.sh
need_tools python3
. tests/lib/judge.sh
. tests/lib/program.sh

# How many are drawn of each fault, and how many honest ones.
drawn=${1:-3}
honest=${2:-40}
[ $# -gt 0 ] || smaller drawn 1 'drawn captures of each fault'
[ $# -gt 1 ] || smaller honest 6 'honest captures'

# Of each fault the rules that its first break may break, or yes; the sign of `info`; what the page says of a command that was not obeyed;
# and the sheet with which it is a yes.
faults='honest|yes|||
clocks|P1 P2 P3 P4|two clocks||
short|P4|a block sent short||
edit|M1|||9pin
preset|P6|||
echo|P2 P4|an echo||
hole|P2 P4 B3|a hole in both wires||
doubled|B2 P1 P3|a byte written twice||
late|L1|||
unanswered|L1 L2|||
disobeyed|yes||STOP was not obeyed for 40.0 s|
ejected|M1|||eject
jog|M1|||jog
refused|yes|||
rate|P7|rate||'

# What to ask next: of each fault the word that says it, and how its only line of this begins; nothing where none is said. RECORD is the
# first of the command.
advice='clocks|why|
short|why|
short|try|
preset|why|next: [0-9:]*;0[01] is not valid at --rate 29.97df: drop frame leaves out frames 00 and 01 in second 00 of minute
echo|why|
echo|try|look at: an echo, at record
hole|why|
hole|try|
doubled|why|
doubled|try|
late|why|
late|try|
unanswered|why|
unanswered|try|
disobeyed|why|
refused|why|
edit|why|next: yes with --deck 9pin (AUTO EDIT at record RECORD)
edit|try|yes with .*--deck 9pin
ejected|why|next: yes with --deck eject (EJECT at record RECORD)
ejected|try|yes with .*--deck eject
jog|why|next: yes with --deck jog (VAR.* at record RECORD)
jog|try|yes with .*--deck jog
preset|try|
rate|why|next: .*--rate 29.97df
rate|try|yes with --rate 29.97df'

# These faults are the deck's: the page suspects no tap.
not_suspected='late unanswered'

# ask WORDS...: the program; its streams are left in $work/out and $work/err.
ask() {
    "$program" "$@" > "$work/out" 2> "$work/err"
    status=$?
}

# fields_of TABLE NAME: the line of this fault in the table.
fields_of() { grep "^$2|" <<< "$1"; }

# judge_check: its verdict, which breaks one of the rules of this fault.
judge_check() {
    local rule=yes
    # shellcheck disable=SC2086
    ask check $words "$capture"
    judge "$name: check says $verdict" [ "$(cat "$work/out" "$work/err")" = "$verdict" ]
    [ "${verdict%%:*}" = yes ] || { rule=${verdict#*: } && rule=${rule%% *}; }
    judge "$name: breaks one of $rules" [ "${rules/$rule/}" != "$rules" ]
    [ -n "$sheet" ] || return
    # shellcheck disable=SC2086
    ask check --deck "$sheet" $words "$capture"
    judge "$name: a yes with --deck $sheet" [ "$status" = 0 ]
}

# judge_info: this sign, and no other.
judge_info() {
    # shellcheck disable=SC2086
    ask info $words "$capture"
    judge "$name: its signs" [ "$(sed -n 's/^look at: \(.*\), at record .*/\1/p' "$work/out")" = "$sign" ]
}

# judge_page: whether there are breaks, what was not obeyed, and the sign.
judge_page() {
    local head='<h1>0 breaks</h1>'
    [ "$rules" = yes ] || head='<h1 class="bad">[1-9][0-9,]* breaks*</h1>'
    # shellcheck disable=SC2086
    ask page $words "$capture"
    judge "$name: the head of its page" grep -qx "$head" "$work/out"
    judge "$name: what was not obeyed" [ "$(sed -n 's,^<p class="lead"><a href="#look">\(.*\)</a>.*,\1,p' "$work/out")" = "$obeyed" ]
    sed -n '/Look at the capture first/,/<\/ul>/s/^<li>\(.*\), at record .*/\1/p' "$work/out" > "$work/signs"
    judge "$name: the signs of its page" [ "$(cat "$work/signs")" = "$sign" ]
    case " $not_suspected " in *" $fault "*) judge "$name: the tap is not suspected" eval '! grep -q "Suspect the tap" "$work/out"' ;; esac
}

# judge_advice WORD FORM: what this word says on standard error is nothing, or one line that begins so.
judge_advice() {
    local form=${2/RECORD/$record}
    # shellcheck disable=SC2086
    ask "$1" $words "$capture"
    if [ -z "$form" ]; then
        judge "$name: $1 gives no advice" [ ! -s "$work/err" ]
    else
        judge "$name: $1 advises $form" advises "$form"
    fi
}
advises() { [ "$(wc -l < "$work/err")" = 1 ] && grep -q "^$1" "$work/err"; }

# judge_export: it is refused at the damaged byte, and without it makes a capture that is a yes.
judge_export() {
    ask convert sigrok --samplerate 2000000 "$work/$name.txt"
    judge "$name: the damaged byte" eval '[ "$status" = 3 ] && [ "$(cat "$work/err")" = "ninecheck convert sigrok: $work/$name.txt: $record" ]'
    # shellcheck disable=SC2086
    "$program" convert sigrok --samplerate 2000000 $words "$work/$name.txt" > "$work/$name.csv"
    ask check "$work/$name.csv"
    judge "$name: the rest" [ "$(cat "$work/out" "$work/err")" = "$verdict" ]
}

python3 -B tests/judging/blamed.py "$work" "$drawn" "$honest" > "$work/list"
judge 'the captures' [ "$(wc -l < "$work/list")" = $((honest + 15 * drawn)) ]
while IFS='|' read -r name words verdict record; do
    fault=${name%-*}
    capture=$work/$name.csv
    if [ "$fault" = export ]; then
        judge_export
        continue
    fi
    IFS='|' read -r _ rules sign obeyed sheet <<< "$(fields_of "$faults" "$fault")"
    judge_check
    judge_info
    judge_page
    while IFS='|' read -r _ word form; do [ -z "$word" ] || judge_advice "$word" "$form"; done <<< "$(fields_of "$advice" "$fault")"
done < "$work/list"

tell_counts

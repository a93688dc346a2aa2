#!/usr/bin/env bash
# Makes pages, and reads their breaks as a person does: the sentence of each reason, the lines of `why`, the list of a contradiction,
# the table and what is advised, of small captures written by hand; the pictures, which are those of `picture`; and what a long list
# leaves out. The last line is 'N passed, M failed'.
set -u
cd "$(dirname "$0")/../.." || exit 1
. tests/lib/tools.sh
need_tools python3 tidy
. tests/lib/judge.sh
. tests/lib/program.sh
. tests/lib/blocks.sh
. tests/lib/drawing.sh

# Commands with their replies: one that comes 9,400 microseconds after PLAY, STOP, a sense of OUT that is refused, CURRENT TIME
# SENSE, and senses of IN that answer 10:00:09:24, which is 249 frames after 10:00:00:00, and 11:00:00:00.
late='C 20 01 21 +9400 D 10 01 11'
stop="C 20 00 20 $ack"
refused_sense='C 60 11 71 D 11 12 01 24'
polled_time='C 61 0C 01 6E D 74 04 00 00 00 01 79'
in_249_on='C 60 10 70 D 74 10 24 09 00 10 C1'
in_at_11='C 60 10 70 D 74 10 00 00 00 11 95'
no_mode='C 61 20 12 93 D 72 20 09 00 9B'

# page_of CAPTURE [WORDS...]: the page of that with these words, in $work/page, and its section of the breaks in $work/out; and what
# `why` says of it, in $work/why.
page_of() {
    capture=$1
    (cd "$(dirname "$capture")" && "$program" page "${@:2}" "$(basename "$capture")") > "$work/page" 2> "$work/err"
    status=$?
    "$program" why --quiet --all "${@:2}" "$capture" > "$work/why" 2> /dev/null # it takes no stretch
    sed -n '/^<section id="breaks">$/,/^<\/section>$/p' "$work/page" > "$work/out"
}

# section RECORDS [WORDS...]: the same of a capture of these records, in which $names stand for what they are set to.
section() {
    capture_of "$(eval "echo \"$1\"")"
    page_of "$work/capture.csv" "${@:2}"
}

# plain: what a reader sees of lines of the page.
plain() { sed 's/<[^>]*>//g; s/&#181;/µ/g; s/&#8594;/→/g; s/&lt;/</g; s/&gt;/>/g; s/&quot;/"/g; s/&amp;/\&/g'; }

# first_of TAG: what stands in the first element with this name, with its marks.
first_of() {
    awk -v tag="$1" '$0 ~ "<" tag "[ >]" { is_in = 1 } is_in { print } is_in && $0 ~ "</" tag ">" { exit }' "$work/out"
}

# summaries: a line for each break: its id, and what its summary says.
summaries() { sed -n 's/^<details class="break" id="\([^"]*\)".*<summary>\(.*\)<\/summary>$/\1: \2/p' "$work/out" | plain; }

# paragraphs: those of the section itself.
paragraphs() { awk '/^<details/ { inside++ } !inside && /^<p/; /^<\/details>/ { inside-- }' "$work/out" | plain; }

# same NAME TEXT TEXT: counts whether the two are one.
same() {
    printf '%s\n' "$2" > "$work/made"
    printf '%s\n' "$3" > "$work/want"
    judge "$1" cmp "$work/made" "$work/want"
}

show() {
    [ ! -s "$work/err" ] || head -n 5 "$work/err"
    diff "$work/made" "$work/want" | head -n 10
}

# Each reason: the records, and what stands in the line of the break.
reasons() {
    local records want
    while IFS='|' read -r records want; do
        section "$records"
        same "$want" "$(summaries)" "$want"
        same "the lines of why: $want" "$(first_of pre | plain)" "$(sed '$d' "$work/why")"
    done <<'END'
$play D 10|r7: 00:00:00.002 record 7 P1 reply without a command After the reply to PLAY the deck sent 10, 400 µs later.
D 10 01 11|r1: 00:00:00.000 record 1 P1 reply without a command The deck sent 10.
C 61 20 D 71|r3: 00:00:00.001 record 3 P2 reply before the end of the command The deck sent 71 when 2 of 4 bytes of the command had come.
C 61 D 71|r2: 00:00:00.000 record 2 P2 reply before the end of the command The deck sent 71 when 1 of 4 bytes of the command had come.
C 20 01 21 20|r4: 00:00:00.001 record 4 P3 command before the reply The controller sent 20, 400 µs after PLAY.
C 40 2D 6D 20|r4: 00:00:00.001 record 4 P3 command before the reply The controller sent 20, 400 µs after 40 2D.
C 20 01 21 +12400 20|r4: 00:00:00.013 record 4 L2 no reply PLAY got no reply; the next command came 12,400 µs after it.
C 61 20 01 82 D 71 20 C 20|r7: 00:00:00.002 record 7 P4 command inside a reply 2 of 4 bytes of the reply to STATUS SENSE had come; 400 µs later the controller sent 20.
$late|r4: 00:00:00.010 record 4 L1 late reply The reply to PLAY began 9,400 µs after it.
C 61 20 01 82 D 71 20 +11400 00 91|r7: 00:00:00.013 record 7 B3 gap inside a block 11,400 µs between two bytes of the deck's block.
C 61 20 +10400 01 82|r3: 00:00:00.011 record 3 B3 gap inside a block 10,400 µs between two bytes of the controller's block.
C 20 01 21 D 20|r4: 00:00:00.001 record 4 B1 wrong group for this wire 20 on the deck's wire, 400 µs after PLAY.
$play C 10|r7: 00:00:00.002 record 7 B1 wrong group for this wire 10 on the controller's wire, 400 µs after the reply to PLAY.
C 74|r1: 00:00:00.000 record 1 B1 wrong group for this wire 74 on the controller's wire.
C 20 01 21 D 10 01 12|r6: 00:00:00.002 record 6 B2 wrong sum The sum is 11; the deck sent 12, in the reply to PLAY.
C 20 01 22|r3: 00:00:00.001 record 3 B2 wrong sum The sum is 21; the controller sent 22, in PLAY.
C 44 14 29 00 00 10 91|r7: 00:00:00.002 record 7 P6 invalid time in a command IN DATA PRESET carries 29 00 00 10.
C 60 10 70 $ack|r6: 00:00:00.002 record 6 P5 wrong kind of reply IN DATA SENSE was answered with 10 01 11.
C 61 0C 01 6E D 74 04 29 00 00 10 B1|r11: 00:00:00.004 record 11 P7 invalid time in a reply The reply to CURRENT TIME SENSE carries 29 00 00 10.
END
}

# What to ask next stands at the first break where there is something to ask, as `why --all` says it.
for capture in examples/jog-for-var.csv examples/disputed-in-point.csv examples/drop-frame.csv examples/second-reply.csv; do
    "$program" page "$capture" > "$work/out" 2> /dev/null
    "$program" why --all "$capture" 2>&1 > "$work/made" | sed -n 's/^next: //p' > "$work/want"
    sed -n 's#^<p><b>Ask next:</b> \(.*\)</p>$#\1#p' "$work/out" > "$work/made"
    judge "$capture: what to ask next" cmp "$work/made" "$work/want"
done
judge 'a late reply or a second one asks nothing' [ ! -s "$work/made" ]
"$program" page examples/jog-for-var.csv > "$work/out" 2> /dev/null
judge 'which sheet explains it' grep -qF \
    '<p><b>Ask next:</b> record 39 keeps the rules with --deck jog (VAR FWD at record 24)</p>' "$work/out"

# A contradiction: its line, its list, and the lines of why.
contradictions() {
    section "$remote $preset +60000400 $in_at_11"
    same 'a contradiction' "$(summaries)" \
        'r28: 00:01:00.011 record 28 M1 no run remains 3 replies contradict one another, over 1 min 0.0 s.'
    same 'what is said of it' "$(sed -n '/^<details/,$p' "$work/out" | grep '^<p>' | grep -v -m 1 'Ask next' | plain)" \
        'No deck can have given these replies together. Without any one of them, a deck can have given the others. What they disagree on is IN, and its bytes are marked.'
    same 'the list' "$(first_of ol | sed 's/<br>/ | /; s/<p / | &/' | plain | sed '/^$/d')" \
        '00:00:00.000 records 1 to 8 STATUS SENSE → STATUS says local no | 61 20 01 82 → 71 20 00 91 | 3.2 ms later, nothing between
00:00:00.003 records 9 to 18 IN DATA PRESET 10:00:00:00 → ACK | 44 14 00 00 00 10 68 → 10 01 11 | 1 min 0.0 s later, nothing between
00:01:00.007 records 19 to 28 IN DATA SENSE → IN DATA 11:00:00:00 | 60 10 70 → 74 10 00 00 00 11 95'
    judge "what was known" grep -qxF '<p>Known before the last reply: in 10:00:00:00, local no.</p>' "$work/out"
    same 'the lines of why of a contradiction' "$(first_of pre | plain)" "$(sed '$d' "$work/why")"

    # A status that shows no mode, and two of which the second says that IN is clear.
    section 'C 61 20 12 93 D 72 20 02 20 B4'
    same 'one reply' "$(summaries)" 'r9: 00:00:00.003 record 9 M1 no run remains No deck can have given this reply.'
    section 'C 61 20 31 B2 D 71 20 01 92 C 61 20 31 B2 D 71 20 00 91'
    same 'two replies' "$(summaries)" \
        'r16: 00:00:00.006 record 16 M1 no run remains 2 replies contradict one another, over 6.0 ms.'
    judge "what is said of two" grep -qF 'It can have given either of them without the other.' "$work/out"

    # What they disagree on is marked, and a command between that touches it is named.
    section "$remote C 40 10 50 $ack $shift C 61 20 31 B2 D 71 20 00 91"
    judge 'what is disputed' grep -qF 'What they disagree on is <b class="bad">IN</b>, and its bytes are marked.' "$work/out"
    judge 'the byte that is disputed' grep -qF '61 20 31 B2 &#8594; 71 20 <b class="bad">00</b> 91' "$work/out"
    judge 'the command between' grep -qF '6 records between; what touches it between: IN SHIFT + at 00:00:00.' "$work/out"

    section "$remote $preset $(repeated 500 "$polled_time") $in_at_11"
    judge "replies far apart" grep -qF '<p class="between">2.2 s later, 5,500 records between; no command between touches it</p>' "$work/out"
    # 250 shifts of IN, and a sense that misses one of them: each is needed.
    section "$remote $preset $(repeated 250 "$shift") $in_249_on"
    same 'very many replies' "$(summaries)" \
        'r1528: 00:00:00.611 record 1,528 M1 no run remains 253 replies contradict one another, over 610.8 ms.'
    judge "the list of very many replies" [ "$(grep -c '^<li>' "$work/out")" = 201 ]
    judge "those that are not listed" grep -qF '<p class="between">52 more replies are not listed</p></li>' "$work/out"
    same 'the lines of why of very many replies' "$(first_of pre | plain)" \
        "$(sed -n '1,200p' "$work/why"; echo '... 52 more replies'; sed -n '253,255p' "$work/why")"
}

# What is advised.
advice() {
    local records want
    while IFS='|' read -r records want; do
        section "$records"
        same "advice: $records" "$(paragraphs | paste -sd ' ')" "$want"
    done <<'END'
$play|No record breaks a rule.
$play D 10|
D 10|Suspect the tap first: begins inside traffic. What that means stands at the head of the page.
C 61 20 +10400 01 82|
$late $late|After a late reply everything known of the deck stays known.
$play D 10 $play D 10|The number of breaks is not the number of faults: one lost byte can break two parts. After a break nothing is known of the deck until it is asked again.
$late D 10|The number of breaks is not the number of faults: one lost byte can break two parts. After a break, unless it is a late reply, nothing is known of the deck until it is asked again.
END
}

# The table of the reasons: the most frequent first, with the commands at which they came up.
table() {
    section "$late $play D 10 $remote D 71 $play D 10 $stop D 10 $in_at_11 D 10 C 40 2D 6D $ack D 10 $refused_sense D 11"
    same 'the table' "$(grep '^<tr>' "$work/out" | sed 's/<td/ | &/g; s/<div/ | &/' | plain)" \
        'P1 reply without a command | 7 | The deck sent a byte while no command was waiting for a reply. | At fault: the deck. Command: PLAY 2, STATUS SENSE 1, STOP 1, IN DATA SENSE 1, others 2.
L1 late reply | 1 | The reply began more than 9,287 µs after the command. | At fault: the deck. Command: PLAY 1.'
}

# A name that a sheet gives, and text that a page would take for marks.
names() {
    printf '%s\n' '[names]' '"40 2D" = "FULL EE ON"' > "$work/deck.toml"
    capture_of "C 40 2D 6D $ack D 10"
    page_of "$work/capture.csv" --deck "$work/deck.toml"
    same 'a name of a sheet' "$(summaries)" \
        'r7: 00:00:00.002 record 7 P1 reply without a command After the reply to FULL EE ON the deck sent 10, 400 µs later.'
    judge "text with marks" grep -qF 'FULL EE ON 40 2D 6D -&gt; 10 01 11' "$work/out"
    judge 'the picture has the name' grep -q '^<text.*>FULL EE ON</text>' "$work/out"
    "$program" picture --deck "$work/deck.toml" "$work/capture.csv" > "$work/made" 2> "$work/err"
    judge 'and so has the picture alone' grep -q '^<text.*>FULL EE ON</text>' "$work/made"
}

# without_looks: the boxes, lines and texts of a picture, but for how they look.
without_looks() {
    grep -E '^<(rect|line|path|text)' | sed -E 's/ (class|fill|stroke|stroke-width|stroke-dasharray|font-size|font-weight)="[^"]*"//g'
}

# picture_at RECORD: the picture that the section has of the first break at this record.
picture_at() {
    awk -v id="id=\"r$1\"" 'index($0, id) { is_in = 1 } is_in && /^<svg/ { is_drawn = 1 }
        is_drawn { print } is_drawn && /^<\/svg/ { exit }' "$work/out"
}

# has_pictures NAME [MOST]: each break of the section, or so many of them, has the picture that `picture` makes of it. Of two
# breaks at one record that makes the first alone, and of replies that contradict one another it makes another one. What is joined
# with the break before has none.
has_pictures() {
    local record pictures=0
    for record in $("$program" check --all "$capture" | sed -n 's/^no at record \([0-9]*\): \(..\) .*/\1 \2/p' |
        sort -u -n -s -k 1,1 | head -n "${2-100}" | sed -n '/M1/!s/ .*//p'); do
        grep -q "^<details class=\"break\" id=\"r$record\"" "$work/out" || continue
        pictures=$((pictures + 1))
        # The ground and the two headlines are not on the page.
        "$program" picture --all --at "$record" "$capture" | without_looks | sed 1,3d > "$work/want"
        picture_at "$record" | without_looks > "$work/made"
        if [ ! -s "$work/made" ] || ! cmp -s "$work/made" "$work/want"; then
            fail "$1: the picture of record $record"
            return
        fi
    done
    judge "$1: its $pictures pictures" [ "$pictures" -gt 0 ]
}

# One break after another: pictures that overlap, two breaks at one record, late replies before a break, and parts that are short.
neighbours() {
    local records
    while read -r records; do
        section "$records"
        has_pictures "$records"
    done <<'END'
$late $late $play D 10 $late C 74 20 01 21 $ack D 10 $play
C 61 20 01 82 D 71 C 74 $play C 20 01 21 +12400 D 20 $play
C 61 20 01 82 D 71 20 C 20 01 21 20 01 21 +12400 20 01 21 +12400 D 10 01 11 +15400 C 61 20
$remote $preset $in_at_11 $remote $preset $in_at_11 $play D 10
$(repeated 60 "$polled_time") D 10 D 10 $(repeated 12 "$late") C 61 20 D 10 $(repeated 30 "$late")
D 10 01 11 $play
END
    section 'C 61 20 01 82 D 71 C 74 $play'
    same 'two breaks at one record' "$(summaries | cut -d ' ' -f 1-5)" 'r6: 00:00:00.002 record 6 P4
r6-2: 00:00:00.002 record 6 B1'
    judge "the picture of the second begins with its part" [ "$(grep -c '<title>record 5, ' "$work/out")" = 1 ]
    section '$late'
    judge "the first break is open" grep -qF '<details class="break" id="r4" open>' "$work/out"
    page_of examples/views/several-breaks.csv
    has_pictures several-breaks.csv
    page_of examples/views/late-replies.csv
    has_pictures late-replies.csv
    # What --sync passes over is not drawn.
    capture_of "D 01 11 C 61 20 D 10 $play D 10"
    page_of "$work/capture.csv" --sync
    same '--sync' "$(sed -n 's/.*<title>\(record [0-9]*\), .*/\1/p' "$work/out" | sort -u -V | head -n 1)" 'record 3'
}

# Ten drawn captures with faults of lines and machines, one after the other, so that parts and pictures meet in many ways.
drawn() {
    if [ ! -e "$work/drawn.csv" ]; then
        mkdir "$work/drawn"
        draw_captures 10 "$work/drawn" > "$work/list"
        damage_captures 10 "$work/drawn"
        awk -F, -v OFS=, 'FNR == 1 { if (NR == 1) print; before += last + 3000; next }
            { last = $1; $1 = sprintf("%.0f", before + $1); print }' "$work"/drawn/*-damaged.csv > "$work/drawn.csv"
    fi
    page_of "$work/drawn.csv"
    has_pictures 'drawn captures'
}

# Equal breaks in a row, between which no exchange comes, are one entry.
in_a_row() {
    section 'C 20 01 21 +12400 20 01 21 +12400 20 01 21 +12400 20 00 20 +12400 20 01 21 $ack C 20 01 21 +12400 61'
    same 'equal breaks in a row' "$(summaries)" 'r4: 00:00:00.013 record 4 L2 no reply PLAY got no reply; the next command came 12,400 µs after it. 3 in a row, the last at record 10, 00:00:00.040.
r13: 00:00:00.053 record 13 L2 no reply STOP got no reply; the next command came 12,400 µs after it.
r22: 00:00:00.068 record 22 L2 no reply PLAY got no reply; the next command came 12,400 µs after it.'
    judge 'they count each' grep -qF '<td class="count">5</td>' "$work/out"
    # A status whose data fit no mode, twice in a row and once behind another exchange.
    section "$remote $no_mode $no_mode $play $no_mode"
    same 'equal contradictions in a row' "$(summaries)" \
        'r17: 00:00:00.006 record 17 M1 no run remains No deck can have given this reply. 2 in a row, the last at record 26, 00:00:00.010.
r41: 00:00:00.016 record 41 M1 no run remains No deck can have given this reply.'
}

# offered_works NAME: each command that the page offers, with the record 400 in the place of RECORD, is one that the program
# takes, and that finds a break.
offered_works() {
    local offered=0 command
    while IFS= read -r command; do
        offered=$((offered + 1))
        (cd "$work" && eval "\"$program\" ${command//RECORD/400}") > "$work/made" 2> "$work/err"
        judge "$1: $command" [ $? = 1 ]
    done < <(grep -o '<code>ninecheck [a-z]* --all[^<]*</code>' "$work/page" | plain | sed 's/^ninecheck //')
    judge "$1: it offers $offered commands" [ "$offered" = 4 ]
}

# What a long list leaves out.
limits() {
    section "$(repeated 120 "$late")"
    judge "120 breaks" [ "$(summaries | wc -l) $(grep -c '^<svg' "$work/out")" = '120 100' ]
    has_pictures '120 breaks' 10
    same 'the pictures that are not there' "$(paragraphs | tail -n 1)" \
        'The first 100 breaks have a picture. ninecheck picture --all --at RECORD capture.csv draws any other.'
    capture_of "$(repeated 1003 "$late")"
    mv "$work/capture.csv" "$work/the deck's <night>.csv"
    page_of "$work/the deck's <night>.csv" --rate 29.97df
    offered_works 'what a long list leaves out'
    page_of "$work/the deck's <night>.csv" --rate 29.97df --from 0.001
    offered_works 'what a stretch leaves out'
    page_of "$work/the deck's <night>.csv" --rate 29.97df
    judge "1,003 breaks" [ "$(summaries | wc -l) $(grep -c '^<pre' "$work/out")" = '1000 1000' ]
    judge "1,003 breaks, the pictures" [ "$(grep -c '^<svg' "$work/out")" = 100 ]
    judge "the table counts them all" grep -qF '<td class="count">1,003</td>' "$work/out"
    judge "and their commands" grep -qF 'Command: PLAY 1,003.' "$work/out"
    same 'the breaks that are not listed' "$(paragraphs | tail -n 2 | head -n 1)" \
        "3 more breaks are not listed. ninecheck why --all --rate 29.97df 'the deck'\''s <night>.csv' lists them."
}

reasons
contradictions
advice
table
names
neighbours
drawn
in_a_row
limits

# is_small NAME BREAKS: the page is below 5 MB, and tells each of these breaks, or how many more there are.
is_small() {
    local unlisted
    unlisted=$(paragraphs | sed -n 's/^\([0-9,]*\) more breaks are not listed.*/\1/p' | tr -d ,)
    judge "$1: the page is small" [ "$(wc -c < "$work/page")" -lt 5000000 ]
    judge "$1: it tells of all" [ $(($(summaries | wc -l) + ${unlisted:-0})) = "$2" ]
}

# Contradictions of 253 replies each: 200 of the first are listed before the last, and of those behind many bytes ten.
section "$(repeated 51 "$remote $preset $(repeated 250 "$shift") $in_249_on")"
is_small 'contradictions with very many replies' 51
judge 'the first have many' [ "$(sed -n '0,/<\/ol>/p' "$work/out" | grep -c '^<li>')" = 201 ]
judge 'the last have few' [ "$(sed -n '/id="r'"$(summaries | tail -n 1 | sed 's/^r\([0-9]*\).*/\1/')"'"/,/<\/ol>/p' "$work/out" | grep -c '^<li>')" = 11 ]

# A thousand parts with a contradiction of eleven replies each.
parts=1000
smaller parts 100 'parts with a contradiction'
section "$(repeated "$parts" "$remote $preset $(repeated 8 "$shift") $in_at_11")"
is_small 'many contradictions' "$parts"

# The page is HTML without an error.
page_of examples/views/late-replies.csv
tidy -errors -quiet "$work/page" > "$work/made" 2>&1
: > "$work/want"
judge 'tidy finds nothing' cmp "$work/made" "$work/want"

tell_counts

#!/usr/bin/env bash
# Makes pages of small captures written by hand, and reads them: the head, what stands where over time, the lines and tables below it,
# what a page leaves out, and what is refused. Each page is HTML by the parsers of tidy and html5lib, and loads nothing. The last line
# is 'N passed, M failed'.
set -u
cd "$(dirname "$0")/../.." || exit 1
. tests/lib/tools.sh
need_tools tidy
need_module html5lib python3-html5lib
. tests/lib/judge.sh
. tests/lib/program.sh
. tests/lib/blocks.sh
mkdir "$work/captures"

# page [WORDS...]: the page of $work/capture.csv, under the name $name and with these words; its streams are left in $work/out and
# $work/err.
name=night.csv
page() {
    [ ! -e "$work/capture.csv" ] || cp "$work/capture.csv" "$work/captures/$name"
    (cd "$work/captures" && "$program" page "$@" "$name") > "$work/out" 2> "$work/err"
    status=$?
}

# page_of RECORDS [WORDS...]: the page of a capture of these records.
page_of() {
    capture_of "$1"
    page "${@:2}"
}

# has NAME TEXT..., lacks NAME TEXT...: counts for each text whether the page has it, as it stands.
has() {
    local text
    for text in "${@:2}"; do judge "$1: $text" grep -qF -- "$text" "$work/out"; done
}
lacks() {
    local text
    for text in "${@:2}"; do judge "$1: no $text" lacks_text "$text"; done
}
lacks_text() { [ -s "$work/out" ] && ! grep -qF -- "$1" "$work/out"; }

# counts NAME NUMBER TEXT: counts whether so often the page has this text.
counts() {
    judge "$1: $2 times $3, not $(times_of "$3")" [ "$(times_of "$3")" = "$2" ]
}
times_of() { grep -oF -- "$1" "$work/out" | wc -l; }

show() { head -n 5 "$work/err"; }

# A session of a tenth of a second from 400 microseconds on, so a hundredth of the picture is a millisecond: a status of a deck in
# REMOTE at 3.2, a preset of IN at 24.8, PLAY at 42, a status that shows PLAY at 63.6, and a time at the end. PLAY's reply comes
# after $1 microseconds, and the status $2 after that.
session_of() {
    echo "C 61 20 01 82 D +800 71 20 00 91 C +16800 44 14 00 00 00 10 68 D +1600 10 01 11" \
        "C +15200 20 01 21 D +$1 10 01 11 C +$2 61 20 12 93 D +800 72 20 01 00 93" \
        "C +31400 61 0C 01 6E D +1400 74 04 05 00 00 10 8D"
}

clean() {
    page_of "$(session_of 400 18000)"
    judge "a clean session" [ "$status" = 0 ]
    has 'the head of a clean session' '<title>0 breaks: night.csv</title>' '<h1>0 breaks</h1>' \
        'Every record keeps the rules, and a deck can have given these replies.' \
        'shown mode known at 20.0 % of the exchanges, IN at 80.0 %, OUT at 0.0 %, local at 100.0 %.' \
        '<dt>Begins</dt><dd>00:00:00.000</dd>' '<dt>Ends</dt><dd>00:00:00.100</dd>' '<dt>Lasts</dt><dd>100.0 ms</dd>' \
        '<dt>Records</dt><dd>44</dd>' '<dt>Exchanges</dt><dd>5</dd>' '<dt>Passed over</dt><dd>0</dd>' \
        '<dt>Open at the end</dt><dd>0</dd>' '25 frames a second, nobody at the panel, no deck sheet <code>--all</code>'
    has 'the lanes of a clean session' '<b class="name">Breaks</b></div>' '<div class="chart"></div><div class="scale">none</div>' \
        'exchanges a second in bins of 2 ms' '<span class="top">600</span>' 'V9.3H40.00V56.0H60.00' \
        'M20.00 130V122.6H40.00V130Z' 'M240.00 130V115.1H260.00V130Z' 'M20.00 122.1H40.00' \
        '<path class="limit" d="M0 43.8H1000"/>' \
        '<path class="state" d="M635.00 11v-5.2H636.67v5.2zM636.67 11v-10.0H1000.00v10.0z"/>' \
        '<path class="clear" d="M32.00 14h968.00v2h-968.00z"/>' '<path class="state" d="M248.00 2h752.00v14h-752.00z"/>' \
        '<div class="time" style="left:24.800%;width:75.200%"><i>&#8203;</i><b>10:00:00:00</b></div>' \
        'Time runs to the right, seconds on' '<span style="left:9.600%">0.01</span>' '<span style="left:99.600%">0.10</span>' \
        '<p>Never known: OUT</p>'
    counts 'ten ticks' 10 '<span style="left:'
    lacks 'a clean session' 'class="hair"' 'class="mark"' 'Audio' 'Panel'
    has 'what happened in a clean session' '<details open><summary><span>00:00</span><span>2 commands, 3 queries</span></summary>' \
        '<li class="query"><span>00:00:00.003</span><span class="soft">record 8</span><span>STATUS SENSE &rarr; 71 20, local: unknown &rArr; no</span></li>' \
        '<li><span>00:00:00.025</span><span class="soft">record 18</span><span>IN DATA PRESET &rarr; ACK, in: unknown &rArr; 10:00:00:00</span></li>' \
        '<li class="counts"><span>1 CURRENT TIME SENSE</span></li>'
    has 'the delays of a clean session' \
        '<td>2</td><td>&ndash;</td><td>800</td><td>800</td><td>800</td><td>800</td></tr>' \
        '<td>5</td><td>&ndash;</td><td>400</td><td>800</td><td>1,600</td><td>1,600</td></tr>' \
        '<path class="gline" d="M28.6 9H114.3"/><path class="middle" d="M57.1 2V16"/><path class="tick" d="M114.3 5V13"/>'
    has 'what to look at in a clean session' 'Nothing stands out.' '<summary>1 transport command</summary>' \
        '<span class="soft">record 24</span><span>PLAY: PLAY shown after 0.021600 s, by status 1 of 1 (PLAY 1); time 10:00:00:05 alone</span>' \
        '<th scope="row">PLAY</th><td>1</td><td>1</td><td>0</td><td>0.021600</td><td>24</td></tr>'
    has 'what was known in a clean session' '<path class="state" d="M0 2H800.00V14H0z"/>' \
        '</svg></td><td>20.0 %</td><td>&ndash;</td></tr>' '</svg></td><td>80.0 %</td><td>0.0 %</td></tr>'
    has 'the end of the page' '<code>breaks 0: records 44, exchanges 5, passed over 0, open 0</code>' \
        '<code>ninecheck page night.csv</code>, ninecheck ' \
        "from a capture of $(wc -c < "$work/capture.csv") bytes with the <code>cksum</code> $(cksum < "$work/capture.csv" | cut -d ' ' -f 1)."
}

# A late reply breaks a rule, and what is known goes on over it.
late() {
    page_of "$(session_of 11200 7200)"
    judge "a late reply" [ "$status" = 1 ]
    has 'a late reply' '<h1 class="bad">1 break</h1>' \
        '<p class="lead">Record <a href="#r22">22</a> at 00:00:00.052: L1 late reply. The reply to PLAY began 11,200 &#181;s after it.</p>' \
        '<a class="mark" href="#r22" style="left:52.000%" title="L1 late reply, record 22, 00:00:00.052"' \
        '<a class="dot" href="#r22" style="left:52.000%;top:26.0px" title="Late reply, 11,200 &micro;s, record 22, 00:00:00.052"' \
        '<path class="hair" d="M520.00 0V130"/>' '<path class="clear" d="M32.00 14h968.00v2h-968.00z"/>' \
        '<path class="state" d="M248.00 2h752.00v14h-752.00z"/>' '<span>2 commands, 3 queries, <b class="bad">1 break</b></span>' \
        '<span class="soft">record 22</span><span><a href="#r22"><b>L1</b> late reply</a></span>' \
        '<td>1</td><td><b class="bad">1</b></td><td>11,200</td><td>11,200</td><td>11,200</td><td>11,200</td></tr>' \
        '<path class="lates" d="M800 3V15"/>' '<details class="break" id="r22" open>'
    # One that is above what is drawn, and of which no more comes.
    page_of "$play C 20 01 21 +15000 D 10"
    has 'a reply that is later than the chart is high' '<a class="over" href="#r10" style="left:100.000%;top:0.0px"' \
        'Late reply, 15,000 &micro;s, record 10' '<path class="lates" d="M1000 3V15"/>' \
        '<td>1</td><td><b class="bad">1</b></td><td>400</td><td>400</td><td>400</td><td>400</td></tr>'
}

# After any other break nothing is known, until it is asked for again.
restored() {
    page_of "$local_at_10 D 10 $local_at_10"
    has 'known again' '<h1 class="bad">1 break</h1>' '<li class="query"><span>00:00:00.013</span><span class="soft">record 33</span>' \
        '<span>known again: shown STOP, in set, out clear, local yes, ain clear, aout clear</span></li>' \
        '<span class="soft">record 43</span><span>known again: in 10:00:00:00</span></li>'
    page_of "$remote D 10 C 61 20 01 82 D 71 20 01 92"
    has 'known otherwise' '<span class="soft">record 17</span><span>STATUS SENSE &rarr; 71 20, local: no, unknown &rArr; yes</span></li>'
    page_of "$play D 10 $preset C 20 01 21 +9400 D 10 01 11 $play D 10"
    has 'three breaks' '<h1 class="bad">3 breaks</h1>' \
        'Reply without a command 2; late reply 1. The first is <a href="#r7">record 7</a> at 00:00:00.002.'
}

contradiction() {
    page_of "$remote $preset C 60 10 70 D 74 10 00 00 00 11 95"
    has 'a contradiction' '<path class="contradiction" d="M0.00 9H1000.00"/>' \
        '<span class="circle" aria-hidden="true" style="left:0.000%">' '<span class="circle" aria-hidden="true" style="left:29.630%">' \
        '<span class="circle" aria-hidden="true" style="left:66.667%">' '<a class="mark" href="#r28" style="left:100.000%"'
    counts 'three replies' 3 'class="circle"'
}

# What was asked for, and names that are no HTML.
words() {
    name="a<b>&\"c's.csv"
    page_of "C 00 1D 1D $ack C 44 14 00 00 01 00 59 $ack $remote" --hands --rate 29.97df
    name=night.csv
    has 'words and names' "<p class=\"file\">a&lt;b&gt;&amp;&quot;c's.csv</p>" "<title>1 break: a&lt;b&gt;&amp;&quot;c's.csv</title>" \
        '29.97 frames a second, drop frame, somebody may have touched the panel, no deck sheet <code>--all --hands --rate 29.97df</code>' \
        "<code>ninecheck page --hands --rate 29.97df 'a&lt;b&gt;&amp;&quot;c'\\''s.csv'</code>" 'P6 invalid time in a command' '<b>Panel</b>' \
        '(Local: yes, Panel: on)'
    printf '[names]\n"20 40" = "ALIGN"\n' > "$work/captures/<deck>.toml"
    page_of "$remote C 20 40 60 $ack" --deck '<deck>.toml'
    has 'a sheet' ', deck sheet &lt;deck&gt;.toml <code>--all --deck '\''&lt;deck&gt;.toml'\''</code>' '<span>ALIGN &rarr; ACK'
    # HTML holds no control characters: each byte of one is three digits, and the command is one that bash takes.
    name=$'it\'s\ta\x01\x7f\xc2\x85.csv'
    page_of "$remote"
    has 'control characters' "<p class=\"file\">it's\\011a\\001\\177\\302\\205.csv</p>" "<title>0 breaks: it's\\011a\\001\\177\\302\\205.csv</title>" \
        "<code>ninecheck page \$'it\\'s\\011a\\001\\177\\302\\205.csv'</code>"
    judge 'no control character' lacks_controls "$work/out"
    (cd "$work/captures" && eval "\"$program\" $(sed -n 's/.*Made by <code>ninecheck \(.*\)<\/code>, ninecheck.*/\1/p' "$work/out")") > "$work/made" 2> "$work/err"
    judge 'the command makes the page again' cmp "$work/made" "$work/out"
    name=night.csv
    page_of "D 91 $remote" --sync
    has 'a capture that begins in the middle' '<h1>0 breaks</h1>' 'Every record that was judged keeps the rules' \
        'from the first record that may begin a command <code>--all --sync</code>' '<dt>Passed over</dt><dd>1</dd>'
}

# lacks_controls FILE: it has no control character but line feeds.
lacks_controls() { ! LC_ALL=C grep -q $'[\x01-\x09\x0b-\x1f\x7f]\|\xc2[\x80-\x9f]' "$1"; }

# drifting: a hundred commands, whose replies come 600 microseconds after the first and 100 later each time, up to 10.5 ms.
drifting() {
    local k
    for ((k = 0; k < 100; k++)); do echo "C +30000 20 01 21 D +$((600 + 100 * k)) 10 01 11"; done
}

# What the capture says of itself stands above all. The reasons that it puts in doubt say so, and the breaks name what blames the tap or
# the wires. Each sign, with what its reasons say, and whether it is named.
signs() {
    local sign doubt is_named records late
    local suspicion='<p><b>Suspect the tap first:</b>' rest='What that means stands at the head of the page.</p>'
    while IFS='|' read -r sign doubt is_named records; do
        page_of "$(eval "echo \"$records\"")"
        has "$sign, on a page" '<b>Look at the capture first:</b>' "<li>$sign, at record " "$doubt"
        if [ "$is_named" = named ]; then
            has "$sign, among the breaks" "$suspicion $sign. $rest"
        else
            lacks "$sign, among the breaks" "$suspicion"
        fi
    done <<'END'
the wires are swapped|In doubt: the two wires seem to be swapped. Swap them before any of this is believed.|named|D 20 01 21 C 10 01 11
begins inside traffic|In doubt within the first five records: the capture begins inside traffic. Ask again with <code>--sync</code>.|named|D 10 01 11 $play
an echo|In doubt: what one wire carries comes on the other too. Take the second copy out before any of this is believed.|named|$(repeated 2 "C 20 D +10 20 C 01 D +10 01 C 21 D +10 21 10 01 11")
a hole in both wires|In doubt at a hole: for a time the logger wrote nothing, and a break there is nobody's.|named|$play C 61 20 D +70000 01 92 $play
the tap collects bytes|In doubt: the tap collects bytes before it stamps them, so its times are not those of the line.|named|$(repeated 3 "C +20000 20 +100 01 +100 21 D +9400 10 +100 01 +100 11")
a byte written twice|In doubt: bytes come closer than a line carries them, so the logger made them, and a break there is not the sender's.|named|$play C 20 +40 20 +360 01 21 $ack
bytes too close|In doubt: bytes come closer than a line carries them, so the logger made them, and a break there is not the sender's.|named|$play C 20 01 +100 22
coarse times|In doubt where the time is near its limit: all times of the capture come in coarse steps.|named|C 20 +1000 01 +1000 21 D +10000 10 +1000 01 +1000 11
two clocks|In doubt: the two wires do not share a clock, so a time from the one to the other says nothing.|named|$(drifting)
lost bytes|In doubt: the tap or the line lost a byte, and a break there is not the sender's.|named|$play C 20 21 $ack
rate|In doubt: the times fit another frame rate: what to look at first, above, says which.|not|C 61 0C 01 6E D 74 04 29 00 00 10 B1
replies one command behind|In doubt: replies fit the command before theirs. One was lost or is one too many, and this follows from it.|not|$(repeated 4 "C 61 20 01 82 D 74 04 00 00 00 10 88 C 61 0C 01 6E D 71 20 00 91")
silence|In doubt: for a time the deck was silent, off or out of reach. That is one fault, and not one a command.|not|$play $(repeated 2 "C 20 01 21 +100000") C 20 01 21
a block sent short|The same block comes a byte short most times, so its sender is at fault, and not the tap.|not|$play $(repeated 3 "C 61 20 01 82 D 71 20 92") $play
END
    # Two signs are named in one line. One that bears on no reason that came up is not: a second reply, in steps of a millisecond.
    late="C +1000 20 +1000 01 +1000 21 D +10000 10 +1000 01 +1000 11"
    page_of "$late C +1000 20 +1000 21 D +1000 10 +1000 01 +1000 11"
    has 'two signs' "$suspicion coarse times, lost bytes. $rest"
    page_of "C +1000 20 +1000 01 +1000 21 D +1000 10 +1000 01 +1000 11 +1000 10"
    has 'a sign of other reasons' '<li>coarse times, at record 1: '
    lacks 'a sign of other reasons' "$suspicion" 'In doubt'
    page_of "$play"
    lacks 'no sign' 'Look at the capture first' 'In doubt'
}

# The commanded mode stands beside the shown one, in a row of its own where the deck does not do what it was told.
commanded() {
    # The deck acknowledges PLAY in REMOTE, and goes on to show STOP.
    page_of "$remote $play C +2800 61 20 12 93 D 72 20 20 00 B2 C +17600 61 20 12 93 D 72 20 20 00 B2 +10400 C 61"
    has 'a commanded mode' '<title>Shown and commanded mode over time: STOP, PLAY</title>' '<span>STOP</span><span>PLAY</span>' \
        '<path class="state" d=""/><path class="goal" d="M'
    # A mode that only the last reply shows is drawn at the end.
    page_of "$remote C 61 20 12 93 D 72 20 01 00 93"
    has 'a mode at the end' '<b>Shown mode</b>' '<path class="state" d="M998.33 11v-2.8H1000.00v2.8z"/>'
    lacks 'a mode at the end' 'Never known: Shown mode'
}

# Labels of the axis that are long are fewer, and fewer still in a page that is not wide: five seconds of a log with a clock, and 1.2
# milliseconds of one.
labels() {
    page_of "C +52247000000 20 01 21 $ack C +5000000 20 01 21"
    has 'five seconds of a clock' '<div class="chart axis long">' '>14:30:47</span>' '>14:30:52</span>'
    counts 'five seconds of a clock' 6 '<span style="left:'
    page_of "C +52247000000 20 D +1200 10"
    has '1.2 milliseconds of a clock' '<div class="chart axis long">' '>14:30:47.0000</span>' '>14:30:47.0012</span>'
    counts '1.2 milliseconds of a clock' 7 '<span style="left:'
    page_of "$(session_of 400 18000)"
    lacks 'short labels' 'axis long"'
}

# A stretch in the whole width: all is judged, and only what comes in it is shown.
stretches() {
    page_of "$(session_of 400 18000)" --from 0.0204 --to 0.0604
    has 'a stretch' '<dt>Shown from</dt><dd>00:00:00.020</dd>' '<dt>Shown to</dt><dd>00:00:00.060</dd>' \
        '<dt>Records</dt><dd>44</dd>' '<dt>Exchanges</dt><dd>5</dd>' '<path class="clear" d="M0.00 14h1000.00v2h-1000.00z"/>' \
        '<path class="state" d="M120.00 2h880.00v14h-880.00z"/>' '<code>--all</code>' '<code>ninecheck page --from 0.020400 --to 0.060400 night.csv</code>' \
        '<span>2 commands</span>'
    lacks 'a stretch' 'STATUS SENSE &rarr;'
    page_of "$play D 10 $play +20400 $play D 10" --from 0.01
    has 'breaks of a stretch' '<h1 class="bad">1 break in this stretch, 1 outside of it</h1>' 'Record <a href="#r20">20</a>' \
        'Outside of this stretch, record 7 at 00:00:00.002 breaks a rule: P1 reply without a command.'
    page_of "C 20 01 21 +9400 D 10 01 11 D 10 $play +20400 $play" --from 0.02
    judge "breaks outside of a stretch" [ "$status" = 1 ]
    has 'breaks outside of a stretch' '<title>0 breaks in this stretch, 2 outside of it: night.csv</title>' \
        '<h1 class="bad">0 breaks in this stretch, 2 outside of it</h1>' \
        '<p class="lead">No record of this stretch breaks a rule. Outside of this stretch there are 2 breaks. The first is record 4 at 00:00:00.010: L1 late reply.</p>' \
        '<p>No record of this stretch breaks a rule. Outside of this stretch there are 2 breaks.'
    lacks 'breaks outside of a stretch' 'keeps the rules' 'can have given these replies' '<p>No record breaks a rule.'
    # A stretch in which no exchange ends.
    page_of "$play +20400 $play" --from 0.01 --to 0.02
    has 'no exchange in a stretch' '<h1>0 breaks</h1>' \
        'Every record keeps the rules, and a deck can have given these replies. No exchange ends in this stretch.' \
        'Traffic, Reply delay: no exchange ends in this stretch' '<p>Nothing: no exchange ends in this stretch.</p>' \
        '<p>No transport command was acknowledged in this stretch.</p>'
    counts 'no exchange in a stretch' 2 '<p>No exchange ends in this stretch.</p></section>'
    lacks 'no exchange in a stretch' 'o exchange is complete' 'known at 0.0 %'
    # One that lies before the capture, and one behind it.
    for words in '--to 0.0004' '--from 10'; do
        # shellcheck disable=SC2086
        page_of "$play" $words
        has "a stretch that misses the capture, $words" '<dt>Shown</dt><dd>nothing: the stretch misses the capture</dd>' \
            '<p>No record is in this stretch.</p>'
        lacks "a stretch that misses the capture, $words" 'Shown from' 'no records'
    done
}

# A command that was not obeyed stands in the head, and what is worth looking at begins with what went on for longest. The statuses end
# 0.603200, 40.003200 and 0.903200 seconds after the acknowledgements.
not_obeyed() {
    local stop='C 20 00 20 D 10 01 11' plays='61 20 12 93 D 72 20 01 00 93' stands='61 20 12 93 D 72 20 20 00 B2'
    page_of "$stop C +600000 $plays $play C +40000000 $stands $stop C +900000 $plays"
    judge 'a command that was not obeyed' [ "$status" = 0 ]
    has 'a command that was not obeyed' \
        '<p class="lead"><a href="#look">PLAY was not obeyed for 40.0 s</a>, from record 21 at 00:00:00.608 on. No rule says how soon a deck obeys.</p>' \
        '<p>Worth looking at: 3.</p>'
    judge 'the longest first' [ "$(sed -n '/<p>Worth/,/<\/ol>/p' "$work/out" | grep -o '>record [0-9]*' | tr '\n' ' ')" = '>record 21 >record 36 >record 6 ' ]
    page_of "$stop C +300000 $plays"
    has 'less than half a second' 'Nothing stands out.' 'STOP: STOP not shown, 1 status over 0.30'
    lacks 'less than half a second' 'was not obeyed'
    # More than a hundred: each for a second, on a page of its own list.
    page_of "$(repeated 103 "$stop C +1000000 $plays")"
    has 'more than a hundred' '<p>Worth looking at: 103.</p>' '<summary>98 more</summary>' '3 more are not listed: none went on for longer.'
}

# Captures of which there is little to tell.
little() {
    page_of ''
    judge "no record" [ "$status" = 0 ]
    has 'no record' '<h1>0 breaks</h1>' '<p class="lead">The capture has no records.</p>' '<dt>Records</dt><dd>0</dd>'
    lacks 'no record' '<figure>' 'Begins'
    page_of 'C 61 20'
    has 'no exchange' 'Every record keeps the rules. No exchange is complete, so of the deck nothing was tested.' \
        'Traffic, Reply delay: no exchange is complete' '<dt>Open at the end</dt><dd>2</dd>'
    lacks 'no exchange' '<b>Traffic</b>' '<table'
    page_of "$play"
    has 'nothing known' 'shown mode known at 0.0 % of the exchanges' '<p>Never known: Shown mode, Local, IN, OUT</p>'
    lacks 'nothing known' '<b>Shown mode</b>'
    page_of 'C 61'
    has 'one record' '<dt>Lasts</dt><dd>0.0 ms</dd>'
    page_of 'D 10'
    has 'one record that breaks' '<h1 class="bad">1 break</h1>' '<a class="mark" href="#r1" style="left:0.000%"'
}

# What a long list leaves out.
limits() {
    local late_reply='C 20 01 21 +9400 D 10 01 11'
    page_of "$(repeated 60 "$late_reply")"
    counts 'sixty breaks' 60 '<a class="mark"'
    has 'sixty breaks' 'class="hair"'
    page_of "$(repeated 300 "$late_reply")"
    counts 'three hundred breaks' 300 '<a class="mark"'
    lacks 'three hundred breaks' 'class="hair"' 'class="breaks"'
    page_of "$(repeated 301 "$late_reply")"
    counts 'more than three hundred breaks' 1 '<path class="breaks"'
    has 'more than three hundred breaks' '<title>L1 late reply, 301 breaks</title>' '<div class="scale">301</div>'
    lacks 'more than three hundred breaks' 'class="mark"'
    page_of "$(repeated 250 "$play")"
    counts 'two hundred lines of a fold' 200 '<span>PLAY &rarr; ACK'
    has 'two hundred lines of a fold' '50 more lines are not listed: <code>ninecheck digest --all night.csv</code> has all.' \
        '<details><summary><span>00:00</span><span>250 commands</span>'
    has_all digest 252
    capture_of "$(for k in {16..60}; do echo "C 20 $(printf '%02X %02X' "$k" "$((k + 32))") $ack"; done)"
    page
    has 'forty commands' ' more commands are not listed: <code>ninecheck delays --all night.csv</code> has all.'
    all_is_had
}

# has_all COMMAND LINES: this command of the page has at least so many lines.
has_all() {
    local command
    command=$(grep -o "<code>ninecheck $1 [^<]*</code> has all" "$work/out" | head -n 1 | sed 's/^<code>ninecheck //; s/<.*//; s/&#39;/'"'"'/g')
    judge "$1 has all: $command" has_lines_of "$2" "$command"
}
has_lines_of() { [ -n "$2" ] && (cd "$work/captures" && eval "\"$program\" $2" | awk -v least="$1" 'END { exit NR < least }'); }

# Each command that "has all" of what a page leaves out is run as it stands there, with the words that the page was asked for, and has
# as many lines as the page says. Forty commands are 45 here, each refused once and so with hands and at a rate of its own.
all_is_had() {
    page --hands --rate 24 --from 0.0004 --to 10
    has 'the words of the page' '<code>ninecheck delays --all --hands --rate 24 --from 0.000400 --to 10.000000 night.csv</code> has all.'
    has_all delays 45
    page_of "$(repeated 310 "$play +298000")" --hands
    has 'three hundred commands' '10 more are not listed: <code>ninecheck motion --all --hands night.csv</code> has all.'
    has_all motion 312
}

# Lines beyond ten thousand, in folds of a minute and of ten.
long_lists() {
    capture_of "$(repeated 11000 "$play +298000")"
    page
    counts 'ten thousand lines' 10000 '<span>PLAY &rarr; ACK'
    counts 'folds of a minute' 55 '<details><summary><span>00:'
    has 'a whole fold' '<span>00:01</span><span>200 commands</span>'
    capture_of "$(repeated 400 "$play +9998000")"
    page
    counts 'folds of ten minutes' 7 '<details><summary><span>0'
    has 'a fold of ten minutes' '<span>00:10</span><span>60 commands</span>' 'hours:minutes:seconds on' '>0:10:00</span>'
}

refusals() {
    printf 'time_us,wire,byte\n400,C,61\n800,X,20\n' > "$work/capture.csv"
    page
    expect "a bad row" 3 '' "$(cd "$work/captures" && "$program" check "$name" 2>&1)"
    rm "$work/capture.csv" "$work/captures/$name"
    page
    expect "no such file" 4 '' 'cannot open
night.csv: No such file or directory'
    page_of "$play" --rate 50
    judge "words that the program refuses" [ "$status" = 2 ]
    judge "and no page" [ ! -s "$work/out" ]
}

# parse: the page has no error, for either parser, and refers to nothing but itself.
parse() {
    tidy -errors -quiet -utf8 "$work/out" > "$work/err" 2>&1
    judge "$1: tidy finds nothing" [ ! -s "$work/err" ]
    judge "$1: html5lib finds nothing" /usr/bin/python3 -B -c 'import html5lib, sys
html5lib.HTMLParser(strict=True).parse(open(sys.argv[1], "rb"))' "$work/out"
    lacks "$1" '<script' 'http' 'src=' '@import' 'url(' ' onload'
    grep -o 'href="#[^"]*"' "$work/out" | cut -d '"' -f 2 | sort -u | tr -d '#' > "$work/named"
    grep -o ' id="[^"]*"' "$work/out" | cut -d '"' -f 2 | sort > "$work/there"
    judge "$1: each link leads somewhere" [ -z "$(comm -23 "$work/named" <(sort -u "$work/there"))" ]
    judge "$1: no id stands twice" [ -z "$(uniq -d "$work/there")" ]
}

clean
late
restored
contradiction
words
signs
commanded
labels
stretches
not_obeyed
little
limits
refusals
long_lists

# All of it is HTML.
for capture_name in late-replies several-breaks session keeps-playing hands; do
    cp "examples/views/$capture_name.csv" "$work/capture.csv"
    page
    parse "$capture_name"
done
page_of "$(repeated 1003 'C 20 01 21 +9400 D 10 01 11')"
parse 'a thousand breaks'
page_of ''
parse 'no record'
page_of 'C 61 20'
parse 'no exchange'

tell_counts

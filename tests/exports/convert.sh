#!/usr/bin/env bash
# Has the built program make captures of the stored exports and of damaged ones, and judge what it made. The last line is
# 'N passed, M failed'.
set -u
cd "$(dirname "$0")/../.." || exit 1
. tests/lib/tools.sh
need_tools python3 ts=moreutils
. tests/lib/judge.sh
. tests/lib/errors.sh
. tests/lib/program.sh
. tests/lib/closed.sh

# convert CONVERTER WORDS: the converter on standard input; its streams are left in $work/out and $work/err.
convert() {
    # shellcheck disable=SC2086
    run convert "$1" $2
}

# is_made FILE: the run made this text and said nothing.
is_made() {
    [ "$status" = 0 ] && cmp "$work/out" "$1" && [ ! -s "$work/err" ]
}

# is_refused LINE: the run wrote this line to standard error, and nothing to standard output. The status is that of wrong words where
# the line names one.
is_refused() {
    local want=3
    case $1 in *': --'*) want=2 ;; esac
    printf '%s\n' "$1" > "$work/want"
    [ "$status" = $want ] && [ ! -s "$work/out" ] && cmp "$work/err" "$work/want"
}

# is_verdict STATUS LINE: the program answers this on what the run made.
is_verdict() {
    "$program" check < "$work/out" > "$work/verdict" 2> "$work/err"
    [ $? = "$1" ] && [ "$(cat "$work/verdict")" = "$2" ] && [ ! -s "$work/err" ]
}

# The stored exports, each with its capture and its answer.
stored_exports() {
    local exported converter words capture want_status want_line
    while IFS='|' read -r exported converter words capture want_status want_line; do
        case "$exported" in '#'* | '') continue ;; esac
        convert "$converter" "$words" < "examples/exports/$exported"
        judge "$exported" is_made "examples/exports/$capture"
        judge "the program on $exported" is_verdict "$want_status" "$want_line"
        [ "$converter" = log ] || continue
        convert "$converter" "$words --live" < "examples/exports/$exported"
        judge "$exported, live" is_made "examples/exports/$capture"
    done < examples/exports/ANSWERS
    convert sigrok '--samplerate 2000000' < examples/exports/sigrok-damaged.txt
    judge "sigrok-damaged.txt" is_refused 'ninecheck convert sigrok: line 10: a damaged byte: 5613-5666 uart-2: Parity error'
}

# The lines that a log with coarse stamps, and one with whole seconds alone, has on standard error.
coarse='ninecheck convert log: timestamps are coarser than 100 microseconds, so L1, L2 and B3 mean little'
whole='ninecheck convert log: all times are whole numbers, and were read as seconds; --unit ms or --unit us reads a counter'

# judge_good NAME: the last run made $work/want, and said what belongs to a log that is called coarse or whole.
judge_good() {
    case $1 in
        coarse*) judge "$1" is_made_with "$coarse" ;;
        whole*) judge "$1" is_made_with "$whole" ;;
        *) judge "$1" is_made "$work/want" ;;
    esac
}

# is_made_with LINE: the last run made $work/want, and wrote this line to standard error.
is_made_with() {
    [ "$status" = 0 ] && cmp "$work/out" "$work/want" && [ "$(cat "$work/err")" = "$1" ]
}

# Exports with printf's escapes, and the rows of their captures. A log whose lines do not go back has the same rows live; what
# becomes of the others is in the table of stopped logs.
good_exports() {
    local name converter words text rows
    while IFS='|' read -r name converter words text rows; do
        printf "$text" > "$work/in"
        printf "time_us,wire,byte\n$rows" > "$work/want"
        convert "$converter" "$words" < "$work/in"
        judge_good "$name"
        case $name in
            *log:*' after the other'*) ;;
            *log:*)
                convert "$converter" "$words --live" < "$work/in"
                judge_good "$name, live" ;;
        esac
    done <<'END'
sigrok: the deck's wire first|sigrok|--samplerate 1000000|1626-1834 uart-2: 10\n426-634 uart-1: 20\n|426,C,20\n1626,D,10\n
sigrok: both wires by turns|sigrok|--samplerate 1000000|5-213 uart-1: 20\n7-215 uart-2: 10\n6-214 uart-1: 01\n8-216 uart-2: 01\n|5,C,20\n6,C,01\n7,D,10\n8,D,01\n
sigrok: both wires at one time|sigrok|--samplerate 1000000|5-213 uart-2: 10\n5-213 uart-1: 20\n|5,C,20\n5,D,10\n
sigrok: one wire alone|sigrok|--samplerate 1000000|5-213 uart-2: 10\n|5,D,10\n
sigrok: times are cut, not rounded|sigrok|--samplerate 24000000|47-5047 uart-1: 20\n48-5048 uart-1: 01\n|1,C,20\n2,C,01\n
sigrok: a rate below a sample a microsecond|sigrok|--samplerate 500000|3-107 uart-1: 20\n|6,C,20\n
sigrok: a day at 24 million samples a second|sigrok|--samplerate 24000000|2073600000023-2073600005023 uart-1: 20\n2073600000024-2073600005024 uart-1: 01\n|86400000000,C,20\n86400000001,C,01\n
sigrok: CRLF, lower case, no line feed at the end|sigrok|--samplerate 1000000|5-213 uart-1: 2a\r\n6-214 uart-1: FF|5,C,2A\n6,C,FF\n
saleae: columns in another order, and one more|saleae|--controller A --deck B|error,data,note,start_time,name,type\n,0x20,x,0.5,A,data\n|500000,C,20\n
saleae: a comma and quotes in a name|saleae|--controller A,"1" --deck B|name,type,start_time,duration,data,error\n"A,""1""",data,1,1,0x20,""\n|1000000,C,20\n
saleae: names that are numbers|saleae|--controller 1 --deck 01|name,type,start_time,duration,data,error\n1,data,1,1,0x20,\n01,data,2,1,0x10,\n|1000000,C,20\n2000000,D,10\n
saleae: powers of ten|saleae|--controller A --deck B|name,type,start_time,duration,data,error\nA,data,9e-08,1,0x20,\nA,data,8.672e-05,1,0x01,\nA,data,1.5E+1,1,0x21,\nB,data,12345e-3,1,0x10,\n|0,C,20\n86,C,01\n12345000,D,10\n15000000,C,21\n
saleae: times below 0|saleae|--controller A --deck B|name,type,start_time,duration,data,error\nA,data,-1.2500005,1,0x20,\nA,data,-0.0000001,1,0x01,\nB,data,0,1,0x10,\n|749999,C,20\n1999999,C,01\n2000000,D,10\n
saleae: times below 0 on the deck's wire alone|saleae|--controller A --deck B|name,type,start_time,duration,data,error\nA,data,0.25,1,0x20,\nB,data,-1,1,0x10,\n|0,D,10\n1250000,C,20\n
saleae: empty lines|saleae|--controller A --deck B|name,type,start_time,duration,data,error\n\nA,data,1,1,0x20,\n\r\nA,data,2,1,0x01,\n\n|1000000,C,20\n2000000,C,01\n
saleae: a byte order mark|saleae|--controller A --deck B|\357\273\277name,type,start_time,duration,data,error\nA,data,1,1,0x20,\n|1000000,C,20\n
saleae: a byte order mark, and a first title in quotes|saleae|--controller A --deck B|\357\273\277"name","type","start_time","duration","data","error"\nA,data,1,1,0x20,\n|1000000,C,20\n
saleae: a byte that is not UTF-8, in a column that is passed over|saleae|--controller A --deck B|name,type,start_time,duration,data,error,note\nA,data,1,1,0x20,,Ger\344t\n|1000000,C,20\n
saleae: a name that is not ASCII|saleae|--controller Gerät --deck B|name,type,start_time,duration,data,error\n"Ger\303\244t",data,1,1,0x20,""\n|1000000,C,20\n
saleae: CRLF in two older files|saleae||Time [s],Value,Parity Error,Framing Error\r\n1.5,0x20,,\r\nTime [s],Value,Parity Error,Framing Error\r\n1.25,0x10,,\r\n|1250000,D,10\n1500000,C,20\n
saleae: an older file without a byte|saleae||Time [s],Value,Parity Error,Framing Error\nTime [s],Value,Parity Error,Framing Error\n1.25,0x10,,\n|1250000,D,10\n
sigrok: a rate in thousands|sigrok|--samplerate 500k|3-107 uart-1: 20\n|6,C,20\n
sigrok: a rate in thousands, with a capital letter|sigrok|--samplerate 500K|3-107 uart-1: 20\n|6,C,20\n
sigrok: a rate in millions|sigrok|--samplerate 24m|47-5047 uart-1: 20\n48-5048 uart-1: 01\n|1,C,20\n2,C,01\n
sigrok: a rate in millions, with a capital letter|sigrok|--samplerate 24M|47-5047 uart-1: 20\n48-5048 uart-1: 01\n|1,C,20\n2,C,01\n
sigrok: the greatest rate|sigrok|--samplerate 1g|1999-210332 uart-1: 20\n2000-210333 uart-1: 01\n|1,C,20\n2,C,01\n
sigrok: the same, with a capital letter|sigrok|--samplerate 1G|1999-210332 uart-1: 20\n2000-210333 uart-1: 01\n|1,C,20\n2,C,01\n
sigrok: zeros in front|sigrok|--samplerate 1000000|010-218 uart-1: 20\n|10,C,20\n
coarse log: zeros in front, and seconds without a point|log|--controller A --deck B|010 A 20\n0011.0100 A 01\n|10000000,C,20\n11010000,C,01\n
log: ports that are numbers, and blanks|log|--controller 1 --deck 01| 1   1 \t 20 fF\r\n01.0000019 01 10\n|1000000,C,20\n1000001,C,FF\n1000001,D,10\n
sigrok: from a byte on, up to another|sigrok|--samplerate 1000000 --from 0.000426 --to 0.002|425-633 uart-1: FF\n426-634 uart-1: 20\n1999-2207 uart-1: 01\n2000-2208 uart-1: FE\n425-633 uart-2: FD\n1626-1834 uart-2: 10\n|426,C,20\n1626,D,10\n1999,C,01\n
sigrok: from alone, of a recording that begins inside a byte|sigrok|--samplerate 1000000 --from 0.001|5-213 uart-1: 20\n239-265 uart-1: Frame error\n1000-1208 uart-1: 21\n|1000,C,21\n
sigrok: to alone, and damage later|sigrok|--samplerate 1000000 --to 1|5-213 uart-1: 20\n1000000-1000208 uart-1: 21\n1000208-1000234 uart-1: Parity error\n999740-999948 uart-2: 10\n1000000-1000300 uart-2: Break condition\n|5,C,20\n999740,D,10\n
sigrok: the mark of a byte before the stretch stands in it|sigrok|--samplerate 1000000 --from 0.001|900-1108 uart-1: 20\n1108-1134 uart-1: Parity error\n1134-1160 uart-1: Frame error\n1160-1368 uart-1: 21\n|1160,C,21\n
sigrok: a break up to the stretch|sigrok|--samplerate 1000000 --from 0.001|5-1000 uart-1: Break condition\n1000-1208 uart-1: 21\n|1000,C,21\n
sigrok: a stretch in samples that are no whole microseconds|sigrok|--samplerate 24000000 --from 0.000002 --to 0.000003|47-5047 uart-1: FF\n48-5048 uart-1: 20\n71-5071 uart-1: 01\n72-5072 uart-1: FE\n|2,C,20\n2,C,01\n
saleae: a stretch, with damage before and after|saleae|--controller A --deck B --from 1 --to 2.5|name,type,start_time,duration,data,error\nA,data,0.9999999,1,0x20,framing\nA,data,1.0,1,0x21,\nB,break,0.5,1,,\nB,data,2.4999999,1,0x10,\nB,data,2.5,1,0x11,parity\nC,data,3,1,?,\n|1000000,C,21\n2499999,D,10\n
saleae: a stretch below 0|saleae|--controller A --deck B --from=-1.5 --to=-0.5|name,type,start_time,duration,data,error\nA,data,-1.5000001,1,0x20,\nA,data,-1.5,1,0x21,\nB,data,-0.5000001,1,0x10,\nB,data,-0.5,1,0x11,\n|500000,C,21\n1499999,D,10\n
saleae: times below 0 outside of the stretch move nothing|saleae|--controller A --deck B --from 0|name,type,start_time,duration,data,error\nA,data,-2,1,0x20,\nB,data,1,1,0x10,\n|1000000,D,10\n
saleae: a stretch of two older files|saleae|--from 1.25|Time [s],Value,Parity Error,Framing Error\n1,0x20,,Error\n1.5,0x21,,\nTime [s],Value,Parity Error,Framing Error\n1,0x10,Error,\n1.25,0x11,,\n|1250000,D,11\n1500000,C,21\n
coarse log: a stretch that begins and ends inside a line|log|--controller A --deck B --from 1.000287 --to 2.0002870|0.5 C 2?\n1 A 2! 01 21\n2 B 10 1!\n2.5 A !!\n|1000287,C,01\n1000574,C,21\n2000000,D,10\n
log: a stretch in more digits than microseconds, with zeros in front|log|--controller A --deck B --from 010.0000019 --to 011|10 A 20\n10.000001 A 21\n11 A 22\n|10000001,C,21\n
sigrok: the shortest and the longest byte at a rate|sigrok|--samplerate 1000000|1000-1205 uart-1: 20\n2000-2212 uart-1: 01\n|1000,C,20\n2000,C,01\n
sigrok: two samples off at a low rate|sigrok|--samplerate 100000|10-29 uart-1: 20\n40-62 uart-1: 01\n|100,C,20\n400,C,01\n
sigrok: a byte of another length outside of the stretch|sigrok|--samplerate 1000000 --from 0.001|5-9 uart-1: 20\n1000-1208 uart-1: 01\n|1000,C,01\n
log: dates and clocks|log|--controller A --deck B|2024-03-01 12:34:56.789012 A 20 01\n2024-03-01 12:34:56.7900009 B 10\n|45296789012,C,20\n45296789299,C,01\n45296790000,D,10\n
log: dates and clocks with a T between, CRLF|log|--controller A --deck B|2024-03-01T12:34:56.789012 A 20 01\r\n2024-03-01T12:34:56.790 B 10\r\n|45296789012,C,20\n45296789299,C,01\n45296790000,D,10\n
log: clocks alone, in the order of the log|log|--controller A --deck B|00:00:00.000 A 20\n00:00:00.000001 A 01\n12:34:56.789012 A 21\n12:34:56.789012 B 10\n23:59:59.999999 B 01\n|0,C,20\n1,C,01\n45296789012,C,21\n45296789012,D,10\n86399999999,D,01\n
log: clocks in brackets|log|--controller A --deck B|[12:34:56.789012] A 20 01\n[12:34:57.000] B 10\n|45296789012,C,20\n45296789299,C,01\n45297000000,D,10\n
log: dates and clocks in brackets|log|--controller A --deck B|[2024-03-01 12:34:56.789012] A 20\n[2024-03-02T00:00:00.000] B 10\n2024-03-02 00:00:01.000 A 21\n|45296789012,C,20\n86400000000,D,10\n86401000000,C,21\n
coarse log: past midnight into the 29th of February, and out of it|log|--controller A --deck B|2024-02-28 23:59:59.999 A 20\n2024-02-29 00:00:00.001 B 10\n2024-03-01 00:00:00.001 B 01\n|86399999000,C,20\n86400001000,D,10\n172800001000,D,01\n
coarse log: the end of February in a year without a 29th|log|--controller A --deck B|2023-02-28 23:59:59.999 A 20\n2023-03-01 00:00:00.001 B 10\n|86399999000,C,20\n86400001000,D,10\n
coarse log: the 29th of February 2000|log|--controller A --deck B|2000-02-29 00:00:00.000 A 20\n2000-03-01 00:00:00.001 B 10\n|0,C,20\n86400001000,D,10\n
coarse log: the end of February 2100|log|--controller A --deck B|2100-02-28 00:00:00.000 A 20\n2100-03-01 00:00:00.001 B 10\n|0,C,20\n86400001000,D,10\n
coarse log: past the end of a year|log|--controller A --deck B|2023-12-31 23:59:59.999 A 20\n2024-01-01 00:00:00.001 B 10\n|86399999000,C,20\n86400001000,D,10\n
coarse log: the last day of each month|log|--controller A --deck B|2023-01-31 00:00:00.000 A 01\n2023-02-28 00:00:00.000 A 02\n2023-03-31 00:00:00.000 A 03\n2023-04-30 00:00:00.000 A 04\n2023-05-31 00:00:00.000 A 05\n2023-06-30 00:00:00.000 A 06\n2023-07-31 00:00:00.000 A 07\n2023-08-31 00:00:00.000 A 08\n2023-09-30 00:00:00.000 A 09\n2023-10-31 00:00:00.000 A 10\n2023-11-30 00:00:00.000 A 11\n2023-12-31 00:00:00.000 A 12\n|0,C,01\n2419200000000,C,02\n5097600000000,C,03\n7689600000000,C,04\n10368000000000,C,05\n12960000000000,C,06\n15638400000000,C,07\n18316800000000,C,08\n20908800000000,C,09\n23587200000000,C,10\n26179200000000,C,11\n28857600000000,C,12\n
coarse log: one wire after the other, with dates|log|--controller A --deck B|2024-03-01 12:00:01.000 B 10\n2024-03-01 12:00:00.000 A 20\n|43200000000,C,20\n43201000000,D,10\n
coarse log: a stretch of clocks|log|--controller A --deck B --from 45296.79 --to 45297|12:34:56.789 A 2? 21\n12:34:56.790 B 10\n12:34:57.000 A 20\n|45296790000,D,10\n
coarse log: a stretch past midnight|log|--controller A --deck B --from 86400|2024-03-01 23:59:59.999 A 2?\n2024-03-02 00:00:00.000 A 20\n|86400000000,C,20\n
coarse log: bytes up to the next line, and one time in the order of the log|log|--controller A --deck B|0.001 A 44 14 00 00 00 10 68\n0.002 B 10 01 11\n0.002 A 61 20\n0.002 B 12\n0.002 A 20 31\n0.003 A 33\n|1000,C,44\n1287,C,14\n1574,C,00\n1861,C,00\n2000,C,00\n2000,C,10\n2000,C,68\n2000,D,10\n2000,D,01\n2000,D,11\n2000,C,61\n2000,C,20\n2000,D,12\n2000,C,20\n2287,C,31\n3000,C,33\n
log: bytes up to the next line of the other port|log|--controller A --deck B|1.000001 A 20 01 21\n1.000300 B 10\n|1000001,C,20\n1000288,C,01\n1000300,C,21\n1000300,D,10\n
log: bytes up to the next line of the same port|log|--controller A --deck B|1.000001 A 20 01 00\n1.000573 A 21\n|1000001,C,20\n1000288,C,01\n1000573,C,00\n1000573,C,21\n
log: bytes up to a line that is out of the stretch|log|--controller A --deck B --to 1.000300|1.000001 A 20 01 00\n1.000299 B 10\n1.000300 B 11\n|1000001,C,20\n1000288,C,01\n1000299,C,00\n1000299,D,10\n
log: one port after the other, and one time|log|--controller A --deck B|2.000001 B 10 01\n3.000001 B 11\n1.000001 A 20 01\n3.000001 A 21\n|1000001,C,20\n1000288,C,01\n2000001,D,10\n2000288,D,01\n3000001,D,11\n3000001,C,21\n
coarse log: a clock that ticks every 125 microseconds|log|--controller A --deck B|0.000125 A 20\n0.015625 A 01\n|125,C,20\n15625,C,01\n
coarse log: a clock that ticks every 200 microseconds|log|--controller A --deck B|0.000200 A 20\n0.000600 A 01\n|200,C,20\n600,C,01\n
log: a clock that ticks every 100 microseconds|log|--controller A --deck B|0.000200 A 20\n0.000300 A 01\n|200,C,20\n300,C,01\n
log: one fine stamp, out of the stretch|log|--controller A --deck B --to 0.002|0.001 A 20\n0.002001 A 01\n|1000,C,20\n
coarse log: a counter of milliseconds|log|--controller A --deck B --unit ms|12345 A 20 01 21\n12347 B 10\n|12345000,C,20\n12345287,C,01\n12345574,C,21\n12347000,D,10\n
log: a counter of microseconds|log|--controller A --deck B --unit us|12345 A 20 01\n12500 B 10 01\r\n|12345,C,20\n12500,C,01\n12500,D,10\n12787,D,01\n
coarse log: a counter of microseconds that ticks every millisecond|log|--controller A --deck B --unit us|1000 A 20\n2000 B 10\n|1000,C,20\n2000,D,10\n
coarse log: a counter with zeros in front, and one line|log|--controller A --deck B --unit ms|010 A 20 01\n|10000,C,20\n10287,C,01\n
coarse log: a counter up to fifteen digits of microseconds|log|--controller A --deck B --unit ms|999999999999 A 20\n|999999999999000,C,20\n
coarse log: a stretch of a counter, in seconds|log|--controller A --deck B --unit ms --from 1.001 --to 1.003|1000 A 2!\n1001 A 20\n1002 B 10\n1003 B 1!\n|1001000,C,20\n1002000,D,10\n
log: a counter, and one port after the other|log|--controller A --deck B --unit us|2001 B 10\n1001 A 20\n|1001,C,20\n2001,D,10\n
whole log: seconds without a point|log|--controller A --deck B|10 A 20 01\n11 B 10\n|10000000,C,20\n10000287,C,01\n11000000,D,10\n
whole log: zeros in front, and a stretch|log|--controller A --deck B --to 11|010 A 20\n0011 B 10\n|10000000,C,20\n
whole log: one port after the other|log|--controller A --deck B|11 B 10\n10 A 20\n|10000000,C,20\n11000000,D,10\n
coarse log: whole seconds, one of them with a point|log|--controller A --deck B|10 A 20\n11.0 B 10\n|10000000,C,20\n11000000,D,10\n
coarse log: whole seconds in a single line|log|--controller A --deck B|10 A 20 01\n|10000000,C,20\n10000287,C,01\n
coarse log: whole seconds, two lines of the same|log|--controller A --deck B|10 A 20\n10 B 10\n|10000000,C,20\n10000000,D,10\n
log: whole seconds, and a fine stamp at the end|log|--controller A --deck B|10 A 20\n11 B 10\n11.000001 B 01\n|10000000,C,20\n11000000,D,10\n11000001,D,01\n
END
}

# Exports that are refused: the name and line of the message, of which there is none where that is 0, and what it says.
bad_exports() {
    local name converter words line what text
    while IFS='|' read -r name converter words line what text; do
        printf "$text" > "$work/in"
        convert "$converter" "$words" < "$work/in"
        [ "$line" = 0 ] && line= || line="line $line: "
        judge "$name" is_refused "ninecheck convert $converter: $line$what"
    done <<'END'
sigrok: an empty export|sigrok|--samplerate 1000000|0|no byte in the export|
sigrok: an empty line|sigrok|--samplerate 1000000|2|unknown line: |5-213 uart-1: 20\n\n6-214 uart-1: 01\n
sigrok: a parity error|sigrok|--samplerate 1000000|2|a damaged byte: 5-9 uart-2: Parity error|5-213 uart-2: 20\n5-9 uart-2: Parity error\n
sigrok: a framing error|sigrok|--samplerate 1000000|2|a damaged byte: 5-9 uart-1: Frame error|5-213 uart-1: 20\n5-9 uart-1: Frame error\n
sigrok: a broken line|sigrok|--samplerate 1000000|2|a damaged byte: 5-9 uart-1: Break condition|5-213 uart-1: 20\n5-9 uart-1: Break condition\n
sigrok: a third decoder|sigrok|--samplerate 1000000|1|unknown line: 5-9 uart-3: 20|5-9 uart-3: 20\n
sigrok: a line that is not UTF-8|sigrok|--samplerate 1000000|1|unknown line: ��5-9 uart-1: 20|\377\3765-9 uart-1: 20\n
sigrok: no sample numbers|sigrok|--samplerate 1000000|1|unknown line: uart-1: 20|uart-1: 20\n
sigrok: an export that was cut short|sigrok|--samplerate 1000000|2|unknown line: 6-9 uart-1: 0|5-213 uart-1: 20\n6-9 uart-1: 0
sigrok: a wire that goes back|sigrok|--samplerate 1000000|3|a time below the one before on this wire: 5-213 uart-1: 01|6-214 uart-1: 20\n5-213 uart-2: 10\n5-213 uart-1: 01\n
sigrok: a time too great|sigrok|--samplerate 1|1|a time of more than fifteen digits: 1000000000-1000000001 uart-1: 20|1000000000-1000000001 uart-1: 20\n
saleae: an empty export|saleae|--controller A --deck B|0|no byte in the export|
saleae: a header alone|saleae|--controller A --deck B|1|no byte in the export|name,type,start_time,duration,data,error\n
saleae: no header|saleae|--controller A --deck B|1|the header has no column 'Time [s]': A,data,1,1,0x20,|A,data,1,1,0x20,\n
saleae: no column of errors|saleae|--controller A --deck B|1|the header has no column 'error': name,type,start_time,duration,data|name,type,start_time,duration,data\n
saleae: no column of framing errors|saleae|--controller A --deck B|1|the header has no column 'Framing Error': Time [s],Value,Parity Error|Time [s],Value,Parity Error\n
saleae: no controller|saleae|--deck B|1|--controller ANALYZER or --deck ANALYZER is missing|name,type,start_time,duration,data,error\n
saleae: no deck|saleae|--controller A|1|--controller ANALYZER or --deck ANALYZER is missing|Time [s],Analyzer Name,Value,Parity Error,Framing Error\n
saleae: one name for both|saleae|--controller A --deck A|1|--controller and --deck are the same analyzer|name,type,start_time,duration,data,error\n
saleae: another analyzer|saleae|--controller A --deck B|2|neither the controller's analyzer nor the deck's: a,data,1,1,0x20,|name,type,start_time,duration,data,error\na,data,1,1,0x20,\n
saleae: a parity error|saleae|--controller A --deck B|3|a damaged byte: A,data,2,1,0x01,parity|name,type,start_time,duration,data,error\nA,data,1,1,0x20,\nA,data,2,1,0x01,parity\n
saleae: an older parity error|saleae|--controller A --deck B|2|a damaged byte: 1,A,0x20,Error,|Time [s],Analyzer Name,Value,Parity Error,Framing Error\n1,A,0x20,Error,\n
saleae: an older framing error|saleae|--controller A --deck B|2|a damaged byte: 1,A,0x20,,Error|Time [s],Analyzer Name,Value,Parity Error,Framing Error\n1,A,0x20,,Error\n
saleae: a clock|saleae|--controller A --deck B|2|a time of day: export again with times in seconds, not as ISO 8601: 12:34:56.789,A,0x20,,|Time [s],Analyzer Name,Value,Parity Error,Framing Error\n12:34:56.789,A,0x20,,\n
saleae: a row that is no byte|saleae|--controller A --deck B|2|a row that is no byte: A,break,1,1,0x20,|name,type,start_time,duration,data,error\nA,break,1,1,0x20,\n
saleae: a byte that is not hexadecimal|saleae|--controller A --deck B|2|no byte of the form 0x20: A,data,1,1,32,|name,type,start_time,duration,data,error\nA,data,1,1,32,\n
saleae: a time of day|saleae|--controller A --deck B|2|a time of day: export again with times in seconds, not as ISO 8601: A,data,2024-01-01T00:00:00Z,1,0x20,|name,type,start_time,duration,data,error\nA,data,2024-01-01T00:00:00Z,1,0x20,\n
saleae: a time too great|saleae|--controller A --deck B|2|a time of more than fifteen digits: A,data,1e+9,1,0x20,|name,type,start_time,duration,data,error\nA,data,1e+9,1,0x20,\n
saleae: an export that was cut short|saleae|--controller A --deck B|3|not as many fields as the header: A,data,2,1,0x0|name,type,start_time,duration,data,error\nA,data,1,1,0x20,\nA,data,2,1,0x0
saleae: damage after an empty line is told at that line|saleae|--controller A --deck B|3|a damaged byte: A,data,2,1,0x01,parity|name,type,start_time,duration,data,error\nA,data,1,1,0x20,\n\nA,data,2,1,0x01,parity\n
saleae: damage in a table with CRLF|saleae|--controller A --deck B|3|a damaged byte: A,data,2,1,0x01,parity|name,type,start_time,duration,data,error\r\nA,data,1,1,0x20,\r\nA,data,2,1,0x01,parity\r\n
saleae: a row in quotes is shown without them|saleae|--controller A --deck B|2|neither the controller's analyzer nor the deck's: C,data,1,1,0x20,|name,type,start_time,duration,data,error\n"C","data","1","1","0x20",""\n
saleae: a name that is not UTF-8|saleae|--controller A --deck B|2|neither the controller's analyzer nor the deck's: Ger�t,data,1,1,0x20,|name,type,start_time,duration,data,error\nGer\344t,data,1,1,0x20,\n
saleae: a wire that goes back|saleae|--controller A --deck B|4|a time below the one before on this wire: A,data,1,1,0x01,|name,type,start_time,duration,data,error\nA,data,2,1,0x20,\nB,data,1,1,0x10,\nA,data,1,1,0x01,\n
saleae: the older file of one wire alone|saleae||2|the deck's file is missing|Time [s],Value,Parity Error,Framing Error\n1,0x20,,\n
saleae: a third older file|saleae||3|a third file begins: Time [s],Value,Parity Error,Framing Error|Time [s],Value,Parity Error,Framing Error\nTime [s],Value,Parity Error,Framing Error\nTime [s],Value,Parity Error,Framing Error\n
log: no controller|log|--deck B|0|--controller PORT or --deck PORT is missing|1 A 20\n
log: no deck|log|--controller A|0|--controller PORT or --deck PORT is missing|1 A 20\n
log: one port for both|log|--controller A --deck A|0|--controller and --deck are the same port|1 A 20\n
log: an empty log|log|--controller A --deck B|0|no byte in the export|
log: a line without a byte|log|--controller A --deck B|2|unknown line: 2 A|1 A 20\n2 A\n
log: an empty line|log|--controller A --deck B|2|unknown line: |1 A 20\n\n
log: a decimal comma|log|--controller A --deck B|1|no time in seconds: 1,5 A 20|1,5 A 20\n
log: another port|log|--controller A --deck B|2|neither the controller's port nor the deck's: 2 C 20|1 A 20\n2 C 20\n
log: a port that is not UTF-8|log|--controller A --deck B|1|neither the controller's port nor the deck's: 1 Ger�t 20|1 Ger\344t 20\n
log: a byte that is marked|log|--controller A --deck B|2|no byte of two hexadecimal digits: 2 A 01 21! 20|1 A 20\n2 A 01 21! 20\n
log: a line before the last one at its port|log|--controller A --deck B|2|a time below the one before on this wire: 1.4 A 21|1.5 A 20\n1.4 A 21\n
log: a line before the last one at its port, and more lines|log|--controller A --deck B|2|a time below the one before on this wire: 1.4 A 21|1.5 A 20\n1.4 A 21\n1.6 A 22\n1.7 A 23\n
log: a byte that is marked, and more lines|log|--controller A --deck B|2|no byte of two hexadecimal digits: 2 A 2!|1 A 20\n2 A 2!\n3 A 22\n4 A 23\n
log: seconds since 1970|log|--controller A --deck B|1|a time of more than fifteen digits: 1700000000.5 A 20|1700000000.5 A 20\n
sigrok: a beginning that is no number|sigrok|--samplerate 1000000 --from 1s|0|--from SECONDS or --to SECONDS is wrong|5-213 uart-1: 20\n
sigrok: an end with a decimal comma|sigrok|--samplerate 1000000 --to 1,5|0|--from SECONDS or --to SECONDS is wrong|5-213 uart-1: 20\n
sigrok: a beginning without a digit before the point|sigrok|--samplerate 1000000 --from .5|0|--from SECONDS or --to SECONDS is wrong|5-213 uart-1: 20\n
sigrok: an end with an exponent|sigrok|--samplerate 1000000 --to 1e3|0|--from SECONDS or --to SECONDS is wrong|5-213 uart-1: 20\n
sigrok: an end that is the beginning|sigrok|--samplerate 1000000 --from 1 --to 1.0|0|--to SECONDS has to be later than --from SECONDS|5-213 uart-1: 20\n
saleae: an end that is no number|saleae|--controller A --deck B --to end|0|--from SECONDS or --to SECONDS is wrong|name,type,start_time,duration,data,error\n
log: a beginning of two numbers|log|--controller A --deck B --from 1:30|0|--from SECONDS or --to SECONDS is wrong|1 A 20\n
sigrok: no byte in the stretch|sigrok|--samplerate 1000000 --from 1|1|no byte in this stretch of the export|5-213 uart-1: 20\n
sigrok: damage in the stretch|sigrok|--samplerate 1000000 --from 0.001 --to 0.002|2|a damaged byte: 1208-1234 uart-1: Parity error|1000-1208 uart-1: 20\n1208-1234 uart-1: Parity error\n
sigrok: the mark of a byte of the stretch stands after it|sigrok|--samplerate 1000000 --from 0.001 --to 0.0011|3|a damaged byte: 1234-1260 uart-1: Frame error|1000-1208 uart-1: 20\n1000-1208 uart-2: 20\n1234-1260 uart-1: Frame error\n
sigrok: an error at no byte, in the stretch|sigrok|--samplerate 1000000 --from 0.001|2|a damaged byte: 1000-1026 uart-1: Frame error|700-908 uart-1: 20\n1000-1026 uart-1: Frame error\n
sigrok: an error printed after a later byte|sigrok|--samplerate 1000000 --from 0.001 --to 0.002|3|a damaged byte: 1500-1526 uart-1: Frame error|1000-1208 uart-1: 20\n3000-3208 uart-1: 20\n1500-1526 uart-1: Frame error\n
sigrok: a break that lasts into the stretch|sigrok|--samplerate 1000000 --from 0.001 --to 2|1|a damaged byte: 5-1001 uart-1: Break condition|5-1001 uart-1: Break condition\n1100-1308 uart-1: 21\n
sigrok: a break around the stretch|sigrok|--samplerate 1000000 --from 0.001 --to 0.002|1|a damaged byte: 5-5000 uart-1: Break condition|5-5000 uart-1: Break condition\n1100-1308 uart-2: 21\n
sigrok: a line that is not of the form, outside of the stretch|sigrok|--samplerate 1000000 --from 1|1|unknown line: 5-213 uart-1: 2|5-213 uart-1: 2\n
saleae: damage in the stretch|saleae|--controller A --deck B --from 1|3|a damaged byte: A,data,1,1,0x20,parity|name,type,start_time,duration,data,error\nA,data,0,1,0x20,parity\nA,data,1,1,0x20,parity\n
saleae: no time, with a stretch|saleae|--controller A --deck B --from 1|2|no time in seconds: A,data,x,1,0x20,|name,type,start_time,duration,data,error\nA,data,x,1,0x20,\n
saleae: a row that was cut short, outside of the stretch|saleae|--controller A --deck B --to 1|2|not as many fields as the header: A,data,2,1|name,type,start_time,duration,data,error\nA,data,2,1\n
log: a byte that is marked, in the stretch|log|--controller A --deck B --from 1.000287|1|no byte of two hexadecimal digits: 1 A 2! 2?|1 A 2! 2?\n
log: another port, in the stretch|log|--controller A --deck B --from 1.000287|1|neither the controller's port nor the deck's: 1 C 20 01|1 C 20 01\n
sigrok: twice the rate|sigrok|--samplerate 4000000|1|a byte lasts 104 us where 208 are expected: is the rate wrong?|904-1322 uart-1: 20\n
sigrok: half the rate|sigrok|--samplerate 1000000|2|a byte lasts 417 us where 208 are expected: is the rate wrong?|904-1112 uart-2: 20\n904-1321 uart-1: 20\n
sigrok: a byte that is a sample too short|sigrok|--samplerate 1000000|1|a byte lasts 204 us where 208 are expected: is the rate wrong?|1000-1204 uart-1: 20\n
sigrok: a byte that is a sample too long|sigrok|--samplerate 1000000|1|a byte lasts 213 us where 208 are expected: is the rate wrong?|1000-1213 uart-1: 20\n
sigrok: more than two samples short at a low rate|sigrok|--samplerate 100000|1|a byte lasts 180 us where 208 are expected: is the rate wrong?|10-28 uart-1: 20\n
sigrok: more than two samples long at a low rate|sigrok|--samplerate 100000|1|a byte lasts 230 us where 208 are expected: is the rate wrong?|10-33 uart-1: 20\n
sigrok: a length cut to whole microseconds|sigrok|--samplerate 24000000|1|a byte lasts 104 us where 208 are expected: is the rate wrong?|10-2529 uart-1: 20\n
sigrok: a byte that ends before it begins|sigrok|--samplerate 1000000|1|a byte lasts -208 us where 208 are expected: is the rate wrong?|1208-1000 uart-1: 20\n
log: a clock that falls back|log|--controller A --deck B|2|a clock without a date falls back: 00:00:00.001 A 21|23:59:59.999 A 20\n00:00:00.001 A 21\n
log: a clock that falls back at the other port|log|--controller A --deck B|2|a clock without a date falls back: 00:00:00.001 B 10|23:59:59.999 A 20\n00:00:00.001 B 10\n
log: a clock that falls back after the stretch|log|--controller A --deck B --to 43201|2|a clock without a date falls back: 00:00:00.001 B 10|12:00:00.000 A 20\n00:00:00.001 B 10\n
log: a date that falls back at one port|log|--controller A --deck B|2|a time below the one before on this wire: 2024-03-01 12:00:00.000 A 21|2024-03-01 12:00:00.001 A 20\n2024-03-01 12:00:00.000 A 21\n
log: a day before the first line's|log|--controller A --deck B|2|a day before the first line's: 2024-02-29 23:59:59.999 B 10|2024-03-01 00:00:00.001 A 20\n2024-02-29 23:59:59.999 B 10\n
log: a date, then a clock alone|log|--controller A --deck B|2|a stamp of another form than the line before: 12:00:00.000 A 21|2024-03-01 12:00:00.000 A 20\n12:00:00.000 A 21\n
log: seconds, then a clock|log|--controller A --deck B|2|a stamp of another form than the line before: 12:00:00.000 A 21|1 A 20\n12:00:00.000 A 21\n
log: a clock in whole seconds|log|--controller A --deck B|1|no clock of the form 12:34:56.789: 12:34:56 A 20|12:34:56 A 20\n
log: a clock in hundredths|log|--controller A --deck B|1|no clock of the form 12:34:56.789: 12:34:56.78 A 20|12:34:56.78 A 20\n
log: a clock with a decimal comma|log|--controller A --deck B|1|no clock of the form 12:34:56.789: 12:34:56,789 A 20|12:34:56,789 A 20\n
log: a clock with an hour of one digit|log|--controller A --deck B|1|no clock of the form 12:34:56.789: 9:34:56.789 A 20|9:34:56.789 A 20\n
log: a bracket that is not closed|log|--controller A --deck B|1|no clock of the form 12:34:56.789: [12:34:56.789 A 20|[12:34:56.789 A 20\n
log: a date and a clock with a line between|log|--controller A --deck B|1|no clock of the form 12:34:56.789: 2024-03-01_12:34:56.789 A 20|2024-03-01_12:34:56.789 A 20\n
log: a bracket that was not opened|log|--controller A --deck B|1|no clock of the form 12:34:56.789: 12:34:56.789] A 20|12:34:56.789] A 20\n
log: a date with its zone|log|--controller A --deck B|1|no clock of the form 12:34:56.789: 2024-03-01T12:34:56.789Z A 20|2024-03-01T12:34:56.789Z A 20\n
log: a date with its clock in whole seconds|log|--controller A --deck B|1|no clock of the form 12:34:56.789: 2024-03-01 12:34:56 A 20|2024-03-01 12:34:56 A 20\n
log: a date of another order|log|--controller A --deck B|1|no clock of the form 12:34:56.789: 01.03.2024T12:34:56.789 A 20|01.03.2024T12:34:56.789 A 20\n
log: seconds in brackets|log|--controller A --deck B|1|no time in seconds: [1.5] A 20|[1.5] A 20\n
log: a date without a clock|log|--controller A --deck B|1|no time in seconds: 2024-03-01 A 20 01|2024-03-01 A 20 01\n
log: a date and a clock without a byte|log|--controller A --deck B|1|unknown line: 2024-03-01 12:34:56.789 A|2024-03-01 12:34:56.789 A\n
log: 24 hours|log|--controller A --deck B|1|no time of day: 24:00:00.000 A 20|24:00:00.000 A 20\n
log: 60 minutes|log|--controller A --deck B|1|no time of day: 12:60:00.000 A 20|12:60:00.000 A 20\n
log: 60 seconds|log|--controller A --deck B|1|no time of day: 2024-03-01 12:34:60.000 A 20|2024-03-01 12:34:60.000 A 20\n
log: a month 0|log|--controller A --deck B|1|no day of the calendar: 2024-00-01 12:00:00.000 A 20|2024-00-01 12:00:00.000 A 20\n
log: a month 13|log|--controller A --deck B|1|no day of the calendar: 2024-13-01 12:00:00.000 A 20|2024-13-01 12:00:00.000 A 20\n
log: a day 0|log|--controller A --deck B|1|no day of the calendar: 2024-03-00 12:00:00.000 A 20|2024-03-00 12:00:00.000 A 20\n
log: the 32nd of a month|log|--controller A --deck B|1|no day of the calendar: 2024-03-32 12:00:00.000 A 20|2024-03-32 12:00:00.000 A 20\n
log: the 31st of April|log|--controller A --deck B|1|no day of the calendar: 2024-04-31 12:00:00.000 A 20|2024-04-31 12:00:00.000 A 20\n
log: the 31st of June|log|--controller A --deck B|1|no day of the calendar: 2024-06-31 12:00:00.000 A 20|2024-06-31 12:00:00.000 A 20\n
log: the 31st of September|log|--controller A --deck B|1|no day of the calendar: 2024-09-31 12:00:00.000 A 20|2024-09-31 12:00:00.000 A 20\n
log: the 31st of November|log|--controller A --deck B|1|no day of the calendar: 2024-11-31 12:00:00.000 A 20|2024-11-31 12:00:00.000 A 20\n
log: the 30th of February|log|--controller A --deck B|1|no day of the calendar: 2024-02-30 12:00:00.000 A 20|2024-02-30 12:00:00.000 A 20\n
log: the 29th of February 2023|log|--controller A --deck B|1|no day of the calendar: 2023-02-29 12:00:00.000 A 20|2023-02-29 12:00:00.000 A 20\n
log: the 29th of February 2100|log|--controller A --deck B|1|no day of the calendar: 2100-02-29 12:00:00.000 A 20|2100-02-29 12:00:00.000 A 20\n
log: another port, after a date|log|--controller A --deck B|1|neither the controller's port nor the deck's: 2024-03-01 12:00:00.000 C 20|2024-03-01 12:00:00.000 C 20\n
log: a unit that is none|log|--controller A --deck B --unit s|0|--unit has to be ms or us: s|1 A 20\n
log: a unit in capitals|log|--controller A --deck B --unit MS|0|--unit has to be ms or us: MS|1 A 20\n
log: a counter of milliseconds with a point|log|--controller A --deck B --unit ms|2|no whole number of milliseconds: 2.5 A 01|1 A 20\n2.5 A 01\n
log: a counter of microseconds with a point|log|--controller A --deck B --unit us|1|no whole number of microseconds: 1.0 A 20|1.0 A 20\n
log: a counter below 0|log|--controller A --deck B --unit us|2|no whole number of microseconds: -1 A 21|1 A 20\n-1 A 21\n
log: a clock with a unit|log|--controller A --deck B --unit ms|1|no whole number of milliseconds: 12:34:56.789 A 20|12:34:56.789 A 20\n
log: a date and a clock with a unit|log|--controller A --deck B --unit us|1|no whole number of microseconds: 2024-03-01 12:34:56.789 A 20|2024-03-01 12:34:56.789 A 20\n
log: a counter in brackets|log|--controller A --deck B --unit ms|1|no whole number of milliseconds: [12345] A 20|[12345] A 20\n
log: a counter that is too great|log|--controller A --deck B --unit ms|1|a time of more than fifteen digits: 1000000000000 A 20|1000000000000 A 20\n
log: a counter before the last one at its port|log|--controller A --deck B --unit us|2|a time below the one before on this wire: 14 A 21|15 A 20\n14 A 21\n
log: an empty log, live|log|--controller A --deck B --live|0|no byte in the export|
log: no byte in the stretch, live|log|--controller A --deck B --live --from 3|2|no byte in this stretch of the export|1 A 20\n2 A 01\n
log: a first line that is none, live|log|--controller A --deck B --live|1|no time in seconds: x A 20|x A 20\n1 A 20\n
log: a byte that is marked before a line that is none, live|log|--controller A --deck B --live|1|no byte of two hexadecimal digits: 1 A 2!|1 A 2!\nx\n
END
}

# is_stopped LINE: the last run made $work/want, wrote this line to standard error, and was refused.
is_stopped() {
    [ "$status" = 3 ] && cmp "$work/out" "$work/want" && [ "$(cat "$work/err")" = "$1" ]
}

# Logs that are refused live, and the rows that stay: those of the lines before what is refused, as if the log ended there.
stopped_logs() {
    local name words line what text rows
    while IFS='|' read -r name words line what text rows; do
        printf "$text" > "$work/in"
        printf "time_us,wire,byte\n$rows" > "$work/want"
        convert log "--controller A --deck B --live $words" < "$work/in"
        [ "$line" = 0 ] && line= || line="line $line: "
        judge "live: $name" is_stopped "ninecheck convert log: $line$what"
    done <<'END'
one port after the other, and one time||3|a time before the line before, which --live can't put in its place: 1.000001 A 20 01|2.000001 B 10 01\n3.000001 B 11\n1.000001 A 20 01\n3.000001 A 21\n|2000001,D,10\n2000288,D,01\n3000001,D,11\n
one port after the other, with dates||2|a time before the line before, which --live can't put in its place: 2024-03-01 12:00:00.000 A 20|2024-03-01 12:00:01.000 B 10\n2024-03-01 12:00:00.000 A 20\n|43201000000,D,10\n
one port after the other, with a counter|--unit us|2|a time before the line before, which --live can't put in its place: 1001 A 20|2001 B 10\n1001 A 20\n|2001,D,10\n
a line before the last one at its port||2|a time before the line before, which --live can't put in its place: 1.4 A 21|1.5 A 20\n1.4 A 21\n1.6 A 22\n|1500000,C,20\n
a line before the last one, by a microsecond||3|a time before the line before, which --live can't put in its place: 1.000000 B 10|1 A 20\n1.000001 A 01\n1.000000 B 10\n|1000000,C,20\n1000001,C,01\n
a line before the last one, out of the stretch|--to 1|3|a time before the line before, which --live can't put in its place: 1.5 B 10|0.5 A 20\n2 A 21\n1.5 B 10\n|500000,C,20\n
bytes of the line before one that goes back||2|a time before the line before, which --live can't put in its place: 0.5 B 10|1 A 20 01 21\n0.5 B 10\n|1000000,C,20\n1000287,C,01\n1000574,C,21\n
a clock that falls back||2|a clock without a date falls back: 00:00:00.001 B 10|23:59:59.999 A 20\n00:00:00.001 B 10\n|86399999000,C,20\n
a line without a byte||3|unknown line: 3 A|1 A 20\n2 B 10 01\n3 A\n|1000000,C,20\n2000000,D,10\n2000287,D,01\n
a counter with a point|--unit ms|3|no whole number of milliseconds: 3.5 A 01|1 A 20\n2 B 10\n3.5 A 01\n|1000,C,20\n2000,D,10\n
another port||2|neither the controller's port nor the deck's: 2 C 20|1 A 20\n2 C 20\n3 A 01\n|1000000,C,20\n
a byte that is marked, and those before it in its line||2|no byte of two hexadecimal digits: 2 A 01 21! 20|1 A 20\n2 A 01 21! 20\n|1000000,C,20\n2000000,C,01\n
seconds since 1970||2|a time of more than fifteen digits: 1700000000.5 A 20|1 A 20\n1700000000.5 A 20\n|1000000,C,20\n
END
}

# An older export in two files: the controller's may end without a line feed, and the second begins with a header of its own.
two_files() {
    local header='Time [s],Value,Parity Error,Framing Error\n' text
    printf "time_us,wire,byte\n1250000,D,10\n1500000,C,20\n" > "$work/want"
    printf "${header}1.25,0x10,," > "$work/deck.csv"
    for text in "${header}1.5,0x20,,\n" "${header}1.5,0x20,," "\357\273\277${header}1.5,0x20,,\n"; do
        printf "$text" > "$work/controller.csv"
        run convert saleae "$work/controller.csv" "$work/deck.csv" < /dev/null
        judge "two files: $text" is_made "$work/want"
    done
    printf "\357\273\277${header}1.25,0x10,,\n" > "$work/deck.csv"
    run convert saleae "$work/controller.csv" "$work/deck.csv" < /dev/null
    judge 'two files, each with a byte order mark' is_made "$work/want"
    printf "${header}1.5,0x20,,\n1.75,0x01,,Error" > "$work/controller.csv"
    run convert saleae "$work/controller.csv" "$work/deck.csv" < /dev/null
    judge 'two files, the first damaged' is_refused "ninecheck convert saleae: $work/controller.csv: line 3: a damaged byte: 1.75,0x01,,Error"
    for text in "${header}1.5,0x20,,\n" "${header}1.5,0x20,,"; do
        printf "$text" > "$work/controller.csv"
        printf "${header}1.25,0x10,,\n1.75,0x01,Error," > "$work/deck.csv"
        run convert saleae "$work/controller.csv" "$work/deck.csv" < /dev/null
        judge "two files, the second damaged: $text" is_refused "ninecheck convert saleae: the deck's file: line 3: a damaged byte: 1.75,0x01,Error,"
        : > "$work/deck.csv"
        run convert saleae "$work/controller.csv" "$work/deck.csv" < /dev/null
        judge "two files, the second empty: $text" is_refused "ninecheck convert saleae: $work/controller.csv: line 2: the deck's file is missing"
    done
    run convert saleae "$work/controller.csv" "$work/none.csv" < /dev/null
    judge 'no second file' is_text 4 '' "cannot open
$work/none.csv: No such file or directory"
}

# The rows of a line are there once the next line has come, while the log is still open.
open_log() {
    rm -f "$work/log"
    mkfifo "$work/log"
    "$program" convert log --live --controller A --deck B < "$work/log" > "$work/out" 2> "$work/err" &
    exec 3> "$work/log"
    printf '0.000426 A 20 01\n0.001900 B 10\n' >&3
    judge "an open log, its first line" is_soon 'time_us,wire,byte\n426,C,20\n713,C,01\n'
    printf '0.002187 B 01\n' >&3
    judge "an open log, its second line" is_soon 'time_us,wire,byte\n426,C,20\n713,C,01\n1900,D,10\n'
    exec 3>&-
    wait $!
    status=$?
    printf 'time_us,wire,byte\n426,C,20\n713,C,01\n1900,D,10\n2187,D,01\n' > "$work/want"
    judge "an open log, once it has ended" is_made "$work/want"
}

# is_soon TEXT: within twenty seconds this is what was made, with printf's escapes.
is_soon() {
    printf "$1" > "$work/want"
    for _ in {1..400}; do
        ! cmp -s "$work/out" "$work/want" || return 0
        sleep 0.05
    done
    return 1
}

# A log of 3,200,000 bytes in 64 MB of memory, in which not so many can be kept.
long_log() {
    local lines
    lines=200000
    smaller lines 12500 'lines of a long log'
    awk -v lines="$lines" 'BEGIN {
        for (k = 1; k <= lines; k++) printf "%d.000001 %s 20 01 21 22 23 24 25 26 27 28 29 2A 2B 2C 2D 2E\n", k, k % 3 ? "A" : "B"
    }' > "$work/in"
    bounded 65536 "$program" convert log --live --controller A --deck B < "$work/in" > "$work/out" 2> "$work/err"
    status=$?
    judge 'a long log, live' [ "$status" = 0 -a "$(wc -l < "$work/out")" = $((16 * lines + 1)) -a ! -s "$work/err" ]
    ! needs_make 'a log of which too many bytes are kept' || return
    bounded 65536 "$program" convert log --controller A --deck B < "$work/in" > "$work/out" 2> "$work/err"
    status=$?
    judge 'a long log, whose bytes are kept' is_text 5 '' "$(both_lines 'out of memory' export)"
}

# Streams that fail, with a short capture and with a long one. What can be said of a full device is said; of a reader that has gone
# nothing is.
failed_streams() {
    local lines words
    for lines in 17 20000; do
        while IFS= read -r words; do
            export_of "${words%% *}" $lines > "$work/in"
            # shellcheck disable=SC2086
            "$program" convert $words < "$work/in" > /dev/full 2> "$work/err"
            status=$?
            judge "$words: a full device, $lines lines" says_write_fault
            # shellcheck disable=SC2086
            "$program" convert $words < "$work/in" >&- 2> "$work/err"
            status=$?
            judge "$words: standard output is closed, $lines lines" says_write_fault
            # shellcheck disable=SC2086
            into_closed "$program" convert $words
            judge "$words: a reader that has gone, $lines lines" is_text 4 '' ''
            # shellcheck disable=SC2086
            into_closed ./ninecheck convert $words
            judge "$words: a reader of the script that has gone, $lines lines" is_text 4 '' ''
            # shellcheck disable=SC2086
            run convert $words < .
            judge "$words: a directory as input" is_text 4 '' "read fault
the text can't be read to its end"
            # shellcheck disable=SC2086
            run convert $words examples < /dev/null
            judge "$words: a directory" is_text 4 '' 'read fault at row 0
examples: Is a directory'
            # shellcheck disable=SC2086
            run convert $words "$work/none" < /dev/null
            judge "$words: no such file" is_text 4 '' "cannot open
$work/none: No such file or directory"
        done <<'END'
sigrok --samplerate 1000000
saleae --controller A --deck B
log --controller A --deck B
log --live --controller A --deck B
END
    done
}

says_write_fault() {
    [ "$status" = 4 ] && [ "$(head -n 1 "$work/err")" = 'write fault' ]
}

# export_of CONVERTER N: an export with so many lines of a byte.
export_of() {
    case $1 in
        sigrok) awk -v lines="$2" 'BEGIN { for (k = 1; k <= lines; k++) print k * 1000 "-" k * 1000 + 208 " uart-1: 20" }' ;;
        saleae) awk -v lines="$2" 'BEGIN { print "name,type,start_time,duration,data,error"
            for (k = 1; k <= lines; k++) printf "A,data,%d.%06d,1,0x20,\n", k / 1000, k % 1000 * 1000 }' ;;
        log) awk -v lines="$2" 'BEGIN { for (k = 1; k <= lines; k++) printf "%d.%06d A 20\n", k / 1000, k % 1000 * 1000 + 1 }' ;;
    esac
}

# Reads 40 polls of a deck, whose bytes come 300 microseconds apart, as a log in whole milliseconds: a line for each byte, or for
# each block. In the order of the log it is a yes; with the controller's byte first at each time that of bytes is none.
coarse_logs() {
    local lines
    for lines in bytes blocks; do
        awk -v lines=$lines '
            function send(port, bytes, n, k, byte) {
                n = split(bytes, byte, " ")
                for (k = 1; k <= n; k++) {
                    if (k == 1 || lines == "bytes") printf "%s%d.%03d %s", NR++ ? "\n" : "", now / 1000000, int(now / 1000) % 1000, port
                    printf " %s", byte[k]
                    now += 300
                }
            }
            BEGIN {
                for (turn = 1; turn <= 40; turn++) { send("A", "61 20 01 82"); send("B", "71 20 00 91") }
                print ""
            }' > "$work/in"
        convert log '--controller A --deck B' < "$work/in"
        judge "a log in milliseconds, a line for each of its $lines" [ "$status" = 0 ]
        judge "what is said of it once" [ "$(cat "$work/err")" = "$coarse" ]
        judge "it is a yes" is_verdict 0 'yes: records 320, exchanges 40, open 0'
        [ $lines = bytes ] || continue
        { head -n 1 "$work/out"; tail -n +2 "$work/out" | sort -s -t, -k1,1n -k2,2; } > "$work/sorted"
        mv "$work/sorted" "$work/out"
        judge "with the controller first it is a no" is_no
    done
}

is_no() {
    "$program" check < "$work/out" > "$work/verdict"
    grep -q '^no at record [0-9]*: P4 ' "$work/verdict"
}

# Words that the program refuses before it reads anything. What else words may look like is in tests/program/program.sh.
wrong_words() {
    local words
    while IFS= read -r words; do
        # shellcheck disable=SC2086
        run convert $words < .
        judge "the words 'convert $words'" [ "$status" = 2 -a ! -s "$work/out" -a -s "$work/err" ]
    done <<'END'
hex
saleae --controller A --deck B --from -1.5
saleae --from=1.5.5
log --controller A --deck B --live=yes
sigrok --samplerate
sigrok --samplerate -1
END
}

stored_exports
good_exports
bad_exports
stopped_logs
two_files
open_log
long_log
coarse_logs
failed_streams
wrong_words

# The commands of docs/CAPTURE.md that are to be copied, on the stored exports; a long one goes on in the next line.
commands=0
while read -r command; do
    exported=${command##*examples/exports/}
    exported=${exported%% *}
    (cd "$work" && ln -sf "$OLDPWD/ninecheck" "$OLDPWD/examples" . && sh -c "$command" 2> err)
    judge "the page's command on $exported" cmp "$work/capture.csv" "examples/exports/${exported%.*}-capture.csv"
    commands=$((commands + 1))
done < <(sed -e ':join' -e '/\\$/{N; s/ *\\\n */ /; b join' -e '}' docs/CAPTURE.md | sed -n 's/^    \(.* convert .*examples\/exports.*\)/\1/p')
# Without column names each analyzer has a file of its own: both are named, the controller's first.
awk -v to="$work" '/^Time/ { n++ } { print > (to (n == 1 ? "/controller.csv" : "/deck.csv")) }' examples/exports/saleae-older-two-files.csv
command=$(sed -n 's/.*(`\(.* convert saleae [^`]*\)`).*/\1/p' docs/CAPTURE.md)
(cd "$work" && sh -c "$command" 2> err)
judge "the page's command on two files: $command" cmp "$work/capture.csv" examples/exports/saleae-older-two-files-capture.csv
judge "the page's commands: $commands" [ "$commands" -ge 5 ]
# The page's commands that log two serial ports and convert the log, as they stand, with two terminals in their place: each
# wire's bytes are sent once its port is set as the page sets it.
sed -n '/^    for port in /,/^$/{s/^    //p;/^$/q}' docs/CAPTURE.md > "$work/log.sh"
PYTHONPATH=tests/exports python3 -B - "$work" > "$work/out" 2> "$work/err" <<'PY'
import subprocess, sys
from ports import close_ports, lines_of, must_wait_for, send, with_ports
work = sys.argv[1]
logging = subprocess.Popen(['sh', '-c', with_ports(open(f'{work}/log.sh').read())], cwd=work)
for k, sent in enumerate((bytes([0x20, 0x01, 0x21]), bytes([0x10, 0x01, 0x11]))):
    send(k, sent)
    must_wait_for(lambda: lines_of(f'{work}/serial.log') == 3 * k + 3)
close_ports()
sys.exit(logging.wait())
PY
status=$?
judge "the page's log of two ports" [ "$status" = 0 ]
judge "the page's capture of two ports" [ "$(cut -d , -f 2,3 "$work/capture.csv" | tr '\n' ' ')" = 'wire,byte C,20 C,01 C,21 D,10 D,01 D,11 ' ]

tell_counts

#!/usr/bin/env bash
# Runs the built program as a person does: its statuses, its two streams, pipes and files.
# The last line is 'N passed, M failed'.
set -u
cd "$(dirname "$0")/../.." || exit 1
. tests/lib/judge.sh
. tests/lib/errors.sh
. tests/lib/program.sh
. tests/lib/blocks.sh
. tests/lib/closed.sh

# run_on FILE: the program with this file as its standard input.
run_on() {
    : > "$work/out"
    : > "$work/err"
    run check < "$1"
}

# run_text TEXT: the program on this text, with printf's escapes, through a pipe.
run_text() {
    printf "$1" | "$program" check > "$work/out" 2> "$work/err"
    status=$?
}

# The examples, each with its answer.
while IFS='|' read -r file want_status want_out want_err; do
    case "$file" in '#'* | '') continue ;; esac
    run check "examples/$file" < /dev/null
    expect "examples/$file" "$want_status" "$want_out" "${want_err//|/$'\n'}"
done < examples/ANSWERS

# Forms of CSV that are the same capture.
yes='yes: records 2, exchanges 0, open 2'
while IFS='|' read -r name text; do
    run_text "$text"
    expect "$name" 0 "$yes" ''
done <<'END'
no line feed at the end|time_us,wire,byte\n400,C,20\n800,C,01
CRLF|time_us,wire,byte\r\n400,C,20\r\n800,C,01\r\n
CR alone|time_us,wire,byte\r400,C,20\r800,C,01\r
quotes|"time_us","wire","byte"\n"400","C","20"\n"800","C","01"\n
bytes after a closing quote|time_us,wire,byte\n400,C,"2"0\n"8"00,C,01\n
a quote that the end of the text closes|time_us,wire,byte\n400,C,20\n800,C,"01
empty lines|time_us,wire,byte\n\n400,C,20\n\n800,C,01\n\n
a byte order mark|\357\273\277time_us,wire,byte\n400,C,20\n800,C,01\n
a byte order mark and an empty line|\357\273\277\n\ntime_us,wire,byte\n400,C,20\n800,C,01\n
zeros in front, and digits of both cases|time_us,wire,byte\n000000000000400,C,20\n400,C,aB\n
END
run_text 'time_us,wire,byte'
expect 'a header without a line feed' 0 'yes: records 0, exchanges 0, open 0' ''

# Texts that can't be read.
while IFS='|' read -r name row word field text; do
    run_text "$text"
    expect "$name" 3 '' "$(both_lines "unreadable at row $row: $word" "$field")"
done <<'END'
an empty text|0|header||
empty lines alone|0|header||\n\r\n
a byte order mark alone|0|header||\357\273\277
two fields|1|fields||time_us,wire,byte\n400,C\n
a line of blanks|1|fields||time_us,wire,byte\n  \n400,C,20\n
one empty field in quotes|1|fields||time_us,wire,byte\n""\n
a comment|2|fields||time_us,wire,byte\n400,C,20\n# over\n
an unclosed quote that takes the rest of the text|2|fields||time_us,wire,byte\n400,C,20\n"800,C,01\n1200,C,21\n
sixteen digits|1|time|1000000000000000|time_us,wire,byte\n1000000000000000,C,20\n
a sign|1|time|+400|time_us,wire,byte\n+400,C,20\n
a blank after the time|1|time|400 |time_us,wire,byte\n400 ,C,20\n
three empty fields|1|time||time_us,wire,byte\n,,\n
a byte order mark before a row|1|time|???400|time_us,wire,byte\n\357\273\277400,C,20\n
a lower-case wire|1|wire|c|time_us,wire,byte\n400,c,20\n
a wire that is no UTF-8|1|wire|?|time_us,wire,byte\n400,\377,20\n
one digit|1|byte|2|time_us,wire,byte\n400,C,2\n
a blank before the byte|1|byte| 20|time_us,wire,byte\n400,C, 20\n
a byte that is no UTF-8|1|byte|??|time_us,wire,byte\n400,C,\377\376\n
a quote inside a field|1|byte|2"0"|time_us,wire,byte\n400,C,2"0"\n
two quotes for one|1|byte|2"0|time_us,wire,byte\n400,C,"2""0"\n
a line feed inside quotes|1|byte|20?|time_us,wire,byte\n400,C,"20\n"\n
an unclosed quote that takes a line feed|1|byte|20?|time_us,wire,byte\n400,C,"20\n
a time that falls|2|backwards|400|time_us,wire,byte\n800,C,20\n400,C,01\n
the last printable byte and the ones beside it|1|wire|~??|time_us,wire,byte\n400,~\177\200,20\n
the first printable byte and the ones beside it|1|wire| !?|time_us,wire,byte\n400, !\037,20\n
a carriage return in quotes|1|wire|C?D|time_us,wire,byte\n400,"C\rD",20\n
END
run_text '\377\376t\000i\000m\000e\000\n\000'
expect 'a text in UTF-16' 3 '' "$(both_lines 'unreadable at row 0: header' '??t?i?m?e?' '' ', in UTF-16: save it as UTF-8')"
run_text 'time_us,wire,byte\n400,C,20\n800,C,01\n1200,C,22\n1600,D,G1\n'
expect 'a rule broken before a bad row' 1 'no at record 3: B2 wrong sum' ''

# Captures that begin inside an exchange, commands that are not listed, times, and what is not judged.
while IFS='|' read -r name want_status want_out blocks; do
    run check < <(records "$blocks")
    expect "$name" "$want_status" "$want_out" ''
done <<'END'
a capture that begins with a reply|1|no at record 1: P1 reply without a command|D 10 01 11
a capture that begins inside a command|1|no at record 4: P2 reply before the end of the command|C 01 21 20 D 10 01 11
a code that is not listed|0|yes: records 10, exchanges 1, open 0|C 20 03 23 D 74 04 25 00 00 00 9D
a listed code with another count|0|yes: records 9, exchanges 1, open 0|C 21 01 00 22 D 12 11 20 10 53
a listed code in another group|0|yes: records 6, exchanges 1, open 0|C 30 01 31 D 30 01 31
a preset with another count|0|yes: records 9, exchanges 1, open 0|C 43 14 25 00 00 7C D 10 01 11
a selector that is not listed|0|yes: records 11, exchanges 1, open 0|C 61 0C 05 72 D 74 04 25 00 00 00 9D
a reply of a wrong sum to a command that is not listed|1|no at record 6: B2 wrong sum|C 20 03 23 D 10 01 12
a reply of a wrong group to a command that is not listed|1|no at record 4: B1 wrong group for this wire|C 20 03 23 D 20
frame 25|1|no at record 7: P6 invalid time in a command|C 44 14 25 00 00 10 8D
frame 29|1|no at record 7: P6 invalid time in a command|C 44 14 29 00 00 10 91
frame 24 with its flag bits|0|yes: records 10, exchanges 1, open 0|C 44 14 E4 80 80 C0 FC D 10 01 11
time replies that go back|0|yes: records 22, exchanges 2, open 0|C 61 0C 01 6E D 74 04 24 00 00 00 9C C 61 0C 01 6E D 74 04 00 00 00 00 78
END
run_text 'time_us,wire,byte\n0,C,20\n0,C,01\n0,C,21\n0,D,10\n0,D,01\n0,D,11\n999999999999999,C,20\n'
expect 'records at one time, and a long pause' 0 'yes: records 7, exchanges 1, open 1' ''

# Words: the file before and after the option, and standard input where there is none. explain and run have a line of the exchange too.
yes='yes: records 6, exchanges 1, open 0'
ends_so() {
    has_verdict 0 "$yes" && case $verb in explain | run) has_lines 2 ;; *) has_lines 1 ;; esac
}
for verb in check explain run why; do
    for words in examples/play.csv '--hands examples/play.csv' 'examples/play.csv --hands'; do
        # shellcheck disable=SC2086
        run $verb $words < /dev/null
        judge "$verb $words" ends_so
    done
    for words in '' --hands; do
        # shellcheck disable=SC2086
        run $verb $words < examples/play.csv
        judge "$verb $words on standard input" ends_so
    done
done
cp examples/play.csv "$work/--hands"
(cd "$work" && "$program" check -- --hands) > "$work/out" 2> "$work/err" < /dev/null
status=$?
expect 'a file whose name is that of the option' 0 "$yes" ''

# Words that are no command, with status 2, and words that ask for help, with 0: a line that the text on this stream has.
while IFS='|' read -r stream words line; do
    run $words < examples/play.csv
    cp "$work/$stream" "$work/text"
    : > "$work/$stream"
    grep -qxF -- "$line" "$work/text" || echo "no such line: $line" >> "$work/err"
    expect "the words '$words'" "$([ "$stream" = out ] && echo 0 || echo 2)" '' ''
done <<'END'
err||error: 'ninecheck' requires a subcommand but one was not provided
err|frob|error: unrecognized subcommand 'frob'
err|chec|  tip: a similar subcommand exists: 'check'
err|Check|error: unrecognized subcommand 'Check'
err|check.csv|error: unrecognized subcommand 'check.csv'
err|f.csv|error: unrecognized subcommand 'f.csv'
err|--hands|error: unexpected argument '--hands' found
err|runs|  tip: a similar subcommand exists: 'run'
err|check a b|error: unexpected argument 'b' found
err|run a b|error: unexpected argument 'b' found
err|run --hands --hands|error: the argument '--hands' cannot be used multiple times
err|why a b|error: unexpected argument 'b' found
err|why --hands --hands|error: the argument '--hands' cannot be used multiple times
err|--hands why|error: unexpected argument '--hands' found
err|why -V|error: unexpected argument '-V' found
err|run --all|error: unexpected argument '--all' found
err|check --all --all|error: the argument '--all' cannot be used multiple times
err|explain --all=yes|error: unexpected value 'yes' for '--all' found; no more were expected
err|--all check|error: unexpected argument '--all' found
err|why --al|  tip: a similar argument exists: '--all'
err|run --line-buffered|error: unexpected argument '--line-buffered' found
err|why --line-buffered --line-buffered|error: the argument '--line-buffered' cannot be used multiple times
err|check --line-buffer|  tip: a similar argument exists: '--line-buffered'
err|--line-buffered check|error: unexpected argument '--line-buffered' found
err|check --bytes|error: unexpected argument '--bytes' found
err|run --bytes|error: unexpected argument '--bytes' found
err|why --bytes|error: unexpected argument '--bytes' found
err|explain --bytes --bytes|error: the argument '--bytes' cannot be used multiple times
err|explain --byte|  tip: a similar argument exists: '--bytes'
err|run --hand|  tip: a similar argument exists: '--hands'
err|--hands run|error: unexpected argument '--hands' found
err|check --hands --hands|error: the argument '--hands' cannot be used multiple times
err|check --hands=yes|error: unexpected value 'yes' for '--hands' found; no more were expected
err|check --hand|  tip: a similar argument exists: '--hands'
err|--hands check|error: unexpected argument '--hands' found
err|check --sync --sync|error: the argument '--sync' cannot be used multiple times
err|--sync check|error: unexpected argument '--sync' found
err|check --version|error: unexpected argument '--version' found
err|run -V|error: unexpected argument '-V' found
err|check -V|error: unexpected argument '-V' found
err|frob --version|error: unrecognized subcommand 'frob'
err|--version=1|error: unexpected value '1' for '--version' found; no more were expected
err|--versions|  tip: a similar argument exists: '--version'
err|convert|error: unrecognized subcommand 'convert'
err|convert hex|error: unrecognized subcommand 'convert'
err|convert --help|error: unrecognized subcommand 'convert'
err|help convert|error: unrecognized subcommand 'convert'
err|convert sigrok --samplerate 1 a b|error: unexpected argument 'b' found
err|convert sigrok --live|error: unexpected argument '--live' found
err|convert saleae a b c|error: unexpected argument 'c' found
err|convert log a b|error: unexpected argument 'b' found
err|convert log --live --live|error: the argument '--live' cannot be used multiple times
err|convert log --hands|error: unexpected argument '--hands' found
err|convert log --live=yes|error: unexpected value 'yes' for '--live' found; no more were expected
err|convert sigrok --samplerate|error: a value is required for '--samplerate <N>' but none was supplied
err|convert sigrok --to|error: a value is required for '--to <SECONDS>' but none was supplied
err|convert saleae --deck|error: a value is required for '--deck <ANALYZER>' but none was supplied
err|convert log --deck|error: a value is required for '--deck <PORT>' but none was supplied
err|split --to|error: a value is required for '--to <NAME>' but none was supplied
err|split a b|error: unexpected argument 'b' found
err|split --all|error: unexpected argument '--all' found
err|split --to a --to b|error: the argument '--to <NAME>' cannot be used multiple times
out|-h --version|Usage: ninecheck <COMMAND>
out|--help|  -V, --version  Print version
out|--help|Usage: ninecheck <COMMAND>
out|-h|Usage: ninecheck <COMMAND>
out|help|Usage: ninecheck <COMMAND>
out|-h -V|Usage: ninecheck <COMMAND>
out|check --help|Usage: ninecheck check [OPTIONS] [FILE]
out|check -h|Usage: ninecheck check [OPTIONS] [FILE]
out|help check|Usage: ninecheck check [OPTIONS] [FILE]
out|explain -h|Usage: ninecheck explain [OPTIONS] [FILE]
out|explain --help|Usage: ninecheck explain [OPTIONS] [FILE]
out|help explain|Usage: ninecheck explain [OPTIONS] [FILE]
out|run --help|Usage: ninecheck run [OPTIONS] [FILE]
out|help run|Usage: ninecheck run [OPTIONS] [FILE]
out|why --help|Usage: ninecheck why [OPTIONS] [FILE]
out|help why|Usage: ninecheck why [OPTIONS] [FILE]
out|convert sigrok --help|Usage: ninecheck convert sigrok [OPTIONS] [FILE]
out|convert saleae --help|Usage: ninecheck convert saleae [OPTIONS] [FILE] [DECK-FILE]
out|convert log -h|Usage: ninecheck convert log [OPTIONS] [FILE]
out|split --help|Usage: ninecheck split [OPTIONS] [FILE]
out|help split|Usage: ninecheck split [OPTIONS] [FILE]
END
run --help < /dev/null
sed -n '/^Commands:/,/^$/s/^  \([a-z]*\( [a-z][a-z]*\)*\)  .*/\1/p' "$work/out" | tr '\n' ',' > "$work/text"
judged=$(cat "$work/text")
echo "$judged" > "$work/out"
expect 'the subcommands that the help lists' 0 'check,explain,run,why,digest,delays,motion,json,json check,json explain,json run,json why,clock,info,try,touches,picture,page,convert sigrok,convert saleae,convert log,split,help,' ''
run "$(printf '\377')" < examples/play.csv
expect 'a word that is not UTF-8' 2 '' 'error: a word of the command line is not UTF-8
pass a file with such a name on standard input: ninecheck check < FILE'

# The version, also where other words follow it: the words are read in order, and it is told at once.
version="ninecheck $(make/version.sh)"
while IFS= read -r words; do
    run $words < /dev/null
    expect "the words '$words'" 0 "$version" ''
done <<'END'
--version
-V
-Vh
--version --version
--version check
-V --frob
END
"$program" --version > /dev/full 2> "$work/err"
status=$?
: > "$work/out"
expect 'the version on a full device' 4 '' "$(both_lines 'write fault')"

# Files.
for verb in check run why; do
    run $verb . < examples/play.csv
    expect "$verb of a directory" 4 '' 'read fault at row 0
.: Is a directory'
    run $verb "$work/absent.csv" < examples/play.csv
    expect "$verb of an absent file" 4 '' "cannot open
$work/absent.csv: No such file or directory"
done
run check '' < examples/play.csv
expect 'a file without a name' 4 '' 'cannot open
: No such file or directory'
run check examples/play.csv/more < examples/play.csv
expect 'a file in a file' 4 '' 'cannot open
examples/play.csv/more: Not a directory'
ln -s loop "$work/loop"
run check "$work/loop" < examples/play.csv
expect 'a link to itself' 4 '' "cannot open
$work/loop: Too many levels of symbolic links"
: > "$work/empty.csv"
run check "$work/empty.csv" < examples/play.csv
expect 'an empty file' 3 '' "$(both_lines 'unreadable at row 0: header' '' "$work/empty.csv")"
# For the superuser every file is readable, so this one runs as somebody else.
as=
[ "$(id -u)" != 0 ] || as='setpriv --reuid=65534 --regid=65534 --clear-groups'
mkdir "$work/others"
cp "$program" "$work/others/ninecheck"
cp examples/play.csv "$work/others"
chmod 755 "$work" "$work/others"
chmod 000 "$work/others/play.csv"
$as "$work/others/ninecheck" check "$work/others/play.csv" > "$work/out" 2> "$work/err" < /dev/null
status=$?
expect 'a file that may not be read' 4 '' "cannot open
$work/others/play.csv: Permission denied"

# Streams that fail.
for words in check explain digest info 'json why' 'split --to part'; do
    # shellcheck disable=SC2086
    run $words <&-
    expect "$words, a closed input" 4 '' "$(both_lines 'read fault at row 0')"
done
for words in clock page picture try 'convert log --controller A --deck B'; do
    # shellcheck disable=SC2086
    run $words <&-
    expect "$words, a closed input" 4 '' "read fault
the text can't be read to its end"
done
run_on .
expect 'a directory as input' 4 '' "$(both_lines 'read fault at row 0')"
memory=262144
smaller memory 24576 'kilobytes of memory for a row without end'
bounded "$memory" "$program" check < /dev/zero > "$work/out" 2> "$work/err"
status=$?
judge 'a row without end' is_out_of_memory
for words in run why 'why --all' touches page 'convert log --live --controller A --deck B'; do
    case $words in
        page) kept=capture ;;
        convert*) kept=line ;;
        *) kept=exchanges ;;
    esac
    # shellcheck disable=SC2086
    bounded "$memory" "$program" $words < /dev/zero > "$work/out" 2> "$work/err"
    status=$?
    judge "$words: a row without end" is_out_of_memory $kept
done
cp examples/play.csv "$work/in"
for verb in check run why; do
    "$program" $verb < examples/play.csv > /dev/full 2> "$work/err"
    status=$?
    : > "$work/out"
    expect "a full device, $verb" 4 '' "$(both_lines 'write fault')"
    "$program" $verb < examples/play.csv >&- 2> "$work/err"
    status=$?
    expect "a closed output, $verb" 4 '' "$(both_lines 'write fault')"
    into_closed "$program" $verb
    expect "a closed pipe, $verb" 4 '' ''
done
"$program" check < examples/wrong-header.csv > "$work/out" 2>&-
status=$?
: > "$work/err"
expect 'a closed standard error' 3 '' ''

# A long capture through a pipe, of which nothing is kept: PLAY and its reply, many times.
long=40000
smaller long 4000 'exchanges through a pipe'
records "$play" "$long" | "$program" check > "$work/out" 2> "$work/err"
status=$?
expect 'a long pipe' 0 "yes: records $((6 * long)), exchanges $long, open 0" ''

# The address space that the script leaves to the program: 4 GB, or less where less is left to the script.
mkdir -p "$work/tree/crates/ninecheck/out"
cp ninecheck "$work/tree/"
printf '#!/bin/sh\nulimit -v\n' > "$work/tree/crates/ninecheck/out/ninecheck"
chmod +x "$work/tree/crates/ninecheck/out/ninecheck"
for bound in '-v 8388608' '-S -v 8388608' '-v 4194304' '-v 1048576' '-S -v 1048576'; do
    (
        ulimit $bound
        exec "$work/tree/ninecheck" > "$work/out" 2> "$work/err"
    )
    status=$?
    want=${bound##* }
    [ "$want" -lt 4194304 ] || want=4194304
    expect "address space under ulimit $bound" 0 "$want" ''
done
if ! needs_make 'a row without end, by the script'; then
    (
        ulimit -v 524288
        exec ./ninecheck check < /dev/zero > "$work/out" 2> "$work/err"
    )
    status=$?
    expect 'a row without end, by the script' 5 '' "$(both_lines 'out of memory')"
fi

tell_counts

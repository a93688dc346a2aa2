#!/usr/bin/env bash
# Has the built program cut captures into parts, and judge them. The last line is 'N passed, M failed'.
set -u
cd "$(dirname "$0")/../.." || exit 1
. tests/lib/judge.sh
. tests/lib/program.sh
. tests/lib/errors.sh
. tests/lib/blocks.sh
. tests/lib/closed.sh

parts=$work/parts

# split_into TEXT NAME WORDS...: the parts of this capture, with printf's escapes, in a folder of their own.
split_into() {
    rm -rf "$parts"
    mkdir "$parts"
    split_beside "$@"
}

# split_beside TEXT NAME WORDS...: the same, in the folder as it is.
split_beside() {
    printf "$1" > "$work/in"
    split_words --to "$2" "${@:3}" "$work/in"
}

# split_words WORDS...: a split with these words, in the folder of the parts.
split_words() {
    (cd "$parts" && "$program" split "$@") > "$work/out" 2> "$work/err"
    status=$?
}

# is_split WANT...: it said nothing but the names of these parts, which it made, and they are these texts.
is_split() {
    [ "$status" = 0 ] && [ ! -s "$work/err" ] && [ "$(wc -l < "$work/out")" = $# ] && has_parts "$@" || return 1
    [ "$(cd "$parts" && ls -- *)" = "$(cat "$work/out")" ]
}

# has_parts WANT...: there are these parts and no others, in the order of their names.
has_parts() {
    local part want=("$@")
    [ "$(ls "$parts" | wc -l)" = $# ] || return 1
    for part in "$parts"/*; do
        printf "time_us,wire,byte\n${want[0]}" | cmp - "$part" || return 1
        want=("${want[@]:1}")
    done
}

# is_refused STATUS LINES: this is on standard error, nothing is on standard output, and no part is left.
is_refused() {
    is_text "$1" '' "$2" && [ -z "$(ls "$parts")" ]
}

# ends_as_check: the run before on $work/in ended as `check` does, and no part is left.
ends_as_check() {
    local ended=$status
    [ ! -s "$work/out" ] && [ -z "$(ls "$parts")" ] || return 1
    cp "$work/err" "$work/said"
    run check "$work/in"
    [ "$status" = "$ended" ] && cmp "$work/err" "$work/said"
}

# begins_as WANT...: there are these parts and no others, but of the last one there may be less.
begins_as() {
    local last=${!#} part
    part=$(printf "$parts/part-%03d.csv" $#)
    printf "time_us,wire,byte\n$last" | head -c "$(wc -c < "$part")" | cmp - "$part" || return 1
    printf "time_us,wire,byte\n$last" > "$part"
    has_parts "$@"
}

# Two exchanges of three and three rows, and an open command of one.
first='1,C,20\n2,C,01\n3,C,21\n4,D,10\n5,D,01\n6,D,11\n'
second='11,C,20\n12,C,00\n13,C,20\n14,D,10\n15,D,01\n16,D,11\n'
open='21,C,61\n'
capture="time_us,wire,byte\n$first$second$open"

split_into "$capture" part
judge 'a short capture is one part' is_split "$first$second$open"
judge 'its name' [ "$(cat "$work/out")" = part-001.csv ]
split_into "$capture" "it's a part" --rows 7
judge 'an exchange is not cut' is_split "$first" "$second$open"
judge 'names with blanks and marks' [ "$(cat "$work/out")" = "it's a part-001.csv
it's a part-002.csv" ]
split_into "$capture" part --rows 6
judge 'full parts' is_split "$first" "$second" "$open"
split_into 'time_us,wire,byte\n' part
judge 'a header alone is one part' is_split ''
split_into 'time_us,wire,byte\n1,D,10\n2,C,20\n3,C,01\n' part --rows 2
judge 'a capture that begins with the deck' is_split '1,D,10\n' '2,C,20\n3,C,01\n'

# Other ways to name the parts and the capture.
rm "$parts"/*
split_words "$work/in" --rows=2 --to=-x
judge 'a name that begins with a minus sign' is_split '1,D,10\n' '2,C,20\n3,C,01\n'
judge 'the names that begin with a minus sign' [ "$(cat "$work/out")" = '-x-001.csv
-x-002.csv' ]
rm "$parts"/*
split_words --to "$parts/a part" --rows 2 < "$work/in"
judge 'a name with its folder, and standard input' is_text 0 "$parts/a part-001.csv
$parts/a part-002.csv" ''
judge 'the parts of standard input' has_parts '1,D,10\n' '2,C,20\n3,C,01\n'

# What `check` takes is taken, and a part is written in one form.
split_into "${capture//\\n/\\r\\n}" part --rows 12
judge 'CRLF' is_split "$first$second" "$open"
split_into "\357\273\277$capture" part --rows 12
judge 'a byte order mark' is_split "$first$second" "$open"
split_into '\357\273\277\r\n"time_us",wire,"byte"\r\n\r\n"1","C",20\r\n\n0002,D,aB' part
judge 'a byte order mark, quotes, blank lines, zeros in front, small digits and no line feed at the end' is_split '1,C,20\n2,D,AB\n'

# What is refused before a part is begun.
split_into "$capture" part --rows 5
judge 'no place to cut' is_refused 3 "ninecheck split: $work/in: line 7: no place between exchanges in 5 rows"
split_into "$capture" '' --rows 5
judge 'an empty name' is_refused 2 'ninecheck split: --to NAME is missing'
split_words "$work/in"
judge 'no name' is_refused 2 'ninecheck split: --to NAME is missing'
for rows in 4000001 0 1x 99999999999999999999; do
    split_into "$capture" part --rows $rows
    judge "no number of rows: $rows" is_refused 2 "ninecheck split: --rows is no number from 1 to 4000000: $rows"
done
split_into "$capture" part --rows=
judge 'an empty number of rows' is_split "$first$second$open"
split_into "$capture" none/part
judge 'a folder that is not there, told where the first part begins' is_refused 4 \
    "ninecheck split: $work/in: line 8: the part none/part-001.csv can't be written"
split_into 'time_us,wire,byte\n1,C,20\n' none/part
judge 'a folder that is not there, told at the end' is_refused 4 "ninecheck split: $work/in: line 2: the part none/part-001.csv can't be written"
while IFS='|' read -r name text; do
    split_into "$text" part
    judge "$name" [ "$status" = 3 ]
    judge "$name, as check says it" ends_as_check
done <<'END'
no header|1,C,20\n
nothing at all|
another header|time,wire,byte\n1,C,20\n
an export|name,type,start_time,duration,data,error\nA,data,1,1,0x20,\n
a bad first row|time_us,wire,byte\n1,C\n
a time that falls|time_us,wire,byte\n2,C,20\n1,C,01\n
END
split_words --to part "$work/none.csv"
judge 'no such capture' is_refused 4 "cannot open
$work/none.csv: No such file or directory"
split_words --to part .
judge 'a directory' is_refused 4 'read fault at row 0
.: Is a directory'
split_words --to part < .
judge 'a directory as input' is_refused 4 "$(both_lines 'read fault at row 0')"

# What stays where it ends early. The parts but the last are whole, and the last is the beginning of one.
bad="unreadable at row @: fields
$work/in: expected three fields: time_us,wire,byte"
split_into "time_us,wire,byte\n${first}11,C,20\n12,C\n" part --rows 6
judge 'a bad row, and one part is left' is_text 3 '' "${bad/@/8}
left behind: part-001.csv, which may not be whole"
judge 'it begins as a part' begins_as "$first"
split_into "${capture}22,C\n" part --rows 6
judge 'a bad row, and two parts are left' is_text 3 '' "${bad/@/14}
left behind: part-001.csv and part-002.csv, of which the last may not be whole"
judge 'the second begins as a part' begins_as "$first" "$second"
split_into "${capture}22,D,10\n23,C,20\n24,C\n" part --rows 6
judge 'a bad row, and three parts are left' is_text 3 '' "${bad/@/16}
left behind: part-001.csv to part-003.csv, of which the last may not be whole"
judge 'the third begins as a part' begins_as "$first" "$second" "${open}22,D,10\n"
split_into 'time_us,wire,byte\n1,C,20\n2,D,10\n3,C,20\n4,C,01\n5,D,10\n' part --rows 2
judge 'no place to cut in the second part' is_text 3 '' "ninecheck split: $work/in: line 6: no place between exchanges in 2 rows
left behind: part-001.csv, which may not be whole"

# A file that is there already, whatever it is.
rm -rf "$parts"
mkdir "$parts"
echo mine > "$parts/part-001.csv"
split_beside "$capture" part --rows 6
judge 'a first part that is there' is_text 4 '' "ninecheck split: $work/in: line 8: the part part-001.csv is there already, and is left as it is"
judge 'it is left as it is' [ "$(cat "$parts"/*)" = mine ]
mv "$parts/part-001.csv" "$parts/part-002.csv"
split_beside "$capture" part --rows 6
judge 'a second part that is there' is_text 4 '' "ninecheck split: $work/in: line 14: the part part-002.csv is there already, and is left as it is
left behind: part-001.csv, which may not be whole"
judge 'the second part is left as it is' [ "$(cat "$parts/part-002.csv")" = mine ]
rm "$parts/part-002.csv"
judge 'the first part is whole' has_parts "$first"
split_beside "$capture" part
judge 'a part of the split before' is_text 4 '' "ninecheck split: $work/in: line 8: the part part-001.csv is there already, and is left as it is"
judge 'the part of the split before is left as it is' has_parts "$first"
rm "$parts/part-001.csv"
ln -s "$work/away" "$parts/part-001.csv"
split_beside "$capture" part
judge 'a link to nothing' is_text 4 '' "ninecheck split: $work/in: line 8: the part part-001.csv is there already, and is left as it is"
judge 'nothing is made behind the link' [ ! -e "$work/away" ]
rm "$parts/part-001.csv"
mkdir "$parts/part-001.csv"
split_beside "$capture" part
judge 'a folder of that name' is_text 4 '' "ninecheck split: $work/in: line 8: the part part-001.csv is there already, and is left as it is"

# A part that can be made, and not be written to its end: no file may be longer than one kilobyte.
records "$play" 1000 > "$work/in"
rm -rf "$parts"
mkdir "$parts"
(
    cd "$parts" && trap '' XFSZ && ulimit -f 1
    exec "$program" split --to part "$work/in" > "$work/out" 2> "$work/err"
)
status=$?
sed -i 's/: line [0-9]*: /: line @: /' "$work/err"
judge 'a part that is not written to its end' is_text 4 '' "ninecheck split: $work/in: line @: the part part-001.csv can't be written
left behind: part-001.csv, which may not be whole"

# The names of the parts, where they can't be written. The parts are whole then.
printf "$capture" > "$work/in"
says_write_fault() {
    [ "$status" = 4 ] && [ "$(head -n 1 "$work/err")" = 'write fault' ] && has_parts "$first" "$second" "$open"
}
rm "$parts"/*
"$program" split --to "$parts/part" --rows 6 "$work/in" > /dev/full 2> "$work/err"
status=$?
judge 'the names on a full device' says_write_fault
rm "$parts"/*
"$program" split --to "$parts/part" --rows 6 "$work/in" >&- 2> "$work/err"
status=$?
judge 'the names, where standard output is closed' says_write_fault
for asked in "$program" ./ninecheck; do
    rm "$parts"/*
    into_closed "$asked" split --to "$parts/part" --rows 6
    judge "a reader of the names that has gone, $asked" is_text 4 '' ''
    judge "the parts of that, $asked" has_parts "$first" "$second" "$open"
done

tell_counts

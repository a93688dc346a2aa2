#!/usr/bin/env bash
# Judges a folder of captures side by side with the commands of docs/CAPTURE.md, as they stand there. The last line is
# 'N passed, M failed'.
set -u
cd "$(dirname "$0")/../.." || exit 1
. tests/lib/tools.sh
need_tools parallel
. tests/lib/judge.sh
. tests/lib/program.sh

# is_same NAME WANT FILE: counts whether the file has this text.
is_same() {
    file=$3
    judge "$1" [ "$2" = "$(cat "$file")" ]
}
show() {
    cat "$file"
}

# Where the machine has the `parallel` of moreutils, GNU's is asked for: the other one refuses the word `--version`.
mkdir "$work/other"
printf '#!/bin/sh\necho "parallel: invalid option" >&2\nexit 1\n' > "$work/other/parallel"
chmod +x "$work/other/parallel"
(PATH=$work/other:$PATH need_tools parallel) > "$work/out"
is_same 'another parallel is not GNU parallel' 'FAILED not there: parallel; `make tools` installs parallel
0 passed, 1 failed' "$work/out"

# The commands of the page, in their order; each runs in $work with the built program on its path.
mkdir "$work/bin" "$work/captures" "$work/captures/a night"
ln -s "$program" "$work/bin/ninecheck"
cp examples/play.csv examples/second-reply.csv "$work/captures"
cp examples/late-reply.csv examples/bad-byte.csv examples/open-command.csv "$work/captures/a night"
# A line that is further in belongs to the command before.
command=()
while IFS= read -r line; do
    case $line in
        '        '*) [ ${#command[@]} = 0 ] || command[-1]+=$'\n'${line#    } ;;
        '    find'* | '    cut'* | '    sed'*) command+=("${line#    }") ;;
    esac
done < <(sed -n '/^## Many captures/,$p' docs/CAPTURE.md)
page() {
    (cd "$work" && PATH="$work/bin:$PATH" sh -c "${command[$1]}") > "$work/out" 2>&1
}

want='3 captures/a night/bad-byte.csv: unreadable at row 7: byte
1 captures/a night/late-reply.csv: no at record 4: L1 late reply
0 captures/a night/open-command.csv: yes: records 8, exchanges 1, open 2
0 captures/play.csv: yes: records 6, exchanges 1, open 0
1 captures/second-reply.csv: no at record 7: P1 reply without a command'
echo "${#command[@]}" > "$work/out"
is_same 'the commands of the page' 4 "$work/out"
page 0
is_same 'nothing is said beside the table' '' "$work/out"
LC_ALL=C sort -k 2 "$work/verdicts" > "$work/table"
is_same 'the table of xargs' "$want" "$work/table"
rm "$work/verdicts"
page 1
LC_ALL=C sort -k 2 "$work/verdicts" > "$work/table"
is_same 'the table of parallel' "$want" "$work/table"
page 2
sed -i 's/^ *//' "$work/out"
is_same 'how many have which status' '2 0
2 1
1 3' "$work/out"
page 3
sed -i 's/^ *//' "$work/out"
is_same 'how often which reason comes' '1 L1 late reply
1 P1 reply without a command' "$work/out"

tell_counts

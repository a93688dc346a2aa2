#!/usr/bin/env bash
# Runs `ninecheck touches` on captures whose touches are known. The last line is 'N passed, M failed'.
set -u
cd "$(dirname "$0")/../.." || exit 1
. tests/lib/judge.sh
. tests/lib/program.sh
. tests/lib/blocks.sh

# ask WORDS...: the program; its streams are left in $work/out and $work/err.
ask() {
    run touches "$@"
}

# is_touched NAME WORDS BLOCKS STATUS: a capture of these blocks, from a file and from standard input, gives the text on standard
# input.
is_touched() {
    local want
    want=$(cat)
    capture_of "$3"
    # shellcheck disable=SC2086
    ask $2 "$work/capture.csv"
    expect "$1" "$4" "$want" ''
    # shellcheck disable=SC2086
    ask $2 < "$work/capture.csv"
    expect "$1, on standard input" "$4" "$want" ''
}

in_at() { echo "C 60 10 70 D 74 10 $1"; }
at_10=$(in_at '00 00 00 10 94')
at_11=$(in_at '00 00 00 11 95')
enable='C 00 1D 1D D 10 01 11'
disable='C 00 0C 0C D 10 01 11'

is_touched 'nobody has to' '' "$remote $preset $at_10" 0 <<'END'
touches 0: nobody need have touched the panel
yes: records 28, exchanges 3, open 0
END
is_touched 'a point that was moved' '' "$remote $preset $at_11" 0 <<'END'
between record 18, 0.007200 s, and record 19, 0.007600 s: in: 10:00:00:00 => 11:00:00:00
touches 1, as few as possible
yes: records 28, exchanges 3, open 0
END
is_touched 'a deck that was switched to LOCAL, and back' '' "$remote $local $remote" 0 <<'END'
between record 8, 0.003200 s, and record 9, 0.003600 s: local: no => yes
between record 16, 0.006400 s, and record 17, 0.006800 s: local: yes => no
touches 2, as few as possible
yes: records 24, exchanges 3, open 0
END
# A point is moved at the last place at which the panel may have been on: before it was switched off.
is_touched 'a panel that was switched off meanwhile' '' "$remote $preset $enable $disable $at_11" 0 <<'END'
between record 24, 0.009600 s, and record 25, 0.010000 s: in: 10:00:00:00 => 11:00:00:00
touches 1, as few as possible
yes: records 40, exchanges 5, open 0
END
is_touched 'more touches, each in a stretch of its own' '' "$remote $preset $at_11 $remote $preset $at_11" 0 <<'END'
between record 18, 0.007200 s, and record 19, 0.007600 s: in: 10:00:00:00 => 11:00:00:00
between record 46, 0.018400 s, and record 47, 0.018800 s: in: 10:00:00:00 => 11:00:00:00
touches 2, as few as possible
yes: records 56, exchanges 6, open 0
END
is_touched 'a frame rate' '--rate 30' "$(sed -n '2,$p' examples/drop-frame.csv | awk -F, '{ printf "%s %s ", $2, $3 }')" 0 <<'END'
between record 24, 0.009600 s, and record 25, 0.010000 s: in: 00:01:00:00 => 00:01:00:02
touches 1, as few as possible
yes: records 34, exchanges 4, open 0
END
# What FULL EE ON made unknown may be what it was, so no hand need have changed it; and the mechanics may have come to another mode.
is_touched 'a point that was forgotten, and found again' '' "$preset C 20 61 81 $ack $remote $local $at_10" 0 <<'END'
between record 24, 0.009600 s, and record 25, 0.010000 s: local: no => yes
touches 1, as few as possible
yes: records 42, exchanges 5, open 0
END
is_touched 'a deck that came to a halt by itself' '' "$remote $play C 61 20 11 92 D 71 20 01 92 C 61 20 11 92 D 71 20 20 B1 $local" 0 <<'END'
between record 30, 0.012000 s, and record 31, 0.012400 s: local: no => yes
touches 1, as few as possible
yes: records 38, exchanges 5, open 0
END
# The records keep their numbers where those before the first that may begin a command are passed over.
is_touched 'a capture that begins inside a reply' --sync "D 11 $remote $preset $at_11" 0 <<'END'
between record 19, 0.007600 s, and record 20, 0.008000 s: in: 10:00:00:00 => 11:00:00:00
touches 1, as few as possible
yes: records 28, exchanges 3, open 0
END
is_touched 'a no' '' "$remote $second_reply" 1 <<'END'
no at record 15: P1 reply without a command
END
is_touched 'a capture that hands do not explain' '' "$remote C 61 20 11 92 D 71 20 3F D0" 1 <<'END'
no at record 16: M1 no run remains
END

# What a sheet allows is no touch.
ask --deck examples/eject.toml examples/eject.csv
expect 'a sheet' 0 'touches 0: nobody need have touched the panel
yes: records 32, exchanges 4, open 0' ''
ask examples/eject.csv
judge 'without it' grep -q '^between record 24, 0.009600 s, and record 25, 0.010000 s: in: 10:00:00:00 => clear' "$work/out"
judge 'without it there is one' grep -qx 'touches 1, as few as possible' "$work/out"

for option in --all --hands; do
    ask $option examples/play.csv
    judge "touches has no $option" eval '[ "$status" = 2 ] && grep -q "^Usage: ninecheck touches " "$work/err"'
done

tell_counts

#!/bin/sh
# Draws an edit session of eight edits, and tells at how many of its exchanges IN and LOCAL are known: without a deck sheet, with the
# shipped one, of the same session without its EE and EDIT commands, and of that one where some replies are late. The editor polls time and status; with `--registers` the status that it polls
# has three data, among them which registers are set. It asks for IN again at the end of each edit.
set -eu
here=$(cd "$(dirname "$0")" && pwd)
program=${NINECHECK:-$here/../../crates/ninecheck/out/ninecheck}
work=$(mktemp -d)
trap 'rm -rf "$work"' EXIT
PYTHONPATH="$here/../lib" python3 - "$work" << 'PYTHON'
import random, sys
from blocks import ACK, block, time_bytes, write
work = sys.argv[1]
STOPPED, PLAYING = 0x20, 0x01

def polls(draw, status, number, at, three):
    for turn in range(number):
        if turn % 2:
            yield block(6, 0x0C, 0x01), block(7, 0x04, *time_bytes(at + turn))
        elif three:
            yield block(6, 0x20, 0x13), block(7, 0x20, status, 0x00, 0x03)
        else:
            yield block(6, 0x20, 0x01), block(7, 0x20, 0x00)

# An edit: its points are set and read back, the deck cues up with the picture switched, plays, and records from IN to OUT.
def edit(draw, number, switches, three):
    begin = 90000 + number * 1500 + draw.randrange(500)
    end = begin + 100 + draw.randrange(200)
    def switch(code):
        if switches:
            yield block(2, code), ACK
    for register, at in ((0, begin), (1, end)):
        yield block(4, 0x14 + register, *time_bytes(at)), ACK
        yield block(6, 0x10 + register), block(7, 0x10 + register, *time_bytes(at))
    yield from polls(draw, STOPPED, 500 + draw.randrange(60), begin, three)
    yield from switch(0x61)
    yield block(2, 0x31, *time_bytes(begin - 125)), ACK
    yield from polls(draw, STOPPED, 90 + draw.randrange(60), begin, three)
    yield from switch(0x60)
    yield block(2, 0x01), ACK
    yield from polls(draw, PLAYING, 125, begin, three)
    yield from switch(0x65)
    yield from polls(draw, PLAYING, end - begin, begin, three)
    yield from switch(0x64)
    yield block(2, 0x00), ACK
    yield from polls(draw, STOPPED, 120 + draw.randrange(60), end, three)
    for register, at in ((0, begin), (1, end)):
        yield block(6, 0x10 + register), block(7, 0x10 + register, *time_bytes(at))

def session(switches, three):
    draw = random.Random(8)
    yield block(6, 0x20, 0x01), block(7, 0x20, 0x00)
    for number in range(8):
        yield from edit(draw, number, switches, three)

for name, switches, three in ('one', True, False), ('three', True, True), ('none', False, False):
    write(f'{work}/{name}.csv', session(switches, three))
PYTHON

# late N: the session without switches, in which every Nth reply begins 12,000 microseconds after its command.
late() {
    awk -F , -v every="$1" '
        NR == 1 { print; next }
        { if ($2 == "D" && wire == "C" && ++replies % every == 0) shift += last + 12000 - $1
          wire = $2; last = $1; printf "%.0f,%s,%s\n", $1 + shift, $2, $3 }' "$work/none.csv" > "$work/late-$1.csv"
}
late 1000
late 100

# tell WHAT CAPTURE WORDS...: at how many of the exchanges IN and LOCAL are known, and how many of them are commands that are not listed.
tell() {
    what=$1
    capture=$work/$2.csv
    shift 2
    "$program" explain "$@" "$capture" | awk -v what="$what" '
        /^record / { exchanges++; if (/, in [0-9]/) known++; if (/, local (yes|no)/) local++; if (/: 20 6[0-9A-F] -> /) switches++ }
        { last = $0 }
        END { printf "%s: %d exchanges, %d switches, IN known at %.1f %%, LOCAL at %.1f %%; %s\n", what, exchanges, switches, 100 * known / exchanges, 100 * local / exchanges, last }'
}
tell 'status of one datum' one
tell 'the same, with the sheet' one --deck "$here/../../decks/nine-pin-commands.toml"
tell 'status of three data' three
tell 'the same, with the sheet' three --deck "$here/../../decks/nine-pin-commands.toml"
tell 'without the switches' none
tell 'the same, one reply in 1,000 late' late-1000 --all
tell 'the same, one reply in 100 late' late-100 --all

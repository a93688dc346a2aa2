#!/usr/bin/env bash
# Runs the built program on what docs/REASONS.md says of the bench: which mishap is told by which reason.
# The last line is 'N passed, M failed'.
set -u
cd "$(dirname "$0")/../.." || exit 1
. tests/lib/judge.sh
. tests/lib/program.sh
. tests/lib/blocks.sh

show() {
    echo "$got"
}

while IFS='|' read -r name want records; do
    got=$(records "$records" | "$program" check 2>&1)
    judge "$name" [ "$got" = "$want" ]
done <<'END'
both wires swapped|no at record 1: P1 reply without a command|D 20 01 21 C 10 01 11
a capture that begins with a reply|no at record 1: P1 reply without a command|D 10 01 11 C 20 01 21
a second reply|no at record 7: P1 reply without a command|C 20 01 21 D 10 01 11 10 01 11
a reply with a byte too many|no at record 7: P1 reply without a command|C 20 01 21 D 10 01 11 00
a command that lost a byte|no at record 3: P2 reply before the end of the command|C 20 21 D 10 01 11
a command that counts a byte too many|no at record 4: P2 reply before the end of the command|C 21 01 22 D 10 01 11
two commands in a row|no at record 4: P3 command before the reply|C 20 01 21 20 00 20
a command with a byte too many|no at record 4: P3 command before the reply|C 20 01 21 00 D 10 01 11
the deck's wire not tapped, an impatient controller|no at record 4: P3 command before the reply|C 20 01 21 +5400 20 01 21
the deck's wire not tapped, a patient controller|no at record 4: L2 no reply|C 20 01 21 +33400 20 01 21
a reply that lost a byte|no at record 6: P4 command inside a reply|C 20 01 21 D 10 11 +33400 C 20 01 21
a reply that counts a byte too many|no at record 7: P4 command inside a reply|C 20 01 21 D 11 01 12 +33400 C 20 01 21
a reply ten milliseconds late|no at record 4: L1 late reply|C 20 01 21 +10400 D 10 01 11
a command in two parts|no at record 3: B3 gap inside a block|C 20 01 +16400 21 D 10 01 11
a reply in two parts|no at record 5: B3 gap inside a block|C 20 01 21 D 10 +16400 01 11
a deck's wire that echoes the command|no at record 4: B1 wrong group for this wire|C 20 01 21 D 20 01 21
a capture that begins inside a command, with a deck's group|no at record 1: B1 wrong group for this wire|C 10 14 25
a wrong sum from the controller|no at record 3: B2 wrong sum|C 20 01 22 D 11 12 04 27
a wrong sum from the deck|no at record 6: B2 wrong sum|C 20 01 21 D 10 01 12
a sum over the data alone|no at record 7: B2 wrong sum|C 44 14 00 00 00 10 10
the reply to another command|no at record 7: P5 wrong kind of reply|C 61 0C 01 6E D 10 01 11
a time of another selector|yes: records 11, exchanges 1, open 0|C 61 0C 01 6E D 74 06 24 00 00 00 9E
more status bytes than were asked for|no at record 9: P5 wrong kind of reply|C 61 20 01 82 D 72 20 00 00 92
a preset at 30 frames a second|no at record 7: P6 invalid time in a command|C 44 14 29 00 00 10 91
a preset in binary digits|no at record 7: P6 invalid time in a command|C 44 14 0A 00 00 10 72
a preset with the hours first|no at record 7: P6 invalid time in a command|C 44 14 10 59 59 24 3E
a time code at 30 frames a second|no at record 11: P7 invalid time in a reply|C 61 0C 01 6E D 74 04 29 00 00 00 A1
END

tell_counts

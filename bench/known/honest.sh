#!/bin/sh
# Draws 2,000 sessions of a deck that keeps the rules, on a line with faults: replies that come late, that are missing, or that come
# twice, echoes of the controller's bytes on the deck's wire, and a tap that loses bytes. Tells in how many of them `check --all`
# says that no run of the deck remains (M1), and how many late replies it names. Where BEFORE is another program, it is asked too.
set -eu
here=$(cd "$(dirname "$0")" && pwd)
program=${NINECHECK:-$here/../../crates/ninecheck/out/ninecheck}
work=$(mktemp -d)
trap 'rm -rf "$work"' EXIT
PYTHONPATH="$here/../lib" python3 - "$work" << 'PYTHON'
import random, sys
from blocks import ACK, block, time_bytes
work = sys.argv[1]

# A deck in REMOTE: what it shows follows what it was told, and its registers hold what they were set to.
class Deck:
    def __init__(self, draw):
        self.draw = draw
        self.mode = 0x20
        self.points = [None, None]

    def answer(self, command):
        head, code, data = command[0] // 16, command[1], command[2:-1]
        if head == 2:
            self.mode = {0x00: 0x20, 0x01: 0x01, 0x02: 0x02, 0x20: 0x08}[code]
            return ACK
        if head == 4 and code in (0x14, 0x15):
            self.points[code - 0x14] = data
            return ACK
        if head == 4:
            self.points[code - 0x20] = None
            return ACK
        if code == 0x20:
            held = sum(bit for bit, point in zip((1, 2), self.points) if point)
            return block(7, 0x20, *[0x00, self.mode, 0x00, held][:data[0] % 16])
        return block(7, code, *(self.points[code - 0x10] or time_bytes(self.draw.randrange(2160000))))

def commands(draw):
    while True:
        turn = draw.randrange(20)
        if turn < 9: yield block(6, 0x20, draw.choice((0x02, 0x04)))
        elif turn < 12: yield block(6, 0x10 + draw.randrange(2))
        elif turn < 15: yield block(4, 0x14 + draw.randrange(2), *time_bytes(draw.randrange(2160000)))
        elif turn < 16: yield block(4, 0x20 + draw.randrange(2))
        else: yield block(2, draw.choice((0x00, 0x01, 0x20)))

# The rows of a session: wires and bytes with their times. Each fault has its chance at each exchange.
def session(draw):
    faults = {name: draw.choice((0, 0.001, 0.003, 0.02)) for name in ('late', 'missing', 'lost', 'twice', 'echo', 'tap')}
    deck, at = Deck(draw), 0
    happens = lambda name: draw.random() < faults[name]
    for _, command in zip(range(300), commands(draw)):
        rows = []
        def send(wire, bytes, after):
            nonlocal at
            at += after
            for byte in bytes:
                at += 290
                rows.append((at, wire, byte))
        send('C', command, 2000)
        if happens('echo'): rows += [(time + 20, 'D', byte) for time, _, byte in rows]
        if happens('missing'):
            at += 40000                       # the deck did not get the command
        else:
            reply = deck.answer(command)
            if happens('lost'):
                at += 40000                   # the deck did it, and its reply was lost
            else:
                send('D', reply, draw.choice((9500, 12000, 30000)) if happens('late') else 600)
                if happens('twice'): send('D', reply, 600)
        for row in sorted(rows, key=lambda row: row[0]):
            if not (happens('tap') and draw.random() < 0.3): yield row

for number in range(2000):
    with open(f'{work}/{number}.csv', 'w') as capture:
        capture.write('time_us,wire,byte\n')
        for time, wire, byte in session(random.Random(number)):
            capture.write(f'{time},{wire},{byte:02X}\n')
PYTHON

# tell WHAT PROGRAM: how many sessions have an M1, and how many late replies and other breaks there are.
tell() {
    for capture in "$work"/*.csv; do
        "$2" check --all "$capture" | awk -v name="$capture" '/: M1 /{ runs = 1 } /: L1 /{ late++ } /^no /{ breaks++ } END { print name, runs + 0, late + 0, breaks + 0 }'
    done > "$work/told"
    awk -v what="$1" '{ sessions++; runs += $2; late += $3; breaks += $4 }
        END { printf "%s: %d sessions, %d breaks, %d of them late replies; M1 in %d sessions\n", what, sessions, breaks, late, runs }' "$work/told"
}
tell 'the program' "$program"
[ -z "${BEFORE-}" ] || tell 'the program before' "$BEFORE"

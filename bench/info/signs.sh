#!/usr/bin/env bash
# Draws sessions and counts the signs that `info` lists of them: no clean one may have one, nor one with a wrong preset, and each fault
# has its own. The words are how many clean sessions, how many of each fault, and a seed; 3000, 100 and `told` where they are left out.
# Thresholds were chosen on the seeds `one` and `two`. It ends with status 1 where a clean session has a sign or a fault lacks its own.
# Not part of the gate. The program is the one that the gate or `make` built.
set -u
cleans=${1:-3000} faults=${2:-100} seed=${3:-told}
here=$(cd "$(dirname "$0")" && pwd)
program=${NINECHECK:-$here/../../crates/ninecheck/out/ninecheck}
[ -x "$program" ] || { echo "build the program first: make"; exit 1; }

work=$(mktemp -d)
trap 'rm -rf "$work"' EXIT
python3 -B "$here/drawn.py" "$work" "$seed" "$cleans" "$faults"
python3 - "$program" "$work" <<'PY'
import collections, glob, os, re, subprocess, sys
program, work = sys.argv[1:]
OWN = {'swapped': 'the wires are swapped', 'begins': 'begins inside traffic', 'collects': 'the tap collects bytes', 'coarse': 'coarse times',
       'clocks': 'two clocks', 'crossed': 'two clocks', 'doubled': 'a byte written twice', 'short': 'a block sent short', 'echo': 'an echo',
       'hole': 'a hole in both wires', 'losses': 'lost bytes', 'rate': 'rate', 'silence': 'silence', 'lost': 'lost bytes', 'behind': 'replies one command behind'}
drawn, own = collections.Counter(), collections.Counter()
others = collections.defaultdict(collections.Counter)
is_wrong = False
for path in sorted(glob.glob(f'{work}/*.csv')):
    name = os.path.basename(path)
    kind = name.split('-')[0]
    rate = open(path + '.args').read().split()[0]
    rates = [] if rate == '25' else ['--rate', rate]
    told = subprocess.run([program, 'info', *rates, path], capture_output=True, text=True)
    signs = set(re.findall('^look at: (.*?), at record', told.stdout, re.M))
    drawn[kind] += 1
    own[kind] += OWN.get(kind) in signs
    for sign in signs - {OWN.get(kind)}:
        others[kind][sign] += 1
    if told.returncode != 0 or (signs if kind in ('clean', 'preset') else OWN[kind] not in signs):
        is_wrong = True
        print(f'{name} at {rate}: status {told.returncode}, {sorted(signs)}')
for kind in drawn:
    besides = ', '.join(f'{sign} {count}' for sign, count in others[kind].items()) or 'none'
    print(f'{kind}: {drawn[kind]} sessions, {own[kind]} with their own sign; others: {besides}')
sys.exit(is_wrong)
PY

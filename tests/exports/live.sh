#!/usr/bin/env bash
# Runs the commands of docs/CAPTURE.md that show breaks while two serial ports are recorded, as they stand there, with the built
# program, two terminals in place of the ports, and a clock in place of `ts` that a busy machine does not stop. The last line is
# 'N passed, M failed'.
set -u
cd "$(dirname "$0")/../.." || exit 1
. tests/lib/tools.sh
need_tools python3
. tests/lib/judge.sh
. tests/lib/program.sh

ln -s "$PWD/ninecheck" "$work/ninecheck"
sed -n '/^## While it is recorded/,/^## /{/^    for port in /,/^$/s/^    //p}' docs/CAPTURE.md > "$work/live.sh"

# Bytes of one port come 400 microseconds after one another, and 100 milliseconds after one of the other port.
mkdir "$work/bin"
cat > "$work/bin/ts" <<'END'
#!/usr/bin/env python3
import sys
time_us, port = 0, ''
for line in sys.stdin:
    time_us += 400 if line[0] == port else 100000
    port = line[0]
    print(f'{time_us // 1000000}.{time_us % 1000000:06} {line}', end='', flush=True)
END
chmod +x "$work/bin/ts"

# record END: the controller sends PLAY. Once its bytes are in the log, and so have their times, the deck replies: too late, and
# with a wrong sum. Then one byte more comes. What stands on the screen is left in $work/replied a second after the reply's first
# break, and in $work/more once it has two lines. In the end the ports go, or where END is interrupt, the commands get what Ctrl-C
# sends, and $work/taken says whether a byte that comes afterwards is read all the same.
record() {
    rm -f "$work/serial.log"
    PYTHONPATH=tests/exports python3 -B - "$work" "$1" 2> "$work/err" <<'PY'
import os, select, shutil, signal, subprocess, sys, threading, time
from ports import close_ports, lines_of, must_wait_for, ports, send, wait_for, with_ports
work, end = sys.argv[1:]
screen = open(f'{work}/out', 'w')

def send_and_log(k, sent):
    before = lines_of(f'{work}/serial.log')
    send(k, sent)
    must_wait_for(lambda: lines_of(f'{work}/serial.log') == before + len(sent))

def wait_for_screen(lines):
    wait_for(lambda: lines_of(f'{work}/out') >= lines, 20)

def interrupt():
    os.killpg(live.pid, signal.SIGINT)
    live.wait()
    time.sleep(0.3)
    send(0, bytes([0x20]))
    time.sleep(0.3)
    is_there = select.select([ports[0][1]], [], [], 0)[0]
    open(f'{work}/taken', 'w').write('no' if is_there else 'yes')

# The log is kept as the page says. What a shell starts in the background ignores what Ctrl-C sends, as this script may.
kept = with_ports(open(f'{work}/live.sh').read()).replace('| ./ninecheck convert', '| tee serial.log | ./ninecheck convert')
commands = ['env', '--default-signal=INT', 'sh', '-c', kept]
path = {**os.environ, 'PATH': f'{work}/bin:{os.environ["PATH"]}'}
live = subprocess.Popen(commands, cwd=work, env=path, stdout=screen, start_new_session=True)
# Should it never end, it is ended, and the test fails.
stop = threading.Timer(120, os.killpg, (live.pid, signal.SIGKILL))
stop.daemon = True
stop.start()
send_and_log(0, bytes([0x20, 0x01, 0x21]))
time.sleep(0.1)
send_and_log(1, bytes([0x10, 0x01, 0x12]))
wait_for_screen(1)
time.sleep(1)
shutil.copy(f'{work}/out', f'{work}/replied')
send_and_log(0, bytes([0x20]))
wait_for_screen(2)
shutil.copy(f'{work}/out', f'{work}/more')
open(f'{work}/open', 'w').write('yes' if live.poll() is None else 'no')
if end == 'interrupt':
    interrupt()
close_ports()
sys.exit(live.wait())
PY
    status=$?
}

late='no at record 4: L1 late reply'
wrong='no at record 6: B2 wrong sum'

record close
judge 'the late reply, and not yet its last byte' [ "$(cat "$work/replied")" = "$late" ]
judge 'the wrong sum, once the byte after it has come' [ "$(cat "$work/more")" = "$late
$wrong" ]
judge 'the ports are still open then' [ "$(cat "$work/open")" = yes ]
judge 'the end, once the ports have gone' [ "$status" = 1 ]
judge 'what stands on the screen in the end' [ "$(cat "$work/out")" = "$late
$wrong
breaks 2: records 7, exchanges 0, passed over 6, open 1" ]

record interrupt
judge 'nothing reads a port after Ctrl-C' [ "$(cat "$work/taken")" = no ]

tell_counts

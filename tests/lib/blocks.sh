# To be sourced by a script of tests that makes captures of blocks.

# Records of whole exchanges: the acknowledgement of a command; PLAY, and the same with a second reply, which breaks P1; a status that
# the deck is in REMOTE, and one that it is in LOCAL; a preset of IN to 10:00:00:00; a deck in LOCAL whose IN is 10:00:00:00; a
# shift of IN by a frame.
ack='D 10 01 11'
play="C 20 01 21 $ack"
second_reply="$play $ack"
remote='C 61 20 01 82 D 71 20 00 91'
local='C 61 20 01 82 D 71 20 01 92'
preset="C 44 14 00 00 00 10 68 $ack"
local_at_10='C 61 20 04 85 D 74 20 01 20 00 01 B6 C 60 10 70 D 74 10 00 00 00 10 94'
shift="C 40 18 58 $ack"

# records RECORDS [TIMES]: writes a capture of these records, so often; tests/README.md tells their words.
records() {
    /usr/bin/python3 -I -S -B tests/lib/records.py "${2-1}" <<< "$1"
}

# capture_of RECORDS: makes $work/capture.csv of them.
capture_of() {
    records "$1" > "$work/capture.csv"
}

# repeated N RECORDS: these records so often, between others.
repeated() {
    local k
    for ((k = 0; k < $1; k++)); do echo "$2"; done
}

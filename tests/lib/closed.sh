# To be sourced by a script of tests that has something write into a pipe whose reader has gone. It works in the folder $work.

# into_closed COMMAND...: runs it on $work/in, once the reader of its output has closed its end, with the signal of a broken pipe as
# a system has it. Its status is left in $status, and what it said in $work/err.
into_closed() {
    rm -f "$work/closed"
    {
        until [ -e "$work/closed" ]; do sleep 0.01; done
        env --default-signal=PIPE "$@" < "$work/in" 2> "$work/err"
        echo $? > "$work/status"
    } | {
        exec <&-
        touch "$work/closed"
    }
    status=$(cat "$work/status")
    : > "$work/out"
}

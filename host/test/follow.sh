# Tests of `flux_frame dump --follow`, and of the progress that is told of a long file. host/test.sh reads this
# file behind host/test/capture.sh: its functions and captures are used here.

# Follows with these words, beside the test; leaves the process in pid, and the files out and err. What an
# earlier test left in out is gone before that: no line of it may pass for one of this process, which would
# then be sent SIGINT while it is still a copy of this shell, and would remove the room on its way out.
follow() { # WORDS...
    : >"$room/out"
    "$FLUX_FRAME" dump --follow "$@" >"$room/out" 2>"$room/err" &
    pid=$!
}

# The same on a pipe, which is open for writing as 7 and stays so.
mkfifo "$room/pipe"
follow_pipe() { # WORDS...
    exec 7<>"$room/pipe"
    : >"$room/out"
    "$FLUX_FRAME" dump --follow "$@" <"$room/pipe" >"$room/out" 2>"$room/err" 7>&- &
    pid=$!
}

# The words succeed by now, or soon.
soon() { # WORDS...
    local wait
    for ((wait = 0; wait < 200; wait++)); do
        if "$@"; then return 0; fi
        sleep 0.05
    done
    return 1
}

has_lines_now() { [ "$(wc -l <"$room/out")" -ge "$1" ]; } # LINES
has_come() { soon has_lines_now "$1"; }                   # LINES
has_stop() { tail -n 1 "$room/out" | grep -q '^stop  '; }

# The process is the program, and no more the shell that becomes it, and catches SIGINT: the second bit.
catches() {
    awk '$1 == "Name:" { name = $2 } $1 == "SigCgt:" { caught = $2 } END { exit !(name == "flux_frame" && caught ~ /[2367abef]$/) }' "/proc/$pid/status"
}

# It ends soon, after the signal if one is named; leaves its status.
gone() { ! kill -0 "$pid" 2>/dev/null; }
ends() { # [SIGNAL]
    [ $# -eq 0 ] || kill "-$1" "$pid"
    soon gone || kill -KILL "$pid"
    wait "$pid"
    status=$?
}

stop_line() { tail -n 1 "$room/out" | sed 's/^stop  *//'; }

# ---- a file that grows

head -c 50 "$room/four" >"$room/grows"
follow --summary "$room/grows"
has_come 1 && sleep 0.3 && [ "$(cat "$room/out")" = "$control_line" ]
report $? 'a frame is shown when it is whole, and no part of the next'
tail -c +51 "$room/four" | head -c 100 >>"$room/grows"
has_come 2 && sleep 0.3 && [ "$(tail -n 1 "$room/out")" = "$log_line" ]
report $? 'and the next when that is'
tail -c +151 "$room/four" >>"$room/grows"
has_come 4 && ends INT && [ "$status" -eq 0 ] && [ "$(cat "$room/out")" = "$(cat "$room/from-file")" ] && [ ! -s "$room/err" ]
report $? 'SIGINT ends it: all was shown as it is without --follow'
follow "$room/torn"
has_come 11 && ends INT && [ "$status" -eq 1 ] && [ "$(stop_line)" = "1 frame, 29 bytes; frame 1, from byte 29, $(torn 17)" ]
report $? 'a rest that is torn when SIGINT comes is told'
follow "$room/log"
has_come 11 && ends INT && [ "$status" -eq 0 ] && head -n 1 "$room/out" | grep -qx 'frame 0       35 bytes, from byte 0 of the capture' &&
    [ "$(stop_line)" = '1 frame, 35 bytes, and nothing behind it' ]
report $? 'a single frame has its number and place'
follow "$room/nothing"
soon catches && ends INT && [ "$status" -eq 1 ] && [ "$(cat "$room/out")" = 'stop          no frame: the capture is empty' ]
report $? 'no frame at all is no yes'
cp "$room/four" "$room/shrinks"
follow --summary "$room/shrinks"
has_come 4 && head -c 100 "$room/four" >"$room/cut" && cp "$room/cut" "$room/shrinks" && ends &&
    [ "$status" -eq 2 ] && grep -q 'shrinks got shorter while it was followed: 218 bytes were read, and it has' "$room/err"
report $? 'a file that gets shorter is told'
follow --json --type response "$room/four"
has_come 1 && ends INT && [ "$status" -eq 0 ] && [ "$(tail -n 1 "$room/out")" = '{"stop":"end","frames":4,"bytes":218,"refusal":null,"shown":1,"refused":0,"next":218}' ]
report $? '--follow with a selection, as JSON'

# What is not read when SIGINT comes is not torn. Here nobody takes what is shown, until it has come.
for _ in $(seq 67); do cat "$room/31"; done >"$room/long"
"$FLUX_FRAME" dump --follow "$room/long" 2>"$room/err" > >(soon [ -e "$room/take" ] && cat >"$room/out") &
pid=$!
soon catches && kill -INT "$pid" && : >"$room/take"
ends && soon has_stop && [ "$status" -eq 0 ] && stop_line | grep -qx '[0-9]* frames, [0-9]* bytes; interrupted: what is behind was not looked at'
report $? 'an interruption before the end'

# ---- a pipe that delivers

follow_pipe --summary
cat "$room/control" >&7
has_come 1
report $? 'a frame from a pipe is shown though the pipe stays open'
head -c 20 "$room/log" >&7
sleep 0.3
tail -c +21 "$room/log" >&7
has_come 2 && [ "$(cat "$room/out")" = "$control_line
$log_line" ]
report $? 'and one that comes in pieces'
exec 7>&-
ends && [ "$status" -eq 0 ] && [ "$(stop_line)" = '2 frames, 64 bytes, and nothing behind them' ]
report $? "the pipe's end ends it"

# The pipe stays open, and the dump of what is written to it ends by itself.
ends_open() { # LABEL STATUS STOP FILE WORDS...
    local label=$1 want=$2 stop=$3 file=$4
    shift 4
    follow_pipe "$@"
    cat "$file" >&7
    ends
    exec 7>&-
    [ "$status" -eq "$want" ] && [ "$(stop_line)" = "$stop" ]
    report $? "$label"
}

ends_open 'a refused frame ends it at once' 1 "1 frame, 29 bytes; frame 1, from byte 29, $(nine 60)" "$room/middle"
ends_open 'and so does what no frame begins with' 1 "1 frame, 35 bytes; frame 1, from byte 35, is refused, 1: $n1 ($(few 1); no frame begins with this)" "$room/newline"
ends_open '--frames ends it at once' 0 '1 of 2 frames shown, 64 bytes; no more was asked for: what is behind was not looked at' "$room/four" --frames 1-1
ends_open '--frame too' 0 "$event_line" "$room/four" --frame 3 --summary
follow_pipe --skip-refused --summary
cat "$room/passes" >&7
has_come 6
report $? 'a refused frame is passed where that was asked for'
ends INT
exec 7>&-
[ "$status" -eq 1 ] && [ "$(stop_line)" = '3 frames, 3 refused and passed, 192 bytes, and nothing behind them' ]
report $? 'SIGINT ends what waits for a pipe'
follow_pipe --frame 2 --frame-out "$room/cut"
cat "$room/four" >&7
ends
exec 7>&-
[ "$status" -eq 0 ] && [ ! -s "$room/out" ] && cmp -s "$room/cut" "$room/response"
report $? 'a frame is cut out as soon as it is there'
wrong 'a file and --follow' '--frame-out is for one frame, and --follow waits for more: name one by --frame' dump --follow --frame-out "$room/none" "$room/four"
timeout 20 "$FLUX_FRAME" dump --follow --summary "$room/four" 2>"$room/err" | head -n 1 >"$room/out"
status=${PIPESTATUS[0]}
[ "$status" -ne 124 ] && [ "$(cat "$room/out")" = "$control_line" ]
report $? 'it does not wait where nobody reads any more'

(sleep 1 && cat "$room/log") | timeout 20 "$FLUX_FRAME" dump --follow --summary >&- 2>"$room/err"
status=${PIPESTATUS[1]}
: >"$room/out"
[ "$status" -eq 2 ] && grep -q 'cannot write standard output' "$room/err"
report $? 'nor where standard output is closed'

# ---- progress

if command -v script >/dev/null; then
    script -qec "$FLUX_FRAME dump --summary $room/long >$room/shown" /dev/null </dev/null >"$room/out" 2>"$room/err"
    status=$?
    [ "$status" -eq 0 ] && tr '\r' '\n' <"$room/out" | grep -qxE ' *[0-9]+%, [0-9]+ of 68075752 bytes' &&
        [ "$(tail -c 1 "$room/out")" = $'\r' ] && tr '\r' '\n' <"$room/out" | tail -n 1 | grep -qxE ' {31,}'
    report $? 'a terminal is told how far a long file is read, and the line goes away'
    "$FLUX_FRAME" dump --summary "$room/long" | cmp -s - "$room/shown"
    report $? 'what is shown is the same'
    script -qec "$FLUX_FRAME dump --summary $room/thrice >/dev/null" /dev/null </dev/null >"$room/out" 2>"$room/err"
    status=$?
    [ "$status" -eq 0 ] && [ ! -s "$room/out" ]
    report $? 'of a shorter one it is not'
    script -qec "cat $room/long | $FLUX_FRAME dump --summary >/dev/null" /dev/null </dev/null >"$room/out" 2>"$room/err"
    status=$?
    [ "$status" -eq 0 ] && [ ! -s "$room/out" ]
    report $? 'nor of a pipe'
else
    echo 'host/test/follow.sh: NO script HERE: what a terminal is told of a long file is NOT TESTED'
fi
run dump --summary "$room/long"
[ "$status" -eq 0 ] && [ ! -s "$room/err" ]
report $? 'what is no terminal is told nothing of it'
rm "$room/long"

# Tests flux_floor audit: part of host/test.sh, which has set FLUX_FLOOR and has the helpers.
# Captures are taken at rank 2 of the example floor: what comes from ranks 5 and 6 has their routes on top.

five=00000005-0123-4567-89ab-cdef01234567
client=deadbeef-0123-4567-89ab-cdef01234567

# Each puts a frame behind the capture; `new` begins another one.
new() { : >"$room/capture"; }
frame() { "$FLUX_FRAME" write "$@" >>"$room/capture"; }
asks() { frame --type request --matchtag 9 --route $five "$@"; }
answers() { frame --type response --matchtag 9 --route $five "$@"; }

# The audit of the capture has this status, and its findings are these lines; so have --quiet and --json.
audits() { # LABEL STATUS FINDINGS [WORDS...]
    local label=$1 want=$2 findings=$3
    shift 3
    floor audit --quiet "$@" "$example" "$room/capture"
    [ "$status" -eq "$want" ] && [ ! -s "$room/out" ] && [ ! -s "$room/err" ]
    report $? "audit --quiet: $label"
    floor audit --json "$@" "$example" "$room/capture"
    [ "$status" -eq "$want" ] && [ ! -s "$room/err" ] &&
        tail -n 1 "$room/out" | grep -q "^{\"status\":$want,\"findings\":$(printf '%s' "$findings" | grep -c '^frame'),"
    report $? "audit --json: $label"
    floor audit "$@" "$example" "$room/capture"
    [ "$status" -eq "$want" ] && [ "$(grep '^frame [0-9]*, from' "$room/out")" = "$findings" ] && [ ! -s "$room/err" ]
    report $? "audit: $label"
}

# The table of the last audit has this line, by name and count.
counts() { # NAME COUNT
    grep -qxF -- "$(printf '%-32s%s' "$1" "$2")" "$room/out"
    report $? "audit counts: $1 $2"
}

# The last audit's verdict, which is the line in front of the counts.
verdict() { # TEXT
    [ "$(grep -B 1 '^frames  ' "$room/out" | head -n 1)" = "$1" ]
    report $? "audit says: $1"
}

# The object with this number, from 1, of the capture's findings.
audit_object() { # NUMBER OBJECT
    floor audit --json "$example" "$room/capture"
    [ "$(sed -n "$1p" "$room/out")" = "$2" ]
    report $? "audit --json says: $2"
}

# ---- what is due comes

new && asks --topic log.put && answers --topic log.put
audits 'a delivery and its reply' 0 ''
verdict 'no finding: each of 1 request got what was due'
counts '  delivered' 1
new && asks --topic log.put && answers --topic log.put --errnum 22
audits "an error of the service's own" 0 ''
new && asks --topic bench.run && answers --topic bench.run --errnum 38
audits 'error 38 is due, and comes' 0 ''
counts '  error 38 ENOSYS due' 1
new && asks --topic log --nodeid 7 && answers --topic log --errnum 113
audits 'error 113 is due, and comes' 0 ''
counts '  error 113 EHOSTUNREACH due' 1
new && asks --topic bench.run --noresponse
audits 'silence is due' 0 ''
counts '  silenced' 1
new && asks --topic log.put --noresponse
audits 'a delivery that wants no reply' 0 ''
new && asks --topic log --streaming && answers --topic log && answers --topic log && answers --topic log --errnum 61
audits 'a stream, up to its errnum' 0 ''
counts '  streams still open' 0
new && asks --topic log --streaming && answers --topic log
audits 'a stream that is still open' 0 ''
counts '  streams still open' 1
new && frame --type event --topic up && frame --type control
audits 'no request at all is no yes' 4 ''
verdict 'no request: nothing was judged'
counts events 1
counts 'control messages' 1
floor audit "$example" - <"$room/capture"
[ "$status" -eq 4 ] && grep -qxF 'no request: nothing was judged' "$room/out"
report $? 'audit reads standard input'

# Who asked is told by the routes on entry.
new && asks --topic log --route $client && asks --topic bench
answers --topic bench --errnum 38 && answers --topic log --route $client
audits 'two clients of one broker' 0 ''
new && asks --topic log --route $client && answers --topic log
audits "another client's reply" 4 'frame 1, from byte 111: response to nobody: no request has its topic, matchtag and routes; "log", matchtag 9
frame 0, from byte 0: never answered: the request is delivered, and no reply came; "log", matchtag 9'
new && asks --topic bench --nodeid 7 && asks --topic bench
answers --topic bench --errnum 113 && answers --topic bench --errnum 38
audits 'the oldest open request is answered first' 0 ''
# Captured at rank 0: two brokers stand on top, and the lower one is the entry.
new
for what in request response; do
    frame --type $what --topic bench.run --route 00000001-0123-4567-89ab-cdef01234567 --route 00000004-0123-4567-89ab-cdef01234567
done
audits 'the entry is the last broker of the run' 0 ''
# A client's route ends the run: the broker below it is not one that the request came by.
new && asks --topic bench.run --route $client --route 00000004-0123-4567-89ab-cdef01234567
answers --topic bench.run --route $client --route 00000004-0123-4567-89ab-cdef01234567 --errnum 38
audits 'a run is unbroken' 0 ''

# ---- the findings

new && asks --topic bench.run && answers --topic bench.run
audits 'the blank reply' 4 'frame 1, from byte 79: blank reply: error 38 ENOSYS was due, and the reply says errnum 0; "bench.run", matchtag 9; the request is frame 0, from byte 0'
verdict '1 finding'
counts findings 1
counts '  blank reply' 1
audit_object 1 '{"finding":"blank_reply","frame":1,"byte":79,"topic":"bench.run","matchtag":9,"due":38,"due_name":"ENOSYS","errnum":0,"errnum_name":null,"request_frame":0,"refusal":null,"fault_byte":null}'
audit_object 2 '{"status":4,"findings":1,"frames":2,"requests":1,"delivered":0,"error_38":1,"error_113":0,"silenced":0,"open_streams":0,"responses":1,"events":0,"controls":0,"by_kind":{"blank_reply":1,"wrong_error":0,"no_error_reply":0,"second_reply":0,"reply_to_noresponse":0,"never_answered":0,"response_to_nobody":0,"refused_frame":0,"refused_walk":0},"unregistered":[],"other_unregistered":0}'
new && asks --topic bench.run --streaming && answers --topic bench.run && answers --topic bench.run --errnum 38
audits 'a blank reply to a streaming request' 4 'frame 1, from byte 79: blank reply: error 38 ENOSYS was due, and the reply says errnum 0; "bench.run", matchtag 9; the request is frame 0, from byte 0'
new && asks --topic bench.run && answers --topic bench.run --errnum 113
audits 'the wrong error' 4 'frame 1, from byte 79: wrong error: error 38 ENOSYS was due, and the reply says errnum 113 EHOSTUNREACH; "bench.run", matchtag 9; the request is frame 0, from byte 0'
new && asks --topic bench.run
audits 'an error was due, and nobody replied' 4 'frame 0, from byte 0: no error reply: error 38 ENOSYS was due, and no reply came; "bench.run", matchtag 9'
audit_object 1 '{"finding":"no_error_reply","frame":0,"byte":0,"topic":"bench.run","matchtag":9,"due":38,"due_name":"ENOSYS","errnum":null,"errnum_name":null,"request_frame":0,"refusal":null,"fault_byte":null}'
new && asks --topic log && answers --topic log && answers --topic log
audits 'a second reply' 4 'frame 2, from byte 146: second reply: its request has a reply already; "log", matchtag 9; the request is frame 0, from byte 0'
for topic in log bench; do
    new && asks --topic $topic --noresponse && answers --topic $topic
    audits "a reply though noresponse was set, $topic" 4 "$(printf 'frame 1, from byte %d: reply to noresponse: its request has noresponse set; "%s", matchtag 9; the request is frame 0, from byte 0' $((70 + ${#topic})) $topic)"
done
new && asks --topic log --streaming
audits 'a delivery that was never answered' 4 'frame 0, from byte 0: never answered: the request is delivered, and no reply came; "log", matchtag 9'
new && answers --topic log
audits 'a response to nobody' 4 'frame 0, from byte 0: response to nobody: no request has its topic, matchtag and routes; "log", matchtag 9'
new && asks --topic log --streaming && answers --topic log --errnum 61 && answers --topic log
audits 'a response behind the end of a stream' 4 'frame 2, from byte 146: response to nobody: the stream of its request has ended; "log", matchtag 9; the request is frame 0, from byte 0'
new && asks --topic log && unhex "$start 00 00 00 01 01" >>"$room/capture" && answers --topic log
audits 'a refused frame is passed by' 4 "frame 1, from byte 73: refused frame: refused, 4: $n4 (at byte 8: the part has the size 1, and the body ends at byte 9)"
audit_object 1 '{"finding":"refused_frame","frame":1,"byte":73,"topic":null,"matchtag":null,"due":null,"due_name":null,"errnum":null,"errnum_name":null,"request_frame":null,"refusal":4,"fault_byte":8}'
new && asks --topic log && answers --topic log && printf hi >>"$room/capture"
audits 'bytes that are no frame' 4 "frame 2, from byte 146: refused frame: refused, 1: $n1 (2 of the 8 bytes that tell a frame's length are there; missing: 6; no frame begins with these)"
new && asks --topic log && answers --topic log && unhex "${control% 03}" >>"$room/capture"
audits 'a torn frame' 4 "frame 2, from byte 146: refused frame: refused, 1: $n1 (28 of 29 bytes are there; missing: 1)"
new && asks --topic log "${routes[@]:0:126}"
audits 'a request whose walk is refused' 4 "frame 0, from byte 0: refused walk: refused, 12: forwarding would make 65 routes or a body above 32,768; \"log\", matchtag 9"
counts requests 1
counts '  delivered' 0

# ---- services that nobody registers

new
for topic in kvs.get bench.run kvs.put $'k\x1Bx'; do
    asks --topic "$topic" && answers --topic "$topic" --errnum 38
done
audits 'services that nobody registers' 0 ''
[ "$(grep -A 9 '^services' "$room/out")" = 'services that nobody registers, and requests for each
  "kvs" 2
  "k\x1Bx" 1' ]
report $? 'audit lists them, and bench, which ranks 1 and 4 have, is none of them'
audit_object 1 '{"status":0,"findings":0,"frames":8,"requests":4,"delivered":0,"error_38":4,"error_113":0,"silenced":0,"open_streams":0,"responses":4,"events":0,"controls":0,"by_kind":{"blank_reply":0,"wrong_error":0,"no_error_reply":0,"second_reply":0,"reply_to_noresponse":0,"never_answered":0,"response_to_nobody":0,"refused_frame":0,"refused_walk":0},"unregistered":[{"service":"kvs","requests":2},{"service":"k\\x1Bx","requests":1}],"other_unregistered":0}'

# ---- where a request entered

new && frame --type request --topic log --route $client && frame --type response --topic log --route $client
for words in '' --quiet --json; do
    # shellcheck disable=SC2086
    floor_wrong "audit: nothing tells the entry $words" "frame 0, from byte 0, is a request with no broker's route on top, so nothing tells where it entered: give --enter RANK" \
        audit $words "$example" "$room/capture"
done
audits 'the entry is given' 0 '' --enter 5
new && frame --type request --topic bench && frame --type response --topic bench
audits 'a service of the entry' 0 '' --enter 4
audits 'a service that the entry cannot reach' 4 'frame 1, from byte 37: blank reply: error 38 ENOSYS was due, and the reply says errnum 0; "bench", matchtag 0; the request is frame 0, from byte 0' --enter=5
new && asks --topic bench && answers --topic bench --errnum 38
audits 'the routes decide before --enter' 0 '' --enter 4

# ---- many frames

"${CC:-gcc}" -std=c99 -O2 -Wall -Wextra -Wconversion -pedantic -Werror -Iinclude -o "$room/many" host/test/many.c \
    "$ARCHIVE" >"$room/out" 2>"$room/err"
status=$?
report "$status" 'host/test/many.c compiles'
"$room/many" pairs 50000 >"$room/capture"
audits '100,000 frames without a finding' 0 ''
counts frames 100000
counts requests 50000
counts findings 0
"$room/many" late 65535 >"$room/capture"
audits 'the last 65,536 that were answered are known' 4 'frame 131072, from byte 10179924: second reply: its request has a reply already; "log.put", matchtag 0; the request is frame 0, from byte 0'
"$room/many" late 65536 >"$room/capture"
audits 'one more is forgotten' 4 'frame 131074, from byte 10180082: response to nobody: no request has its topic, matchtag and routes; "log.put", matchtag 0'
# What waits for no reply does not pile up: 400,000 of them in 64 MiB.
(ulimit -v 65536 && "$room/many" open 400000 | "$FLUX_FLOOR" audit "$example" -) >"$room/out" 2>"$room/err"
status=$?
report "$status" 'audit: memory is bounded'
counts requests 400000

# A terminal is told how far a capture above 64 MiB is read.
if command -v script >/dev/null; then
    "$room/many" pairs 450000 >"$room/capture"
    script -qec "$FLUX_FLOOR audit $example $room/capture >$room/counted" /dev/null </dev/null >"$room/out" 2>"$room/err"
    status=$?
    [ "$status" -eq 0 ] && tr '\r' '\n' <"$room/out" | grep -qxE " *[0-9]+%, [0-9]+ of $(wc -c <"$room/capture") bytes" &&
        [ "$(tail -c 1 "$room/out")" = $'\r' ] && grep -qx 'frames  *900000' "$room/counted"
    report $? 'audit: a terminal is told how far a long capture is read, and the line goes away'
else
    echo 'host/test/audit.sh: NO script HERE: what a terminal is told of a long capture is NOT TESTED'
fi

# ---- usage

new
audits 'an empty capture is refused' 1 ''
verdict 'no frame: the capture is empty, and nothing was judged'
floor_wrong 'audit without a capture' 'audit needs the file of a floor and that of a capture' audit "$example"
floor_wrong 'audit with a word too many' "audit takes a floor and a capture, and 'c' is one more" audit a b c
floor_wrong 'audit of standard input twice' 'only one file can be standard input' audit - -
floor_wrong 'audit, an entry in words' "--enter takes a rank, a number, not 'five'" audit --enter five "$example" "$room/log"
floor_wrong 'audit, an entry that is not there' "--enter takes a rank of the floor, and $example has no rank 7" audit --enter 7 "$example" "$room/log"
floor_wrong 'audit, --json and --quiet' '--json and --quiet are two forms of the result: give one' audit --json --quiet "$example" "$room/log"
floor_wrong 'audit, an unknown option' "unknown option '--tree' of audit" audit --tree "$example" "$room/log"
floor_wrong 'audit, a capture that is not there' "cannot read $room/missing" audit "$example" "$room/missing"
sed 's/ 0 / 9 /' "$example" >"$room/floor"
floor audit "$room/floor" "$room/log"
[ "$status" -eq 1 ] && [ ! -s "$room/out" ] && grep -qF "$room/floor:8: refused, 14: " "$room/err"
report $? 'audit: a floor that is not valid'
floor audit --quiet "$room/floor" "$room/log"
[ "$status" -eq 1 ] && [ ! -s "$room/out" ] && [ ! -s "$room/err" ]
report $? 'audit --quiet: a floor that is not valid'
floor audit --json "$room/floor" "$room/log"
[ "$status" -eq 1 ] && [ ! -s "$room/err" ] && [ "$(wc -l <"$room/out")" -eq 1 ] &&
    grep -q '^{"command":"audit","status":1,.*"valid":false,' "$room/out"
report $? 'audit --json: a floor that is not valid'
helps floor 'flux_floor audit' audit
"$FLUX_FLOOR" audit --enter 5 "$example" "$room/log" >/dev/full 2>"$room/err"
status=$?
: >"$room/out"
[ "$status" -eq 2 ] && grep -q 'cannot write standard output' "$room/err"
report $? 'audit: a full disk'

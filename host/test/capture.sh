# Tests of `flux_frame dump` on captures, which hold several frames one behind another. host/test.sh reads
# this file: its functions and words and those of host/test/dump.sh are used here.

unhex "$control" >"$room/control"
unhex "$event" >"$room/event"

# The last line of a dump with these words is the stop with this text.
stops() { # LABEL STATUS TEXT WORDS...
    part='tail -n 1' shows "$1" "$2" "stop          $3" "${@:4}"
}

# How many of the bytes are there, and missing, that tell a frame's length.
few() { # BYTES
    echo "$1 of the 8 bytes that tell a frame's length $([ "$1" -eq 1 ] && echo is || echo are) there; missing: $((8 - $1))"
}

# What is told of a tail of so many bytes of the request for "log".
torn() { # BYTES
    if [ "$1" -lt 8 ]; then
        echo "is torn: $(few "$1")"
    else
        echo "is torn: $1 of 35 bytes are there; missing: $((35 - $1))"
    fi
}

# What is told of the frame in the file nine, behind which a frame would begin at this byte.
nine() { # BYTE
    echo "is refused, 9: $n9 (at byte 9: the topic does not end with a zero byte); by its front the next one would begin at byte $1"
}
junk="is refused, 2: $n2 (77 68 61 74 in place of FF EE 00 12)"

# ---- several frames

cat "$room/control" "$room/log" "$room/response" "$room/event" >"$room/four"
control_line='frame 0          29 bytes, from byte 0         control   control type 2, status 3'
log_line='frame 1          35 bytes, from byte 29        request   "log", nodeid any, matchtag 1, no payload'
response_line='frame 2         119 bytes, from byte 64        response  "kvs.\"get", errnum 38 ENOSYS, matchtag 7, payload 2 bytes, not JSON, 2 routes, noresponse, upstream, private, streaming'
event_line='frame 3          35 bytes, from byte 183       event     "up\xFF", sequence 5, payload 0 bytes, not JSON'
two_frames="frame 0       29 bytes, from byte 0 of the capture
$control_shown

frame 1       35 bytes, from byte 29 of the capture
$log_shown
"
head -c 64 "$room/four" >"$room/two"
shows 'two frames, and nothing behind them' 0 "$two_frames
stop          2 frames, 64 bytes, and nothing behind them" "$room/two"
shows 'a summary of four frames' 0 "$control_line
$log_line
$response_line
$event_line
stop          4 frames, 218 bytes, and nothing behind them" --summary "$room/four"
run dump --summary "$room/four"
cp "$room/out" "$room/from-file"
for words in '' -; do
    # shellcheck disable=SC2086 # the words are words
    run dump --summary $words < <(cat "$room/four")
    [ "$status" -eq 0 ] && cmp -s "$room/out" "$room/from-file"
    report $? "the same from standard input, given as '$words'"
done
unhex "${log/FF FF FF FF 00 00 00 01/00 00 00 04 00 00 00 01}" >"$room/rank4"
has_lines 'a request to a rank, and an error without a name' 0 --summary <(cat "$room/rank4" "$room/nameless") -- \
    'frame 0          35 bytes, from byte 0         request   "log", nodeid 4, matchtag 1, no payload' \
    'frame 1          33 bytes, from byte 35        response  "x", errnum 4000, matchtag 0, no payload'
run write --type response --topic x --errnum 4294967295 --route $one -o "$room/any"
shows 'one route, and an error that is not called any' 0 \
    'frame 0          71 bytes, from byte 0         response  "x", errnum 4294967295, matchtag 0, no payload, 1 route' --summary --frame 0 "$room/any"
has_lines 'nor as text' 0 "$room/any" -- 'errnum        4294967295' 'routes        1'
cat "$room/thirty" "$room/thirty" >"$room/sixty"
run dump --all "$room/sixty"
[ "$status" -eq 0 ] && [ "$(grep -c '^  0040  ' "$room/out")" -eq 2 ] && ! grep -q 'more' "$room/out"
report $? '--all of several frames'

# ---- a single frame, and none

stops 'a summary of one frame' 0 '1 frame, 35 bytes, and nothing behind it' --summary "$room/log"
shows 'a single frame is shown without its place' 0 "$(printf '%s\n' "$two_frames" | sed -n '/^frame 1/,$p' |
    sed 's/^frame 1 .*/frame         35 bytes/')" "$room/log"
: >"$room/nothing"
shows 'an empty file' 1 "input         0 bytes
refused       1: $n1
because       0 of the 8 bytes that tell a frame's length are there; missing: 8
bytes         none" "$room/nothing"
shows 'a summary of an empty file' 1 'stop          no frame: the capture is empty' --summary "$room/nothing"
shows 'the JSON of an empty file' 1 '{"accepted":false,"input":0,"refusal":1,"refusal_name":"LAMPREYCOIL_INPUT_SHORT","words":"'"$n1"'","because":"0 of the 8 bytes that tell a frame'"'"'s length are there; missing: 8","fault_byte":null,"front":"","needed":8}' --json "$room/nothing"
stops 'a summary of a refused frame' 1 "0 frames, 0 bytes; frame 0, from byte 0, $(nine 31)" --summary "$room/nine"

# ---- a torn tail

good=0
for ((cut = 1; cut < 35; cut++)); do
    { cat "$room/control" && head -c "$cut" "$room/log"; } >"$room/in"
    for words in '' --summary; do
        # shellcheck disable=SC2086 # the words are words
        run dump $words "$room/in"
        [ "$status" -eq 1 ] && [ ! -s "$room/err" ] &&
            [ "$(tail -n 1 "$room/out")" = "stop          1 frame, 29 bytes; frame 1, from byte 29, $(torn "$cut")" ] || good=1
    done
done
report "$good" 'a tail torn at each of its bytes'
head -c 46 "$room/two" >"$room/torn"
shows 'a torn tail is told and shown' 1 "$(printf '%s\n' "$two_frames" | sed '/^frame 1/,$d')

frame 1       from byte 29 of the capture
input         17 bytes from there on
refused       1: $n1
because       17 of 35 bytes are there; missing: 18
body          27 bytes, from byte 8
parts         2 can be split
  0           0 bytes, from byte 9
  1           4 bytes, from byte 10: \"log\\x00\"
              no more from byte 14 on

stop          1 frame, 29 bytes; frame 1, from byte 29, $(torn 17)" "$room/torn"
head -c 32 "$room/two" >"$room/front"
has_lines 'a torn front' 1 "$room/front" -- 'input         3 bytes from there on' 'bytes         FF EE 00'
{ cat "$room/log" && echo; } >"$room/newline"
stops 'a newline behind a frame' 1 "1 frame, 35 bytes; frame 1, from byte 35, is refused, 1: $n1 ($(few 1); no frame begins with this)" "$room/newline"

good=0
for bytes in FE 'FF EF' 'FF EE 01' 'FF EE 00 13' 'FF EE 00 13 00' 'FF EE 00 13 00 00' 'FF EE 00 13 00 00 00'; do
    { cat "$room/log" && unhex "$bytes"; } >"$room/in"
    for words in '' --summary; do
        # shellcheck disable=SC2086 # the words are words
        run dump $words "$room/in"
        [ "$status" -eq 1 ] && tail -n 1 "$room/out" | grep -qF "from byte 35, is refused, 1: $n1 (" && ! grep -q torn "$room/out" || good=1
    done
    run dump --json "$room/in"
    [ "$status" -eq 1 ] && [ "$(tail -n 1 "$room/out")" = '{"stop":"refused","frames":1,"bytes":35,"refusal":1,"shown":1,"refused":1,"next":null}' ] || good=1
done
report "$good" 'a tail of fewer than 8 bytes that no frame begins with is refused'
dump_tells 'such a tail alone, of two bytes' 'FF EF' "because       $(few 2); no frame begins with these"

{ cat "$room/log" "$room/control" && head -c 12 "$room/log"; } >"$room/capture"
shows 'the summary in docs/C-GUIDE.md' 1 "$(sed -n '/^\$ .* dump --summary capture$/,/^\$ .*flux_floor/p' docs/C-GUIDE.md | grep -v '^\$')" --summary "$room/capture"

# ---- a frame that is refused

{ cat "$room/two" && printf 'what is no frame'; } >"$room/junk"
stops 'junk behind frames' 1 "2 frames, 64 bytes; frame 2, from byte 64, $junk" "$room/junk"
has_lines 'and which' 1 "$room/junk" -- 'frame 2       from byte 64 of the capture' 'input         16 bytes from there on' \
    'because       77 68 61 74 in place of FF EE 00 12'
cat "$room/control" "$room/nine" "$room/log" >"$room/middle"
stops 'a refused frame among others' 1 "1 frame, 29 bytes; frame 1, from byte 29, $(nine 60)" --summary "$room/middle"
has_lines 'its own places count from its front' 1 "$room/middle" -- 'frame 1       from byte 29 of the capture' \
    'input         66 bytes from there on' 'because       the topic does not end with a zero byte' 'at byte       9, which is 1B' '  1 header    20 bytes, from byte 11'
! grep -q '^matchtag' "$room/out"
report $? 'nothing behind it is shown'
{ cat "$room/control" && unhex "$start 00 00 80 01"; } >"$room/in"
stops 'a body too long tells no next frame' 1 "1 frame, 29 bytes; frame 1, from byte 29, is refused, 3: $n3 (the body length is 32769)" "$room/in"
{ cat "$room/control" && unhex "$start 00 00 00 01 01 00 00"; } >"$room/in"
stops 'a part past the body is the first that does' 1 "1 frame, 29 bytes; frame 1, from byte 29, is refused, 4: $n4 (at byte 8: the part has the size 1, and the body ends at byte 9); by its front the next one would begin at byte 38" "$room/in"
{ cat "$room/control" && unhex "${log/FF FF FF FF 00 00 00 01/FF FF FF FE 00 00 00 01}"; } >"$room/in"
stops 'a field is the last' 1 "1 frame, 29 bytes; frame 1, from byte 29, is refused, 10: $n10 (at byte 27: the request's nodeid is 4294967294); by its front the next one would begin at byte 64" "$room/in"

# ---- one of several

shows '--frame 0' 0 "$(printf '%s\n' "$two_frames" | sed '/^$/,$d')" --frame 0 "$room/two"
shows '--frame 1' 0 "$(printf '%s\n' "$two_frames" | sed -n '/^frame 1/,$p')" --frame=1 "$room/two"
shows '--frame and --summary' 0 "$response_line" --summary --frame 2 "$room/four"
has_lines '--frame 0 of a single frame' 0 --frame 0 "$room/log" -- 'frame 0       35 bytes, from byte 0 of the capture'
has_lines '--frame in front of a torn tail' 0 --frame 0 "$room/torn" -- 'status        3'
has_lines '--frame of the torn tail' 1 --frame 1 "$room/torn" -- 'frame 1       from byte 29 of the capture' 'because       17 of 35 bytes are there; missing: 18'
stops '--frame of the torn tail, as a summary' 1 "1 frame, 29 bytes; frame 1, from byte 29, $(torn 17)" --frame 1 --summary "$room/torn"
has_lines '--frame of a refused frame' 1 --frame 1 "$room/middle" -- "refused       9: $n9"
wrong 'a frame behind the last' 'no frame 4 (the first is frame 0): 4 frames, 218 bytes, and nothing behind them' dump --frame 4 "$room/four"
wrong 'a frame behind a refused one' "no frame 2 (the first is frame 0): 1 frame, 29 bytes; frame 1, from byte 29, $(nine 60)" dump --frame 2 "$room/middle"
wrong 'a frame behind a torn one' "$(torn 17)" dump --frame 4294967295 "$room/torn"
wrong 'a frame of an empty file' 'there is no frame 0: the capture is empty' dump --frame 0 "$room/nothing"
wrong 'a frame that is no number' "not 'last'" dump --frame last "$room/four"
wrong 'a frame above 4 bytes' "at most 4294967295, not '4294967296'" dump --frame 4294967296 "$room/four"
shows '--frame in hexadecimal' 0 "$response_line" --summary --frame 0x2 "$room/four"
wrong 'a frame below the first' "not '-1'" dump --frame -1 "$room/four"
wrong '--frame twice' '--frame is given twice' dump --frame 1 --frame 1 "$room/four"
wrong '--summary and --json' '--json is an object a frame, and --summary a line: give one of them' dump --summary --json "$room/four"
wrong '--summary and --all' '--summary shows no payload: leave out --all' dump --summary --all "$room/four"

# ---- JSON

# The object of a single frame, as the frame with this number has it.
placed_json() { # NUMBER START FILE
    "$FLUX_FRAME" dump --json "$3" | sed "s/\"input\":\([0-9]*\),\"frame\":[0-9]*,\"behind\":0/\"number\":$1,\"start\":$2,\"frame\":\1/"
}

four_json="$(placed_json 0 0 "$room/control")
$(placed_json 1 29 "$room/log")
$(placed_json 2 64 "$room/response")
$(placed_json 3 183 "$room/event")"
shows 'the JSON of four frames, each with its place' 0 "$four_json
"'{"stop":"end","frames":4,"bytes":218,"refusal":null,"shown":4,"refused":0,"next":218}' --json "$room/four"
case $four_json in
'{"accepted":true,"number":0,"start":0,"frame":29,"type":8,'*) report 0 'and how the first begins' ;;
*) report 1 'and how the first begins' ;;
esac
shows 'the JSON of a frame that is named' 0 "$(placed_json 2 64 "$room/response")" --json --frame 2 "$room/four"
shows 'the JSON of a torn tail' 1 "$(placed_json 0 0 "$room/control")
"'{"accepted":false,"number":1,"start":29,"input":3,"refusal":1,"refusal_name":"LAMPREYCOIL_INPUT_SHORT","words":"'"$n1"'","because":"3 of the 8 bytes that tell a frame'"'"'s length are there; missing: 5","fault_byte":null,"front":"FFEE00","needed":8}
{"stop":"torn","frames":1,"bytes":29,"refusal":1,"shown":1,"refused":0,"next":null}' --json "$room/front"
shows 'the JSON of a named frame that is torn' 1 '{"accepted":false,"number":1,"start":29,"input":3,"refusal":1,"refusal_name":"LAMPREYCOIL_INPUT_SHORT","words":"'"$n1"'","because":"3 of the 8 bytes that tell a frame'"'"'s length are there; missing: 5","fault_byte":null,"front":"FFEE00","needed":8}' --json --frame 1 "$room/front"
shows 'the JSON of junk behind frames' 1 "$(printf '%s\n' "$four_json" | head -n 2)
"'{"accepted":false,"number":2,"start":64,"input":16,"refusal":2,"refusal_name":"LAMPREYCOIL_START_WRONG","words":"'"$n2"'","because":"77 68 61 74 in place of FF EE 00 12","fault_byte":null,"front":"7768617420697320"}
{"stop":"refused","frames":2,"bytes":64,"refusal":2,"shown":2,"refused":1,"next":null}' --json "$room/junk"

good=0
for words in log four nine front junk; do
    "$FLUX_FRAME" dump --json "$room/$words"
done >"$room/out"
for words in $(grep -o '"[a-z_]*":' "$room/out" | tr -d '":' | sort -u) more; do
    case $words in
    role | length | hex | text) ;; # these stand with what they are of
    *) grep -qx "\.I $words" man/flux_frame.1 || good=1 ;;
    esac
done
report "$good" 'each field is in the page of flux_frame'

# ---- more frames than one list has room for: 1,024

for _ in $(seq 32); do cat "$room/control"; done >"$room/32"
for _ in $(seq 32); do cat "$room/32"; done >"$room/1024"
stops '1,024 frames' 0 '1024 frames, 29696 bytes, and nothing behind them' --summary "$room/1024"
cat "$room/1024" "$room/log" >"$room/1025"
stops '1,025 frames' 0 '1025 frames, 29731 bytes, and nothing behind them' --summary "$room/1025"
has_lines 'the one behind a full list' 0 --frame 1024 "$room/1025" -- 'frame 1024    35 bytes, from byte 29696 of the capture' 'matchtag      1'
cat "$room/1024" "$room/1024" "$room/1025" >"$room/3073"
run dump --summary "$room/3073"
[ "$status" -eq 0 ] && sed -n 's/^frame \([0-9]*\) .*/\1/p' "$room/out" | cmp -s - <(seq 0 3072) &&
    sed -n 's/.*from byte \([0-9]*\) .*control  .*/\1/p' "$room/out" | cmp -s - <(seq 0 29 89087)
report $? 'each of 3,073 frames has its number and place'
{ cat "$room/1024" && head -c 34 "$room/log"; } >"$room/in"
stops 'a torn frame behind a full list' 1 "1024 frames, 29696 bytes; frame 1024, from byte 29696, $(torn 34)" --summary "$room/in"
cat "$room/1024" "$room/nine" >"$room/in"
stops 'a refused frame behind a full list' 1 "1024 frames, 29696 bytes; frame 1024, from byte 29696, $(nine 29727)" "$room/in"

# ---- captures above 1,048,576 bytes, which one call looks at: 31 of the longest frames, then others

for _ in $(seq 31); do cat "$room/most.frame"; done >"$room/31"
sixteen=$(seq -f %015.0f 2046) # 32,736 bytes with the last newline
run write --type request --topic log --payload <(printf '%s\n' "$sixteen") -o "$room/sixteen"
cat "$room/31" "$room/sixteen" "$room/log" >"$room/over"
stops 'a frame across the 1,048,576th byte' 0 '33 frames, 1048867 bytes, and nothing behind them' "$room/over"
run dump --frame 31 --payload-out "$room/payload" "$room/over"
[ "$status" -eq 0 ] && cmp -s "$room/payload" <(printf '%s\n' "$sixteen")
report $? 'it is there, byte for byte'
shows 'and at its place' 0 'frame 31      32776 bytes, from byte 1016056   request   "log", nodeid any, matchtag 0, payload 32736 bytes, not JSON' --frame 31 --summary "$room/over"
shows 'the frame behind it' 0 'frame 32         35 bytes, from byte 1048832   request   "log", nodeid any, matchtag 1, no payload' --frame 32 --summary "$room/over"
run dump --summary < <(cat "$room/over")
[ "$status" -eq 0 ] && [ "$(wc -l <"$room/out")" -eq 34 ]
report $? 'the same from a pipe'
for _ in 1 2 3; do cat "$room/over"; done >"$room/thrice"
stops 'three times as long' 0 '99 frames, 3146601 bytes, and nothing behind them' --summary "$room/thrice"
{ cat "$room/over" && head -c 34 "$room/log"; } >"$room/in"
stops 'a torn tail behind them' 1 "33 frames, 1048867 bytes; frame 33, from byte 1048867, $(torn 34)" --summary "$room/in"
good=0
for ((before = 0; before <= 36; before++)); do
    run write --type request --topic log --payload <(bytes $((32480 - before))) -o "$room/last"
    cat "$room/31" "$room/last" "$room/log" >"$room/in"
    run dump --summary "$room/in"
    [ "$status" -eq 0 ] && [ "$(tail -n 1 "$room/out")" = "stop          33 frames, $((1048576 - before + 35)) bytes, and nothing behind them" ] || good=1
done
report "$good" 'a frame that begins at each place in front of that byte'
run write --type request --topic log --payload <(bytes 32480) -o "$room/last"
cat "$room/31" "$room/last" >"$room/exact"
stops 'frames that end at that byte' 0 '32 frames, 1048576 bytes, and nothing behind them' --summary "$room/exact"
{ cat "$room/exact" && printf 'what is no frame'; } >"$room/in"
stops 'junk behind that byte' 1 "32 frames, 1048576 bytes; frame 32, from byte 1048576, $junk" --summary "$room/in"
bytes 1048576 >"$room/in"
has_lines 'no frame, of 1,048,576 bytes' 1 "$room/in" -- 'input         1048576 bytes' "refused       2: $n2"
bytes 1048577 >"$room/in"
has_lines 'no frame, of a byte more' 1 "$room/in" -- 'input         1048576 bytes, and more behind them' "refused       2: $n2"
cat "$room/log" "$room/in" >"$room/long-junk"
has_lines 'a frame, and as much behind it' 1 "$room/long-junk" -- 'input         1048576 bytes from there on, and more behind them'
run dump --json "$room/long-junk"
[ "$status" -eq 1 ] && sed -n 2p "$room/out" | grep -q '^{"accepted":false,"number":1,"start":35,"input":1048576,"more":true,"refusal":2,'
report $? 'and as JSON'

run dump --json "$room/thrice"
[ "$status" -eq 0 ] && [ "$(wc -l <"$room/out")" -eq 100 ] && ! grep -q '"more"' "$room/out"
report $? 'whole frames of a long capture have no more behind them'

# ---- bytes that a terminal would obey, and outputs that cannot be written

run write --type event --topic "$obeyed" -o "$room/obeyed-topic"
cat "$room/obeyed-topic" "$room/obeyed" >"$room/in"
for words in '' --summary --json; do
    # shellcheck disable=SC2086 # the words are words
    run dump $words "$room/in"
    [ "$status" -eq 1 ] && ! LC_ALL=C grep -q '[^ -~]' "$room/out"
    report $? "dump $words of several frames with bytes that a terminal would obey"
done
for words in '' --summary --json '--frame 1'; do
    # shellcheck disable=SC2086 # the words are words
    unwritten "dump $words of several frames that cannot be written" 'cannot write standard output' dump $words "$room/four"
done
"$FLUX_FRAME" dump --json "$room/thrice" 2>"$room/err" | head -c 1 >"$room/out"
status=${PIPESTATUS[0]}
[ "$status" -eq 2 ] && [ ! -s "$room/err" ]
report $? 'a reader that goes away'

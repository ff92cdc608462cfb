# Tests of `flux_frame dump` that writes a payload or a frame to a file. host/test.sh reads this file behind
# host/test/capture.sh, whose captures are used here.

# ---- a payload

wrong 'a payload of several frames' 'name one by --frame' dump --payload-out "$room/none" "$room/four"
wrong 'a payload of a frame with a torn one behind it' 'name one by --frame' dump --payload-out "$room/none" "$room/newline"
[ ! -e "$room/none" ]
report $? 'and no file for them'
run dump --payload-out "$room/payload" --frame 2 "$room/four"
[ "$status" -eq 0 ] && [ "$(cat "$room/payload")" = hi ] && [ ! -s "$room/out" ] && [ ! -s "$room/err" ]
report $? 'the payload of the frame that is named, and nothing else'
shows 'the same on standard output' 0 hi --payload-out - --frame 2 "$room/four"
wrong 'a named frame without a payload' 'no payload' dump --payload-out "$room/none" --frame 1 "$room/four"
run dump --payload-out - --frame 1 "$room/middle"
[ "$status" -eq 1 ] && [ ! -s "$room/out" ] &&
    [ "$(cat "$room/err")" = "flux_frame: frame 1, from byte 29, is refused, 9: $n9 (at byte 9: the topic does not end with a zero byte)" ]
report $? 'no payload of a named frame that is refused'

# ---- a frame, cut out

wrong 'one frame of several' '--frame-out is for one frame, and more follows the first: name one by --frame' dump --frame-out "$room/none" "$room/four"
wrong 'one frame with a torn one behind it' 'name one by --frame' dump --frame-out "$room/none" "$room/newline"
run dump --frame-out "$room/cut" --frame 2 "$room/four"
[ "$status" -eq 0 ] && cmp -s "$room/cut" "$room/response" && [ ! -s "$room/out" ] && [ ! -s "$room/err" ]
report $? 'the frame that is named is cut out, and nothing is shown'
run dump --frame-out=- --frame 0x3 "$room/four"
[ "$status" -eq 0 ] && cmp -s "$room/out" "$room/event" && [ ! -s "$room/err" ]
report $? 'on standard output it is alone'
run dump --frame-out - <"$room/log"
[ "$status" -eq 0 ] && cmp -s "$room/out" "$room/log" && [ ! -s "$room/err" ]
report $? 'a single frame needs no number'
run dump --frame-out "$room/cut" --payload-out - --frame 2 "$room/four"
[ "$status" -eq 0 ] && cmp -s "$room/cut" "$room/response" && [ "$(cat "$room/out")" = hi ]
report $? 'a frame and its payload'
wrong 'a frame whose payload is not there' 'no payload' dump --frame-out "$room/none" --payload-out "$room/none-too" --frame 1 "$room/four"
wrong 'a frame and its payload on standard output' '--payload-out and --frame-out both go to standard output: name a file for one of them' dump --frame-out - --payload-out - "$room/response"
wrong 'a frame and its payload in one file' "name one file, $room/none" dump --frame-out "$room/none" --payload-out "$room/none" "$room/response"
for words in --json --summary --all; do
    wrong "a frame and $words" "--frame-out writes a file and shows nothing: leave out $words" dump --frame-out "$room/none" $words "$room/log"
    wrong "a payload on standard output and $words" "--payload-out writes a file and shows nothing: leave out $words" dump --payload-out - $words "$room/response"
done
wrong '--frame-out twice' '--frame-out is given twice' dump --frame-out "$room/none" --frame-out "$room/none" "$room/log"
wrong 'a frame to the capture itself' "$room/log is the capture itself: name another file" dump --frame-out "$room/log" "$room/log"
for words in "$room/none" -; do
    run dump --frame-out "$words" --frame 1 "$room/middle"
    [ "$status" -eq 1 ] && [ ! -s "$room/out" ] && grep -q 'frame 1, from byte 29, is refused, 9: ' "$room/err"
    report $? "no bytes of a refused frame, for ${words##*/}"
    run dump --frame-out "$words" --frame 1 "$room/torn"
    [ "$status" -eq 1 ] && [ ! -s "$room/out" ] && grep -q 'frame 1, from byte 29, is refused, 1: .*(17 of 35 bytes are there; missing: 18)' "$room/err"
    report $? "nor of a torn one, for ${words##*/}"
done
[ ! -e "$room/none" ]
report $? 'and no file for any of them'
unwritten 'a frame that standard output does not take' 'cannot write standard output' dump --frame-out - "$room/log"

# An output that is the file read would destroy it: by its name, by another, through a link and on standard output.
cp "$room/four" "$room/kept"
ln -f "$room/kept" "$room/kept-too"
ln -sf kept "$room/kept-link"
for words in kept kept-too kept-link ./kept; do
    wrong "a payload to the capture itself, as $words" "$room/$words is the capture itself: name another file" \
        dump --payload-out "$room/$words" --frame 2 "$room/kept"
done
"$FLUX_FRAME" dump --payload-out "$room/kept" --frame 2 <"$room/kept" >"$room/out" 2>"$room/err"
status=$?
[ "$status" -eq 2 ] && [ ! -s "$room/out" ] && grep -q 'kept is the capture itself' "$room/err"
report $? 'a payload to the capture on standard input'
"$FLUX_FRAME" dump --payload-out - --frame 2 "$room/kept" >>"$room/kept" 2>"$room/err"
status=$?
[ "$status" -eq 2 ] && grep -q 'standard output is the capture itself' "$room/err"
report $? 'a payload to the capture on standard output'
cmp -s "$room/four" "$room/kept"
report $? 'the capture stays as it was'
run dump --payload-out /dev/null --frame 2 "$room/kept"
report "$status" 'a payload to /dev/null'

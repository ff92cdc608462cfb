# Tests of the frames that `flux_frame dump` selects, and of refused ones that it passes. host/test.sh reads this
# file behind host/test/capture.sh: its functions and captures are used here.

# A capture of five requests, each with its response and an event; the response to matchtag 3 has an error.
for tag in 1 2 3 4 5; do
    "$FLUX_FRAME" write --type request --topic kvs.get --matchtag $tag
    "$FLUX_FRAME" write --type response --topic kvs.get --matchtag $tag --errnum $((tag == 3 ? 38 : 0))
    "$FLUX_FRAME" write --type event --topic hb.$tag --seq $tag
done >"$room/asked"
"$FLUX_FRAME" write --type control --status 1 >>"$room/asked"
"$FLUX_FRAME" write --type event --topic hb >>"$room/asked"
whole='627 bytes, and nothing behind them'

# With these words just these frames are shown, in every form, and the stop tells so.
selects() { # LABEL STATUS NUMBERS STOP WORDS...
    local label=$1 want=$2 numbers=$3 stop=$4 good=0 form
    shift 4
    for form in '' --summary; do
        # shellcheck disable=SC2086 # no word is a form too
        run dump $form "$@"
        [ "$status" -eq "$want" ] && [ ! -s "$room/err" ] && [ "$(tail -n 1 "$room/out")" = "stop          $stop" ] &&
            [ "$(sed -n 's/^frame \([0-9]*\) .*/\1/p' "$room/out" | tr '\n' ' ')" = "$numbers" ] || good=1
    done
    run dump --json "$@"
    [ "$status" -eq "$want" ] && [ ! -s "$room/err" ] && [ "$(tail -n 1 "$room/out" | cut -c 1-9)" = '{"stop":"' ] &&
        [ "$(sed -n 's/^{"accepted":[a-z]*,"number":\([0-9]*\),.*/\1/p' "$room/out" | tr '\n' ' ')" = "$numbers" ] || good=1
    report "$good" "$label"
}

# ---- one option, and several

selects 'a type' 0 '2 5 8 11 14 16 ' "6 of 17 frames shown, $whole" --type event "$room/asked"
selects 'a type without a topic' 0 '15 ' "1 of 17 frames shown, $whole" --type control "$room/asked"
selects 'a whole topic' 0 '16 ' "1 of 17 frames shown, $whole" --topic hb "$room/asked"
selects 'a pattern for topics' 0 '5 8 11 ' "3 of 17 frames shown, $whole" --topic 'h?.[2-4]' "$room/asked"
selects 'a pattern that fits a part alone' 0 '' "0 of 17 frames shown, $whole" --topic 'kvs' "$room/asked"
selects 'a pattern that fits every topic: a control message has none' 0 '0 1 2 3 4 5 6 7 8 9 10 11 12 13 14 16 ' "16 of 17 frames shown, $whole" --topic '*' "$room/asked"
selects 'a sign that is meant as it stands' 0 '' "0 of 17 frames shown, $whole" --topic 'hb\*' "$room/asked"
selects 'a byte that is no text' 0 '3 ' '1 of 4 frames shown, 218 bytes, and nothing behind them' --topic $'u?\xFF' "$room/four"
selects 'a service, before the first period or the end' 0 '2 5 8 11 14 16 ' "6 of 17 frames shown, $whole" --service hb "$room/asked"
selects 'a service is no prefix' 0 '' "0 of 17 frames shown, $whole" --service kv "$room/asked"
selects 'nor a pattern' 0 '' "0 of 17 frames shown, $whole" --service 'k*' "$room/asked"
selects 'a matchtag, of requests and responses' 0 '3 4 ' "2 of 17 frames shown, $whole" --matchtag 2 "$room/asked"
selects 'a matchtag of zero: events have none' 0 '' "0 of 17 frames shown, $whole" --matchtag 0 "$room/asked"
selects 'errors' 0 '7 ' "1 of 17 frames shown, errors in 1 of 5 responses, $whole" --errors "$room/asked"
selects 'what all of the options select' 0 '6 ' "1 of 17 frames shown, $whole" --service kvs --topic '*.get' --type request --matchtag 0x3 "$room/asked"
selects 'no error' 0 '' "0 of 17 frames shown, errors in 0 of 1 response, $whole" --errors --matchtag 2 "$room/asked"
selects 'no response to look at for errors' 0 '' "0 of 17 frames shown, no response to look at, $whole" --errors --service hb "$room/asked"
selects 'a single frame, with its place' 0 '0 ' '1 of 1 frame shown, 35 bytes, and nothing behind it' --type request "$room/log"
selects 'a single frame that is not selected' 0 '' '0 of 1 frame shown, 35 bytes, and nothing behind it' --type event "$room/log"
run dump --json --errors "$room/asked"
[ "$(tail -n 1 "$room/out")" = '{"stop":"end","frames":17,"bytes":627,"refusal":null,"shown":1,"refused":0,"next":627,"responses":5}' ]
report $? 'the JSON of a stop tells how many were shown, of how many responses'
part='head -n 1' shows 'number and place are those of the capture' 0 'frame 7          39 bytes, from byte 265       response  "kvs.get", errnum 38 ENOSYS, matchtag 3, no payload' --errors --summary "$room/asked"
run dump --summary --errors < <(cat "$room/asked")
[ "$status" -eq 0 ] && [ "$(wc -l <"$room/out")" -eq 2 ]
report $? 'the same from a pipe'

# ---- frames by their numbers

behind='no more was asked for: what is behind was not looked at'
selects '--frames A-B' 0 '3 4 5 ' "3 of 6 frames shown, 226 bytes; $behind" --frames 3-5 "$room/asked"
selects '--frames A-' 0 '15 16 ' "2 of 17 frames shown, $whole" --frames 15- "$room/asked"
selects '--frames -B' 0 '0 1 ' "2 of 2 frames shown, 78 bytes; $behind" --frames -1 "$room/asked"
selects '--frames past the end' 0 '16 ' "1 of 17 frames shown, $whole" --frames 16-99 "$room/asked"
selects '--frames behind the end' 0 '' "0 of 17 frames shown, $whole" --frames 17- "$room/asked"
selects '--frames and a type' 0 '3 ' "1 of 6 frames shown, 226 bytes; $behind" --frames 0x3-5 --type request "$room/asked"
selects '--frame and a type' 0 '3 ' "1 of 4 frames shown, 152 bytes; $behind" --frame 3 --type request "$room/asked"
selects '--frame and another type' 0 '' "0 of 4 frames shown, 152 bytes; $behind" --frame 3 --type event "$room/asked"
selects '--frames in front of a torn tail' 0 '0 ' "1 of 1 frame shown, 29 bytes; $behind" --frames 0-0 "$room/torn"
run dump --json --frames 3-5 "$room/asked"
[ "$(tail -n 1 "$room/out")" = '{"stop":"range","frames":6,"bytes":226,"refusal":null,"shown":3,"refused":0,"next":226}' ]
report $? 'the JSON of such a stop'
timeout 20 "$FLUX_FRAME" dump --summary --frames -1 < <(cat "$room/asked" && while cat "$room/31"; do :; done 2>/dev/null) >"$room/out" 2>"$room/err"
status=$?
[ "$status" -eq 0 ] && [ "$(wc -l <"$room/out")" -eq 3 ]
report $? 'what is behind --frames is not read: here there is no end of it'
for words in 5 - '' 1-2-3 x-3 3-x 1--2 4294967296- ' 1-2' 99999999999999999999999999-; do
    wrong "--frames '$words'" "--frames takes A-B, A- or -B, the first and the last frame's number, each at most 4294967295, not '$words'" \
        dump --frames "$words" "$room/asked"
done
wrong '--frames of one number' "not '5'; --frame takes one" dump --frames 5 "$room/asked"
wrong '--frames that begins behind its end' '--frames 3-1 begins behind its end' dump --frames 3-1 "$room/asked"
wrong '--frame and --frames' 'give --frame or --frames, not both' dump --frame 1 --frames 0-1 "$room/asked"

# ---- what no frame can be

wrong 'an unknown type to select' "--type is request, response, event or control, not 'keepalive'" dump --type keepalive "$room/asked"
wrong 'a service with a period' "not 'kvs.get': --topic takes a whole topic" dump --service kvs.get "$room/asked"
wrong 'a matchtag that is no number' "--matchtag takes a number from 0 to 4294967295, not 'x'" dump --matchtag x "$room/asked"
for words in --errors --matchtag=1; do
    wrong "an event with ${words%=*}" "${words%=*} selects no frame of type event" dump --type event $words "$room/asked"
done
for words in '--topic=*' --service=kvs; do
    wrong "a control message with ${words%=*}" "${words%=*} selects no frame of type control" dump --type control "$words" "$room/asked"
done
wrong '--errors of requests' '--errors selects no frame of type request' dump --type request --errors "$room/asked"
wrong 'a selection twice' '--type is given twice' dump --type event --type request "$room/asked"

# ---- a capture that is torn or refused is so whatever is selected

# In every form the status is 1, no accepted frame is shown, and the stop is this.
breaks_off() { # LABEL STOP WORDS...
    local label=$1 stop=$2 good=0 form
    shift 2
    for form in '' --summary; do
        # shellcheck disable=SC2086 # no word is a form too
        run dump $form "$@"
        [ "$status" -eq 1 ] && [ "$(tail -n 1 "$room/out")" = "stop          $stop" ] || good=1
    done
    run dump --json "$@"
    [ "$status" -eq 1 ] && [ "$(cut -c 1-20 "$room/out" | head -n 1)" = '{"accepted":false,"n' ] && [ "$(wc -l <"$room/out")" -eq 2 ] || good=1
    report "$good" "$label"
}

breaks_off 'a torn tail' "0 of 1 frame shown, 29 bytes; frame 1, from byte 29, $(torn 17)" --type event "$room/torn"
breaks_off 'a refused frame' "0 of 1 frame shown, no response to look at, 29 bytes; frame 1, from byte 29, $(nine 60)" --errors "$room/middle"
breaks_off 'a refused frame alone' "0 of 0 frames shown, 0 bytes; frame 0, from byte 0, $(nine 31)" --topic '*' "$room/nine"
breaks_off 'a refused frame in front of those that are asked for' "0 of 1 frame shown, 29 bytes; frame 1, from byte 29, $(nine 60)" --frames 2- "$room/middle"
shows 'an empty capture' 1 'stop          no frame: the capture is empty' --type event "$room/nothing"

# ---- the one frame that is selected goes to a file

run dump --topic hb.4 --frame-out "$room/cut" "$room/asked"
[ "$status" -eq 0 ] && [ ! -s "$room/out" ] && [ ! -s "$room/err" ] && cmp -s "$room/cut" <("$FLUX_FRAME" write --type event --topic hb.4 --seq 4)
report $? 'the one frame that is selected is cut out'
run dump --matchtag 7 --payload-out - "$room/four"
[ "$status" -eq 0 ] && [ "$(cat "$room/out")" = hi ] && [ ! -s "$room/err" ]
report $? 'its payload on standard output'
run dump --errors --frame-out "$room/cut" "$room/asked"
[ "$status" -eq 0 ] && [ "$(wc -c <"$room/cut")" -eq 39 ]
report $? 'the one response with an error is cut out'
wrong 'two that are selected' '--frame-out is for one frame, and 2 of 17 are selected: nothing is written' dump --matchtag 2 --frame-out "$room/none" "$room/asked"
wrong 'none that is' '--payload-out is for one frame, and 0 of 17 is selected: nothing is written' dump --service x --payload-out "$room/none" "$room/asked"
wrong 'one without a payload' 'no payload' dump --type control --payload-out "$room/none" "$room/asked"
run dump --type control --frame-out "$room/none" "$room/torn"
[ "$status" -eq 1 ] && [ ! -s "$room/out" ] && grep -qF "nothing is written: 1 of 1 frame selected, 29 bytes; frame 1, from byte 29, $(torn 17)" "$room/err"
report $? 'of a capture that is torn nothing is written'
[ ! -e "$room/none" ]
report $? 'and there is no file for any of them'

# ---- refused frames that are passed

cat "$room/middle" "$room/nine" "$room/nine" "$room/log" >"$room/passes"
because='the topic does not end with a zero byte'
nine_line() { printf 'frame %-7s    31 bytes, from byte %-9s refused   9: %s (at byte 9: %s)' "$1" "$2" "$n9" "$because"; } # NUMBER START
passed_lines="$control_line
$(nine_line 1 29)
frame 2          35 bytes, from byte 60        request   \"log\", nodeid any, matchtag 1, no payload
$(nine_line 3 95)
$(nine_line 4 126)
frame 5          35 bytes, from byte 157       request   \"log\", nodeid any, matchtag 1, no payload"
shows 'they are shown and counted, with number and place' 1 "$passed_lines
stop          3 frames, 3 refused and passed, 192 bytes, and nothing behind them" --skip-refused --summary "$room/passes"
run dump --skip-refused --json "$room/passes"
[ "$status" -eq 1 ] && [ "$(wc -l <"$room/out")" -eq 7 ] && sed -n 2p "$room/out" | grep -q '^{"accepted":false,"number":1,"start":29,"frame":31,"refusal":9,' &&
    [ "$(tail -n 1 "$room/out")" = '{"stop":"end","frames":3,"bytes":192,"refusal":null,"shown":3,"refused":3,"next":192}' ]
report $? 'and as JSON'
has_lines 'and as text' 1 --skip-refused "$room/passes" -- 'frame 1       31 bytes by its front, from byte 29 of the capture' "because       $because" \
    'frame 5       35 bytes, from byte 157 of the capture'
! grep -q '^input' "$room/out"
report $? 'with its own length alone'
has_lines 'a single frame that is refused' 1 --skip-refused "$room/nine" -- 'frame 0       31 bytes by its front, from byte 0 of the capture' \
    'stop          0 frames, 1 refused and passed, 31 bytes, and nothing behind it'
shows 'they are told whatever is selected' 1 "$(printf '%s\n' "$passed_lines" | grep refused)
stop          0 of 3 frames shown, 3 refused and passed, 192 bytes, and nothing behind them" --skip-refused --type event --summary "$room/passes"
shows 'their numbers count for --frames' 1 "$(printf '%s\n' "$passed_lines" | head -n 2)
stop          1 of 1 frame shown, 1 refused and passed, 60 bytes; $behind" --skip-refused --frames 0-1 --summary "$room/passes"
shows 'a frame behind one, by its number' 1 "$(printf '%s\n' "$passed_lines" | sed -n 2,3p)" --skip-refused --frame 2 --summary "$room/passes"
run dump --skip-refused --frame 2 --frame-out "$room/cut" "$room/passes"
[ "$status" -eq 1 ] && [ ! -s "$room/out" ] && cmp -s "$room/cut" "$room/log" && [ "$(cat "$room/err")" = "flux_frame: frame 1, from byte 29, is refused, 9: $n9 (at byte 9: $because)" ]
report $? 'it is cut out, and what was passed is told'
run dump --skip-refused --type control --frame-out "$room/cut" "$room/passes"
[ "$status" -eq 1 ] && cmp -s "$room/cut" "$room/control" && [ "$(grep -c 'is refused, 9' "$room/err")" -eq 3 ]
report $? 'and so is one that is selected'
good=0
for number in 4 5 6 7 8 9 10 20 21 22 23; do
    case $number in
    4) bytes="$start 00 00 00 01 01" ;;
    5) bytes="$start 00 00 00 45 $parts68 00" ;;
    6) bytes="$start 00 00 00 00" ;;
    7) bytes="$start 00 00 00 15 14 8E 01 08 01 $fields" ;;
    8) bytes="$start 00 00 00 1B 01 41 00 02 41 00 14 8E 01 01 09 $fields" ;;
    9) bytes="$start 00 00 00 17 01 41 14 8E 01 04 01 $fields" ;;
    10) bytes="$start 00 00 00 18 02 41 00 14 8E 01 04 01 $fields" ;;
    20) bytes="$start 00 00 00 15 14 8F 01 08 00 $fields" ;;
    21) bytes="$start 00 00 00 15 14 8E 02 08 00 $fields" ;;
    22) bytes="$start 00 00 00 15 14 8E 01 03 00 $fields" ;;
    23) bytes="$start 00 00 00 15 14 8E 01 08 80 $fields" ;;
    esac
    { unhex "$bytes" && cat "$room/log"; } >"$room/in"
    run dump --skip-refused --summary "$room/in"
    [ "$status" -eq 1 ] && grep -q "^frame 0 .* from byte 0         refused   $number: " "$room/out" && grep -q '^frame 1 .* request ' "$room/out" || good=1
    unhex "$bytes" >"$room/alone"
    next=$(stat -c %s "$room/alone")
    cat "$room/log" "$room/in" >"$room/behind"
    run dump --summary "$room/behind"
    [ "$status" -eq 1 ] && grep -q "; by its front the next one would begin at byte $((35 + next))\$" "$room/out" || good=1
    run dump --json "$room/in"
    [ "$status" -eq 1 ] || good=1
done
report "$good" 'the refusals 4 to 10 and 20 to 23 are passed, and tell where the next frame would begin'
cat "$room/passes" "$room/junk" >"$room/in"
stops 'a wrong start ends it' 1 "5 frames, 3 refused and passed, 256 bytes; frame 8, from byte 256, $junk" --skip-refused --summary "$room/in"
run dump --skip-refused --json "$room/in"
[ "$(tail -n 1 "$room/out")" = '{"stop":"refused","frames":5,"bytes":256,"refusal":2,"shown":5,"refused":4,"next":null}' ]
report $? 'and as JSON, with those that were passed and the one that was not'
{ cat "$room/passes" && unhex "$start 00 00 80 01" && cat "$room/log"; } >"$room/in"
stops 'so does a body too long' 1 "3 frames, 3 refused and passed, 192 bytes; frame 6, from byte 192, is refused, 3: $n3 (the body length is 32769)" --skip-refused "$room/in"
{ cat "$room/passes" && head -c 17 "$room/log"; } >"$room/in"
stops 'and a torn frame' 1 "3 frames, 3 refused and passed, 192 bytes; frame 6, from byte 192, $(torn 17)" --skip-refused "$room/in"
run dump --json "$room/middle"
[ "$(tail -n 1 "$room/out")" = '{"stop":"refused","frames":1,"bytes":29,"refusal":9,"shown":1,"refused":1,"next":60}' ]
report $? 'without --skip-refused the JSON of the stop tells where the next would begin'
# One that lies across the window's end, and as many as fill several windows.
run write --type request --topic log --payload <(bytes 32460) -o "$room/last"
cat "$room/31" "$room/last" "$room/nine" "$room/log" >"$room/in"
stops 'a refused frame across the 1,048,576th byte' 1 '33 frames, 1 refused and passed, 1048622 bytes, and nothing behind them' --skip-refused --summary "$room/in"
for _ in $(seq 100); do cat "$room/nine" "$room/log"; done >"$room/hundred"
for _ in $(seq 400); do cat "$room/hundred"; done >"$room/in"
stops '40,000 of them' 1 '40000 frames, 40000 refused and passed, 2640000 bytes, and nothing behind them' --skip-refused --summary "$room/in"

# ---- help and page

for words in '--type TYPE' '--topic PATTERN' '--service NAME' '--matchtag N' '--frames A-B' --errors --follow --skip-refused; do
    helps run "$words" dump
    sed 's/\\-/-/g;s/"//g;s/  */ /g' man/flux_frame.1 | grep -qxE "\.BI? $words"
    report $? "$words is in the page of flux_frame"
done

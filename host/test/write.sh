# Tests of what `flux_frame write` refuses, and of the options that it names then. host/test.sh reads this file:
# its functions and its words are used here.

# ---- refusals of the writer

refuses 'type 3 is 22' 22 "$n22 (there is no type 3)" --type-number 3
refuses 'flag 80 is 23' 23 "$n23 (--flags 80: flag 80 is set)" --type control --flags 80
refuses 'both are 22' 22 "$n22 (there is no type 3)" --type-number 3 --flags 80
refuses 'a control with a topic is 7' 7 "$n7 (a control message has no topic: leave out --topic)" --type control --topic x
refuses 'a control with a payload is 7' 7 "$n7 (a control message has no payload: leave it out)" --type control --payload-text x
refuses 'a control with a route is 7' 7 "$n7 (a control message has no route: leave out --route)" --type control --route $one
refuses 'a raw request without a topic is 7' 7 "$n7 (--topic is missing)" --type-number 1
refuses 'a request without a topic whose flags are given is 7' 7 "$n7 (--flags 08: a request or response has the flags topic and route)" --type request --flags 08
refuses 'a request without a topic whose flags have one is 9' 9 "$n9 (--topic is missing)" --type request --flags 09
refuses 'a payload without its flag is 7' 7 "$n7 (--flags 01: a part is given whose flag is not set)" --type event --topic x --flags 01 --payload-text x
refuses 'a topic without its flag is 7' 7 "$n7 (--flags 00: an event has the flag topic and not the flag route)" --type event --topic x --flags 0x00
refuses 'an event with a route is 7' 7 "$n7 (an event has no route: leave out --route)" --type event --topic x --route $one
refuses 'a route in capitals is 8' 8 "$n8 (--route number 1 has 'A' as its character 36, not one of 0-9 and a-f)" --type request --topic x --route 00000000-0000-0000-0000-00000000000A
refuses 'a short route is 8' 8 "$n8 (--route number 1 has 3 characters, not 36)" --type request --topic x --route abc
refuses 'the second route is 8' 8 "$n8 (--route number 2 has 'x' as its character 9, not a hyphen)" --type request --topic x --route $one --route "${one/-/x}"
routes=()
for _ in $(seq 65); do routes+=(--route "$one"); done
refuses '65 routes are 8' 8 "$n8 (there are 65 routes, and 64 may be)" --type request --topic x "${routes[@]}"
refuses 'an empty topic is 9' 9 "$n9 (--topic is empty)" --type event --topic ''
refuses 'a topic of 256 bytes is 9' 9 "$n9 (--topic has 256 bytes, and 255 may be)" --type event --topic "$(bytes 256)"
refuses 'nodeid 4294967294 is 10' 10 "$n10 (--nodeid is 4294967294)" --type request --topic x --nodeid 4294967294
refuses "an event's second field is 10" 10 "$n10 (--second is 1)" --type event --topic x --second 1
run write --type event --topic '' -o "$room/none"
[ "$status" -eq 1 ] && [ ! -e "$room/none" ]
report $? 'a refusal makes no file'

# ---- options that are missing, or do not go together

for words in request response event; do
    wrong "no topic for a message of type $words" " $words needs --topic" write --type $words
done
one_payload='give one of --payload, --payload-text and --payload-json'
wrong 'a payload and a text' "$one_payload" write --type event --topic x --payload "$room/log" --payload-text x
wrong 'a payload and JSON' "$one_payload" write --type event --topic x --payload "$room/log" --payload-json '{}'
wrong 'a text and JSON' "$one_payload" write --type event --topic x --payload-text x --payload-json '{}'

# ---- a payload that is JSON

# The payload written by --payload-json is this text and a zero byte, and dump calls it JSON.
writes_json() { # LABEL TEXT
    run write --type event --topic x --payload-json "$2" -o "$room/in"
    [ "$status" -eq 0 ] && [ ! -s "$room/out" ] && [ ! -s "$room/err" ] &&
        "$FLUX_FRAME" dump --payload-out - "$room/in" | cmp -s - <(printf '%s\0' "$2") &&
        "$FLUX_FRAME" dump --summary "$room/in" | grep -q ' bytes, JSON$'
    report $? "$1"
}

levels() { head -c "$1" /dev/zero | tr '\0' "$2"; } # COUNT SIGN

writes_json 'JSON, and a zero byte behind it' '{"id":7}'
writes_json 'white space around it stays' $' \t\n{"a":[1, 2]}\r\n'
writes_json 'JSON in UTF-8' $'{"h\xC3\xA9":"\xF0\x9F\x98\x80"}'
writes_json '32 levels' "{\"a\":$(levels 31 '[')$(levels 31 ']')}"
writes 'the bytes of such an event' 'FF EE 00 12 00 00 00 1C 02 78 00 03 7B 7D 00 14 8E 01 04 03 FF FF FF FF 00 00 00 00 00 00 00 00 00 00 00 00' \
    --type event --topic x --payload-json '{}'

# The text is wrong usage: the reason is this, and nothing is written.
not_json() { # LABEL REASON TEXT
    wrong "$1" "flux_frame: --payload-json is $2" write --type event --topic x --payload-json "$3" -o "$room/none"
}

not_json 'a byte that cannot stand there' "not a JSON object: byte 6, 2C, cannot stand there: ',7}'" '{"id":,7}'
not_json 'the first byte' "not a JSON object: byte 0, 5B, cannot stand there: '[1]'" '[1]'
not_json 'a byte behind the object' "not a JSON object: byte 3, 78, cannot stand there: 'x'" '{} x'
not_json 'a byte that a terminal would obey' "not a JSON object: byte 6, 1B, cannot stand there: '\\x1B[31m\"}'" $'{"a":"\x1B[31m"}'
not_json 'a long text is cut' "not a JSON object: byte 1, 78, cannot stand there: 'xxxxxxxxxxxxxxxxxxxx' .." "{$(bytes 30)}"
not_json 'a text that ends too early' 'not a JSON object: it ends too early, at byte 5' '{"a":'
not_json 'an empty text' 'empty: a JSON object is at least {}' ''
not_json 'a 33rd level' 'too deep: level 33 opens at byte 36, and 32 may be (26)' "{\"a\":$(levels 32 '[')"
[ ! -e "$room/none" ]
report $? 'no file for any of them'
"$FLUX_FLOOR" walk --enter 0 host/example.floor --topic log --payload-json '{"a"}' >"$room/out" 2>"$room/err"
status=$?
[ "$status" -eq 2 ] && [ ! -s "$room/out" ] && [ "$(cat "$room/err")" = "flux_floor: --payload-json is not a JSON object: byte 4, 7D, cannot stand there: '}'" ]
report $? 'the options of flux_floor have it too'

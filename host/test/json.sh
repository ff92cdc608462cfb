# Tests of what `flux_frame dump` says of payloads that are JSON and of those that are not. host/test.sh reads
# this file: its functions and words and those of host/test/dump.sh are used here.

# An event with this payload, in the file NAME; the payload is as printf's %b has it.
event_of() { # NAME PAYLOAD
    printf '%b' "$2" >"$room/event-payload"
    run write --type event --topic x --payload "$room/event-payload" -o "$room/$1"
}

# The dump of an event with this payload shows of it exactly these lines. It is an accepted frame in any case.
says() { # LABEL PAYLOAD LINES [WORDS...]
    event_of in "$2"
    part='sed -n /^payload/,/^header/{/^header/!p}' shows "$1" 0 "payload       $3" "${@:4}" "$room/in"
}

# With --json the payload's object has exactly this behind its bytes.
tells() { # LABEL PAYLOAD FIELDS
    event_of in "$2"
    run dump --json "$room/in"
    [ "$status" -eq 0 ] && [ "$(wc -l <"$room/out")" -eq 1 ] && ! LC_ALL=C grep -q '[^ -~]' "$room/out" &&
        [ "$(sed 's/.*"payload":{"start":[0-9]*,"length":[0-9]*,"hex":"[0-9A-F]*",\(.*\)},"header":{.*/\1/' "$room/out")" = "$3" ]
    report $? "$1"
}

deep() { head -c "$1" /dev/zero | tr '\0' '['; } # LEVELS
margin='              '

# ---- a yes, as text

says 'JSON is shown as text' '{"a":[1,2,{}],"b":"}\\"{"}\0' '26 bytes, from byte 12, JSON
'"$margin"'{"a":[1,2,{}],"b":"}\"{"}'
says 'an empty object' '{}\0' "3 bytes, from byte 12, JSON
$margin{}"
says 'white space around it is left out' ' \n{}\t\r\n\0' "8 bytes, from byte 12, JSON
$margin{}"
says 'a new line within it begins below the first' '{"a":\t1,\r\n "b":2\n}\0' '19 bytes, from byte 12, JSON
'"$margin"'{"a": 1, 
'"$margin"' "b":2
'"$margin"'}'
says 'what looks like a line of the dump is no such line' '{"a":\nheader\0' '13 bytes, from byte 12, not JSON: byte 6 of it, 68, '"$stands"'
  0000        7B 22 61 22 3A 0A 68 65 61 64 65 72 00           |{"a":.header.|
                                ^^                                    ^'

# All but ASCII is shown to a terminal that takes it, but nothing that one would obey, hide or turn round.
odd='{"h\xC3\xA9":"\xE2\x82\xAC\xF0\x9F\x98\x80 \x7F\xC2\x80\xC2\x9B\xC2\x9F\xE2\x80\xAE\xEF\xBB\xBF\xEF\xBF\xBF \\u00e9\\ud800"}\0'
odd_end=' \u007f\u0080\u009b\u009f\u202e\ufeff\uffff \u00e9\ud800"}'
for words in C C.UTF-8 en_US.utf8; do
    case $words in
    C) odd_shown='{"h\u00e9":"\u20ac\ud83d\ude00'$odd_end ;;
    *) odd_shown=$'{"h\xC3\xA9":"\xE2\x82\xAC\xF0\x9F\x98\x80'$odd_end ;;
    esac
    event_of in "$odd"
    env -u LC_ALL -u LC_CTYPE LANG="$words" "$FLUX_FRAME" dump "$room/in" >"$room/out" 2>"$room/err"
    status=$?
    [ "$status" -eq 0 ] && grep -qxF -- "$margin$odd_shown" "$room/out"
    report $? "other characters, in $words"
done
env LC_ALL=C LC_CTYPE=C.UTF-8 LANG=C.UTF-8 "$FLUX_FRAME" dump "$room/in" >"$room/out" 2>"$room/err"
status=$?
[ "$status" -eq 0 ] && ! LC_ALL=C grep -q '[^ -~]' "$room/out"
report $? 'LC_ALL decides before the others'

# Long texts, which end behind a whole character where they are cut.
says 'a text of 1,024 bytes is shown whole' "{\"a\":\"$(bytes 1016)\"}\\0" "1025 bytes, from byte 16, JSON
$margin{\"a\":\"$(bytes 1016)\"}"
says 'and one of a byte more is cut' "{\"a\":\"$(bytes 1017)\"}\\0" "1026 bytes, from byte 16, JSON
$margin{\"a\":\"$(bytes 1017)\"
${margin}1 byte more (--all shows all)"
says 'but not with --all' "{\"a\":\"$(bytes 1017)\"}\\0" "1026 bytes, from byte 16, JSON
$margin{\"a\":\"$(bytes 1017)\"}" --all
says 'no character is cut' "{\"a\":\"$(bytes 1015)\\xF0\\x9F\\x98\\x80\"}\\0" "1028 bytes, from byte 16, JSON
$margin{\"a\":\"$(bytes 1015)
${margin}6 bytes more (--all shows all)"
says 'the longest' "{\"a\":\"$(bytes 32728)\"}\\0" "32737 bytes, from byte 16, JSON
$margin{\"a\":\"$(bytes 32728)\"}" --all

# ---- a no, and its place

says 'a byte that cannot stand there' '{"a":,1}\0' '9 bytes, from byte 12, not JSON: byte 5 of it, 2C, '"$stands"'
  0000        7B 22 61 22 3A 2C 31 7D 00                       |{"a":,1}.|
                             ^^                                      ^'
says 'the first byte' 'x' '1 byte, from byte 12, not JSON: byte 0 of it, 78, '"$stands"'
  0000        78                                               |x|
              ^^                                                ^'
says 'the last byte of a row' '{"a":"0123456789\x01' '17 bytes, from byte 12, not JSON: byte 16 of it, 01, '"$stands"'
  0000        7B 22 61 22 3A 22 30 31 32 33 34 35 36 37 38 39  |{"a":"0123456789|
  0010        01                                               |.|
              ^^                                                ^'
says 'and of the row before' '{"a":"012345678\x01\x02' '17 bytes, from byte 12, not JSON: byte 15 of it, 01, '"$stands"'
  0000        7B 22 61 22 3A 22 30 31 32 33 34 35 36 37 38 01  |{"a":"012345678.|
                                                           ^^                  ^
  0010        02                                               |.|'
says 'an end that is too early' '{"a":' '5 bytes, from byte 12, not JSON: it ends too early, at byte 5 of it
  0000        7B 22 61 22 3A                                   |{"a":|
                             ^^                                      ^'
says 'the same at the end of a row' '{"a":"0123456789' '16 bytes, from byte 12, not JSON: it ends too early, at byte 16 of it
  0000        7B 22 61 22 3A 22 30 31 32 33 34 35 36 37 38 39  |{"a":"0123456789|
  0010                                                         ||
              ^^                                                ^'
says 'no zero byte' '{"a":1} ' '8 bytes, from byte 12, not JSON: the zero byte at its end is missing
  0000        7B 22 61 22 3A 31 7D 20                          |{"a":1} |
                                      ^^                                ^'
says 'a byte behind the zero byte' '{"a":1}\0\n' '9 bytes, from byte 12, not JSON: byte 8 of it, 0A, is behind the zero byte that ends it
  0000        7B 22 61 22 3A 31 7D 00 0A                       |{"a":1}..|
                                      ^^                                ^'
says 'a zero byte elsewhere' '{"a\0":1}\0' '9 bytes, from byte 12, not JSON: byte 3 of it, 00, '"$stands"'
  0000        7B 22 61 00 22 3A 31 7D 00                       |{"a.":1}.|
                       ^^                                          ^'
says 'an empty payload' '' '0 bytes, from byte 12, not JSON: it is empty'
says 'an array outermost' '[1]\0' '4 bytes, from byte 12, not JSON: byte 0 of it, 5B, '"$stands"'
  0000        5B 31 5D 00                                      |[1].|
              ^^                                                ^'
row='61 61 61 61 61 61 61 61 61 61 61 61 61 61 61 61  |aaaaaaaaaaaaaaaa|'
a() { bytes "$1" | tr x a; }
says 'a place behind what is shown' "{\"$(a 94)\\xFF$(a 100)" '197 bytes, from byte 12, not JSON: byte 96 of it, FF, '"$stands"'
  0000        7B 22 61 61 61 61 61 61 61 61 61 61 61 61 61 61  |{"aaaaaaaaaaaaaa|
  0010        '"$row"'
  0020        '"$row"'
  0030        '"$row"'
  0060        FF '"${row:3:45} |.${row:51}"'
              ^^                                                ^
'"$margin"'117 bytes more (--all shows all)'
says 'an end behind what is shown' "{\"$(a 62)" '64 bytes, from byte 12, not JSON: it ends too early, at byte 64 of it
  0000        7B 22 61 61 61 61 61 61 61 61 61 61 61 61 61 61  |{"aaaaaaaaaaaaaa|
  0010        '"$row"'
  0020        '"$row"'
  0030        '"$row"'
  0040                                                         ||
              ^^                                                ^'
event_of in "{\"$(a 94)\\xFF$(a 100)"
run dump --all "$room/in"
[ "$status" -eq 0 ] && [ "$(grep -c '^  00' "$room/out")" -eq 13 ] && [ "$(grep -A 1 '^  0060' "$room/out" | tail -n 1)" = "$margin^^$(printf '%49s' ^)" ]
report $? 'with --all it is marked among all rows'

# ---- too deep

says 'a 33rd level' "{\"a\":$(deep 32)" '37 bytes, from byte 12, too deep for JSON: level 33 opens at byte 36 of it, and 32 may be
  0000        7B 22 61 22 3A 5B 5B 5B 5B 5B 5B 5B 5B 5B 5B 5B  |{"a":[[[[[[[[[[[|
  0010        5B 5B 5B 5B 5B 5B 5B 5B 5B 5B 5B 5B 5B 5B 5B 5B  |[[[[[[[[[[[[[[[[|
  0020        5B 5B 5B 5B 5B                                   |[[[[[|
                          ^^                                        ^'
says '32 levels that do not close' "{\"a\":$(deep 31)" '36 bytes, from byte 12, not JSON: it ends too early, at byte 36 of it
  0000        7B 22 61 22 3A 5B 5B 5B 5B 5B 5B 5B 5B 5B 5B 5B  |{"a":[[[[[[[[[[[|
  0010        5B 5B 5B 5B 5B 5B 5B 5B 5B 5B 5B 5B 5B 5B 5B 5B  |[[[[[[[[[[[[[[[[|
  0020        5B 5B 5B 5B                                      |[[[[|
                          ^^                                        ^'
says '32 levels that do' "{\"a\":$(deep 31)$(deep 31 | tr '[' ']')}\\0" "69 bytes, from byte 12, JSON
$margin{\"a\":$(deep 31)$(deep 31 | tr '[' ']')}"

# ---- with --json: the value, and the text, indented

tells 'an empty object as JSON' '{ }\0' '"is_json":true,"json":{},"text":"{}"'
tells 'nested empties' '{"a":[ ],"b":{\n},"c":[[],{}]}\0' '"is_json":true,"json":{"a":[],"b":{},"c":[[],{}]},"text":"{\n  \"a\": [],\n  \"b\": {},\n  \"c\": [\n    [],\n    {}\n  ]\n}"'
tells 'one in another' ' {"a" : {"b":[1 , {"c":null}]}}\n\0' '"is_json":true,"json":{"a":{"b":[1,{"c":null}]}},"text":"{\n  \"a\": {\n    \"b\": [\n      1,\n      {\n        \"c\": null\n      }\n    ]\n  }\n}"'
tells 'brackets, marks and quotes in strings' '{"}, ]":"[ {\\\\","\\"":": \\\\\\", "}\0' '"is_json":true,"json":{"}, ]":"[ {\\","\"":": \\\", "},"text":"{\n  \"}, ]\": \"[ {\\\\\",\n  \"\\\"\": \": \\\\\\\", \"\n}"'
tells 'no token is changed' '{"a":[1E400,-0.0e+00,1.000,123456789012345678901234567890],"a":true,"":"\\/\\u00E9"}\0' '"is_json":true,"json":{"a":[1E400,-0.0e+00,1.000,123456789012345678901234567890],"a":true,"":"\/\u00E9"},"text":"{\n  \"a\": [\n    1E400,\n    -0.0e+00,\n    1.000,\n    123456789012345678901234567890\n  ],\n  \"a\": true,\n  \"\": \"\\/\\u00E9\"\n}"'
LC_ALL=C.UTF-8 tells 'other characters are escapes' '{"h\xC3\xA9":"\xF0\x9F\x98\x80\x7F\xEF\xBF\xBF"}\0' '"is_json":true,"json":{"h\u00e9":"\ud83d\ude00\u007f\uffff"},"text":"{\n  \"h\u00e9\": \"\ud83d\ude00\\u007f\\uffff\"\n}"'
LC_ALL=C tells 'and can be seen where no terminal shows them' '{"h\xC3\xA9":"\xF0\x9F\x98\x80\x7F"}\0' '"is_json":true,"json":{"h\u00e9":"\ud83d\ude00\u007f"},"text":"{\n  \"h\\u00e9\": \"\\ud83d\\ude00\\u007f\"\n}"'
tells 'a pair of escapes' '{"a":"\\uD83D\\ude00"}\0' '"is_json":true,"json":{"a":"\uD83D\ude00"},"text":"{\n  \"a\": \"\\uD83D\\ude00\"\n}"'
for words in '\\ud800' '\\uDFFF' '\\ud800\\n\\udc00' '\\udc00\\ud800' '\\ud83d\xF0\x9F\x98\x80'; do
    event_of in "{\"a\":\"$words\"}\\0"
    run dump --json "$room/in"
    [ "$status" -eq 0 ] && grep -qF '"is_json":true,"json":null,"text":"{\n  \"a\": \"\\u' "$room/out"
    report $? "half of a pair has no value: $words"
done
tells 'a no as JSON' '{"a":1}' '"is_json":false,"json_byte":7,"json_because":"the zero byte at its end is missing"'
tells 'an empty payload as JSON' '' '"is_json":false,"json_byte":0,"json_because":"it is empty"'
tells 'too deep as JSON' "{\"a\":$(deep 32)" '"is_json":null,"refusal":26,"json_byte":36,"json_because":"level 33 opens at byte 36 of it, and 32 may be"'

# What dump writes is JSON itself, by the library's own word.
good=0
for words in '{"a":[{},"\\u00e9\xC3\xA9\x7F"]}\0' '{"\\"":"\\ud800"}\0' '\xFF\x1B\0' "{\"a\":$(deep 32)"; do
    event_of in "$words"
    { "$FLUX_FRAME" dump --json "$room/in" && printf '\0'; } >"$room/json-payload"
    run write --type event --topic x --payload "$room/json-payload" -o "$room/in"
    run dump "$room/in"
    [ "$status" -eq 0 ] && grep -q '^payload .*, JSON$' "$room/out" || good=1
done
report "$good" 'what --json writes is JSON'

# ---- several frames

event_of yes '{}\0'
event_of no '{}'
event_of deep "{\"a\":$(deep 32)"
cat "$room/yes" "$room/no" "$room/deep" "$room/log" >"$room/kinds"
shows 'a summary tells it too' 0 'frame 0          36 bytes, from byte 0         event     "x", sequence 0, payload 3 bytes, JSON
frame 1          35 bytes, from byte 36        event     "x", sequence 0, payload 2 bytes, not JSON
frame 2          70 bytes, from byte 71        event     "x", sequence 0, payload 37 bytes, too deep for JSON
frame 3          35 bytes, from byte 141       request   "log", nodeid any, matchtag 1, no payload
stop          4 frames, 176 bytes, and nothing behind them' --summary "$room/kinds"
run dump --json "$room/kinds"
[ "$status" -eq 0 ] && [ "$(grep -o '"is_json":[a-z]*\|"payload":null\|"stop"' "$room/out" | tr '\n' ' ')" = '"is_json":true "is_json":false "is_json":null "payload":null "stop" ' ]
report $? 'each frame has its own verdict'
good=0
for words in $(grep -o '"[a-z_]*":' "$room/out" | tr -d '":' | sort -u); do
    case $words in
    length | hex | text) ;; # these stand with what they are of
    *) grep -qx "\.I $words" man/flux_frame.1 || good=1 ;;
    esac
done
report "$good" 'each field of a payload is in the page of flux_frame'
run dump --payload-out - "$room/yes"
[ "$status" -eq 0 ] && [ "$(tohex <"$room/out")" = 7B7D00 ]
report $? '--payload-out writes the zero byte too'

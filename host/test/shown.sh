# Tests of what goes to a terminal: characters that hide or that a terminal obeys, topics in UTF-8, the texts
# in JSON, and what is said on standard error. host/test.sh reads this file: its functions and words and those
# of host/test/dump.sh and host/test/json.sh are used here.

# The part of the dump in the file out that is not ASCII, or is a control character.
raw() { LC_ALL=C grep -q '[^ -~]' "$room/out"; }

# The dump with these words, in this locale, has this line.
shows_in() { # LABEL LOCALE LINE WORDS...
    LC_ALL=$2 run dump "${@:4}"
    [ "$status" -eq 0 ] && [ ! -s "$room/err" ] && grep -qxF -- "$3" "$room/out"
    report $? "$1, in $2"
}

# ---- a topic

# Characters, one that hides, a control character and a byte that is no character; then marks that could forge a quote.
run write --type event --topic $'gr\xC3\xB6\xC3\x9Fe.\xE2\x82\xAC\xF0\x9F\x98\x80\xE2\x80\xAE\x1B\xFF' -o "$room/topic"
topic_end='\u202e\x1B\xFF"'
shows_in 'a topic in UTF-8' C 'topic         "gr\u00f6\u00dfe.\u20ac\ud83d\ude00'"$topic_end (20 bytes), from byte 9" "$room/topic"
shows_in 'a topic in UTF-8' C.UTF-8 $'topic         "gr\xC3\xB6\xC3\x9Fe.\xE2\x82\xAC\xF0\x9F\x98\x80'"$topic_end (20 bytes), from byte 9" "$room/topic"
shows_in 'a topic in UTF-8, in short' C.UTF-8 $'frame 0          51 bytes, from byte 0         event     "gr\xC3\xB6\xC3\x9Fe.\xE2\x82\xAC\xF0\x9F\x98\x80'"$topic_end, sequence 0, no payload" --summary --frame 0 "$room/topic"
LC_ALL=C.UTF-8 run dump --json "$room/topic"
[ "$status" -eq 0 ] && grep -qF '"text":null}' "$room/out"
report $? 'what is no UTF-8 has no text in JSON'

# What is no character: each byte of it is shown by itself.
good=0
for bytes in '\xC3' '\x80' '\xC1\xBF' '\xE0\x9F\xBF' '\xED\xA0\x80' '\xF0\x8F\xBF\xBF' '\xF4\x90\x80\x80' '\xF5\x80\x80\x80' '\xE2\x82' '\xF8\x88'; do
    run write --type event --topic "$(printf '%b' "a$bytes")" -o "$room/in"
    LC_ALL=C.UTF-8 run dump --summary "$room/in"
    [ "$status" -eq 0 ] && grep -qF "\"a$bytes\"" "$room/out" || good=1
    LC_ALL=C.UTF-8 run dump --json "$room/in"
    grep -qF '"text":null' "$room/out" || good=1
done
report "$good" 'bytes that are no UTF-8: cut, alone, too long, half a pair, above 10FFFF'
good=0
for bytes in '\xC2\xA0' '\xDF\xBF' '\xE0\xA0\x80' '\xED\x9F\xBB' '\xEF\xA4\x80' '\xF0\x90\x80\x80' '\xF0\xAF\xA8\x9D'; do
    run write --type event --topic "$(printf '%b' "a$bytes")" -o "$room/in"
    LC_ALL=C.UTF-8 run dump --summary "$room/in"
    [ "$status" -eq 0 ] && grep -qF "\"$(printf '%b' "a$bytes")\"" "$room/out" || good=1
done
report "$good" 'the first and last characters of each length'

# A topic cannot pass for another one, nor for the end of its quotes.
run write --type event --topic 'a\u202e", x' -o "$room/forged"
shows_in 'quotes and backslashes' C.UTF-8 'topic         "a\\u202e\", x" (11 bytes), from byte 9' "$room/forged"
LC_ALL=C.UTF-8 run dump --json "$room/forged"
[ "$status" -eq 0 ] && grep -qF '"text":"a\\\\u202e\", x"' "$room/out"
report $? 'and in JSON, where a backslash of the topic is two'
run write --type event --topic $'\xC3\xA9\xE2\x80\xAE\x7F\xC2\x9B' -o "$room/in"
for words in 'C \\u00e9' 'C.UTF-8 \u00e9'; do
    LC_ALL=${words% *} run dump --json "$room/in"
    [ "$status" -eq 0 ] && ! raw && grep -qF "\"text\":\"${words#* }"'\\u202e\\x7F\\u009b"' "$room/out"
    report $? "the text of a topic in JSON, in ${words% *}"
done

floor_lines=$(LC_ALL=C.UTF-8 "$FLUX_FLOOR" walk --enter 6 host/example.floor --topic $'gr\xC3\xB6\xC3\x9Fe.\xE2\x80\xAE')
grep -qF $'"gr\xC3\xB6\xC3\x9Fe.\\u202e"' <<<"$floor_lines"
report $? 'a topic in flux_floor, in C.UTF-8'
floor_lines=$(LC_ALL=C "$FLUX_FLOOR" walk --enter 6 host/example.floor --topic $'gr\xC3\xB6\xC3\x9Fe.\xE2\x80\xAE')
grep -qF '"gr\u00f6\u00dfe.\u202e"' <<<"$floor_lines"
report $? 'a topic in flux_floor, in C'

# ---- characters that hide

# From Unicode: the categories Cc, Cf, Zl, Zp and Co without ASCII, the default ignorable ones, what is no character; and U+2800.
hidden='0080-009F 00AD-00AD 034F-034F 0600-0605 061C-061C 06DD-06DD 070F-070F 0890-0891 08E2-08E2 115F-1160
    17B4-17B5 180B-180F 200B-200F 2028-202E 2060-206F 2800-2800 3164-3164 E000-F8FF FDD0-FDEF FE00-FE0F
    FEFF-FEFF FFA0-FFA0 FFF0-FFFB FFFE-FFFF 110BD-110BD 110CD-110CD 13430-1343F 1BCA0-1BCA3 1D173-1D17A
    1FFFE-1FFFF 2FFFE-2FFFF 3FFFE-3FFFF 4FFFE-4FFFF DFFFE-DFFFF E0000-E0FFF EFFFE-EFFFF F0000-10FFFF'
# Some that stand beside them, and do not.
beside='00A0 00AC 00AE 034E 0350 0606 061B 06DC 06DE 070D 0710 08E1 08E3 115E 1161 17B3 17B6 180A 1810 200A 2010 2027
    202F 205F 2070 27FF 2801 3163 3165 F900 FDCF FDF0 FE10 FEFC FF01 FF9F FFFC FFFD 110BC 110BE 1342F 1BC9F 1D172 1D17B'

# Payloads of the characters, each a line, as they are and with escapes: from lines with the first and last number.
payloads_of() { # RAW ESCAPED
    LC_ALL=C awk -v raw="$1" -v escaped="$2" '
        function flush() { if (n) { print "{\"\":\"" r "\"}" >raw; print "{\"\":\"" e "\"}" >escaped } n = 0; r = e = "" }
        function more(c) { return sprintf("%c", 128 + c % 64) }
        function utf8(c) {
            if (c < 2048) return sprintf("%c", 192 + int(c / 64)) more(c)
            if (c < 65536) return sprintf("%c", 224 + int(c / 4096)) more(int(c / 64)) more(c)
            return sprintf("%c", 240 + int(c / 262144)) more(int(c / 4096)) more(int(c / 64)) more(c)
        }
        function escape(c) {
            return c < 65536 ? sprintf("\\u%04x", c) : sprintf("\\u%04x\\u%04x", 55232 + int(c / 1024), 56320 + c % 1024)
        }
        { for (c = $1; c <= $2; c++) { r = r utf8(c); e = e escape(c); if (++n == 4000) flush() } }
        END { flush() }'
}

# A capture of the payloads in the lines of a file.
capture_of() { # LINES
    local line
    while IFS= read -r line; do
        printf '%s\0' "$line" >"$room/one"
        "$FLUX_FRAME" write --type event --topic x --payload "$room/one"
    done <"$1"
}

for words in $hidden; do echo "$((16#${words%-*})) $((16#${words#*-}))"; done | payloads_of "$room/hiding" "$room/hiding-shown"
capture_of "$room/hiding" >"$room/hiding.capture"
LC_ALL=C.UTF-8 run dump --all "$room/hiding.capture"
[ "$status" -eq 0 ] && ! raw && sed -n "s/^$margin{/{/p" "$room/out" | cmp -s - "$room/hiding-shown"
report $? 'each character that hides is an escape'
LC_ALL=C.UTF-8 run dump --json "$room/hiding.capture"
[ "$status" -eq 0 ] && ! raw && sed -n 's/.*"text":"{\\n  \\"\\": \\"\(.*\)\\"\\n}"},"header.*/{"":"\1"}/p' "$room/out" |
    sed 's/\\\\u/\\u/g' | cmp -s - "$room/hiding-shown"
report $? 'and one that can be seen in the text of JSON'
[ "$(sed -n 's/.*"json":\(.*\),"text":.*/\1/p' "$room/out")" = "$(cat "$room/hiding-shown")" ]
report $? 'while the value is exact'
for words in $beside; do echo "$((16#$words)) $((16#$words))"; done | payloads_of "$room/beside" "$room/beside-shown"
capture_of "$room/beside" >"$room/in"
shows_in 'those beside them are shown' C.UTF-8 "$margin$(cat "$room/beside")" "$room/in"
shows_in 'but not to a terminal that takes no UTF-8' C "$margin$(cat "$room/beside-shown")" "$room/in"

# Every character that there is, by what Python knows of Unicode.
if command -v python3 >/dev/null; then
    # shellcheck disable=SC2086 # the stretches are words
    python3 host/test/unicode.py "$room/unicode" "$room/unicode-shown" $hidden >"$room/out" 2>"$room/err"
    status=$?
    report "$status" 'the list has all characters that hide'
    LC_ALL=C.UTF-8 run dump --all "$room/unicode"
    [ "$status" -eq 0 ] && sed -n "s/^$margin{/{/p" "$room/out" | cmp -s - "$room/unicode-shown"
    report $? 'every character of Unicode'
fi

# ---- texts in JSON, taken out of it

hostile='{"h\xC3\xA9":"\x7F\xC2\x9B31m\xE2\x80\xAE\\u009b"}\0'
event_of x.frame "$hostile"
LC_ALL=C.UTF-8 run dump --json "$room/x.frame"
[ "$status" -eq 0 ] && grep -qF '"json":{"h\u00e9":"\u007f\u009b31m\u202e\u009b"},"text":"{\n  \"h\u00e9\": \"\\u007f\\u009b31m\\u202e\\u009b\"\n}"' "$room/out"
report $? 'the text of a payload has the escapes of the plain dump, and the value is exact'
LC_ALL=C run dump --json "$room/x.frame"
[ "$status" -eq 0 ] && grep -qF '"text":"{\n  \"h\\u00e9\": \"\\u007f' "$room/out"
report $? 'and all of them where the terminal takes no UTF-8'

# The examples of the page that use jq, as they stand there.
printf '\006MDPC02\001\001\004echo\012\x7F\xC2\x9B31m\xE2\x80\xAEx' >"$room/command"
if command -v jq >/dev/null; then
    good=1
    while IFS= read -r line; do
        (cd "$room" && PATH=${FLUX_FRAME%/*}:$PATH LC_ALL=C.UTF-8 bash -c "$line") >"$room/out" 2>"$room/err"
        status=$?
        [ "$status" -eq 0 ] && [ -s "$room/out" ] && ! LC_ALL=C grep -q $'\x7F\\|\xC2\x9B\\|\xE2\x80\xAE' "$room/out"
        good=$?
        [ "$good" -eq 0 ] || break
    done < <(sed -n 's/\\-/-/g; /^flux_frame.*| jq/p' man/flux_frame.1)
    report "$good" 'no example with jq sends what a terminal would obey'
    (cd "$room" && LC_ALL=C.UTF-8 "$FLUX_FRAME" dump --json x.frame | jq -r .payload.text) >"$room/out"
    [ "$(cat "$room/out")" = $'{\n  "h\xC3\xA9": "\\u007f\\u009b31m\\u202e\\u009b"\n}' ]
    report $? 'the text that jq takes out'
fi

# ---- standard error

"${CC:-gcc}" -std=c99 -O2 -Wall -Wextra -Werror -o "$room/writes" host/test/writes.c >"$room/out" 2>"$room/err" &&
    "$room/writes" "$FLUX_FRAME" dump $'--a word that\x1B is long' >"$room/out" 2>"$room/err"
status=$?
[ "$status" -eq 0 ] && [ "$(cat "$room/out")" = 1 ]
report $? 'a line on standard error is written at once'
LC_ALL=C.UTF-8 run dump $'--\xC3\xA9\xE2\x80\xAE\xFF'
[ "$status" -eq 2 ] && grep -qF $'\'--\xC3\xA9\\u202e\\xFF\'' "$room/err"
report $? 'a word in UTF-8 is repeated as a topic is shown'

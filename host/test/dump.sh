# Tests of `flux_frame dump`, and of what its options and outputs have in common with write. host/test.sh
# reads this file: its functions and its words are used here.

# The dump with these words has this status, and each of the lines in its output.
has_lines() { # LABEL STATUS WORDS -- LINE...
    local label=$1 want=$2 words=() good=0 line
    shift 2
    while [ "$1" != -- ]; do
        words+=("$1")
        shift
    done
    shift
    run dump "${words[@]}"
    [ "$status" -eq "$want" ] && [ ! -s "$room/err" ] || good=1
    for line in "$@"; do
        grep -qxF -- "$line" "$room/out" || good=1
    done
    report "$good" "$label"
}

# The dump of these bytes is refused, and has each of the lines.
dump_tells() { # LABEL HEX LINE...
    unhex "$2" >"$room/in"
    has_lines "$1" 1 "$room/in" -- "${@:3}"
}

# The dump with these words has this status and is exactly this text; or that part of it is, which the command in part prints.
shows() { # LABEL STATUS TEXT WORDS...
    local label=$1 want=$2 text=$3
    shift 3
    run dump "$@"
    [ "$status" -eq "$want" ] && [ "$(${part:-cat} "$room/out")" = "$text" ] && [ ! -s "$room/err" ]
    report $? "$label"
}

# The words cannot write what they have to, which is told with exit status 2.
unwritten() { # LABEL TEXT WORDS...
    local label=$1 text=$2
    shift 2
    "$FLUX_FRAME" "$@" >/dev/full 2>"$room/err"
    status=$?
    : >"$room/out"
    [ "$status" -eq 2 ] && grep -qF -- "$text" "$room/err"
    report $? "$label"
}

# ---- a refused frame: what can be said of it

dump_tells 'no bytes: how many are needed' '' 'input         0 bytes' 'bytes         none' \
    "because       0 of the 8 bytes that tell a frame's length are there; missing: 8"
dump_tells '5 bytes: which, and how many are needed' "$start 00" 'input         5 bytes' 'bytes         FF EE 00 12 00' \
    "because       5 of the 8 bytes that tell a frame's length are there; missing: 3"
dump_tells 'a torn body: how many bytes are needed, and its parts so far' "${log% 01}" 'body          27 bytes, from byte 8' \
    'because       34 of 35 bytes are there; missing: 1' 'parts         2 can be split' '  1           4 bytes, from byte 10: "log\x00"' \
    '              no more from byte 14 on'
dump_tells 'a body torn between two parts' "$start 00 00 00 1B 00" 'parts         1 can be split' '              no more from byte 9 on'
dump_tells 'a wrong start: its four bytes' "FF EE 00 13 ${control#"$start "}" 'because       FF EE 00 13 in place of FF EE 00 12'
dump_tells 'a body too long: its length' "$start 00 00 80 01" 'because       the body length is 32769' 'body          32769 bytes, from byte 8'
dump_tells 'a size past the body' "$start 00 00 00 02 00 FF 00 00 01 00" \
    'because       the part has a 4-byte size, and the body ends at byte 10' 'at byte       9, which is FF' '  0           0 bytes, from byte 9'
dump_tells 'a 4-byte size below 255' "$start 00 00 00 05 FF 00 00 00 FE" 'because       the part has the 4-byte size 254' 'at byte       8, which is FF'
dump_tells 'data past the body: part, and the header at its end' "${log/04 6C/05 6C}" \
    'because       the part has the size 142, and the body ends at byte 35' 'at byte       15, which is 8E' 'type          1 request' 'flags         09 topic route' \
    'header        20 bytes, from byte 15, by their look: no part leads to them'
dump_tells 'a 69th part' "$start 00 00 00 45 $parts68 00" 'because       a 69th part, and 68 may be' 'at byte       76, which is 00' 'parts         68 can be split'
dump_tells 'no part' "$start 00 00 00 00" 'because       the body is empty' 'at byte       8, where the frame ends' \
    '  0000        FF EE 00 12 00 00 00 00                          |........|' \
    '                                      ^^                                ^' 'parts         0'
dump_tells 'a last part of 1 byte' "$start 00 00 00 02 01 41" 'because       the last part has the length 1, not 20' 'at byte       8, which is 01' '  0           1 byte, from byte 9: "A"'
dump_tells 'a wrong magic' "$start 00 00 00 15 14 8F 01 08 00 $fields" 'because       the magic is 8F, not 8E' 'at byte       9, which is 8F' \
    'type          8 control'
dump_tells 'a wrong version' "$start 00 00 00 15 14 8E 02 08 00 $fields" 'because       the version is 02, not 01' 'at byte       10, which is 02'
dump_tells 'a wrong type' "$start 00 00 00 15 14 8E 01 03 00 $fields" 'because       there is no type 3' 'at byte       11, which is 03' \
    'type          3 unknown' 'first field   2'
dump_tells 'flag 80' "$start 00 00 00 15 14 8E 01 08 80 $fields" 'because       flag 80 is set' 'at byte       12, which is 80' 'flags         80'
dump_tells "a control's flags" "$start 00 00 00 15 14 8E 01 08 01 $fields" \
    'because       a control message has none of the flags topic, payload and route' 'at byte       9, which is 8E' '  0 header    20 bytes, from byte 9'
dump_tells "an event's flags" "$start 00 00 00 15 14 8E 01 04 00 $fields" 'because       an event has the flag topic and not the flag route'
dump_tells "a request's flags" "$start 00 00 00 15 14 8E 01 01 01 $fields" 'because       a request or response has the flags topic and route'
dump_tells 'no delimiter' "$start 00 00 00 18 02 41 00 14 8E 01 01 09 $fields" 'because       flag route is set, and no part in front of the header is empty' \
    'at byte       12, which is 8E'
dump_tells 'a part too few' "$start 00 00 00 15 14 8E 01 04 01 $fields" 'because       there is 1 part, and the flags ask for 2' 'at byte       9, which is 8E'
dump_tells 'a part left over' "$start 00 00 00 1B 00 02 41 00 01 42 14 8E 01 01 09 $fields" \
    'because       there are 4 parts, and the flags ask for 3' 'at byte       15, which is 8E' '  0 delimiter 0 bytes, from byte 9' '  1 topic     2 bytes, from byte 10: "A\x00"' \
    '  2 left over 1 byte, from byte 13: "B"' '  3 header    20 bytes, from byte 15'
dump_tells 'a short route' "$start 00 00 00 1B 01 41 00 02 41 00 14 8E 01 01 09 $fields" \
    'because       route 0 has the length 1, not 37' 'at byte       9, which is 41' '  0 route     1 byte, from byte 9: "A"'
capital=$(printf '%s\0' "${one%1}A" | tohex)
dump_tells 'a route in capitals' "$start 00 00 00 3F 25 $capital 00 02 41 00 14 8E 01 01 09 $fields" \
    'because       route 0 has 41 as its byte 35, not one of 0-9 and a-f' 'at byte       9, which is 30'
dump_tells '65 routes' "$start 00 00 09 BF $(for _ in $(seq 65); do printf '25%s' "$(printf '%s\0' "$one" | tohex)"; done) 00 02 41 00 14 8E 01 01 09 $fields" \
    'because       route 64, counted from 0, is one more than the 64 that may be' 'at byte       2441, which is 30'
dump_tells 'an empty topic' "$start 00 00 00 16 00 14 8E 01 04 01 $fields" 'because       the topic is empty' 'at byte       9, which is 14'
dump_tells 'a topic with a zero byte' "$start 00 00 00 1A 04 41 00 42 00 14 8E 01 04 01 $fields" \
    'because       the topic has a zero byte in it, as its byte 1' 'at byte       9, which is 41'
dump_tells 'a topic without its zero byte' "$start 00 00 00 17 01 41 14 8E 01 04 01 $fields" 'because       the topic does not end with a zero byte' 'at byte       9, which is 41'
dump_tells 'a topic of 256 bytes' "$start 00 00 01 1B FF 00 00 01 01 $(bytes 256 | tohex) 00 14 8E 01 04 01 $fields" \
    'because       the topic has the length 256, and 255 may be' 'at byte       13, which is 78'
dump_tells "an event's unused field" "$start 00 00 00 18 02 41 00 14 8E 01 04 01 $fields" "because       the event's unused field is 3" \
    'at byte       28, which is 00' '  0010        00 00 00 00 00 00 00 00 00 00 00 02 00 00 00 03  |................|' \
    '                                                  ^^                        ^'
dump_tells "a request's nodeid" "${log/FF FF FF FF 00 00 00 01/FF FF FF FE 00 00 00 01}" "because       the request's nodeid is 4294967294" \
    'at byte       27, which is FF'

# ---- names, and bytes that a terminal would obey

run write --type response --topic x --errnum 113 --rolemask 7 -o "$room/roles"
run dump "$room/roles"
grep -qx 'errnum        113 EHOSTUNREACH, No route to host' "$room/out" && grep -qx 'rolemask      00000007 owner user local' "$room/out"
report $? 'an error and roles have their names'
run write --type response --topic x --errnum 4000 --rolemask 8 -o "$room/nameless"
run dump "$room/nameless"
grep -qx 'errnum        4000' "$room/out" && grep -qx 'rolemask      00000008 nameless:00000008' "$room/out"
report $? 'an error and a role without a name'
obeyed=$'\x1B[31m\x9B\x07'
run write --type event --topic "$obeyed" --payload-text "$obeyed" -o "$room/obeyed"
for words in '' --all --json; do
    run dump $words "$room/obeyed"
    [ "$status" -eq 0 ] && ! LC_ALL=C grep -q '[^ -~]' "$room/out"
    report $? "dump $words of bytes that a terminal would obey"
done
unhex "$start 00 00 00 06 05 1B 9B 07 0D 7F" >"$room/obeyed"
for words in '' --json; do
    run dump $words "$room/obeyed"
    [ "$status" -eq 1 ] && ! LC_ALL=C grep -q '[^ -~]' "$room/out"
    report $? "dump $words of a refused frame with such bytes"
done
run dump "--$obeyed"
[ "$status" -eq 2 ] && ! LC_ALL=C grep -q '[^ -~]' "$room/err" && grep -qF '\x1B[31m\x9B\x07' "$room/err"
report $? 'a word with such bytes is not repeated raw'

# ---- the payload

run write --type event --topic x --payload-text "$(seq 30)" -o "$room/thirty"
run dump --all "$room/thirty"
[ "$status" -eq 0 ] && grep -q '^  0040  ' "$room/out" && ! grep -q 'more' "$room/out"
report $? '--all shows all bytes'
run dump --payload-out "$room/payload" "$room/thirty"
[ "$status" -eq 0 ] && [ "$(cat "$room/payload")" = "$(seq 30)" ] && [ ! -s "$room/out" ] && [ ! -s "$room/err" ]
report $? '--payload-out writes the file and shows nothing'
run dump --payload-out - "$room/thirty"
[ "$status" -eq 0 ] && [ "$(cat "$room/out")" = "$(seq 30)" ] && [ ! -s "$room/err" ]
report $? '--payload-out - writes the payload alone'
wrong 'no payload to write' 'no payload' dump --payload-out "$room/none" "$room/log"
[ ! -e "$room/none" ]
report $? 'and no file for it'
wrong 'no payload for standard output' 'no payload to write to standard output' dump --payload-out - "$room/log"
run dump --payload-out "$room/none" "$room/obeyed"
[ "$status" -eq 1 ] && [ ! -e "$room/none" ] && [ ! -s "$room/out" ] && grep -q '^flux_frame: refused, 6: ' "$room/err"
report $? 'no payload of a refused frame'
run dump --payload-out - "$room/obeyed"
[ "$status" -eq 1 ] && [ ! -s "$room/out" ] && grep -q "refused, 6: " "$room/err"
report $? 'nor on standard output'

# ---- JSON

header_hex='8E010109FFFFFFFF00000000FFFFFFFF00000001'
shows 'the JSON of log' 0 '{"accepted":true,"input":35,"frame":35,"behind":0,"type":1,"type_name":"request","flags":9,"flag_names":["topic","route"],"userid":4294967295,"rolemask":0,"role_names":[],"first":4294967295,"second":1,"first_name":"nodeid","second_name":"matchtag","routes":[],"delimiter":{"start":9,"length":0,"hex":""},"topic":{"start":10,"length":3,"hex":"6C6F67","text":"log"},"payload":null,"header":{"start":15,"length":20,"hex":"'$header_hex'"}}' --json "$room/log"
shows 'the JSON of a response' 0 '{"accepted":true,"input":119,"frame":119,"behind":0,"type":2,"type_name":"response","flags":127,"flag_names":["topic","payload","noresponse","route","upstream","private","streaming"],"userid":1000,"rolemask":17,"role_names":["owner"],"first":38,"second":7,"first_name":"errnum","second_name":"matchtag","error_name":"ENOSYS","routes":[{"start":9,"length":37,"text":"'$two'"},{"start":47,"length":37,"text":"'$one'"}],"delimiter":{"start":85,"length":0,"hex":""},"topic":{"start":86,"length":8,"hex":"6B76732E22676574","text":"kvs.\"get"},"payload":{"start":96,"length":2,"hex":"6869","is_json":false,"json_byte":0,"json_because":"byte 0 of it, 68, '"$stands"'"},"header":{"start":99,"length":20,"hex":"8E01027F000003E8000000110000002600000007"}}' --json "$room/response"
printf '\xFF\xEE\0' >"$room/short"
shows 'the JSON of 3 bytes' 1 '{"accepted":false,"input":3,"refusal":1,"refusal_name":"LAMPREYCOIL_INPUT_SHORT","words":"'"$n1"'","because":"3 of the 8 bytes that tell a frame'"'"'s length are there; missing: 5","fault_byte":null,"front":"FFEE00","needed":8}' --json "$room/short"
unhex "$start 00 00 00 17 01 1B 14 8E 01 04 01 $fields" >"$room/nine"
shows 'the JSON of a refused frame' 1 '{"accepted":false,"input":31,"refusal":9,"refusal_name":"LAMPREYCOIL_TOPIC_WRONG","words":"'"$n9"'","because":"the topic does not end with a zero byte","fault_byte":9,"front":"FFEE001200000017","body":23,"header_start":11,"header_is_last_part":true,"type":4,"type_name":"event","flags":1,"flag_names":["topic"],"userid":0,"rolemask":0,"role_names":[],"first":2,"second":3,"first_name":"sequence","second_name":"unused","whole":true,"parts":[{"role":"topic","start":9,"length":1,"hex":"1B"},{"role":"header","start":11,"length":20,"hex":"8E01040100000000000000000000000200000003"}]}' --json "$room/nine"

# Number, name and byte of the header's faults.
names_fault() { # what, type and flags with what stands in front of them, number, name, byte
    unhex "$start 00 00 00 15 14 $2 $fields" >"$room/fault"
    shows "number, name and byte of $1" 1 '{"accepted":false,"refusal":'"$3"',"refusal_name":"LAMPREYCOIL_'"$4"'","fault_byte":'"$5"'}' \
        --json --fields refusal,refusal_name,fault_byte "$room/fault"
}
names_fault 'a wrong magic' '8F 01 08 00' 20 MAGIC_WRONG 9
names_fault 'a wrong version' '8E 02 08 00' 21 VERSION_WRONG 10
names_fault 'a wrong type' '8E 01 03 00' 22 TYPE_WRONG 11
names_fault 'flag 80' '8E 01 08 80' 23 FLAG_WRONG 12

# ---- options, and outputs that cannot be written

run --version
[ "$status" -eq 0 ] && [ -n "$version" ] && grep -qxF "flux_frame $version" "$room/out"
report $? '--version'
run dump --json --version
[ "$status" -eq 0 ] && grep -qxF "flux_frame $version" "$room/out"
report $? 'dump --version'
writes 'log, each value in its option' "$log" --type=request --topic=log --matchtag=1 --nodeid=any --
cp "$room/log" "$room/--all"
(cd "$room" && "$FLUX_FRAME" dump -- --all >out 2>err)
status=$?
[ "$status" -eq 0 ] && grep -qx 'frame         35 bytes' "$room/out"
report $? 'a file named like an option, behind --'
wrong 'a word for write' "not 'log'" write --type request -- log
wrong 'a value for an option that has none' '--all takes no value' dump --all=1 "$room/log"
wrong 'an option of dump twice' '--json is given twice' dump --json --json "$room/log"
wrong 'an option of write twice' '--topic is given twice' write --type event --topic x --topic=x
wrong 'a flag twice' '--private is given twice' write --type event --topic x --private --private
wrong '-o twice' '-o is given twice' write --type event --topic x -o "$room/none" -o "$room/none"
unwritten 'help that cannot be written' 'cannot write standard output' --help
unwritten 'a version that cannot be written' 'cannot write standard output' --version
unwritten 'a dump that cannot be written' 'cannot write standard output' dump "$room/log"
unwritten 'a refusal that cannot be written' 'cannot write standard output' dump "$room/short"
unwritten 'JSON that cannot be written' 'cannot write standard output' dump --json "$room/log"
unwritten 'a frame that cannot be written' 'cannot write standard output' write --type event --topic x
unwritten 'a file that cannot be written' 'cannot write /dev/full' write --type event --topic x -o /dev/full
unwritten 'a payload that cannot be written' 'cannot write /dev/full' dump --payload-out /dev/full "$room/thirty"
unwritten 'a payload that standard output does not take' 'cannot write standard output' dump --payload-out - "$room/thirty"
"$FLUX_FRAME" dump "$room/log" >&- 2>"$room/err"
status=$?
[ "$status" -eq 2 ] && grep -q 'cannot write standard output' "$room/err"
report $? 'a standard output that is closed'
for words in 'write --type event --topic x' "dump --payload-out - $room/thirty" "dump --frame-out - $room/thirty"; do
    script -qec "$FLUX_FRAME $words" /dev/null </dev/null >"$room/out" 2>"$room/err"
    status=$?
    [ "$status" -eq 2 ] && grep -q 'standard output is a terminal' "$room/out"
    report $? "no binary to a terminal: ${words%" $room"*}"
done

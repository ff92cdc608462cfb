# Tests of `flux_frame dump --mdp`: Majordomo commands in words, and each refusal of the call. host/test.sh reads
# this file: its functions and words and those of host/test/dump.sh are used here.

client='06 4D44504330 32'
worker='06 4D44505730 32'
one_address=00000000-0123-4567-89ab-cdef01234567
address="25 $(printf '%s\0' "$one_address" | tohex)"

# The command of these bytes, which is shown as exactly this text.
commands() { # LABEL HEX TEXT [WORDS...]
    unhex "$2" >"$room/in"
    shows "$1" 0 "$3" --mdp "${@:4}" "$room/in"
}

# The bytes are refused with this number, for this reason: as text and as an object, and as the call does.
refuses_command() { # LABEL NUMBER BECAUSE HEX
    local words name
    unhex "$4" >"$room/in"
    words=${command_words[$2]}
    name=LAMPREYCOIL_${command_names[$2]}
    run dump --mdp --json "$room/in"
    [ "$status" -eq 1 ] && [ ! -s "$room/err" ] && [ "$(wc -l <"$room/out")" -eq 1 ] &&
        grep -qF "\"accepted\":false,\"input\":$(wc -c <"$room/in"),\"refusal\":$2,\"refusal_name\":\"$name\",\"words\":\"$words\",\"because\":\"$3\"" "$room/out"
    report $? "$1, as an object"
    has_lines "$1" 1 --mdp "$room/in" -- "refused       $2: $words" "because       $3"
}

declare -A command_names=(
    [30]=COMMAND_PART_WRONG [31]=COMMAND_LONG [32]=MARK_WRONG [33]=COMMAND_WRONG
    [34]=PART_COUNT_WRONG [35]=NAME_WRONG [36]=ADDRESS_WRONG [37]=SEPARATOR_WRONG
)

declare -A command_words=(
    [30]="a command's part: its size or data passes the end, or a 4-byte size below 255"
    [31]='command above 32,768 bytes'
    [32]='first part of a command neither MDPC02 nor MDPW02, or missing'
    [33]='no command of that sender'
    [34]="a command's number of parts"
    [35]="a command's name not well-formed, or one that it lacks"
    [36]="a command's address not well-formed, or one that it lacks"
    [37]="a command's separator not empty"
)

# ---- each command, in words

number=1
for name in REQUEST PARTIAL FINAL; do
    commands "a client's $name" "$client 01 0$number 04 6563686F 02 6869 00" "command       18 bytes
sender        1 client
number        $number $name
name          \"echo\" (4 bytes), from byte 10
address       none
body          2 parts, 4 bytes, from byte 14
  0           2 bytes, from byte 15: \"hi\"
  1           0 bytes, from byte 18"
    number=$((number + 1))
done
commands "a worker's READY" "$worker 01 01 01 20" 'command       11 bytes
sender        2 worker
number        1 READY
name          " " (1 byte), from byte 10
address       none
body          none'
number=2
for name in REQUEST PARTIAL FINAL; do
    commands "a worker's $name" "$worker 01 0$number $address 00 03 011B22" "command       52 bytes
sender        2 worker
number        $number $name
name          none
address       $one_address, from byte 10
body          1 part, 4 bytes, from byte 48
  0           3 bytes, from byte 49: \"\\x01\\x1B\\\"\""
    number=$((number + 1))
done
for name in HEARTBEAT DISCONNECT; do
    commands "a worker's $name" "$worker 01 0$number" "command       9 bytes
sender        2 worker
number        $number $name
name          none
address       none
body          none"
    number=$((number + 1))
done

# ---- long bodies

long=$(printf 'x%.0s' {1..65} | tohex)
commands 'of a part 64 bytes are shown' "$client 01 01 01 61 40 ${long:2} 41 $long" "command       142 bytes
sender        1 client
number        1 REQUEST
name          \"a\" (1 byte), from byte 10
address       none
body          2 parts, 131 bytes, from byte 11
  0           64 bytes, from byte 12: \"$(bytes 64)\"
  1           65 bytes, from byte 77: \"$(bytes 64)\" ..
              of each part 64 bytes at the most (--all shows all)"
part='tail -n 1' commands 'and with --all all' "$client 01 01 01 61 41 $long" "  0           65 bytes, from byte 12: \"$(bytes 65)\"" --all
part='tail -n 1' commands 'sixteen parts' "$client 01 01 01 61 $(printf '0%.0s' {1..32})" ' 15           0 bytes, from byte 27'
{ unhex "$client 01 01 01 61 FF 00007FF0" && bytes 32752; } >"$room/in"
part='head -n 1' shows 'the longest command' 0 'command       32768 bytes' --mdp "$room/in"
run dump --mdp <"$room/in"
[ "$status" -eq 0 ] && [ ! -s "$room/err" ]
report $? 'a command on standard input'

# ---- as an object

says_command() { # LABEL HEX OBJECT
    unhex "$2" >"$room/in"
    shows "$1" 0 "$3" --mdp --json "$room/in"
}
says_command "a client's, as an object" "$client 01 03 02 6122 01 FF" '{"accepted":true,"input":14,"sender":1,"sender_name":"client","number":3,"number_name":"FINAL","name":{"start":10,"length":2,"hex":"6122","text":"a\""},"address":null,"body":{"start":12,"length":2,"hex":"01FF","parts":[{"start":13,"length":1,"hex":"FF","text":null}]}}'
says_command "a worker's, as an object" "$worker 01 02 $address 00 00" '{"accepted":true,"input":49,"sender":2,"sender_name":"worker","number":2,"number_name":"REQUEST","name":null,"address":{"start":10,"length":37,"hex":"'"$(printf '%s\0' "$one_address" | tohex)"'","text":"'"$one_address"'"},"body":{"start":48,"length":1,"hex":"00","parts":[{"start":49,"length":0,"hex":"","text":""}]}}'
says_command "one with nothing, as an object" "$worker 01 06" '{"accepted":true,"input":9,"sender":2,"sender_name":"worker","number":6,"number_name":"DISCONNECT","name":null,"address":null,"body":null}'

# ---- each refusal

refuses_command 'a part behind the end' 30 'at byte 9: the part has the size 2, and the input ends at byte 11' "$client 01 01 02 61"
refuses_command 'a size that is cut' 30 'at byte 9: the part has a 4-byte size, and the input ends at byte 13' "$client 01 01 FF 000001"
refuses_command 'a long size of a short part' 30 'at byte 9: the part has the 4-byte size 1' "$client 01 01 FF 00000001 61"
refuses_command 'no part' 32 'there is no part' ''
refuses_command 'a first part that is too short' 32 'the first part has the length 5, not 6' '05 4D44504330 01 01'
refuses_command 'a mark in lower case' 32 'the first part is neither MDPC02 nor MDPW02' '06 6D6470633032 01 01'
refuses_command 'no second part' 33 'there is no second part' "$client"
refuses_command 'a second part that is too long' 33 'the second part has the length 2, not 1' "$worker 02 0101"
refuses_command "a client's 04" 33 'a client has no command 04' "$client 01 04 01 61 00"
refuses_command "a worker's 07" 33 'a worker has no command 07' "$worker 01 07"
refuses_command "a worker's 00" 33 'a worker has no command 00' "$worker 01 00"
refuses_command 'no body' 34 "there are 3 parts, and a client's PARTIAL has 4 to 19" "$client 01 02 01 61"
refuses_command '17 body parts' 34 "there are 20 parts, and a client's PARTIAL has 4 to 19" "$client 01 02 01 61 $(printf '0%.0s' {1..34})"
refuses_command 'READY with a body' 34 "there are 4 parts, and a worker's READY has 3" "$worker 01 01 01 61 00"
refuses_command 'FINAL without a body' 34 "there are 4 parts, and a worker's FINAL has 5 to 20" "$worker 01 04 $address 00"
refuses_command 'HEARTBEAT with a part' 34 "there are 3 parts, and a worker's HEARTBEAT has 2" "$worker 01 05 00"
refuses_command 'an empty name' 35 'the name is empty' "$worker 01 01 00"
refuses_command 'a name with 7F' 35 'the name has 7F as its byte 1, not one of 20 to 7E' "$worker 01 01 02 617F"
refuses_command 'a name with 1F' 35 'the name has 1F as its byte 0, not one of 20 to 7E' "$worker 01 01 02 1F61"
refuses_command 'a long name' 35 'the name has the length 256, and 255 may be' "$worker 01 01 FF 00000100 $(printf '61%.0s' {1..256})"
refuses_command 'a short address' 36 'the address has the length 1, not 37' "$worker 01 02 01 61 00 00"
refuses_command 'an address without its zero byte' 36 'the address has 20 as its byte 36, not a zero byte' "$worker 01 02 ${address%00}20 00 00"
refuses_command 'a byte in the separator' 37 'the part behind the address has the length 1, not 0' "$worker 01 02 $address 01 00 00"
{ unhex "$client 01 01 01 61 FF 00007FF1" && bytes 32753; } >"$room/in"
shows 'one byte too many' 1 "input         32769 bytes
refused       31: ${command_words[31]}
because       there are more than 32768 bytes" --mdp "$room/in"
bytes 100000 >"$room/in"
shows 'many bytes too many' 1 '{"accepted":false,"input":32769,"more":true,"refusal":31,"refusal_name":"LAMPREYCOIL_COMMAND_LONG","words":"command above 32,768 bytes","because":"there are more than 32768 bytes"}' --mdp --json "$room/in"

# ---- what is shown of the parts of a refused command

unhex "$worker 01 07 03 1B5B6D 28 ${long:2:80} 29 ${long:2:82} 09 61" >"$room/in"
shows 'the parts of a refused command' 1 "input         98 bytes
refused       30: ${command_words[30]}
because       at byte 96: the part has the size 9, and the input ends at byte 98
parts         5 can be split
  0           6 bytes, from byte 1: \"MDPW02\"
  1           1 byte, from byte 8: \"\\x07\"
  2           3 bytes, from byte 10: \"\\x1B[m\"
  3           40 bytes, from byte 14: \"$(bytes 40)\"
  4           41 bytes, from byte 55: \"$(bytes 40)\" ..
              no more from byte 96 on" --mdp "$room/in"
head -c 32768 /dev/zero >"$room/in"
part='tail -n 2' shows 'of many parts the first 20' 1 ' 19           0 bytes, from byte 20
              32748 more' --mdp "$room/in"
run write --type request --topic log
mv "$room/out" "$room/in"
has_lines 'a frame is no command' 1 --mdp "$room/in" -- "refused       30: ${command_words[30]}"
unhex "$worker 01 05" >"$room/in"
has_lines 'a command is no frame' 1 "$room/in" -- "refused       2: $n2"

# ---- wrong usage

for words in --summary --follow --skip-refused '--fields input --json' '--frame 0' '--payload-out x' '--frame-out x'; do
    # shellcheck disable=SC2086 # the options are words
    wrong "--mdp with $words" "--mdp shows one command, which is all of its input: leave out ${words%% *}" dump --mdp $words
done
for words in '--type request' '--topic x' '--service x' '--matchtag 1' '--frames 0-1' --errors; do
    # shellcheck disable=SC2086 # the options are words
    wrong "--mdp with $words" 'leave out what selects frames' dump --mdp $words
done
wrong '--mdp twice' '--mdp' dump --mdp --mdp
wrong '--mdp with --json and --all' 'leave out --all' dump --mdp --json --all
wrong '--mdp of a file that is not there' 'cannot read' dump --mdp "$room/no command"
wrong '--mdp of a folder' 'cannot read' dump --mdp "$room"
unhex "$worker 01 05" >"$room/in"
unwritten '--mdp to a full disk' 'cannot write standard output' dump --mdp "$room/in"

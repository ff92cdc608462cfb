#!/usr/bin/env bash
# Tests the host programs. flux_frame: the bytes of paper 01, each refusal that it can meet, files and
# wrong usage; host/test/write.sh has more of write, host/test/dump.sh of dump, host/test/capture.sh its
# captures of several frames, host/test/cut.sh what it writes to files, host/test/select.sh the frames that
# it selects or passes, host/test/follow.sh captures that grow, host/test/json.sh its payloads that are
# JSON or are not, host/test/fields.sh and shown.sh what is written of them, host/test/mdp.sh its commands.
# flux_floor: host/test/floor.sh, which names those beside it, and host/test/audit.sh. What both write:
# host/test/outputs.sh. The header: host/test/header.sh. The fuzzing harnesses: host/test/fuzz.sh. Then the
# list of a stream, the check of JSON, the commands, the step and the walk through it, the examples of
# docs/C-GUIDE.md, and the stack that each call takes. The programs are FLUX_FRAME and FLUX_FLOOR, or else
# what `make host` builds; the archive is ARCHIVE, or else the one of `make archive`. The last line is
# 'N passed, M failed'.
set -u
cd "$(dirname "$0")/.." || exit 2

if [ -z "${FLUX_FRAME:-}" ] || [ -z "${FLUX_FLOOR:-}" ]; then
    FLUX_FRAME=${FLUX_FRAME:-target/host/flux_frame}
    FLUX_FLOOR=${FLUX_FLOOR:-target/host/flux_floor}
    make --no-print-directory -s host >&2 || { echo "host/test.sh: make host failed" >&2; exit 2; }
fi
# Absolute, so that a test may run them in another folder.
FLUX_FRAME=$(realpath "$FLUX_FRAME") && FLUX_FLOOR=$(realpath "$FLUX_FLOOR") || exit 2

ARCHIVE=${ARCHIVE:-target/staticlib/liblampreycoil.a}
room=$(mktemp -d) || exit 2
# A child that is ended by a signal while it is still a copy of this shell runs the trap too: the room is not its.
trap '[ "$BASHPID" != "$$" ] || rm -rf "$room"' EXIT
passed=0 failed=0

# ---- what the tests are written with

unhex() { printf '%b' "$(printf '%s' "$*" | tr -d ' \n' | sed 's/../\\x&/g')"; }
tohex() { od -An -v -tx1 | tr -d ' \n' | tr a-f A-F; }
bytes() { head -c "$1" /dev/zero | tr '\0' 'x'; }

# Runs the program with the words given; leaves its status, and the files out and err.
run() {
    "$FLUX_FRAME" "$@" >"$room/out" 2>"$room/err"
    status=$?
}

report() { # GOOD LABEL
    if [ "$1" -eq 0 ]; then
        passed=$((passed + 1))
    else
        failed=$((failed + 1))
        echo "FAILED: $2 (status $status)"
        sed 's/^/  out: /' "$room/out" | head -n 15 | tr -d '\0'
        sed 's/^/  err: /' "$room/err" | head -n 5
    fi
}

# The frame written by the words is this one.
writes() { # LABEL HEX WORDS...
    local label=$1 want
    want=$(printf '%s' "$2" | tr -d ' \n')
    shift 2
    run write "$@"
    [ "$status" -eq 0 ] && [ "$(tohex <"$room/out")" = "$want" ] && [ ! -s "$room/err" ]
    report $? "$label"
}

# The words are refused with this number and text, and nothing is written.
refuses() { # LABEL NUMBER TEXT WORDS...
    local label=$1 line="flux_frame: refused, $2: $3"
    shift 3
    run write "$@"
    [ "$status" -eq 1 ] && [ ! -s "$room/out" ] && [ "$(cat "$room/err")" = "$line" ]
    report $? "$label"
}

# The dump of these bytes, on standard input, is exactly this text.
dumps() { # LABEL HEX TEXT
    unhex "$2" >"$room/in"
    run dump <"$room/in"
    [ "$status" -eq 0 ] && [ "$(cat "$room/out")" = "$3" ] && [ ! -s "$room/err" ]
    report $? "$1"
}

# The dump of these bytes is the refusal with this number and text.
dump_refuses() { # LABEL NUMBER TEXT HEX
    unhex "$4" >"$room/in"
    run dump "$room/in"
    [ "$status" -eq 1 ] && grep -qxF "refused       $2: $3" "$room/out" && [ ! -s "$room/err" ]
    report $? "$1"
}

# The words are wrong usage, or name a file that cannot be used; what is said has this text in it.
wrong_for() { # RUN LABEL TEXT WORDS...
    local runs=$1 label=$2 text=$3
    shift 3
    "$runs" "$@" </dev/null
    [ "$status" -eq 2 ] && [ ! -s "$room/out" ] && grep -qF -- "$text" "$room/err"
    report $? "$label"
}
wrong() { wrong_for run "$@"; } # LABEL TEXT WORDS...

# The words and --help print a help with this text in it.
helps() { # RUN TEXT WORDS...
    local runs=$1 text=$2
    shift 2
    "$runs" "$@" --help
    [ "$status" -eq 0 ] && grep -qF -- "$text" "$room/out" && [ ! -s "$room/err" ]
    report $? "$runs $* --help"
}

# A program of host/test/ compiles with the header and the archive; each line that it writes is a test.
program() { # NAME [COMPILER OPTIONS...]
    local name=$1 line
    shift
    [ $# -gt 0 ] || set -- "${CC:-gcc}" -std=c99
    "$1" -O2 "${@:2}" -Wall -Wextra -Wconversion -pedantic -Werror -Iinclude -I"$room" \
        -o "$room/$name" "host/test/$name.c" -x none "$ARCHIVE" >"$room/out" 2>"$room/err" &&
        "$room/$name" >"$room/out" 2>"$room/err"
    status=$?
    report "$status" "host/test/$name.c by $*"
    [ "$status" -eq 0 ] || return
    while read -r line; do
        case $line in
        passed:*) passed=$((passed + 1)) ;;
        *) failed=$((failed + 1)) && echo "$line" ;;
        esac
    done <"$room/out"
}

# ---- the words of paper 01

n1='fewer than 8 bytes, or fewer than 8 plus the body length'
n2='first four bytes wrong'
n3='body above 32,768'
n4="a part's size or data passes the body's end, or a 4-byte size below 255"
n5='a 69th part begins'
n6='no part at all, or last part not 20 bytes'
n7='parts disagree with type or flags'
n8='a route not well-formed, or more than 64'
n9='topic not well-formed'
n10="request nodeid 4294967294; event's unused field not zero"
n20="the header's magic, its first byte, not 8E"
n21="the header's version, its second byte, not 1"
n22='type none of the four'
n23='flag 80 set'

# What dump tells of a byte at which a payload is not JSON.
stands='cannot stand there'

# What the programs tell is the header's version.
version=$(sed -n 's/^.define LAMPREYCOIL_VERSION "\(.*\)"$/\1/p' include/lampreycoil.h)

# ---- the bytes of paper 01

control='FF EE 00 12 00 00 00 15 14 8E 01 08 00 FF FF FF FF 00 00 00 00 00 00 00 02 00 00 00 03'
log='FF EE 00 12 00 00 00 1B 00 04 6C 6F 67 00 14 8E 01 01 09 FF FF FF FF 00 00 00 00 FF FF FF FF 00 00 00 01'

writes 'control, as in paper 01' "$control" --type control --control-type 2 --status 3
writes 'log, as in paper 01' "$log" --type request --topic log --matchtag 1
writes 'log, every option written out' "$log" --type request --topic log --matchtag 1 --nodeid any --userid unknown --rolemask 0
writes 'log, by raw type and flags' "$log" --type-number 1 --flags 09 --first 0xFFFFFFFF --second 1 --topic log

# What is shown of each behind the line with its length.
control_shown='type          8 control
flags         00
userid        4294967295 unknown
rolemask      00000000
control type  2
status        3
routes        0
topic         none
payload       none
header        20 bytes, from byte 9'
log_shown='type          1 request
flags         09 topic route
userid        4294967295 unknown
rolemask      00000000
nodeid        4294967295 any
matchtag      1
routes        0
delimiter     0 bytes, from byte 9
topic         "log" (3 bytes), from byte 10
payload       none
header        20 bytes, from byte 15'

dumps 'dump of control' "$control" "frame         29 bytes
$control_shown"
dumps 'dump of log' "$log" "frame         35 bytes
$log_shown"

bytes 32736 >"$room/most"
bytes 32737 >"$room/over"
run write --type request --topic log --matchtag 1 --payload "$room/most"
[ "$status" -eq 0 ] && [ "$(wc -c <"$room/out")" -eq 32776 ]
report $? 'log with 32,736 bytes of payload is written'
cp "$room/out" "$room/most.frame"
run dump "$room/most.frame"
[ "$status" -eq 0 ] && grep -qxF "payload       32736 bytes, from byte 19, not JSON: byte 0 of it, 78, $stands" "$room/out" && grep -qx ' *32672 bytes more (--all shows all)' "$room/out"
report $? 'log with 32,736 bytes of payload is read'
refuses 'log with 32,737 bytes of payload is 3' 3 "$n3 (with a payload of 32737 bytes the body has 32769)" --type request --topic log --matchtag 1 --payload "$room/over"

# The size of a payload of 254 and of 255 bytes, which stands behind the topic, at byte 14.
run write --type request --topic log --payload-text "$(bytes 254)"
[ "$status" -eq 0 ] && [ "$(tail -c +15 "$room/out" | head -c 2 | tohex)" = FE78 ]
report $? '254 bytes have size FE'
run write --type request --topic log --payload-text "$(bytes 255)"
[ "$status" -eq 0 ] && [ "$(tail -c +15 "$room/out" | head -c 6 | tohex)" = FF000000FF78 ]
report $? '255 bytes have size FF 00 00 00 FF'
tail254=$(bytes 254 | tohex)
header='14 8E 01 01 0B FF FF FF FF 00 00 00 00 FF FF FF FF 00 00 00 01'
dump_refuses 'size FF 00 00 00 FE is 4' 4 "$n4" "FF EE 00 12 00 00 01 1E 00 04 6C 6F 67 00 FF 00 00 00 FE $tail254 $header"

# ---- other messages

one=00000000-0000-0000-0000-000000000001
two=deadbeef-0123-4567-89ab-cdef01234567
run write --type response --errnum 38 --matchtag 7 --topic 'kvs."get' --route $two --route $one \
    --payload-text hi --userid 1000 --rolemask 0x11 --noresponse --upstream --private --streaming -o "$room/response"
[ "$status" -eq 0 ] && [ ! -s "$room/out" ]
report $? 'a response goes to the file named by -o'
dumps 'dump of a response with two routes' "$(tohex <"$room/response")" "frame         119 bytes
type          2 response
flags         7F topic payload noresponse route upstream private streaming
userid        1000
rolemask      00000011 owner nameless:00000010
errnum        38 ENOSYS, Function not implemented
matchtag      7
routes        2 (top of the stack first)
  0           $two, from byte 9
  1           $one, from byte 47
delimiter     0 bytes, from byte 85
topic         \"kvs.\\\"get\" (8 bytes), from byte 86
payload       2 bytes, from byte 96, not JSON: byte 0 of it, 68, $stands
  0000        68 69                                            |hi|
              ^^                                                ^
header        20 bytes, from byte 99"
unhex "$log" >"$room/log"
run dump - <"$room/log"
[ "$status" -eq 0 ] && grep -qx 'matchtag      1' "$room/out"
report $? 'dump - reads standard input'

event='FF EE 00 12 00 00 00 1B 04 75 70 FF 00 00 14 8E 01 04 03 00 00 00 00 00 00 00 00 00 00 00 05 00 00 00 00'
writes 'an event with an empty payload' "$event" --type event --seq 5 --userid 0 --topic $'up\xFF' --payload-text ''
dumps 'dump of an event' "$event" 'frame         35 bytes
type          4 event
flags         03 topic payload
userid        0
rolemask      00000000
sequence      5
unused        0
routes        0
topic         "up\xFF" (3 bytes), from byte 9
payload       0 bytes, from byte 14, not JSON: it is empty
header        20 bytes, from byte 15'
printf hi | "$FLUX_FRAME" write --type event --topic up --payload - -o "$room/piped"
run dump "$room/piped"
[ "$status" -eq 0 ] && grep -qxF "payload       2 bytes, from byte 13, not JSON: byte 0 of it, 68, $stands" "$room/out"
report $? 'a payload from standard input'

# shellcheck source=host/test/write.sh
. host/test/write.sh

# ---- refusals of the reader

start='FF EE 00 12'
fields='00 00 00 00 00 00 00 00 00 00 00 02 00 00 00 03'
parts68=$(for _ in $(seq 68); do printf '00'; done)
dump_refuses 'no bytes are 1' 1 "$n1" ''
dump_refuses '7 bytes are 1' 1 "$n1" "$start 00 00 00"
dump_refuses 'a body cut short is 1' 1 "$n1" "${control% 03}"
dump_refuses 'a wrong start is 2' 2 "$n2" "FF EE 00 13 ${control#"$start "}"
dump_refuses 'a body of 32,769 is 3' 3 "$n3" "$start 00 00 80 01"
dump_refuses 'a part past the body is 4' 4 "$n4" "$start 00 00 00 01 01 00 00"
dump_refuses 'a 69th part is 5' 5 "$n5" "$start 00 00 00 45 $parts68 00"
dump_refuses 'no part is 6' 6 "$n6" "$start 00 00 00 00"
dump_refuses 'a header of 19 bytes is 6' 6 "$n6" "$start 00 00 00 14 13 8E 01 08 00 ${fields% 03}"
dump_refuses 'a wrong magic is 20' 20 "$n20" "$start 00 00 00 15 14 8F 01 08 00 $fields"
dump_refuses 'a wrong version is 21' 21 "$n21" "$start 00 00 00 15 14 8E 02 08 00 $fields"
dump_refuses 'type 3 is 22' 22 "$n22" "$start 00 00 00 15 14 8E 01 03 00 $fields"
dump_refuses 'flag 80 is 23' 23 "$n23" "$start 00 00 00 15 14 8E 01 08 80 $fields"
dump_refuses 'a control with a topic flag is 7' 7 "$n7" "$start 00 00 00 15 14 8E 01 08 01 $fields"
dump_refuses 'a route of one byte is 8' 8 "$n8" "$start 00 00 00 1B 01 41 00 02 41 00 14 8E 01 01 09 $fields"
dump_refuses 'a topic without its zero is 9' 9 "$n9" "$start 00 00 00 17 01 41 14 8E 01 04 01 $fields"
dump_refuses "an event's unused field is 10" 10 "$n10" "$start 00 00 00 18 02 41 00 14 8E 01 04 01 $fields"

# shellcheck source=host/test/dump.sh
. host/test/dump.sh

# shellcheck source=host/test/capture.sh
. host/test/capture.sh

# shellcheck source=host/test/cut.sh
. host/test/cut.sh

# shellcheck source=host/test/select.sh
. host/test/select.sh

# shellcheck source=host/test/follow.sh
. host/test/follow.sh

# shellcheck source=host/test/json.sh
. host/test/json.sh

# shellcheck source=host/test/mdp.sh
. host/test/mdp.sh

# shellcheck source=host/test/fields.sh
. host/test/fields.sh

# shellcheck source=host/test/shown.sh
. host/test/shown.sh

# ---- usage

helps run '--payload-text'
helps run '--payload-text' write
helps run '--frame-out FILE' dump
helps run '--payload-json TEXT' write
helps run '--fields A,B,C' dump
helps run 'a route, in lower case' write
helps run '  4  the verdict is no' dump
wrong 'no command' 'flux_frame dump [OPTIONS] [FILE]'
wrong 'an unknown command' "unknown command 'send'" send
wrong 'an unknown option of write' "unknown option '--colour'" write --type event --colour red
wrong 'an unknown option of dump' "unknown option '--some'" dump --some
wrong 'two files to dump' 'one file' dump "$room/log" "$room/log"
wrong 'no type' 'needs --type' write --topic x
wrong 'two types' 'twice' write --type event --type-number 4
wrong 'an unknown type' "not 'keepalive'" write --type keepalive
wrong 'an option without its value' '--topic needs a value' write --type event --topic
wrong 'a number with a tail' "not '12x'" write --type request --topic x --matchtag 12x
wrong 'a negative number' "not '-1'" write --type request --topic x --matchtag -1
wrong 'a number above 4 bytes' "not '4294967296'" write --type request --topic x --nodeid 4294967296
wrong 'flags above one byte' "not '100'" write --type event --topic x --flags 100
wrong "another type's field" '--errnum does not belong' write --type request --topic x --errnum 1
wrong 'one field given twice' '--nodeid has already given' write --type request --topic x --nodeid 1 --first 2
wrong 'a payload that is not there' "cannot read $room/missing" write --type event --topic x --payload "$room/missing"
wrong 'a frame that is not there' "cannot read $room/missing" dump "$room/missing"
wrong 'a folder for a frame' "cannot read $room" dump "$room"
wrong 'an output that cannot be made' "cannot write $room/no/where" write --type event --topic x -o "$room/no/where"
printf hi >"$room/kept-payload"
wrong 'an output that is the payload' "$room/kept-payload is the payload itself: name another file" \
    write --type event --topic x --payload "$room/kept-payload" -o "$room/kept-payload"
[ "$(cat "$room/kept-payload")" = hi ]
report $? 'the payload stays as it was'
bytes 1048577 >"$room/huge"
wrong 'a payload that is too long' 'longer than 1048576 bytes' write --type event --topic x --payload "$room/huge"

# ---- flux_floor

# shellcheck source=host/test/floor.sh
. host/test/floor.sh

# shellcheck source=host/test/floor_files.sh
. host/test/floor_files.sh

# shellcheck source=host/test/floor_trip.sh
. host/test/floor_trip.sh

# shellcheck source=host/test/floor_json.sh
. host/test/floor_json.sh

# shellcheck source=host/test/floor_dot.sh
. host/test/floor_dot.sh

# shellcheck source=host/test/floor_usage.sh
. host/test/floor_usage.sh

# shellcheck source=host/test/audit.sh
. host/test/audit.sh

# ---- what both write

# shellcheck source=host/test/outputs.sh
. host/test/outputs.sh

# ---- the header

# The examples of docs/C-GUIDE.md, which step.c, stream.c and guide.c in host/test/ run.
# shellcheck source=host/test/examples.sh
. host/test/examples.sh
mkdir "$room/examples" && examples docs/C-GUIDE.md "$room/examples" || exit 2

# shellcheck source=host/test/header.sh
. host/test/header.sh

# shellcheck source=host/test/fuzz.sh
. host/test/fuzz.sh

# ---- the list of a stream, the check of JSON, the commands, the step, the examples of docs/C-GUIDE.md, the walk, and the stack

program read_fault
program read_stream
program check_json
program commands
program step
program stream
program guide
program walk
# The header's functions take what the compiler makes of them: by each that is here, at each level.
for words in "${CC:-gcc}" clang; do
    command -v "$words" >/dev/null || { echo "no $words here: the stack is not measured by it" && continue; }
    for level in -O0 -O2 -O3; do
        program stack "$words" -std=c99 "$level"
        program stack_walk "$words" -std=c99 "$level"
    done
done
sed -n 's/^passed: stack of \(.*\): \([0-9]*\) bytes$/\2 bytes of stack: \1/p' "$room/out" | sort -n | tail -n 1
# What they measure is what is said.
grep -qF 'less than 3,072' docs/C-GUIDE.md && grep -qF '3,072 bytes of stack' include/lampreycoil.h &&
    grep -q 'MESSAGE_STACK = 3072,' host/test/stack.c
report $? 'the stack of write_message, in words'

echo "$passed passed, $failed failed"
[ "$failed" -eq 0 ]

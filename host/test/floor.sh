# Tests flux_floor: part of host/test.sh, which has set FLUX_FLOOR and has the helpers. Here are the helpers for
# it, check and show of what is valid, and walks and ways home with their statuses. floor_files.sh has mistakes in
# a floor's file, floor_usage.sh wrong usage, floor_json.sh --json, floor_trip.sh trips and floor_dot.sh graphs.

example=host/example.floor

# Runs flux_floor with the words given; leaves its status, and the files out and err.
floor() {
    "$FLUX_FLOOR" "$@" >"$room/out" 2>"$room/err"
    status=$?
}

# The words print exactly this text.
floor_prints() { # LABEL TEXT WORDS...
    local label=$1 text=$2
    shift 2
    floor "$@"
    [ "$status" -eq 0 ] && [ "$(cat "$room/out")" = "$text" ] && [ ! -s "$room/err" ]
    report $? "$label"
}

# The words have this status, this result in the first line, and the same status without a word by --quiet.
walks() { # LABEL STATUS RESULT WORDS...
    local label=$1 want=$2 result=$3
    shift 3
    floor "$@" </dev/null
    [ "$status" -eq "$want" ] && [ "$(head -n 1 "$room/out")" = "$result" ] && [ ! -s "$room/err" ]
    report $? "$label"
    "$FLUX_FLOOR" "$@" --quiet >"$room/quiet" 2>&1 </dev/null
    status=$?
    [ "$status" -eq "$want" ] && [ ! -s "$room/quiet" ]
    report $? "$label, --quiet"
}

# A step of the last walk was told so.
told() { # TEXT
    grep -qF -- "$1" "$room/out"
    report $? "told: $1"
}

floor_wrong() { wrong_for floor "$1" "flux_floor: $2" "${@:3}"; } # LABEL TEXT WORDS...

# A chain of ranks: each is the parent of the next.
chain() { # RANKS
    local rank
    echo '0 none 00000000-0123-4567-89ab-cdef01234567'
    for rank in $(seq 1 $(($1 - 1))); do
        printf '%d %d %08x-0123-4567-89ab-cdef01234567\n' "$rank" $((rank - 1)) "$rank"
    done
}

# So many ranks, each but rank 0 below another with half its number.
bush() { chain "$1" | awk '{ if (NR > 2) $2 = int(($1 - 1) / 2); print }'; } # RANKS

# ---- check and show

size='7 ranks, depth 2, 2 service names, 3 registrations'
floor_prints 'check of the example' "$example: a valid floor: $size" check "$example"
floor_prints 'show of the example' "$example: $size"'

rank     identity                              services
0        00000000-0123-4567-89ab-cdef01234567  log
+- 1     00000001-0123-4567-89ab-cdef01234567  bench
|  +- 3  00000003-0123-4567-89ab-cdef01234567
|  `- 4  00000004-0123-4567-89ab-cdef01234567  bench
`- 2     00000002-0123-4567-89ab-cdef01234567
   +- 5  00000005-0123-4567-89ab-cdef01234567
   `- 6  00000006-0123-4567-89ab-cdef01234567' show "$example"
tail -n +2 "$room/out" >"$room/picture"
{ grep '^#' "$example"; grep -v '^#' "$example" | tac | sed 's/$/ # a rank\r/'; } >"$room/tac"
floor show - <"$room/tac"
tail -n +2 "$room/out" >"$room/other"
[ "$status" -eq 0 ] && cmp -s "$room/other" "$room/picture" && [ "$(head -n 1 "$room/out")" = "standard input: $size" ]
report $? 'show of standard input, its lines in another order, with comments and carriage returns'
for words in "check $example" "show $example"; do
    # shellcheck disable=SC2086
    floor $words --quiet
    [ "$status" -eq 0 ] && [ ! -s "$room/out" ] && [ ! -s "$room/err" ]
    report $? "--quiet of ${words%% *}"
done
echo '0 none 00000000-0123-4567-89ab-cdef01234567 log' >"$room/floor"
floor_prints 'one rank and one service' "$room/floor: a valid floor: 1 rank, depth 0, 1 service name, 1 registration" check "$room/floor"
chain 17 >"$room/floor"
none='0 service names, 0 registrations'
floor_prints 'a depth of 16 is allowed' "$room/floor: a valid floor: 17 ranks, depth 16, $none" check "$room/floor"
floor show "$room/floor"
[ "$status" -eq 0 ] && [ "$(wc -l <"$room/out")" -eq 20 ] && grep -q '^ \{45\}`- 16  00000010-' "$room/out"
report $? 'show of a depth of 16'
chain 18 | sed '18s/ 16 / 0 /' >"$room/floor"
floor_prints 'a floor behind --' "$room/floor: a valid floor: 18 ranks, depth 16, $none" check -- "$room/floor"
sed 's/^3 .*/3 1 00000003-0123-4567-89ab-cdef01234567 a b\xFFc d/' "$example" >"$room/floor"
floor show "$room/floor"
[ "$status" -eq 0 ] && grep -qF '|  +- 3  00000003-0123-4567-89ab-cdef01234567  a b\xFFc d' "$room/out"
report $? 'show of more services, and of a byte that is no text'

# Services that need several lines stand below each other.
many=$(seq -f 'service-%02g' -s ' ' 30)
sed "s/^1 .*/& $many/;s/^6 .*/& $many/" "$example" >"$room/floor"
floor show "$room/floor"
[ "$status" -eq 0 ] && [ "$(awk '{ if (length > most) most = length } END { print most }' "$room/out")" -le 100 ] &&
    [ "$(grep -o 'service-[0-9]*' "$room/out" | sort | uniq -c | awk '$1 == 2' | wc -l)" -eq 30 ] &&
    grep -qxF '|  |                                           service-05 service-06 service-07 service-08' "$room/out" &&
    grep -qx ' \{47\}service-29 service-30' "$room/out" &&
    [ "$(head -n 1 "$room/out")" = "$room/floor: 7 ranks, depth 2, 32 service names, 63 registrations" ]
report $? 'show of many services, in lines of 100 columns'

# ---- W1 to W11

walks W1 0 'delivered at rank 1, links 1: 3 > 1' walk --enter 3 "$example" --topic bench.run
told 'step 1    rank 3 forwards it to rank 1, its parent: it has no service "bench"'
told 'step 2    rank 1 delivers it: it has the service "bench" (record 1)'
walks W2 0 'delivered at rank 4, links 0: 4' walk --enter 4 "$example" --topic bench.run
walks W3 4 'error reply 38 ENOSYS at rank 0, links 2: 5 > 2 > 0' walk --enter 5 "$example" --topic bench.run --matchtag 9 -o "$room/reply"
told 'step 3    rank 0 makes the error reply: it has no service "bench", and it has no parent (error 38, ENOSYS)'
walks W4 0 'delivered at rank 0, links 2: 5 > 2 > 0' walk --enter 5 "$example" --topic log
floor_prints W5 'delivered at rank 4, links 4: 6 > 2 > 0 > 1 > 4

enters    at rank 6
message   request "bench.run", nodeid 4, matchtag 0: 41 bytes, 0 routes

step 1    rank 6 forwards it to rank 2, its parent: rank 4 is not below rank 6
step 2    rank 2 forwards it to rank 0, its parent: rank 4 is not below rank 2
step 3    rank 0 forwards it to rank 1, its child: rank 4 is below rank 1
step 4    rank 1 forwards it to rank 4, its child: that is the request'"'"'s rank
step 5    rank 4 delivers it: it is the request'"'"'s rank, and has the service "bench" (record 2)

at rest   request "bench.run", nodeid 4, matchtag 0: 193 bytes, 4 routes
  route 0   00000001-0123-4567-89ab-cdef01234567  rank 1
  route 1   00000000-0123-4567-89ab-cdef01234567  rank 0
  route 2   00000002-0123-4567-89ab-cdef01234567  rank 2
  route 3   00000006-0123-4567-89ab-cdef01234567  rank 6

rank     visited  [services]
0        step 3  [log]
+- 1     step 4  [bench]
|  +- 3  -
|  `- 4  step 5: at rest here  [bench]
`- 2     step 2
   +- 5  -
   `- 6  step 1' walk --enter 6 "$example" --nodeid 4 --topic bench.run
walks W6 4 'error reply 38 ENOSYS at rank 5, links 4: 3 > 1 > 0 > 2 > 5' walk --enter=3 "$example" --nodeid=5 --topic=bench.run
told 'rank 5 makes the error reply: it is the request'"'"'s rank, and has no service "bench" (error 38, ENOSYS)'
walks W7 4 'error reply 113 EHOSTUNREACH at rank 3, links 0: 3' walk --enter 3 "$example" --nodeid 7 --topic bench.run
told 'step 1    rank 3 makes the error reply: rank 7 is not on this floor (error 113, EHOSTUNREACH)'
walks W8 0 'delivered at rank 1, links 1: 4 > 1' walk --enter 4 "$example" --nodeid 4 --upstream --topic bench.run
told 'step 1    rank 4 forwards it to rank 1, its parent: rank 4 is named and is passed by'
walks W9 4 'error reply 38 ENOSYS at rank 0, links 0: 0' walk --enter 0 "$example" --nodeid 0 --upstream --topic log.put
told 'step 1    rank 0 makes the error reply: rank 0 is named and is passed by, and it has no parent (error 38, ENOSYS)'
walks W10 4 'error reply 38 ENOSYS at rank 0, links 2: 3 > 1 > 0' walk --enter 3 "$example" --topic benchmark.run
walks W11 5 'silenced 38 ENOSYS at rank 0, links 2: 5 > 2 > 0' walk --enter 5 "$example" --topic bench.run --noresponse -o "$room/silenced"
told 'step 3    rank 0 drops it in silence, for noresponse is set: it has no service "bench"'
[ "$(wc -c <"$room/silenced")" -eq $((41 + 2 * 38)) ]
report $? 'the request that is silenced is what is left'
walks 'silenced 113' 5 'silenced 113 EHOSTUNREACH at rank 5, links 0: 5' walk --enter 5 "$example" --topic x --nodeid 9 --noresponse

# ---- upstream: the broker that the nodeid names is passed by, and no other

walks 'upstream, the entry that is not named' 0 'delivered at rank 4, links 0: 4' walk --enter 4 "$example" --nodeid 5 --upstream --topic bench.run
told 'step 1    rank 4 delivers it: it has the service "bench" (record 2)'
walks 'upstream, the named rank on the way' 4 'error reply 38 ENOSYS at rank 0, links 2: 3 > 1 > 0' walk --enter 3 "$example" --nodeid 1 --upstream --topic bench.run
told 'step 1    rank 3 forwards it to rank 1, its parent: it has no service "bench"'
told 'step 2    rank 1 forwards it to rank 0, its parent: rank 1 is named and is passed by'
told 'step 3    rank 0 makes the error reply: it has no service "bench", and it has no parent (error 38, ENOSYS)'
walks 'upstream, a rank that is not on this floor' 0 'delivered at rank 0, links 0: 0' walk --enter 0 "$example" --nodeid 7 --upstream --topic log.put
walks 'upstream, any rank' 0 'delivered at rank 4, links 0: 4' walk --enter 4 "$example" --nodeid any --upstream --topic bench.run
sed 's/^3 .*/& bench/' "$example" >"$room/three.floor"
walks 'upstream, the service of rank 3 itself' 0 'delivered at rank 3, links 0: 3' walk --enter 3 "$room/three.floor" --nodeid 5 --upstream --topic bench.run
told 'step 1    rank 3 delivers it: it has the service "bench" (record 2)'

# ---- bytes left, frames, and home

"$FLUX_FRAME" write --type response --errnum 38 --matchtag 9 --topic bench.run \
    --route 00000002-0123-4567-89ab-cdef01234567 --route 00000005-0123-4567-89ab-cdef01234567 >"$room/want"
status=0
cmp "$room/reply" "$room/want" >"$room/out" 2>"$room/err"
report $? 'the reply of W3 is what the writer makes'
walks 'the reply of W3 goes home' 4 'home at rank 5 with errnum 38 ENOSYS, links 2: 0 > 2 > 5' home --from 0 -o "$room/home" "$example" "$room/reply"
told 'starts    at rank 0'
told 'step 1    rank 0 forwards it to rank 2, its child: the top route is rank 2'"'"'s, and is taken off'
told 'step 3    rank 5 has it home: no route is left, so the request came from this broker'
"$FLUX_FRAME" write --type response --errnum 38 --matchtag 9 --topic bench.run >"$room/want"
cmp "$room/home" "$room/want" >"$room/out" 2>"$room/err"
report $? 'at home the reply has the routes of the request on entry'
walks 'a response for a client' 0 'home at rank 3 with errnum 0, links 0: 3' home --from 3 "$example" --topic x --route $two
told 'the top route is no broker'"'"'s, so it is a client'"'"'s'
walks 'an errnum without a name' 4 'home at rank 3 with errnum 4294967295, links 0: 3' home --from 3 "$example" --topic x --errnum 4294967295
walks 'a walk of a response' 0 'home at rank 3 with errnum 0, links 0: 3' walk --enter 3 "$example" --type response --topic x
told 'starts    at rank 3'
walks 'a walk of a response with an error' 4 'home at rank 3 with errnum 1 EPERM, links 0: 3' walk --enter 3 "$example" --type response --topic x --errnum 1
walks 'a frame from a file' 0 'delivered at rank 0, links 2: 6 > 2 > 0' walk --enter 6 -o "$room/left" "$example" "$room/log"
[ "$(wc -c <"$room/left")" -eq $((35 + 2 * 38)) ]
report $? 'only the frame is left'
floor walk --enter 0 "$example" - <"$room/log"
[ "$status" -eq 0 ] && [ "$(head -n 1 "$room/out")" = 'delivered at rank 0, links 0: 0' ]
report $? 'a frame from standard input'

# The tree is drawn of 64 ranks, and of more where it is asked for.
bush 64 | sed '1s/$/ s/' >"$room/64.floor"
bush 65 | sed '1s/$/ s/' >"$room/65.floor"
floor walk --enter 0 "$room/64.floor" --topic s
[ "$status" -eq 0 ] && [ "$(grep -c -e '- [0-9]* * -$' "$room/out")" -eq 63 ]
report $? 'a tree of 64 ranks is drawn'
floor walk --enter 0 "$room/65.floor" --topic s
[ "$status" -eq 0 ] && [ "$(tail -n 1 "$room/out")" = 'the tree has 65 ranks: --tree draws it' ] && ! grep -q '^rank ' "$room/out"
report $? 'a tree of 65 ranks is not'
floor walk --enter 0 "$room/65.floor" --topic s --tree
[ "$status" -eq 0 ] && [ "$(grep -c -e '- [0-9]* * -$' "$room/out")" -eq 64 ]
report $? 'but it is by --tree'
bush 1024 | awk '{ print $0, "s" }' >"$room/most.floor"
walks 'the most ranks' 0 'delivered at rank 1000, links 0: 1000' walk --enter 1000 "$room/most.floor" --topic s.x

# A message in one line is worded as flux_frame dump --summary words it.
told_as() { # LINE WORDS...
    floor walk --enter 1 "$example" "${@:2}"
    grep -qxF "message   $1" "$room/out"
    report $? "a message of flux_floor: $1"
}
told_as 'response "x", errnum 38 ENOSYS, matchtag 0, private: 71 bytes, 1 route' --type response --topic x --errnum 38 --route $two --private
told_as 'response "x", errnum 4294967295, matchtag 0: 33 bytes, 0 routes' --type response --topic x --errnum 4294967295
told_as 'request "x", nodeid any, matchtag 2, noresponse, upstream, streaming: 33 bytes, 0 routes' \
    --topic x --matchtag 2 --noresponse --upstream --streaming
told_as 'event "x", sequence 5: 32 bytes, 0 routes' --type event --topic x --seq 5
told_as 'control, control type 2, status 3: 29 bytes, 0 routes' --type control --control-type 2 --status 3

# ---- refusals

n12='forwarding would make 65 routes or a body above 32,768'
n17='rank not in the tree'
n18='step or walk given an event or control'
n19="a response's top route is a broker that is no neighbour, itself included"
walks 'a rank outside the floor is 17' 1 "refused 17 at rank 7, links 0: $n17" walk --enter 7 "$example" --topic x
told "step 1    rank 7 refuses it, 17: $n17"
walks 'an event is 18' 1 "refused 18 at rank 3, links 0: 3: $n18" walk --enter 3 "$example" --type event --topic x
walks 'a control is 18' 1 "refused 18 at rank 3, links 0: 3: $n18" walk --enter 3 "$example" --type control
walks 'no neighbour is 19' 1 "refused 19 at rank 2, links 1: 0 > 2: $n19" home --from 0 -o "$room/none" "$example" --topic x \
    --route 00000002-0123-4567-89ab-cdef01234567 --route 00000003-0123-4567-89ab-cdef01234567
! grep -q 'at rest' "$room/out" && grep -q '^left      response "x"' "$room/out" && [ ! -e "$room/none" ]
report $? 'a refusal leaves no file, and nothing is at rest'
walks 'a 65th route is 12' 1 "refused 12 at rank 2, links 1: 5 > 2: $n12" walk --enter 5 "$example" --topic x "${routes[@]:0:126}"

# A frame in a file that is refused: the file is named. By --quiet nothing is said.
refuses_frame() { # LABEL NUMBER TEXT
    floor walk --enter 0 "$example" "$room/in"
    [ "$status" -eq 1 ] && [ ! -s "$room/out" ] && [ "$(cat "$room/err")" = "flux_floor: $room/in: refused, $2: $3" ]
    report $? "$1"
    floor walk --enter 0 "$example" "$room/in" --quiet
    [ "$status" -eq 1 ] && [ ! -s "$room/out" ] && [ ! -s "$room/err" ]
    report $? "$1, --quiet"
}
printf 'no frame' >"$room/in"
refuses_frame 'bytes that are no frame are 2' 2 "$n2"
head -c 34 "$room/log" >"$room/in"
refuses_frame 'a frame cut short is 1' 1 "$n1"
floor walk --enter 0 "$example" --topic ''
[ "$status" -eq 1 ] && [ ! -s "$room/out" ] && [ "$(cat "$room/err")" = "flux_floor: refused, 9: $n9 (--topic is empty)" ]
report $? 'an empty topic is 9'
floor walk --enter 0 "$example" --topic '' --quiet
[ "$status" -eq 1 ] && [ ! -s "$room/out" ] && [ ! -s "$room/err" ]
report $? 'an empty topic is 9, --quiet'
floor_wrong 'a request without a topic is not played' 'a request needs --topic' walk --enter 0 "$example" --matchtag 1
floor_wrong 'a response without a topic is not played' 'a response needs --topic' home --from 0 "$example" --matchtag 1

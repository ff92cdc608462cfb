# Tests of flux_floor trip: a request's walk, and its reply or answer on the way home. Part of host/test.sh; the
# helpers are in host/test/floor.sh.

five=00000005-0123-4567-89ab-cdef01234567

# ---- an error reply

walks 'a trip that ends with an error reply' 4 'error reply 38 ENOSYS home at rank 5, links 4: 5 > 2 > 0 > 2 > 5' \
    trip --enter 5 "$example" --topic bench.run --matchtag 9 -o "$room/trip"
cmp -s "$room/trip" "$room/home"
report $? 'what it leaves is what walk and home leave one after another'
floor trip --enter 5 "$example" --topic bench.run --matchtag 9
[ "$(cat "$room/out")" = 'error reply 38 ENOSYS home at rank 5, links 4: 5 > 2 > 0 > 2 > 5

there     error reply 38 ENOSYS at rank 0, links 2: 5 > 2 > 0
enters    at rank 5
message   request "bench.run", nodeid any, matchtag 9: 41 bytes, 0 routes

step 1    rank 5 forwards it to rank 2, its parent: it has no service "bench"
step 2    rank 2 forwards it to rank 0, its parent: it has no service "bench"
step 3    rank 0 makes the error reply: it has no service "bench", and it has no parent (error 38, ENOSYS)

at rest   response "bench.run", errnum 38 ENOSYS, matchtag 9: 117 bytes, 2 routes
  route 0   00000002-0123-4567-89ab-cdef01234567  rank 2
  route 1   00000005-0123-4567-89ab-cdef01234567  rank 5

back      home at rank 5 with errnum 38 ENOSYS, links 2: 0 > 2 > 5
starts    at rank 0
message   response "bench.run", errnum 38 ENOSYS, matchtag 9: 117 bytes, 2 routes

step 1    rank 0 forwards it to rank 2, its child: the top route is rank 2'"'"'s, and is taken off
step 2    rank 2 forwards it to rank 5, its child: the top route is rank 5'"'"'s, and is taken off
step 3    rank 5 has it home: no route is left, so the request came from this broker

at rest   response "bench.run", errnum 38 ENOSYS, matchtag 9: 41 bytes, 0 routes

rank     visited  [services]
0        step 3, back 1  [log]
+- 1     -  [bench]
|  +- 3  -
|  `- 4  -  [bench]
`- 2     step 2, back 2
   +- 5  step 1, back 3: at rest here
   `- 6  -' ]
report $? 'both ways are told'
walks 'a rank that is not on the floor' 4 'error reply 113 EHOSTUNREACH home at rank 3, links 0: 3' trip --enter 3 "$example" --topic x --nodeid 9
floor trip --enter 5 "$example" --topic bench.run --answer-errnum 0
[ "$status" -eq 4 ] && [ "$(head -n 1 "$room/out")" = 'error reply 38 ENOSYS home at rank 5, links 4: 5 > 2 > 0 > 2 > 5' ] &&
    grep -qx 'The answer was not used: no broker delivered the request.' "$room/out"
report $? 'an answer does not stand in for an error reply'

# The first lines in docs/C-GUIDE.md are those that the program prints.
while read -r _ _ words; do
    read -r said
    # shellcheck disable=SC2086
    floor ${words% | head -n 1}
    [ -n "$said" ] && [ "$(head -n 1 "$room/out")" = "$said" ]
    report $? "docs/C-GUIDE.md: flux_floor $words"
done < <(grep -A 1 '^\$ target/host/flux_floor .* | head -n 1$' docs/C-GUIDE.md)
[ -n "${said:-}" ]
report $? 'docs/C-GUIDE.md has such lines'

# ---- an answer by options

walks 'an answer with a payload' 0 'home at rank 5 with errnum 0, links 4: 5 > 2 > 0 > 2 > 5' \
    trip --enter 5 "$example" --topic log.put --matchtag 7 --userid 1000 --rolemask 2 --route $two --streaming --answer-text hi -o "$room/trip"
"$FLUX_FRAME" write --type response --topic log.put --matchtag 7 --userid 1000 --rolemask 2 --route $two --streaming --payload-text hi >"$room/want"
cmp "$room/trip" "$room/want"
report $? "it has the request's topic, matchtag, user, routes and streaming"
walks 'an answer with errnum 0 alone' 0 'home at rank 3 with errnum 0, links 2: 3 > 1 > 3' trip --enter 3 "$example" --topic bench --answer-errnum 0
walks 'an answer with an error' 4 'home at rank 3 with errnum 2 ENOENT, links 2: 3 > 1 > 3' trip --enter 3 "$example" --topic bench --answer-errnum=2
printf hi >"$room/payload"
walks 'an answer with a payload from a file' 4 'home at rank 4 with errnum 5 EIO, links 0: 4' \
    trip --enter 4 "$example" --topic bench --answer-errnum 5 --answer-payload "$room/payload" -o "$room/trip"
"$FLUX_FRAME" write --type response --topic bench --errnum 5 --payload-text hi >"$room/want"
cmp "$room/trip" "$room/want"
report $? 'it has the errnum and the payload'
n3line="answer refused, 3: $n3; the request was delivered at rank 0, links 2: 5 > 2 > 0"
walks 'an answer that is too long' 1 "$n3line" trip --enter 5 "$example" --topic log --answer-payload "$room/most" -o "$room/none"
[ ! -e "$room/none" ]
report $? 'then nothing is home, and no file is made'

# ---- no answer

floor trip --enter 5 "$example" --topic log -o "$room/none"
[ "$status" -eq 2 ] && [ "$(head -n 1 "$room/out")" = 'no answer was given: the request was delivered at rank 0, links 2: 5 > 2 > 0' ] &&
    grep -q '^flux_floor: trip needs an answer to a request that is delivered: --answer FILE' "$room/err" && [ ! -e "$room/none" ]
report $? 'a request that is delivered, and no answer'
floor trip --enter 5 "$example" --topic log --quiet
[ "$status" -eq 2 ] && [ ! -s "$room/out" ] && [ -s "$room/err" ]
report $? 'no answer, --quiet'
walks 'noresponse, delivered' 0 'delivered at rank 0, links 2: 5 > 2 > 0; it asked for no response' \
    trip --enter 5 "$example" --topic log --noresponse -o "$room/none"
walks 'noresponse, silenced' 5 'silenced 38 ENOSYS at rank 0, links 2: 5 > 2 > 0' trip --enter 5 "$example" --topic bench --noresponse -o "$room/none"
[ ! -e "$room/none" ]
report $? 'nothing comes home of them, and no file is made'
walks 'a request that is refused' 1 "refused 17 at rank 7, links 0: $n17" trip --enter 7 "$example" --topic log --answer-errnum 0

# ---- an answer from a file

# Makes the response in $room/answer, as it is where the request rests.
response() { "$FLUX_FRAME" write --type response "$@" -o "$room/answer"; } # OPTIONS...
asks=(trip --enter 5 "$example" --topic log --matchtag 4 --answer "$room/answer" -o "$room/trip")
response --topic log --matchtag 4 --route 00000002-0123-4567-89ab-cdef01234567 --route $five
walks 'a framed answer' 0 'home at rank 5 with errnum 0, links 4: 5 > 2 > 0 > 2 > 5' "${asks[@]}"
response --topic log --matchtag 4 --route 00000002-0123-4567-89ab-cdef01234567 --route $five --errnum 1
walks 'a framed answer with an error' 4 'home at rank 5 with errnum 1 EPERM, links 4: 5 > 2 > 0 > 2 > 5' "${asks[@]}"
response --topic log --matchtag 5 --route 00000002-0123-4567-89ab-cdef01234567 --route $five
walks 'another matchtag' 4 "mismatch at rank 5, links 4: 5 > 2 > 0 > 2 > 5: not the request's matchtag" "${asks[@]}"
response --topic log.x --matchtag 4 --route 00000002-0123-4567-89ab-cdef01234567 --route $five
walks 'another topic' 4 "mismatch at rank 5, links 4: 5 > 2 > 0 > 2 > 5: not the request's topic" "${asks[@]}"
response --topic log --matchtag 4 --route 00000002-0123-4567-89ab-cdef01234567 --route $five --route $two
walks 'other routes' 4 "mismatch at rank 5, links 4: 5 > 2 > 0 > 2 > 5: not the request's routes" "${asks[@]}"
response --topic lag --matchtag 4 --route 00000002-0123-4567-89ab-cdef01234567 --route $two
walks 'another rank, routes and topic' 4 "mismatch at rank 2, links 3: 5 > 2 > 0 > 2: not the request's rank, routes, topic" "${asks[@]}"
response --topic log --matchtag 4 --route $five
walks 'an answer that no neighbour takes' 1 "refused 19 at rank 0, links 2: 5 > 2 > 0: $n19" "${asks[@]}"
printf 'no frame' >"$room/answer"
floor "${asks[@]}"
[ "$status" -eq 1 ] && [ ! -s "$room/out" ] && [ "$(cat "$room/err")" = "flux_floor: $room/answer: refused, 2: $n2" ]
report $? 'an answer that is no frame'
cp "$room/log" "$room/answer"
floor_wrong 'an answer that is no response' "an answer is a response, and the message of $room/answer is of type request" "${asks[@]}"
cat "$room/reply" "$room/reply" >"$room/answer"
floor_wrong 'an answer of two frames' "$room/answer has 117 bytes behind its first frame" "${asks[@]}"
floor trip --enter 0 "$example" --topic log --answer - <"$room/home"
[ "$status" -eq 4 ] && [ "$(head -n 1 "$room/out")" = "mismatch at rank 0, links 0: 0: not the request's topic, matchtag" ]
report $? 'an answer from standard input'
# A broker's own route below the entry leads the reply on: it does not come home to the request.
walks 'a request with the route of a broker' 4 "mismatch at rank 1, links 1: 3 > 1: not the request's rank, routes" \
    trip --enter 3 "$example" --topic x --nodeid 9 --route 00000001-0123-4567-89ab-cdef01234567

# ---- usage

floor_wrong 'two answers' 'give --answer FILE, or options that describe the answer, not both' \
    trip --enter 5 "$example" --topic log --answer "$room/reply" --answer-errnum 0
floor_wrong 'two payloads of an answer' 'give --answer-payload or --answer-text, not both' \
    trip --enter 5 "$example" --topic log --answer-payload "$room/payload" --answer-text hi
floor_wrong 'an errnum in words' "--answer-errnum takes a number from 0 to 4294967295, not 'ENOSYS'" \
    trip --enter 5 "$example" --topic log --answer-errnum ENOSYS
floor_wrong 'an answer twice' '--answer-errnum is given twice' trip --enter 5 "$example" --topic log --answer-errnum 0 --answer-errnum 0
floor_wrong 'an answer that is not there' "cannot read $room/missing" trip --enter 5 "$example" --topic log --answer "$room/missing"
floor_wrong 'an answer that is not there, and not needed' "cannot read $room/missing" trip --enter 5 "$example" --topic x --answer "$room/missing"
floor_wrong 'an answer to noresponse' 'noresponse is set, so there is no answer: give none' \
    trip --enter 5 "$example" --topic log --noresponse --answer-errnum 0
floor_wrong 'trip without a rank' 'trip needs --enter RANK' trip "$example" --topic log
floor_wrong 'standard input as frame and answer' 'only one file can be standard input' trip --enter 5 "$example" - --answer -
floor_wrong "standard input as floor and answer's payload" 'only one file can be standard input' trip --enter 5 - --topic x --answer-payload -

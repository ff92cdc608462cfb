# Tests of wrong usage of flux_floor, of outputs that cannot be written, and of a walk call that differs: part of
# host/test.sh. The helpers are in host/test/floor.sh.

helps floor '--enter RANK'
helps floor '--enter RANK' walk
helps floor '  5  silenced' home
helps floor '--answer-errnum N' trip
helps floor '--dot' check
floor show "$example" --help
[ "$status" -eq 0 ] && grep -q -- '--enter RANK' "$room/out" && ! grep -q '^rank ' "$room/out"
report $? 'flux_floor show --help, behind a word'
floor --version
[ "$status" -eq 0 ] && grep -qxF "flux_floor $version" "$room/out"
report $? 'flux_floor --version'
floor </dev/null
[ "$status" -eq 2 ] && [ ! -s "$room/out" ] && grep -q 'flux_floor check FLOOR' "$room/err"
report $? 'flux_floor alone'
floor_wrong 'an unknown command of flux_floor' "unknown command 'play'" play
floor_wrong 'check without a floor' 'check needs the file of a floor' check
floor_wrong 'show with two floors' "show takes one floor, and 'b' is one more" show a b
floor_wrong 'an unknown option of show' "unknown option '--all' of show" show --all
floor_wrong 'an unknown option behind a floor' "unknown option '--all' of show" show "$example" --all
floor_wrong 'a graph of check' "unknown option '--dot' of check" check --dot "$example"
floor_wrong 'a tree of show' "unknown option '--tree' of show" show --tree "$example"
floor_wrong 'an unknown option of walk' "unknown option '--from' of walk" walk --from 3 "$example" --topic x
floor_wrong 'an answer of walk' "unknown option '--answer' of walk" walk --enter 3 "$example" --topic x --answer "$room/log"
two_forms='are two forms of the result: give one'
for command in 'check' 'show' 'walk --enter 3 --topic x' 'home --from 3 --topic x' 'trip --enter 3 --topic x'; do
    # shellcheck disable=SC2086
    floor_wrong "$command: two forms" "--json and --quiet $two_forms" $command "$example" --quiet --json
    # shellcheck disable=SC2086
    floor_wrong "$command: a form twice" '--json is given twice' $command "$example" --json --json
    # shellcheck disable=SC2086
    floor_wrong "$command: an unknown option and a form" "unknown option '--jsno'" $command "$example" --json --jsno
done
floor_wrong 'JSON and a graph' "--json and --dot $two_forms" show "$example" --dot --json
floor_wrong 'quiet and a graph' "--quiet and --dot $two_forms" show "$example" --dot --quiet
floor_wrong 'a graph and a tree' "--dot and --tree $two_forms" walk --enter 3 --topic x "$example" --dot --tree
floor_wrong 'JSON and a tree' "--json and --tree $two_forms" walk --enter 3 --topic x "$example" --tree --json
floor_wrong 'walk without a floor' 'walk needs the file of a floor' walk --enter 3 --topic x
floor_wrong 'walk without a rank' 'walk needs --enter RANK' walk "$example" --topic x
floor_wrong 'home without a rank' 'home needs --from RANK' home "$example" --topic x
floor_wrong 'a rank in words' "--enter takes a rank, a number, not 'three'" walk --enter three "$example" --topic x
floor_wrong 'a rank without its value' '--enter needs a value' walk "$example" --topic x --enter
floor_wrong 'a rank twice' '--enter is given twice' walk --enter 1 --enter 1 "$example" --topic x
floor_wrong 'a topic twice' '--topic is given twice' walk --enter 1 "$example" --topic x --topic x
floor_wrong 'a flag with a value' '--upstream takes no value' walk --enter 1 "$example" --topic x --upstream=yes
floor_wrong 'no message' 'walk needs a frame, or the options of a message' walk --enter 1 "$example"
floor_wrong 'a frame and options' 'give a frame or the options of a message, not both' walk --enter 1 "$example" "$room/log" --topic x
floor_wrong 'a word too many' "walk takes a floor and a frame, and 'more' is one more" walk --enter 1 "$example" "$room/log" more
floor_wrong 'standard input twice' 'only one file can be standard input' walk --enter 1 - -
floor_wrong 'standard input as floor and payload' 'only one file can be standard input' walk --enter 1 - --topic x --payload -
floor_wrong 'standard output for two things' '-o takes a file' walk --enter 1 "$example" --topic x -o -
cp "$example" "$room/kept-floor"
cp "$room/log" "$room/kept-frame"
printf hi >"$room/kept-payload"
floor_wrong 'an output that is the floor' "$room/kept-floor is the floor itself: name another file" \
    walk --enter 1 "$room/kept-floor" --topic x -o "$room/kept-floor"
floor_wrong 'an output that is the frame' "$room/kept-frame is the frame itself" walk --enter 1 "$example" "$room/kept-frame" -o "$room/kept-frame"
floor_wrong 'an output that is the payload of a walk' "$room/kept-payload is the payload itself" \
    walk --enter 1 "$example" --topic x --payload "$room/kept-payload" -o "$room/kept-payload"
floor_wrong 'an output that is the answer' "$room/kept-frame is the answer itself" \
    trip --enter 1 "$example" --topic x --answer "$room/kept-frame" -o "$room/kept-frame"
floor_wrong "an output that is the answer's payload" "$room/kept-payload is the answer's payload itself" \
    trip --enter 1 "$example" --topic x --answer-payload "$room/kept-payload" -o "$room/kept-payload"
cmp -s "$example" "$room/kept-floor" && cmp -s "$room/log" "$room/kept-frame" && [ "$(cat "$room/kept-payload")" = hi ]
report $? 'they stay as they were'
floor_wrong 'an option behind --' 'cannot read --topic' walk --enter 1 "$example" -- --topic
one_frame='behind its first frame: a walk takes one frame (cut it out by flux_frame dump --frame N --frame-out FILE)'
cat "$room/log" "$room/most.frame" >"$room/in"
floor_wrong 'a walk of two frames' "$room/in has 32776 bytes $one_frame" walk --enter 6 "$example" "$room/in"
{ cat "$room/reply" && echo; } >"$room/in"
floor_wrong 'a way home with a byte behind it' "$room/in has 1 byte $one_frame" home --from 0 "$example" "$room/in"
floor walk --enter 6 "$example" - < <(cat "$room/log" "$room/log")
[ "$status" -eq 2 ] && [ ! -s "$room/out" ] && [ "$(cat "$room/err")" = "flux_floor: standard input has 35 bytes $one_frame" ]
report $? 'two frames from standard input'
floor_wrong 'home of a request' 'home takes a response, and this message is of type request' home --from 1 "$example" "$room/log"
floor_wrong 'trip of a response' 'trip takes a request, and this message is of type response' trip --enter 1 "$example" "$room/reply"
floor_wrong 'a frame that is not there' "cannot read $room/missing" walk --enter 1 "$example" "$room/missing"

# ---- outputs that cannot be written

for words in "check $example" "check $example --json" "show $example" "show $example --dot" "walk --enter 3 $example --topic log" \
    "walk --json --enter 3 $example --topic log" "walk --json --enter 3 $example --topic=" "trip --enter 3 $example --topic x" --help --version; do
    # shellcheck disable=SC2086
    "$FLUX_FLOOR" $words >/dev/full 2>"$room/err"
    status=$?
    : >"$room/out"
    [ "$status" -eq 2 ] && grep -q 'cannot write standard output' "$room/err"
    report $? "a full disk: $words"
done
for form in --tree --json --quiet --dot; do
    floor walk --enter 3 "$example" --topic log -o /dev/full "$form"
    [ "$status" -eq 2 ] && [ ! -s "$room/out" ] && grep -q 'cannot write /dev/full' "$room/err"
    report $? "a full disk for the bytes left, $form"
done

# ---- calls that differ

# shellcheck disable=SC2046
{ "${CC:-gcc}" -std=c99 -Wall -Wextra -Werror -Iinclude -c -o "$room/wrong_walk.o" host/test/wrong_walk.c &&
    "${CC:-gcc}" -std=c99 -Wall -Wextra -Werror -Dlampreycoil_walk=wrong_walk \
        -Dlampreycoil_check_services=wrong_services -Iinclude -o "$room/wrong_floor" \
        $(ls host/*.c | grep -v -e flux_frame.c -e write_frame.c -e dump_) "$room/wrong_walk.o" \
        "$ARCHIVE"; } >"$room/out" 2>"$room/err"
status=$?
report "$status" 'flux_floor with a wrong walk compiles'
differs='differs at rank 1, links 1: 3 > 1: the steps and the walk call are not the same; please report it'
for wrong in refusal answer rank links byte; do
    WRONG=$wrong "$room/wrong_floor" walk --enter 3 -o "$room/none" "$example" --topic bench.run >"$room/out" 2>"$room/err"
    status=$?
    [ "$status" -eq 3 ] && grep -q "^flux_floor: THE WALK CALL DIFFERS from the steps: $wrong" "$room/err" &&
        [ "$(wc -l <"$room/err")" -eq 1 ] && [ "$(head -n 1 "$room/out")" = "$differs" ] && [ ! -e "$room/none" ]
    report $? "a walk that differs: $wrong"
    WRONG=$wrong "$room/wrong_floor" walk --enter 3 "$example" --topic bench.run --json >"$room/out" 2>"$room/err"
    status=$?
    [ "$status" -eq 3 ] && grep -q '^{"command":"walk","status":3,.*"answer":"differs","error":null,"error_name":null,"errnum":null,' "$room/out" &&
        grep -q '"at_rest":null' "$room/out"
    report $? "a walk that differs, --json: $wrong"
    WRONG=$wrong "$room/wrong_floor" trip --enter 3 -o "$room/none" "$example" --topic bench.run --answer-errnum 0 >"$room/out" 2>"$room/err"
    status=$?
    [ "$status" -eq 3 ] && [ "$(head -n 1 "$room/out")" = "$differs" ] && [ ! -e "$room/none" ]
    report $? "a trip that differs: $wrong"
done
WRONG=byte "$room/wrong_floor" walk --enter 3 "$example" --topic bench.run --quiet >"$room/out" 2>"$room/err"
status=$?
[ "$status" -eq 3 ] && [ ! -s "$room/out" ] && [ -s "$room/err" ]
report $? 'a walk that differs, --quiet'
WRONG='' "$room/wrong_floor" walk --enter 3 "$example" --topic bench.run >"$room/out" 2>"$room/err"
status=$?
report "$status" 'a walk that does not differ'

# The library's word on the services against what is found: of a floor that is valid, and of one that is not.
sed '13s/$/ a.b/' "$example" >"$room/floor"
for words in "$example 15 0" "$room/floor 0 1"; do
    read -r file says found <<<"$words"
    said="$file: THE CHECKS DIFFER: the library says $says, and $found broken rules were found"
    WRONG=services "$room/wrong_floor" check "$file" >"$room/out" 2>"$room/err"
    status=$?
    [ "$status" -eq 3 ] && [ "$(head -n 2 "$room/out")" = "$file: nobody can say whether the floor is valid: please report it
$said" ]
    report $? "checks that differ: $words"
    WRONG=services "$room/wrong_floor" show --json "$file" >"$room/out" 2>"$room/err"
    status=$?
    [ "$status" -eq 3 ] && grep -q '"status":3,.*"valid":null,"ranks":null,.*"line":null,.*"tree":null}$' "$room/out"
    report $? "checks that differ, --json: $words"
    for command in 'check' 'show' 'walk --enter 3 --topic x' 'trip --enter 3 --topic x'; do
        # shellcheck disable=SC2086
        WRONG=services "$room/wrong_floor" $command --quiet "$file" >"$room/out" 2>"$room/err"
        status=$?
        [ "$status" -eq 3 ] && [ ! -s "$room/out" ] && grep -qxF "$said" "$room/err"
        report $? "checks that differ, $command --quiet: $words"
    done
    WRONG=services "$room/wrong_floor" walk --enter 3 --topic log --json "$file" >"$room/out" 2>"$room/err"
    status=$?
    [ "$status" -eq 3 ] && grep -q '"status":3,.*"answer":"differs","error":null,.*"rank":null,.*"refusal_words":null,' "$room/out"
    report $? "checks that differ, walk --json: $words"
done

# ---- one table of statuses: the same lines end both helps, and both pages name all six

"$FLUX_FRAME" --help | sed -n '/^Exit status:/,$p' >"$room/err"
"$FLUX_FLOOR" --help | sed -n '/^Exit status:/,$p' >"$room/out"
status=0
cmp -s "$room/out" "$room/err" && [ "$(grep -c '^  [0-5]  ' "$room/out")" -eq 6 ] && [ "$(cut -c 3 "$room/out" | tr -dc 0-9)" = 012345 ]
report $? 'both helps end with the same six statuses'
for page in man/flux_frame.1 man/flux_floor.1; do
    sed -n '/^.SH EXIT STATUS/,/^.SH EXAMPLES/p' "$page" | sed -n '/^\.TP$/{n;p;}' | tr -dc 0-9 >"$room/out"
    [ "$(cat "$room/out")" = 012345 ]
    report $? "$page has the statuses 0 to 5"
done

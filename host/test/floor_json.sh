# Tests of flux_floor --json: the objects to the byte, and as readers of JSON read them, where python3 or jq is at
# hand. Part of host/test.sh; the helpers are in host/test/floor.sh.

readers=()
command -v python3 >/dev/null && python3 -c 'import json' 2>/dev/null && readers+=(read_by_python)
command -v jq >/dev/null && readers+=(read_by_jq)
[ ${#readers[@]} -gt 0 ] || echo 'no python3 and no jq here: the JSON of flux_floor is compared as text alone'

# Standard input is one object, no object in it has a key twice, and its status is this one.
read_by_python() { # STATUS
    python3 -c '
import json, sys

def unique(pairs):
    assert len(dict(pairs)) == len(pairs), pairs
    return dict(pairs)

text = sys.stdin.read()
assert text.count("\n") == 1 and text.endswith("\n") and text.isascii()
value = json.loads(text, object_pairs_hook=unique)
assert value["status"] == int(sys.argv[1]), value["status"]' "$1"
}
read_by_jq() { jq -e --argjson status "$1" '.status == $status' >/dev/null; } # STATUS

# The words with --json have this status, and print one line of ASCII that every reader takes.
gives_object() { # LABEL STATUS WORDS...
    local label=$1 want=$2 reader
    shift 2
    floor "$@" --json </dev/null
    [ "$status" -eq "$want" ] && [ "$(wc -l <"$room/out")" -eq 1 ] && ! LC_ALL=C grep -q '[^ -~]' "$room/out" &&
        grep -q "^{\"command\":\"$1\",\"status\":$want,.*}\$" "$room/out"
    report $? "$label"
    for reader in "${readers[@]}"; do
        "$reader" "$want" <"$room/out" 2>"$room/err"
        report $? "$label, $reader"
    done
}

# The same, and the object is exactly this one.
gives() { # LABEL STATUS OBJECT WORDS...
    gives_object "$1" "$2" "${@:4}"
    [ "$(cat "$room/out")" = "$3" ]
    report $? "$1, to the byte"
}

# The object of the last words has this in it.
has() { # TEXT
    grep -qF -- "$1" "$room/out"
    report $? "has $1"
}

# ---- check and show

identity='-0123-4567-89ab-cdef01234567'
sound='"mistakes_count":0,"mistakes":[]'
nothing="$sound"',"warnings_count":0,"warnings":[]'
gives 'check' 0 '{"command":"check","status":0,"floor":"'"$example"'","valid":true,"ranks":7,"depth":2,"names":2,"registrations":3,'"$nothing}" \
    check "$example"
printf '0 none 00000000%s log a\xFFb\n1 0 00000001%s "x\n' "$identity" "$identity" >"$room/floor"
gives 'show' 0 '{"command":"show","status":0,"floor":"'"$room"'/floor","valid":true,"ranks":2,"depth":1,"names":3,"registrations":3,'"$sound"',"warnings_count":1,"warnings":[{"file":"'"$room"'/floor","line":2,"refusal":null,"words":"the service '"'"'\"x'"'"' is one name, with a quote in it: only spaces part services"}],"tree":[{"rank":0,"parent":null,"depth":0,"identity":"00000000'"$identity"'","services":["log","a\\xFFb"]},{"rank":1,"parent":0,"depth":1,"identity":"00000001'"$identity"'","services":["\"x"]}]}' \
    show "$room/floor"
[ ! -s "$room/err" ]
report $? 'the warning is in the object alone'
sed '9s/ 0 / 2 /;10s/ 1 / \xFF /' "$example" >"$room/floor"
mistakes='"mistakes_count":2,"mistakes":[{"file":"'"$room"'/floor","line":9,"refusal":14,"words":"rank 2 is its own parent: name another rank"},{"file":"'"$room"'/floor","line":10,"refusal":null,"words":"rank 3'"'"'s parent has to be a rank or '"'none'"', and not '"'"'\\xFF'"'"'"}]'
unknown='"valid":false,"ranks":null,"depth":null,"names":null,"registrations":null,'"$mistakes"',"warnings_count":0,"warnings":[]'
gives 'check of a floor that is not valid' 1 '{"command":"check","status":1,"floor":"'"$room"'/floor",'"$unknown}" check "$room/floor"
gives 'show of a floor that is not valid' 1 '{"command":"show","status":1,"floor":"'"$room"'/floor",'"$unknown"',"tree":null}' show "$room/floor"
refused='"error":null,"error_name":null,"errnum":null,"errnum_name":null,"rank":null,"links":null,"brokers":[]'
gives 'walk over a floor that is not valid' 1 '{"command":"walk","status":1,"floor":"'"$room"'/floor","from":3,"answer":"refused",'"$refused"',"refusal":null,"refusal_words":"the floor is not valid","steps":[],"at_rest":null,'"$mistakes}" \
    walk --enter 3 "$room/floor" --topic x
[ ! -s "$room/err" ]
report $? 'they are told nowhere else'
gives 'trip over a floor that is not valid' 1 '{"command":"trip","status":1,"floor":"'"$room"'/floor","from":3,"answer":"refused",'"$refused"',"refusal":null,"refusal_words":"the floor is not valid","mismatches":[],"there":null,"back":null,'"$mistakes}" \
    trip --enter 3 "$room/floor" --topic x
chain 25 | sed 's/ / x/' >"$room/floor"
gives_object 'twenty of 25 mistakes' 1 check "$room/floor"
[ "$(grep -o '"line":' "$room/out" | wc -l)" -eq 20 ] && grep -q '"mistakes_count":25' "$room/out"
report $? 'twenty are listed, and all are counted'
gives_object 'show of the most ranks' 0 show "$room/most.floor"
[ "$(grep -o '"parent":' "$room/out" | wc -l)" -eq 1024 ]
report $? 'each has its entry'

# ---- walk and home

no_error='"error":null,"error_name":null,"errnum":null,"errnum_name":null'
no_refusal='"refusal":null,"refusal_words":null'
gives 'delivered' 0 '{"command":"walk","status":0,"floor":"'"$example"'","from":3,"answer":"delivered",'"$no_error"',"rank":1,"links":1,"brokers":[3,1],'"$no_refusal"',"steps":[{"rank":3,"answer":"forward","to":1},{"rank":1,"answer":"delivered","to":null}],"at_rest":{"type":"request","topic":"bench.run","topic_hex":"62656E63682E72756E","matchtag":7,"routes":[{"identity":"00000003'"$identity"'","rank":3},{"identity":"'"$two"'","rank":null}]},'"$sound}" \
    walk --enter 3 "$example" --topic bench.run --matchtag 7 --route $two
gives 'an error reply' 4 '{"command":"walk","status":4,"floor":"'"$example"'","from":0,"answer":"error reply","error":38,"error_name":"ENOSYS","errnum":null,"errnum_name":null,"rank":0,"links":0,"brokers":[0],'"$no_refusal"',"steps":[{"rank":0,"answer":"error reply","to":null}],"at_rest":{"type":"response","topic":null,"topic_hex":"78FF","matchtag":0,"routes":[]},'"$sound}" \
    walk --enter 0 "$example" --topic $'x\xFF'
gives_object 'error 113' 4 walk --enter 3 "$example" --topic x --nodeid 9
has '"answer":"error reply","error":113,"error_name":"EHOSTUNREACH","errnum":null,'
gives_object 'silenced' 5 walk --enter 5 "$example" --topic x --noresponse
has '"answer":"silenced","error":38,"error_name":"ENOSYS","errnum":null,"errnum_name":null,"rank":0,"links":2,"brokers":[5,2,0],'
gives 'home with errnum 0' 0 '{"command":"home","status":0,"floor":"'"$example"'","from":3,"answer":"home","error":null,"error_name":null,"errnum":0,"errnum_name":null,"rank":3,"links":0,"brokers":[3],'"$no_refusal"',"steps":[{"rank":3,"answer":"home","to":null}],"at_rest":{"type":"response","topic":"x","topic_hex":"78","matchtag":0,"routes":[]},'"$sound}" \
    home --from 3 "$example" --topic x
gives_object 'home with an error' 4 home --from 3 "$example" --topic x --errnum 13
has '"answer":"home","error":null,"error_name":null,"errnum":13,"errnum_name":"EACCES","rank":3,'
gives_object 'home with an error without a name' 4 home --from 3 "$example" --topic x --errnum 4294967295
has '"errnum":4294967295,"errnum_name":null,'
gives 'refused at the entry' 1 '{"command":"walk","status":1,"floor":"'"$example"'","from":7,"answer":"refused",'"$no_error"',"rank":7,"links":0,"brokers":[],"refusal":17,"refusal_words":"'"$n17"'","steps":[{"rank":7,"answer":"refused","to":null}],"at_rest":null,'"$sound}" \
    walk --enter 7 "$example" --topic x
gives_object 'refused on the way' 1 walk --enter 5 "$example" --topic x "${routes[@]:0:126}"
has '"answer":"refused",'"$no_error"',"rank":2,"links":1,"brokers":[5,2],"refusal":12,"refusal_words":"'"$n12"'",'
has '"at_rest":null'
printf 'no frame' >"$room/in"
gives 'a frame that is refused' 1 '{"command":"home","status":1,"floor":"'"$example"'","from":3,"answer":"refused",'"$refused"',"refusal":2,"refusal_words":"'"$n2"'","steps":[],"at_rest":null,'"$sound}" \
    home --from 3 "$example" "$room/in"
gives_object 'a message by options that is refused' 1 walk --enter 3 "$example" --topic ''
has '"answer":"refused",'"$refused"',"refusal":9,"refusal_words":"'"$n9"'",'
[ ! -s "$room/err" ]
report $? 'it is told nowhere else'
floor walk --enter 3 "$example" --topic log --json -o "$room/left"
[ "$status" -eq 0 ] && [ "$(wc -c <"$room/left")" -eq $((33 + 2 + 2 * 38)) ]
report $? 'a walk with --json and -o'
sed '13s/$/ a,b/' "$example" >"$room/floor"
floor walk --enter 3 "$room/floor" --topic log --json
[ "$status" -eq 0 ] && [ "$(wc -l <"$room/out")" -eq 1 ] && grep -q "^$room/floor:13: warning: " "$room/err"
report $? 'of a walk a warning is on standard error'

# ---- trip

gives 'a trip' 0 '{"command":"trip","status":0,"floor":"'"$example"'","from":4,"answer":"home","error":null,"error_name":null,"errnum":0,"errnum_name":null,"rank":4,"links":0,"brokers":[4],'"$no_refusal"',"mismatches":[],"there":{"answer":"delivered",'"$no_error"',"rank":4,"links":0,"brokers":[4],'"$no_refusal"',"steps":[{"rank":4,"answer":"delivered","to":null}],"at_rest":{"type":"request","topic":"bench","topic_hex":"62656E6368","matchtag":1,"routes":[]}},"back":{"answer":"home","error":null,"error_name":null,"errnum":0,"errnum_name":null,"rank":4,"links":0,"brokers":[4],'"$no_refusal"',"steps":[{"rank":4,"answer":"home","to":null}],"at_rest":{"type":"response","topic":"bench","topic_hex":"62656E6368","matchtag":1,"routes":[]}},'"$sound}" \
    trip --enter 4 "$example" --topic bench --matchtag 1 --answer-errnum 0
gives_object 'a trip with an error reply' 4 trip --enter 5 "$example" --topic x
has '"from":5,"answer":"error reply","error":38,"error_name":"ENOSYS","errnum":38,"errnum_name":"ENOSYS","rank":5,"links":4,"brokers":[5,2,0,2,5],'
gives_object 'a trip without an answer' 2 trip --enter 5 "$example" --topic log
has '"from":5,"answer":"unanswered",'"$no_error"',"rank":0,"links":2,"brokers":[5,2,0],'
has '"back":null'
gives_object 'a trip of noresponse' 0 trip --enter 5 "$example" --topic log --noresponse
has '"from":5,"answer":"delivered",'
gives_object 'a trip that is silenced' 5 trip --enter 5 "$example" --topic x --noresponse
has '"from":5,"answer":"silenced","error":38,'
"$FLUX_FRAME" write --type response --topic log --matchtag 3 -o "$room/answer"
gives_object 'a trip with a mismatch' 4 trip --enter 0 "$example" --topic log.x --answer "$room/answer"
has '"from":0,"answer":"mismatch",'"$no_error"',"rank":0,"links":0,"brokers":[0],'"$no_refusal"',"mismatches":["topic","matchtag"],'
gives_object 'a trip whose answer is too long' 1 trip --enter 5 "$example" --topic log --answer-payload "$room/most"
has '"from":5,"answer":"refused",'"$no_error"',"rank":0,"links":2,"brokers":[5,2,0],"refusal":3,"refusal_words":"'"$n3"'",'
gives_object 'a trip whose answer is no frame' 1 trip --enter 5 "$example" --topic log --answer "$room/in"
has '"answer":"refused",'"$refused"',"refusal":2,'

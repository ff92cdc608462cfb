# Tests of `flux_frame dump --json --fields`, and of JSON that is longer than what is put together at a time.
# host/test.sh reads this file: its functions and words and those of host/test/dump.sh, capture.sh and json.sh
# are used here.

stop4='{"stop":"end","frames":4,"bytes":218,"refusal":null,"shown":4,"refused":0,"next":218}'

shows 'fields in the order asked for, and the whole stop' 0 '{"type_name":"control","number":0}
{"type_name":"request","number":1}
{"type_name":"response","number":2}
{"type_name":"event","number":3}
'"$stop4" --json --fields type_name,number "$room/four"
shows 'fields that not every frame has' 0 '{"first":2}
{"topic.text":"log","first":4294967295}
{"topic.text":"kvs.\"get","error_name":"ENOSYS","first":38,"payload.is_json":false}
{"topic.text":null,"first":5,"payload.is_json":false}
'"$stop4" --json --fields=topic.text,error_name,first,payload.is_json "$room/four"
shows 'fields of a single frame' 0 '{"frame":35,"topic":{"start":10,"length":3,"hex":"6C6F67","text":"log"},"payload":null}' --json --fields frame,topic,payload "$room/log"
shows 'fields of a frame that is named' 0 '{"number":2,"payload.hex":"6869"}' --json --fields number,payload.hex --frame 2 "$room/four"
event_of in '{"a":[1,"\xC3\xA9"]}\0'
shows 'a value without its text' 0 '{"payload.json":{"a":[1,"\u00e9"]},"payload.length":15}' --json --fields payload.json,payload.length "$room/in"

# A refused frame says that it is, so that nobody takes its fields for a message's.
shows 'a refused frame says so' 1 '{"accepted":false,"type_name":"event","first":2}' --json --fields type_name,first "$room/nine"
shows 'where it was asked to' 1 '{"first":2,"accepted":false,"refusal":9}' --json --fields first,accepted,refusal "$room/nine"
shows 'and among others' 1 '{"type":8}
{"accepted":false,"type":4}
{"stop":"refused","frames":1,"bytes":29,"refusal":9,"shown":1,"refused":1,"next":60}' --json --fields type "$room/middle"

# Each field by itself is what it is in the whole object, and all of them in order are that object.
fields_of() { # FILE NAMES: whether this holds of a single frame
    local whole name one good=0 put=''
    whole=$("$FLUX_FRAME" dump --json "$1")
    for name in $2; do
        one=$("$FLUX_FRAME" dump --json --fields "$name" "$1")
        case $one in
        "{\"$name\":"*'}') one=${one#'{'} && put=$put${put:+,}${one%'}'} ;;
        '{"accepted":false,"'"$name"'":'*'}') one=${one#*,} && put=$put,${one%'}'} ;;
        '{}' | '{"accepted":false}') ;;
        *) good=1 ;;
        esac
    done
    [ "$good" -eq 0 ] && [ "{$put}" = "$whole" ]
}
run dump --json --fields none "$room/log"
names=$(sed 's/.*; there are //' "$room/err" | tr ' ' '\n')
for words in log response event control nine short yes no deep; do
    fields_of "$room/$words" "$(grep -v '\.' <<<"$names")"
    report $? "each field by itself, of $words"
done

# The same of the fields of a part.
part_of() { # FILE NAME
    local whole one
    whole=$("$FLUX_FRAME" dump --json --fields "${2%.*}" "$1")
    one=$("$FLUX_FRAME" dump --json --fields "$2" "$1")
    case $one in
    '{}') [[ $whole != *"\"${2#*.}\":"* ]] ;;
    "{\"$2\":"*'}') one=${one#*:} && [[ $whole = *"\"${2#*.}\":${one%'}'}"[,}]* ]] ;;
    *) false ;;
    esac
}
for words in response event yes no deep; do
    good=0
    for name in $(grep '\.' <<<"$names"); do part_of "$room/$words" "$name" || good=1; done
    report "$good" "each field of a part by itself, of $words"
done
good=0
for words in $(grep -v '\.' <<<"$names"); do grep -qx "\.I $words" man/flux_frame.1 || good=1; done
report "$good" 'each field is in the page'
[ "$(wc -w <<<"$names")" -eq 55 ] && grep -qx payload.json_because <<<"$names"
report $? 'all of them are told where there is none of a name'

wrong 'a field that is not there' "no field is called 'topics'; there are accepted number start " dump --json --fields number,topics "$room/four"
wrong 'a field without a name' "no field is called ''; there are" dump --json --fields number, "$room/four"
wrong 'no field' "no field is called ''; there are" dump --json --fields= "$room/four"
wrong 'a long field' "no field is called '$(bytes 40)'; there are accepted" dump --json --fields "$(bytes 2000)" "$room/four"
wrong 'a field that is part of a name' "no field is called 'typ'" dump --json --fields typ "$room/four"
wrong 'a field twice' "--fields has 'type' twice" dump --json --fields type,number,type "$room/four"
wrong '--fields twice' '--fields is given twice' dump --json --fields type --fields type "$room/four"
wrong '--fields as text' '--fields goes with --json alone' dump --fields type "$room/four"
wrong '--fields of a summary' '--fields goes with --json alone' dump --summary --fields type "$room/four"
unwritten 'fields that cannot be written' 'cannot write standard output' dump --json --fields type "$room/four"

# ---- an object of more than 65,536 bytes, and texts of more

event_of in "{\"a\":\"$(bytes 16360 | sed 's/x/\\xC3\\xA9/g')\"}\\0"
accents=$(bytes 16360 | sed 's/x/\\u00e9/g')
shows 'a value of 98 KB' 0 "{\"payload.json\":{\"a\":\"$accents\"}}" --json --fields payload.json "$room/in"
LC_ALL=C.UTF-8 shows 'a text of 98 KB' 0 "{\"payload.text\":\"{\\n  \\\"a\\\": \\\"$accents\\\"\\n}\"}" --json --fields payload.text "$room/in"
run dump --json "$room/in"
[ "$status" -eq 0 ] && [ "$(wc -l <"$room/out")" -eq 1 ] && grep -qF '"hex":"7B2261223A22C3A9C3A9' "$room/out" && grep -q 'A9227D00","is_json":true,"json":{"a":"\\u00e9.*"}}$' "$room/out"
report $? 'and the whole object'
LC_ALL=C part='sed -n 11p' shows 'the same as text' 0 "$margin{\"a\":\"$accents\"}" --all --frame 0 "$room/in"

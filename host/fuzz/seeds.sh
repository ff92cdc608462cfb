#!/usr/bin/env bash
# Makes the inputs that fuzzing begins with, by the programs themselves: a folder for each harness, and a list of
# the programs' words. The programs are FLUX_FRAME and FLUX_FLOOR, or else what `make host` builds.
#
#   host/fuzz/seeds.sh FOLDER
set -eu
cd "$(dirname "$0")/../.."
folder=$1
FLUX_FRAME=${FLUX_FRAME:-target/host/flux_frame}
FLUX_FLOOR=${FLUX_FLOOR:-target/host/flux_floor}
rm -rf "$folder"
mkdir -p "$folder"/{frames,capture,audit,floors,frame_words,floor_words,helpers}
frames=$folder/frames

# Words as one input: each ends with a zero byte.
words() { # FILE WORDS...
    printf '%s\0' "${@:2}" >"$1"
}

# A frame of these words, which are a seed too.
frame() { # NAME WORDS...
    "$FLUX_FRAME" write "${@:2}" -o "$frames/$1"
    words "$folder/frame_words/$1" write "${@:2}"
}
one=00000000-0123-4567-89ab-cdef01234567
two=00000001-0123-4567-89ab-cdef01234567
frame control --type control --control-type 2 --status 3
frame request --type request --topic log --matchtag 1
frame response --type response --topic 'kvs."get' --errnum 38 --route "$two" --route "$one" --payload-text hi --streaming
frame event --type event --topic up --seq 5 --userid 0 --payload-text ''
frame long --type request --topic bench.run --nodeid 4 --payload-text "$(printf '%0300d' 7)" --noresponse --upstream
printf '{"a":[1.5e3,true,null,"\\u00e9\\n"],"b":{}}\0' >"$folder/payload"
"$FLUX_FRAME" write --type request --topic bench.run --payload "$folder/payload" -o "$frames/json"
"$FLUX_FLOOR" walk --enter 5 host/example.floor --topic nobody.here --matchtag 9 -o "$frames/reply" >/dev/null || true

cat "$frames"/{control,request,json,response} >"$folder/four"
# A talk: requests that come by rank 5, with the replies that are due, a blank one and one too many.
five=00000005-0123-4567-89ab-cdef01234567
frame asked --type request --topic bench.run --matchtag 9 --route "$five" --route "$one"
frame denied --type response --topic bench.run --matchtag 9 --errnum 38 --route "$five" --route "$one"
frame blank --type response --topic bench.run --matchtag 9 --route "$five" --route "$one"
frame stream --type request --topic log --matchtag 1 --streaming --route "$five"
frame streamed --type response --topic log --matchtag 1 --route "$five"
cat "$frames"/{asked,stream,denied,asked,streamed,blank,blank,event} >"$folder/talk"
{ cat "$frames"/{event,request} && head -c 20 "$frames/json"; } >"$folder/torn"
{ cat "$frames/event" && printf 'what is no frame'; } >"$folder/junk"
cp "$folder"/{four,torn,junk} "$folder/payload" "$frames"/* "$folder/helpers"

# A floor at the limits of its numbers and names.
printf '%s\n' "0 none $one $(printf '%027d' 0)" "2047 1023 $two $(printf '%028d' 0)" \
    "1024 4294967295 $two.$(printf '%0200d' 0) # far" >"$folder/limits"

# Majordomo commands: a client's, and a worker's that has a part of 255 bytes.
printf '\006MDPC02\001\001\004echo\002hi\000' >"$folder/asks"
printf '\006MDPW02\001\004\045%s\000\000\377\000\000\000\377%0255d' "$one" 7 >"$folder/answers"

# The first byte picks the mode: more numbers than there are modes, so that each has its seeds.
for mode in {0..19}; do
    byte=$(printf '\\%03o' "$mode")
    for file in "$folder"/{four,torn,junk,asks,answers} "$frames"/{json,long,reply}; do
        { printf '%b' "$byte" && cat "$file"; } >"$folder/capture/$mode-$(basename "$file")"
    done
    for file in "$folder"/{four,torn,junk,talk} "$frames"/{asked,reply}; do
        { printf '%b' "$byte" && cat "$file"; } >"$folder/audit/$mode-$(basename "$file")"
    done
    { printf '%b' "$byte" && cat host/example.floor; } >"$folder/floors/$mode-example"
    { printf '%b' "$byte" && sed -e 's/^5 2/5 9/' -e 's/^3 1/3 3/' host/example.floor; } >"$folder/floors/$mode-wrong"
    { printf '%b' "$byte" && "$FLUX_FLOOR" show host/example.floor; } >"$folder/floors/$mode-shown"
    { printf '%b' "$byte" && cat "$folder/limits"; } >"$folder/floors/$mode-limits"
done

words "$folder/frame_words/dump" dump --json --frame=0 -
words "$folder/frame_words/out" dump --payload-out - --frame 0
words "$folder/frame_words/selected" dump --type request --topic 'l*' --errors --skip-refused --json --fields topic.text
words "$folder/frame_words/mdp" dump --mdp --all -
words "$folder/frame_words/raw" write --type-number 1 --flags 09 --first 0xFFFFFFFF --second 1 --topic log
words "$folder/floor_words/check" check -
words "$folder/floor_words/show" show -
words "$folder/floor_words/walk" walk --enter 1 - --topic bench.run --nodeid 0 --matchtag 7 --payload-text x
words "$folder/floor_words/home" home --from 0 - --topic=log --errnum=38 --route "$two"
words "$folder/floor_words/trip" trip --enter 2 - --topic log.put --answer-errnum 0 --answer-text x --json
words "$folder/floor_words/graph" walk --enter 2 - --topic bench --dot
words "$folder/floor_words/upstream" walk --enter 1 --upstream --nodeid 1 --topic log -o x -
for program in "$FLUX_FRAME" "$FLUX_FLOOR"; do
    "$program" --help
done | grep -oE -- '(--?[a-z]+(-[a-z]+)*|\b[a-z]{4,}\b)' | sort -u | sed 's/.*/"&"/' >"$folder/dictionary"

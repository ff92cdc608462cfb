# Tests the outputs of both programs: part of host/test.sh, which has the helpers. No two are one file, none
# is a terminal, a file is replaced as a whole or not at all, and a reader that goes away is no word's worth.

away=$room/outputs
mkdir "$away"
run write --type event --topic x --payload-text new -o "$room/one.frame"
unframed=$(tohex <"$room/one.frame")
run write --type event --topic x --payload "$room/most" -o "$room/long.frame"

# The hidden files of a folder: what is beside.
hidden() { find "$@" -name '.?*'; } # FOLDER...

# What is in the folder of outputs.
left() { (cd "$away" && LC_ALL=C ls -AlR --time-style=+ && find . -type f -exec cksum {} +); }

# These words fail with this text, and leave the folder as it was.
keeps() { # LABEL TEXT COMMAND...
    local label=$1 text=$2 before
    shift 2
    before=$(left)
    (cd "$away" && "$@") >"$room/out" 2>"$room/err"
    status=$?
    [ "$status" -eq 2 ] && [ ! -s "$room/out" ] && grep -qF -- "$text" "$room/err" && [ "$(left)" = "$before" ]
    report $? "$label"
}

# ---- two outputs that are one file

printf 'old z' >"$away/z"
ln "$away/z" "$away/hard"
ln -s z "$away/soft"
ln -s ./none "$away/dangling"
mkdir "$away/folder"
ln -s folder "$away/way"
ln -s "$away/folder/none" "$away/far"
while read -r one other; do
    keeps "one file: $one and $other" "--payload-out and --frame-out name one file, $other" \
        "$FLUX_FRAME" dump --payload-out "$one" --frame-out "$other" "$room/one.frame"
done <<END
z z
z ./z
z folder/../z
z hard
soft z
hard soft
none ./none
none dangling
folder/none way/none
far folder/none
$away/none none
END
"$FLUX_FRAME" dump --payload-out - --frame-out "$away/z" "$room/one.frame" >>"$away/z" 2>"$room/err"
status=$?
[ "$status" -eq 2 ] && grep -qF 'name one file' "$room/err" && [ "$(cat "$away/z")" = 'old z' ]
report $? 'one file: standard output and another'
for words in z soft hard /dev/stdout; do
    (cd "$away" && "$FLUX_FLOOR" walk --enter 6 -o "$words" "$OLDPWD/$example" "$room/log") >>"$away/z" 2>"$room/err"
    status=$?
    [ "$status" -eq 2 ] && grep -qF "$words is where standard output goes" "$room/err" && [ "$(cat "$away/z")" = 'old z' ]
    report $? "one file: the walk's text and $words"
done
status=$("$FLUX_FLOOR" walk --enter 6 -o /dev/stdout "$example" "$room/log" 2>"$room/err" | wc -c)
[ "$status" -eq 0 ] && grep -qF 'is where standard output goes' "$room/err"
report $? 'one pipe for text and bytes'
run dump --payload-out "$away/payload" --frame-out "$away/frame" "$room/one.frame"
[ "$status" -eq 0 ] && [ "$(cat "$away/payload")" = new ] && cmp -s "$away/frame" "$room/one.frame"
report $? 'two files'
run dump --payload-out /dev/null --frame-out /dev/null "$room/one.frame"
report "$status" '/dev/null loses nothing'
"$FLUX_FLOOR" walk --enter 6 -o /dev/null "$example" "$room/log" >/dev/null 2>"$room/err"
status=$?
report "$status" 'nor does it beside the text'
rm -f "$away"/{payload,frame}

# ---- a terminal

if command -v script >/dev/null; then
    for words in "$FLUX_FRAME write --type event --topic x -o /dev/"{tty,stdout,fd/1,stderr} \
        "$FLUX_FRAME dump --payload-out /dev/tty $room/one.frame" "$FLUX_FRAME dump --frame-out /dev/stdout $room/one.frame" \
        "$FLUX_FLOOR walk --enter 6 -o /dev/tty $example $room/log"; do
        script -qec "$words 2>$room/err" /dev/null </dev/null >"$room/out"
        status=$?
        case $words in
        *stderr*) [ "$status" -eq 0 ] ;; # standard error is a file here, and as good as any
        *) [ "$status" -eq 2 ] && [ ! -s "$room/out" ] && grep -qE 'is a terminal|is where standard output goes' "$room/err" ;;
        esac
        report $? "no bytes to a terminal: ${words##*/}"
    done
else
    echo 'no script here: outputs that are terminals are not tried'
fi

# ---- a file is replaced as a whole

(umask 027 && run write --type event --topic x --payload-text new -o "$away/fresh" && [ "$status" -eq 0 ])
[ "$(tohex <"$away/fresh")" = "$unframed" ] && [ "$(stat -c %a "$away/fresh")" = 640 ]
report $? "a new file has the umask's mode"
printf 'old' >"$away/fresh"
chmod 604 "$away/fresh"
run write --type event --topic x --payload-text new -o "$away/fresh"
[ "$status" -eq 0 ] && [ "$(tohex <"$away/fresh")" = "$unframed" ] && [ "$(stat -c %a "$away/fresh")" = 604 ]
report $? 'a file that is replaced keeps its mode'
run write --type event --topic x --payload-text new -o "$away/soft"
[ "$status" -eq 0 ] && [ -L "$away/soft" ] && [ ! -L "$away/z" ] && [ "$(tohex <"$away/z")" = "$unframed" ] && [ "$(cat "$away/hard")" = 'old z' ]
report $? 'through a link its target is replaced, and the link stays'
run write --type event --topic x --payload-text new -o "$away/far"
[ "$status" -eq 0 ] && [ -L "$away/far" ] && [ "$(tohex <"$away/folder/none")" = "$unframed" ]
report $? 'a link to nothing makes its target'
printf 'in front ' >"$away/open"
"$FLUX_FRAME" write --type event --topic x --payload-text new -o /dev/stdout >>"$away/open" 2>"$room/err"
status=$?
[ "$status" -eq 0 ] && [ "$(tohex <"$away/open")" = "$(printf 'in front ' | tohex)$unframed" ]
report $? 'a file that is open already is written as it is'
mkfifo "$away/pipe"
tohex <"$away/pipe" >"$room/piped-hex" &
run write --type event --topic x --payload-text new -o "$away/pipe"
wait $!
[ "$status" -eq 0 ] && [ -p "$away/pipe" ] && [ "$(cat "$room/piped-hex")" = "$unframed" ]
report $? 'a pipe with a name is written as it is'
[ -z "$(hidden "$away")" ]
report $? 'nothing is left beside'
rm -f "$away"/{pipe,open,fresh,soft,far,dangling,hard} "$away/folder/none"

# ---- what fails leaves all as it was

printf 'old a' >"$away/a"
printf 'old b' >"$away/b"
writes_long=("$FLUX_FRAME" write --type event --topic x --payload "$room/most" -o)
cuts_long=("$FLUX_FRAME" dump --payload-out a --frame-out b)
# shellcheck disable=SC2016 # the words are the inner shell's
limited='ulimit -f "$0" && "$@"'
keeps 'no room for an old file' 'cannot write a: File too large' bash -c "$limited" 1 "${writes_long[@]}" a
keeps 'no room for a new file' 'cannot write n: File too large' bash -c "$limited" 1 "${writes_long[@]}" n
keeps 'no room for the second of two' 'cannot write b: File too large' bash -c "$limited" 32 "${cuts_long[@]}" "$room/long.frame"
keeps 'a folder in the place of one' 'cannot write folder: Is a directory' "${writes_long[@]}" folder
keeps 'a folder that is not there' 'cannot write no/n: No such file' "${writes_long[@]}" no/n
keeps 'a name that is a folder' 'cannot write n/: Is a directory' "${writes_long[@]}" n/
keeps 'a full device, and a file' 'cannot write /dev/full: No space' \
    "$FLUX_FRAME" dump --payload-out /dev/full --frame-out b "$room/long.frame"
ln -s round "$away/round"
keeps 'a link in a circle' 'cannot write round: Too many levels' "${writes_long[@]}" round
rm "$away/round"
if [ "$(id -u)" -ne 0 ]; then
    chmod 400 "$away/a"
    keeps 'a file that may not be written' 'cannot write a: Permission denied' "${writes_long[@]}" a
    chmod 600 "$away/a" && chmod 500 "$away"
    keeps 'a folder that may not be written' 'cannot write a: a file beside it' "${writes_long[@]}" a
    chmod 700 "$away"
elif unshare -m true 2>/dev/null; then
    # A disk of its own, which is gone with the command.
    # shellcheck disable=SC2016
    small='mount -t tmpfs -o size=16k small "$1" && cd "$1" && printf "old a" >a && { "${@:2}" a; echo "$? $(cat a) $(ls -A)"; }'
    if unshare -m mount -t tmpfs -o size=16k small "$away/folder" 2>"$room/err"; then
        unshare -m bash -c "$small" small "$away/folder" "${writes_long[@]}" >"$room/out" 2>"$room/err"
        status=$?
        [ "$(cat "$room/out")" = '2 old a a' ] && grep -qF 'cannot write a: No space left' "$room/err"
        report $? 'a full disk'
    fi
fi

# A pipe that takes no more holds the program while a file is beside: what ends it then leaves none.
mkfifo "$away/pipe"
exec 9<>"$away/pipe"
head -c 65536 /dev/zero >&9
for words in HUP INT TERM; do
    before=$(cd "$away" && ls -A && cat a)
    (cd "$away" && trap - INT && exec "$FLUX_FRAME" dump --payload-out pipe --frame-out a "$room/long.frame") >"$room/out" 2>"$room/err" &
    for _ in $(seq 100); do
        [ -z "$(hidden "$away")" ] || break
        sleep 0.05
    done
    [ -n "$(find "$away" -name '.flux_frame-*')" ]
    report $? "$words: a file is beside"
    kill -s "$words" $!
    wait $! 2>/dev/null
    status=$?
    [ "$status" -gt 128 ] && [ "$(cd "$away" && ls -A && cat a)" = "$before" ]
    report $? "$words: and none when the program has ended"
done
exec 9>&-

# ---- a reader that goes away

# A pipe that nobody reads any more is on descriptor 9.
exec 8<>"$away/pipe" 9>"$away/pipe" 8>&-
for _ in $(seq 100); do cat "$room/long.frame"; done >"$room/many"
: >"$room/out"
for words in "$FLUX_FRAME dump "{,--summary,--json,--frame=7,--frame=7\ --frame-out=-}" $room/many" "$FLUX_FRAME --help" \
    "$FLUX_FRAME write --type event --topic x" "$FLUX_FLOOR check $example" "$FLUX_FLOOR show $example" \
    "$FLUX_FLOOR walk --enter 6 $example $room/log" "$FLUX_FLOOR --version"; do
    $words >&9 2>"$room/err"
    status=$?
    [ "$status" -eq 2 ] && [ ! -s "$room/err" ]
    report $? "a reader that goes away: ${words##*/flux_}"
done
exec 9>&-
"$FLUX_FRAME" dump "$room/many" 2>"$room/err" | head -n 1 >"$room/out"
status=${PIPESTATUS[0]}
[ "$status" -eq 2 ] && [ ! -s "$room/err" ] && [ "$(wc -l <"$room/out")" -eq 1 ]
report $? 'dump | head'

# ---- standard streams that are closed: no file gets their number

"$FLUX_FRAME" write --type event --topic x --payload-text new -o "$away/a" <&- >&- 2>&-
status=$?
[ "$status" -eq 0 ] && [ "$(tohex <"$away/a")" = "$unframed" ]
report $? 'all streams closed, and a file'
cat "$away/pipe" >"$room/piped" &
(cd "$away" && "$FLUX_FRAME" dump --payload-out pipe --frame-out no/n <"$room/one.frame" >"$room/out" 2>&-)
status=$?
wait $!
[ "$status" -eq 2 ] && [ ! -s "$room/piped" ]
report $? 'what is said of an output stays out of another'
"$FLUX_FRAME" write --type event --topic x >&- 2>"$room/err"
status=$?
[ "$status" -eq 2 ] && grep -qF 'cannot write standard output' "$room/err"
report $? 'a frame for a standard output that is closed'

helps run 'pipe whose reader went away, as in | head'
helps run 'gets all of its bytes, or stays as it was' write
helps floor 'not where standard output goes'

# Tests of the mistakes in a floor's file, and of what only looks like one: part of host/test.sh. The helpers are
# in host/test/floor.sh.

# check of the floor in $room/floor lists exactly these mistakes behind its verdict, and has status 1.
lists() { # LABEL LINES
    local count
    count=$(printf '%s\n' "$2" | wc -l)
    floor check "$room/floor"
    {
        echo "$room/floor: not a valid floor: $count mistake$([ "$count" -eq 1 ] || echo s)"
        printf '%s\n' "$2" | sed "s|^|$room/floor:|"
    } >"$room/want"
    [ "$status" -eq 1 ] && cmp -s "$room/out" "$room/want" && [ ! -s "$room/err" ]
    report $? "$1"
}

# The example floor with this edit by sed has these mistakes.
breaks() { # LABEL EDIT LINES
    sed -e "$2" "$example" >"$room/floor"
    lists "$1" "$3"
}

# ---- each rule broken

breaks 'no rank' 's/^[0-9]/#/' '14: refused, 14: no line gives a rank: write at least that of rank 0'
breaks 'a root with a parent' 's/^0      none/0 1/' "7: refused, 14: rank 0 is the root: its parent has to be 'none'"
breaks 'two roots' 's/^2      0 /2 none /' "9: refused, 14: rank 2 has no parent: name one, for only rank 0 has 'none'"
breaks 'a parent outside the floor' 's/^2      0 /2 7 /' "9: refused, 14: rank 2's parent, 7, is no rank of this floor: name one of 0 to 6"
breaks 'its own parent' 's/^2      0 /2 2 /' '9: refused, 14: rank 2 is its own parent: name another rank'
breaks 'a ring, told once' 's/^1      0 /1 4 /' '8: refused, 14: rank 1 is in a ring: 2 links up is rank 1 again; give one of them a parent outside of the ring'
breaks 'two rules of the tree' 's/^1      0 /1 8 /;s/^6      2 /6 6 /' "8: refused, 14: rank 1's parent, 8, is no rank of this floor: name one of 0 to 6
13: refused, 14: rank 6 is its own parent: name another rank"
breaks 'a service twice' '$s/$/ a b a/' "13: refused, 15: rank 6 has the service 'a' twice: remove one"
period='has a period: write only what comes before the first period of its topics'
breaks 'a service with a period' '$s/$/ a.b/' "13: refused, 15: the service 'a.b' $period"
breaks 'a service of 28 bytes' "\$s/\$/ $(bytes 28)/" "13: refused, 15: the service '$(bytes 28)' is too long by 1 byte: a name has at most 27"
# A word that is far too long is cut, and the reason is not.
breaks 'a service of 9,000 bytes' "\$s/\$/ $(bytes 9000)/" "13: refused, 15: the service '$(bytes 60)...' (9000 bytes) is too long by 8973 bytes: a name has at most 27"
form='write lower-case hex in groups of 8-4-4-4-12, with hyphens'
breaks 'a short identity' 's/00000003/003/' "10: refused, 16: the identity '003-0123-4567-89ab-cdef01234567' has 31 characters, and a UUID has 36: $form"
breaks 'an identity of 9,000 bytes' "s/00000003.*/$(bytes 9000)/" "10: refused, 16: the identity '$(bytes 60)...' (9000 bytes) has 9000 characters, and a UUID has 36: $form"
breaks 'an identity of 61 bytes that are no text' "s/00000003.*/$(printf '\\xFF%.0s' $(seq 61))/" \
    "10: refused, 16: the identity '$(printf '\\xFF%.0s' $(seq 60))...' (61 bytes) has 61 characters, and a UUID has 36: $form"
breaks 'an identity in capitals' 's/00000003/0000000A/' "10: refused, 16: the identity '0000000A-0123-4567-89ab-cdef01234567' is wrong at character 8: $form"
breaks 'an identity twice' 's/00000003/00000001/' '10: refused, 16: rank 3 has the identity of rank 1, on line 8: give each rank its own'
breaks 'tree, services and identities, in the order of the lines' 's/00000003/00000001/;$s/$/ a.b/;s/^2      0 /2 2 /' \
    "9: refused, 14: rank 2 is its own parent: name another rank
10: refused, 16: rank 3 has the identity of rank 1, on line 8: give each rank its own
13: refused, 15: the service 'a.b' $period"
chain 18 >"$room/floor"
lists 'a depth of 17' '18: refused, 14: rank 17 is 17 links from rank 0, and 16 are the most: name a parent that is nearer to rank 0'
bush 1025 >"$room/floor"
lists '1,025 ranks' '1025: refused, 14: rank 1024 is one too many: ranks go from 0 to 1023'
floor_prints '1,024 ranks and services' "$room/most.floor: a valid floor: 1024 ranks, depth 10, 1 service name, 1024 registrations" check "$room/most.floor"
sed '5s/$/ t/' "$room/most.floor" >"$room/floor"
lists '1,025 services' '1024: refused, 15: here is registration 1025, and a floor has at most 1024: remove some'
{ chain 1 | tr -d '\n' && seq -s ' ' 2100 | sed 's/^/ /'; } >"$room/floor"
lists 'more services than there is room for' '1: refused, 15: here is registration 1025, and a floor has at most 1024: remove some'

# ---- lines that cannot be read

breaks 'a line without a rank' '7s/^0/top/' "7: a line begins with its rank, a number, and not with 'top'"
breaks 'a rank twice' '9s/^2/1/' '9: rank 1 is given twice, here and on line 8: remove one, or correct its number'
breaks 'a rank left out' '9d' '9: rank 2 is missing, and rank 3 is here: add a line for rank 2'
breaks 'ranks left out' '9,10d;12d' '9: ranks 2 to 3 are missing, and rank 4 is here: add a line for each
10: rank 5 is missing, and rank 6 is here: add a line for rank 5'
breaks 'a rank far too high' '9s/^2/5000/' '9: rank 5000 is too high: ranks go from 0 to 1023'
breaks 'no parent' '9s/^2.*/2/' "9: rank 2 has no parent: write one behind the rank, a rank or 'none'"
breaks 'a parent in words' '9s/ 0 / top /' "9: rank 2's parent has to be a rank or 'none', and not 'top'"
breaks 'a parent of 9,000 bytes' "9s/ 0 / $(bytes 9000) /" "9: rank 2's parent has to be a rank or 'none', and not '$(bytes 60)...' (9000 bytes)"
breaks 'no identity' '9s/0000.*//' '9: rank 2 has no identity: write its UUID behind the parent'
breaks 'a byte that a terminal obeys' '9s/$/ \x1B[2J/' '9: byte 52 of the line is the control character 1B: remove it, for a floor is plain text'
breaks 'a zero byte' '9s/^2/2\x00/' '9: byte 2 of the line is the control character 00: remove it, for a floor is plain text'
breaks 'a byte above 7F where a number is due' '9s/^2/\xFF/' "9: a line begins with its rank, a number, and not with '\\xFF'"

# Lines are read on behind a mistake; what only follows from one that is told is not told.
breaks 'every kind of mistake' '7s/^0/top/;8s/ 0 / 9 /;9s/ 0 / zero /;11s/$/ a.b/;12s/^5/3/;13s/00000006.*//' \
    "7: a line begins with its rank, a number, and not with 'top'
9: rank 2's parent has to be a rank or 'none', and not 'zero'
11: refused, 15: the service 'a.b' $period
12: rank 3 is given twice, here and on line 10: remove one, or correct its number
13: rank 6 has no identity: write its UUID behind the parent"
breaks 'a ring beside a line that cannot be read' '9s/^2/x/;8s/ 0 / 3 /' \
    "8: refused, 14: rank 1 is in a ring: 2 links up is rank 1 again; give one of them a parent outside of the ring
9: a line begins with its rank, a number, and not with 'x'"
chain 25 | sed 's/ / x/' >"$room/floor"
floor check "$room/floor"
[ "$status" -eq 1 ] && [ "$(wc -l <"$room/out")" -eq 22 ] && [ "$(tail -n 1 "$room/out")" = 'and 5 more' ] &&
    [ "$(head -n 1 "$room/out")" = "$room/floor: not a valid floor: 25 mistakes" ] && grep -q "^$room/floor:20: " "$room/out"
report $? 'twenty mistakes are told, and how many more there are'
chain 40 | awk 'NR == 40 { $3 = "x" } NR > 19 { $0 = $0 " a.b" } { print }' >"$room/floor"
floor check "$room/floor"
[ "$status" -eq 1 ] && [ "$(tail -n 1 "$room/out")" = 'and 3 more' ] && [ "$(sed -n '2p' "$room/out" | cut -d: -f2)" = 18 ] &&
    [ "$(sed -n '21p' "$room/out" | cut -d: -f2)" = 38 ]
report $? 'the first twenty by line, whichever was found first'

# ---- every command, and every form

breaks 'for the commands below' '9s/ 0 / top /' "9: rank 2's parent has to be a rank or 'none', and not 'top'"
for words in show 'show --dot' 'walk --enter 0 --topic x' 'walk --dot --enter 0 --topic x' 'home --from 0 --topic x' 'trip --enter 0 --topic x'; do
    # shellcheck disable=SC2086
    floor $words "$room/floor"
    [ "$status" -eq 1 ] && [ ! -s "$room/out" ] && [ "$(cat "$room/err")" = "flux_floor: $room/floor: not a valid floor: 1 mistake
$room/floor:9: rank 2's parent has to be a rank or 'none', and not 'top'" ]
    report $? "$words over a floor that is not valid"
    [ "${words/--dot/}" = "$words" ] || continue
    # shellcheck disable=SC2086
    floor $words "$room/floor" --quiet
    [ "$status" -eq 1 ] && [ ! -s "$room/out" ] && [ ! -s "$room/err" ]
    report $? "$words over a floor that is not valid, --quiet"
done
floor check "$room/floor" --quiet
[ "$status" -eq 1 ] && [ ! -s "$room/out" ] && [ ! -s "$room/err" ]
report $? 'check of a floor that is not valid, --quiet'
floor_wrong 'a floor that is not there' "cannot read $room/missing" check "$room/missing"
floor_wrong 'a floor that is not there, --quiet' "cannot read $room/missing" walk --quiet --enter 0 "$room/missing" --topic x
floor_wrong 'a floor that is not there, --json' "cannot read $room/missing" show --json "$room/missing"

# ---- names

named=$room/floor$'\x1B[31m\x9B'
cp "$example" "$named"
for words in check "walk --enter 9 --topic x -o $room/none" 'walk --enter x --topic x' 'show --json' 'show --dot'; do
    # shellcheck disable=SC2086
    floor $words "$named"
    ! LC_ALL=C grep -q '[^ -~]' "$room/out" "$room/err"
    report $? "a file's name with such bytes: $words"
done
sed 's/ 0 / 9 /' "$example" >"$named"
floor check "$named"
[ "$status" -eq 1 ] && ! LC_ALL=C grep -q '[^ -~]' "$room/out" && grep -qF 'floor\x1B[31m\x9B:8: refused, 14: ' "$room/out"
report $? "a broken rule in a file of such a name"

# ---- what only looks like a mistake

# The example with this service at rank 6 is valid, with this warning: in the list of check, and on standard error.
warns() { # LABEL SERVICE SHOWN SIGN
    local said="$room/floor:13: warning: the service '$3' is one name, with $4 in it: only spaces part services"
    sed "13s|\$| $2|" "$example" >"$room/floor"
    floor check "$room/floor"
    [ "$status" -eq 0 ] && [ ! -s "$room/err" ] && [ "$(cat "$room/out")" = "$room/floor: a valid floor: \
7 ranks, depth 2, 3 service names, 4 registrations, 1 warning
$said" ]
    report $? "$1"
    floor walk --enter 0 "$room/floor" --topic log
    [ "$status" -eq 0 ] && [ "$(cat "$room/err")" = "$said" ] && ! grep -q warning "$room/out"
    report $? "$1, of a walk"
}
warns 'a comma' 'log,bench' 'log,bench' 'a comma'
warns 'a semicolon, and a comma behind it' 'log;bench,x' 'log;bench,x' 'a semicolon'
warns 'a colon' 'log:bench' 'log:bench' 'a colon'
warns 'a slash' 'log/bench' 'log/bench' 'a slash'
warns 'a bracket' '[log' '[log' 'a bracket'
warns 'a comment that is none' 'log#old' 'log#old' 'a # that begins no comment'
warns 'a no-break space' 'log\xC2\xA0bench' 'log\xC2\xA0bench' 'a no-break space'
floor show "$room/floor" --quiet
[ "$status" -eq 0 ] && [ ! -s "$room/out" ] && [ ! -s "$room/err" ]
report $? 'a warning, --quiet'
sed '13s/$/ job-manager kvs_2 a~b @x/' "$example" >"$room/floor"
floor_prints 'signs that part nothing' "$room/floor: a valid floor: 7 ranks, depth 2, 6 service names, 7 registrations" check "$room/floor"
sed "13s/\$/ $(seq -s ', ' 24)/" "$example" >"$room/floor"
floor check "$room/floor"
[ "$status" -eq 0 ] && [ "$(wc -l <"$room/out")" -eq 22 ] && [ "$(tail -n 1 "$room/out")" = 'and 3 more warnings' ]
report $? 'twenty warnings are told'
{ printf '\xEF\xBB\xBF' && grep -v '^#' "$example"; } >"$room/floor"
floor_prints 'a byte order mark' "$room/floor: a valid floor: $size, 1 warning
$room/floor:1: warning: the file begins with a byte order mark, which is skipped: save it without" check "$room/floor"
for order in '\xFF\xFE' '\xFE\xFF'; do
    printf '%b0\x00 \x00' "$order" >"$room/floor"
    lists "UTF-16, $order" '1: the file is text in UTF-16: save it as UTF-8 or ASCII'
done
printf '0\x00 \x00n\x00' >"$room/floor"
lists 'UTF-16 without a mark' '1: the file is text in UTF-16: save it as UTF-8 or ASCII'
printf '' >"$room/floor"
lists 'an empty file' '1: refused, 14: no line gives a rank: write at least that of rank 0'

#!/usr/bin/env bash
# How long flux_frame takes to dump captures of requests of 256 bytes: one program beside another, such as
# that of an older commit, and jq's reading of the JSON beside both. Prints markdown tables of ratios.
#
#   bench/dump.sh OLD NEW [MIB] [ROUNDS]
#
# The captures are of MIB mebibytes (64) and are made by NEW. The programs take turns in ROUNDS rounds (5), and
# the one that begins changes each time. A time is that of the processor, user and system, with the output
# sent to /dev/null.
set -u

[ $# -ge 2 ] || { sed -n '2,/^set/s/^# \{0,1\}//p' "$0" >&2; exit 2; }
old=$1 new=$2 mib=${3:-64} rounds=${4:-5}
room=$(mktemp -d) || exit 2
trap 'rm -rf "$room"' EXIT

# ---- captures

one=00000000-0000-0000-0000-000000000001
two=deadbeef-0123-4567-89ab-cdef01234567

# Request number I with this payload, with one route or two.
request() { # I PAYLOAD
    local routes=(--route "$one")
    [ $(($1 % 2)) -eq 0 ] || routes+=(--route "$two")
    "$new" write --type request --topic kvs.lookup --matchtag "$1" --nodeid $(($1 % 8)) --userid 1000 --rolemask 2 \
        "${routes[@]}" --payload "$2"
}

# So many bytes of text, or any bytes that are always the same.
letters() { head -c "$1" /dev/zero | tr '\0' 'x'; }
any_bytes() { LC_ALL=C awk -v n="$1" -v x="$2" 'BEGIN { while (n-- > 0) { x = (x * 7621 + 1) % 32768; printf "%c", 1 + x % 255 } }'; }

# A payload that is JSON, and one that is not, each of so many bytes.
json_payload() { # I BYTES
    local front="{\"id\":$((1000 + $1)),\"key\":\"resource.node$1\",\"flags\":[1,2,3],\"done\":false,\"note\":\""
    printf '%s%s"}\0' "$front" "$(letters $(($2 - ${#front} - 3)))"
}
binary_payload() { any_bytes "$2" "$1"; }

# 64 different requests of 256 bytes, and then these again and again.
capture() { # KIND
    local i left
    for i in {0..63}; do
        left=$((256 - $(request "$i" /dev/null | wc -c)))
        "$1_payload" "$i" "$left" >"$room/payload"
        request "$i" "$room/payload"
    done >"$room/64"
    [ "$(wc -c <"$room/64")" -eq 16384 ] || { echo "bench/dump.sh: a request has not 256 bytes" >&2; exit 2; }
    for i in {1..64}; do cat "$room/64"; done >"$room/mib"
    for ((i = 0; i < mib; i++)); do cat "$room/mib"; done >"$room/$1"
}
capture json
capture binary
for program in "$old" "$new"; do
    "$program" dump --summary "$room/mib" >/dev/null || { echo "bench/dump.sh: $program does not dump the capture" >&2; exit 2; }
done

# ---- times

# The processor's time for the words, in milliseconds.
cost() { # WORDS...
    local TIMEFORMAT='%3U %3S'
    { time "$@" >/dev/null 2>&1; } 2>&1 | awk '{ print 1000 * ($1 + $2) }'
}

# From lines with two times: the median of the ratios, the ratio of the least, and the least times.
ratios() {
    awk '{ print $1 / $2, $1, $2 }' | sort -n | awk '
        { r[NR] = $1; if (NR == 1 || $2 < a) a = $2; if (NR == 1 || $3 < b) b = $3 }
        END { printf "%.2f %.2f %d %d\n", NR % 2 ? r[(NR + 1) / 2] : (r[NR / 2] + r[NR / 2 + 1]) / 2, a / b, a, b }'
}

# A time of each of two commands, which take turns: the commands are functions with no words.
turns() { # FIRST SECOND
    local round a b
    for ((round = 0; round < rounds; round++)); do
        if [ $((round % 2)) -eq 0 ]; then
            a=$($1) && b=$($2)
        else
            b=$($2) && a=$($1)
        fi
        echo "$a $b"
    done | ratios
}

old_dump() { cost "$old" dump $words "$room/$kind"; }
new_dump() { cost "$new" dump $words "$room/$kind"; }
# shellcheck disable=SC2317 # turns calls these
{
    fields_dump() { cost "$new" dump $words --fields number,topic.text "$room/$kind"; }
    jq_compact() { cost jq -c . "$room/written"; }
    jq_status() { cost jq -e . "$room/written"; }
}

# MB of the capture in a second.
speed() { echo $((mib * 1048576 / 1000 / ($1 > 0 ? $1 : 1))); } # MILLISECONDS

# ---- tables

echo '| dump | payloads | old over new | of the least times | MB/s, old | MB/s, new |'
echo '|---|---|---:|---:|---:|---:|'
for words in --json '' --summary; do
    for kind in json binary; do
        read -r median least a b < <(turns old_dump new_dump)
        echo "| ${words:-plain} | $kind | $median | $least | $(speed "$a") | $(speed "$b") |"
    done
done

echo
echo '| beside it, over the new program'"'"'s --json | payloads | ratio | of the least times |'
echo '|---|---|---:|---:|'
words=--json
for kind in json binary; do
    read -r median least a b < <(turns fields_dump new_dump)
    echo "| --fields number,topic.text | $kind | $median | $least |"
done
command -v jq >/dev/null || exit 0
# jq takes long: a part of the capture is enough for it.
[ "$mib" -le 16 ] || mib=16
for kind in json binary; do
    head -c $((mib * 1048576)) "$room/$kind" >"$room/part" && mv "$room/part" "$room/$kind"
    "$new" dump --json "$room/$kind" >"$room/written"
    for program in jq_compact jq_status; do
        read -r median least a b < <(turns "$program" new_dump)
        case $program in jq_compact) name='jq -c .' ;; *) name='jq -e .' ;; esac
        echo "| $name, of what it writes | $kind | $median | $least |"
    done
done

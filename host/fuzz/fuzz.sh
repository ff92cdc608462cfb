#!/usr/bin/env bash
# Fuzzes the host programs and the header's functions by clang's libFuzzer, with the sanitizers for addresses and
# undefined behaviour, so many seconds each: `make fuzz` calls it. What it finds is a file in target/fuzz/found/,
# and what it has tried is kept in target/fuzz/corpus/ for the next time. The status is 0 if nothing was found.
#
#   host/fuzz/fuzz.sh SECONDS [HARNESS...]
set -u
cd "$(dirname "$0")/../.." || exit 2
seconds=$1
shift
[ $# -gt 0 ] || set -- capture audit floors frame_words floor_words helpers
room=$PWD/target/fuzz # a harness is in no folder while the program runs
mkdir -p "$room/found" || exit 2

echo 'fuzz: building the harnesses and their seeds'
host/fuzz/build.sh "$room" '' clang -O1 -g -fsanitize=fuzzer,address,undefined -fno-sanitize-recover=all || exit 2
host/fuzz/seeds.sh "$room/seeds" || exit 2

found=0
for harness; do
    mkdir -p "$room/corpus/$harness"
    "$room/$harness" -max_total_time="$seconds" -timeout=30 -detect_leaks=0 -print_final_stats=1 \
        -dict="$room/seeds/dictionary" -artifact_prefix="$room/found/$harness-" \
        "$room/corpus/$harness" "$room/seeds/$harness" >"$room/$harness.log" 2>&1
    status=$?
    runs=$(sed -n 's/^stat::number_of_executed_units: *//p' "$room/$harness.log")
    if [ "$status" -eq 0 ]; then
        echo "fuzz: $harness: $runs runs, nothing found"
    else
        found=1
        echo "fuzz: $harness: FOUND something, see $room/$harness.log; run it again by $room/$harness FILE:"
        ls "$room/found/$harness-"* 2>/dev/null
    fi
done
exit "$found"

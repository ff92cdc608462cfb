# Tests the fuzzing harnesses of host/fuzz/: part of host/test.sh, behind host/test/header.sh. They compile, each
# runs over its seeds, and each dies where the program or the header does what it must not. `make fuzz` fuzzes.

fuzz=$room/fuzz
mkdir "$fuzz"
sanitized=''
[ ! -x "$room/watched" ] || sanitized=$watched
# shellcheck disable=SC2086 # the options are words
host/fuzz/build.sh "$fuzz" host/fuzz/driver.c "${CC:-gcc}" -O0 $sanitized >"$room/out" 2>"$room/err"
status=$?
report "$status" 'the fuzzing harnesses compile'
FLUX_FRAME=$FLUX_FRAME FLUX_FLOOR=$FLUX_FLOOR host/fuzz/seeds.sh "$fuzz/seeds" >"$room/out" 2>"$room/err"
status=$?
report "$status" 'their seeds are made by the programs'
for words in capture audit floors frame_words floor_words helpers; do
    "$fuzz/$words" "$fuzz/seeds/$words"/* >"$room/out" 2>"$room/err"
    status=$?
    [ "$status" -eq 0 ] && [ "$(cat "$room/out")" = "$(find "$fuzz/seeds/$words" -type f | wc -l) inputs" ]
    report $? "the harness $words over its seeds"
done

# A harness over a program of these words, for two inputs one behind the other.
plays() { # WORDS
    printf '%s\n' '#include <stdlib.h>' 'const char program[] = "plays";' \
        'int program_main(int argc, char **argv)' '{' '    static int runs, begun = 7;' \
        '    static char kept[100000];' '    (void)argc, (void)argv, (void)kept, (void)runs, (void)begun;' "    $1;" \
        '    return 0;' '}' >"$room/plays.c"
    "${CC:-gcc}" -std=c99 -c -o "$room/plays.o" "$room/plays.c" &&
        objcopy --rename-section .bss=host_bss --rename-section .data=host_data "$room/plays.o" &&
        "${CC:-gcc}" -std=c99 -Iinclude -o "$fuzz/plays" host/fuzz/capture.c host/fuzz/run.c host/fuzz/driver.c "$room/plays.o" &&
        sh -c '"$@"; exit $?' sh "$fuzz/plays" "$fuzz/seeds/capture/"{0,1}-four
}
plays 'kept[99999]++; begun++; if (++runs + kept[50000]++ + kept[99999] + begun != 10) abort()' >"$room/out" 2>"$room/err"
status=$?
report "$status" 'each run finds the program as it is at the start'
for words in 'if (argc > 1) abort()' 'return 6'; do
    plays "$words" >"$room/out" 2>"$room/err"
    status=$?
    [ "$status" -gt 128 ] && grep -qiE 'plays dump ended with status 6|abort' "$room/err"
    report $? "a harness whose program does: $words"
done
(cd "$fuzz" && ls -A) >"$room/before"
printf 'write\0--type\0event\0--topic\0x\0-o\0%s\0' "$fuzz/made" >"$fuzz/out-words"
(cd "$fuzz" && ./frame_words out-words >"$room/out" 2>"$room/err" && rm out-words && ls -A | cmp -s - "$room/before")
status=$?
report "$status" 'a harness lets no program make a file'

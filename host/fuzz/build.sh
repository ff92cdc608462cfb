#!/bin/sh
# Builds the fuzzing harnesses into a folder, with the compiler and the options given. MAIN is what calls them
# in place of a fuzzer, or nothing where the options bring one. The archive is ARCHIVE, or else the one of
# `make archive`.
#
#   host/fuzz/build.sh FOLDER MAIN COMPILER OPTIONS...
set -eu
cd "$(dirname "$0")/../.."
folder=$1 main=$2
shift 2
archive=${ARCHIVE:-target/staticlib/liblampreycoil.a}
objects=$folder/objects
rm -rf "$objects"
mkdir -p "$objects"

compile() { # OBJECT FILE OPTIONS...
    object=$1 file=$2
    shift 2
    "$@" -c -o "$objects/$object.o" "$file"
}

set -- "$@" -std=c99 -Wall -Wextra -Werror -Iinclude
# All that a program keeps is put into sections of its own, which host/fuzz/run.c sets back for each run.
for file in host/*.c; do
    name=$(basename "$file" .c)
    compile "$name" "$file" "$@" -Dmain=program_main
    objcopy --rename-section .bss=host_bss --rename-section .data=host_data \
        --rename-section .data.rel.local=host_data --rename-section .data.rel=host_data "$objects/$name.o"
done
compile run host/fuzz/run.c "$@"
rm -f "$objects/host.a"
ar rcs "$objects/host.a" "$objects"/*.o

# A harness, with the program that it calls; the rest of that program is found among the objects.
harness() { # NAME SOURCE PROGRAM COMPILER...
    name=$1 source=$2 program=$3
    shift 3
    # shellcheck disable=SC2086 # MAIN and PROGRAM may be nothing
    "$@" -o "$folder/$name" "$source" $main $program "$objects/host.a" "$archive"
}
harness capture host/fuzz/capture.c "$objects/flux_frame.o" "$@"
harness audit host/fuzz/audit.c "$objects/flux_floor.o" "$@" -DFLOOR="\"$PWD/host/example.floor\""
harness floors host/fuzz/floors.c "$objects/flux_floor.o" "$@"
harness frame_words host/fuzz/words.c "$objects/flux_frame.o" "$@"
harness floor_words host/fuzz/words.c "$objects/flux_floor.o" "$@"
harness helpers host/fuzz/helpers.c '' "$@"

#!/usr/bin/env bash
# Tests `make install`, `make uninstall`, `make dist` and `make deps`: what is installed is all that a program
# needs, the programs are hardened, and the tarball builds and tests them on a machine without the Rattle kit.
# The archive has to be there. The last line is 'N passed, M failed'.
set -u
cd "$(dirname "$0")/../.." || exit 2
# shellcheck source=host/test/good.sh
. host/test/good.sh

room=$(mktemp -d) || exit 2
trap 'rm -rf "$room"' EXIT
CC=${CC:-gcc}

says() { [ "$("${@:2}")" = "$1" ]; } # TEXT WORDS...
files() { (cd "$1" && find . -type f | LC_ALL=C sort); }
quiet_make() { make --no-print-directory -s "$@"; }
# The words as they run where there is no kit.
bare() { env -i HOME="$room" PATH=/usr/bin:/bin "$@"; }

version=$(sed -n 's/^#define LAMPREYCOIL_VERSION "\(.*\)"$/\1/p' include/lampreycoil.h)
all='./bin/flux_floor
./bin/flux_frame
./include/lampreycoil.h
./lib/liblampreycoil.a
./lib/pkgconfig/lampreycoil.pc
./share/doc/lampreycoil/C-GUIDE.md
./share/doc/lampreycoil/FORMAT.md
./share/doc/lampreycoil/example.floor
./share/man/man1/flux_floor.1
./share/man/man1/flux_frame.1'

cat >"$room/use.c" <<'END'
#include <lampreycoil.h>
#include <stdio.h>

int main(void)
{
    uint8_t record[LAMPREYCOIL_READ_RECORD];

    printf("%s %u\n", lampreycoil_version(), (unsigned)lampreycoil_read(NULL, 0, record, sizeof record));
    return 0;
}
END

# A program that is linked with what is in a folder, each way that docs/C-GUIDE.md has.
linked() { # LABEL FOLDER
    local flags
    good "$1: linked by hand" "$CC" -o "$room/use" "$room/use.c" -I"$2/include" -L"$2/lib" -llampreycoil
    good "$1: and it runs" says "$version 1" "$room/use"
    if command -v pkg-config >/dev/null; then
        # The flags are words of the shell, and may have quotes in them.
        eval "flags=($(PKG_CONFIG_PATH=$2/lib/pkgconfig pkg-config --cflags --libs lampreycoil))"
        good "$1: linked by pkg-config" "$CC" -o "$room/use2" "$room/use.c" "${flags[@]}"
        good "$1: and it runs" says "$version 1" "$room/use2"
        good "$1: the version" says "$version" env PKG_CONFIG_PATH="$2/lib/pkgconfig" pkg-config --modversion lampreycoil
    else
        echo "no pkg-config here: $1 is not linked by it"
    fi
}

# ---- make install

usr=$room/usr
good 'make install' quiet_make install PREFIX="$usr"
good 'what is installed' says "$all" files "$usr"
linked 'an install' "$usr"
good 'flux_frame is installed' says "flux_frame $version" "$usr/bin/flux_frame" --version
good 'flux_floor is installed' "$usr/bin/flux_floor" check "$usr/share/doc/lampreycoil/example.floor"
echo kept >"$usr/lib/other"
good 'make uninstall' quiet_make uninstall PREFIX="$usr"
good 'make uninstall leaves what is not its own' says ./lib/other files "$usr"
good 'make uninstall again' quiet_make uninstall PREFIX="$usr"

# A place with everything in it that make, the shell, sed or pkg-config could take for its own.
# shellcheck disable=SC2016 # no part of it is to be expanded
odd=$room/'o'"'"'d & "q" a|b\c #1 `d`; x'
good 'make install to an odd place' quiet_make install PREFIX="$odd"
good 'what is installed there' says "$all" files "$odd"
linked 'an odd place' "$odd"
good 'make uninstall from an odd place' quiet_make uninstall PREFIX="$odd"
good 'nothing is left there' says '' files "$odd"

good 'make install with DESTDIR' quiet_make install DESTDIR="$room/stage" PREFIX=/opt/x
good 'what is installed with DESTDIR' says "$all" files "$room/stage/opt/x"
good 'all of it is below DESTDIR' says "$(printf '%s' "$all" | sed 's|^\.|./opt/x|')" files "$room/stage"
good 'DESTDIR is no part of a place' grep -qx 'prefix=/opt/x' "$room/stage/opt/x/lib/pkgconfig/lampreycoil.pc"
good 'make uninstall with DESTDIR' quiet_make uninstall DESTDIR="$room/stage" PREFIX=/opt/x
good 'nothing is left' says '' files "$room/stage"

# The CMake file of docs/C-GUIDE.md, in an install of its own.
if command -v cmake >/dev/null && command -v pkg-config >/dev/null; then
    awk '/^```cmake$/ { code = 1; next } /^```$/ { code = 0 } code' docs/C-GUIDE.md >"$room/CMakeLists.txt"
    cp "$room/use.c" "$room/daemon.c"
    good 'make install for CMake' quiet_make install PREFIX="$usr"
    good 'the CMake file of docs/C-GUIDE.md' env PKG_CONFIG_PATH="$usr/lib/pkgconfig" cmake -S "$room" -B "$room/cmake"
    good 'it builds' cmake --build "$room/cmake"
    good 'and it runs' says "$version 1" "$room/cmake/daemon"
else
    echo 'no cmake or no pkg-config here: the CMake file of docs/C-GUIDE.md is not tried'
fi

# ---- how the programs are built

has() { "${@:2}" | grep -qE -- "$1"; } # PATTERN COMMAND...
lacks() { ! has "$@"; }
symbols() { readelf --dyn-syms -W "$1"; } # PROGRAM

if command -v readelf >/dev/null; then
    for program in target/host/flux_frame target/host/flux_floor; do
        good "$program: read-only once it is linked" has GNU_RELRO readelf -lW "$program"
        good "$program: linked before it starts" has BIND_NOW readelf -dW "$program"
        good "$program: at any place" has 'Flags:.* PIE' readelf -dW "$program"
        good "$program: no code on its stack" lacks 'GNU_STACK.* RWE ' readelf -lW "$program"
        good "$program: its stack is watched" has __stack_chk_fail symbols "$program"
        good "$program: what it fills is watched" has '__[a-z]*_chk' symbols "$program"
    done
else
    echo 'no readelf here: how the programs are hardened is not looked at'
fi
# The user's words count, from the environment and from the command line, behind the project's own. Each has a
# folder of its own, so that all is built.
theirs='CPPFLAGS=-DTHEIRS CFLAGS=-O1 LDFLAGS=-Wl,-O1'
# shellcheck disable=SC2086 # the words are words
for words in "env $theirs make" "make $theirs"; do
    good "the flags of: $words" has '-Wall -Wextra .*-Werror .*-D_FORTIFY_SOURCE=2 .*-z,now -DTHEIRS -O1 -Wl,-O1 ' \
        $words -n --no-print-directory host HOST_DIR="$room/unbuilt"
done
# shellcheck disable=SC2086
for words in 'env CFLAGS=-O0 make' 'make CFLAGS=-O0' 'make CPPFLAGS=-D_FORTIFY_SOURCE=1' 'make LDFLAGS=-no-pie'; do
    rm -rf "$room/built"
    good "$words" $words -s host HOST_DIR="$room/built"
    good "$words: and it runs" "$room/built/flux_floor" check host/example.floor
done

# ---- make deps

# A path with no more on it than make and its rules need, a kit, and an apt-get that only says so.
few=$room/few
mkdir "$few"
for words in sh bash env make find sed id dirname df awk tail git mkdir; do
    ln -s "$(command -v "$words")" "$few/$words"
done
for words in rt apt-get sudo gcc cc cargo rustc; do
    printf '#!/bin/sh\necho %s "$@" >>"%s/called"\n' "$words" "$room" >"$few/$words"
    chmod 755 "$few/$words"
done
with_few() { env -i PATH="$few" HOME="$room" make --no-print-directory -s "$@"; }
good 'make deps where all is there' says '' with_few deps
good 'and with NO_INSTALL' says '' with_few deps NO_INSTALL=1
rm "$few/cargo" "$few/gcc"
with_few deps NO_INSTALL=1 2>"$room/said"
good 'make deps NO_INSTALL=1 fails' [ $? -ne 0 ]
good 'and names what is missing' grep -qxF 'make: missing: gcc libc6-dev cargo' "$room/said"
with_few fuzz-deps NO_INSTALL=1 2>"$room/said"
good 'make fuzz-deps NO_INSTALL=1 names what fuzzing alone needs' grep -qxF 'make: missing: clang libclang-rt-dev' "$room/said"
good 'neither calls anybody' [ ! -e "$room/called" ]
good 'make deps installs it' with_few deps
good 'by apt-get' grep -qxE '(apt-get|sudo apt-get) install -y gcc libc6-dev cargo' "$room/called"

# ---- the man pages

# Each option that the program's help has is in its page, and nothing in the page is badly formed.
page() { # PROGRAM
    local option
    for option in $("target/host/$1" --help | grep -oE -- '--[a-z]+(-[a-z]+)*' | sort -u); do
        good "$option in the page of $1" grep -qF -- "${option//-/\\-}" "man/$1.1"
    done
    good "the version in the page of $1" grep -qF "\"Lampreycoil $version\"" "man/$1.1"
    if command -v groff >/dev/null; then
        good "the page of $1 is well formed" says '' sh -c "groff -man -Tascii -ww -z man/$1.1 2>&1"
    fi
}
page flux_frame
page flux_floor

# ---- make dist

tarball=target/dist/lampreycoil-$version.tar.gz
good 'make dist' quiet_make dist
cp "$tarball" "$room/first.tar.gz"
good 'make dist again' quiet_make dist
good 'the tarball is the same bytes' cmp "$tarball" "$room/first.tar.gz"

# In a repository of its own with the same files: what git does not track is no part of it, and without git's
# answer there is no tarball.
copy=$room/copy
mkdir "$copy"
git ls-files -z | xargs -0 cp --parents -t "$copy"
mkdir -p "$copy/target/staticlib" && cp target/staticlib/liblampreycoil.a "$copy/target/staticlib"
in_copy() { env -C "$copy" GIT_CONFIG_GLOBAL=/dev/null GIT_CONFIG_SYSTEM=/dev/null GIT_CEILING_DIRECTORIES="$room" "$@"; }
no_tarball() { # LABEL WORDS...
    "${@:2}" 2>"$room/said"
    good "no tarball: $1" [ $? -ne 0 ]
    good "no tarball: $1: it says so" grep -qF 'make dist: git does not tell' "$room/said"
    good "no tarball: $1: there is none" [ ! -e "$copy/target/dist" ]
}
good 'a copy of the files' in_copy sh -c 'git init -q && git add -f -- * host/.clang-format &&
    git -c user.name=a -c user.email=a@b commit -qm all --date @1000000000 && touch target/staticlib/liblampreycoil.a'
good 'make dist of the copy' in_copy make -s dist
cp "$copy/target/dist/"*.tar.gz "$room/tracked.tar.gz"
echo stray >"$copy/host/stray.h"
good 'make dist beside a stray file' in_copy make -s dist
good 'which is no part of it' cmp "$room/tracked.tar.gz" "$copy/$tarball"
no_tarball "another's repository" in_copy env GIT_TEST_ASSUME_DIFFERENT_OWNER=1 make -s dist
ln -sf /bin/false "$few/git"
no_tarball 'no git' in_copy env PATH="$few:$PATH" make -s dist
rm -rf "$copy/.git"
no_tarball 'no repository' in_copy make -s dist
good 'the tarball unpacks' tar -C "$room" -xzf "$tarball"
dist=$room/lampreycoil-$version
linked 'the tarball' "$dist"
good 'no kit is on the path' bare sh -c '! command -v rt && ! command -v rattle'
good 'the tarball builds' bare make -C "$dist" -s
good 'the tarball tests' bare make -C "$dist" -s test
cp "$room/out" "$room/tested"
good 'with a count' grep -qxE '[0-9]{3,4} passed, 0 failed' "$room/tested"
good 'the tarball installs' bare make -C "$dist" -s install PREFIX="$room/from-dist"
good 'what the tarball installs' says "$all" files "$room/from-dist"
good 'its archive is ours' cmp "$room/from-dist/lib/liblampreycoil.a" target/staticlib/liblampreycoil.a
good 'make clean keeps the archive' bare sh -c "make -C '$dist' -s clean && make -C '$dist' -s"

echo "$passed passed, $failed failed"
[ "$failed" -eq 0 ]

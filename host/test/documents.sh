#!/usr/bin/env bash
# Tests the documents. Each C example compiles by itself as it stands, as C and as C++, without a warning, and
# a program among them prints what its document says. Each file, crate and link of a document is there, and
# each name in brackets behind a file is in that file. README.md has at most 200 lines, and no line of prose
# has more than 100 characters. The archive is ARCHIVE, or else the one of `make archive`. The last line is
# 'N passed, M failed'.
# shellcheck disable=SC2016 # backticks and dollars between quotes are meant as they are
set -u
cd "$(dirname "$0")/../.." || exit 2
# shellcheck source=host/test/examples.sh
. host/test/examples.sh
# shellcheck source=host/test/good.sh
. host/test/good.sh

ARCHIVE=${ARCHIVE:-target/staticlib/liblampreycoil.a}
room=$(mktemp -d) || exit 2
trap 'rm -rf "$room"' EXIT

# ---- the examples

warned='-Wall -Wextra -Wpedantic -Werror'
plus=yes
command -v g++ >/dev/null || { plus='' && echo 'no g++ here: the examples are not compiled as C++'; }

# Each C example of a document compiles. There is one at least, and each has a name of its own.
compiles() { # DOCUMENT
    local folder=$room/$1 blocks example
    mkdir -p "$folder" && examples "$1" "$folder"
    blocks=$(grep -cx '```c' "$1")
    good "$1 has a C example" [ "$blocks" -gt 0 ]
    good "$1: each example has a name of its own" [ "$(find "$folder" -name '[a-z]*.c' ! -name 'nameless*' | wc -l)" -eq "$blocks" ]
    # shellcheck disable=SC2086 # the options are words
    for example in "$folder"/*.c; do
        good "$1: $(basename "$example") as C" "${CC:-gcc}" -std=c99 $warned -Iinclude -c -o "$room/object" "$example"
        [ -z "$plus" ] ||
            good "$1: $(basename "$example") as C++" g++ -x c++ -std=c++11 $warned -Iinclude -c -o "$room/object" "$example"
    done
}

# A program among the examples of a document prints just what stands there below the command that runs it.
prints() { # DOCUMENT PROGRAM COMMAND [INPUT]
    local said
    said=$(awk -v command="    \$ $3" '$0 == command { on = 1; next } on && /^    [^$]/ { print substr($0, 5); next } { on = 0 }' "$1")
    good "$1: $2 is linked" "${CC:-gcc}" -Iinclude -o "$room/$2" "$room/$1/$2.c" "$ARCHIVE"
    good "$1: $2 prints something there" [ -n "$said" ]
    good "$1: $2 runs" sh -c '"$1" <"$2" >"$1.out"' run "$room/$2" "${4:-/dev/null}"
    good "$1: $2 prints what stands there" [ "$(cat "$room/$2.out")" = "$said" ]
}

compiles README.md
compiles docs/C-GUIDE.md
printf '\xFF\xEE\x00\x12\x00\x00\x00\x1B\x00\x04log\x00\x14\x8E\x01\x01\x09\xFF\xFF\xFF\xFF\x00\x00\x00\x00\xFF\xFF\xFF\xFF\x00\x00\x00\x01' >"$room/log"
prints README.md topic 'target/host/flux_frame write --type request --topic log --matchtag 1 | ./topic' "$room/log"
prints README.md one_step './one_step'

# ---- what the documents name

documents='README.md CONTRIBUTING.md docs/C-GUIDE.md docs/ARCHITECTURE.md docs/FORMAT.md bench/README.md'
families='bytes|frame|json|table|step|walk|call|claim'

# The document without what stands between fences.
prose() { awk '/^```/ { code = !code; next } !code' "$1"; } # DOCUMENT

# A path is there: of the repository, of the crates, or beside the document.
there() { [ -e "$2" ] || [ -e "crates/$2" ] || [ -e "$(dirname "$1")/$2" ]; } # DOCUMENT PATH

# The document has a heading that a link calls so: in small letters, a hyphen for each space, no other marks.
headed() { # DOCUMENT ANCHOR
    prose "$1" | sed -n 's/^##* //p' | tr '[:upper:] ' '[:lower:]-' | sed 's/[^a-z0-9_-]//g' | grep -qxF -- "$2"
}

# A name that begins as those of a family do is a crate's, or one that specs/ or src/ declares.
known() { # NAME
    [ -d "crates/$1" ] || grep -rqE "\b(fn|const|mod) $1\b" crates/*/src ||
        grep -rqE "^ *((abbrev|pub|unfoldable|data|record) +)*$1( .*)? :" crates/*/specs
}

# Each file, crate and link of a document is there.
named() { # DOCUMENT
    local path link
    for path in $(prose "$1" | grep -oE '`[A-Za-z0-9_.-]+(/[A-Za-z0-9_.-]+)+/?`' | tr -d '`' | sort -u); do
        # what is made is not in the repository, and CRATE or NAME stand for any
        case $path in target/* | bin/* | lib/* | share/* | */out/* | */CRATE/* | */NAME/*) continue ;; esac
        good "$1 names $path, which is there" there "$1" "$path"
    done
    for path in $(prose "$1" | grep -oE "\`($families)_[a-z0-9_]+\`" | tr -d '`' | sort -u); do
        good "$1 names $path, which is a crate or a definition" known "$path"
    done
    for link in $(prose "$1" | grep -oE '\]\([^)]+' | sed 's/^](//' | sort -u); do
        case $link in
        *://*) ;;
        '#'*) good "$1 links to $link, which is there" headed "$1" "${link#*#}" ;;
        *'#'*) good "$1 links to $link, which is there" headed "$(dirname "$1")/${link%%#*}" "${link#*#}" ;;
        *) good "$1 links to $link, which is there" [ -e "$(dirname "$1")/$link" ] ;;
        esac
    done
}

# Each name in brackets behind a file, `FILE` (`NAME`, `NAME`), is in that file.
defined() { # DOCUMENT
    local entry file name
    while read -r entry; do
        file=$(cut -d '`' -f 2 <<<"$entry")
        for name in $(grep -oE '`[^`]+`' <<<"${entry#*(}" | tr -d '`'); do
            good "$1: $name is in $file" grep -qwF -- "$name" "crates/${file#crates/}"
        done
    done < <(prose "$1" | grep -oE '`[a-z_]+/[A-Za-z0-9_./]+\.(antt|rt)` \((`[A-Za-z0-9_]+`(, )?)+')
}

# No line of prose is too long; tables and code are no prose. Prints the lines that are.
short() { ! prose "$1" | grep -vE '^(\||    )' | LC_ALL=C.UTF-8 grep -E '^.{101}'; } # DOCUMENT

for document in $documents; do
    good "$document is there" [ -s "$document" ]
    named "$document"
    defined "$document"
    good "$document: no line of prose has more than 100 characters" short "$document"
done
good 'README.md has at most 200 lines' [ "$(wc -l <README.md)" -le 200 ]

echo "$passed passed, $failed failed"
[ "$failed" -eq 0 ]

# Tests include/lampreycoil.h: part of host/test.sh, which has the helpers. The header gives no warning
# in any C or C++ by any compiler that is here. Only the first of them, CC, has to be here.

echo '#include "lampreycoil.h"' >"$room/header.c"
cp "$room/header.c" "$room/header.cpp"

# The compiler takes the header without a warning in each of the languages, with the options given.
silent() { # COMPILER FILE LANGUAGES OPTIONS...
    local compiler=$1 file=$2 language
    command -v "$compiler" >/dev/null || { echo "no $compiler here: it does not read the header" && return; }
    for language in $3; do
        "$compiler" "-std=$language" "${@:4}" -Wall -Wextra -pedantic -Werror -Iinclude -fsyntax-only "$room/$file" \
            >"$room/out" 2>"$room/err"
        status=$?
        report "$status" "the header in $language by $compiler"
    done
}

plain='-Wconversion -Wsign-conversion -Wshadow -Wcast-qual'
# Left out of clang's everything: names that an old clang may not know, padding of a struct, pointers
# that move, and what a C or C++ before that of the header would not have.
every='-Weverything -Wno-unknown-warning-option -Wno-padded -Wno-unsafe-buffer-usage'
every+=' -Wno-declaration-after-statement -Wno-c++98-compat -Wno-c++98-compat-pedantic'
# shellcheck disable=SC2086 # the options are words
{
    silent "${CC:-gcc}" header.c 'c99 c11' $plain -Wstrict-prototypes -Wmissing-prototypes
    silent clang header.c 'c99 c11' $every
    silent g++ header.cpp 'c++98 c++17' $plain -Wold-style-cast -Wuseless-cast -Wzero-as-null-pointer-constant
    silent clang++ header.cpp 'c++98 c++17' $every
}
program empty
program helpers
program helpers_words
if command -v g++ >/dev/null; then
    program helpers g++ -x c++ -std=c++11 -Wold-style-cast
    program helpers_words g++ -x c++ -std=c++11 -Wold-style-cast
else
    echo 'no g++ here: host/test/helpers.c and helpers_words.c are not compiled as C++'
fi

# Once more where each access and each step of the C is watched, if the compiler can do that here.
watched='-fsanitize=address,undefined -fno-sanitize-recover=all'
echo 'int main(void) { return 0; }' >"$room/watched.c"
# shellcheck disable=SC2086 # the options are words
if "${CC:-gcc}" $watched -o "$room/watched" "$room/watched.c" 2>"$room/err" && "$room/watched" 2>"$room/err"; then
    program empty "${CC:-gcc}" -std=c99 $watched
    program helpers "${CC:-gcc}" -std=c99 $watched
    program helpers_words "${CC:-gcc}" -std=c99 $watched
    program read_fault "${CC:-gcc}" -std=c99 $watched
    program read_stream "${CC:-gcc}" -std=c99 $watched
    program check_json "${CC:-gcc}" -std=c99 $watched
    program commands "${CC:-gcc}" -std=c99 $watched
    program stream "${CC:-gcc}" -std=c99 $watched
    program guide "${CC:-gcc}" -std=c99 $watched
else
    echo 'no sanitizers here: host/test/empty.c, helpers.c, helpers_words.c, read_fault.c, read_stream.c, check_json.c, commands.c, stream.c and guide.c run without them alone'
fi

# An answer that nobody looks at is a warning: of each call, and of what is made of the calls.
ignored() { # CALL ARGUMENTS
    printf '#include "lampreycoil.h"\n%s\n{\n    %s(%s);\n}\n' \
        'void ignore(const struct lampreycoil_message *m, struct lampreycoil_message *n, uint8_t *b, size_t *l)' \
        "$1" "$2" >"$room/ignored.c"
    "${CC:-gcc}" -std=c99 -Wno-unused-parameter -Wall -Iinclude -c -o "$room/ignored.o" "$room/ignored.c" >"$room/out" 2>"$room/err"
    status=$?
    [ "$status" -eq 0 ] && grep -q 'unused-result' "$room/err"
    report $? "an answer of $1 that is not looked at"
}
ignored lampreycoil_read 'b, 0, b, 0'
ignored lampreycoil_read_fault 'b, 0, b, 0'
ignored lampreycoil_read_stream 'b, 0, b, 0, b, 0'
ignored lampreycoil_write '1, 0, 0, 0, 0, 0, b, 0, b, 0, b, 0, b, 0, b, 0'
ignored lampreycoil_check_json 'b, 0, b, 0'
ignored lampreycoil_is_json '0, b'
ignored lampreycoil_read_command 'b, 0, b, 0'
ignored lampreycoil_write_command '1, 1, b, 0, b, 0, b, 0, b, 0, b, 0'
ignored lampreycoil_check_tree 'b, 0, b, 0, b, 0'
ignored lampreycoil_check_services 'b, 0, b, 0'
ignored lampreycoil_check_identities 'b, 0, b, 0'
ignored lampreycoil_step 'b, 0, b, 0, b, 0, 0, b, 0, b, 0'
ignored lampreycoil_walk 'b, 0, b, 0, b, 0, 0, b, 0, b, 0'
ignored lampreycoil_frame_length 'b, 0, l'
ignored lampreycoil_read_message 'b, 0, n, l'
ignored lampreycoil_write_message 'm, b, 0, l'

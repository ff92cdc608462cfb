# For tests that are bash: how many checks passed and failed, and one check. The test makes the folder $room.
# shellcheck shell=bash
passed=0 failed=0

# The words are a command that succeeds.
good() { # LABEL WORDS...
    local label=$1
    shift
    if "$@" >"$room/out" 2>"$room/err"; then
        passed=$((passed + 1))
    else
        failed=$((failed + 1))
        echo "FAILED: $label"
        tail -n 15 "$room/out" "$room/err" | sed 's/^/  /'
    fi
}

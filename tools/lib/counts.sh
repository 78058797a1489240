# What the scripts share that try things: how many passed and failed, and the last line, which tells both. `room` is a folder of
# the script.
#
# shellcheck shell=bash
passed=0
failed=0

# count NAME STATUS: counts what was tried, which passed where STATUS is 0, and names it where it did not. It ends with STATUS.
count() {
    if [ "$2" -eq 0 ]; then passed=$((passed + 1)); else
        failed=$((failed + 1))
        echo "failed: $1"
    fi
    return "$2"
}

# tries NAME COMMAND..: counts whether a command succeeds. What it says is shown where it does not.
tries() {
    local status
    # shellcheck disable=SC2154 # (room)
    "${@:2}" >"$room/said" 2>&1
    status=$?
    [ "$status" -eq 0 ] || tail -n 30 "$room/said"
    count "$1" "$status"
}

# tell_counts: prints the last line; the status is 0 where nothing failed.
tell_counts() {
    echo "$passed passed, $failed failed"
    [ "$failed" -eq 0 ]
}

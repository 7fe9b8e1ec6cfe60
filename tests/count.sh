# shellcheck shell=sh
# Sourced by each test: what passed, what failed and what was skipped is counted, and said at the end. `room` is a folder for its files.
passed=0
failed=0
skipped=0
room=$(mktemp -d)
trap 'rm -rf "$room"' EXIT

pass() {
    passed=$((passed + 1))
}

# fail NAME WHY
fail() {
    failed=$((failed + 1))
    echo "FAILED $1: $2"
}

# skip NAME WHY
skip() {
    skipped=$((skipped + 1))
    echo "skipped $1: $2"
}

# same NAME WANT GOT: both files hold the same, or the difference is shown.
same() {
    if diff "$2" "$3" > "$room/difference"; then
        pass
    else
        fail "$1" "wanted (<) and got (>):"
        cat "$room/difference"
    fi
}

# finish NAME: the count is the last line, and the status says whether all is well.
finish() {
    echo "$1: $passed passed, $failed failed, $skipped skipped"
    [ "$failed" = 0 ]
}

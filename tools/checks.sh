# Counting of checks, for the tests in this folder to source.
# shellcheck shell=sh

passed=0
failed=0

# check WHAT TEST..: counts whether the test holds.
check() {
    what=$1
    shift
    if "$@"; then
        passed=$((passed + 1))
    else
        failed=$((failed + 1))
        echo "FAILED: $what"
        show_failure
    fi
}

# What is shown of a check that failed; a test may have its own.
show_failure() {
    :
}

# tell WHAT: says how many passed; its status is the test's.
tell() {
    echo "$1: $passed passed, $failed failed"
    [ "$failed" = 0 ]
}

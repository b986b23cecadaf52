# shellcheck shell=sh
# How the test commands count and report. To be sourced.

passed=0
failed=0

# check NAME COMMAND ..: one line a case
check() {
    name=$1
    shift
    if "$@"; then
        passed=$((passed + 1))
        echo "passed: $name"
    else
        failed=$((failed + 1))
        echo "failed: $name"
    fi
}

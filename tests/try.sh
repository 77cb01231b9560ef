# For the test scripts to source, which set `part`, their name in what they print: counts what passes and what fails.
passed=0
failed=0

# Runs the words after the first, and counts under that name whether they succeed.
try() {
    local name=$1
    shift
    if "$@"; then
        passed=$((passed + 1))
        echo "$part: $name: passed"
    else
        failed=$((failed + 1))
        echo "$part: $name: FAILED"
    fi
}

# The last line of a script, which fails where something did, or where nothing was tried.
total() {
    echo "$part: $passed passed, $failed failed"
    [ "$failed" -eq 0 ] && [ "$passed" -gt 0 ]
}

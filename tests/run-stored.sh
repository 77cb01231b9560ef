#!/usr/bin/env bash
# Runs a program on each stored input, tests/PROGRAM/NAME.plan or NAME.input, and compares all that it writes with
# NAME.expected. The expected texts are the second checker's (`second PROGRAM <INPUT >NAME.expected`);
# tests/run-embedding.sh compares them.
# usage: tests/run-stored.sh verdict|margin        (needs rt)
set -uo pipefail
shopt -s nullglob extglob
cd "$(dirname "$0")/.."
program=$1
part=$program
. tests/try.sh

# The program writes what is expected. A name must have an input, one alone, and an expected text.
writes_expected() {
    local inputs=("$1".@(plan|input))
    if [ "${#inputs[@]}" -ne 1 ]; then
        echo "$program: $1 has ${#inputs[@]} inputs"
        return 1
    fi
    "target/bin/$program" <"${inputs[0]}" | cmp - "$1.expected"
}

./build "$program" || exit 1
files=("tests/$program"/*)
for name in $(printf '%s\n' "${files[@]%.*}" | sort -u); do
    try "$(basename "$name")" writes_expected "$name"
done

total

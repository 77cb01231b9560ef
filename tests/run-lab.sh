#!/usr/bin/env bash
# Tests labs: what `rrp lab` writes and reads; and, where daemons are installed and network namespaces can be made,
# boots the bundled plan's lists and the small plans, lets a session and a router fail, and ends a lab by a signal. Says
# how many lists were booted, or why none were. With LISTS, so many random lists are booted too.
# usage: tests/run-lab.sh [LISTS [SEED]]        (needs what ./build leaves; to boot: root, bird2 or frr, iproute2)
set -uo pipefail
cd "$(dirname "$0")/.."
out=target/lab
part=lab
. tests/try.sh
PATH=$PATH:/usr/sbin:/sbin:/usr/lib/frr

# The unit tests of the modules named.
unit_tests() {
    (cd python && python3 -m unittest "${@/#/tests.}") 2>&1 | tee "$out/unit-tests.log"
}

# Why no list can be booted with some programs; nothing if it can.
why_not() {
    local program probe=rrp-lab-probe-$$
    if [ "$(id -u)" -ne 0 ]; then
        echo "the tests are not run as root"
        return
    fi
    for program in ip "$@"; do
        if ! command -v "$program" >/dev/null; then
            echo "$program is not installed"
            return
        fi
    done
    if ! ip netns add "$probe" 2>"$out/probe"; then
        echo "no network namespace can be made: $(tail -n 1 "$out/probe")"
        return
    fi
    ip netns delete "$probe"
}

# How many lists the unit tests say they booted.
booted() {
    grep -o '[0-9]* lists were booted' "$out/unit-tests.log" | awk '{ count += $1 } END { print count + 0 }'
}

# The unit tests that boot lists, with the daemons named. To unittest, none at all are fine.
boot_lists() {
    RRP_LAB_BOOT=$1 unit_tests test_lab_boots test_lab_random && [ "$(booted)" -gt 0 ]
}

# Boots lists with the daemons named if the programs after that are there, and says how many, or why none.
boots() {
    local daemons=$1 why
    shift
    why=$(why_not "$@")
    if [ -n "$why" ]; then
        echo "lab: no list was booted with $daemons: $why"
        return
    fi
    try "lists booted with $daemons" boot_lists "$daemons"
    echo "lab: $(booted) lists were booted with $daemons"
}

mkdir -p "$out"
export RRP_LAB_LISTS=${1:-0} RRP_LAB_SEED=${2:-4456}
try "what is written and read" unit_tests test_lab
boots bird bird birdc
boots frr zebra bgpd vtysh

total

#!/usr/bin/env bash
# Builds the planner's tool and tests it: its unit tests, among them all stored outputs and fuzzed inputs; plans of the
# second checker to text and back, and their verdicts by name; the command as ./build leaves it, and as pip installs it,
# as a copy and in place.
# usage: tests/run-tool.sh [SEED]        (needs rt, gcc, cargo, and python3 with pip and venv)
set -uo pipefail
cd "$(dirname "$0")/.."
seed=${1:-4456}
plans=300
# So many unit tests there were when this was last set; fewer are a sign that some are not found.
fewest=695
out=target/tool
part=tool
. tests/try.sh

# The unit tests, or those of the modules that `-p` names. So many must run: to unittest, none at all are fine.
unit_tests() {
    local least=$1 log=$out/unit-tests.log ran
    shift
    PYTHONPATH=python python3 -m unittest discover -s python/tests -t python "$@" 2>&1 | tee "$log" || return 1
    ran=$(sed -n 's/^Ran \([0-9]*\) tests\{0,1\} in .*/\1/p' "$log")
    if [ "${ran:-0}" -lt "$least" ]; then
        echo "tool: ${ran:-0} unit tests ran, not $least"
        return 1
    fi
}

# `second` with the words given, built as tests/run-embedding.sh builds it, and so not built again after it.
second() {
    RRP_LIB_DIR=$PWD/target/staticlib CARGO_TARGET_DIR=$PWD/target/second cargo run --quiet --release --offline \
        --features library --manifest-path tests/second/Cargo.toml --bin second -- "$@"
}

# Plans that the second checker writes come back from text as the same bytes, are judged by name and filed as it expects,
# have the steady tables that the library lists, no smaller set to load the hop step on than it names, the figures
# that their verdicts give, the grades of their machines, and lists that make them suspect.
random_plans() {
    rm -rf "$out/plans"
    second write "$out/plans" --seed "$seed" --plans "$plans" >/dev/null || return 1
    [ "$(find "$out/plans" -name '*.plan' | wc -l)" -eq "$plans" ] || return 1
    export RRP_PLANS=$PWD/$out/plans
    unit_tests 1 -p test_roundtrip.py && unit_tests 1 -p test_filing.py && unit_tests 1 -p test_steady.py &&
        unit_tests 1 -p test_hop_set.py && unit_tests 1 -p test_figures.py && unit_tests 1 -p test_grades.py &&
        unit_tests 1 -p test_always.py
}

# The command finds the example's suspect list, started from anywhere and by a link to it.
command_runs() {
    local root=$PWD
    ln -sf "$root/target/bin/rrp" "$out/rrp"
    (cd / && "$root/$out/rrp" check "$root/examples/net.rrp" >"$root/$out/net.answer")
    [ $? -eq 1 ] && grep -q '^transit *suspect: lon-rr -> par-rr -> fra-rr -> lon-rr$' "$out/net.answer"
}

# Installed by pip, without a network, the command has the library beside it.
pip_installs() {
    local root=$PWD
    rm -rf "$out/installed"
    PIP_ROOT_USER_ACTION=ignore python3 -m pip install --quiet --no-index --target "$out/installed" ./python || return 1
    (cd / && env -u RRP_LIBRARY PYTHONPATH="$root/$out/installed" \
        "$root/$out/installed/bin/rrp" check "$root/examples/m3.plan" >/dev/null)
    [ $? -eq 1 ] && [ -f "$out/installed/rrp/librrp.so" ]
}

# Installed by pip install -e, without a network, the command is that of the repository.
pip_installs_editable() {
    local root=$PWD venv=$out/venv
    rm -rf "$venv"
    python3 -m venv "$venv" || return 1
    env -u PYTHONPATH "$venv/bin/python" -m pip install --quiet --no-index -e ./python || return 1
    (cd / && env -u PYTHONPATH -u RRP_LIBRARY "$root/$venv/bin/rrp" check "$root/examples/m3.plan" >/dev/null)
    [ $? -eq 1 ] || return 1
    local place='import rrp; print(rrp.__path__[0])'
    [ "$(cd / && env -u PYTHONPATH "$root/$venv/bin/python" -c "$place")" = "$root/python/rrp" ]
}

mkdir -p "$out"
try "the build" ./build
try "the sources compile" python3 -m compileall -q python/rrp python/tests
try "the unit tests" unit_tests "$fewest"
try "random plans to text and back" random_plans
try "the command" command_runs
try "the command as pip installs it" pip_installs
try "the command as pip install -e installs it" pip_installs_editable

total

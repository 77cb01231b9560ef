#!/usr/bin/env bash
# Builds the library for C and runs what embeds it: the header as C and as C++, the C examples, the second checker held
# against the library, the programs that measure its size and the stack.
# Also runs the second checker's own tests; holds the yardstick of the bench, the expected lines of `cases`, the verdict
# and the margin program against it; and builds the bench.
# usage: tests/run-embedding.sh [SEED]        (needs rt, gcc, g++ and cargo)
set -uo pipefail
shopt -s nullglob
cd "$(dirname "$0")/.."
seed=${1:-4456}
plans=20000
out=target/embedding
archive=target/staticlib
part=embedding
. tests/try.sh

# Says whether a command writes just what a file holds.
writes() {
    local file=$1
    shift
    "$@" | cmp - "$file"
}

# A plan cut short is refused, by the number of the refusal table.
refuses_cut_plan() {
    head -c 25 examples/m3.plan >"$out/cut.plan"
    [ "$("$out/verdicts" "$out/cut.plan")" = "refused 1" ]
}

# The bundled plan with the hop step at router 0.
write_hop_plan() {
    { head -c 26 examples/m3.plan && printf '\4' && tail -c +28 examples/m3.plan; } >"$out/hop.plan"
}

# Which of two routes the C example calls better, and by how much its egress is nearer; or the refusal.
compares() {
    local plan asked expected
    cp examples/m3.plan tests/verdict/no-way-from-0-to-3.plan tests/verdict/rrp2-suspect.plan "$out" && write_hop_plan || return 1
    while IFS='|' read -r plan asked expected; do
        # shellcheck disable=SC2086
        [ "$("$out/compare" "$out/$plan.plan" $asked)" = "$expected" ] ||
            { echo "embedding: compare $plan $asked is not: $expected"; return 1; }
    done <<'END'
m3|0 3 2 1 1|first -4
m3|0 3 2 0 1|first -4
m3|0 2 3 1 0|second 4
m3|0 2 2 0 1|neither 0
no-way-from-0-to-3|0 2 3 0 1|first none
rrp2-suspect|0 3 2 1 1|first -400000
m3|0 2 4 1 1|refused 8
hop|0 3 2 1 1|first -4
hop|0 3 2 0 0|first -4
hop|0 3 2 1 0|first -4
hop|0 3 2 0 1|second -4
hop|0 2 3 2 0|first 4
hop|0 2 2 0 1|neither 0
hop|1 3 2 1 0|second 4
END
}

# Why one router relies on another by the C example, or does not; or the refusal. With the hop step, 0 does not rely on 1.
explains() {
    local asked expected
    write_hop_plan && [ "$("$out/why" "$out/hop.plan" 0 0 1)" = "no, offer not better" ] || return 1
    while IFS='|' read -r asked expected; do
        # shellcheck disable=SC2086
        if [ "$("$out/why" examples/m3.plan $asked)" != "$expected" ]; then
            echo "embedding: why $asked is not: $expected"
            return 1
        fi
    done <<'END'
0 0 1|yes, better offer 3 against 2, margin -4
1 0 1|yes, better offer 3
0 0 2|yes, own best client
1 2 0|yes, parent
0 0 0|no, same router
0 0 3|no, not neighbours
0 2 0|no, first router listed
1 0 2|no, second an unlisted client
1 1 0|no, no offer
0 0 4|refused 8
END
}

# What the C example of a run prints, its lines joined: the activations, the rounds, the table; or the refusal.
runs() {
    local asked expected
    while IFS='|' read -r asked expected; do
        # shellcheck disable=SC2086
        [ "$("$out/run" examples/m3.plan $asked | paste -sd,)" = "$expected" ] || { echo "embedding: run $asked is not: $expected"; return 1; }
    done <<'END'
0 9 0 1 2 3|applied 4 rounds 1,0 holds 2 from 2,1 holds 2 from 0,2 holds 2 from 2,3 holds 3 from 3
0 3 1 0 2 3|applied 3 rounds 0 exhausted,0 holds 3 from 1,1 holds 3 from 3,2 holds 2 from 2,3 holds 3 from 3
1 9|applied 0 rounds 0,0 nothing,1 nothing,2 nothing,3 holds 3 from 3
0 0 4|refused 8
2 9 0|refused 8
END
}

# What the C example of distances prints of links, from a file or from its input, its lines joined; or the refusal.
works_out_distances() {
    local n links expected
    while IFS='|' read -r n links expected; do
        tr , '\n' <<<"$links" >"$out/links"
        [ "$("$out/distances" "$n" "$out/links" | paste -sd,) $("$out/distances" "$n" <"$out/links" | paste -sd,)" = "$expected $expected" ] ||
            { echo "embedding: distances $n of $links are not: $expected"; return 1; }
    done <<'END'
3|0 1 1,0 2 9,1 2 2,2 0 260|0 1 3,262 0 2,260 261 0
3|0 1 5,1 0 5|0 5 none,5 0 none,none none 0
65|0 1 5|refused 2
2|0 1 0|refused 11
2|0 1 65535|refused 12
END
}

# The C example of a conversion turns a plan into the one of the other mark, and that back into the same bytes; or says the refusal.
converts() {
    local m3=examples/m3.plan there=$out/there.plan back=$out/back.plan
    [ "$("$out/convert" "$m3" "$there")" = "RRP2, 122 bytes" ] && [ "$("$out/convert" "$there" "$back")" = "RRP1, 90 bytes" ] &&
        cmp "$m3" "$back" && [ "$("$out/convert" tests/verdict/rrp2-suspect.plan "$back")" = "refused 14" ] &&
        [ "$("$out/convert" tests/verdict/refused-1-rrp3.plan "$back")" = "refused 1" ] && cmp "$m3" "$back"
}

# What the C example of a flush prints, its lines joined: how many routes are left after each round; or the refusal.
flushes() {
    local plan=tests/verdict/nobody-listed-among-others.plan left
    left="4 routes after 0 of 3 rounds,2 routes after 1 of 3 rounds,0 routes after 2 of 3 rounds,0 routes after 3 of 3 rounds"
    [ "$("$out/flush" "$plan" 2 1 | paste -sd,)" = "$left" ] && [ "$("$out/flush" "$plan" 2 3 | paste -sd,)" = "$left" ] &&
        [ "$("$out/flush" tests/verdict/rrp2-nobody-listed-among-others.plan 2 1 | paste -sd,)" = "$left" ] &&
        [ "$("$out/flush" "$plan" 2 0)" = "list 0 names 2" ] && [ "$("$out/flush" "$plan" 2 4)" = "refused 8" ]
}

# The tables that no activation changes by the C example, its lines joined; or the refusal.
lists_steady() {
    local list expected
    while IFS='|' read -r list expected; do
        [ "$("$out/steady" examples/m3.plan "$list" | paste -sd,)" = "$expected" ] ||
            { echo "embedding: steady $list is not: $expected"; return 1; }
    done <<'END'
0|1: 0 own 1 other,2: 0 other 1 own
1|0:
3|refused 8
END
}

# A smallest set that makes a list stable with the hop step, by the C example, and the verdict with it; or the refusal.
names_hop_set() {
    local list expected
    while IFS='|' read -r list expected; do
        [ "$("$out/hop_set" examples/m3.plan "$list")" = "$expected" ] ||
            { echo "embedding: hop_set $list is not: $expected"; return 1; }
    done <<'END'
0|1: 0, then stable 2
1|0: none, then stable 3
3|refused 8
END
}

# What the C example of every list prints: a list, yes whatever the own lists, RRP2; or the refusal.
answers_every_list() {
    local plan expected
    while IFS='|' read -r plan expected; do
        [ "$("$out/every_list" "$plan")" = "$expected" ] || { echo "embedding: every_list $plan is not: $expected"; return 1; }
    done <<'END'
examples/m3.plan|suspect with list 2 3
tests/verdict/cycle-of-four.plan|suspect with list 4 5 6 7
tests/verdict/cycle-of-four-role-5.plan|stable for every list
tests/verdict/no-way-from-0-to-3.plan|stable for every list
tests/verdict/nobody-listed-alone.plan|suspect with list 2 3
tests/verdict/rrp2-suspect.plan|suspect with list 2 3
tests/verdict/refused-13-five-parents.plan|refused 13
END
}

# What the C example of the figures prints, its lines joined: of several lists, no stable one, lists of nobody,
# 64 lists, RRP2; or the refusal.
counts() {
    local plan expected
    while IFS='|' read -r plan expected; do
        [ "$("$out/figures" "$plan" | paste -sd,)" = "$expected" ] || { echo "embedding: figures $plan are not: $expected"; return 1; }
    done <<'END'
examples/m3.plan|stable 1 suspect 1 highest rank 3,rank 3: 1,router 0: 1,router 1: 1
tests/verdict/roles-1-to-5.plan|stable 7 suspect 2 highest rank 3,rank 1: 1,rank 3: 6,router 0: 2,router 1: 2
tests/verdict/cycle-of-four.plan|stable 0 suspect 1 highest rank none,router 0: 1,router 1: 1,router 2: 1,router 3: 1
tests/verdict/nobody-listed-among-others.plan|stable 3 suspect 1 highest rank 3,rank 1: 2,rank 3: 1,router 0: 1,router 1: 1
tests/verdict/nobody-listed-64-times.plan|stable 64 suspect 0 highest rank 1,rank 1: 64
tests/verdict/largest.plan|stable 64 suspect 0 highest rank 0,rank 0: 64
tests/verdict/rrp2-suspect.plan|stable 1 suspect 1 highest rank 3,rank 3: 1,router 0: 1,router 1: 1
tests/verdict/refused-13-five-parents.plan|refused 13
END
}

# The grade of a list, by the C example; or the refusal.
grades_lists() {
    local list expected
    while IFS='|' read -r list expected; do
        [ "$("$out/grade" examples/m3.plan "$list")" = "$expected" ] ||
            { echo "embedding: grade $list is not: $expected"; return 1; }
    done <<'END'
0|1: comes to rest whatever the order, within 4 rounds
1|1: comes to rest whatever the order, within 5 rounds
3|refused 8
END
}

# What the other C examples say for a list of nobody: its verdict among others', why routers rely on others, a run.
on_list_of_nobody() {
    local name=tests/verdict/nobody-listed-among-others
    writes "$name.expected" "$out/verdicts" "$name.plan" && [ "$("$out/why" "$name.plan" 1 2 0)" = "yes, parent" ] &&
        [ "$("$out/why" "$name.plan" 1 0 1)" = "no, no offer" ] &&
        [ "$("$out/why" "$name.plan" 1 4 3)" = "no, second an unlisted client" ] &&
        [ "$("$out/run" "$name.plan" 1 9 0 1 2 3 4 | paste -sd,)" = "applied 5 rounds 1,0 nothing,1 nothing,2 nothing,3 nothing,4 nothing" ]
}

# The C examples print what docs/EMBEDDING.md shows after each command.
prints_as_documented() {
    local shown made line
    shown=$(sed -n '/^```console$/,/^```$/{/^```/d;p}' docs/EMBEDDING.md)
    made=$(grep '^\$ ' <<<"$shown" | while IFS= read -r line; do echo "$line"; eval "$(sed "s|^. ||; s|target/|$out/|g" <<<"$line")"; done)
    [ -n "$shown" ] && diff <(echo "$shown") <(echo "$made")
}

# A program reads on where its input comes in parts.
reads_in_parts() {
    local m3=examples/m3.plan wide=tests/verdict/rrp2-largest
    [ "$( (printf '\0\3' && sleep 0.2 && printf '\2' && sleep 0.2 && cat "$m3") | target/bin/margin)" = "-4" ] &&
        (head -c 30 "$m3" && sleep 0.2 && tail -c +31 "$m3") | target/bin/verdict | cmp - examples/m3.verdicts &&
        (head -c 17000 "$wide.plan" && sleep 0.2 && tail -c +17001 "$wide.plan") | target/bin/verdict | cmp - "$wide.expected"
}

# The texts that a program is held to on stored inputs are those of the second checker.
stored_texts() {
    local program=$1 input count=0
    for input in "tests/$program"/*.plan "tests/$program"/*.input; do
        writes "${input%.*}.expected" second "$program" <"$input" || return 1
        count=$((count + 1))
    done
    [ "$count" -gt 0 ]
}

# A program prints for each random input what the second checker expects, which writes the inputs by the command given.
agrees() {
    local program=$1 command=$2 inputs=$out/$1 count=0 input
    rm -rf "$inputs"
    second "$command" "$inputs" --seed "$seed" --plans 300 >/dev/null || return 1
    for input in "$inputs"/*.plan "$inputs"/*.input; do
        if ! "target/bin/$program" <"$input" | cmp -s - "${input%.*}.expected"; then
            echo "embedding: $input differs"
            return 1
        fi
        count=$((count + 1))
    done
    echo "embedding: $program: $count inputs printed as expected"
    [ "$count" -eq 300 ]
}

# No call is refused, and so none goes unmeasured, on the plan with the highest rank, of a mark.
measures_deepest() {
    second plan "$1" >"$out/$1.plan" && "$out/stack" "$out/$1.plan"
}

# What of the library a program holds that refers to every call.
measures_size() {
    gcc -std=c11 -Wall -Wextra -Wno-cast-function-type -Werror -O2 -Iinclude tests/every_call.c -L"$archive" -lrrp \
        -Wl,--gc-sections -Wl,-Map="$out/every_call.map" -o "$out/every_call" &&
        python3 tests/library_size.py "$out/every_call.map" include/rrp.h
}

# Builds an example in C.
example() {
    gcc -std=c11 -Wall -Wextra -Werror -O2 -Iinclude "examples/$1.c" -L"$archive" -lrrp -o "$out/$1"
}

# A cargo command on the second checker, linked with the library.
linked() {
    local command=$1
    shift
    RRP_LIB_DIR=$PWD/$archive CARGO_TARGET_DIR=$PWD/target/second \
        cargo "$command" --quiet --release --offline --features library --manifest-path tests/second/Cargo.toml "$@"
}

# `second` with the words given.
second() {
    linked run --bin second -- "$@"
}

# The second checker's own tests, each counted under its name. There must be some; and cargo fails where they do not
# build, where one fails, and where they end before the last.
own_tests() {
    local log=$out/own-tests.log name outcome count=0 ended=0
    linked test -- --format pretty >"$log" 2>&1 || ended=$?
    while read -r name outcome; do
        try "$name" [ "$outcome" = ok ]
        count=$((count + 1))
    done < <(sed -n 's/^test \([^ ]*\) \.\.\. \(.*\)$/\1 \2/p' "$log")
    [ "$ended" -eq 0 ] || cat "$log"
    [ "$ended" -eq 0 ] && [ "$count" -gt 0 ]
}

mkdir -p "$out"
rm -f "$out/verdicts" "$out/compare" "$out/why" "$out/run" "$out/distances" "$out/convert" "$out/flush" "$out/steady" "$out/hop_set" "$out/grade" "$out/figures" "$out/every_list" "$out/stack"
try "the library" ./build library
try "the header as C99" gcc -std=c99 -pedantic -Wall -Wextra -Werror -Iinclude -fsyntax-only -x c include/rrp.h
try "the header as C++" g++ -std=c++11 -pedantic -Wall -Wextra -Werror -Iinclude -fsyntax-only -x c++ include/rrp.h
try "the C example" example verdicts
try "the C example's verdicts" writes examples/m3.verdicts "$out/verdicts" examples/m3.plan
try "the C example's verdicts of an RRP2 plan" \
    writes tests/verdict/rrp2-stable.expected "$out/verdicts" tests/verdict/rrp2-stable.plan
try "the C example's refusal" refuses_cut_plan
try "the C example of a comparison" example compare
try "the C example's margins" compares
try "the C example of an explanation" example why
try "the C example's explanations" explains
try "the C example of a run" gcc -std=c11 -Wall -Wextra -Werror -O2 -Iinclude examples/run.c -L"$archive" -lrrp -o "$out/run"
try "the C example's run" runs
try "the C example of distances" gcc -std=c11 -Wall -Wextra -Werror -O2 -Iinclude examples/distances.c -L"$archive" -lrrp -o "$out/distances"
try "the C example's distances" works_out_distances
try "the C example of a conversion" example convert
try "the C example's conversions" converts
try "the C example of a flush" example flush
try "the C example's flush" flushes
try "the C example of steady tables" example steady
try "the C example's steady tables" lists_steady
try "the C example of a hop set" example hop_set
try "the C example's hop set" names_hop_set
try "the C example of a grade" example grade
try "the C example's grades" grades_lists
try "the C example of the figures" example figures
try "the C example's figures" counts
try "the C example of every list" example every_list
try "the C example's answers on every list" answers_every_list
try "the C examples on a list of nobody" on_list_of_nobody
try "the C examples as documented" prints_as_documented
try "the library's size in a program" measures_size
try "the second checker's own tests" own_tests
try "the library against the second checker" second --seed "$seed" --plans "$plans"
try "the yardstick against the second checker" second --against tight --seed "$seed" --plans 2000
try "the expected lines of cases from the second checker" writes crates/cases/stdout second cases
try "the bench program" linked build --bin bench
try "the stack program" \
    gcc -std=gnu11 -Wall -Wextra -Werror -O2 -Iinclude tests/stack.c -L"$archive" -lrrp -o "$out/stack"
try "the stack of each call on the deepest plan" measures_deepest deepest
try "the stack of each call on the deepest plan of RRP2" measures_deepest deepest-rrp2

try "the stored texts of the verdict program from the second checker" stored_texts verdict
try "the verdict program" ./build verdict
try "the verdict program against the second checker" agrees verdict write
try "the stored texts of the margin program from the second checker" stored_texts margin
try "the margin program" ./build margin
try "the margin program against the second checker" agrees margin ask
try "the programs on inputs that come in parts" reads_in_parts

total

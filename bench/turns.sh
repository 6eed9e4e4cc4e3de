#!/usr/bin/env bash
# Times turns at the parts of a vBucket, for 1, 2 and 4 threads on one stripe and on four: bench/turns.sh [CALLS]. A turn
# takes a stripe, notes an event and gives the stripe back; a busy one is tried again. Each thread makes CALLS turns. It
# builds the test of turn_stage with four threads anew for each row, in a copy of the repository that it then deletes,
# so a row takes half a minute or more. It needs perl.
set -euo pipefail
cd "$(dirname "$0")/.."

calls=${1:-10000000}
copy=$(mktemp -d)
trap 'rm -rf "$copy"' EXIT
tar -c --exclude=out crates crates.txt HANDLES | tar -x -C "$copy"
git init -q "$copy"
crate=$copy/crates/turn_stage

# Changes a line of the test, and stops where nothing is changed.
change() {
    grep -qF -- "$1" "$crate/src/tests.rt"
    CHANGED=$1 INTO=$2 perl -pi -e 's/\Q$ENV{CHANGED}\E/$ENV{INTO}/' "$crate/src/tests.rt"
}

# The row of so many threads and stripes.
row() {
    local threads=$1 stripes=$2 began ended
    cp crates/turn_stage/src/tests.rt "$crate/src/tests.rt"
    change 'CALLS: u32 = 100_000' "CALLS: u32 = $calls"
    change 'TRIES: u32 = 200_000_000' 'TRIES: u32 = 4_000_000_000'
    change 'wrapping_add(calls) % 4' "wrapping_add(calls) % $stripes"
    change 'assert!(rt; counts.eq([100_000, 100_000, 100_000, 100_000, 0, 0]));' 'let _first = counts.next();'
    # The other threads have made all their calls as they begin.
    change 'let mut calls = 0u32;' "let mut calls = if first < $threads { 0u32 } else { CALLS };"
    (cd "$crate" && rt test >"$copy/log" 2>&1) || { tail -20 "$copy/log" >&2; return 1; }
    began=$(date +%s%N)
    "$crate/out/turn_stage_tests" tests::four_threads_make_each_call_once >/dev/null
    ended=$(date +%s%N)
    echo "$threads threads, $stripes stripes: $((threads * calls * 1000 / ((ended - began) / 1000000))) turns a second"
}

for threads in 1 2 4; do
    for stripes in 1 4; do
        row "$threads" "$stripes"
    done
done

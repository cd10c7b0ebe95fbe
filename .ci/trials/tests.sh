#!/usr/bin/env bash
# tests.sh CRATE: runs the tests of this crate, compiled with checks and without a proof.
. "$(dirname "$0")/../checks.sh" || exit 1
expects 1

# tried CRATE: each test passes. Beside it `rt try` checks the names of the crate, which is only a hint and costs as much
# once more.
tried() {
    local running turn
    (cd "$top/crates/$1" && exec rt try --test --seconds 400) </dev/null >tried 2>&1 &
    running=$!
    for turn in 1 2 3 4 5; do sleep 1 && pkill -P $running -x rattle && break; done
    wait $running
    local status=$?
    cat tried
    [ $status = 0 ] && tail -n 1 tried | grep -q '^run=ended status=0 '
}
check "the tests of $1" tried "$1"

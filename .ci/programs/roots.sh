#!/usr/bin/env bash
# Two folders, one of which lies in the other, are watched and unwatched in turns while another process changes
# both. The inner one goes and comes again. The changes have only just ended when the program does.
. "$(dirname "$0")/../checks.sh" || exit 1
expects 2
roots=("$(program bench)" roots)

change_overlapping() {
    for n in 1 2 3 4 5 6; do
        mkdir -p "overlapping/inner/$n/d" "overlapping/$n" && : >"overlapping/inner/$n/d/x" && : >"overlapping/$n/y"
        [ $n != 4 ] || rm -rf overlapping/inner
        rm -rf "overlapping/inner/$((n - 2))" "overlapping/$((n - 1))"
        sleep "0.0$1"
    done
    : >overlapping/stop
}
well=0
for turn in $(seq 50); do
    rm -rf overlapping && mkdir -p overlapping/inner
    change_overlapping $((turn % 10)) &
    changes=$!
    timeout 60 "${roots[@]}" overlapping overlapping/inner >out 2>err || break
    wait $changes
    [ ! -s err ] && find overlapping | LC_ALL=C sort | cmp -s - <(LC_ALL=C sort out) && well=$((well + 1))
done
report 'folders that overlap, watched in turns' "$([ $well = 50 ] && echo yes)"

mkdir -p still/inner && : >still/inner/file && : >still/stop
printf 'still%s\n' '' /inner /inner/file /stop >wanted
expect 'folders that overlap and hold stop' 0 wanted '' "${roots[@]}" still still/inner

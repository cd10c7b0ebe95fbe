#!/usr/bin/env bash
# The tutorial's mirror of a folder's paths, started and stopped while another process changes the folder.
. "$(dirname "$0")/../checks.sh" || exit 1
expects 2
paths=("$(program bench)" paths)

# The file stop comes last, so a reader who has it has all; the mirror ends at once then, and prints the
# paths that it ends with last.
change_mirrored() {
    for n in 1 2 3 4 5 6; do
        mkdir -p "mirrored/$n/d" && : >"mirrored/$n/d/x" && : >"mirrored/$n/y"
        rm -rf "mirrored/$((n - 2))" "mirrored/$((n - 1))/y"
        sleep "0.00$1"
    done
    : >mirrored/stop
}
well=0
for turn in $(seq 50); do
    rm -rf mirrored && mkdir mirrored
    change_mirrored $((turn % 10)) &
    changes=$!
    [ $((turn % 3)) = 0 ] || sleep "0.0$((turn % 3))"
    timeout 60 "${paths[@]}" mirrored >out 2>err || break
    wait $changes
    tac out | sed 1d | sed '/^--$/,$d' | LC_ALL=C sort >last
    [ ! -s err ] && find mirrored | LC_ALL=C sort | cmp -s - last && well=$((well + 1))
done
report 'starts and stops under changes' "$([ $well = 50 ] && echo yes)"

: >quiet.txt
printf '%s\n' quiet.txt -- quiet.txt -- >wanted
expect 'a file that nothing changes, for ten seconds' 0 wanted '' "${paths[@]}" quiet.txt

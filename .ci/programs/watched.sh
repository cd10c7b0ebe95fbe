#!/usr/bin/env bash
# Real folders, watched by the built `mirror`, by a user whom permission stops. Each story changes a path once while
# its folder is watched: the program sleeps for a known time once its first look is over, which is waited for, and
# then the story has the rest of that time.
. "$(dirname "$0")/../checks.sh" || exit 1
expects 4
program=$(program mirror)

mkdir -m 777 open
cp "$program" open/mirror && chmod 755 open/mirror
cd open || exit 1

prepare_changes() {
    mkdir d shut opened emptied turned deep
    echo abc >longer && echo abc >same && echo abc >gone && echo abc >turned/f && echo abc >emptied/f
    echo abc >shut/f && echo abc >opened/f && chmod 0 shut
    ln -s . up
    mkdir -p "deep/$(printf 'd/%.0s' $(seq 70))"
}
change_changes() {
    echo abc >brief && rm brief
    echo abcd >longer && echo xyz >same && rm -r gone emptied/f turned && echo abc >turned
    chmod 0 opened && chmod 700 shut
    echo abc >d/f && ln -s d link && ln -s itself itself && ln -s missing nowhere
    level=deep/$(printf 'd/%.0s' $(seq 62))
    echo abc >"${level}f" && echo abc >"${level}d/f"
    : >$'\xff'
}
reports_changes() {
    cat <<END
Create(File) - changes/d/f
Create(File) - changes/deep/$(printf 'd/%.0s' $(seq 62))f
Create(File) - changes/shut/f
Create(File) - changes/turned
Create(Other) - changes/itself
Create(Other) - changes/link
Create(Other) - changes/nowhere
Modify(Data(Any)) - changes/longer
Modify(Data(Any)) - changes/same
Remove(File) - changes/emptied/f
Remove(File) - changes/gone
Remove(File) - changes/opened/f
Remove(Folder) - changes/turned
END
}

# A path that fails again and again ends no watch: what has changed since is reported after it. A round comes within
# five seconds.
prepare_fails() {
    mkdir d && echo abc >d/x && ln -s d l
}
change_fails() {
    ln -sfn l l && echo abcd >d/x && sleep 5 && ln -sfn d l
}
reports_fails() {
    printf 'Modify(Data(Any)) - fails/l\nModify(Data(Any)) - fails/l/x\nerror Io\n'
}

# A folder that goes and comes back is watched on.
prepare_returns() {
    echo abc >x
}
change_returns() {
    mv ../returns ../away && sleep 5 && mv ../away ../returns
}
reports_returns() {
    printf '%s - returns%s\n' 'Create(File)' /x 'Create(Folder)' '' 'Remove(Folder)' ''
}

# story NAME ROOT: watches the root in a new folder of this name for twenty seconds while it is changed, and compares.
story() {
    local watch well=no
    mkdir "$1" && (cd "$1" && "prepare_$1") || return
    ./mirror --watch "$2" 80 >"$1.out" 2>"$1.err" &
    watch=$!
    within 60 sleeps $watch && (cd "$1" && "change_$1")
    wait $watch && [ ! -s "$1.err" ] && [ "$(tail -n 1 "$1.out")" = 'missed 0' ] &&
        diff <(head -n -1 "$1.out" | sed 's/^event [0-9]* //' | sort -u) <("reports_$1" | sort) && well=yes
    chmod -R u+rwx "$1"
    [ $well = yes ]
}
export -f within sleeps story prepare_changes change_changes reports_changes prepare_fails change_fails reports_fails \
    prepare_returns change_returns reports_returns
export LC_ALL=C
if has_user; then
    as_user bash -c 'story changes changes' &
    changes=$!
    as_user bash -c 'story fails fails/l/x' &
    fails=$!
    as_user bash -c 'story returns returns' &
    returns=$!
    for name in changes fails returns; do
        wait "${!name}"
        report "the watched folder $name" "$([ $? = 0 ] && echo yes)"
    done
else
    not_run 3 'no setpriv' 'the watched folders'
fi

# What still waits when a watch ends is printed too: a file that came in its last second, which is the whole watch.
mkdir late && echo abc >waiting
"$program" --watch late 4 >out 2>err &
watch=$!
well=no
within 60 sleeps $watch && mv waiting late/x && wait $watch && [ ! -s err ] &&
    [ "$(sed 's/^event [0-9]* //' out)" = $'Create(File) - late/x\nmissed 0' ] && well=yes
report 'what waits when a watch ends' $well

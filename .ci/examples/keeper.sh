#!/usr/bin/env bash
# The programs of the tutorial over folders, with the crates that it names, in a repository of their own.
. "$(dirname "$0")/../checks.sh" || exit 1
expects 8

for name in changed keeper; do
    mkdir -p programs/crates/$name/src
    grep -o "$name: program_reports [a-z_ ]*" "$top/docs/TUTORIAL.md" >>programs/crates.txt
    cp "$top/docs/examples/$name.txt" programs/crates/$name/src/main.rt
done
"$top/scripts/vendor" programs notify_debouncer_full program_reports program_frame reader_paths >out 2>err
mkdir grown
while sleep 1; do : >grown/$RANDOM; done &
growing=$!
(cd programs/crates/changed && "$toolchain" try -- "$room/grown" --ticks 8) >out 2>err
ended=$?
kill $growing
report "the tutorial's program over a folder" "$([ $ended = 0 ] && [ -s out ] && ! grep -qvE "^$room/grown/[0-9]+$" out && echo yes)"

# keeps NAME: within a minute the copy is right.
keeps() {
    for _ in $(seq 600); do
        ! diff -r "$1" "$1.copy" >/dev/null 2>&1 || return 0
        sleep 0.1
    done
    false
}

# keep NAME WORD..: the keeper of the folder of this name, until the end of the input.
keep() {
    timeout 300 ./keeper "$1" "$1.copy" --until-eof "${@:2}" 2>"$1.err"
    echo $? >"$1.status"
}

# refused STATUS COMPLAINT WORD..: the keeper ends so, and makes nothing.
refused() {
    ./keeper "${@:3}" --ticks 1 >out 2>err
    [ $? = "$1" ] && [ ! -s out ] && [ "$(sed 1d err)" = "keeper: $2" ] && [ ! -e none ]
}

(cd programs && PATH=${toolchain%/*}:$PATH "$top/scripts/trial" keeper ../keeper) >out 2>err
report "the tutorial's keeper has at most 70 lines" "$([ -x keeper ] && [ "$(wc -l <programs/crates/keeper/src/main.rt)" -le 70 ] && echo yes)"
mkdir -p kept/a/b && echo one >kept/a/b/x && : >kept/y
well=no
# What is there first; then a change, a removal with all below it, and a file in a folder's place.
(keeps kept && echo more >>kept/a/b/x && mkdir kept/c && : >kept/c/z && keeps kept &&
    rm -r kept/a && keeps kept && rm -r kept/c && : >kept/c && keeps kept && : >kept/last) | keep kept --timeout 50 --interval 20
diff -r kept kept.copy && [ "$(cat kept.status)" = 0 ] && [ "$(sed 1d kept.err)" = 'keeper: watching kept' ] && well=yes
report "the tutorial's keeper of a folder" $well
# What fails is tried again though nothing more is reported, also at the end.
mkdir again
well=no
(keeps again && mkdir -p again.copy/x/y && : >again/x && sleep 3 && rm -r again.copy/x && keeps again &&
    mkdir -p again.copy/z/y && : >again/z && sleep 2) | keep again --timeout 50 --interval 20
[ "$(cat again.status)" = 1 ] && [ -f again.copy/x ] &&
    [ "$(sed 1d again.err)" = $'keeper: watching again\nkeeper: not done: again/z\nkeeper: not all could be done' ] && well=yes
report "the tutorial's keeper tries again what failed" $well
# A removal only removes: what came again and went before the next look isn't in the copy.
mkdir ghost && echo old >ghost/p
well=no
(keeps ghost && rm ghost/p && echo ghost/p && sleep 0.2 && echo new >ghost/p && sleep 0.8 && rm ghost/p && sleep 2) |
    keep ghost --hints - --timeout 400 --interval 60000
[ ! -e ghost.copy/p ] && [ -d ghost.copy ] && [ "$(cat ghost.status)" = 0 ] && well=yes
report "the tutorial's keeper copies for no removal" $well
# shut NAME MODE STATUS: the folder in it is closed, later it has this mode, and the keeper ends with this status. Its
# copy stays, what changes beside it is copied, and it is said once. A user whom permission stops tries that.
shut() {
    mkdir -p "$1/sub" && echo one >"$1/sub/x" || return 1
    (keeps "$1" && chmod 000 "$1/sub" && for _ in $(seq 600); do
        ! grep -qF 'cannot look at' "$1.err" || break
        sleep 0.1
    done && : >"$1/y" && sleep 2 && chmod "$2" "$1/sub" && sleep 2) | keep "$1" --timeout 50 --interval 20
    [ "$(cat "$1.status")" = "$3" ] && [ -f "$1.copy/sub/x" ] && [ -f "$1.copy/y" ] &&
        [ "$(grep -cxF "keeper: cannot look at $1/sub: permission denied" "$1.err")" = 1 ] &&
        [ "$(grep -cxF 'keeper: not all could be done' "$1.err")" = "$3" ]
}
export -f keeps keep shut
mkdir -m 777 shut && cp keeper keeper.program shut && cd shut || exit 1
if has_user; then
    report "the tutorial's keeper of a folder that is closed until the end" "$(as_user bash -c 'shut lasts 000 1' && echo yes)"
    report "the tutorial's keeper of a folder that is closed for a while" "$(as_user bash -c 'shut ends 755 0' && echo yes)"
    chmod -R u+rwx lasts ends
else
    not_run 2 'no setpriv' "the tutorial's keeper of a folder that is closed"
fi
cd ..
well=no
refused 1 'a file or folder cannot be read or written' kept kept.copy &&
    refused 5 'kept and its copy lie one in the other' kept kept/none && refused 5 'cannot watch missing: not there' missing none &&
    refused 2 '--hints-zero asks for --hints' kept none --hints-zero && well=yes
report "the tutorial's keeper refuses what it can't keep" $well

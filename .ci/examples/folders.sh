#!/usr/bin/env bash
# Several folders, in the two programs that take them: each is watched, and a missing one is named.
. "$(dirname "$0")/../checks.sh" || exit 1
expects 15

mkdir folders && cd folders || exit 1

# says FILE PATTERN: the file has such a line, within a minute.
says() {
    for _ in $(seq 600); do
        ! grep -qE -- "$2" "$1" || return 0
        sleep 0.1
    done
    false
}

: >nothing
for name in build_trigger change_journal; do
    program=$(program "$name")
    rm -rf a b && mkdir -p a/inner b
    printf "$name: watching %s\n" a b/ >wanted
    case $name in
        # With several folders a line has each path as it is, and not as it lies in one of them.
        build_trigger) before= && own=(--quiet 50) ;;
        change_journal) before=$'Create\\(File\\)\t' && own=() ;;
    esac
    : >err
    "$program" a b/ "${own[@]}" --timeout 50 --interval 20 --seconds 60 >out 2>err &
    running=$!
    well=no
    says err 'watching b/$' && : >a/x && says out "(^|	)${before}a/x(	|$)" && : >b/y &&
        says out "(^|	)${before}b/y(	|$)" && cmp -s err wanted && well=yes
    kill $running
    wait $running 2>/dev/null
    report "$name: two folders" $well

    # A missing folder is refused by its name before anything is said or reported, wherever it stands.
    for places in 'a missing' 'missing a' 'a missing b gone'; do
        # shellcheck disable=SC2086
        expect "$name: a missing folder of several: $places" 5 nothing "$name: cannot watch missing: not there" \
            "$program" $places --timeout 50 --ticks 4
    done
    expect "$name: a folder of several below a file" 5 nothing "$name: cannot watch a/x/z: not there" \
        "$program" b a/x/z --ticks 1

    # One folder that lies in the other: what stands in both is told once.
    printf "$name: watching %s\n" a/inner a >wanted
    : >err
    "$program" a/inner a "${own[@]}" --timeout 50 --interval 20 --seconds 60 >out 2>err &
    running=$!
    well=no
    says err 'watching a$' && : >a/inner/z && says out "(^|	)${before}a/inner/z(	|$)" && : >a/last &&
        says out "(^|	)${before}a/last(	|$)" && cmp -s err wanted && [ "$(grep -o a/inner/z out | wc -l)" = 1 ] && well=yes
    kill $running
    wait $running 2>/dev/null
    report "$name: one folder in the other" $well

    # Hints are about each of the folders.
    rm -rf a b && mkdir a b && : >err
    (says err 'watching b$' && : >b/h && echo b/h && says out "(^|	)${before}b/h(	|$)" && : >a/h && echo "$PWD/a/h" &&
        says out "(^|	)${before}a/h(	|$)" && echo yes >hinted) |
        timeout 100 "$program" a b "${own[@]}" --hints - --until-eof --timeout 50 --interval 99999999 >out 2>err
    report "$name: hints about two folders" "$([ $? = 0 ] && cat hinted)"
    rm -f hinted
done

# What stands there is told of each, by the journal that begins with it.
journal=$(program change_journal)
rm -rf a b && mkdir a b && : >a/x && : >b/y
printf '%s\t%s\n' 'Create(Folder)' a 'Create(File)' a/x 'Create(Folder)' b 'Create(File)' b/y | LC_ALL=C sort >wanted
"$journal" a b --initial --timeout 50 --seconds 1 >out 2>err
report 'change_journal: what stands in two folders' "$([ $? = 0 ] && LC_ALL=C sort out | cmp -s - wanted && echo yes)"

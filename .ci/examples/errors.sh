#!/usr/bin/env bash
# A watcher's errors under each program of docs/PROGRAMS.md that goes on watching: said with the program's name, and
# what changed meanwhile is seen once the path is there again.
. "$(dirname "$0")/../checks.sh" || exit 1
expects 7

mkdir -p errors && cd errors || exit 1

# says FILE PATTERN: the file has such a line, within a minute. The index looks only when it is asked.
says() {
    for _ in $(seq 600); do
        ! grep -qE -- "$2" "$1" || return 0
        [ $name != document_index ] || echo 8080 >&3
        sleep 0.1
    done
    false
}

for name in build_trigger change_journal config_reloader document_index; do
    program=$(program "$name")
    rm -rf d l queries && mkdir -p d/x && ln -s d l && mkfifo queries
    echo 'port = 80' >d/x/f.toml
    place=l/x
    seen='f\.toml(	|$)'
    case $name in
        config_reloader) place=l/x/f.toml && seen='port = 8080' ;;
        document_index) seen='l/x/f\.toml' ;;
    esac
    : >err
    "$program" $place --timeout 50 --interval 20 --seconds 60 <queries >out 2>err &
    running=$!
    exec 3>queries
    well=no
    # The path leads round in a circle, and then no longer. A look that was past l by then says it of l/x.
    says err "^$name: watching $place$" && ln -sfn l l && says err "^$name: cannot look at l: " &&
        echo 'port = 8080' >d/x/f.toml && ln -sfn d l && says out "$seen" && well=yes
    exec 3>&-
    kill $running 2>/dev/null
    wait $running 2>/dev/null
    report "$name: a watcher's errors are said" "$(! grep -qvE "^$name: (watching $place$|cannot look at l(/x)?: )" err && echo $well)"
done

# An error that waits when the program ends is said too: after the first look there is only the last one.
for name in build_trigger change_journal config_reloader; do
    program=$(program "$name")
    place=l/x
    [ $name != config_reloader ] || place=l/x/f.toml
    rm -rf d l && mkdir -p d/x && ln -s d l && echo 'port = 80' >d/x/f.toml
    : >err
    (says err "^$name: watching $place$" && ln -sfn l l) |
        timeout 100 "$program" $place --timeout 50 --interval 99999999 --until-eof >out 2>err
    ended=$?
    printf "$name: %s\n" "watching $place" 'cannot look at l: CAUSE' 'not all could be done' >wanted
    report "$name: an error that waits at the end is said" \
        "$([ $ended = 1 ] && sed 's/look at l: .*/look at l: CAUSE/' err | cmp -s - wanted && echo yes)"
done

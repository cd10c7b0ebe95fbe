#!/usr/bin/env bash
# Names that are not UTF-8, and what lies too deep, under each program of docs/PROGRAMS.md: it says once how many it
# leaves out, and goes on.
. "$(dirname "$0")/../checks.sh" || exit 1
expects 14

mkdir left_out && cd left_out || exit 1

# says FILE PATTERN: the file has such a line, within a minute. The index looks only when it is asked.
says() {
    for _ in $(seq 600); do
        ! grep -qE -- "$2" "$1" || return 0
        [ "$name" != document_index ] || echo 8080 >&3
        sleep 0.1
    done
    false
}

# runs: the program runs over the place, in the background, with queries on standard input if it reads any.
runs() {
    : >err
    words=(--timeout 50 --interval 20 --seconds 60)
    [ $name = document_index ] || words+=(--until-eof)
    "$program" "${places[@]}" "${words[@]}" <queries >out 2>err &
    running=$!
    exec 3>queries
}

# ends: its standard input ends, and the program in order.
ends() {
    exec 3>&-
    wait $running
}

for name in build_trigger change_journal config_reloader document_index folder_mirror; do
    program=$(program "$name")
    rm -rf d copy queries && mkdir -p d $'d/\xfe' && mkfifo queries
    # Below a folder that is left out nothing counts.
    : >$'d/\xff' && : >$'d/\xfe/\xfd'
    echo 'port = 80' >d/f.toml
    places=(d)
    seen='f\.toml(	|$)'
    case $name in
        config_reloader) places=(d/f.toml) && seen='port = 8080' ;;
        folder_mirror) places+=(copy) && seen='copy d/g\.toml' ;;
        document_index) seen='d/f\.toml' ;;
    esac
    # A mirror begins with nothing: it says at its end what is left out then, unless its first round ended sooner.
    count=2 && [ $name != folder_mirror ] || count=3
    printf "$name: %s\n" "watching ${places[0]}" "$count names are not UTF-8 and are left out" >wanted
    well=no
    runs
    says err "^$name: watching" && echo 'port = 8080' >d/f.toml && cp d/f.toml d/g.toml && says out "$seen" &&
        : >$'d/\xfc' && sleep 0.5 && well=yes
    ends && sed 's/^folder_mirror: 2 names/folder_mirror: 3 names/' err | cmp -s - wanted || well=no
    report "$name: names that are not UTF-8 are said once" $well

    # One that comes later is said at the end, if not before.
    rm -rf d copy && mkdir d && echo 'port = 80' >d/f.toml
    printf "$name: %s\n" "watching ${places[0]}" '1 name is not UTF-8 and is left out' >wanted
    well=no
    runs
    says err "^$name: watching" && : >$'d/\xff' && sleep 0.5 && echo 'port = 8080' >d/f.toml && cp d/f.toml d/g.toml &&
        says out "$seen" && well=yes
    ends && cmp -s err wanted || well=no
    report "$name: a name that is not UTF-8 comes later" $well
done

# A look goes 64 levels down: that something may lie deeper is said once. What comes at the last level is seen, and
# nothing below it.
for name in build_trigger change_journal document_index folder_mirror; do
    program=$(program "$name")
    rm -rf d copy queries && mkfifo queries
    last=d
    for _ in $(seq 64); do last=$last/l; done
    mkdir -p "$last/below"
    echo 'port = 80' >"$last/f.toml"
    places=(d)
    case $name in
        folder_mirror) places+=(copy) ;;
    esac
    printf "$name: %s\n" 'watching d' '1 folder lies 64 levels deep, and what is in it is left out' >wanted
    well=no
    runs
    says err "^$name: watching" && echo 'port = 8080' >"$last/f.toml" && echo 'port = 8080' >"${last%/l}/g.toml" &&
        says out 'g\.toml(	|$)' && well=yes
    ends && cmp -s err wanted && ! grep -qF 'f.toml' out || well=no
    report "$name: a folder that lies too deep is said once" $well
done

#!/usr/bin/env bash
# A folder that is named by a link, under each program of docs/PROGRAMS.md: it is that to which the link leads, at each
# look anew, and what is printed has the link's name. A link in the folder stays one.
. "$(dirname "$0")/../checks.sh" || exit 1
expects 19

mkdir links && cd links || exit 1

# says FILE PATTERN: the file has such a line, within a minute. The index looks only when it is asked.
says() {
    for _ in $(seq 600); do
        ! grep -qE -- "$2" "$1" || return 0
        [ $name != document_index ] || echo hello >&3
        sleep 0.1
    done
    false
}

# begins WORD..: the program runs, over folders `one` and `two`, of which `ln` leads to the first.
begins() {
    rm -rf one two ln to outside queries && mkdir -p one/sub two/sub to outside && mkfifo queries && ln -s one ln
    echo hello >one/a && echo hello >one/sub/b && echo hello >outside/c && ln -s ../outside one/inner
    echo hello >two/a && echo hello there >two/z && echo own >to/own
    : >err
    "$program" "$@" --timeout 50 --interval 20 --seconds 60 <queries >out 2>err &
    running=$!
    exec 3>queries
    says err "^$name: watching ln$"
}

# ends: the program is stopped. Nothing was said but what it watches.
ends() {
    exec 3>&-
    kill $running 2>/dev/null
    wait $running 2>/dev/null
    ! grep -qvxF "$name: watching ln" err
}

for name in change_journal build_trigger document_index; do
    program=$(program "$name")
    case $name in
        change_journal) place='(Create|Remove)\((File|Any)\)	ln/' ;;
        build_trigger) place='	\./' ;;
        document_index) place='^ln/' ;;
    esac
    begins ln
    well=no
    echo hello >one/new && says out "${place}new(	|$)" && ln -sfn two ln && says out "${place}z(	|$)" &&
        mkdir two/deep && echo hello >two/deep/d && says out "${place}deep/d(	|$)" && ! grep -q 'inner/c' out && well=yes
    ends || well=no
    report "$name: a folder that is named by a link" $well
done

name=document_index program=$(program document_index)
printf 'ln/%s\n' a deep/d z >wanted
rm two/sub -r && ln -sfn two ln && "$program" ln --query hello >out 2>err
report 'document_index: what stands where a link leads' "$(cmp -s out wanted && echo yes)"

# A copy follows the link too, and loses nothing by it.
name=folder_mirror program=$(program folder_mirror)
begins ln to --delete
well=no
says out 'copy ln/sub/b' && [ ! -e to/own ] && [ ! -e to/inner ] && ln -sfn two ln && says out 'copy ln/z' && says out 'remove ln/sub/b' &&
    echo more >two/sub/d && says out 'copy ln/sub/d' && diff -r two to && well=yes
ends || well=no
report 'folder_mirror: a folder that is named by a link' $well
begins ln to
well=no
says out 'copy ln/sub/b' && rm ln && says err '^folder_mirror: ln is gone, and its copy stays$' && sleep 1 &&
    [ -e to/a ] && [ -e to/sub/b ] && ln -s two ln && says out 'copy ln/z' && well=yes
ends
report 'folder_mirror: a link that goes leaves the copy' $well

# A link that has come to lead to the folder in which the copy lies doesn't have the copy copied into itself.
begins ln to
well=no
says out 'copy ln/sub/b' && ln -sfn . ln && says err '^folder_mirror: ln is gone, and its copy stays$' && sleep 1 &&
    [ "$(LC_ALL=C ls to)" = $'a\nown\nsub' ] && ln -sfn one ln && echo new >one/new && says out 'copy ln/new' && well=yes
ends
report 'folder_mirror: a link that leads to the copy' $well

# A link that leads nowhere, or to itself, is not there.
: >nothing
for name in change_journal build_trigger document_index folder_mirror; do
    program=$(program "$name")
    for target in gone ln; do
        rm -rf ln to && ln -s $target ln
        copy=() && [ $name != folder_mirror ] || copy=(to)
        expect "$name: a link to $target" 5 nothing "$name: cannot watch ln: not there" \
            "$program" ln "${copy[@]}" --timeout 50 --interval 20 --ticks 1 </dev/null
    done
done

# A file that is reached by links, as a cluster lays out configurations: a new folder is written beside the old one,
# and a link to it is moved over the link to that. The new file may have the old one's length and time.
name=config_reloader program=$(program config_reloader)
# moves N: the link leads to the folder of this number.
moves() {
    ln -s "v$1" conf/..next && mv -T conf/..next conf/..data
}

# writes N TEXT: the folder of this number has a file with this text.
writes() {
    mkdir -p "conf/v$1" && printf '%s\n' "$2" >"conf/v$1/next" && mv "conf/v$1/next" "conf/v$1/c.toml"
}

# answered WORD..: what was printed becomes this, within a minute.
answered() {
    printf '%b' "$@" >wanted
    for _ in $(seq 600); do
        ! cmp -s out wanted || return 0
        sleep 0.1
    done
    false
}

for place in conf/c.toml ln/c.toml c.toml; do
    rm -rf conf ln c.toml && mkdir conf && ln -s conf ln && ln -s ln/c.toml c.toml && writes 1 'port = 80' && moves 1 &&
        ln -s ..data/c.toml conf/c.toml
    "$program" $place --timeout 50 --interval 10 --ticks 100000 >out 2>err &
    running=$!
    well=no
    first='loaded\n  port = 80\n' second='loaded\n  port = 81\n' third='loaded\n  port = 8080\n'
    gone='kept\n  No such file or directory (os error 2)\n'
    # Files of one length and time are told apart from the watcher's first round on.
    answered "$first" && sleep 1 && writes 2 'port = 81' && touch -r conf/v1/c.toml conf/v2/c.toml && moves 2 &&
        answered "$first$second" && moves 1 && answered "$first$second$first" && writes 1 'port = 8080' && answered "$first$second$first$third" &&
        rm conf/..data && answered "$first$second$first$third$gone" && moves 2 &&
        answered "$first$second$first$third$gone$second" && well=yes
    kill $running
    wait $running 2>/dev/null
    report "config_reloader: $place is reached by links" "$(! grep -qvF 'config_reloader: watching ' err && echo $well)"
done

# A link that comes only later is followed too.
rm -rf conf && mkdir conf && writes 1 'port = 80' && moves 1
"$program" conf/c.toml --timeout 50 --interval 10 --ticks 100000 >out 2>err &
running=$!
well=no
answered "$gone" && ln -s ..data/c.toml conf/c.toml && answered "$gone$first" && writes 2 'port = 81' && moves 2 &&
    answered "$gone$first$second" && well=yes
kill $running
wait $running 2>/dev/null
report 'config_reloader: a link that comes later' $well

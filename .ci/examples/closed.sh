#!/usr/bin/env bash
# What permission closes is no removal under change_journal and document_index, as it is none under folder_mirror: what
# was shown of it is kept, the rest is reported, and it is said once. A user whom permission stops tries that.
. "$(dirname "$0")/../checks.sh" || exit 1
expects 9

has_user || { not_run 9 'no setpriv' 'what permission closes'; exit; }
mkdir closed && cd closed || exit 1
cat >closed.sh <<'STORIES'
# waits COMMAND..: it succeeds within a minute.
waits() {
    for _ in $(seq 600); do
        ! "$@" || return 0
        sleep 0.1
    done
    false
}

# begins NAME: the program watches a folder with a file, a folder and a file in that.
begins() {
    name=$1
    mkdir -p d/sub && echo one >d/a && echo two >d/sub/b && mkfifo input || return 1
    words=(--timeout 50 --interval 10)
    [ "$name" = document_index ] || words+=(--until-eof)
    ./"$name" d "${words[@]}" <input >out 2>err &
    exec 5>input
    waits grep -qxF "$name: watching d" err || return 1
    # The index reads after it has said so: a file that is closed by then has no words.
    [ "$name" != document_index ] || waits sees d/sub/b two
}

# said FOLDER: that the folder can't be looked at was said, once. The index looks only when it is asked.
said() {
    [ "$name" != document_index ] || echo two >&5
    [ "$(grep -cxF "$name: cannot look at $1: permission denied" err)" = 1 ]
}

# sees PATH WORD: the program has printed the path; the index as an answer to the word.
sees() {
    [ "$name" != document_index ] || echo "$2" >&5
    grep -qE "$1(	|\$)" out
}

# more N: so many lines and more name the file in the folder.
more() {
    [ "$(grep -c 'd/sub/b' out)" -gt "$1" ]
}

# stays: the file in the folder was not said to be removed; the index has it still.
stays() {
    if [ "$name" = document_index ]; then
        local before
        before=$(grep -c 'd/sub/b' out)
        echo two >&5
        waits more "$before"
    else
        ! grep -q Remove out
    fi
}

# ends STATUS: the program ends so, and has said nothing twice.
ends() {
    exec 5>&-
    wait $!
    [ $? = "$1" ] && [ "$(sort err | uniq -d | wc -l)" = 0 ]
}

# opened NAME FOLDER MODE: the folder is closed for a while, and what changes then is seen.
opened() {
    begins "$1" && chmod "$3" "$2" && waits said "$2" && sleep 1 && stays && said "$2" &&
        chmod 755 "$2" && echo three >d/sub/c && waits sees d/sub/c three && stays && ends 0
}

# shut NAME FOLDER MODE: the folder stays closed. What changes beside it is seen.
shut() {
    begins "$1" && chmod "$3" "$2" && waits said "$2" || return 1
    if [ "$2" = d/sub ]; then
        echo three >d/c && waits sees d/c three || return 1
    fi
    stays && ends 1 && grep -qxF "$name: not all could be done" err
}

mkdir room && cp change_journal document_index room && cd room && "$@"
STORIES
mkdir -m 777 open
for name in change_journal document_index; do
    cp "$(program "$name")" open && chmod 755 "open/$name"
done
cp closed.sh open && cd open || exit 1
for story in 'opened change_journal d/sub 000' 'opened change_journal d 000' 'opened change_journal d/sub 400' \
    'shut change_journal d/sub 000' 'shut change_journal d 300' 'opened document_index d/sub 000' \
    'opened document_index d 000' 'shut document_index d/sub 000' 'shut document_index d 300'; do
    # shellcheck disable=SC2086
    report "closed: $story" "$(as_user bash closed.sh $story && echo yes)"
    chmod -R u+rwx room
    rm -r room
done

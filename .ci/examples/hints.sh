#!/usr/bin/env bash
# The hints of docs/WATCHING.md: programs that look each minute, and are told by hints where something changes. What they
# show within ten seconds after the last change comes of hints alone, and of the look that follows them.
. "$(dirname "$0")/../checks.sh" || exit 1
expects 13

journal=$(program change_journal)
mirror=$(program folder_mirror)
mkdir hints && cd hints || exit 1

# begins FILE LINE: the line stands in the file, within a minute.
begins() {
    for _ in $(seq 1200); do
        ! grep -qxF -- "$2" "$1" || return 0
        sleep 0.05
    done
    false
}

# some_folder TOP: one of the folders there. some_entry: something in one of them, or else a file that isn't there.
some_folder() {
    local folders=("$1" "$1"/*/ "$1"/*/*/)
    folder=${folders[RANDOM % ${#folders[@]}]%/}
    [ -d "$folder" ] || folder=$1
}
some_entry() {
    some_folder "$1"
    local entries=("$folder"/*)
    entry=${entries[RANDOM % ${#entries[@]}]}
    [ -e "$entry" ] || entry=$folder/none
}

# churn TOP SEED: a hundred changes. Prints the paths that it changes, as a tool does that watches.
churn() {
    RANDOM=$2
    for step in $(seq 100); do
        case $((RANDOM % 10)) in
        0 | 1 | 2) some_folder "$1" && echo "text $step" >>"$folder/f$((RANDOM % 9))" && echo "$folder" ;;
        3) some_entry "$1" && [ -f "$entry" ] && rm -f "$entry" && echo "$entry" ;;
        4) some_folder "$1" && mkdir -p "$folder/d$((RANDOM % 5))" && echo "$folder" ;;
        5) some_entry "$1" && [ -d "$entry" ] && rm -rf "$entry" && echo "$entry" ;;
        6 | 7) some_entry "$1" && some_folder "$1" && to=$folder/m$((RANDOM % 9)) && mv "$entry" "$to" && printf '%s\n' "$entry" "$to" ;;
        8) some_folder "$1" && mkdir -p "$folder/t/a/b" && : >"$folder/t/a/b/$step" && : >"$folder/t/$step" && echo "$folder/t" ;;
        9) some_folder "$1" && mkdir -p "$folder/q/u" && : >"$folder/q/u/$step" && rm -rf "$folder/q" && echo "$folder/q" ;;
        esac
        [ $((RANDOM % 3)) != 0 ] || sleep 0.02
    done 2>/dev/null
}

# played: the paths that a reader of a journal has at the end.
played() {
    awk -F '\t' '
        /^Create/ { has[$2] = 1 }
        /^Remove/ { for (path in has) if (path == $2 || index(path, $2 "/") == 1) delete has[path] }
        END { for (path in has) print path }' | LC_ALL=C sort
}

# follows NAME: what the program has printed or copied is what stands in the folder.
follows() {
    case $1 in
    journal*) cmp -s <(played <"$1.out") <(find "$1" | LC_ALL=C sort) ;;
    *) diff -r "$1" "$1.copy" >/dev/null 2>&1 ;;
    esac
}

# follow NAME SEED TOOL: one program over a folder that changes, by the hints of the tool. NAME.took says how many
# microseconds after the last change it was right, and NAME.well yes if that is within ten seconds.
follow() {
    local name=$1 tool='' running
    mkdir -p "$name/d0/e" && : >"$name/d0/e/f" && mkfifo "$name.hints"
    case $name in
    journal*) "$journal" "$name" --initial --timeout 50 --interval 60000 --hints - <"$name.hints" >"$name.out" 2>"$name.err" & ;;
    *) "$mirror" "$name" "$name.copy" --timeout 50 --interval 60000 --hints "$name.hints" >"$name.out" 2>"$name.err" & ;;
    esac
    running=$!
    exec 5>"$name.hints"
    case $name in
    journal*) begins "$name.err" "change_journal: watching $name" ;;
    *) begins "$name.err" "folder_mirror: watching $name" ;;
    esac
    if [ "$3" = inotifywait ]; then
        inotifywait -mr -e modify,create,delete,move,attrib,close_write --format '%w%f' "$name" >&5 2>"$name.tool" 5>&- &
        tool=$!
        begins "$name.tool" 'Watches established.'
        churn "$name" "$2" 5>&- >/dev/null
    else
        churn "$name" "$2" >&5
    fi
    local changed=${EPOCHREALTIME/[.,]/} took=0
    until follows "$name" || [ $took -ge 10000000 ]; do
        sleep 0.05
        took=$((${EPOCHREALTIME/[.,]/} - changed))
    done
    # A copy says what vanished before it was copied; a journal has nothing to say.
    echo "$name $took" >"$name.took"
    [ $took -lt 10000000 ] && [[ $name == mirror* || $(cat "$name.err") == 'change_journal: watching '* ]] && echo yes >"$name.well"
    kill $running $tool
    wait $running $tool 2>/dev/null
    exec 5>&-
}

# follow_all TOOL: ten journals and ten copies, each over a folder of its own, ten at once.
follow_all() {
    local half number
    rm -rf journal* mirror*
    for half in 0 5; do
        for number in $(seq $((half + 1)) $((half + 5))); do
            follow journal$number "$number" "$1" &
            follow mirror$number "$number" "$1" &
        done
        wait
    done
    [ "$(cat ./*.well | grep -c yes)" = 20 ]
}

# prints FILE LINE: the file has the line within ten seconds, and then the round is over that follows a hint.
prints() {
    for _ in $(seq 200); do
        ! grep -qxF -- "$2" "$1" || { sleep 3 && return 0; }
        sleep 0.05
    done
    false
}

# say_lines, say_zeros: changes, and hints of each form.
say_lines() {
    begins lines.err 'change_journal: watching lines' &&
        : >lines/a && echo lines/a && prints lines.out $'Create(File)\tlines/a' &&
        : >lines/b && echo "$PWD/lines/b" && prints lines.out $'Create(File)\tlines/b' &&
        : >lines/c && echo && prints lines.out $'Create(File)\tlines/c' &&
        : >lines/d && printf '%5000s\n' x && prints lines.out $'Create(File)\tlines/d' &&
        : >lines/e && printf '\377\n' && prints lines.out $'Create(File)\tlines/e' &&
        : >lines/f && echo "$PWD" && prints lines.out $'Create(File)\tlines/f' &&
        : >lines/g && printf lines/g
}
say_zeros() {
    begins zeros.err 'change_journal: watching zeros' &&
        : >zeros/$'two\nlines' && printf 'zeros/two\nlines\0' && prints zeros.out $'Create(File)\tzeros/two\\nlines' &&
        : >zeros/b && printf '\0' && prints zeros.out $'Create(File)\tzeros/b'
}
mkdir lines zeros
(say_lines | timeout 100 "$journal" lines --hints - --until-eof --timeout 50 --interval 60000 >lines.out 2>lines.err; echo $? >lines.status) &
saying=$!
(say_zeros | timeout 100 "$journal" zeros --hints - --hints-zero --until-eof --timeout 50 --interval 60000 >zeros.out 2>zeros.err
    echo $? >zeros.status) &
zeros=$!
wait $saying $zeros
report 'hints: lines, until they end' "$([ "$(cat lines.status)" = 0 ] && cmp -s lines.out <(printf 'Create(File)\tlines/%s\n' a b c d e f g) &&
    [ "$(cat lines.err)" = 'change_journal: watching lines' ] && echo yes)"
report 'hints: zero bytes' "$([ "$(cat zeros.status)" = 0 ] && cmp -s zeros.out <(printf 'Create(File)\tzeros/%s\n' 'two\nlines' b) && echo yes)"

# The end of the input, without hints: what waits is printed, though nothing is as old as a minute.
: >nothing
well=no
mkdir input && (begins input.err 'change_journal: watching input' && : >input/a && sleep 1) |
    timeout 100 "$journal" input --until-eof --timeout 60000 --interval 20 >input.out 2>input.err &&
    [ "$(cat input.out)" = $'Create(File)\tinput/a' ] && well=yes
report 'hints: the end of the input' $well
well=no
mkdir from && echo one >from/a && (begins copy.err 'folder_mirror: watching from' && echo two >from/b && sleep 1) |
    timeout 100 "$mirror" from to --until-eof --timeout 60000 --interval 20 >copy.out 2>copy.err && diff -r from to && well=yes
report 'hints: a copy until the end of the input' $well

# The input ends the journal also if its hints come by a file; the end of these doesn't.
well=no
mkdir beside && mkfifo told && (begins beside.err 'change_journal: watching beside' && : >beside/a && echo beside/a >told &&
    prints beside.out $'Create(File)\tbeside/a' && : >beside/b) |
    timeout 100 "$journal" beside --hints told --until-eof --timeout 50 --interval 99999999 >beside.out 2>beside.err &&
    [ "$(cat beside.out)" = $'Create(File)\tbeside/a\nCreate(File)\tbeside/b' ] && well=yes
report 'hints: the input ends beside a file of hints' $well

# Where no hints come from, and whence they can't: nothing waits for who reads them.
mkfifo pipe
expect 'hints: nobody writes' 0 nothing 'change_journal: watching input' timeout 100 "$journal" input --hints pipe --ticks 1
expect 'hints: no file' 5 nothing 'change_journal: the file of hints is not there' "$journal" input --hints missing
"$journal" input --hints input --ticks 2 >out 2>err
report 'hints: a folder is no file' "$([ $? = 0 ] && [ ! -s out ] && grep -qx 'change_journal: watching input' err && echo yes)"
"$journal" input --hints - --ticks 2 </dev/null >out 2>err
report 'hints: they end, and the journal goes on' "$([ $? = 0 ] && [ ! -s out ] && grep -qx 'change_journal: watching input' err && echo yes)"
expect 'hints: queries have the input' 2 nothing 'document_index: hints cannot come by standard input' \
    "$(program document_index)" input --hints -
well=no
echo word >input/a
(sleep 2 && echo more >input/b && timeout 20 sh -c 'echo input/b >pipe' && sleep 2 && echo more) |
    timeout 100 "$(program document_index)" input --hints pipe --timeout 50 --interval 60000 >out 2>err &&
    [ "$(head -n 1 out)" = input/b ] && well=yes
report 'hints: of documents' $well

report 'hints: 20 of 20 under churn, from a stand-in' "$(follow_all stand-in >/dev/null 2>&1 && echo yes)"
if has inotifywait; then
    report 'hints: 20 of 20 under churn, from inotifywait' "$(follow_all inotifywait >/dev/null 2>&1 && echo yes)"
else
    not_run 1 'no inotifywait' 'hints: 20 of 20 under churn, from inotifywait'
fi

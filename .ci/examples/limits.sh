#!/usr/bin/env bash
# The programs that find no memory or can start no thread: status 4 and 8, and the line that says so.
. "$(dirname "$0")/../checks.sh" || exit 1
expects 9

# A folder of 10,000 files, whose listing takes 38 MB, since their paths are long.
name=$(printf '%0180d' 0)
deep=tree
for _ in $(seq 20); do deep=$deep/$name; done
mkdir -p "$deep" small
(cd "$deep" && seq -f '%0180.0f' 10000 | xargs touch)
echo 'port = 80' >small/app.toml

# limited NAME STATUS COMPLAINT STACK MEMORY WORD..: with stacks and memory of so many kilobytes the program prints
# nothing, and ends so.
limited() {
    local place
    place=$(program "$1")
    (ulimit -S -s "$4" && ulimit -v "$5" && exec "$place" "${@:6}") >out 2>err </dev/null
    [ $? = "$2" ] && [ ! -s out ] && [ "$(cat err)" = "$1: $3" ]
}

for name in build_trigger change_journal config_reloader document_index folder_mirror; do
    small=(small --ticks 1)
    great=(tree --ticks 1)
    case $name in
        config_reloader) small=(small/app.toml --ticks 1) && great=("$deep/app.toml" --ticks 1) ;;
        document_index) small+=(--query 80) && great+=(--query 80) ;;
        folder_mirror) small=(small copy --ticks 1) great=() ;;
    esac
    # With stacks of 1 GB no thread can be started; with stacks of 300 MB the debouncer's own can, the watcher's can't.
    report "$name: no thread" "$(limited $name 8 'cannot start a thread' 1000000 500000 "${small[@]}" &&
        limited $name 8 'cannot start a thread' 300000 500000 "${small[@]}" && echo yes)"
    # A mirror goes on: its first listing isn't made at its start.
    [ $name = folder_mirror ] ||
        report "$name: no memory" "$(limited $name 4 'out of memory' 1000 30000 "${great[@]}" && echo yes)"
done

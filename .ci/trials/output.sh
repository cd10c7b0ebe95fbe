#!/usr/bin/env bash
# output.sh CRATE: runs this program with the words of its file `args`, in a folder with what lies in its `data`, and compares
# what it prints with its file `stdout`.
. "$(dirname "$0")/../checks.sh" || exit 1
expects 1
program=$(program "$1")
crate=$top/crates/$1

mkdir run
[ ! -e "$crate/data" ] || cp -r "$crate"/data/. run
words=() && [ ! -e "$crate/args" ] || mapfile -t words <"$crate/args"
stdout=$crate/stdout && [ -e "$stdout" ] || stdout=/dev/null
(cd run && exec "$program" "${words[@]}") >out 2>err </dev/null
report "what $1 prints" "$([ $? = 0 ] && cmp -s out "$stdout" && echo yes)"

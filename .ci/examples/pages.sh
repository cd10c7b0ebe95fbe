#!/usr/bin/env bash
# The examples of docs/PROGRAMS.md, all at once: what a block of commands prints is the block below it.
. "$(dirname "$0")/../checks.sh" || exit 1
expects 6

awk '/^## / { name = $2 } /^```(sh|output)$/ { kind = substr($0, 4); next } /^```/ { kind = ""; next }
    kind != "" { print >(name "." kind) }' "$top/docs/PROGRAMS.md"
mkdir bin
running=()
for page in *.sh; do
    name=${page%.sh}
    ln -s "$(program "$name")" "bin/$name"
    mkdir "$name"
    (cd "$name" && PATH=$room/bin:$PATH timeout 120 bash "../$page" >../"$name.out" 2>../"$name.err") &
    running+=($!)
done
wait "${running[@]}"
for page in *.sh; do
    name=${page%.sh}
    cp "$name.out" out && cp "$name.err" err
    report "the example of $name on its page" "$(cmp -s out "$name.output" && echo yes)"
done
report 'each program has an example on its page' "$([ "$(ls ./*.sh | wc -l)" = 5 ] && [ "$(ls ./*.output | wc -l)" = 5 ] && echo yes)"

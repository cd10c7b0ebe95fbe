#!/usr/bin/env bash
# Names with a tab, a line feed, a carriage return and a backslash, in each program of docs/PROGRAMS.md that prints paths.
. "$(dirname "$0")/../checks.sh" || exit 1
expects 6

mkdir -p names/from names/to && cd names || exit 1
odd=($'a\tb' $'a\nb' $'a\rb' 'a\b')
for name in "${odd[@]}"; do echo word >"from/$name"; done
printf '%s\n' 'a\tb' 'a\nb' 'a\rb' 'a\\b' >fields

journal=$(program change_journal)
(printf 'Create(Folder)\tfrom\n' && sed 's,^,Create(File)\tfrom/,' fields) >wanted
expect 'names in a journal' 0 wanted 'change_journal: watching from' "$journal" from --initial --timeout 50 --seconds 1
(printf 'from\0' && printf 'from/%s\0' "${odd[@]}") >wanted
expect 'names in a journal of paths' 0 wanted 'change_journal: watching from' "$journal" from -0 --initial --timeout 50 --seconds 1
if has python3; then
    "$journal" from --json --initial --timeout 50 --seconds 1 >out 2>err
    python3 -c 'import json, sys; [print(path, end="\0") for line in sys.stdin for path in json.loads(line)["paths"]]' <out >got
    report 'names in a journal in JSON' "$(cmp -s got wanted && [ "$(wc -l <out)" = 5 ] && echo yes)"
else
    not_run 1 'no python3' 'names in a journal in JSON'
fi

sed 's,^,copy from/,' fields >wanted
expect 'names in a mirror' 0 wanted 'folder_mirror: watching from' \
    "$(program folder_mirror)" from to --dry-run --timeout 50 --ticks 4
sed 's,^,from/,' fields >wanted
expect 'names in an index' 0 wanted 'document_index: watching from' \
    "$(program document_index)" from --query word

# Each of the four is created once more after the trigger has begun, so it is in one line or in several.
mkdir built
: >err
"$(program build_trigger)" built --quiet 100 --timeout 50 --interval 10 --seconds 60 >out 2>err &
running=$!
for _ in $(seq 600); do ! grep -q watching err || break; sleep 0.1; done
for name in "${odd[@]}"; do : >"built/$name"; done
sed 's,^,./,' fields >wanted
for _ in $(seq 600); do
    cut -f 2- out | tr '\t' '\n' | LC_ALL=C sort >got
    [ "$(wc -l <got)" -lt 4 ] || break
    sleep 0.1
done
kill $running
wait $running 2>/dev/null
report 'names in the lines of a trigger' \
    "$(cmp -s got <(LC_ALL=C sort wanted) && awk -F '\t' '$1 != NF - 1 { exit 1 }' out && echo yes)"

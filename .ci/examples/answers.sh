#!/usr/bin/env bash
# What the Rust crate prints of random scripts, by scripts/answers.py, in a minute at most; and an answer that is
# changed is told.
. "$(dirname "$0")/../checks.sh" || exit 1
expects 3
given=$top/crates/worked_cases/data/ANSWERS
compares=$(program worked_cases)

count=$(sed '1,/^$/d' "$given" | wc -l)
echo "$count answers are the same, 0 differ" >wanted
well=no
timeout 60 "$compares" --answers "$given" >out 2>err && [ "$count" -ge 20000 ] && [ ! -s err ] && cmp -s out wanted && well=yes
report 'answers of the Rust crate, replayed' $well

# One of each sort: a script, one over a map of file numbers, and calls of such a map.
{
    sed '/^$/q' "$given"
    sed '1,/^$/d' "$given" | sed -n '1p; $p'
    sed '1,/^$/d' "$given" | grep -m 1 -F " $(sed -n 's/^\(.\) numbers|$/\1/p' "$given")"
} >three
sed '1,/^$/!s/^[0-9a-f]\{16\}/0000000000000000/' three >changed
well=no
"$compares" --answers three >out 2>err && [ "$(cat out)" = '3 answers are the same, 0 differ' ] && well=yes
report 'one answer of each sort' $well
"$compares" --answers changed >out 2>err
[ $? = 1 ] && [ "$(tail -n 1 out)" = '0 answers are the same, 3 differ' ] &&
    [ "$(grep -c "^The Rust crate's answer is another of$" out)" = 3 ] || well=no
report 'answers that are changed' $well

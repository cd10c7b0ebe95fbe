#!/usr/bin/env bash
# The README's example, over a folder that is changed as the README says. It lives ten seconds: what it prints of each
# change is waited for before the next.
. "$(dirname "$0")/../checks.sh" || exit 1
expects 1

awk '/^```/ { inside = !inside; if (inside) block = ""; else if (block ~ /^Create\(Folder\)/) printf "%s", block; next }
    inside { block = block $0 "\n" }' "$top/README.md" >wanted

# prints N: so many lines of what is wanted.
prints() {
    cmp -s out <(head -n "$1" wanted)
}

mkdir watched
"$(program example)" watched >out 2>err &
running=$!
well=no
within 60 sleeps $running && mkdir watched/notes && echo one >watched/notes/a.txt && within 9 prints 2 &&
    echo two >>watched/notes/a.txt && within 9 prints 3 && rm -r watched/notes
wait $running && [ ! -s err ] && cmp -s out wanted && well=yes
report "the README's example" "$([ "$(wc -l <wanted)" = 4 ] && echo $well)"

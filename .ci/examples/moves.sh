#!/usr/bin/env bash
# What is renamed is moved: in a mirror's copy by one rename, and in a journal by two fields. A tick can fall between the
# events of one rename, which then is no move of one batch: they come within milliseconds, and a tick each quarter of a second.
. "$(dirname "$0")/../checks.sh" || exit 1
expects 3
mirror=$(program folder_mirror)

# has_line FILE LINE: the file has the line.
has_line() {
    grep -qxF -- "$2" "$1"
}

# complains: it has said something besides.
complains() {
    grep -qvF 'folder_mirror: watching ' err
}

# is_copy: TO is a copy of FROM.
is_copy() {
    diff -r from to >/dev/null 2>&1
}

# A folder of 1,000 files that is renamed is one rename, and nothing of it is copied.
mkdir -p from/many
for number in $(seq 1000); do head -c 2000 /dev/zero >"from/many/file$number"; done
: >err
"$mirror" from to --timeout 1000 --interval 10 --ticks 100000 >out 2>err &
running=$!
well=no
if within 60 has_line err 'folder_mirror: watching from' && within 60 is_copy; then
    cp out before
    number=$(stat -c %i to/many to/many/file7)
    sleep 2
    mv from/many from/one && within 60 is_copy && [ "$(stat -c %i to/one to/one/file7)" = "$number" ] &&
        [ "$(tail -n +$(($(wc -l <before) + 1)) out)" = $'move from/many\tfrom/one' ] && ! complains && well=yes
fi
report 'folder_mirror: a folder that is renamed is moved' $well

# What the copy has of its own stays where it is.
keeps_own() {
    diff -r from/last to/last >/dev/null 2>&1 && [ "$(ls -A to/one)" = own ] && [ "$(cat to/one/own)" = own ]
}
well=no
echo own >to/one/own && mv from/one from/last && within 60 keeps_own && well=yes
report 'folder_mirror: what a copy has of its own is not moved' $well
kill $running
wait $running 2>/dev/null

# A creation says where what was created was before.
rm -rf from && mkdir -p from/lib && echo one >from/lib/a
: >err
"$(program change_journal)" from --timeout 1000 --interval 10 --ticks 100000 >out 2>err &
running=$!
# tells: the journal has told of the rename.
tells() {
    [ "$(wc -l <out)" -ge 3 ]
}
printf 'Create(File)\tfrom/one/a\tmoved from\tfrom/lib/a\n%s\n%s\n' $'Create(Folder)\tfrom/one\tmoved from\tfrom/lib' \
    $'Remove(Folder)\tfrom/lib' >wanted
well=no
within 60 has_line err 'change_journal: watching from' && sleep 2 && mv from/lib from/one && within 60 tells &&
    LC_ALL=C sort out | cmp -s - wanted && well=yes
report 'change_journal: a creation says what was moved' $well
kill $running
wait $running 2>/dev/null

#!/usr/bin/env bash
# The program change_journal: three journals of one folder, of which each change waits until all have told the one before.
. "$(dirname "$0")/../checks.sh" || exit 1
expects 14

journal=$(program change_journal)
mkdir -p journal/watched && cd journal || exit 1

# tells FILE PATTERN: the journal tells of it, within a minute.
tells() {
    for _ in $(seq 1200); do
        tr '\0' '\n' <"$1" | grep -qE -- "$2" && return 0
        sleep 0.05
    done
    return 1
}

# watches FILE FOLDER: the journal that complains there has said that it watches the folder, within a minute.
watches() {
    for _ in $(seq 600); do
        ! grep -qxF -- "change_journal: watching $2" "$1" || return 0
        sleep 0.1
    done
    return 1
}

# complains FILE: there is something besides.
complains() {
    grep -qvF 'change_journal: watching ' "$1"
}

# all_tell PATTERN: each of the three does.
all_tell() {
    tells plain "$1" && tells json "$1" && tells zero "$1"
}

make_changes() {
    echo one >made && mv made watched/a.txt && all_tell 'watched/a.txt' || return 1
    mkdir away && echo two >away/b.o && mv away watched/notes && all_tell 'watched/notes$|watched/notes"' || return 1
    echo tab >made && mv made $'watched/two\tnames' && all_tell $'two(\t|..?t)names' || return 1
    mv watched/notes away && tells plain '^Remove\(Folder\)' && tells json 'Remove\(Folder\)' || return 1
    echo end >made && mv made watched/end && all_tell 'watched/end'
}

# Three journals at once, of one folder. Patterns leave out the file b.o.
begun=$(date +%s%N)
"$journal" --timeout 100 --interval 20 --ticks 2000 --exclude '\.o$' watched >plain 2>complaints1 &
first=$!
"$journal" --timeout 100 --interval 20 --ticks 2000 --exclude '\.o$' --json watched >json 2>complaints2 &
second=$!
"$journal" --timeout 100 --interval 20 --ticks 2000 --exclude '\.o$' -0 watched >zero 2>complaints3 &
third=$!
well=no
watches complaints1 watched && watches complaints2 watched && watches complaints3 watched && make_changes && well=yes
kill $first $second $third 2>/dev/null
wait $first $second $third 2>/dev/null
printf '%s\twatched/%s\n' 'Create(File)' a.txt 'Create(Folder)' notes 'Create(File)' 'two\tnames' \
    'Remove(Folder)' notes >wanted
grep -v 'watched/end' plain >got
! complains complaints1 && ! complains complaints2 && ! complains complaints3 && cmp -s got wanted || well=no
report 'a journal in plain lines' $well

# The same events as JSON, numbered from 1 without a gap.
cat >wanted <<'END'
{"at":W,"flag":null,"info":null,"kind":"Create(File)","moved_from":null,"paths":["watched/a.txt"],"seq":N,"time":T,"tracker":null}
{"at":W,"flag":null,"info":null,"kind":"Create(Folder)","moved_from":null,"paths":["watched/notes"],"seq":N,"time":T,"tracker":null}
{"at":W,"flag":null,"info":null,"kind":"Create(File)","moved_from":null,"paths":["watched/two\tnames"],"seq":N,"time":T,"tracker":null}
{"at":W,"flag":null,"info":null,"kind":"Remove(Folder)","moved_from":null,"paths":["watched/notes"],"seq":N,"time":T,"tracker":null}
END
grep -v 'watched/end' json | sed 's/"seq":[0-9]*,"time":[0-9]*/"seq":N,"time":T/; s/"at":"[^"]*"/"at":W/' >got
cmp -s got wanted && cmp -s <(grep -o '"seq":[0-9]*' json) <(seq -f '"seq":%.0f' "$(wc -l <json)") || well=no
report 'a journal in JSON' $well
# Each line says when its batch came, by the wall clock: while the journal ran, and none before the one above it.
if has python3; then
report 'the time of day in a journal' "$(python3 - "$begun" "$(date +%s%N)" <<'END'
import calendar, json, re, sys, time

form = re.compile(r"(\d{4}-\d\d-\d\dT\d\d:\d\d:\d\d)\.(\d{9})Z")
moments = [int(sys.argv[1])]
for line in open("json"):
    day, fraction = form.fullmatch(json.loads(line)["at"]).groups()
    moments.append(calendar.timegm(time.strptime(day, "%Y-%m-%dT%H:%M:%S")) * 10**9 + int(fraction))
moments.append(int(sys.argv[2]))
print("yes" if len(moments) > 5 and moments == sorted(moments) else moments)
END
)"
else
    not_run 1 'no python3' 'the time of day in a journal'
fi
printf 'watched/%s\0' a.txt notes $'two\tnames' notes >wanted
grep -zv 'watched/end' zero >got
cmp -s got wanted || well=no
report 'a journal of paths' $well

# A pattern that is none, with its place in bytes, one that is too large, a folder that is not there, and a
# device that is full.
: >nothing
expect 'a journal by no pattern' 2 nothing "change_journal: a pattern is not a regular expression: --include '(' at 0" \
    "$journal" --include '(' --exclude a watched
expect 'a journal without no pattern' 2 nothing "change_journal: a pattern is not a regular expression: --exclude 'é[z-a]' at 3" \
    "$journal" --include a --exclude 'é[z-a]' watched
expect 'a journal by a large pattern' 2 nothing "change_journal: a pattern is too large: --include 'a{1000}{1000}'" \
    "$journal" --include 'a{1000}{1000}' watched
"$journal" --timeout 50 --interval 20 --seconds 2 --initial watched >/dev/full 2>err
report 'a journal on a full device' "$([ $? = 6 ] && ! complains err && echo yes)"
expect 'a journal of a missing folder' 5 nothing 'change_journal: cannot watch missing: not there' "$journal" missing
"$journal" --json -0 watched >out 2>err
report 'a journal in two forms' "$([ $? = 2 ] && [ ! -s out ] && grep -q "cannot be used with" err && echo yes)"

# What is there already comes first with --initial, and not without it.
mkdir -p first/notes && echo one >first/notes/.hidden
printf '%s\tfirst%s\n' 'Create(Folder)' '' 'Create(Folder)' /notes 'Create(File)' /notes/.hidden >wanted
expect 'a journal from nothing' 0 wanted 'change_journal: watching first' "$journal" --initial --timeout 50 --ticks 4 first
expect 'a journal from now on' 0 nothing 'change_journal: watching first' "$journal" --timeout 50 --seconds 1 first

# The reader of these lines is gone after the first, while files are made until the journal has ended.
rm -rf gone status && mkdir gone
("$journal" --timeout 100 --interval 20 --ticks 2000 gone 2>err; echo $? >status) | head -n 1 >out &
number=0
while [ ! -s status ] && [ $number -lt 1200 ]; do
    number=$((number + 1))
    : >gone/$number && sleep 0.05
done
report 'the reader of a journal is gone' "$([ "$(cat status)" = 6 ] && ! complains err && [ "$(wc -l <out)" = 1 ] && echo yes)"

# What waits when the life is over is printed, each once and in order: nothing is as old as a minute then. Fifty files
# are made after the journal has said that it watches, one by one, within its ten seconds.
mkdir late
: >err
"$journal" --timeout 60000 --interval 20 --seconds 10 late >out 2>err &
running=$!
well=no
watches err late && for number in $(seq 1001 1050); do
    : >"late/$number" && sleep 0.02
done
wait $running && ! complains err && sed 's,^Create(File)\tlate/,,' out | cmp -s - <(seq 1001 1050) && well=yes
report 'what waits when a journal ends' $well

#!/usr/bin/env bash
# The build trigger, over a folder in which files come and go in bursts.
. "$(dirname "$0")/../checks.sh" || exit 1
expects 13

trigger=$(program build_trigger)
mkdir build_trigger && cd build_trigger || exit 1
mkdir src

# written NAME..: each of these paths stands in a line, within a minute.
written() {
    for path in "$@"; do
        for _ in $(seq 600); do
            cut -f 2- out | tr '\t' '\n' | grep -qxF -- "$path" && continue 2
            sleep 0.1
        done
        return 1
    done
}

# written_again NAME: one more line than before has the path, within a minute.
before=0
written_again() {
    for _ in $(seq 600); do
        if [ "$(grep -cF -- "$1" out)" -gt $before ]; then
            sleep 0.3
            before=$(grep -cF -- "$1" out)
            return
        fi
        sleep 0.1
    done
    return 1
}

# watches FOLDER: the trigger has said that it watches the folder, within a minute.
watches() {
    for _ in $(seq 600); do
        ! grep -qxF -- "build_trigger: watching $1" err 2>/dev/null || return 0
        sleep 0.1
    done
    return 1
}

# complains: it has said something besides.
complains() {
    grep -qvF 'build_trigger: watching ' err
}

# The events in the lines are as many as each line says: here each names one path.
are_counted() {
    awk -F '\t' '$1 != NF - 1 { exit 1 }' out
}

"$trigger" src --ignore '\.o$' --quiet 300 --timeout 50 --interval 10 --ticks 100000 >out 2>err &
running=$!
well=yes
watches src || well=no
: >src/a1 && : >src/a.o && mkdir src/a2 && : >src/a2/a3
written ./a1 ./a2 ./a2/a3 || well=no
rm src/a1 && : >$'src/b\t1' && rm src/a.o
written ./a1 './b\t1' || well=no
mv src/a2/a3 src/b2
# Created and removed, each told once.
printf '%s\n' ./a1 ./a1 ./a2 ./a2/a3 ./a2/a3 './b\t1' ./b2 | LC_ALL=C sort >wanted
for _ in $(seq 600); do
    cut -f 2- out | tr '\t' '\n' | LC_ALL=C sort >paths
    ! cmp -s paths wanted || break
    sleep 0.1
done
kill $running
wait $running 2>/dev/null
report 'build_trigger: each event is in one line' "$(cmp -s paths wanted && are_counted && ! complains && echo $well)"
# The second burst began when the line of the first was written, so no line has events of both.
report 'build_trigger: no line is written before its burst' \
    "$(grep -F './a2/a3' out | head -n 1 | grep -qv './b' && [ "$(grep -cF './b' out)" -ge 1 ] && echo yes)"

# An edit that keeps the length, in place or by a move over the file, gets a line: 20 of 20.
mkdir same && echo 0 >same/f
"$trigger" same --quiet 50 --timeout 20 --interval 10 --ticks 100000 >out 2>err &
running=$!
told=0
watches same
for n in $(seq 10); do
    sed -i "s/.*/$((n % 10))/" same/f && written_again ./f && told=$((told + 1))
    echo "$(((n + 5) % 10))" >next && mv next same/f && written_again ./f && told=$((told + 1))
done
kill $running
wait $running 2>/dev/null
report 'build_trigger: edits that keep the length' "$([ $told = 20 ] && ! complains && echo yes)"

# What waits when the ticks are over is written: no event gets as old as this timeout. Files are made from the moment on
# at which the trigger says that it watches, until it has ended: those that it saw are in one line, each once.
mkdir late
: >err
"$trigger" late --timeout 90000000 --interval 10 --ticks 40 >out 2>err &
running=$!
well=no
watches late && well=yes
for n in $(seq 100 5000); do
    kill -0 $running 2>/dev/null || break
    : >"late/$n" && sleep 0.05
done
wait $running && ! complains && [ "$(wc -l <out)" = 1 ] && are_counted &&
    [ "$(cut -f 2- out | tr '\t' '\n' | sort | uniq -d)" = '' ] || well=no
report 'build_trigger: what waits is not lost' $well

# A pause that is longer than the default parts no burst, and after one that is shorter a line comes though files come
# all the time.
mkdir calm
: >err
(watches calm && : >calm/.a && sleep 2 && : >calm/b && sleep 1) |
    timeout 100 "$trigger" calm --quiet 99999999 --until-eof --timeout 50 --interval 10 >out 2>err
report 'build_trigger: a long pause' "$([ $? = 0 ] && [ "$(cat out)" = $'2\t./.a\t./b' ] && ! complains && echo yes)"
mkdir busy
: >err
"$trigger" busy --quiet 20 --timeout 20 --interval 10 --seconds 60 >out 2>err &
running=$!
watches busy
for n in $(seq 200); do : >busy/$n && [ ! -s out ] && sleep 0.25 || break; done
kill $running
wait $running 2>/dev/null
report 'build_trigger: a short pause' "$([ -s out ] && are_counted && ! complains && echo yes)"

expect 'build_trigger: a quiet folder' 0 /dev/null 'build_trigger: watching src' "$trigger" src --ticks 1
expect 'build_trigger: a missing folder' 5 /dev/null 'build_trigger: cannot watch missing: not there' "$trigger" missing --ticks 1
expect 'build_trigger: no pattern' 2 /dev/null "build_trigger: a pattern is not a regular expression: --ignore 'a(' at 1" \
    "$trigger" src --ignore 'a(' --ticks 1
expect 'build_trigger: a large pattern' 2 /dev/null "build_trigger: a pattern is too large: --ignore 'a{1000}{1000}'" \
    "$trigger" src --ignore 'a{1000}{1000}' --ticks 1

# The line of a burst can't be written, since the device is full, or the reader is gone.
"$trigger" src --quiet 50 --timeout 50 --interval 10 --seconds 60 >/dev/full 2>err &
running=$!
watches src && : >src/full
wait $running
report 'build_trigger: a full device' "$([ $? = 6 ] && ! complains && echo yes)"
: >err
("$trigger" src --quiet 50 --timeout 50 --interval 10 --seconds 60 2>err; echo $? >status) | : &
running=$!
watches src && : >src/gone
wait $running
for _ in $(seq 600); do [ ! -s status ] || break; sleep 0.1; done
report 'build_trigger: a reader that is gone' "$([ "$(cat status)" = 6 ] && ! complains && echo yes)"
"$trigger" >out 2>err
report 'build_trigger: no word' "$([ $? = 2 ] && [ ! -s out ] && [ -s err ] && echo yes)"

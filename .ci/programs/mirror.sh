#!/usr/bin/env bash
# The built `mirror`, for each status and form of its command line.
. "$(dirname "$0")/../checks.sh" || exit 1
expects 78
program=$(program mirror)

usage='usage: mirror SCRIPT | --check SCRIPT | --threads SCRIPT.. | --watch DIR TICKS'
: >nothing
cp "$top/crates/mirror/data/example" example
printf 'timeout 50\nbogus\n' >fault
mkdir folder
expect 'a script is run' 0 "$top/crates/mirror/stdout" '' "$program" example
{
    cat "$top/crates/mirror/stdout"
    echo honest yes
    echo clock yes
} >checked
expect 'a script is checked' 0 checked '' "$program" --check example
printf 'entries 12\ntaken 8\nreplay same\n' >replayed
expect 'scripts run in threads' 0 replayed '' "$program" --threads example example
printf 'timeout 50\nstart /\nstart /a\n' >other
printf 'event %s Modify(Data(Any)) - /a\n' 0 10 60 >>other
echo tick 65 >>other
printf 'entries 10\ntaken 7\nreplay same\n' >replayed
for number in $(seq 100); do
    "$program" --threads example other >out 2>err && [ ! -s err ] && cmp -s out replayed || break
    : >"same$number"
done
report 'two scripts in threads, 100 times' "$([ -e same100 ] && echo yes)"
expect 'a missing folder is watched' 5 nothing 'mirror: cannot watch missing' "$program" --watch missing 1
expect 'no ticks' 2 nothing "$usage" "$program" --watch folder 0
expect 'no word' 2 nothing "$usage" "$program"
expect 'two words' 2 nothing "$usage" "$program" example example
expect 'a check of nothing' 2 nothing "$usage" "$program" --check
expect 'an unknown form' 2 nothing "$usage" "$program" --nothing
expect 'a word that is not UTF-8' 2 nothing 'mirror: an argument is not UTF-8' "$program" $'\xff'
expect 'a missing file' 1 nothing 'mirror: cannot read missing' "$program" missing
expect 'a folder' 1 nothing 'mirror: cannot read folder' "$program" folder
expect 'a missing file for a thread' 1 nothing 'mirror: cannot read missing' "$program" --threads example missing
expect 'a check of a missing file' 1 nothing 'mirror: cannot read missing' "$program" --check missing
expect 'a check of no script' 3 nothing 'mirror: fault: line 2: not a command' "$program" --check fault
expect 'a text that is no script' 3 nothing 'mirror: fault: line 2: not a command' "$program" fault
expect 'a script named like a form' 1 nothing 'mirror: cannot read --script' "$program" --check --script
expect 'a script named -' 1 nothing 'mirror: cannot read -' "$program" -
expect 'a check of two scripts' 2 nothing "$usage" "$program" --check example example
expect 'a folder without ticks' 2 nothing "$usage" "$program" --watch folder

# What the format allows of a script's layout, and the first line that fails of a text that is no script.
printf '# a comment\n\ntimeout 0050\r\n#\nstart ./a//b/.\nevent %s Create(Other) - "" ../c /d\nroot Recursive /d\nunroot ""\ntick 007' \
    340282366920938463463374607431768211455 >script
cat >laid_out <<'END'
batch 7 0
taken 1 given 0 waiting 1
wait 340282366920938463463374607431768211455 Create(Other) - "" ../c /d
reader ./a/b
after "" ./a/b
raw "" ./a/b
END
expect 'a script with every layout' 0 laid_out '' "$program" script
while read -r line text; do
    # shellcheck disable=SC2059
    printf "$text" >script
    expect "a fault in line $line of '$text'" 3 nothing "mirror: script: line $line: not a command" "$program" script
done <<'END'
1
1 tick 1\ntimeout 50\n
1 timeout
1 timeout 50 60\n
1 timeout 340282366920938463463374607431768211456\n
2 timeout 50\ntick\n
2 timeout 50\ntimeout 50\n
2 timeout 50\nstart\n
2 timeout 50\nstart /a /b\n
2 timeout 50\n tick 1\n
2 timeout 50\ntick  1\n
2 timeout 50\ntick +1\n
2 timeout 50\ntick -1\n
2 timeout 50\ntick 1\r
2 timeout 50\ntick 1\r\r\n
2 timeout 50\n#\377\ntick\n
2 timeout 50\ntick\n\377\n
2 timeout 50\nTick 1\n
2 timeout 50\nevent 1 Create(Any)\n
2 timeout 50\nevent 1 Create - /a\n
2 timeout 50\nevent 1 Modify(Name) - /a\n
2 timeout 50\nevent 1 Any exists,exists /a\n
2 timeout 50\nevent 1 Any rescan, /a\n
2 timeout 50\nevent 1 Any info= /a\n
2 timeout 50\nevent 1 Any tracker=18446744073709551616 /a\n
2 timeout 50\ncounts 1 2\n
2 timeout 50\nerror Full\n
2 timeout 50\nroot recursive /a\n
2 timeout 50\nunroot\n
2 timeout 50\nerrors 1\n
3 #\n\n
3 #\n#
3 timeout 50\ntick 1\nstart /\n
3 timeout 50\n\ntick 1 \n
3 timeout 50\nstart /\ncounts 1 1\n
3 timeout 50\ncounts 1 1\ncounts 1 1\n
END
# A script that can't run ends the run of all.
printf 'timeout 50\n' >script
for text in 'timeout 50\ntick\n' 'timeout 50\ncounts 1 0\n' 'timeout 50\ntick\ncounts 1 0\n'; do
    # shellcheck disable=SC2059
    printf "$text" >faulty
    expect "threads over '$text'" 3 nothing 'mirror: faulty: line 2: not a command' "$program" --threads script faulty
done
expect 'threads over no text' 3 nothing 'mirror: nothing: line 1: not a command' "$program" --threads nothing script
printf 'timeout 51\n' >other
expect 'threads with two timeouts' 3 nothing 'mirror: the scripts differ in timeout' "$program" --threads script other

# Paths print as Rust's `Path` does on Unix, and errors as one word.
cat >script <<'END'
timeout 50
event 1 Modify(Any) - "" //
event 2 Modify(Any) - /
event 3 Modify(Any) - /./a
event 4 Modify(Any) - /a//b/
event 5 Modify(Any) - .
event 6 Modify(Any) - ./a/./b
event 7 Modify(Any) - a/../b
error Generic
error PathNotFound
error WatchNotFound
errors
END
cat >printed <<'END'
errors 3
error Generic
error PathNotFound
error WatchNotFound
taken 7 given 0 waiting 7
wait 1 Modify(Any) - "" /
wait 2 Modify(Any) - /
wait 3 Modify(Any) - /a
wait 4 Modify(Any) - /a/b
wait 5 Modify(Any) - .
wait 6 Modify(Any) - ./a/b
wait 7 Modify(Any) - a/../b
reader
after
raw
END
expect 'paths and errors' 0 printed '' "$program" script

for form in example '--check example' '--threads example example' '--watch folder 1'; do
    # shellcheck disable=SC2086
    "$program" $form >/dev/full 2>err
    report "a full device for $form" "$([ $? = 6 ] && [ ! -s err ] && echo yes)"
done
expect 'an empty path is watched' 5 nothing 'mirror: cannot watch ' "$program" --watch '' 1
expect 'a path below a file is watched' 5 nothing 'mirror: cannot watch example/f' "$program" --watch example/f 1

# A tick of 70,000 due events: more than 64 KiB of output, and more events than 16 bits count.
(echo timeout 50; seq -f 'event 0 Create(File) - /%05.0f' 70000; echo tick 100) >great
(
    echo batch 100 70000
    seq -f 'event 0 Create(File) - /%05.0f' 70000
    echo taken 70000 given 70000 waiting 0
    for list in reader after raw; do echo "$list" $(seq -f '/%05.0f' 70000); done
) >great_output
expect 'a great tick' 0 great_output '' "$program" great

(yes '# a long script' | head -c 200000000) >long
for form in '' --check --threads; do
    # shellcheck disable=SC2086
    (ulimit -v 150000 && exec "$program" $form long) >out 2>err
    report "no memory $form" "$([ $? = 4 ] && [ ! -s out ] && [ "$(cat err)" = 'mirror: out of memory' ] && echo yes)"
done

# With stacks of 1 GB no thread can be started; with stacks of 300 MB the debouncer's own can, which
# sleeps on, and the watcher's can't.
for run in '1000000 --watch watched 1' '300000 --watch watched 1' '1000000 --threads example example'; do
    # shellcheck disable=SC2086
    (ulimit -S -s ${run%% *} && ulimit -v 500000 && exec "$program" ${run#* }) >out 2>err
    report "no thread: $run" "$([ $? = 8 ] && [ ! -s out ] &&
        [ "$(cat err)" = 'mirror: cannot start a thread' ] && echo yes)"
done

# A tree whose listing takes 38 MB, watched with 30 MB; an empty folder would need less than 8.
name=$(printf '%0180d' 0)
tree=tree
for _ in $(seq 20); do tree=$tree/$name; done
mkdir -p "$tree"
(cd "$tree" && seq -f '%0180.0f' 10000 | xargs touch)
(ulimit -S -s 1000 && ulimit -v 30000 && exec "$program" --watch tree 1) >out 2>err
report 'no memory for a listing' "$([ $? = 4 ] && [ ! -s out ] && [ "$(cat err)" = 'mirror: out of memory' ] && echo yes)"

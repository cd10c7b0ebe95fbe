#!/usr/bin/env bash
# ./mirror, with stand-ins for the program and the toolchain that tell what they were called with.
. "$(dirname "$0")/../checks.sh" || exit 1
expects 5

mkdir -p top/crates bin "caller's folder"
cp "$top/mirror" "$top/crates.txt" top
(cd "$top/crates" && printf '%s\0' */) | (cd top/crates && xargs -0 mkdir)
mkdir top/crates/mirror/out
cat >top/crates/mirror/out/mirror <<'END'
#!/bin/sh
printf '[%s]\n' "$(basename "$PWD")" "$@"
exit 7
END
cat >bin/rt <<'END'
#!/bin/sh
echo "$(basename "$PWD")" "$@" >>"$CALLS"
[ "$1" = try ] || exit "$BUILD_STATUS"
shift 4
printf '[%s]\n' "$@"
echo "mirror: cannot read $1" >&2
echo 'checked: ended status=3' >&2
echo 'races: not looked for' >&2
echo 'run=ended status=3 runners=1 proved=no' >&2
exit 3
END
chmod +x top/crates/mirror/out/mirror bin/rt
export CALLS=$room/calls BUILD_STATUS=0 PATH=$room/bin:$PATH
cd "caller's folder" || exit 1
mirror=$room/top/mirror
: >"a file"
trial='mirror: this is a trial of the sources, not proved; ./mirror --build proves and builds, in many minutes'

printf '[%s]\n' "$room/caller's folder/a file" missing 5 >../wanted
expect 'a trial before a build' 3 ../wanted "$trial
mirror: cannot read a file" "$mirror" "a file" missing 5
"$mirror" --build >out 2>err
report 'a build of each crate' "$([ $? = 0 ] && [ ! -s out ] && tail -n 1 "$CALLS" | grep -qx 'mirror run -- data/example' &&
    grep -qx 'notify_paths lib' "$CALLS" && grep -q '^mirror: 1 of [0-9]*: [a-z_]*, [0-9]* s$' err && echo yes)"
printf '[%s]\n' "caller's folder" "a file" '' '*' >../wanted
expect 'what was built is run' 7 ../wanted '' "$mirror" "a file" '' '*'
touch -d '1 hour' "$room/top/crates.txt"
printf '[%s]\n' missing >../wanted
expect 'a trial after a change' 3 ../wanted "$trial
mirror: cannot read missing" "$mirror" missing
touch -d '1 hour ago' "$room/top/crates.txt"
rm "$room/top/crates/mirror/out/built"
BUILD_STATUS=1 "$mirror" --build >out 2>err
report 'a build that fails' "$([ $? = 125 ] && [ ! -e "$room/top/crates/mirror/out/built" ] &&
    grep -qx 'mirror: [a-z_]* could not be proved and built' err && echo yes)"

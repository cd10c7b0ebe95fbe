#!/usr/bin/env bash
# A program of another repository, over the crates that scripts/vendor copies: the toolchain's trial runs it.
. "$(dirname "$0")/../checks.sh" || exit 1
expects 6

printf '%s\n' 'vendor: no crate nothing' >wanted
"$top/scripts/vendor" elsewhere nothing >out 2>err
report 'no crate of that name is copied' "$([ $? = 2 ] && [ ! -s out ] && [ ! -e elsewhere ] && cmp -s err wanted && echo yes)"
mkdir -p elsewhere/crates/mine/src elsewhere/crates/notify_paths
"$top/scripts/vendor" elsewhere >out 2>err
report 'a crate that is there already stays' "$([ $? = 2 ] && [ -z "$(ls elsewhere/crates/notify_paths)" ] && echo yes)"
rmdir elsewhere/crates/notify_paths
echo 'mine: notify_debouncer_full anyhow' >elsewhere/crates.txt
cat >elsewhere/crates/mine/src/main.rt <<'END'
#![tactic(auto)]
use anyhow::Result;
use notify_debouncer_full::{DebounceEventResult, PathBuf, RecursiveMode, new_debouncer};
use std::time::Duration;

fn main(rt: HostRuntime) -> Result<()> {
    let handler = |_outcome: DebounceEventResult| {};
    let mut debouncer = new_debouncer(rt, rt.alloc(), Duration::from_millis(200), None, handler)?;
    debouncer.watch(&PathBuf::parse(rt.alloc(), "/")?, RecursiveMode::NonRecursive)?;
    println!(rt; "watched")?;
    debouncer.stop();
    Ok(())
}
END
well=no
for _ in 1 2; do
    "$top/scripts/vendor" elsewhere >out 2>err && grep -qx 'mine: .*' elsewhere/crates.txt &&
        [ "$(ls elsewhere/crates | wc -l)" = "$(($(cut -d ' ' -f 1 out) + 1))" ] && well=yes || well=no
done
report 'crates are copied, and once more' $well
"$top/scripts/vendor" for_c debounce_c >out 2>err
cp for_c/crates.txt listed && tac listed >for_c/crates.txt
printf '%s\n' "vendor: $PWD/for_c/crates.txt: its lines '# Copied by scripts/vendor: begin' and '# Copied by scripts/vendor: end' don't stand once each, in order" >wanted
"$top/scripts/vendor" for_c >out 2>err
report 'a static library is copied, and a list without both marks is refused' "$([ $? = 2 ] && [ ! -s out ] && cmp -s err wanted &&
    [ "$(grep -c '^debounce_c staticlib: ' listed)" = 1 ] && [ -e for_c/crates/debounce_c/src/lib.rt ] &&
    cmp -s <(tac listed) for_c/crates.txt && [ ! -e for_c/crates/notify_debouncer_full ] && echo yes)"
(cd elsewhere/crates/mine && "$toolchain" try) >out 2>err
report 'a program of another repository' "$([ $? = 0 ] && [ "$(cat out)" = watched ] && echo yes)"

# The tutorial's commands for a crate of one's own, up to its trial, run as they stand.
mkdir -p own/crates/example && cp -r "$top/crates/example/src" own/crates/example && echo 'example: anyhow' >own/crates.txt
grep -A 3 '^cd crates && rt new' "$top/docs/TUTORIAL.md" >commands
(cd own && PATH=${toolchain%/*}:$PATH bash -e ../commands) >out 2>err
report "the tutorial's own crate" "$([ $? = 0 ] && [ "$(wc -l <commands)" = 4 ] &&
    [ "$(cd own/crates/mine && find . -type f)" = ./src/main.rt ] &&
    [ "$(tail -n 1 own/crates.txt)" = 'mine: notify_debouncer_full anyhow' ] && echo yes)"

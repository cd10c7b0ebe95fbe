#!/usr/bin/env bash
# scripts/trial, in a repository with one small program, which is kept and run: from any folder, in a pipe, with its status.
. "$(dirname "$0")/../checks.sh" || exit 1
expects 6

mkdir trial && cd trial || exit 1
here=$PWD
mkdir -p small/crates/tiny/src small/crates/wrong/src kept
printf 'tiny:\nwrong:\n' >small/crates.txt
echo 'fn main() { nothing }' >small/crates/wrong/src/main.rt
cat >small/crates/tiny/src/main.rt <<'END'
#![tactic(auto)]
use std::process::ExitCode;

fn main(rt: HostRuntime) -> ExitCode {
    for line in rt.lines(rt.alloc()) {
        if let Ok(line) = line {
            let _ = println!(rt; "{}", line.as_str());
        }
    }
    ExitCode::from(7)
}
END
# try WORD..: calls it in that repository.
try() {
    (cd small && PATH=${toolchain%/*}:$PATH "$top/scripts/trial" "$@") >out 2>err
}

try tiny ../kept/program
report 'a trial is kept' "$([ $? = 0 ] && [ ! -s out ] && [ "$(ls kept)" = $'program\nprogram.program' ] && echo yes)"
echo 'program: a trial build, nothing is proved' >said
ln -s "$here/kept/program" kept/link
printf '%s\n' one two >wanted
(cd / && "$here/kept/program" <"$here/wanted"; echo $? >"$here/status") 2>err | cat >out
report 'a trial in a pipe' "$([ "$(cat status)" = 7 ] && cmp -s out wanted && cmp -s err said && echo yes)"
(cd kept && PATH=$here/kept:$PATH link <../wanted; echo $? >../status) >out 2>err
report 'a trial by a link' "$([ "$(cat status)" = 7 ] && cmp -s out wanted && [ "$(cat err)" = "link: a trial build, nothing is proved" ] && echo yes)"
# A signal reaches the program itself: no other process is left.
mkfifo input
kept/program <input >out 2>err &
running=$!
exec 3>input
for _ in $(seq 600); do ! cmp -s err said || break; sleep 0.1; done
sleep 0.5
kill $running
wait $running
report 'a trial that is ended by a signal' "$([ $? = 143 ] && ! kill -0 $running 2>/dev/null && ! pgrep -f "$here/kept/program.program" >/dev/null && echo yes)"
exec 3>&-

try --plain tiny ../kept/plain
kept/plain <wanted >out 2>err
report 'a plain trial' "$([ $? = 7 ] && cmp -s out wanted && [ "$(cat err)" = 'plain: a trial build, nothing is proved' ] && echo yes)"

# refuses STATUS COMPLAINT WORD..: nothing is kept.
refuses() {
    try "${@:3}"
    [ $? = "$1" ] && [ ! -s out ] && [ ! -e kept/none ] && grep -qF -- "$2" err
}
well=no
refuses 2 'trial: usage: scripts/trial [--plain] CRATE OUT' tiny && refuses 2 'trial: nothing is no program' nothing ../kept/none &&
    refuses 2 "trial: ../kept can't be a file" tiny ../kept && refuses 1 nothing wrong ../kept/none && well=yes
report 'trials that are refused' $well

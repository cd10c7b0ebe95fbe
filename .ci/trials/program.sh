#!/usr/bin/env bash
# program.sh CRATE: makes a trial of this program, as fast as a proved one, for the checks that wait for it
# (.ci/checks.sh).
. "$(dirname "$0")/../checks.sh" || exit 1
expects 1

made() {
    "$top/scripts/trial" --plain "$1" made && mv made.program "$NDF_PROGRAMS/$1"
}
check "a trial of $1" made "$1"
[ -e "$NDF_PROGRAMS/$1" ] || : >"$NDF_PROGRAMS/$1.refused"

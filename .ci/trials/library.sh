#!/usr/bin/env bash
# library.sh: makes a trial of the C library, for the checks that wait for it.
. "$(dirname "$0")/../checks.sh" || exit 1
expects 1

made() {
    "$top/scripts/c_library" --trial made && mv made "$NDF_LIBRARY"
}
check 'a trial of the C library' made
[ -e "$NDF_LIBRARY" ] || : >"$NDF_LIBRARY.refused"

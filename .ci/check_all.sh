#!/usr/bin/env bash
# check_all.sh --proved|--trials: all checks that are no proof: of the programs, of the C library and its users, and of
# the pages. With --proved they run the programs that the gate left in crates/*/out, and trials of those crates that it
# doesn't prove; with --trials nothing need be there: all are trials, which the toolchain compiles without a proof, worked
# cases and the C library too. As many scripts run side by side as there are processors, the longest first.
# The last lines are 'K not run: NAMES', or '0 not run', and 'N passed, M failed'.
. "$(dirname "$0")/checks.sh" || exit 1
cd "$top" || exit 1
# Users without rights run the programs too.
mkdir -m 711 "$room/programs"
export NDF_PROGRAMS=$room/programs

proved=(mirror example change_journal build_trigger config_reloader folder_mirror document_index worked_cases)
made=(bench scenes)
tested=(test_run test_polling test_programs)
case $1 in
--proved)
    for name in "${proved[@]}"; do ln -s "$top/crates/$name/out/$name" "$NDF_PROGRAMS"; done
    library=() printed=("${made[@]}")
    ;;
--trials)
    export NDF_LIBRARY=$NDF_PROGRAMS/library
    made+=("${proved[@]}")
    library=(.ci/trials/library.sh) printed=("${made[@]}")
    ;;
*) echo 'usage: .ci/check_all.sh --proved|--trials' >&2 && trap - EXIT && rm -r "$room" && exit 2 ;;
esac

scripts=("${made[@]/#/.ci/trials/program.sh }" "${library[@]}" "${tested[@]/#/.ci/trials/tests.sh }" .ci/examples/keeper.sh
    .ci/examples/vendor.sh .ci/check_c.sh .ci/examples/folder_mirror.sh .ci/examples/hints.sh .ci/examples/churn.sh
    .ci/programs/roots.sh .ci/programs/paths.sh .ci/examples/words.sh "${printed[@]/#/.ci/trials/output.sh }")
mapfile -t short < <(printf '%s\n' .ci/programs/*.sh .ci/examples/*.sh .ci/check_documents.sh | grep -vxF "$(printf '%s\n' "${scripts[@]}")")
side_by_side 1500 "${scripts[@]}" "${short[@]}"
expects $((passed + failed + left_out))

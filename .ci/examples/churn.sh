#!/usr/bin/env bash
# Copy and answers after a folder has changed for some seconds; scripts/churn.py alone does it 50 times.
. "$(dirname "$0")/../checks.sh" || exit 1
expects 1

if ! has python3 || ! has_user; then
    not_run 1 'no python3, or no setpriv' 'folder_mirror, document_index: right after three churns'
    exit
fi
well=no
"$top/scripts/churn.py" --times 3 --mirror "$(program folder_mirror)" --index "$(program document_index)" >churned 2>&1 && well=yes ||
    cat churned
report 'folder_mirror, document_index: right after three churns' $well

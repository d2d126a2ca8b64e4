#!/usr/bin/env bash
# Holds the page of each module of examples/ against tidy (Debian's package `tidy`), which must find no error in it. A
# warning, as of a page without a title, is none.
#
# usage: tests/tidy.sh [PROGRAM]     with no program, that of this repository, built first where that is needed
#
# The last line is `N pages without errors, M not`; the status is 0 where M is 0.
set -u
program=$(readlink -f "${1:-$(dirname "$(readlink -f "${BASH_SOURCE[0]}")")/../urweb}")
cd "$(dirname "$(readlink -f "${BASH_SOURCE[0]}")")/.." || exit 1
command -v tidy >/dev/null || { echo "the command tidy isn't on the PATH"; exit 1; }
page=$(mktemp)
trap 'rm -f "$page"' EXIT
passed=0
failed=0

# tidy's status is 1 where it only warns, and 2 where there are errors.
is_without_errors() {
    "$program" page < "$1" > "$page" || return 1
    tidy -quiet -errors --show-warnings no "$page"
    [ $? -lt 2 ]
}

for it in examples/*.ur; do
    if is_without_errors "$it"; then
        passed=$(( passed + 1 ))
    else
        failed=$(( failed + 1 ))
        echo "$it: no page, or one with errors"
    fi
done
echo "$passed pages without errors, $failed not"
[ "$failed" = 0 ]

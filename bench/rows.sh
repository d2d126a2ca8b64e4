#!/usr/bin/env bash
# Normal forms of rows of 10 to 10,000 fields, put together from halves in either order, and of a map over them: units
# and microseconds each. Then kinds of such rows, and scopes of 1,000 names and of 100 binders with guards:
# microseconds each. Run by hand; it has row_bench built first where that isn't current.
set -eu
here=$(dirname "$(readlink -f "${BASH_SOURCE[0]}")")
exec "$(python3 "$here/build.py" row_bench)"

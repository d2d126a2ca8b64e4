#!/usr/bin/env bash
# Time, throughput and memory of parsing behind lexing: 1, 2 and 4 MiB of ordinary source, and 4 MiB each of one sum, one
# application, one list of declarations and one run of sibling elements. Run by hand; it has parse_bench built first where
# that isn't current.
set -eu
here=$(dirname "$(readlink -f "${BASH_SOURCE[0]}")")
exec python3 "$here/parse.py" "$(python3 "$here/build.py" parse_bench)"

#!/usr/bin/env bash
# Time, throughput and peak memory of lexing 1, 2 and 4 MiB of ordinary source, beside those of cat and of Python's
# html.escape over the same text. Run by hand; it has lex_bench built first where that isn't current.
set -eu
here=$(dirname "$(readlink -f "${BASH_SOURCE[0]}")")
exec python3 "$here/lex.py" "$(python3 "$here/build.py" lex_bench)"

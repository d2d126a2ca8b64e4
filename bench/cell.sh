#!/usr/bin/env bash
# Commits a second by the cell beside the same under a mutex, in one run: for one, two and four threads, for turns of no
# work and of 10 microseconds of work. The middle of many trials counts; run it on a machine with four idle
# processors. The last two columns are what a commit costs its thread beyond its work, in nanoseconds: taking the turn,
# giving it back, and waiting for the others.
set -eu
here=$(dirname "$(readlink -f "${BASH_SOURCE[0]}")")
exec "$(python3 "$here/build.py" cell_bench)" full

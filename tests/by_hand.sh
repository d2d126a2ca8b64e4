#!/usr/bin/env bash
# Tries the wrong bodies of crates whose proofs are dear, or that have stood unchanged for long: those in
# crates/NAME/must-fail-by-hand, which ./test leaves out, since the crate is proved once more for them.
#
# usage: tests/by_hand.sh [NAME..]     with no name, all of them: several hours of a processor, and more where the
# libraries below aren't built
#
# It works on a copy, and leaves nothing behind. The status is that of `rt must-fail`.
set -eu
cd "$(dirname "$(readlink -f "${BASH_SOURCE[0]}")")/.."
names=("$@")
if [ ${#names[@]} = 0 ]; then
    for it in crates/*/must-fail-by-hand; do
        it=${it%/must-fail-by-hand}
        names+=("${it#crates/}")
    done
fi
room=$(mktemp -d)
trap 'rm -rf "$room"' EXIT
git ls-files -z -co --exclude-standard | xargs -0 cp --parents -t "$room"
cd "$room"
git init -q .
for name in "${names[@]}"; do
    rm -rf "crates/$name/must-fail"
    mv "crates/$name/must-fail-by-hand" "crates/$name/must-fail"
done
rt must-fail "${names[@]}"

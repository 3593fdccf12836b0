#!/usr/bin/env bash
# Runs the program `lowest` on every recorded list of lines, each with a new program, and compares with the Rust's sessions (tests/lowest; tests/make/lowest_answers.sh made them).
set -eu
root=$(dirname "$(dirname "$(readlink -f "$0")")")
program=$root/crates/lowest/out/lowest
if [ ! -x "$program" ]; then (cd "$root/crates/lowest" && rt run <stdin >/dev/null 2>&1); fi
lists=0
failed=0
for list in "$root"/oracle/recorded/frames/*.in "$root"/tests/frames/*.in; do
    lists=$((lists + 1))
    if ! "$program" <"$list" | cmp - "$root/tests/lowest/$(basename "${list%.in}").out"; then
        echo "lowest: $(basename "$list") is told otherwise" >&2
        failed=$((failed + 1))
    fi
done
echo "lowest: $lists recorded lists, $failed told otherwise"
[ "$failed" -eq 0 ]

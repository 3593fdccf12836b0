#!/usr/bin/env bash
# Runs bin/frames on every recorded list of lines, each with a new program, and compares with what the Rust answered; tests/make/frames_answers.py made those in tests/frames.
set -eu
root=$(dirname "$(dirname "$(readlink -f "$0")")")
lists=0
failed=0
for list in "$root"/oracle/recorded/frames/*.in "$root"/tests/frames/*.in; do
    lists=$((lists + 1))
    if ! "$root/bin/frames" <"$list" | cmp - "${list%.in}.out"; then
        echo "frames: $(basename "$list") is answered otherwise" >&2
        failed=$((failed + 1))
    fi
done
echo "frames: $lists recorded lists, $failed answered otherwise"
[ "$failed" -eq 0 ]

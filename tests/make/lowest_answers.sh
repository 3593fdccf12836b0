#!/usr/bin/env bash
# Writes what the program `lowest` must print for each recorded list of lines, from the Rust's sessions (oracle/rust-lowest-program): tests/lowest/NAME.out.
set -eu
root=$(dirname "$(dirname "$(dirname "$(readlink -f "$0")")")")
mkdir -p "$root/tests/lowest"
for list in "$root"/oracle/recorded/frames/*.in "$root"/tests/frames/*.in; do
    "$root/oracle/rust-lowest-program" <"$list" >"$root/tests/lowest/$(basename "${list%.in}").out"
done
"$root/oracle/rust-lowest-program" <"$root/crates/lowest/stdin" >"$root/crates/lowest/stdout"

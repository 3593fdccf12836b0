#!/usr/bin/env bash
# Lends every value of each flag byte to each call, from C (flags.c): lists of frames that bind handles, hold changes back and leave commits pending, in both
# versions.
set -eu
cd "$(dirname "$(readlink -f "$0")")/.."
library=$(oracle/library replica)
cc -std=c11 -Wall -Wextra -Werror -O2 tests/flags.c "$library" -o target/flags
for list in commits versions; do target/flags <tests/frames/$list.in; done

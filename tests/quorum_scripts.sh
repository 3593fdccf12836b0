#!/usr/bin/env bash
# Each recorded script of an active with up to five standbys, given to a driver (oracle/our-quorum if none is named): what it writes must be
# what was recorded from the second reading.
set -eu
cd "$(dirname "$(readlink -f "$0")")/.."
driver=${1:-oracle/our-quorum}
for script in oracle/recorded/quorum/*.in; do
    "$driver" <"$script" | cmp - "${script%.in}.out"
done
echo "quorum_scripts.sh: $(ls oracle/recorded/quorum/*.in | wc -l) scripts"

#!/usr/bin/env bash
# Records tests/quickfix anew: the FileStore of a real initiator (Debian's libquickfix-dev), with numbers skipped.
# QuickFIX writes the sent messages end to end (.body), the number, offset and length of each (.header), and the next
# numbers (.seqnums). Stamps differ from run to run.
set -eu
cd "$(dirname "$(readlink -f "$0")")/../.."
work=$(mktemp -d)
trap 'rm -rf "$work"' EXIT
g++ -std=c++14 -w -o "$work/log" tests/make/quickfix_log.cpp -lquickfix -lpthread
"$work/log" "$work"
for kind in body header seqnums; do
    cp "$work/broker/FIX.4.4-BROKER-VENUE.$kind" "tests/quickfix/broker.$kind"
done

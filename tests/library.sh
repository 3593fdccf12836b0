#!/usr/bin/env bash
# The library as a product: the header in three modes of C and C++, and recorded for its version; its records, numbers and functions against the crates' text and the archive (library.py); the archive's
# code against what the kit built; a program with functions of its own that have the crates' bare names, which calls every function (library.c); and the example host on a
# recorded list, built as a user builds it.
set -eu
cd "$(dirname "$(readlink -f "$0")")/.."
mkdir -p target/log
bin/library target/installed >/dev/null 2>target/log/library.out || { cat target/log/library.out >&2; exit 1; }
place=$(mktemp -d)
trap 'rm -rf "$place"' EXIT
warnings=(-Wall -Wextra -Werror)
failed=0

# holds WORDS COMMAND..: the command must succeed.
holds() {
    local words=$1
    shift
    if ! "$@"; then
        echo "library: not so: $words" >&2
        failed=$((failed + 1))
    fi
}

echo '#include <wizhdulet.h>' >"$place/include.c"
holds "the header is C99" cc -std=c99 "${warnings[@]}" -fsyntax-only -Iinclude "$place/include.c"
holds "the header is C11" cc -std=c11 "${warnings[@]}" -fsyntax-only -Iinclude "$place/include.c"
holds "the header is C++17" c++ -std=c++17 "${warnings[@]}" -fsyntax-only -Iinclude -x c++ "$place/include.c"

holds "the version is raised with the header" tests/library.py version
tests/library.py declarations >"$place/declarations.c"
holds "the header has the crates' records, numbers and signatures" cc -std=c11 "${warnings[@]}" -fsyntax-only -Iinclude "$place/declarations.c"
archive=target/installed/lib/libwizhdulet.a
tests/library.py names >"$place/names"
holds "the header has every exported function and no other" diff "$place/names" <(tests/library.py header)
nm -g --defined-only --format=posix "$archive" | awk 'NF > 1 { print $1 }' | LC_ALL=C sort >"$place/defined"
holds "the archive has these functions and no other name" diff "$place/names" "$place/defined"
nm -u --format=posix "$archive" | awk 'NF > 1 { print $1 }' | sort -u >"$place/needed"
holds "the archive needs nothing but memcpy and memset of C" [ -z "$(grep -vxE 'memcpy|memset' "$place/needed")" ]

# Code, data and relocations of each object are the kit's, byte for byte, but for the names.
contents() {
    objdump -s -r "$1" | sed -E '1,3d; s/\b(wz_(standby_)?)?([a-z_]+)([-+]0x[0-9a-f]+)?$/\3\4/' |
        awk '/^(Contents of section|RELOCATION RECORDS FOR)/ { left_out = /llvm_addrsig/ } !left_out'
}
for object in $(ar t "$archive"); do
    ar p "$archive" "$object" >"$place/shipped.o"
    ar p "target/staticlib/lib${object%.o}.a" >"$place/built.o"
    holds "$object is what the kit built" cmp <(contents "$place/built.o") <(contents "$place/shipped.o")
    holds "$object has code" [ "$(contents "$place/shipped.o" | grep -c '^Contents of section .text')" -gt 0 ]
done

cc -std=c11 "${warnings[@]}" -O2 -Itarget/installed/include tests/library.c "$archive" -o "$place/library"
holds "every function does from C what its words say" "$place/library"
cc -std=c11 "${warnings[@]}" -O2 -Itarget/installed/include tests/stored.c "$archive" -o "$place/stored"
holds "what is stored is found and told by its key and number" "$place/stored" 20000
cc -std=c11 "${warnings[@]}" -O2 -Itarget/installed/include tests/screen.c "$archive" -o "$place/screen"
mapfile -t refusals < <(sed -n 's/^| \([0-9][0-9]*\) |.*/\1/p' docs/REFUSALS.md)
holds "a screen shows what the second reading of the layout has" "$place/screen" 100000 "${refusals[@]}"

# The example, by pkg-config where it is there, or by hand.
flags="-Itarget/installed/include -Ltarget/installed/lib -lwizhdulet"
if command -v pkg-config >/dev/null; then
    flags=$(PKG_CONFIG_PATH=target/installed/lib/pkgconfig pkg-config --cflags --libs wizhdulet)
    holds "pkg-config has VERSION" [ "$(PKG_CONFIG_PATH=target/installed/lib/pkgconfig pkg-config --modversion wizhdulet)" = "$(cat VERSION)" ]
fi
# shellcheck disable=SC2086
cc -std=c99 "${warnings[@]}" -O2 examples/standby.c $flags -o "$place/standby"
list=oracle/recorded/frames/09-life
# shellcheck disable=SC2059
printf "$(tr -d '\n' <$list.in | sed 's/../\\x&/g')" >"$place/stream"
"$place/standby" <"$place/stream" >"$place/out"
holds "the example writes what is recorded" diff examples/standby.out "$place/out"
# What it answers is what the Rust answered, line by line.
holds "its answers are the recorded ones" diff <(sed -n 's/^[A-Z][a-z]*: [A-Z][a-z]* //p; s/^[A-Z][a-z]*: refused, \([0-9]*\).*/R \1/p' "$place/out") "$list.out"

# Both versions: the list's lines that aren't refused, which change nothing but the durable mark.
versions=oracle/recorded/frames/11-versions
paste -d' ' $versions.in $versions.out | grep -v ' R ' >"$place/taken"
# shellcheck disable=SC2059
printf "$(cut -d' ' -f1 "$place/taken" | tr -d '\n' | sed 's/../\\x&/g')" >"$place/both"
"$place/standby" <"$place/both" >"$place/out-both"
holds "its answers in both versions are the recorded ones" diff <(sed -n 's/^[A-Z][a-z]*: [A-Z][a-z]* //p' "$place/out-both") <(cut -d' ' -f2 "$place/taken")
holds "it shows a stamp of six digits" grep -q "since 20261115-12:00:00.123456," "$place/out-both"

# The same host in Rust.
if command -v rustc >/dev/null; then
    holds "the example in Rust compiles without a warning" rustc -O --edition 2024 -D warnings examples/standby.rs -L target/installed/lib -o "$place/standby-rust"
    "$place/standby-rust" <"$place/stream" >"$place/out"
    holds "it writes the same" diff examples/standby.out "$place/out"
    "$place/standby-rust" <"$place/both" >"$place/out"
    holds "it writes the same in both versions" diff "$place/out-both" "$place/out"
fi

echo "library: $(wc -l <"$place/names") functions in the header and the archive, $failed tests failed"
[ "$failed" -eq 0 ]

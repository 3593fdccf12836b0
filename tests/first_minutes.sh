#!/usr/bin/env bash
# What a newcomer meets: each message of bin/frames and bin/library and its exit status, what README shows, and a release that is made, unpacked and used. Commands run in a
# copy without target/ and out/ and with a PATH of their own, where a stand-in for `rt` says what the kit says and puts what is proved in place of building it for minutes.
set -eu
root=$(dirname "$(dirname "$(readlink -f "$0")")")
place=$(mktemp -d)
trap 'rm -rf "$place"' EXIT
"$root/bin/frames" </dev/null
program=$root/crates/frames/out/frames
"$root/bin/library" >/dev/null 2>"$place/err" || { cat "$place/err" >&2; exit 1; }
chmod 755 "$place"
copy=$place/copy
tests=0
failed=0

# holds WORDS COMMAND..: the command must succeed.
holds() {
    local words=$1
    shift
    tests=$((tests + 1))
    if ! "$@"; then
        echo "first_minutes: not so: $words" >&2
        sed 's/^/    /' "$place/err" >&2
        failed=$((failed + 1))
    fi
}

# run STATUS COMMAND..: runs it in the copy, with what it prints in out and err; the status must be that.
run() {
    local want=$1 got=0
    shift
    (cd "$copy" && PATH=$path timeout 300 "$@") >"$place/out" 2>"$place/err" || got=$?
    holds "$* ends with $want, not $got" [ "$got" -eq "$want" ]
}

said() { holds "it says '$1' and nothing else" [ "$(cat "$place/err")" = "$1" ]; }
example() { holds "the example's answer comes" cmp -s "$place/out" "$root/oracle/recorded/frames/01-document.out"; }
list=oracle/recorded/frames/01-document.in

# The copy: what git has, without target/ and out/.
mkdir "$copy"
(cd "$root" && tar -cf - --exclude=./target --exclude=./oracle/target --exclude=./crates/*/out --exclude=./.git .) | tar --no-same-owner -xf - -C "$copy"

# The stand-in kit: as many lines a crate as the kit's, and no proof.
mkdir "$place/kit"
cat >"$place/kit/rt" <<'RT'
#!/usr/bin/env bash
crate=${PWD##*/}
case $1 in
run)
    echo "rt $* in $crate" >>"$STAND_IN/calls"
    names=$crate more=
    while [ "$names" != "$more" ]; do
        more=$names
        names=$(for name in $names; do echo "$name"; sed -n "s/^$name://p" ../../crates.txt | tr ' ' '\n'; done | grep . | sort -u)
    done
    for name in $names; do
        grep -q "^$name:" ../../crates.txt || continue
        echo "library base_laws: modules loaded=347 checked=0" >&2
        echo "crate $name: modules loaded=0 checked=60"
        echo "logic=proved functions=7 native=nat,char,string logic-built=trusted" >&2
        echo "$name" >>"$STAND_IN/names"
    done
    [ ! -e "$STAND_IN/refuse" ] || { echo "logic=not-proved"; exit 1; }
    mkdir -p out
    cp "$STAND_IN/program" "out/$crate"
    ;;
lib)
    [ ! -e "$STAND_IN/refuse" ] || { echo "rt: the library $crate did not build"; exit 1; }
    mkdir -p out
    cp "$STAND_IN/staticlib/lib${crate%_c}.a" "out/lib$crate.a"
    ;;
esac
RT
chmod +x "$place/kit/rt"
export STAND_IN=$place
cp "$program" "$place/program"
cp -R "$root/target/staticlib" "$place/staticlib"
tools=$place/tools
mkdir "$tools"
for tool in ar awk bash cat chmod cmp cp cut dd dirname env find git grep gzip head mkdir mktemp nm readlink rm script sed setpriv sh sha256sum sort tail tar tee timeout touch tr uname uniq wc xargs yes; do
    ln -s "$(command -v "$tool")" "$tools/$tool"
done
path=$tools

# An argument.
run 2 bin/frames --help
said "frames: no arguments; frames are read from standard input"
run 2 bin/frames "$list"
said "frames: no arguments; frames are read from standard input"

# No kit.
run 1 bin/frames
said "frames: not built, and the Rattle kit (rt) isn't on the PATH: see README"
holds "nothing is written without the kit" [ ! -e "$copy/target" ]

run 1 bin/library
said "library: the Rattle kit (rt) isn't on the PATH: see README"
run 2 bin/library a b
said "library: one argument at most: the folder to install in"
path=$place/kit:$tools
run 1 bin/library
said "library: objcopy (binutils) isn't on the PATH"
ln -s "$(command -v objcopy)" "$tools/objcopy"
holds "nothing is written then" [ ! -e "$copy/target" ]

# A folder that can't be written, by its rights and by a file in the way.
as=()
[ "$(id -u)" -ne 0 ] || as=(setpriv --reuid=65534 --regid=65534 --clear-groups)
chmod -R a+rX "$place"
chmod a-w "$copy"
run 1 "${as[@]}" bin/frames
said "frames: not built, and $copy can't be written: build it as a user who may, or in a copy"
run 1 "${as[@]}" bin/library
said "library: $copy can't be written: build it as a user who may, or in a copy"
chmod u+w "$copy"
: >"$copy/target"
run 1 bin/frames
said "frames: not built, and $copy can't be written: build it as a user who may, or in a copy"
rm "$copy/target"
holds "rt isn't called where nothing can be written" [ ! -e "$place/calls" ]

# A build that is refused.
: >"$place/refuse"
run 1 bin/frames
holds "a refused build says where the kit's words are" [ "$(tail -n 1 "$place/err")" = "frames: the kit could not prove and build it: target/log/bin-frames.out has what it said" ]
holds "nothing is answered then" [ ! -s "$place/out" ]
run 1 bin/library
holds "a refused archive says where the kit's words are" [ "$(tail -n 1 "$place/err")" = "library: the kit could not prove and build it: target/log/staticlib-c_books.out has what it said" ]
holds "the kit's words are there" grep -qx "rt: the library c_books did not build" "$copy/target/log/staticlib-c_books.out"
rm -r "$place/refuse" "$place/names" "$copy/target"

# The first build, through a symbolic link from another folder.
ln -s "$copy/bin/frames" "$place/answers"
run 0 bash -c "cd / && exec '$place/answers' <'$copy/$list'"
example
all=$(wc -l <"$place/names")
holds "the build is announced and counted, a line a crate" diff - "$place/err" <<SAID
frames: proving and building $all crates first, some 10 to 20 minutes; this happens once
$(awk -v all="$all" '{ print NR " of " all " " $0 }' "$place/names")
SAID
holds "the kit's words are in target/log" grep -q "modules loaded=347" "$copy/target/log/bin-frames.out"
holds "both of its streams are" grep -q "logic=proved" "$copy/target/log/bin-frames.out"

# Built: nothing is said, with no kit and in a folder that can't be written too.
path=$tools
run 0 bash -c "bin/frames <$list"
example
said ""
chmod a-w "$copy"
run 0 "${as[@]}" bash -c "bin/frames <$list"
example
chmod u+w "$copy"

# A file of the crates is newer.
touch -d '+1 minute' "$copy/crates/frames/src/main.rt"
run 1 bin/frames
said "frames: older than a file of the crates, and the Rattle kit (rt) isn't on the PATH: see README"
touch "$copy/crates/frames/src/main.rt" "$copy/crates/frames/out/frames"
touch -d '-1 minute' "$copy/crates/frames/out/frames"
path=$place/kit:$tools
run 0 bash -c "bin/frames <$list"
example
holds "a second build is announced as one" [ "$(head -n 1 "$place/err")" = "frames: older than a file of the crates: proving and building again what has changed of $all crates" ]
path=$tools

# A terminal.
run 0 script -qec "bin/frames" /dev/null <<<"zz"
holds "a terminal is told what is awaited and how it cuts" grep -q "frames: awaiting frames, a line of lower-case hexadecimal digits each; Ctrl-D ends. A terminal cuts lines at 4,095 characters" "$place/out"
holds "and then answered" grep -q "^R 26" "$place/out"
run 0 bash -c "bin/frames <$list"
said ""

# Failing reads and writes: said once, with a status of their own; the last line lacks its line feed in the second list.
for input in "$list" oracle/recorded/frames/02-no-final-line-feed.in tests/frames/commits.in; do
    run 4 bash -c "bin/frames <$input >/dev/full"
    said "frames: standard output: No space left on device"
done
run 4 bash -c "cat $list $list - <<<12 | bin/frames >/dev/full"
said "frames: standard output: No space left on device"
run 4 bash -c "bin/frames <$list >&-"
said "frames: standard output: Bad file descriptor"
run 3 bash -c "bin/frames </"
said "frames: standard input: Is a directory"
run 3 bash -c "bin/frames <&-"
said "frames: standard input: Bad file descriptor"
run 4 bash -c "crates/frames/out/frames <$list >/dev/full"
said "frames: standard output: No space left on device"
run 141 bash -c "set -o pipefail; yes 00 | head -n 400000 | bin/frames | head -n 1 >/dev/null"

# The answers to one read come in one write: one read of the pipe has them all.
run 0 bash -c "bin/frames <tests/frames/commits.in | dd bs=1M count=1 status=none"
holds "one write for one read" cmp -s "$place/out" "$root/tests/frames/commits.out"

# README shows the screen that comes, and how many crates are counted.
holds "README counts $all crates" grep -q "^(\`12 of $all " "$root/README.md"
sed -n '/^    \$ bin\/frames <oracle/,/^$/p' "$root/README.md" | sed -n 's/^    //; /^[0-9R]/p' >"$place/out"
example

sed -n '/^    \$ cd crates\/frames && rt try/,/^$/p' "$root/README.md" | sed -n '2,$s/^    //p' >"$place/out"
holds "README shows what the quick look prints" diff "$place/out" <(cd "$root/crates/frames" && { rt try <stdin | cmp - stdout; } 2>&1)

# A release: refused without a gate that fits, made, unpacked and run without the kit.
git -C "$copy" init -q
git -C "$copy" add -A
git -C "$copy" -c user.name=test -c user.email=test commit -q -m test
name=wizhdulet-$(cat "$root/VERSION")-x86_64-linux
path=$place/kit:$tools
run 1 bin/release
said "release: no file of the gate (target/gate.txt): run .ci/run first"
commit=$(git -C "$copy" rev-parse HEAD)
printf '99 passed, 1 failed\ncommit %s\n' "$commit" >"$place/gate"
run 1 bin/release "$place/gate"
said "release: the gate's last line is: 99 passed, 1 failed"
printf '99 passed, 0 failed\ncommit 0\n' >"$place/gate"
run 1 bin/release "$place/gate"
said "release: the gate has seen commit 0, and this is commit $commit"
printf '99 passed, 0 failed\ncommit %s\n' "$commit" >"$copy/target/gate.txt"
echo >>"$copy/README.md"
run 1 bin/release
said "release: the folder has changes since commit $commit"
git -C "$copy" checkout -q README.md
run 0 bin/release
holds "it names the archive" [ "$(cat "$place/out")" = "target/release/$name.tar.gz" ]
holds "it says which archives it joins" grep -q "^library: [0-9]* of [0-9]* replica$" "$place/err"
holds "it says that it has no program where there is no rustc" grep -q "^release: rustc isn't on the PATH: without the program wizhdulet$" "$place/err"
cp "$copy/target/release/$name.tar.gz" "$place/first.tar.gz"
run 0 bin/release
holds "a second one has the same bytes" cmp -s "$place/first.tar.gz" "$copy/target/release/$name.tar.gz"
# With rustc it has the standby and the console too.
with_program=
if command -v rustc >/dev/null && command -v cc >/dev/null; then
    with_program=yes
    path=$place/kit:$PATH
    run 0 bin/release
    cp "$copy/target/release/$name.tar.gz" "$place/first.tar.gz"
    run 0 bin/release
    holds "a second one with the program has the same bytes" cmp -s "$place/first.tar.gz" "$copy/target/release/$name.tar.gz"
fi
path=$tools
copy=$place/installed
mkdir "$copy"
tar -xzf "$place/first.tar.gz" -C "$copy"
copy=$copy/$name
for file in bin/frames libexec/frames lib/libwizhdulet.a lib/pkgconfig/wizhdulet.pc include/wizhdulet.h examples/standby.c share/doc/wizhdulet/NOTICE NOTICE README.md \
    docs/PROTOCOL.md docs/REFUSALS.md docs/RELEASE.md docs/LIBRARY.md VERSION; do
    holds "the release has $file" [ -s "$copy/$file" ]
done
holds "the release has the gate's last line" [ "$(head -n 1 "$copy/GATE")" = "99 passed, 0 failed" ]
run 0 sha256sum --quiet -c SHA256SUMS
holds "the sums are of all files" [ "$(wc -l <"$copy/SHA256SUMS")" -eq "$(find "$copy" -type f ! -name SHA256SUMS | wc -l)" ]
run 0 env -i PATH=$tools bash -c "bin/frames <$list"
example
run 4 bash -c "bin/frames <$list >/dev/full"
if [ -n "$with_program" ]; then
    run 1 env -i PATH=$tools bin/wizhdulet show tests/console/cut.cap
    sed -n '/^    \$ bin\/wizhdulet show/,/^The active/p' "$copy/README.md" | sed '1d;$d' | sed 's/^    //' | sed -n '/standby  *epoch/,/not shown/p' >"$place/readme"
    holds "the release's program shows README's screen" diff <(sed -n '/standby  *epoch/,/not shown/p' "$place/out") "$place/readme"
    run 0 bin/wizhdulet version
    holds "it has the release's version" [ "$(cat "$place/out")" = "wizhdulet $(cat "$root/VERSION")" ]
fi
if command -v cc >/dev/null; then
    cd "$copy"
    holds "the example compiles against the release" cc -std=c99 -Wall -Wextra -Werror examples/standby.c -Iinclude -Llib -lwizhdulet -o "$place/standby"
    # shellcheck disable=SC2059
    printf "$(tr -d '\n' <oracle/recorded/frames/09-life.in | sed 's/../\\x&/g')" >"$place/stream"
    "$place/standby" <"$place/stream" >"$place/out"
    holds "the example answers as recorded" cmp -s "$place/out" examples/standby.out
fi

echo "first_minutes: $tests tests, $failed failed"
[ "$failed" -eq 0 ]

#!/usr/bin/env python3
"""Writes stdin and stdout of crates/vectors_copy: whole sendings over a link that damages, repeats and drops frames, and the Rust's answers.

A's frames are those of a sending in the Rust (oracle/rust-calls, which needs rustc and the Rust's text), filled by the script's changes; each
frame goes, as the way leaves it, to the Rust's standby, whose answer and session are taken as they come. That the session is A or B after
every frame, and which of the two a run must end with, is asserted here.
"""
from collections.abc import Sequence

import wire
from wire import BATCH_LIMIT, BRANCH_LIMIT, bind, hello, joined, key, message, record, record_none, run, rust_calls, set_created_at, set_marks, set_next_incoming_in_flight, write

EPOCH = 5
KEY = (b"FIX.4.4", b"A", b"B", b"")
HELLO = hello(epoch=EPOCH).hex()
BIND, OTHER = (bind(key(*KEY), handle, EPOCH, 0).hex() for handle in (3, 4))

# a store's places, and the bytes and messages that it keeps of a session
Shape = tuple[int, int, int]


def commit(changes: Sequence[bytes]) -> str:
    """The first Commit on handle 3."""
    return wire.batch(run(changes), handle=3, epoch=EPOCH, commit_no=1).hex()


def changes(lines: Sequence[str]) -> list[bytes]:
    """The changes of a session in frame form."""
    out: list[bytes] = []
    seq = 1
    for line in lines:
        letter, text = line[0], line[2:].encode()
        numbers = [int(word) for word in line[2:].split(" ")] if letter in "lgb" else []
        if letter == "m" or letter == "l":
            out.append(record(seq, text if letter == "m" else message(seq, numbers[0])))
            seq += 1
        elif letter == "g":
            out.append(record_none(numbers[0]))
            seq = numbers[0] + 1
        elif letter == "b":
            out.append(set_next_incoming_in_flight(*numbers))
        elif letter == "t":
            out.append(set_created_at(text))
        elif letter == "k":
            out.append(set_marks(text))
    return out


def session(line: str) -> str:
    """A session's six parts in a line of the state."""
    assert line.startswith("session "), line
    return line.split(" durable=")[0].split(" stamp=")[1]


def answer(line: str) -> str:
    """An answer's kind, refusal and reason."""
    if line.startswith("R "):
        return f"0/{line[2:]}/0"
    data = bytes.fromhex(line)
    return f"{data[4]}/0/{data[9] if data[4] == 6 else 0}"


script: list[str] = []
wanted: list[str] = []


def go(shape: Shape, a: Sequence[str], b: Sequence[str], way: Sequence[str], end: str) -> None:
    """A run: A's changes, B's, and the way, whose first step begins a sending (`w` on the head office's line, `W` on the branch line, then
    the last commit number and, if it isn't 3, the handle); the standby's session must end as `end`."""
    places, cap, most = shape
    first = f"7 0 {cap} {most} {places} 4"
    fill = ["F " + frame for frame in (HELLO, BIND, commit(changes(a)))]

    def sending(letter: str, last: int, handle: int = 3) -> tuple[str, list[str]]:
        line = {"w": "W", "W": "B"}[letter]
        got = rust_calls([first, *fill, "S", f"{line} {handle} {EPOCH} {last} {','.join(text.hex() for text in KEY)}"])
        assert got[-1] == "done" and answer(got[2]) == "5/0/0", got
        return session(got[4]), got[6:-1]

    full, sent = sending(way[0][0], 1)
    given, at = [HELLO, BIND, commit(changes(b))], -1
    done: list[int] = []
    script.extend((f"n {places} {cap} {most}", "o:B"))
    script.extend(f"{line[0]}:{line[2:]}" if line[0] in "mtk" else line for line in a)
    script.extend("h:" + frame for frame in given)
    for step in way:
        letter, rest = step[0], step[2:]
        if letter == "h":
            given.append(rest)
            step = "h:" + rest
        elif letter in "wW":
            last, handle = (int(word) for word in f"{rest} 3".split(" ")[:2])
            sent, at = sending(letter, last, handle)[1], -1
            step = f"{letter} {handle} {EPOCH} {last}"
        elif letter == "f":
            at += 1
            if at >= len(sent):
                done.append(len(given))
        else:
            data = bytearray.fromhex(sent[at])
            if letter == "x":
                place, more = map(int, rest.split(" "))
                data[place] = (data[place] + more) % 256
            given.append(data.hex())
        script.append(step)
    said: list[str] = []
    held: list[str | None] = []
    for line in rust_calls([first, *(call for frame in given for call in ("F " + frame, "S"))]):
        if line.startswith("session "):
            held[-1] = session(line)
        elif not line.startswith(("standby ", "handle ")):
            said.append(line)
            held.append(None)
    before = held[2]
    assert len(said) == len(given) and before != full and answer(said[2]) == "5/0/0", (way, said)
    for k, (line, now) in enumerate(zip(said, held)):
        wanted.extend("done" for number in done if number == k)
        assert k < 3 or now in (full, before), (way, k, line)
        wanted.append(answer(line) + ("" if k < 3 else " A" if now == full else " B"))
    wanted.extend("done" for number in done if number == len(said))
    assert (held[-1] == full) == (end == "A"), (way, wanted[-3:])


SMALL, LARGE, MIDDLE = (2, 200, 16), (1, BATCH_LIMIT + 24, 4), (1, 100_000, 8)
OLD = ["m old", "g 4", "m older", "b 4 3", "k was", "t 20250101-00:00:00.125"]
NONE: list[str] = []
ONE = ["m one"]
GAPS = ["t 20261115-12:00:00", "g 2", "m three", "m ", "g 9", "m ten", "g 12", "b 7 0", "k marks"]


def two(limit: int) -> list[str]:
    """A session of two batches: the first message goes past the limit by a byte."""
    return ["t 20261115-12:00:00", "g 2", f"l {limit + 1}", "g 7", "m tail", "g 9", "b 9 8", "k marks"]


# of four batches on the branch line
FOUR = ["t 20261115-12:00:00", "g 2", f"l {BRANCH_LIMIT + 1}", "g 7", "l 20000", f"l {BRANCH_LIMIT}", "l 1", "g 12", "m tail", "g 20", "b 9 8", "k marks"]
# a frame's length, kind, part, count of changes, first change damaged: the reader's numbers or 26; its handle: 14; its epoch lower; its number
DAMAGE = ["x 0 1", "x 0 255", "x 3 16", "x 4 100", "x 4 1", "x 25 100", "x 26 1", "x 29 1", "x 30 100"]


def line_ways(line: str, shape: Shape, several: list[str]) -> None:
    """The ways on a line, on which `several` has two batches."""
    start = f"{line} 1"
    # one frame: passed, dropped, passed and repeated
    for a, b in ((NONE, OLD), (ONE, OLD), (ONE, NONE), (GAPS, NONE), (GAPS, OLD)):
        go(SMALL, a, b, [start, "f", "=", "f"], "A")
        go(SMALL, a, b, [start, "f"], "B")
        go(SMALL, a, b, [start, "f", "=", "="], "A")
    # damaged on the way
    go(SMALL, GAPS, OLD, [start, "f", *DAMAGE], "B")
    go(SMALL, GAPS, OLD, [start, "f", *DAMAGE, "="], "A")
    go(SMALL, GAPS, OLD, [start, "f", "x 5 1", "x 9 255", "x 17 1", "x 17 255", "="], "A")
    # two frames: passed; the line drops before the first, between them and at the second; each damaged on the way, stale ones between
    go(shape, several, OLD, [start, "f", "=", "f", "=", "f"], "A")
    go(shape, several, OLD, [start, "f", "f"], "B")
    go(shape, several, OLD, [start, "f", "=", "f"], "B")
    go(shape, several, OLD, [start, "f", *DAMAGE, "=", "f", *DAMAGE[:7]], "B")
    go(shape, several, OLD, [start, "f", *DAMAGE, "=", "f", *DAMAGE[:7], "=", "="], "A")
    go(shape, several, OLD, [start, "f", "x 9 255", "=", "f", "x 9 255", "x 5 1", "="], "A")
    # the first repeated or lost: Diverged, nothing held, the rest 16 or Diverged
    go(shape, several, OLD, [start, "f", "=", "=", "f", "="], "B")
    go(shape, several, OLD, [start, "f", "f", "="], "B")
    # a new connection between them: 14; then the session is sent whole again
    go(shape, several, OLD, [start, "f", "=", "h " + HELLO, "f", "=", "h " + BIND, "=", line + " 0", "f", "=", "f", "="], "A")
    go(shape, several, OLD, [start, "f", "=", "h " + BIND, "f", "=", line + " 0", "f", "=", "f"], "B")
    # the session goes to another handle between them: 14, what was held is gone; sent whole to the new one, and to the first, bound again
    go(shape, several, OLD, [start, "f", "=", "h " + OTHER, "f", "="], "B")
    go(shape, several, OLD, [start, "f", "=", "h " + OTHER, "f", "=", line + " 0 4", "f", "=", "f", "=", "f"], "A")
    go(shape, several, OLD, [start, "f", "=", "h " + OTHER, line + " 0 4", "f", "=", "h " + BIND, "f", "=", line + " 0", "f", "=", "f", "=", "f"], "A")
    go(SMALL, GAPS, OLD, [start, "h " + OTHER, "f", "=", line + " 0 4", "f", "=", "f"], "A")


line_ways("w", LARGE, two(BATCH_LIMIT))
line_ways("W", MIDDLE, two(BRANCH_LIMIT))

# four frames on the branch line: passed; each in turn lost, repeated, damaged, and the last that the line lets through
ALL = ["f", "="] * 4
go(MIDDLE, FOUR, OLD, ["W 1", *ALL, "f"], "A")
for i in range(4):
    passed, rest = ["f", "="] * i, ["f", "="] * (3 - i)
    go(MIDDLE, FOUR, OLD, ["W 1", *passed, "f", *rest], "B")
    go(MIDDLE, FOUR, OLD, ["W 1", *passed, "f", "=", "=", *rest], "A" if i == 3 else "B")
    go(MIDDLE, FOUR, OLD, ["W 1", *passed, "f", *(DAMAGE if i == 0 else DAMAGE[:7]), "=", *rest], "A")
    go(MIDDLE, FOUR, OLD, ["W 1", *passed, "h " + HELLO, "f", "=", *rest], "B")
    go(MIDDLE, FOUR, OLD, ["W 1", *passed, "h " + HELLO, "f", "=", *rest, "h " + BIND, "W 0", *ALL, "f"], "A")

# begun on one line and, after a frame, anew on the other: the first one's frame is held, and the other's Reset undoes it
go(MIDDLE, FOUR, OLD, ["W 1", "f", "=", "w 2", "f", "=", "f"], "A")
# on the other line to another handle, which the session goes to: 14 for the first, held or not
go(MIDDLE, FOUR, OLD, ["W 1", "f", "=", "h " + OTHER, "f", "=", "w 0 4", "f", "=", "f"], "A")
go(LARGE, two(BATCH_LIMIT), OLD, ["w 1", "f", "=", "h " + OTHER, "f", "=", "W 0 4", "f", "=", "f", "=", "f"], "A")
go(MIDDLE, FOUR, OLD, ["w 1", "f", "h " + OTHER, "=", "W 0 4", "f", "=", "f", "=", "f"], "B")
# the other line's commit numbers, one of them left out: Diverged
go(MIDDLE, FOUR, OLD, ["W 1", "f", "=", "f", "=", "w 2", "f", "="], "B")
go(MIDDLE, FOUR, OLD, ["W 1", "f", "=", "f", "=", "w 3", "f", "=", "f"], "A")

# ---- version 2 on both lines: each step with what must be written for it, by document 02
LONG, WIDE = "t:20261115-12:00:00.123456789012", "t:20261115-12:00:00.123456"
FIRST, LATEST = (f"h:{hello(version, EPOCH).hex()}" for version in (1, 2))
MADE, BOUND = ["n 2 200 16", "o:B"], f"h:{BIND}"
BEGIN = f"w 3 {EPOCH} 0"
VERSIONS: list[tuple[str, str | None]] = [
    # a session with a stamp of 30 bytes, sent whole in version 2
    *((line, None) for line in (*MADE, LONG, "m:one")),
    (LATEST, "2/0/0"), (BOUND, "7/0/0"), (BEGIN, None), ("f", None), ("=", "5/0/0 A"), ("f", "done"),
    # back to version 1: a sending of it doesn't begin, the Bind of its copy is 32; a frame that was made in version 2 is 6
    (FIRST, "2/0/0 A"), (BEGIN, "R 32"), (BOUND, "0/32/0 A"), ("=", "0/6/0 A"),
    # and in version 2 again: bound, and sent whole once more
    (LATEST, "2/0/0 A"), (BOUND, "7/0/0 A"), (BEGIN, None), ("f", None), ("=", "5/0/0 A"), ("f", "done"),
    # a stamp that grew once the sending in version 1 had begun: 32 instead of the frame that has it, and nothing is shortened
    *((line, None) for line in (*MADE, "t:20261115-12:00:00")),
    (FIRST, "2/0/0"), (BOUND, "7/0/0"), (BEGIN, None), (WIDE, None), ("f", "R 32"), ("t:20261115-12:00:00.123", None), ("f", None), ("=", "5/0/0 A"), ("f", "done"),
]
for line in "wW":
    script.extend(line + step[1:] if step == BEGIN else step for step, said in VERSIONS)
    wanted.extend(said for step, said in VERSIONS if said is not None)

write("crates/vectors_copy/stdin", joined(script))
write("crates/vectors_copy/stdout", joined(wanted))

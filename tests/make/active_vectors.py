#!/usr/bin/env python3
"""Writes stdin and stdout of crates/vectors_active and crates/vectors_lag: scripts of sendings and of lag queues, and the Rust's answers.

Each store is filled in the Rust by frames of a call script (oracle/rust-calls, which needs rustc and the Rust's text), and each sending and
series is asked of it. By rule, without the Rust: R 9 before a frame that is longer than the area lent first (a sending's first is held to
the driver's answer), the second `done`, R 25 for areas, states and queues that break their rules.
"""
import random

import wire
from wire import (
    BATCH_LIMIT, BRANCH_LIMIT, RESET, TOP, fnv, joined, message, record, record_none, run, rust_calls, set_created_at, set_in_flight, set_marks, set_next_incoming,
    set_next_incoming_in_flight, write,
)

SCRIPT_LIMIT = 65536
WORDS, BYTES, OUT = 162, 2100224, 1100000
EPOCH = 5


def key_digits(name: bytes) -> str:
    """A session's key as call scripts have it."""
    return ",".join(text.hex() for text in (b"FIX.4.4", b"A", name, b""))


def shown(line: str) -> str:
    """A line of the Rust's as the program writes it."""
    if len(line) <= 1024:
        return line
    data = bytes.fromhex(line)
    return f"{len(data)}:{fnv(data):016x}"


# an answer of the Rust: `kind`, a frame of this kind; `send` and `short`, a sending and one into a short area; `first`, a sending's first frame; `rule`, none
Read = tuple[str, str | int | None]


class Store:
    """One store: the calls that fill it in the Rust, and how the Rust's answers become wanted lines."""

    def __init__(self, places: int, cap: int, most: int) -> None:
        self.fits = 66 + places * (16 + 2 * most) <= WORDS and places * (224 + cap) <= BYTES
        self.calls = [f"7 0 {cap} {most} {places} 64"]
        self.reads: list[Read] = []
        self.names: list[bytes] = []
        self.next: dict[bytes, int] = {}
        self.changes: list[bytes] = []
        self.place = self.handle = self.commit_no = 0
        self.ask(wire.hello(epoch=EPOCH), "02")

    def ask(self, frame: bytes, kind: str) -> None:
        self.calls.append("F " + frame.hex())
        self.reads.append(("kind", kind))

    def name(self) -> bytes:
        return self.names[self.place] if self.place < len(self.names) else b"nobody"

    def bind(self) -> None:
        self.handle, self.commit_no = self.handle + 1, 0
        self.ask(wire.bind(wire.key(target=self.name()), self.handle, EPOCH, 0), "07")

    def open(self, name: bytes) -> None:
        self.settle()
        if name not in self.names:
            self.names.append(name)
            self.next[name] = 1
        self.place = self.names.index(name)
        self.bind()

    def at(self, place: int) -> None:
        self.settle()
        self.place = place
        if place < len(self.names):
            self.bind()

    def change(self, form: bytes) -> None:
        self.changes.append(form)

    def next_here(self) -> int:
        """The next outgoing number of the session in hand."""
        return self.next[self.name()]

    def record(self, text: bytes) -> None:
        seq = self.next_here()
        self.change(record(seq, text))
        self.next[self.name()] = seq + 1

    def settle(self) -> None:
        """The changes so far, as one Commit."""
        if self.changes:
            self.commit_no += 1
            self.ask(wire.batch(run(self.changes), handle=self.handle, epoch=EPOCH, commit_no=self.commit_no), "05")
            self.changes = []

    def send(self, line: str, handle: int, epoch: int, last: int, short: int | None = None) -> None:
        """A whole sending on a line, as call scripts name it; with `short` into an area of that length first, wherever a frame is longer."""
        self.settle()
        assert short is None or short < OUT
        call = f"{line} {handle} {epoch} {last} {key_digits(self.name())}"
        self.calls.append(call)
        self.reads.append(("send", short))
        if short is not None:
            self.calls.append(f"{call} {short}")
            self.reads.append(("short", short))

    def odd(self, line: str, last: int, start: int) -> None:
        """A sending's state that no beginning gave."""
        self.settle()
        if last == TOP or self.place >= len(self.names):
            self.reads.append(("rule", "R 25"))
            return
        assert start == 0
        self.calls.append(f"{line} 1 0 {last} {key_digits(self.name())}")
        self.reads.append(("first", None))

    def wanted(self) -> list[str]:
        """What the program must write, by the Rust's answers to the calls."""
        if not self.fits:
            return ["R 25" for what, _ in self.reads if what in ("send", "first", "rule")]
        answers = rust_calls(self.calls)[::-1]
        out: list[str] = []
        sent: list[str] = []

        def frames() -> list[str]:
            got = [answers.pop()]
            while got[-1] != "done" and got[-1][0] != "R":
                got.append(answers.pop())
            return got

        for what, value in self.reads:
            if what == "kind":
                line = answers.pop()
                assert line[8:10] == value, (self.calls[0], value, line)
            elif what == "rule":
                out.append(str(value))
            elif what == "first":
                out.append(shown(frames()[0]))
            elif what == "send":
                sent = frames()
                for line in sent:
                    if isinstance(value, int) and line[0] != "R" and line != "done" and value < len(line) // 2:
                        out.append("R 9")
                    out.append(shown(line))
                if sent[-1] == "done":
                    out.append("done")
            else:
                got = frames()
                front = sent[: len(got) - 1] + ["R 9"] if got[-1] == "R 9" else sent
                assert got == front, "the Rust's answers with a short area"
        assert not answers
        return out


script: list[str] = []
wanted: list[str] = []
store: Store | None = None


# the head office's line and the branch line, as call scripts name them; here capital letters are for the branch line
LINES = "WB"


def finish() -> None:
    if store:
        wanted.extend(store.wanted())


def say(line: str) -> None:
    """A line of the script, done to the store in the Rust."""
    global store
    letter, text = line[0], line[2:].encode()
    script.append(f"{letter}:{line[2:]}" if letter in "otkm" else line.strip())
    numbers = [int(word) for word in line[2:].split(" ")] if letter in "npibflgwvxWVX" else []
    if letter == "n":
        finish()
        store = Store(*numbers)
        return
    assert store
    if letter == "o":
        store.open(text)
    elif letter == "p":
        store.at(numbers[0])
    elif letter == "i":
        store.change(set_next_incoming(numbers[0]))
    elif letter == "b":
        store.change(set_next_incoming_in_flight(*numbers))
    elif letter == "f":
        store.change(set_in_flight(numbers[0]))
    elif letter == "m":
        store.record(text)
    elif letter == "l":
        store.record(message(store.next_here(), numbers[0]))
    elif letter == "g":
        store.change(record_none(numbers[0]))
        store.next[store.name()] = numbers[0] + 1
    elif letter == "z":
        store.change(RESET)
        store.next[store.name()] = 1
    elif letter == "t":
        store.change(set_created_at(text))
    elif letter == "k":
        store.change(set_marks(text))
    elif letter in "wvWV":
        store.send(LINES[letter.isupper()], *numbers)
    elif letter in "xX":
        store.odd(LINES[letter.isupper()], *numbers)


def small(*lines: str) -> None:
    """A session at the second place of a store, whose first has another."""
    for line in ("n 2 200 16", "o other", "m other", "i 7", "k other", "o B", *lines):
        say(line)
    say("w 3 5 0")


def large(*lines: str) -> None:
    """A session in a store for messages about the batch limit."""
    for line in ("n 1 2100000 16", "o B", *lines):
        say(line)
    say("w 1 0 0")


def both(*lines: str) -> None:
    """A session in a store for messages about the branch line's limit, sent on both lines."""
    for line in ("n 1 150000 16", "o B", *lines):
        say(line)
    say("w 1 0 0")
    say("W 1 0 0")


# nothing in it; one message; an empty one; two of them
small()
small("m m")
small("m ")
small("m ", "m ")
# a gap at the start, in the middle, at the end, all; numbers used and no message; the last numbers
small("g 3", "m d")
small("g 1", "m d")
small("m a", "g 2", "g 5", "m f")
small("m a", "m b", "g 3", "m d", "m e")
small("m a", "g 9")
small("g 1", "m b", "g 3", "m ", "g 5")
small("g 77")
small("g 1")
small(f"g {TOP - 2}", "m z")
small(f"g {TOP - 1}")
# in flight none, 0 (which is not none), a number, cleared again
small("i 5")
small("f 0")
small("b 10 9")
small("f 3", "i 0")
small("b 4 0")
small("b 8 7", "f 2", "m a")
small(f"i {TOP}")
small(f"b {TOP} {TOP}")
# stamps of both forms, marks of 1 and 64, marks taken back
small("t 20261115-12:00:00")
small("t 20261231-23:59:60.999", "k " + "m" * 64)
small("k x", "t 20000229-00:00:00.000", "t 20000101-00:00:00", "m a", "g 5")
small("k " + "".join(chr(33 + i) for i in range(64)))
small("k marks", "k ")
# the oldest gone by bytes, by messages, by both; of just C bytes, and one more, which keeps its number only
small(*["m " + "x" * 30] * 12)
small(*["m y"] * 17)
small(*["l 13"] * 20)
small("m a", "l 200")
small("m a", "l 201", "m b")
small("m a", "t 20261115-12:00:00", "k m", "b 3 2", "z", "m b")
small("m a", "m b", "g 9", "z")
# stores that keep no bytes, no messages, one message; every byte that a made message has; a frame of 512 bytes and of 513
for shape in ("1 0 4", "1 9 0", "1 9 1"):
    for line in ("n " + shape, "o B", "m ", "m abc", "m ", "m de", "w 3 5 0"):
        say(line)
for line in ("n 1 1000 8", "o B", "l 251", "w 3 5 0", "z ", "l 450", "w 3 5 0", "z ", "l 451", "w 3 5 0"):
    say(line)
# the ends of handle, epoch and commit number; past the last one (24)
for line in ("n 1 200 8", "o B", "m m", "w 0 0 0", f"w 4294967295 {TOP} 41", f"w 3 5 {TOP - 1}", f"w 3 5 {TOP}"):
    say(line)
# an area of just the frame's length, one short, shorter than a head, none: 9, then the same call with a longer one
for length in (63, 62, 30, 4, 3, 0, 64):
    say(f"v 3 5 0 {length}")
# states that no beginning gave: one that a beginning could give, no number left, no session there
for line in ("x 8 0", f"x {TOP} 0", f"x {TOP} 5", "p 1", "x 8 0", "w 3 5 0", f"w 3 5 {TOP}", "p 0", "w 3 5 0", f"p {TOP}", "w 3 5 0"):
    say(line)
# no session stored; a store larger than C's limit, than M's, than the areas lent
for shape in ("1 200 8", "0 0 0", "1 33554433 0", "1 0 65537", "1 2100001 0", "1 0 41", "3 0 9"):
    for line in ("n " + shape, "w 3 5 0", "x 0 0"):
        say(line)
for line in ("n 3 0 8", "o A", "o B", "o C", "p 0", "w 3 5 0", "p 1", "g 4", "w 3 5 0", "p 2", "f 0", "w 3 5 0", "o B", "i 4", "w 3 5 0"):
    say(line)

# at the batch limit, and one past it; by one message, by two, by sixteen; an empty one behind; the next batch's first gap
large(f"l {BATCH_LIMIT}")
large(f"l {BATCH_LIMIT}", "l 0", "l 1")
large(f"l {BATCH_LIMIT + 1}")
large(f"l {BATCH_LIMIT + 1}", "l 0", "l 1")
large(f"l {BATCH_LIMIT + 1}", "l 0")
large(f"l {BATCH_LIMIT - 1}", "l 1", "l 1", "l 1")
large(f"l {BATCH_LIMIT - 1}", "l 2", "l 1")
large("l 0", f"l {BATCH_LIMIT}", "l 0", "l 0", "l 1", "l 2")
large(f"l {BATCH_LIMIT // 2}", f"l {BATCH_LIMIT // 2}", "l 7", "l 7")
large(f"l {BATCH_LIMIT // 2}", f"l {BATCH_LIMIT // 2 + 1}", "l 7", "l 7")
large(*["l 65536"] * 16)
large(*["l 65536"] * 15, "l 65537")
large(*["l 65536"] * 14, "l 131073", "l 65536")
large("t 20261115-12:00:00", "k marks", "b 9 0", "g 4", f"l {BATCH_LIMIT + 1}", "g 10", "l 3", "g 20")
large(f"l {BATCH_LIMIT + 1}", "g 7")
# three batches, the middle one neither first nor last; one large message at the end of a full batch
large(f"l {BATCH_LIMIT + 1}", "g 3", f"l {BATCH_LIMIT + 1}", "g 5", "l 1")
large(f"l {BATCH_LIMIT + 1}", f"l {BATCH_LIMIT}", "l 0", "l 9")
# two batches: commit numbers just enough, and one too few (24 before any frame); 9 for either frame
for line in ("n 1 2100000 16", "o B", f"l {BATCH_LIMIT + 1}", "l 3"):
    say(line)
for line in (f"w 1 0 {TOP - 2}", f"w 1 0 {TOP - 1}", f"w 1 0 {TOP}", f"v 1 0 0 {BATCH_LIMIT}", "v 1 0 0 0", "v 1 0 0 64", "v 1 0 0 63", f"v 1 0 0 {BATCH_LIMIT + 44}", f"v 1 0 0 {BATCH_LIMIT + 45}"):
    say(line)

# the same about the branch line's limit; the head office's line has one batch
both()
both("m one")
both(f"l {BRANCH_LIMIT}", "l 0", "l 1")
both(f"l {BRANCH_LIMIT + 1}", "l 1")
both(f"l {BRANCH_LIMIT - 1}", "l 1", "l 1")
both("l 40000")
both(f"l {BRANCH_LIMIT}")
both(f"l {BRANCH_LIMIT + 1}")
both(f"l {BRANCH_LIMIT + 1}", "l 0")
both(f"l {BRANCH_LIMIT - 1}", "l 2", "l 1")
both("l 0", f"l {BRANCH_LIMIT}", "l 0", "l 0", "l 1", "l 2")
both(f"l {BRANCH_LIMIT // 2}", f"l {BRANCH_LIMIT // 2}", "l 7", "l 7")
both(f"l {BRANCH_LIMIT // 2}", f"l {BRANCH_LIMIT // 2 + 1}", "g 5", "l 7", "l 7")
both(*["l 1024"] * 16)
both(*["l 1024"] * 15, "l 1025")
both("t 20261115-12:00:00", "k marks", "b 9 0", "g 4", f"l {BRANCH_LIMIT + 1}", "g 10", "l 3", "g 20")
both(f"l {BRANCH_LIMIT + 1}", "g 7")
both(f"l {BRANCH_LIMIT + 1}", "g 3", "l 40000", "g 5", f"l {BRANCH_LIMIT}", "l 0", "l 9")
both(*["l 16385"] * 8)
# two batches on the branch line: commit numbers just enough, and one too few for that line alone; 9 for either frame
for line in ("n 1 150000 16", "o B", f"l {BRANCH_LIMIT + 1}", "l 3"):
    say(line)
for last in (TOP - 2, TOP - 1, TOP):
    say(f"W 1 0 {last}")
    say(f"w 1 0 {last}")
for length in (BRANCH_LIMIT, 0, 63, 64, BRANCH_LIMIT + 44, BRANCH_LIMIT + 45):
    say(f"V 1 0 0 {length}")
for line in ("X 8 0", f"X {TOP} 0", f"X {TOP} 5", "p 1", "X 8 0", "W 3 5 0", f"W 3 5 {TOP}"):
    say(line)

# anything, in small stores
chance = random.Random(7)
for _ in range(40):
    cap, most = chance.choice([0, 1, 5, 20, 200]), chance.choice([0, 1, 2, 5, 16])
    say(f"n 2 {cap} {most}")
    for name in "AB":
        say("o " + name)
        for _ in range(chance.randrange(12)):
            kind = chance.random()
            if kind < 0.5:
                say(f"l {chance.choice([0, 1, 2, cap, cap + 1, chance.randrange(40)])}")
            elif kind < 0.7:
                assert store
                say(f"g {store.next_here() + chance.choice([0, 0, 1, 5, 1000])}")
            elif kind < 0.75:
                say("z ")
            elif kind < 0.8:
                say("t " + chance.choice(["20261115-12:00:00", "20261115-12:00:00.125"]))
            elif kind < 0.85:
                say("k " + "k" * chance.choice([0, 1, 63, 64]))
            elif kind < 0.9:
                say(f"i {chance.randrange(9)}")
            else:
                say(chance.choice([f"f {chance.randrange(3)}", f"b {chance.randrange(9)} {chance.randrange(3)}"]))
    for place in (0, 1):
        say(f"p {place}")
        say(chance.choice([f"w {chance.randrange(2**32)} {chance.randrange(2**64)} {chance.randrange(TOP)}", f"v 3 5 0 {chance.randrange(200)}"]))
finish()

# ---- lag queues

series: list[str] = []
answers: list[str] = []


def queue(line: str) -> None:
    """A line of pushes: `Q` onto an empty queue, `q` onto one in which `waiting` zeros wait."""
    series.append(line)
    if line[0] == "Q":
        answers.extend(rust_calls(["7 0 0 0 0 0", line]))
        return
    max_lag, drained, waiting, *lasts = map(int, line[2:].split(" "))
    if waiting > 64:
        answers.extend(["R 25"] * len(lasts))
        return
    answers.extend(rust_calls(["7 0 0 0 0 0", "Q " + spaced(max_lag, drained, *[0] * waiting, *lasts)])[waiting:])


def spaced(*numbers: int) -> str:
    return " ".join(map(str, numbers))


# the papers' point, and the same from other starts; max_lag 0, 1, 2
for line in ("2 0 1 2 3", "2 1 1 2 3 4 5", "2 0 9 9 10", "0 0 1 1 2 2", "0 0", "0 0 0 0 1", "0 3 1 2 3 4 5", "1 0 1 2 3 4", "1 0 2 2 4 5", "1 10 1 2 3 12"):
    queue("Q " + line)
# drained above last; numbers that don't rise, and fall; one push that takes all that wait with it
for line in ("3 5 5 5 5 4 9 1 8", "2 100 1 2 3 50 101 102 103", "5 9 3 2 1 0 14 15 0", "4 0 1 2 3 4 100 1"):
    queue("Q " + line)
# 64 wait, the 65th sends the oldest; also with a lag within max_lag, and where both hold
for max_lag, first, last in ((1000, 0, 69), (TOP, 1, 66), (64, 1, 70), (63, 1, 66), (65, 1, 70), (5, 0, 69)):
    queue(f"Q {max_lag} 0 {spaced(*range(first, last + 1))}")
queue("Q 1000 0 " + spaced(*[0] * 67))
queue("Q 0 7 " + spaced(*[7] * 66))
# the ends of the numbers
for line in (
    f"{TOP} 0 {TOP} 0 {TOP}",
    f"{TOP - 1} 0 {TOP} 1",
    f"0 {TOP} {TOP} 0 1",
    f"0 0 {TOP} {TOP} 0",
    f"1 {TOP - 2} {TOP - 1} {TOP}",
    "9223372036854775808 0 9223372036854775808 9223372036854775809",
):
    queue("Q " + line)
# queues with zeros waiting: none, one, 63, 64 (full); one more than may wait, and far more, is refused
for line in ("2 0 0 1 2 3", "9 0 1 4 10", "9 0 63 4 5 6", "9 0 64 4 5 6", "2 5 64 7 8", "9 0 65 4 5", "9 0 66 4", f"0 0 {TOP} 1"):
    queue("q " + line)
# anything
for _ in range(60):
    max_lag, drained = chance.choice([0, 1, 2, 3, 5, 10, 30, TOP]), chance.randrange(12)
    lasts: list[int] = []
    at = drained
    for _ in range(chance.randrange(1, 12)):
        at = max(0, at + chance.choice([-3, 0, 1, 1, 1, 2, 3, 7]))
        lasts.append(at)
    queue(f"Q {max_lag} {drained} {spaced(*lasts)}")

assert all(len(joined(lines)) < SCRIPT_LIMIT for lines in (script, series))
write("crates/vectors_active/stdin", joined(script))
write("crates/vectors_active/stdout", joined(wanted))
write("crates/vectors_lag/stdin", joined(series))
write("crates/vectors_lag/stdout", joined(answers))

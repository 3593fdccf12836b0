#!/usr/bin/env python3
"""Writes crates/vectors_store/stdin and stdout: a script of recordings, and what it must list by document 01's rules.

The store here is a list, and eviction is written as the paper has it; FNV-1a's vectors are those of draft-eastlake-fnv.
"""
import random

from wire import FNV_START, TOP, fnv, joined, message, u64, write


class Session:
    """A stored session that keeps `cap` bytes and `most` messages."""

    def __init__(self, cap: int, most: int) -> None:
        self.cap, self.most = cap, most
        self.reset()

    def reset(self) -> None:
        self.next: int = 1
        self.messages: list[tuple[int, bytes]] = []

    def record(self, text: bytes) -> None:
        number, self.next = self.next, self.next + 1
        if len(text) > self.cap or self.most == 0:
            return
        while sum(len(kept) for _, kept in self.messages) + len(text) > self.cap or len(self.messages) + 1 > self.most:
            self.messages.pop(0)
        self.messages.append((number, text))

    def last_outgoing(self, count: int) -> int:
        if count == 0 or self.next == 1:
            return 0
        low, value = max(self.next - count, 1), FNV_START
        for number, text in self.messages:
            if number >= low:
                value = fnv(u64(number) + u64(len(text)) + text, value)
        return value

    def listing(self) -> str:
        return f"{self.next}:" + "".join(f" {number}/{len(text)}/{fnv(text):016x}" for number, text in self.messages)


script: list[str] = []
wanted: list[str] = []
session = Session(0, 0)


def say(line: str) -> None:
    """A line of the script, done to the session here as the program does it."""
    global session
    script.append(line)
    letter = line[0]
    first, second = ([int(word) for word in line.split(" ")[1:]] + [0, 0])[:2] if letter != "f" else (0, 0)
    if letter == "n":
        session = Session(first, second)
    elif letter == "r":
        for _ in range(second):
            session.record(message(session.next, first))
    elif letter == "g":
        session.next += first + 1
    elif letter == "z":
        session.reset()
    elif letter == "p":
        session.next = min(session.next + first, TOP)
    elif letter == "l":
        wanted.append(session.listing())
    elif letter == "h":
        wanted.append(f"{session.last_outgoing(first):016x}")
    elif letter == "f":
        wanted.append(f"{fnv(line[2:].encode()):016x}")


def shown(*lines: str) -> None:
    """Each line, and the listing after it."""
    for line in lines:
        say(line)
        say("l")


# FNV-1a: the test vectors of the draft and of its reference code
for text in ["", "a", "b", "c", "d", "e", "f", "fo", "foo", "foob", "fooba", "foobar", "chongo was here!", "64.81.78.68"]:
    say("f " + text)

# exactly full by bytes and by messages, and one over each
say("n 8 4")
shown("r 2 4", "r 2 1", "r 8 1", "r 8 1", "r 1 8", "r 7 1", "r 9 1", "r 3 1", "r 0 4", "r 0 1", "r 8 1")
say("n 8 3")
shown("r 4 2", "r 1 1", "r 4 1", "r 0 2", "r 8 1")

# a message that starts at each offset of the ring, ends at its end, and wraps
for cap in (5, 8):
    for offset in range(cap + 1):
        for length in (1, cap - 1, cap):
            say(f"n {cap} 3")
            say(f"r {offset} 1")
            shown(f"r {length} 1", f"r {cap - length} 1", "r 1 2")
        say("h 2")

# round and round, through every state of the two rings
say("n 7 3")
for turn in range(60):
    shown(f"r {turn * 5 % 9} 1")
say("h 3")
say("h 1000")

# M messages, and more
say("n 64 5")
for _ in range(8):
    shown("r 3 1")
say("n 64 16")
shown("r 4 16", "r 4 1", "r 64 1", "r 0 15", "r 0 1")

# empty messages are messages; C 0, M 0, M 1
for shape in ("0 3", "5 0", "0 0", "5 1", "1 2"):
    say("n " + shape)
    shown("r 0 1", "r 1 1", "r 0 5", "r 5 1", "r 6 1", "g 0", "g 2", "r 1 2")
    say("h 4")

# what is longer than C keeps its number only, and nothing else changes
say("n 6 4")
shown("r 2 3", "r 7 1", "r 7 3", "r 2 1", "r 64 1", "r 6 1")

# Reset, then gaps: an old message never comes back
for shape in ("9 3", "64 16", "4 1"):
    say("n " + shape)
    say("r 3 20")
    shown("z", "g 0", "g 5", "g 40", "r 1 1", "z", "r 0 1", "g 100", "r 2 1", "z", "p 3", "p 100", "r 2 2", "z", "r 64 1", "r 9 1", "r 4 1", "p 0", "g 7", "r 1 1")
    say("h 5")
    say("h 500")

# promotion and skipped numbers between messages
say("n 20 4")
shown("r 5 2", "p 10", "r 5 1", "g 3", "r 5 1", "p 1", "r 5 1", "r 20 1", "p 7", "r 0 3")
for count in (0, 1, 2, 3, 10, 11, 50):
    say(f"h {count}")
say("z")
say("h 9")

# anything, in small stores
chance = random.Random(5)
for _ in range(24):
    cap, most = chance.choice([0, 1, 2, 3, 5, 8, 13, 33, 64]), chance.choice([0, 1, 2, 3, 4, 7, 16])
    say(f"n {cap} {most}")
    for _ in range(14):
        kind = chance.random()
        if kind < 0.72:
            length = chance.choice([0, 1, 2, 3, cap, cap + 1, max(cap - 1, 0), chance.randrange(0, 70)])
            say(f"r {min(length, 80)} {chance.choice([1, 1, 1, 2, 5])}")
        elif kind < 0.86:
            say(f"g {chance.randrange(4)}")
        elif kind < 0.93:
            say(f"p {chance.randrange(5)}")
        else:
            say("z")
        say("l")
    say(f"h {chance.randrange(12)}")

write("crates/vectors_store/stdin", joined(script))
write("crates/vectors_store/stdout", joined(wanted))

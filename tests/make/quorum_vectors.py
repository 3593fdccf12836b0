#!/usr/bin/env python3
"""Writes stdin and stdout of crates/vectors_quorum: lines on an active with up to five standbys, and what is right.

The answers come from the history alone: every accepted call is kept, and a figure is looked for from the last number sent down, with a count
over the kept Acks for each number. Nothing here is kept as the code keeps it.
"""
from __future__ import annotations

import os
import random
from typing import Iterator, NamedTuple

ROOT = os.path.join(os.path.dirname(os.path.abspath(__file__)), "..", "..")
CRATE = os.path.join(ROOT, "crates", "vectors_quorum")
TOP = 2**64 - 1


class Call(NamedTuple):
    what: str
    member: int = 0
    handle: int = 0
    number: int = 0


class History:
    """The accepted calls of an active with n standbys, of which k must hold a number."""

    def __init__(self, n: int, k: int) -> None:
        self.n, self.k = n, k
        self.calls: list[Call] = []

    def since_binding(self, handle: int, calls: list[Call]) -> list[Call] | None:
        """The calls on a handle after its last binding; none if it isn't bound."""
        own: list[Call] | None = None
        for c in calls:
            if c.what == "bind" and c.handle == handle:
                own = []
            elif own is not None and c.what in ("sent", "ack") and c.handle == handle:
                own.append(c)
        return own

    def moment(self) -> list[Call]:
        """The calls before the first StaleEpoch."""
        for i, c in enumerate(self.calls):
            if c.what == "stale":
                return self.calls[:i]
        return self.calls

    def refusal(self, c: Call) -> int:
        if c.what in ("ack", "stale") and c.member >= self.n:
            return 37
        if c.what == "stale":
            return 0
        own = self.since_binding(c.handle, self.calls)
        if c.what == "bind":
            bound = {b.handle for b in self.calls if b.what == "bind"}
            return 37 if own is None and len(bound) == 256 else 0
        if own is None:
            return 37
        sent = [s.number for s in own if s.what == "sent"]
        if c.what == "sent":
            return 0 if c.number == len(sent) + 1 else 38
        return 0 if c.number in sent else 38

    def figure(self, handle: int) -> int | None:
        if self.since_binding(handle, self.calls) is None:
            return None
        own = self.since_binding(handle, self.moment()) or []
        for x in range(sum(c.what == "sent" for c in own), 0, -1):
            if len({c.member for c in own if c.what == "ack" and c.number >= x}) >= self.k:
                return x
        return 0


class Recording:
    def __init__(self) -> None:
        self.lines: list[str] = []
        self.answers: list[str] = []
        self.history: History | None = None
        self.broken = False

    def make(self, n: int, k: int) -> None:
        self.lines.append(f"{n} {k}")
        if 1 <= k <= n <= 5:
            self.history = History(n, k)
        else:
            self.answers.append("R 37")

    def say(self, line: str) -> None:
        self.lines.append(line)

    def call(self, c: Call) -> None:
        text = {
            "bind": f"bind {c.handle}",
            "sent": f"sent {c.handle} {c.number}",
            "ack": f"ack {c.member} {c.handle} {c.number}",
            "stale": f"stale {c.member}",
        }[c.what]
        self.lines.append(text)
        assert self.history is not None
        refusal = 25 if self.broken else self.history.refusal(c)
        if refusal == 0:
            self.history.calls.append(c)
        self.answers.append(f"R {refusal}" if refusal else "ok")

    def figure(self, handle: int) -> None:
        self.lines.append(f"figure {handle}")
        assert self.history is not None
        shown = self.history.figure(handle)
        self.answers.append("R 25" if self.broken else "R 37" if shown is None else str(shown))


def pairs() -> Iterator[tuple[int, int]]:
    for n in range(1, 6):
        for k in range(1, n + 1):
            yield n, k


def border(r: Recording, n: int, k: int) -> None:
    """Member m acknowledges m + 1, one after the other, then all the last; then the numbers begin anew."""
    r.make(n, k)
    r.figure(7)
    r.call(Call("bind", handle=7))
    for x in range(1, 7):
        r.call(Call("sent", handle=7, number=x))
    for m in range(n):
        r.call(Call("ack", m, 7, m + 1))
        r.figure(7)
    for m in range(n):
        r.call(Call("ack", m, 7, 6))
        r.call(Call("ack", m, 7, 2))
        r.figure(7)
    r.call(Call("ack", n, 7, 6))
    r.call(Call("bind", handle=7))
    r.figure(7)
    r.call(Call("ack", 0, 7, 1))
    r.call(Call("sent", handle=7, number=7))
    r.call(Call("sent", handle=7, number=1))
    r.call(Call("ack", 0, 7, 0))
    r.call(Call("ack", 0, 7, 2))
    r.call(Call("ack", 0, 7, 1))
    r.figure(7)


def deposed(r: Recording, n: int, k: int) -> None:
    r.make(n, k)
    for h in (1, 257):
        r.call(Call("bind", handle=h))
        for x in range(1, 4):
            r.call(Call("sent", handle=h, number=x))
        for m in range(k):
            r.call(Call("ack", m, h, 2))
    r.call(Call("stale", n))
    r.call(Call("bind", handle=1))
    r.figure(1)
    r.call(Call("stale", n - 1))
    for h in (257, 1, 9):
        r.call(Call("bind", handle=h))
        r.figure(h)
        r.call(Call("sent", handle=h, number=2))
        r.call(Call("sent", handle=h, number=1))
        for m in range(n + 1):
            r.call(Call("ack", m, h, 1))
            r.call(Call("ack", m, h, 3))
        r.figure(h)
    r.call(Call("stale", 0))


def by_chance(r: Recording, n: int, k: int, seed: int, handles: list[int]) -> None:
    chance = random.Random(seed)
    r.make(n, k)
    sent: dict[int, int] = {}
    for h in handles[:3]:
        r.call(Call("bind", handle=h))
    for step in range(40):
        h = chance.choice(handles)
        what = chance.choice(["bind", "sent", "sent", "sent", "ack", "ack", "ack", "ack", "stale" if step > 30 else "ack"])
        last = sent.get(h, 0)
        number = chance.choice([last + 1, last + 1, last + 1, last, last + 2, 0]) if what == "sent" else chance.randint(0, last + 1)
        c = Call(what, chance.randint(0, n), h, number)
        assert r.history is not None
        if r.history.refusal(c) == 0 and what in ("bind", "sent"):
            sent[h] = number if what == "sent" else 0
        r.call(c)
        r.figure(h)


def full(r: Recording) -> None:
    """256 handles, in falling order, some of one chain; a 257th is refused, each of the 256 is bound again."""
    handles = [300 * i % 2**32 for i in range(256)][::-1]
    r.make(2, 1)
    for h in handles:
        r.call(Call("bind", handle=h))
    for h in (1, 299, 2**32 - 1):
        r.call(Call("bind", handle=h))
        r.figure(h)
    for h in handles[::17]:
        r.call(Call("sent", handle=h, number=1))
        r.call(Call("ack", 1, h, 1))
        r.figure(h)
    for h in (handles[0], handles[255]):
        r.call(Call("bind", handle=h))
        r.figure(h)


def handed_in(r: Recording) -> None:
    """States that break the rules, and short areas: 25, before all else; then all is as it was."""
    r.make(3, 2)
    r.call(Call("bind", handle=5))
    r.call(Call("sent", handle=5, number=1))
    for change, back in (("word 0 0", "word 0 3"), ("word 0 6", "word 0 3"), ("word 1 0", "word 1 2"), ("word 1 4", "word 1 2"), ("word 3 257", "word 3 1"), ("lend 0", "lend 1")):
        r.say(change)
        r.broken = True
        r.call(Call("bind", handle=5))
        r.call(Call("sent", handle=6, number=9))
        r.call(Call("ack", 9, 5, 1))
        r.call(Call("stale", 9))
        r.figure(6)
        if change.startswith("lend"):
            r.lines.append("0 0")
            r.answers.append("R 25")
        r.say(back)
        r.broken = False
        r.figure(5)
    r.call(Call("ack", 0, 5, 1))
    r.call(Call("ack", 2, 5, 1))
    r.figure(5)


def last_number(r: Recording) -> None:
    """After 2^64 - 1 no number follows: the last number sent is handed in."""
    r.make(1, 1)
    r.call(Call("bind", handle=0))
    r.say(f"word 262 {TOP}")
    for line, answer in ((f"sent 0 {TOP}", "R 38"), ("sent 0 0", "R 38"), ("sent 0 1", "R 38"), (f"ack 0 0 {TOP}", "ok"), ("figure 0", str(TOP)), (f"ack 0 0 {TOP - 1}", "ok"), ("figure 0", str(TOP))):
        r.lines.append(line)
        r.answers.append(answer)


def main() -> None:
    r = Recording()
    for n, k in ((0, 0), (0, 1), (1, 0), (6, 1), (6, 6), (2, 3), (5, 0), (TOP, 1), (5, TOP)):
        r.make(n, k)
    for n, k in pairs():
        border(r, n, k)
        deposed(r, n, k)
        by_chance(r, n, k, 100 * n + k, [3, 259, 4, 2**32 - 1, 515])
    full(r)
    handed_in(r)
    last_number(r)
    for name, lines in (("stdin", r.lines), ("stdout", r.answers)):
        with open(os.path.join(CRATE, name), "w") as f:
            f.write("\n".join(lines) + "\n")


if __name__ == "__main__":
    main()

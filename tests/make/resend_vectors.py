#!/usr/bin/env python3
"""Writes the script of the program vectors_resend, and what it must write: document 02's resend ranges, by holding each stored message
against every range. No part of the proved code is asked.

    tests/make/resend_vectors.py        from any folder; writes crates/vectors_resend/stdin and stdout
"""

from pathlib import Path

CRATE = Path(__file__).resolve().parents[2] / "crates" / "vectors_resend"
TOP = 2**64 - 1

Range = tuple[int, int]


def fnv(data: bytes) -> int:
    """FNV-1a of 64 bits."""
    value = 0xCBF29CE484222325
    for byte in data:
        value = (value ^ byte) * 0x100000001B3 % 2**64
    return value


class Store:
    """A store with one session, by document 01's rules, and the lines that make it."""

    def __init__(self, script: "Script", c: int, m: int) -> None:
        self.script, self.c, self.m = script, c, m
        self.next, self.messages = 1, list[tuple[int, bytes]]()
        script.lines.append(f"n {c} {m}")

    def record(self, length: int) -> None:
        """A message of bytes that count on from its number."""
        self.script.lines.append(f"l {length}")
        text = bytes((self.next + at) % 251 for at in range(length))
        if length <= self.c and self.m > 0:
            self.messages.append((self.next, text))
            while len(self.messages) > self.m or sum(len(text) for _, text in self.messages) > self.c:
                self.messages.pop(0)
        self.next += 1

    def skip(self, number: int) -> None:
        self.script.lines.append(f"g {number}")
        self.next = number + 1

    def reset(self) -> None:
        self.script.lines.append("z ")
        self.next, self.messages = 1, []

    def ask(self, ranges: list[Range], entries: int | None = None, place: int = 0, half: bool = False) -> None:
        """A request; without a number of entries, into just as many as the list has."""
        listed = self.listed(ranges)
        room = len(listed) if entries is None else entries
        numbers = [number for pair in ranges for number in pair][: -1 if half else None]
        self.script.lines.append(" ".join(map(str, ["G", place, room, *numbers])))
        bad = len(ranges) > 64 or any(first == 0 or 0 < last < first for first, last in ranges)
        refusal = 25 if place != 0 or half else 35 if bad else 36 if room < len(listed) else 0
        if refusal:
            self.script.answers.append(f"R {refusal}")
            return
        self.script.answers.append(f"count={len(listed)} bytes={sum(len(text) for _, _, text in listed)}")
        self.script.answers += [f"{number} {bits} {len(text)} {fnv(text)}" for number, bits, text in listed]

    def listed(self, ranges: list[Range]) -> list[tuple[int, int, bytes]]:
        rows = list[tuple[int, int, bytes]]()
        for number, text in self.messages:
            bits = sum(2**at for at, (first, last) in enumerate(ranges) if first <= number and (last == 0 or number <= last))
            if bits:
                rows.append((number, bits % 2**64, text))
        return rows


class Script:
    def __init__(self) -> None:
        self.lines, self.answers = list[str](), list[str]()

    def store(self, c: int, m: int) -> Store:
        return Store(self, c, m)


def fixed(script: Script) -> None:
    """Each sentence of the request once."""
    s = script.store(1000, 40)
    s.ask([])
    s.ask([(1, 0)])
    for length in (3, 0, 5):
        s.record(length)
    s.skip(9)
    for length in (1, 2, 4, 8):
        s.record(length)
    s.ask([])
    s.ask([], 0)
    for ranges in (
        [(1, 0)], [(2, 2)], [(1, 3), (4, 13)], [(1, 3), (3, 10)], [(1, 13), (2, 11)], [(2, 11), (1, 13)], [(10, 10), (10, 10)],
        [(12, 0), (1, 1), (2, 3)], [(4, 9)], [(14, 0)], [(TOP, 0)], [(TOP, TOP)], [(1, TOP)], [(13, 13)], [(3, 10)],
    ):  # fmt: skip
        s.ask(ranges)
    for ranges in ([(0, 0)], [(0, 5)], [(5, 4)], [(1, 0), (2, 1)], [(1, 0), (0, 0)], [(TOP, 1)]):
        s.ask(ranges, 72)
        s.ask(ranges, 0)
    s.ask([(1, 0)] * 64)
    s.ask([(14, 0)] * 63 + [(10, 10)])
    s.ask([(14, 0)] * 65, 72)
    s.ask([(1, 0)] * 65, 72)
    s.ask([(1, 0)] * 65, 0)
    s.ask([(n + 1, n + 1) for n in range(64)])
    for entries in (0, 6, 7, 8, 72):
        s.ask([(1, 0)], entries)
    s.ask([(1, 0)], 7, place=1)
    s.ask([(0, 0)], 7, place=1)
    s.ask([(1, 0)], 7, half=True)
    s.ask([(0, 0)], 7, half=True)
    s.ask([(1, 3), (4, 0)], 7, half=True)
    s.reset()
    s.ask([(1, 0)])


def limits(script: Script) -> None:
    """Messages that go round the ring, a sum of exactly C, the oldest gone, M of 0 and C of 0."""
    s = script.store(100, 5)
    for length in (40, 30, 20, 35, 25, 40, 1, 100, 0, 60, 39, 1):
        s.record(length)
        s.ask([(1, 0)])
        s.ask([(s.next - 2, s.next - 1 if s.next > 2 else 0)] if s.next > 2 else [(1, 1)])
    s = script.store(10, 0)
    s.record(4)
    s.ask([(1, 0)])
    s = script.store(0, 3)
    for _ in range(5):
        s.record(0)
    s.record(1)
    s.ask([(1, 0)])
    s.ask([(2, 4), (4, 0)])


def by_chance(script: Script) -> None:
    """Requests by a small generator, the same at each run."""
    seed = 12345

    def below(n: int) -> int:
        nonlocal seed
        seed = (seed * 6364136223846793005 + 1442695040888963407) % 2**64
        return (seed >> 33) % n

    for _ in range(12):
        s = script.store(1 + below(1000), 1 + below(40))
        for _ in range(30):
            if below(6) == 0:
                s.skip(s.next + below(4))
            s.record(below(60))
            ranges = [(1 + below(s.next + 2), 0) for _ in range(below(5))]
            ranges = [(first, 0 if below(4) == 0 else first + below(9)) for first, _ in ranges]
            s.ask(ranges, min(72, max(0, len(s.listed(ranges)) + below(3) - 1)))


def main() -> None:
    script = Script()
    fixed(script)
    limits(script)
    by_chance(script)
    (CRATE / "stdin").write_text("".join(f"{line}\n" for line in script.lines), encoding="ascii")
    (CRATE / "stdout").write_text("".join(f"{line}\n" for line in script.answers), encoding="ascii")


if __name__ == "__main__":
    main()

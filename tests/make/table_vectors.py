#!/usr/bin/env python3
"""Writes crates/table/stdin and stdout: frames for the standby of the program `frames`, and what a screen shows of its sessions then, by a second reading of the layout.

A line's parts stand one behind the other with a space between them; a part that would pass column 80 goes on to a next line, behind three spaces. The session itself is kept
here as plain lists.
"""
from wire import COMMIT, RESET, TOP, WHOLE, batch, bind, hello, joined, key, record, record_none, set_created_at, set_in_flight, run, set_marks, set_next_incoming, set_next_incoming_in_flight, write

C, M = 4096, 64


def commit(handle: int, number: int, changes: list[bytes], part: int = COMMIT) -> bytes:
    return batch(run(changes), part=part, handle=handle, epoch=5, commit_no=number)


class Session:
    def __init__(self, key: tuple[bytes, bytes, bytes, bytes]):
        self.key, self.out, self.incoming, self.flight, self.stamp, self.marks, self.durable = key, 1, 1, None, b"", b"", False
        self.messages: list[tuple[int, bytes]] = []

    def record(self, text: bytes) -> bytes:
        number, self.out, self.durable = self.out, self.out + 1, True
        if len(text) <= C:
            while self.messages and (sum(len(t) for _, t in self.messages) + len(text) > C or len(self.messages) + 1 > M):
                self.messages.pop(0)
            self.messages.append((number, text))
        return record(number, text)

    def skip(self, number: int) -> bytes:
        self.out, self.durable = number + 1, True
        return record_none(number)


def lines(parts: list[str]) -> str:
    text, column = "", 0
    for part in parts:
        part = "".join(c if " " <= c <= "~" else "." for c in part[:77])
        if text and column + 1 + len(part) <= 80:
            text, column = text + " " + part, column + 1 + len(part)
        elif text:
            text, column = text + "\n   " + part, 3 + len(part)
        else:
            text, column = part, len(part)
    return text + "\n"


def shown(place: int, s: Session) -> str:
    begin, sender, target, suffix = (t.decode("latin-1") for t in s.key)
    stored = ["   stored      none"]
    if s.messages:
        size = sum(len(t) for _, t in s.messages)
        stored = [f"   stored      {s.messages[0][0]}", f"to {s.messages[-1][0]}:", f"{len(s.messages):,},", f"{size:,} bytes"]
    flight = ["   in flight   none"] if s.flight is None else [f"   in flight   {s.flight}:", "handed over,", "not yet counted"]
    return (
        lines([f"{place:>2}", f" {begin}", f" {sender}", f"-> {target}"] + ([f"/ {suffix}"] if suffix else []))
        + lines([f"      next outgoing {s.out:>12}"] + stored)
        + lines([f"      next incoming {s.incoming:>12}"] + flight)
        + lines([f"      since {(s.stamp.decode() or 'no time'):<20}", "   marks      ", s.marks.decode() or "none"])
        + lines([f"      durable {'yes' if s.durable else 'no'}"])
    )


plain = Session((b"FIX.4.4", b"BROKER", b"VENUE", b""))
wide = Session((b"B" * 32, b"S" * 32, b"T" * 32, b"X" * 32))
new = Session((b"FIX.4.2", b"BROKER", b"DARKPOOL", b"A"))
rest = Session((b"FIXT.1.1", b"BROKER LONDON", b"VENUE", b"1"))
sessions = [plain, wide, new, rest]
frames = [hello()] + [bind(key(*s.key), 9 + i, 5, 0) for i, s in enumerate(sessions)]

plain.stamp, plain.incoming, plain.flight = b"20261116-08:00:00", 92, None
frames.append(commit(9, 1, [set_created_at(plain.stamp)] + [plain.record(b"8=FIX.4.4|34=%d|" % n) for n in range(1, 101)]))
frames.append(commit(9, 2, [plain.record(b"x" * (17 * n)) for n in range(1, 27)] + [set_next_incoming(92)]))

wide.stamp, wide.marks, wide.incoming, wide.flight = b"20261116-08:00:00.123", b"m" * 64, TOP, TOP
frames.append(
    commit(10, 1, [wide.skip(TOP - 70), set_created_at(wide.stamp), set_marks(wide.marks)] + [wide.record(b"y" * 64) for _ in range(66)] + [set_next_incoming_in_flight(TOP, TOP)])
)

# A part of a session sent whole is held, and nothing of it is shown; nor of what is refused.
frames.append(commit(11, 1, [RESET, record(1, b"held")], WHOLE))
frames += [commit(11, 7, [record(1, b"not next")]), b"\x01\x00\x00\x00\x09", b"\x00"]

rest.incoming, rest.flight, rest.marks = 4, 3, b"B"
frames.append(commit(12, 1, [rest.record(b"first"), rest.record(b""), rest.record(b"z" * 5000), rest.skip(9), set_next_incoming(4), set_in_flight(3), set_marks(b"B")]))

write("crates/table/stdin", joined(frame.hex() for frame in frames))
write("crates/table/stdout", "".join(shown(place, s) for place, s in enumerate(sessions)))

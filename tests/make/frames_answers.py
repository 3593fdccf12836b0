#!/usr/bin/env python3
"""Writes lines for the program `frames`, and what the Rust prints for them (oracle/rust-frames-program): tests/frames/NAME.in and NAME.out.

`answers` gets every refusal and every Nack that the program can show, on two handles in turn, with a restart and a stale active. `commits` has 80
commits on four handles in turn, with a session that outgrows C and one that outgrows M, a stale active among them, a restart, and a session that goes to
another handle in the full row while the first holds changes. `versions` has stamps of every count of digits in version 1, in version 2 and in version 1
again, with what leaves the version between them, and 32. `lowest` is for the lowest message on hand: past C, past M, a message longer than C, M messages and
one more, Reset, bare Records alone, an empty Commit, Wholes and a LastWhole, Diverged, refusals, a Checked, bad lines, two sessions in turn, and a last line
without a line feed.

10, 17 and 21 to 25 can't be shown there: the standby isn't promoted, its lines are too short to hold more than 4 GiB, and its four places are enough
where each of four sessions has one handle (21; document 02, U4).
"""
from collections.abc import Sequence

import wire
from wire import (
    COMMIT, LAST_WHOLE, RESET, WHOLE, ack, app_record, blob, bound, checked, framed, joined, nack, record, record_none, run, rust, set_created_at, set_marks,
    set_next_incoming, u16, u64, welcome, write,
)


def hello(epoch: int, version: int = 1, kinds: Sequence[int] = ()) -> bytes:
    return wire.hello(version, epoch, kinds=kinds)


def bind(handle: int, epoch: int, name: bytes, lag: int = 0) -> bytes:
    return wire.bind(wire.key(sender=b"US", target=name), handle, epoch, lag)


def batch(handle: int, epoch: int, commit_no: int, part: int, changes: Sequence[bytes], records: Sequence[bytes] = ()) -> bytes:
    return wire.batch(run(changes), run(records), part, handle, epoch, commit_no)


answers = [
    # 11, 12, Welcome
    hello(5, version=3), hello(5, kinds=(3,)), hello(5),
    # Nack StaleEpoch, Lag; Bound twice
    bind(1, 4, b"A"), bind(1, 5, b"A", lag=1), bind(1, 5, b"A"), bind(2, 5, b"B"),
    # 13, StaleEpoch, 14
    batch(1, 5, 1, COMMIT, [], [app_record(1, b"x")]), batch(1, 4, 1, COMMIT, []), batch(9, 5, 1, COMMIT, []),
    # Diverged, Ack, Ack
    batch(1, 5, 2, COMMIT, []), batch(1, 5, 1, COMMIT, [record(1, b"one")]), batch(2, 5, 1, COMMIT, [set_next_incoming(4)]),
    # Diverged, Ack
    batch(1, 5, 2, COMMIT, [record(1, b"again")]), batch(1, 5, 2, COMMIT, [record(2, b"")]),
    # 16, Ack
    batch(2, 5, 2, WHOLE, [set_next_incoming(1)]), batch(2, 5, 2, WHOLE, [RESET, set_created_at(b"20251115-23:59:60")]),
    # 15, Ack
    batch(2, 5, 3, COMMIT, []), batch(1, 5, 3, COMMIT, [set_marks(b"x")]),
    # 18, Ack
    batch(2, 5, 3, WHOLE, [record(1, b"m" * 6000)]), batch(2, 5, 3, WHOLE, [record(3, b"three")]),
    # Diverged (off next), Bound
    batch(2, 5, 4, LAST_WHOLE, [set_next_incoming(9), set_marks(b"")]), bind(2, 5, b"B"),
    # Ack, Ack, Bound
    batch(2, 5, 1, WHOLE, [RESET]), batch(2, 5, 2, LAST_WHOLE, [record_none(2), record(3, b"3"), set_next_incoming(9)]), bind(3, 5, b"B"),
    # Restarted, StaleEpoch, Ack
    checked(1, 5, 8), checked(1, 4, 7), checked(1, 5, 7),
    # 19
    welcome(5, 7), ack(1, 1), nack(2, 1),
    # 19
    bound(),
    # Bound, Bound: the row is full; Bound, for C's handle goes, and is 14; 20
    bind(4, 5, b"C"), bind(2, 5, b"D"), bind(5, 5, b"C"), batch(4, 5, 1, COMMIT, []), bind(5, 5, b"E"),
    # 1, 2, 3, 4
    b"\x01\x00\x00\x04", framed(b"\x06\x01\x00\x00\x00\x01\x00"), framed(b"\x09"), framed(b"\x01" + u16(1) + u64(5) + blob(b"\xed\xa0\x80") + run([])),
    # 5, 6
    wire.bind(wire.key(b"", b"a", b"a"), 1, 5, 0), batch(1, 5, 4, COMMIT, [set_created_at(b"20251115-24:00:00")]),
    # 7, 26, 26
    batch(1, 5, 4, COMMIT, [set_marks(b"m" * 65)]), hello(5)[:-1], hello(5) + b"\x00",
    # a restart, a stale active
    hello(6), batch(1, 6, 4, COMMIT, []), hello(5), batch(1, 5, 4, COMMIT, []), bind(1, 6, b"A"), batch(1, 6, 1, COMMIT, [record(3, b"on")]),
]

# Of the four sessions A outgrows C (4,096 bytes) and D outgrows M (64 messages); after the restart, with the handles exchanged, they go on from their numbers.
NAMES = [b"A", b"B", b"C", b"D"]
commits = [hello(1)] + [bind(handle, 1, name) for handle, name in enumerate(NAMES)]
for number in range(1, 21):
    for handle in range(4):
        messages = 4 if handle == 3 else 1
        first, length = messages * (number - 1) + 1, 250 if handle == 0 else number % 3
        commits.append(batch(handle, 1, number, COMMIT, [record(first + k, b"m" * length) for k in range(messages)]))
    if number % 5 == 0:
        commits.append(batch(0, 0, number + 1, COMMIT, []))
commits += [hello(2), batch(0, 2, 21, COMMIT, [])] + [bind(handle, 2, name) for handle, name in enumerate(reversed(NAMES))]
commits += [batch(0, 2, 1, COMMIT, [record(81, b"on")]), batch(3, 2, 1, COMMIT, [record(21, b"on"), set_next_incoming(7)]), batch(3, 1, 2, COMMIT, []), bind(3, 2, b"A")]
commits += [batch(3, 2, 1, WHOLE, [RESET]), bind(9, 2, b"A"), batch(3, 2, 2, LAST_WHOLE, []), batch(9, 2, 1, COMMIT, [record(22, b"on")])]



def stamp(digits: int) -> bytes:
    return b"20261115-12:00:00" + (b"." + b"1234567890123456"[:digits] if digits else b"")


def stamps(handle: int, epoch: int, version: int) -> list[bytes]:
    """A Commit with a stamp of each count of digits; those that the version takes count on, and the session is bound again at the end."""
    taken, no, frames = {1: (0, 3), 2: (0, 3, 6, 9, 12)}[version], 1, []
    for digits in range(17):
        frames.append(batch(handle, epoch, no, COMMIT, [set_created_at(stamp(digits))]))
        no += digits in taken
    return frames + [bound(stamp(digits)) for digits in range(17)] + [bind(handle, epoch, b"A")]


versions = [
    # version 1: stamps of 0 and 3 digits
    bind(1, 1, b"A"), *stamps(1, 1, 1), hello(1), bind(1, 1, b"A"), *stamps(1, 1, 1),
    # 11, 11, 11, 12 leave it: 6
    hello(1, version=0), hello(1, version=3), hello(1, version=258), hello(1, version=2, kinds=(1,)), batch(1, 1, 1, COMMIT, [set_created_at(stamp(6))]),
    # version 2: also 6, 9 and 12
    hello(1, version=2), bind(1, 1, b"A"), *stamps(1, 1, 2),
    # a Hello of a lower epoch and version 1 is answered, and leaves version 2
    hello(0), batch(1, 1, 1, COMMIT, [set_created_at(stamp(12))]), bind(2, 1, b"B"),
    # sent whole, the stamp held in one frame and applied with the last
    batch(2, 1, 1, WHOLE, [RESET, set_created_at(stamp(9))]), batch(2, 1, 2, LAST_WHOLE, [record(1, b"one"), set_next_incoming(2), set_marks(b"")]), bind(2, 1, b"B"),
    # back to 1: Nack StaleEpoch, Nack Lag, 32, 32; a new session, which is bound to a handle of that name; a commit due is run before 32
    hello(1), bind(1, 0, b"A", lag=1), bind(1, 1, b"A", lag=1), bind(1, 1, b"A"), bind(2, 1, b"B"), bind(3, 1, b"C"),
    batch(3, 1, 1, COMMIT, [set_created_at(stamp(6))]), batch(3, 1, 1, COMMIT, [set_created_at(stamp(3))]), bind(3, 1, b"A"), batch(3, 1, 2, COMMIT, []),
    # 20 for a fifth session; 32 for one that is there
    bind(4, 1, b"D"), bind(5, 1, b"E"), bind(5, 1, b"B"),
    # version 2 with a higher epoch: A gets a short stamp, B none; then version 1 binds both
    hello(2, version=2), bind(1, 2, b"A"), batch(1, 2, 1, COMMIT, [set_created_at(stamp(3))]), bind(2, 2, b"B"), batch(2, 2, 1, COMMIT, [RESET]),
    hello(3), bind(1, 3, b"A"), bind(2, 3, b"B"), bind(1, 2, b"A"), *stamps(1, 3, 1),
]

lowest = [
    hello(1), bind(1, 1, b"A"), bind(2, 1, b"B"),
    # an empty Commit; bare Records alone; a first message; another session in turn; M messages and one more
    batch(1, 1, 1, COMMIT, []), batch(1, 1, 2, COMMIT, [record_none(4)]), batch(1, 1, 3, COMMIT, [record(5, b"five")]), batch(2, 1, 1, COMMIT, [record(1, b"1")]),
    batch(1, 1, 4, COMMIT, [record(seq, b"m") for seq in range(6, 69)]), batch(1, 1, 5, COMMIT, [record(69, b"m")]), batch(2, 1, 2, COMMIT, [record(2, b"2")]),
    # past C; longer than C, which leaves the others; just C, which leaves none of them
    batch(1, 1, 6, COMMIT, [record(70, b"c" * 4000)]), batch(1, 1, 7, COMMIT, [record(71, b"c" * 2000)]), batch(1, 1, 8, COMMIT, [record(72, b"c" * 4097)]),
    batch(1, 1, 9, COMMIT, [record(73, b"c" * 4096)]),
    # Diverged, StaleEpoch, 13, 14, 15 to 18 and 19 hand nothing up, nor do a Checked and Wholes
    batch(1, 1, 11, COMMIT, []), batch(1, 1, 10, COMMIT, [record(9, b"")]), batch(1, 0, 10, COMMIT, []), batch(1, 1, 10, COMMIT, [], [app_record(1, b"x")]), batch(9, 1, 1, COMMIT, []),
    batch(2, 1, 3, WHOLE, [set_next_incoming(1)]), checked(1, 1, 7), checked(2, 1, 7), ack(1, 1),
    batch(2, 1, 3, WHOLE, [RESET, record_none(6)]), batch(2, 1, 4, COMMIT, []), batch(2, 1, 4, WHOLE, [record(7, b"m" * 6000)]), batch(2, 1, 4, WHOLE, [record(7, b"seven"), record(8, b"8")]),
    batch(2, 1, 5, LAST_WHOLE, [set_marks(b"")]), batch(1, 1, 12, COMMIT, [RESET]), bind(1, 1, b"A"), batch(1, 1, 1, COMMIT, [RESET]), batch(2, 1, 6, COMMIT, [record(9, b"9")]),
    # nothing is stored again, by a LastWhole; a session without messages
    batch(2, 1, 7, LAST_WHOLE, [RESET]), batch(2, 1, 8, COMMIT, [set_next_incoming(3)]), batch(2, 1, 9, COMMIT, [record(1, b"one")]),
]

for name, frames in (("answers", answers), ("commits", commits), ("versions", versions), ("lowest", lowest)):
    text = joined(frame.hex() for frame in frames)
    if name == "lowest":
        text = joined(["", "0", "R 1", "0" * 16386]) + text.rstrip("\n")
    write(f"tests/frames/{name}.in", text)
    write(f"tests/frames/{name}.out", rust("rust-frames-program", text))

#!/usr/bin/env python3
"""Writes crates/vectors_frame/stdin, a list of frames in digits, and stdout, what the Rust answers to them (oracle/rust-frames).

Document 01's tables of kinds and changes are written out in wire.py; nothing here says what an answer is.
"""
import random
from collections.abc import Callable, Iterable

from wire import (
    RESET, ack, app_record, batch, bind, blob, bound, checked, framed, hello, joined, key, nack, record, record_none, run, rust, set_created_at, set_in_flight,
    set_marks, set_next_incoming, set_next_incoming_in_flight, u16, u32, u64, welcome, write,
)

EDGES = [0, 1, 255, 256, 2**32 - 1, 2**32, 2**63, 2**64 - 1]
STAMP, LONG = b"20261115-12:00:00", b"20261115-12:00:00.123"
EVERY = [
    set_next_incoming(1),
    set_next_incoming_in_flight(2, 0),
    set_in_flight(2**64 - 1),
    record(3, b"msg"),
    record(4, b""),
    record_none(2**63),
    RESET,
    set_created_at(STAMP),
    set_created_at(LONG),
    set_marks(b"m"),
    set_marks(b""),
]
lines: list[str] = []
seen: set[str] = set()


def say(*frames: bytes | str) -> None:
    """Frames, or lines as they are, each once."""
    for frame in frames:
        line = frame if isinstance(frame, str) else frame.hex()
        if line not in seen:
            seen.add(line)
            lines.append(line)


def say_texts(texts: Iterable[bytes], uses: Iterable[Callable[[bytes], bytes]]) -> None:
    """Each text, wherever it can stand."""
    uses = list(uses)
    say(*(use(text) for text in texts for use in uses))


# the starred points, the body limit, every kind byte with nothing behind it
say(b"", "00", "000000", "00000000", "00000004", "01000004", "06000000060900000001", "06000000060900000005")
say("ffffff03", "00000004ff", "01000004ff", "02000004", "00010004", "00000005", "0000000400", "ffffff7f", "00000080", "ffffffff")
say(*(framed(bytes([kind])) for kind in range(256)))

# lines that are no digits; the longest line that is answered
say("0", "0g", "0A", "A0", "00 00", "xyz", "1400000001010005000000000000000100000061000000000")
say(hello(node=b"n" * (8192 - 23)), batch(run([b"\6"] * (8192 - 34))), batch(run([record(1, b"m" * (8192 - 47))])))

# every kind, with each number at its edges
GOOD = [
    hello(),
    welcome(5, 7),
    bind(key()),
    batch(run([record(1, b"a")])),
    ack(9, 1),
    nack(1),
    bound(STAMP, b"m", (2, 3, 4), 5),
    checked(9, 5, 7),
    hello(2**16 - 1, 2**64 - 1, b"", [0, 1, 2**16 - 1]),
    batch(run(EVERY), run([app_record(1, b"x"), app_record(2**16 - 1, b"")]), part=2),
    bound(LONG, b"m" * 64, EDGES[5:8], 2**64 - 1, 2**32 - 1),
    bind(key(b"k" * 32, b" ", b"~", b"s" * 32), 2**32 - 1, 2**64 - 1, 2**64 - 1),
]
say(*GOOD)
for a, b in zip(EDGES, reversed(EDGES)):
    say(welcome(a, b), ack(a % 2**32, b), checked(b % 2**32, a, b), hello(a % 2**16, b), bind(key(), a % 2**32, a, b))
    say(bound(numbers=(a, b, a), last_outgoing=b), bound(numbers=(b, a, 0), handle=a % 2**32), nack(2, a % 2**32))
    say(batch(handle=a % 2**32, epoch=a, commit_no=b, part=1))
    say(*(batch(run([change])) for change in (set_next_incoming(a), set_next_incoming_in_flight(a, b), set_in_flight(b), record(a, b"z"), record_none(b))))

# every prefix, a body cut or longer behind a length that fits or doesn't, more behind a whole frame
for frame in GOOD:
    say(*(frame[:n] for n in range(len(frame))))
    say(framed(frame[4:-1]), framed(frame[4:] + b"\0"), frame + b"\0", frame + frame)
    say(u32(len(frame) - 5) + frame[4:], u32(len(frame) - 3) + frame[4:])
for frame in GOOD[:9]:
    say(*(framed(frame[4 : 4 + n]) for n in range(len(frame) - 4)))

# one byte changed at each position, and every value of a node's byte, a part, a count, a change, a reason, a stamp's byte
for frame in GOOD[:9]:
    for at in range(len(frame)):
        say(*(frame[:at] + bytes([value]) + frame[at + 1 :] for value in ((frame[at] + 1) % 256, frame[at] ^ 0x80, 255)))
for frame, at in ((0, 19), (3, 25), (3, 26), (3, 30), (5, 9), (6, 37)):
    say(*(GOOD[frame][:at] + bytes([value]) + GOOD[frame][at + 1 :] for value in range(256)))

# counts and lengths: what is left is just enough, one too little, and products that don't fit in 32 bits
for count in [0, 1, 2, 3, 4, 5, 0x2AAAAAAA, 0x2AAAAAAB, 2**31 - 1, 2**31, 2**31 + 1, 2**32 - 1]:
    for rest in (0, 1, 3, 4, 6, 7):
        say(framed(b"\1" + u16(1) + u64(0) + blob(b"") + u32(count) + bytes(rest)))
        say(framed(b"\1" + u16(1) + u64(0) + u32(count) + b"abcdefg"[:rest] + bytes(4)))
        say(framed(b"\1" + u16(1) + u64(0) + u32(count) + b"abcdefg"[:rest]))
        say(batch(u32(count) + b"\6" * rest), batch(u32(count) + b"\6" * rest, b""))
        say(batch(u32(1) + b"\4" + u64(1) + u32(count) + b"abcdefg"[:rest]), batch(u32(1) + b"\4" + u64(1) + u32(count) + b"abcdefg"[:rest], b""))
    for rest in (0, 5, 6, 7, 11, 12, 13, 17, 18, 19, 24, 30):
        say(batch(records=u32(count) + bytes(rest)))

# RFC 3629: both sides of every border, forms cut short; then wherever a text stands
BORDERS = (
    " 00 7f 80 bf c080 c1bf c280 dfbf c27f c2c0 c2 e08080 e09fbf e0a080 e0bfbf e18080 e1bfbf ec8080 ecbfbf ed8080 ed9fbf eda080 edbfbf ee8080 efbfbf "
    "e2827f e282c0 e282 e2 e27f80 e2c080 f0808080 f08fbfbf f0908080 f0bfbfbf f1808080 f3bfbfbf f4808080 f48fbfbf f4908080 f4bfbfbf f5808080 f7bfbfbf "
    "f8888080 fc8480808080 fe ff f09080 f090 f0 f090807f f09080c0 f0907f80 f090c080 f07f8080 f0c08080 f0908080c3 61c3a962 c3a9e282acf09f9880 "
    "41e289a2ce912e ed959ceab5adec96b4 e697a5e69cace8aa9e efbbbff0a38eb4 eda18cedbeb4 c3a980 6180 e28261"
)
say_texts(
    [bytes.fromhex(text) for text in BORDERS.split(" ")],
    [
        lambda t: hello(node=t),
        lambda t: hello(node=b"0123456789abcdef" * 3 + t + b"z"),
        lambda t: batch(run([set_created_at(t)])),
        lambda t: batch(run([set_marks(t)])),
        lambda t: bound(t),
        lambda t: bound(b"", t),
        lambda t: bind(key(begin=t)),
        lambda t: bind(key(suffix=t)),
        lambda t: batch(run([record(1, t)]), run([app_record(1, t)])),
    ],
)

# a byte that isn't ASCII at each place of a long text, good and bad, with nothing else set in the bytes about it
say(*(hello(node=bytes(at) + byte + bytes(80 - at)) for at in range(81) for byte in (b"\x80", b"\xc3\xa9", b"\xff")))

# stamps: each number at its limits and past them, each byte wrong in turn, each length
MENDS = [(0, "0000"), (0, "9999"), (4, "00"), (4, "01"), (4, "12"), (4, "13"), (4, "02"), (6, "00"), (6, "01"), (6, "31"), (6, "32"), (9, "00"), (9, "23"), (9, "24"), (12, "59"), (12, "60"), (15, "59"), (15, "60"), (15, "61"), (15, "99"), (4, "0230"), (9, "23:59:60")]
# the last day of each month and the day after it; 28, 29 and 30 February of leap years and others
MENDS += [(4, "%02d%02d" % (month, day + n)) for month, day in enumerate([31, 28, 31, 30, 31, 30, 31, 31, 30, 31, 30, 31], 1) for n in (0, 1)]
MENDS += [(0, "%04d02%d" % (year, day)) for year in (2023, 2024, 1900, 2000, 2100, 0) for day in (28, 29, 30)] + [(0, "99991231")]
STAMPS = [stamp[:at] + text.encode() + stamp[at + len(text) :] for stamp in (STAMP, LONG) for at, text in MENDS]
STAMPS += [stamp[:at] + bytes([byte]) + stamp[at + 1 :] for stamp in (STAMP, LONG) for at in range(len(stamp)) for byte in b"/:a "]
STAMPS += [LONG[:n] for n in range(22)] + [LONG + b"4", LONG + b"456", b" " + STAMP, STAMP + b" ", STAMP + b"Z", STAMP + b",123", STAMP + "\u00e9".encode()]
say_texts(STAMPS, [lambda t: batch(run([set_created_at(t)])), lambda t: bound(t)])

# marks of every length about 64, keys of every length about 32, each byte about the printable ones
MARKS = [b"m" * n for n in (0, 1, 2, 31, 32, 33, 63, 64, 65, 66, 200)] + [b"m" * 63 + bytes([b]) for b in (0x1F, 0x20, 0x7E, 0x7F)] + [bytes([b]) for b in range(0, 256, 3)]
say_texts(MARKS, [lambda t: batch(run([set_marks(t)])), lambda t: bound(b"", t)])
PARTS = [b"k" * n for n in (0, 1, 2, 31, 32, 33, 34, 200)] + [b"k" * 31 + bytes([b]) for b in (0x1F, 0x20, 0x7E, 0x7F)] + [bytes([b]) for b in (0, 0x1F, 0x20, 0x7E, 0x7F)] + ["\u00e9".encode()]
say_texts(PARTS, [lambda t: bind(key(begin=t)), lambda t: bind(key(sender=t)), lambda t: bind(key(target=t)), lambda t: bind(key(suffix=t))])

# two faults: the first in reading order decides, and a key is judged after its four texts
BAD = [b"", b"\x1f", b"k" * 33, b"\xff", b"ok"]
say(*(bind(key(a, b, c, d)) for a in BAD for b in BAD for c in (b"", b"\xff", b"ok") for d in (b"\x7f", b"\xff", b"k" * 33, b"ok", b"")))
for begin in (b"", b"ok", b"\xff"):
    whole = key(begin, b"A", b"", b"s")
    say(*(bind(whole[:n]) for n in range(len(whole))), bind(whole + b"\0"))
    say(bind(whole[:-5] + u32(2) + b"s"), bind(whole[:-5] + u32(2**32 - 1) + b"s"))
FAULTS = [b"\0", b"\11", b"\377", b"\1" + bytes(7), set_created_at(b"\xff"), set_created_at(b"x"), set_marks(b"\x7f"), set_marks(b"\xff"), b"\4" + u64(1) + u32(99), b"\6"]
say(*(batch(run([a, b]), records) for a in FAULTS for b in FAULTS for records in (run([]), u32(1), run([app_record(1, b"")]) + b"\0")))
say(*(batch(run([change]), part=part) for change in FAULTS for part in (0, 1, 2, 3, 4, 255)))
say(*(bound(stamp, marks) for stamp in (b"x", b"\xff", b"", STAMP) for marks in (b"\x7f", b"\xff", b"m" * 65, b"m")))
say(*(framed(bound(stamp, marks)[4:-1]) for stamp in (b"x", b"\xff", b"", STAMP) for marks in (b"\x7f", b"\xff", b"m" * 65, b"m")))

# anything: changes and records by chance, then a byte changed, cut or put in
chance = random.Random(4)


def pick(below: int) -> int:
    return chance.getrandbits(32) % below


for _ in range(120):
    changes = [EVERY[pick(len(EVERY))] for _ in range(pick(6))]
    records = [app_record(pick(2**16), bytes(pick(256) for _ in range(pick(4)))) for _ in range(pick(3))]
    frame = [batch(run(changes), run(records), pick(3)), hello(pick(4), pick(99), b"n" * pick(9), [pick(2**16) for _ in range(pick(4))])][pick(2)]
    say(frame)
    for _ in range(3):
        at = 4 + pick(len(frame) - 4)
        say(framed(frame[4:at] + [b"", bytes([pick(12)]), bytes([pick(256)]) + frame[at : at + 1]][pick(3)] + frame[at + 1 :]))

answers = rust("rust-frames", joined(lines))
write("crates/vectors_frame/stdin", joined(lines))
write("crates/vectors_frame/stdout", answers)

# every answer must be there: each refusal, each field of 3, each kind taken
counts: dict[str, int] = {}
for line in answers.splitlines():
    word = line.split(" ")
    name = " ".join(word[:2]) if word[0] == "R" else word[0]
    name = " ".join(word[:3]) if name == "R 3" else f"kind {int(word[1][8:10])}" if word[0].isdigit() else name
    counts[name] = counts.get(name, 0) + 1
wanted = ["?", "more"] + [f"R {n}" for n in (1, 2, 4, 5, 6, 7)] + [f"R 3 {field}" for field in ("kind", "part", "refusal", "change")]
assert set(counts) == set(wanted + [f"kind {n}" for n in range(1, 9)]), counts
print(len(lines), "lines;", ", ".join(f"{name} {counts[name]}" for name in sorted(counts)))

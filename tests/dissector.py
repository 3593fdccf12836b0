#!/usr/bin/env python3
"""Tests Wireshark's view of a line, share/wizhdulet.lua, through tshark: every field of every kind of frame beside what was written, frames that come in pieces and several at
once, and damaged ones. Some seconds.
"""
import random
import shutil
import struct
import subprocess
import sys
import tempfile
from pathlib import Path

ROOT = Path(__file__).resolve().parents[1]
sys.path.insert(0, str(ROOT / "tests/make"))
from checks import Checks  # noqa: E402
from console_captures import captured  # noqa: E402
from wire import RESET, ack, app_record, batch, bind, bound, checked, hello, key, nack, record, record_none, run, set_created_at, set_in_flight, set_marks, set_next_incoming, set_next_incoming_in_flight, welcome  # noqa: E402

FIELDS = "length kind version epoch node app_kind app_record incarnation handle max_lag begin sender target suffix commit part change outgoing incoming in_flight message stamp marks reason last_outgoing".split()  # fmt: skip
checks = Checks("dissector")
holds = checks.holds


def packets(segments: list[tuple[int, bytes]]) -> bytes:
    """A capture file: segments of a TCP line, 0 from the active and 1 from the standby on port 7411."""
    file = struct.pack("<IHHiIII", 0xA1B2C3D4, 2, 4, 0, 0, 262144, 101)
    sequence = [1, 1]
    for n, (way, data) in enumerate(segments):
        ports = (40000, 7411) if way == 0 else (7411, 40000)
        tcp = struct.pack(">HHIIBBHHH", *ports, sequence[way], sequence[1 - way], 0x50, 0x18, 65535, 0, 0) + data
        sequence[way] += len(data)
        packet = struct.pack(">BBHHHBBH4s4s", 0x45, 0, 20 + len(tcp), n, 0, 64, 6, 0, bytes([10, 0, 0, 1 + way]), bytes([10, 0, 0, 2 - way])) + tcp
        file += struct.pack("<IIII", n, 0, len(packet), len(packet)) + packet
    return file


def seen(segments: list[tuple[int, bytes]], *options: str) -> list[str]:
    return seen_in(packets(segments), *options)


def seen_in(bytes_: bytes, *options: str) -> list[str]:
    with tempfile.NamedTemporaryFile() as file:
        file.write(bytes_)
        file.flush()
        command = ["tshark", "-X", f"lua_script:{ROOT}/share/wizhdulet.lua", "-r", file.name, *options]
        done = subprocess.run(command, stdout=subprocess.PIPE, stderr=subprocess.PIPE)
        holds(done.returncode == 0 and b"Lua" not in done.stdout + done.stderr, f"tshark reads it: {done.stderr!r}")
        return done.stdout.decode().split("\n")[:-1]


def fields(segments: list[tuple[int, bytes]]) -> list[list[str]]:
    """Of each packet the values of each field, several behind one another."""
    options = [word for name in FIELDS for word in ("-e", f"wizhdulet.{name}")]
    return [row.split("\t") for row in seen(segments, "-T", "fields", "-E", "aggregator=;", *options)]


def written() -> list[tuple[bytes, dict[str, str]]]:
    """A frame of each kind, with the fields that were written."""
    changes = [set_next_incoming(3), set_next_incoming_in_flight(5, 4), set_in_flight(6), record(9, b"8=x\x01"), record_none(2**64 - 2), RESET, set_created_at(b"20261116-08:00:00"), set_marks(b"q B")]
    many = {"change": "1;2;3;4;5;6;7;8", "incoming": "3;5", "in_flight": "4;6", "outgoing": "9;18446744073709551614", "message": "383d7801", "stamp": "20261116-08:00:00", "marks": "q B"}
    head = {"handle": "7", "epoch": "5", "commit": "11"}
    return [
        (hello(2, 5, b"gw-a", [3, 4]), {"kind": "1", "version": "2", "epoch": "5", "node": "gw-a", "app_kind": "3;4"}),
        (welcome(5, 2**64 - 1), {"kind": "2", "epoch": "5", "incarnation": "18446744073709551615"}),
        (bind(key(b"FIX.4.4", b"A", b"B", b"s"), 7, 5, 2), {"kind": "3", "handle": "7", "epoch": "5", "max_lag": "2", "begin": "FIX.4.4", "sender": "A", "target": "B", "suffix": "s"}),
        (batch(run(changes), run([app_record(6, b"\x01\x02")]), 1, 7, 5, 11), {"kind": "4", "part": "1", "app_kind": "6", "app_record": "0102", **head, **many}),
        (batch(run([]), run([]), 2, 7, 5, 11), {"kind": "4", "part": "2", **head}),
        (ack(7, 11), {"kind": "5", "handle": "7", "commit": "11"}),
        (nack(3, 7), {"kind": "6", "handle": "7", "reason": "3"}),
        (bound(b"20261116-08:00:00", b"B", (8, 9, 1), 0xABC, 7), {"kind": "7", "handle": "7", "outgoing": "8", "incoming": "9", "in_flight": "1", "stamp": "20261116-08:00:00", "marks": "B", "last_outgoing": "0x0000000000000abc"}),
        (checked(7, 5, 12), {"kind": "8", "handle": "7", "epoch": "5", "incarnation": "12"}),
    ]  # fmt: skip


def main() -> None:
    if not shutil.which("tshark"):
        return print("dissector: no tshark: Wireshark's view of a line isn't looked at")
    frames = written()
    for row, (frame, told) in zip(fields([(0, frame) for frame, _ in frames]), frames, strict=True):
        told = {"length": str(len(frame) - 4), **told}
        holds(row == [told.get(name, "") for name in FIELDS], f"the fields of {told}: {dict(zip(FIELDS, row))}")
    # One stream, cut anywhere: the kinds of all frames in order.
    stream, draw = captured(1, 40).frames, random.Random(1)
    bytes_, at, segments = b"".join(stream), 0, []
    while at < len(bytes_):
        size = draw.choice([1, 3, 50, 400, 1400])
        segments.append((0, bytes_[at : at + size]))
        at += size
    column = FIELDS.index("kind")
    kinds = ";".join(row[column] for row in fields(segments) if row[column])
    holds(kinds == ";".join(str(frame[4]) for frame in stream), f"frames in pieces: {kinds}")
    info = seen([(0, b"".join(frame for frame, _ in frames[:4]))], "-T", "fields", "-e", "_ws.col.Info")
    holds(info == ["Hello epoch 5 node gw-a; Welcome epoch 5 incarnation 18446744073709551615; Bind 7 FIX.4.4 A -> B / s lag 2; "
        "Whole 7 #11 in 3 in 5 flight 4 flight 6 out 9 skip 18446744073709551614 reset since 20261116-08:00:00 marks q B"], f"several on one line: {info}")  # fmt: skip
    damaged = [struct.pack("<I", 0) + b"xx", b"GET / HTTP/1.1\r\n", batch(b"\x01\x00\x00\x00\x09"), bind(b"\xff\x00\x00\x00"), batch(struct.pack("<I", 9))]
    for frame in damaged:
        said = seen([(0, frame)], "-V")
        holds(any("a field reaches past the frame, or has an unknown byte" in row for row in said), f"a damaged frame is marked: {frame!r}")
    found = seen([(0, frame) for frame, _ in frames], "-Y", "wizhdulet.reason == 3", "-T", "fields", "-e", "frame.number")
    holds(found == ["7"], f"a filter finds the Nack: {found}")
    # A copy on disk, whole and cut short, with a frame that is too large for one packet.
    for left, copy in ((0, stream), (5, stream), (0, stream[:-1] + [batch(run([record(2**40, b"m" * 300000)])), stream[-1]])):
        bytes_ = b"".join(copy)
        kinds = seen_in(bytes_[: len(bytes_) - left], "-T", "fields", "-e", "wizhdulet.kind")
        holds(kinds == [str(frame[4]) for frame in copy][: len(copy) - (left > 0)], f"a copy is read: {kinds}")
    print(f"dissector: {len(frames)} frames, {checks.failed} tests failed")
    sys.exit(checks.failed != 0)


main()

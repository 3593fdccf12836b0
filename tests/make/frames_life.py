#!/usr/bin/env python3
"""Writes crates/frames/stdin and stdout, on which `rt ci` tests the program `frames`: document 01's two lines, then those of
oracle/recorded/frames/09-life.in and 11-versions.in with every epoch raised, since one standby answers them all; and what the Rust prints for them
(oracle/rust-frames-program).
"""
from wire import ROOT, joined, rust, write

# where a frame of a kind has its epoch
EPOCH_AT = {1: 7, 2: 5, 3: 9, 4: 9, 8: 9}


def recorded(name: str) -> list[str]:
    return (ROOT / "oracle/recorded/frames" / name).read_text().split()


def raised(line: str, by: int) -> str:
    frame = bytearray.fromhex(line)
    at = EPOCH_AT[frame[4]]
    epoch = int.from_bytes(frame[at : at + 8], "little") + by
    frame[at : at + 8] = epoch.to_bytes(8, "little")
    return frame.hex()


lists = (("09-life.in", 5), ("11-versions.in", 10))
text = joined(recorded("01-document.in") + [raised(line, by) for name, by in lists for line in recorded(name)])
write("crates/frames/stdin", text)
write("crates/frames/stdout", rust("rust-frames-program", text))

"""What the makers share: frames and changes byte by byte as document 01's tables have them, FNV-1a, asking the Rust, and writing files.

Nothing here says what an answer is. The names are those of frame.rs.
"""
import struct
import subprocess
import sys
from collections.abc import Iterable, Sequence
from pathlib import Path

ROOT = Path(__file__).resolve().parents[2]
TOP = 2**64 - 1
# the message bytes that a batch must exceed for a new one to start: on the head office's line, and on the branch line
BATCH_LIMIT, BRANCH_LIMIT = 1048576, 16384
FNV_START, FNV_PRIME = 0xCBF29CE484222325, 0x100000001B3

# a Batch's part
COMMIT, WHOLE, LAST_WHOLE = 0, 1, 2


# ---- numbers, texts and runs
def u16(number: int) -> bytes:
    return struct.pack("<H", number)


def u32(number: int) -> bytes:
    return struct.pack("<I", number)


def u64(number: int) -> bytes:
    return struct.pack("<Q", number)


def blob(data: bytes) -> bytes:
    return u32(len(data)) + data


def run(items: Sequence[bytes]) -> bytes:
    """A count, and that many items."""
    return u32(len(items)) + b"".join(items)


def framed(body: bytes) -> bytes:
    """A frame: the body behind its length."""
    return blob(body)


# ---- changes
RESET = b"\x06"


def set_next_incoming(seq: int) -> bytes:
    return b"\x01" + u64(seq)


def set_next_incoming_in_flight(seq: int, in_flight: int) -> bytes:
    return b"\x02" + u64(seq) + u64(in_flight)


def set_in_flight(seq: int) -> bytes:
    return b"\x03" + u64(seq)


def record(seq: int, message: bytes) -> bytes:
    return b"\x04" + u64(seq) + blob(message)


def record_none(seq: int) -> bytes:
    return b"\x05" + u64(seq)


def set_created_at(stamp: bytes) -> bytes:
    return b"\x07" + blob(stamp)


def set_marks(marks: bytes) -> bytes:
    return b"\x08" + blob(marks)


def app_record(kind: int, data: bytes) -> bytes:
    return u16(kind) + blob(data)


# ---- frames
def key(begin: bytes = b"FIX.4.4", sender: bytes = b"A", target: bytes = b"B", suffix: bytes = b"") -> bytes:
    return blob(begin) + blob(sender) + blob(target) + blob(suffix)


def hello(version: int = 1, epoch: int = 5, node: bytes = b"a", kinds: Iterable[int] = ()) -> bytes:
    return framed(b"\x01" + u16(version) + u64(epoch) + blob(node) + run([u16(kind) for kind in kinds]))


def welcome(epoch: int, incarnation: int) -> bytes:
    return framed(b"\x02" + u64(epoch) + u64(incarnation))


def bind(texts: bytes, handle: int = 9, epoch: int = 5, max_lag: int = 2) -> bytes:
    """`texts` are the key's four, as `key` writes them."""
    return framed(b"\x03" + u32(handle) + u64(epoch) + u64(max_lag) + texts)


def batch(changes: bytes = run([]), records: bytes = run([]), part: int = COMMIT, handle: int = 1, epoch: int = 2, commit_no: int = 3) -> bytes:
    """`changes` and `records` are runs, so that a wrong count can be given."""
    return framed(b"\x04" + u32(handle) + u64(epoch) + u64(commit_no) + bytes([part]) + changes + records)


def ack(handle: int, commit_no: int) -> bytes:
    return framed(b"\x05" + u32(handle) + u64(commit_no))


def nack(reason: int, handle: int = 9) -> bytes:
    return framed(b"\x06" + u32(handle) + bytes([reason]))


def bound(stamp: bytes = b"", marks: bytes = b"", numbers: Sequence[int] = (1, 1, 0), last_outgoing: int = 0, handle: int = 1) -> bytes:
    """`numbers` are next outgoing, next incoming and in flight."""
    return framed(b"\x07" + u32(handle) + b"".join(u64(number) for number in numbers) + blob(stamp) + blob(marks) + u64(last_outgoing))


def checked(handle: int, epoch: int, incarnation: int) -> bytes:
    return framed(b"\x08" + u32(handle) + u64(epoch) + u64(incarnation))


# ---- beyond frames
def fnv(data: bytes, value: int = FNV_START) -> int:
    """FNV-1a of 64 bits, on from a value."""
    for byte in data:
        value = (value ^ byte) * FNV_PRIME % 2**64
    return value


def message(number: int, length: int) -> bytes:
    """The message that a script names by its length: byte j of message n is (n + j) mod 2^64 mod 251."""
    return bytes((number + j) % 2**64 % 251 for j in range(length))


def rust(command: str, text: str) -> str:
    """What a command of oracle/ answers to a text; it needs rustc and the Rust's text."""
    asked = subprocess.run([ROOT / "oracle" / command], input=text, capture_output=True, text=True)
    if asked.returncode:
        sys.exit(asked.stderr or f"oracle/{command} ended with {asked.returncode}")
    return asked.stdout


def rust_calls(lines: Iterable[str]) -> list[str]:
    """The Rust's answers to a call script, line by line."""
    return rust("rust-calls", joined(lines)).split("\n")[:-1]


def joined(lines: Iterable[str]) -> str:
    return "\n".join(lines) + "\n"


def write(path: str, text: str) -> None:
    """Writes a file of the repository."""
    (ROOT / path).write_text(text)

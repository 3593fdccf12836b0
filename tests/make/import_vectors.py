#!/usr/bin/env python3
"""Writes the script of the program vectors_import, and what it must write: document 02's import of a FIX message log, read once more here.
No part of the proved code is asked. The log of tests/quickfix is held to the index that QuickFIX wrote, not to a reading of its messages.

    tests/make/import_vectors.py        from any folder; writes crates/vectors_import/stdin and stdout
"""

import re
from pathlib import Path

ROOT = Path(__file__).resolve().parents[2]
CRATE = ROOT / "crates" / "vectors_import"
TOP = 2**64 - 1
FIELD = re.compile(rb"([1-9][0-9]*)=([^\x01]+)\x01")

Message = tuple[int, bytes]


def fnv(data: bytes) -> int:
    """FNV-1a of 64 bits."""
    value = 0xCBF29CE484222325
    for byte in data:
        value = (value ^ byte) * 0x100000001B3 % 2**64
    return value


def one(file: bytes, at: int) -> tuple[int, int] | int:
    """The message that begins at an offset: its number and end, or 28, 29."""
    fields, end = list[tuple[bytes, bytes, int]](), at
    while not fields or fields[-1][0] != b"10":
        found = FIELD.match(file, end)
        if not found:
            return 28
        fields.append((found[1], found[2], end))
        end = found.end()
    if [tag for tag, _, _ in fields[:3]] != [b"8", b"9", b"35"]:
        return 28
    told, length = fields[-1][1], fields[1][1]
    numbers = [value for tag, value, _ in fields if tag == b"34"]
    if len(numbers) != 1 or not numbers[0].isdigit() or not length.isdigit() or len(told) != 3 or not told.isdigit():
        return 28
    if not 1 <= int(numbers[0]) <= TOP - 1:
        return 28
    ten, body = fields[-1][2], fields[2][2]
    if int(length) != ten - body or int(told) != sum(file[at:ten]) % 256:
        return 29
    return int(numbers[0]), end


def read(file: bytes) -> list[Message] | tuple[int, int]:
    """The messages of a file, or the first fault and the offset of its message."""
    messages, at, last = list[Message](), 0, 0
    while at < len(file):
        found = one(file, at)
        if isinstance(found, int):
            return found, at
        if found[0] <= last:
            return 30, at
        last, end = found
        messages.append((last, file[at:end]))
        at = end
    return messages


class Script:
    """Lines, and what they must give."""

    def __init__(self) -> None:
        self.lines, self.answers = list[str](), list[str]()
        self.file, self.keys, self.shape = b"", list[int](), (0, 0, 0)

    def store(self, places: int, c: int, m: int) -> None:
        self.lines.append(f"n {places} {c} {m}")
        self.keys, self.shape = [], (places, c, m)

    def holds(self, file: bytes) -> None:
        """The file is this one now."""
        text = file.replace(b"\x01", b"|").replace(b"\x80", b"~").replace(b"\n", b"^").decode("ascii")
        self.lines += ["x "] + [f"a {text[at : at + 120]}" for at in range(0, len(text), 120)]
        self.file = file

    def ask(self, key: int = 0, length: int | None = None, messages: list[Message] | None = None) -> None:
        """An import of the file's first bytes."""
        length = len(self.file) if length is None else length
        self.lines.append(f"i {key} {length}")
        places, c, m = self.shape
        if 66 + places * (16 + 2 * m) > 220 or places * (224 + c) > 8192 or c > 33_554_432 or m > 65_536:
            self.answers.append("R 25 0")
        elif key > 2:
            self.answers.append("R 5 0")
        elif key in self.keys or len(self.keys) >= places:
            self.answers.append("R 20 0")
        else:
            found = read(self.file[:length]) if messages is None else messages
            if isinstance(found, tuple):
                self.answers.append(f"R {found[0]} {found[1]}")
                return
            self.answers.append(self.taken(found))
            self.keys.append(key)

    def taken(self, messages: list[Message]) -> str:
        """What the program tells of a session that holds what Records make of these."""
        _, c, m = self.shape
        kept, out = list[Message](), 1
        for number, text in messages:
            out = number + 1
            if len(text) <= c and m > 0:
                kept.append((number, text))
                while len(kept) > m or sum(len(text) for _, text in kept) > c:
                    kept.pop(0)
        told = b"".join(number.to_bytes(8, "little") + len(text).to_bytes(8, "little") + text for number, text in kept)
        return f"place={len(self.keys)} out={out} count={len(kept)} hash={0 if out == 1 else fnv(told)}"

    def alone(self, file: bytes, places: int = 1, c: int = 400, m: int = 4) -> None:
        """A file in a store of its own."""
        self.store(places, c, m)
        self.holds(file)
        self.ask()


def made(*fields: str, length: str | None = None, told: str | None = None, head: str = "8=F|") -> bytes:
    """A message of these fields behind 8 and 9, with its length and sum, or with others."""
    body = "".join(field + "|" for field in fields).encode("latin-1").replace(b"|", b"\x01")
    text = head.encode().replace(b"|", b"\x01") + b"9=" + (length or str(len(body))).encode() + b"\x01" + body
    return text + b"10=" + (told or f"{sum(text) % 256:03}").encode() + b"\x01"


def number(n: int | str, *more: str) -> bytes:
    return made("35=0", f"34={n}", *more)


LOGON = "8=FIX.4.2|9=65|35=A|49=SERVER|56=CLIENT|34=177|52=20090107-18:15:16|98=0|108=30|10=062|".replace("|", "\x01").encode()
REPORT = (
    "8=FIX.4.2|9=178|35=8|49=PHLX|56=PERS|52=20071123-05:30:00.000|11=ATOMNOCCC9990900|20=3|150=E|39=E|55=MSFT|167=CS|54=1|38=15|40=2|44=15|"
    "58=PHLX EQUITY TESTING|59=0|47=C|32=0|31=0|151=15|14=0|6=0|10=128|"
).replace("|", "\x01").encode()


def fields(script: Script) -> None:
    """Each sentence on fields and messages, with the limits and one past them."""
    wide = "0" * 39
    for file in [
        b"", LOGON, REPORT, number(1), number("001"), number(wide + "2"), number(0), number(wide + "0"), number(TOP - 1), number(TOP), number(TOP + 1), number(TOP + 2),
        number("1" * 40), number("1a"), number("-1"), number(" 1"), made("35=0"), made("35=0", "34=1", "34=2"), made("35=0", "34=1", "34=1"), made("34=1", "35=0"), made("35=0", "58=x", "34=1"),
        number(1, "8=F", "9=3", "35=x"), number(1, "58=a=b", "59=\x80"), number(1, "58="), number(1, "058=a"), number(1, "0=a"), number(1, "=a"), number(1, "5x=a"), number(1, "58"), number(1, "a=b"),
        number(1, "3" * 40 + "=a"), number(1, "95=3", "96=a|b"), number(1, "95=5", "96=a|58=b"), number(1, "340=x", "100=y", "43=z"),
        made("35=0", "34=1", head="9=1|"), made("35=0", "34=1", head=""), made("35=0", "34=1", head="8=F|8=F|"), made("36=0", "34=1"), b"8=F\x0110=000\x01", b"10=000\x01", b"\x01", b"x",
    ]:
        script.alone(file)


def sums(script: Script) -> None:
    """Lengths and sums, right and false."""
    good = number(1)
    at = len(good) - 7
    right = sum(good[:at]) % 256
    for length in ["9", "11", "10", "0010", "0" * 38 + "10", "0", "18446744073709551626", "1" * 40, "1x", "+10"]:
        script.alone(made("35=0", "34=1", length=length))
    for told in [f"{(right + 1) % 256:03}", f"{(right - 1) % 256:03}", f"{right + 256:03}", "999", f"{right}", f"0{right:03}", "06a", "6 4"]:
        script.alone(good[:at] + b"10=" + told.encode() + b"\x01")
    for last in range(0, 256, 51):
        text = next(made("35=0", "34=1", "58=" + chr(97 + x) * y) for x in range(26) for y in range(1, 30) if sum(made("35=0", "34=1", "58=" + chr(97 + x) * y)[:-7]) % 256 == last)
        script.alone(text)


def order(script: Script) -> None:
    """Which fault is told: the first message's, and of it 28, 29, 30."""
    low, bad, wrong = number(1), made("35=0"), made("35=0", "34=1", told="999")
    for file in [
        low + number(2), low + number(1), number(5) + number(4), number(5) + number(6), number(TOP - 2) + number(TOP - 1), low + low + bad, low + wrong, low + bad + low, number(3) + wrong, low + low + wrong,
        number(2) + made("35=0", "34=1", length="9"), number(2) + made("35=0", "34=1", "34=1", told="999"), low + b"\n" + number(2), low + b"x", low + number(2)[:-1], number(177), number(3) + number(9) + number(40),
    ]:
        script.alone(file, m=6)


def limits(script: Script) -> None:
    """C, M, the store's places, keys, areas."""
    text = number(1, "58=" + "x" * 20)
    for c in [len(text) - 1, len(text), len(text) + 1]:
        script.alone(text, c=c)
    script.alone(text + number(2, "58=" + "y" * 20), c=len(text))
    script.alone(text + number(2), m=0)
    script.alone(text + number(2), c=0)
    script.alone(b"".join(number(n) for n in range(1, 9)), c=2000, m=4)
    script.alone(b"".join(number(n) for n in range(1, 9)), c=60, m=8)
    script.alone(text, places=0)
    script.store(3, 400, 4)
    script.holds(number(7))
    for key in [0, 0, 3, 1, 1, 2, 2, 3, 0]:
        script.ask(key)
    script.store(2, 400, 4)
    script.holds(b"x")
    for key in [3, 0]:
        script.ask(key)
    script.holds(b"")
    for key in [0, 1, 2]:
        script.ask(key)
    script.alone(LOGON, places=3, c=8192)
    script.alone(LOGON, places=1, c=100, m=70)


def changed(script: Script) -> None:
    """A file cut at every byte; single bytes changed."""
    file = LOGON + number(178) + number(200, "58=" + "z" * 40)
    script.holds(file)
    for length in range(len(file) + 1):
        script.store(1, 400, 4)
        script.ask(length=length)
    file = number(1, "58=ab") + number(3)
    script.holds(file)
    for at in range(len(file)):
        for byte in [1, 48, 61]:
            if file[at] != byte:
                script.lines.append(f"s {at} {byte}")
                script.file = file[:at] + bytes([byte]) + file[at + 1 :]
                script.store(1, 400, 4)
                script.ask()
                script.lines.append(f"s {at} {file[at]}")
                script.file = file


def quickfix(script: Script) -> None:
    """A log that a real engine wrote, with the numbers, offsets and lengths of its own index."""
    folder = ROOT / "tests" / "quickfix"
    body = (folder / "broker.body").read_bytes()
    index = [tuple(map(int, entry.split(","))) for entry in (folder / "broker.header").read_text().split()]
    after = int((folder / "broker.seqnums").read_text().split()[0])
    messages = [(n, body[at : at + length]) for n, at, length in index]
    assert sum(length for _, _, length in index) == len(body) and index[-1][0] + 1 == after
    assert any(later[0] > early[0] + 1 for early, later in zip(index, index[1:]))
    for c, m in [(5000, 20), (5000, 3), (600, 20)]:
        script.store(1, c, m)
        script.holds(body)
        script.ask(messages=messages)
        assert f"out={after} " in script.answers[-1]


def main() -> None:
    script = Script()
    for part in [fields, sums, order, limits, changed, quickfix]:
        part(script)
    text = "".join(line + "\n" for line in script.lines)
    assert len(text) <= 65_536, len(text)
    (CRATE / "stdin").write_text(text)
    (CRATE / "stdout").write_text("".join(answer + "\n" for answer in script.answers))


main()

#!/usr/bin/env python3
"""Writes captures for tests/console.py into tests/console: what an active sends that has three sessions (monday.cap), the same with one byte of one stored message changed
(tuesday.cap), and a line that breaks off within a whole sending (cut.cap). Raw bytes; every run writes the same.
"""
import random
from pathlib import Path

from wire import COMMIT, LAST_WHOLE, RESET, ROOT, WHOLE, batch, bind, checked, hello, key, record, record_none, run, set_created_at, set_next_incoming, set_next_incoming_in_flight

KEYS = [(b"FIX.4.4", b"BROKER", b"VENUE", b""), (b"FIX.4.2", b"BROKER", b"DARKPOOL", b"A"), (b"FIX.4.4", b"BROKER-LDN", b"VENUE", b"")]
INCARNATION = 4_242_424_242_424_242_424


def fix(texts: tuple[bytes, ...], number: int, draw: random.Random) -> bytes:
    """A new order, with its length and its sum."""
    body = b"35=D\x0134=%d\x0149=%s\x0156=%s\x0152=20261116-09:%02d:%02d\x0111=O%06d\x0155=VOD.L\x0154=1\x0138=%d\x0144=%d.%02d\x01" % (
        number, texts[1], texts[2], number // 60 % 60, number % 60, number, 100 * draw.randint(1, 50), draw.randint(1, 99), draw.randint(0, 99))  # fmt: skip
    text = b"8=%s\x019=%d\x01" % (texts[0], len(body)) + body
    return text + b"10=%03d\x01" % (sum(text) % 256)


class Active:
    def __init__(self, seed: int):
        self.draw = random.Random(seed)
        self.numbers = [[1, 1, 0] for _ in KEYS]
        self.frames = [hello(epoch=5, node=b"gw-a")] + [bind(key(*texts), 1 + i, 5, 0) for i, texts in enumerate(KEYS)]

    def send(self, i: int, changes: list[bytes], part: int = COMMIT) -> None:
        self.numbers[i][2] += 1
        self.frames.append(batch(run(changes), part=part, handle=1 + i, epoch=5, commit_no=self.numbers[i][2]))

    def commit(self, i: int) -> None:
        outgoing, incoming, number = self.numbers[i]
        changes = [set_created_at(b"20261116-08:00:00")] if number == 0 else []
        if self.draw.random() < 0.7:
            changes.append(record(outgoing, fix(KEYS[i], outgoing, self.draw)))
            self.numbers[i][0] += 1
        elif self.draw.random() < 0.1:
            changes.append(record_none(outgoing + 1))
            self.numbers[i][0] += 2
        if self.draw.random() < 0.5:
            self.numbers[i][1] += 1
            changes.append(set_next_incoming_in_flight(incoming + 1, incoming) if self.draw.random() < 0.3 else set_next_incoming(incoming + 1))
        self.send(i, changes)


def captured(seed: int, commits: int) -> Active:
    active = Active(seed)
    for n in range(commits):
        active.commit(n if n < len(KEYS) else active.draw.choice([0, 0, 0, 1, 1, 2]))
    active.frames.append(checked(99, 5, INCARNATION))
    return active


def main() -> None:
    folder = ROOT / "tests/console"
    active = captured(1, 100)
    monday = b"".join(active.frames)
    at = monday.index(b"34=7\x0149=BROKER\x0156=DARKPOOL")
    at = monday.index(b"55=VOD.L", at) + 3
    (folder / "monday.cap").write_bytes(monday)
    (folder / "tuesday.cap").write_bytes(monday[:at] + b"B" + monday[at + 1 :])
    active.send(1, [RESET, set_created_at(b"20261116-08:00:00"), record(1, fix(KEYS[1], 1, active.draw))], WHOLE)
    active.send(1, [record(2, fix(KEYS[1], 2, active.draw))], LAST_WHOLE)
    (folder / "cut.cap").write_bytes(b"".join(active.frames)[:-140])
    few = captured(2, 8)
    (folder / "few.cap").write_bytes(b"".join(few.frames))


if __name__ == "__main__":
    Path(ROOT / "tests/console").mkdir(exist_ok=True)
    main()

#!/usr/bin/env python3
"""Writes the sets of copies that crates/vectors_choice replays, and what it must write: each line's answer is found here by trying
every copy against every other on every key, straight from the words of request U13.

    tests/make/choice_vectors.py          writes crates/vectors_choice/stdin and stdout
"""
import itertools
import random
from dataclasses import dataclass, field
from pathlib import Path

MOST = 5
PLACES = 3


@dataclass
class Copy:
    listed: int = 1
    checked: int = 1
    epoch: int = 1
    sessions: list[tuple[int, int]] = field(default_factory=list)
    # How many sessions are in use, if not all of these; above PLACES it breaks the rules of the store.
    used: int | None = None

    def count(self) -> int:
        return len(self.sessions) if self.used is None else self.used

    def number(self, key: int) -> int:
        """The next outgoing number of a key, the largest of its sessions; 1 where it has none."""
        return max([1] + [number for its_key, number in self.sessions if its_key == key])

    def words(self) -> list[int]:
        padded = (self.sessions + [(0, 0)] * PLACES)[:PLACES]
        return [self.listed, self.checked, self.epoch, self.count(), *itertools.chain(*padded)]


def answer(copies: list[Copy]) -> str:
    """The number of the copy that takes over, or the refusal."""
    if any(copy.listed and copy.count() > PLACES for copy in copies):
        return "R 25"
    checked = [copy for copy in copies if copy.listed and copy.checked]
    candidates = [copy for copy in checked if all(copy.epoch >= other.epoch for other in checked)]
    keys = {key for copy in candidates for key, _ in copy.sessions}

    def fits(copy: Copy) -> bool:
        others = [other for other in candidates if other is not copy]
        return all(copy.number(key) >= other.number(key) for other in others for key in keys)

    for i, copy in enumerate(copies):
        if any(copy is candidate for candidate in candidates) and fits(copy):
            return str(i)
    return "R 39"


def line(copies: list[Copy]) -> str:
    all_five = copies + [Copy(listed=0) for _ in range(MOST - len(copies))]
    return "C " + " ".join(str(word) for copy in all_five for word in copy.words())


def named() -> list[list[Copy]]:
    """Each case of the request once."""
    a, b, c = 65, 66, 67
    top = 2**64 - 1
    apart = [Copy(sessions=[(a, 5), (b, 4)]), Copy(sessions=[(a, 4), (b, 5)])]
    return [
        [],
        [Copy(listed=0, sessions=[(a, 9)])],
        [Copy(checked=0, sessions=[(a, 9)])],
        [Copy()],
        [Copy(sessions=[(a, 5)]), Copy(sessions=[(a, 6)])],
        [Copy(sessions=[(a, 6)]), Copy(sessions=[(a, 5)])],
        [Copy(sessions=[(a, 5), (b, 4)]), Copy(sessions=[(b, 4), (a, 5)])],
        [Copy(sessions=[(a, 9)]), Copy(sessions=[(a, 9), (b, 2)])],
        [Copy(sessions=[(a, 9)]), Copy(sessions=[(a, 9), (b, 1)])],
        [Copy(sessions=[(a, 0)]), Copy(sessions=[(a, 1)])],
        apart,
        apart + [Copy(sessions=[(b, 5), (a, 5)])],
        apart + [Copy(sessions=[(c, 2), (b, 5), (a, 5)]), Copy(sessions=[(b, 5), (a, 5), (c, 2)])],
        [Copy(epoch=2, sessions=[(a, 5)]), Copy(epoch=7, checked=0, sessions=[(a, 6)])],
        [Copy(sessions=[(a, 9)]), Copy(epoch=2, sessions=[(a, 5)]), Copy(epoch=2, checked=0, sessions=[(a, 7)])],
        [Copy(listed=0, epoch=9, used=4), Copy(epoch=1, sessions=[(a, 5)])],
        [Copy(epoch=9, sessions=[(a, 5)]), Copy(checked=0, used=4)],
        [Copy(sessions=[(a, 5)]), Copy(listed=0), Copy(listed=0), Copy(listed=0), Copy(listed=255, checked=7, sessions=[(a, 6)])],
        [Copy(epoch=top, sessions=[(a, top)]), Copy(epoch=top, sessions=[(a, top - 1)])],
        [Copy(sessions=[(a, 5), (a, 8)]), Copy(sessions=[(a, 7)])],
    ]


def by_chance(seed: int, count: int) -> list[list[Copy]]:
    draw = random.Random(seed)

    def copy(epochs: int) -> Copy:
        keys = draw.sample([65, 66, 67, 68], draw.randint(1, PLACES))
        sessions = [(key, draw.choice([0, 1, 2, 2, 3])) for key in keys]
        used = 4 if draw.random() < 0.02 else None
        return Copy(int(draw.random() < 0.9), int(draw.random() < 0.8), draw.randint(0, epochs), sessions, used)

    return [[copy(draw.randint(0, 2)) for _ in range(draw.randint(1, MOST))] for _ in range(count)]


def main() -> None:
    sets = named() + by_chance(13, 400)
    answers = [answer(copies) for copies in sets]
    missing = {"0", "1", "2", "3", "4", "R 25", "R 39"} - set(answers)
    if missing:
        raise SystemExit(f"no set is answered with {sorted(missing)}")
    crate = Path(__file__).resolve().parents[2] / "crates" / "vectors_choice"
    (crate / "stdin").write_text("\n".join(map(line, sets)) + "\n")
    (crate / "stdout").write_text("\n".join(answers) + "\n")


if __name__ == "__main__":
    main()

#!/usr/bin/env python3
"""Writes stdin and stdout of crates/vectors_lease: scripts of questions and attempts on leases, and the Rust's answers.

The answers come from oracle/rust-lease (which needs rustc and the Rust's text): lease.rs over a clock that is handed in. By rule, without
the Rust: 31, and what is said of a lease once it is lost.
"""
import os, random, subprocess, sys

ROOT = os.path.join(os.path.dirname(os.path.abspath(__file__)), "..", "..")
TOP, INPUT = 2**64 - 1, 65536
OUTCOMES = ("ok", "failed", "deposed")


def due(times: list[int]) -> list[str]:
    return [f"due {t}" for t in times]


def halves() -> list[str]:
    """Every length from 0 to 12 about its half and its end, then the longest two and odd ones."""
    lines: list[str] = []
    for d in list(range(13)) + [1001, 2**63 - 1, 2**63, TOP - 2, TOP - 1, TOP]:
        half, end = max(0, min(1000 + d, TOP) - d // 2), min(1000 + d, TOP)
        times = {1000, half - 1, half, half + 1, end - 1, end, end + 1, TOP}
        lines += [f"{d} 1000"] + due(sorted(t for t in times if 1000 <= t <= TOP))
    return lines


def ends() -> list[str]:
    """The end from the making and from a success: at the cap, one before it and past it; from the start, not the outcome."""
    lines: list[str] = []
    for d in (0, 1, 10, TOP - 1, TOP):
        for made in (0, 1, TOP - 11, TOP - 10, TOP - 9, TOP - 1, TOP):
            lines += [f"{d} {made}", f"try {made} {made} failed"]
            lines += [f"{d} {made}", f"try {made} {made} ok", f"try {made} {min(made + 5, TOP)} ok"]
    lines += ["10 100", "try 105 200 ok", "due 200", "try 200 200 failed", "10 100", "try 105 109 ok", "due 109", "due 110"]
    return lines


def losses() -> list[str]:
    """A failure before, at and past the end; deposed at once, due or not; nothing revives the lease."""
    lines: list[str] = []
    for outcome in OUTCOMES:
        for now in (100, 104, 105, 109, 110, 111, TOP):
            for start in {100, min(now, 106), now}:
                lines += ["10 100", f"try {start} {now} {outcome}", f"due {now}", f"try {now} {now} ok", f"due {TOP}", f"try {TOP} {TOP} deposed"]
    return lines


def refusals() -> list[str]:
    """31 for each time that falls, with nothing changed after it: the same time is taken at last."""
    lines: list[str] = []
    for outcome in OUTCOMES:
        lines += ["10 100", "due 99", "due 0", "due 100", "due 104", "due 103", "due 104"]
        lines += [f"try 103 120 {outcome}", f"try 108 107 {outcome}", f"try 108 103 {outcome}", f"try {TOP} 0 {outcome}", "due 104"]
        lines += [f"try 104 104 {outcome}", "due 103", f"try 103 110 {outcome}", f"try 104 110 {outcome}", "due 109", "due 110"]
    return lines


def by_chance(chance: random.Random) -> list[str]:
    d = chance.choice([0, 1, 2, 7, 10, 11, 1000, TOP - 1, TOP, chance.randrange(TOP)])
    last = chance.choice([0, 100, TOP - 30, chance.randrange(TOP)])
    end, lines = min(last + d, TOP), [f"{d} {last}"]
    for _ in range(8):
        near = [last, last + 1, last + chance.randrange(8), end, end - d // 2, end - d // 2 - 1, max(last - 1, 0)]
        low = last if chance.random() < 0.9 else 0
        start = min(max(chance.choice(near), low), TOP)
        if chance.random() < 0.4:
            lines.append(f"due {start}")
            last = max(last, start)
            continue
        now = min(max(start + chance.choice([0, 0, 1, 5, d] * 3 + [-1]), 0), TOP)
        outcome = chance.choices(OUTCOMES, [6, 5, 1])[0]
        lines.append(f"try {start} {now} {outcome}")
        if last <= start <= now:
            last, end = now, min(start + d, TOP) if outcome == "ok" else end
    return lines


def rust(text: str) -> str:
    run = subprocess.run([os.path.join(ROOT, "oracle", "rust-lease"), "several"], input=text, capture_output=True, text=True)
    if run.returncode:
        sys.exit(run.stderr or f"oracle/rust-lease ended with {run.returncode}")
    return run.stdout


def main() -> None:
    chance = random.Random(6)
    lines = halves() + ends() + losses() + refusals()
    while sum(len(line) + 1 for line in lines) < INPUT - 1000:
        lines += by_chance(chance)
    text = "\n".join(lines) + "\n"
    if len(text) > INPUT:
        sys.exit("the scripts are longer than the program's input")
    for name, what in (("stdin", text), ("stdout", rust(text))):
        with open(os.path.join(ROOT, "crates", "vectors_lease", name), "w") as file:
            file.write(what)


main()

#!/usr/bin/env python3
"""Writes stdin and stdout of crates/vectors_books: scripts of the books of a catch-up, and the Rust's answers.

The answers come from oracle/rust-books (which needs rustc and the Rust's text): active.rs over a HashSet that keeps an order, and 27 for a 257th
session. By rule, without the Rust: 25 for an area that is too short or whose counts are above 256, and the count of openings at its end.
"""
import os, random, subprocess, sys

ROOT = os.path.join(os.path.dirname(os.path.abspath(__file__)), "..", "..")
TOP, INPUT = 2**64 - 1, 65536


def listed(name: str, sessions: list[int], incarnation: int | None = None) -> str:
    return " ".join([name] + ([] if incarnation is None else [str(incarnation)]) + [str(s) for s in sessions])


def caught(sessions: list[int], incarnation: int) -> list[str]:
    return [f"compared {s} {incarnation}" for s in sessions]


def one_by_one(sessions: list[int], incarnation: int) -> list[str]:
    """A pass over a listing: each of so many picked ones is caught up, and the next is asked for."""
    lines: list[str] = []
    for s in sessions:
        lines += [listed("next", [1, 2, 3, 4, 5], incarnation), f"compared {s} {incarnation}", f"ended {s} {incarnation}"]
    return lines + [listed("next", [1, 2, 3, 4, 5], incarnation)]


def orders() -> list[str]:
    """Those behind in the order they fell, one who is behind keeps the place, fallen again is last; together in the order first met; then the listing."""
    lines = ["make", "behind 4", "behind 2", "behind 4", "behind 9", "is 4", "is 3", *one_by_one([4, 2, 9, 1, 3, 5], 7), listed("check", [1, 2, 3], 7)]
    lines += ["make", "behind 4", "behind 2", "behind 3", "compared 4 7", "behind 4", "behind 2", *one_by_one([2, 3, 4, 1, 5], 7)]
    lines += ["make", "open 3", "open 1", "open 2", "pass 7", "close 1", "close 2", "close 3", *one_by_one([3, 1, 2, 4, 5], 7)]
    lines += ["make", "close 5", "ended 3 7", "behind 2", listed("all", [1, 2, 3, 4, 5, 4]), *one_by_one([2, 5, 3, 1, 4], 7)]
    lines += ["make", listed("check", [5, 4], 7), listed("next", [3], 7), "ended 3 7", listed("all", [3, 4, 5]), *one_by_one([5, 4, 3, 1, 2], 7)]
    return lines


def openings() -> list[str]:
    """An open one is never picked, also behind; wait counts nothing; as many closings as openings; none is being caught up where none is picked."""
    lines = ["make", "open 1", "open 1", listed("next", [1, 2], 7), "open 2", "open 3", listed("next", [1], 7), "open 2", "close 1", listed("next", [1], 7)]
    lines += ["close 1", listed("next", [1], 7), "open 1", "open 1", "ended 1 7", "open 1", "close 1", listed("next", [1], 7)]
    lines += ["make", "close 8", "close 8", "open 8", listed("next", [8], 7), "close 8", listed("next", [8], 7), "open 8", listed("next", [], 7), "open 8"]
    lines += ["make", "behind 1", "open 1", listed("next", [1], 7), listed("check", [], 7), "pass 7", "close 1", listed("next", [1], 7), listed("next", [1], 7)]
    lines += ["make", *caught([1, 2], 7), "open 1", "open 2", "compared 1 8", "pass 8", "is 1", "is 2", "pass 7", "is 1"]
    return lines


def told() -> list[str]:
    """Nothing behind, all listed compared, and not the last acknowledged; 0 is an incarnation like any other."""
    lines = ["make", listed("check", [], 0), listed("check", [1], 0), "compared 1 0", listed("check", [1], 0), "acked 0", listed("check", [1], 0), "acked 7"]
    lines += [listed("check", [1], 0), listed("next", [1], 0), "ended 1 0", "ended 1 7", "ended 2 0"]
    lines += ["make", *caught([1, 2, 3], 7), listed("check", [1, 2, 3], 7), "acked 7", listed("check", [1, 2, 3], 7), *caught([1, 2, 3], 8)]
    lines += [listed("check", [1, 2, 3], 8), "acked 8", *caught([1, 2, 3], 7), listed("check", [1, 2, 3], 7), listed("check", [1, 2, 3, 4], 7)]
    lines += ["behind 9", listed("check", [1, 2, 3], 7), "compared 9 6", listed("check", [1, 2, 3], 7), listed("check", [9], 7), listed("check", [9, 9], 6)]
    # a pass in which the standby restarts: X is behind and not listed
    lines += ["make", "behind 9", "pass 7", listed("next", [1], 7), "compared 9 8", "ended 9 7", "compared 1 7", listed("check", [1], 7)]
    return lines


def full() -> list[str]:
    """256 sessions, and each call with a 257th; a refused listing meets none of its own."""
    all_of_them = list(range(1000, 1256))
    new = ["behind 1", "compared 1 7", "open 1", "close 1", "ended 1 7", listed("all", [1]), listed("next", [1000, 1], 7), listed("check", [1], 7)]
    lines = ["make", listed("next", all_of_them, 7), *new, "is 1", "is 1000", "open 1001", "pass 7", "is 1001", "close 1001", "acked 7"]
    lines += [listed("next", [1255, 1254], 7), "compared 1255 7", "ended 1255 7", "behind 1255", "behind 1000", listed("next", [], 7)]
    lines += ["make", listed("all", all_of_them[:255] + all_of_them[:45]), listed("all", [1, 2]), listed("next", [2, 1], 7), listed("check", [1, 1000, 2], 7)]
    lines += ["open 2", "open 1", "open 3", "is 3", "is 2", listed("all", [2, 1254, 2]), listed("next", [], 7), listed("all", all_of_them)]
    return lines


def by_chance(chance: random.Random) -> list[str]:
    sessions = chance.choice([3, 4, 6])
    lines = ["make"]
    for _ in range(chance.randrange(10, 40)):
        s, i = chance.randrange(sessions), chance.choice([0, 7, 7, 8])
        listing = [chance.randrange(sessions) if chance.random() < 0.2 else k for k in range(chance.randrange(sessions + 1))]
        calls = [f"behind {s}", f"compared {s} {i}", f"compared {s} {i}", f"open {s}", f"close {s}", f"ended {s} {i}", f"is {s}", f"pass {i}", f"acked {i}"]
        lines.append(chance.choice(calls + [listed("next", listing, i), listed("next", listing, i), listed("check", listing, i), listed("all", listing)]))
    return lines


def by_rule() -> tuple[list[str], list[str]]:
    """Lines without the Rust, and what is written for them."""
    calls = ["behind 1", listed("all", [1, 2]), "compared 1 7", "pass 7", listed("next", [1], 7), "open 1", "close 1", "ended 1 7", listed("check", [1], 7), "acked 7", "is 1"]
    lines, answers = ["lend 0", "make", *calls, "lend 1", "make"], ["R 25"] * (len(calls) + 1)
    for word in (0, 1):
        for value in (257, TOP):
            lines += [f"word {word} {value}", *calls, "make"]
            answers += ["R 25"] * len(calls)
    # 25 before 27
    lines += ["make", listed("next", list(range(300)), 7), "word 1 257", listed("next", list(range(300)), 7), "make"]
    answers += ["R 27", "R 25"]
    # the count of openings stays at its end, and a flag is any word but 0
    lines += ["open 5", f"word 262 {TOP}", "open 5", "close 5", "open 5", "open 5", "word 262 1", "close 5", listed("next", [5], 7)]
    answers += ["ok", "ok", "ok", "ok", "ok", "ok", "5"]
    lines += ["make", f"word 2 {TOP}", "word 3 6", "open 6", "open 5", "word 4 9", "word 5 3", listed("check", [], 3), listed("check", [], 4), f"word 1299 {TOP}"]
    answers += ["wait", "ok", "0", "1"]
    return lines, answers


def main() -> None:
    chance = random.Random(23)
    lines = orders() + openings() + told() + full()
    while len("\n".join(lines)) < 50_000:
        lines += by_chance(chance)
    answers = subprocess.run([os.path.join(ROOT, "oracle", "rust-books"), "several"], input="\n".join(lines) + "\n", text=True, capture_output=True, check=True).stdout
    if "?" in answers:
        sys.exit("a line that isn't a call")
    more, by = by_rule()
    text = "\n".join(lines + more) + "\n"
    if len(text) > INPUT:
        sys.exit(f"{len(text)} bytes: more than the program reads")
    folder = os.path.join(ROOT, "crates", "vectors_books")
    with open(os.path.join(folder, "stdin"), "w") as f:
        f.write(text)
    with open(os.path.join(folder, "stdout"), "w") as f:
        f.write(answers + "\n".join(by) + "\n")
    print(f"{len(lines) + len(more)} lines, {len(answers.splitlines()) + len(by)} answers")


if __name__ == "__main__":
    main()

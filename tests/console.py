#!/usr/bin/env python3
"""Tests the console, target/host/wizhdulet (host/build builds it first): recorded screens, also on a terminal of 80 columns, captures cut at every length and with turned bits,
drift that must be named, messages against what they say and against a QuickFIX engine's log, wrong usage. Half a minute.

console.py [--record]   --record writes tests/console/screens.txt anew
"""
import datetime
import os
import random
import re
import shutil
import subprocess
import sys
import tempfile
import time
from pathlib import Path

ROOT = Path(__file__).resolve().parents[1]
sys.path.insert(0, str(ROOT / "tests/make"))
from checks import Checks  # noqa: E402
from console_captures import KEYS, captured, fix  # noqa: E402
from wire import bind, batch, checked, hello, key, record, record_none, run as run_of, set_created_at, set_in_flight, set_marks, set_next_incoming_in_flight, set_next_incoming  # noqa: E402

HERE = ROOT / "tests/console"
QUICKFIX = "--log ../quickfix/broker.body --key FIX.4.4,BROKER,VENUE"
WIDE = "K" * 31 + "0," + "S" * 32 + "," + "T" * 32 + "," + "U" * 32
SCREENS = [
    "show few.cap", "show monday.cap", "show cut.cap", "show --sessions 1 few.cap", "show few.cap monday.cap", "show --tsv monday.cap", "frames few.cap", "frames --tsv few.cap",
    "check monday.cap monday.cap", "check monday.cap tuesday.cap", "check few.cap monday.cap",
    "check --self monday.cap", "check --self wrong.tmp", f"check quickfix.tmp {QUICKFIX}", f"check behind.tmp {QUICKFIX}", f"check other.tmp {QUICKFIX}",
    "check quickfix.tmp --log ../quickfix/broker.body", "check quickfix.tmp --log ../quickfix/broker.body --key FIX.4.4,BROKER", "check monday.cap --log monday.cap --key FIX.4.4,BROKER,VENUE",
    "resend monday.cap --key FIX.4.4,BROKER,VENUE 5-10 8-12 31-0", "resend --tsv monday.cap --key FIX.4.4,BROKER,VENUE 5-10 8-12 31-0", "resend monday.cap --key FIX.4.4,BROKER,VENUE 5-4",
    "resend monday.cap --key FIX.4.4,BROKER,NOBODY 1-0", "resend monday.cap --key FIX.4.4,BROKER,VENUE five", "resend monday.cap 1-0",
    "choose monday.cap tuesday.cap", "choose few.cap monday.cap cut.cap", "choose ahead.tmp monday.cap", "choose behind.tmp newer.tmp monday.cap", "choose a b c d e f",
    "show wide.tmp", "frames wide.tmp", "check wide.tmp few.cap", "check --self wide.tmp", "promote wide.tmp --unchecked --lag 7", f"resend wide.tmp --key {WIDE} 1-0 7-7", "choose wide.tmp ahead.tmp", "show wide.tmp wide.tmp",
    "promote monday.cap --lag 5 --expect BROKER,VENUE=35 --expect BROKER,DARKPOOL=40", "promote cut.cap --expect BROKER", "promote ../../crates/table/stdin --sessions 4",
    "promote ../../crates/table/stdin --unchecked --sessions 4 --bytes 4096 --messages 64", "audit life.tmp answers.tmp",
    "show ../../crates/table/stdin --sessions 4 --bytes 4096 --messages 64 --handles 4",
    "frames ../../oracle/recorded/frames/09-life.in", "show ../../oracle/recorded/frames/09-life.in", "explain 21", "explain 99", "version", "show", "show nothing.cap", "show .",
    "show ../../README.md", "show answers.tmp", "show --sessions", "show --other few.cap", "frames few.cap monday.cap", "show few.cap --bytes 40000000",
    "show few.cap --sessions 4294967295",
]  # fmt: skip
checks = Checks("console")
holds = checks.holds


def run(*arguments: str, **more) -> subprocess.CompletedProcess:
    more = {"stdout": subprocess.PIPE, "stderr": subprocess.PIPE, "cwd": HERE, **more}
    return subprocess.run([PROGRAM, *arguments], **more)


def frames_of(capture: bytes) -> list[int]:
    """Where each frame ends."""
    ends, at = [], 0
    while at + 4 <= len(capture) and at + 4 + int.from_bytes(capture[at : at + 4], "little") <= len(capture):
        at += 4 + int.from_bytes(capture[at : at + 4], "little")
        ends.append(at)
    return ends


def screens() -> None:
    text = ""
    for line in SCREENS:
        done = run(*line.split())
        said = done.stdout.decode() + done.stderr.decode()
        text += f"$ wizhdulet {line}\n{said}status {done.returncode}\n\n"
        if "--tsv" not in line:
            holds(all(len(row) <= 80 for row in said.split("\n")), f"no line of '{line}' has more than 80 columns")
    if "--record" in sys.argv:
        (HERE / "screens.txt").write_text(text)
    recorded = (HERE / "screens.txt").read_text()
    for now, then in zip(text.split("$ wizhdulet "), recorded.split("$ wizhdulet ")):
        holds(now == then, f"the screen is the recorded one:\n{now}")
    holds(text == recorded, "all screens are recorded")
    shown = run("show", "tests/console/cut.cap", cwd=ROOT).stdout.decode()
    indented = "".join(f"    {row}\n" if row else "\n" for row in shown.rstrip("\n").split("\n"))
    holds(f"    $ bin/wizhdulet show tests/console/cut.cap\n{indented}\n" in (ROOT / "README.md").read_text(), "README shows the screen of its first command")


def cuts() -> None:
    """At every length: what is shown is what the whole frames leave."""
    capture = (HERE / "few.cap").read_bytes()
    ends = frames_of(capture)
    whole: dict[int, bytes] = {}
    for length in range(len(capture) + 1):
        end = max([end for end in ends if end <= length], default=0)
        done = run("show", "--tsv", "-", input=capture[:length])
        if length == end:
            whole[end] = done.stdout
        expected = 0 if length == len(capture) else 1
        holds(done.returncode == expected and done.stdout == whole.get(end, whole[0]), f"few.cap cut at {length}: {done}")


def bits() -> None:
    """Turned bits: never a crash."""
    draw = random.Random(1)
    capture = (HERE / "few.cap").read_bytes()
    for n in range(2000):
        copy = bytearray(capture)
        for _ in range(1 + draw.randrange(4)):
            copy[draw.randrange(len(copy))] ^= 1 << draw.randrange(8)
        done = run(draw.choice(["show", "frames"]), "-", input=bytes(copy))
        holds(done.returncode in (0, 1, 2) and b"panicked" not in done.stderr, f"copy {n} with turned bits: {done.returncode} {done.stderr!r}")


def drift() -> None:
    """One byte of a message, one number, one mark, one missing session: each is named."""
    plain = b"".join(captured(1, 60).frames)
    (HERE / "plain.tmp").write_bytes(plain)

    def differs(name: str, other: bytes, *words: str) -> None:
        done = run("check", "plain.tmp", "-", input=other)
        said = done.stdout.decode()
        holds(done.returncode == 1 and all(word in said for word in words), f"{name}: {done}")

    def with_changes(*changes: bytes) -> bytes:
        active = captured(1, 60)
        active.send(1, list(changes))
        return b"".join(active.frames)

    at = plain.index(b"38=") + 3
    differs("a byte of a message", plain[:at] + b"9" + plain[at + 1 :], "message", "Both copies answer Bind and Checked alike")
    differs("a number", with_changes(set_next_incoming(77)), "next incoming", "77")
    differs("a mark", with_changes(set_marks(b"q")), "marks", "q")
    few = captured(1, 60)
    few.frames = [frame for frame in few.frames if not (frame[4] in (3, 4) and int.from_bytes(frame[5:9], "little") == 3)]
    differs("a session", b"".join(few.frames), "FIX.4.4 BROKER-LDN -> VENUE", "only in plain.tmp")
    done = run("check", "plain.tmp", "-", input=plain)
    holds(done.returncode == 0 and b"the same" in done.stdout, f"the same copy: {done}")
    digits = " ".join(plain.hex()[i : i + 6].upper() for i in range(0, 2 * len(plain), 6)) + "\r\n"
    done = run("check", "plain.tmp", "-", input=digits.encode())
    holds(done.returncode == 0, f"the same copy in hexadecimal digits: {done}")
    (HERE / "plain.tmp").unlink()


def audits() -> None:
    """The answers that the Rust gave are right ones; with any byte of any answer changed, that answer is named."""
    answers = (HERE / "answers.tmp").read_text().split()
    holds(run("audit", "life.tmp", "answers.tmp").returncode == 0, "the recorded answers are right")
    for i, answer in enumerate(answers):
        for at in range(8, len(answer), 2):
            changed = answer[:at] + f"{int(answer[at : at + 2], 16) ^ 0x41:02x}" + answer[at + 2 :]
            done = run("audit", "life.tmp", "-", input="\n".join(answers[:i] + [changed] + answers[i + 1 :]).encode())
            # The first Welcome names the incarnation that the standby drew.
            drawn = i == 0 and at >= 26
            named = f"NOT THE SAME  frame {i + 1} ".encode() in done.stdout
            holds(drawn or (done.returncode == 1 and named), f"answer {i + 1} with byte {at // 2} changed: {done}")
    done = run("audit", "life.tmp", "-", input="\n".join(answers[:-1]).encode())
    holds(done.returncode == 1 and b"missing" in done.stdout, f"an answer is missing: {done}")


def versions() -> None:
    """A line in both versions: the answers that the Rust gave to what it took are right ones. What is refused changes nothing but the durable mark."""
    asked, answered = ((ROOT / f"oracle/recorded/frames/11-versions.{end}").read_text().splitlines() for end in ("in", "out"))
    taken = [(frame, answer) for frame, answer in zip(asked, answered) if not answer.startswith("R")]
    (HERE / "versions.tmp").write_text("\n".join(frame for frame, _ in taken))
    answers = "\n".join(answer for _, answer in taken)
    done = run("audit", "versions.tmp", "-", input=answers.encode())
    holds(done.returncode == 0, f"the recorded answers in both versions are right: {done}")
    long = b"20261231-23:59:60.999999999999".hex()
    done = run("audit", "versions.tmp", "-", input=answers.replace(long, long[:-2] + "38", 1).encode())
    holds(long in answers and done.returncode == 1 and b"NOT THE SAME" in done.stdout, f"another digit in a stamp of 30 bytes: {done}")
    done = run("show", "versions.tmp")
    holds(b"20261115-12:00:00.123456" in done.stdout, f"a long stamp is shown: {done}")
    # The whole list, and one refusal that depends on the version: a Bind of a session with a long stamp in version 1.
    done = run("show", "-", input="\n".join(asked).encode())
    holds(done.returncode == 1 and b"R 32" in done.stdout, f"32 is shown: {done}")
    (HERE / "versions.tmp").unlink()


def sorts() -> None:
    """Sessions by the time of their stamps: `--sort` and the field `time`, against Python's datetime; what has no number comes last, as texts."""
    stamps = [b"20261116-09:30:00.000000000001", b"", b"20261231-23:59:60", b"20261116-09:30:00", b"19991231-23:59:59.999", b"19691231-23:59:59", b"20261116-09:30:00.000000"]
    frames = [hello(version=2)]
    for n, stamp in enumerate(stamps):
        changes = [set_created_at(stamp)] if stamp else [set_marks(b"m")]
        frames += [bind(key(sender=b"S%d" % n), n, 5, 0), batch(run_of(changes), handle=n, epoch=5, commit_no=1)]
    done = run("show", "--tsv", "--sort", "-", input=b"".join(frames))
    rows = [line.split("\t") for line in done.stdout.decode().split("\n")[1:-1]]

    def picos(stamp: bytes) -> int:
        text = stamp.decode()
        whole = datetime.datetime.strptime(text[:17] + "+0000", "%Y%m%d-%H:%M:%S%z")
        return int(whole.timestamp()) * 10**12 + int(text[18:].ljust(12, "0"))

    numbered = sorted((s for s in stamps if s[:4] > b"1969" and not s.endswith(b":60")), key=picos)
    wanted = numbered + sorted(set(stamps) - set(numbered))
    holds([row[8].encode() for row in rows] == wanted, f"sorted by time: {rows}")
    holds([row[15] for row in rows] == [str(picos(s)) for s in numbered] + [""] * 3, f"the times are Python's: {rows}")
    shown = run("show", "--sort", "-", input=b"".join(frames)).stdout.decode()
    order = [int(n) for n in re.findall(r" S(\d) ->", shown)]
    holds(order == [stamps.index(s) for s in wanted], f"the screen is in that order: {order}")


def record_lines() -> None:
    """The frames of a recorded list before the first that is refused, and the Rust's answers."""
    asked, answered = ((ROOT / f"oracle/recorded/frames/09-life.{end}").read_text().split("\n") for end in ("in", "out"))
    until = next(i for i, line in enumerate(answered) if line.startswith("R"))
    (HERE / "life.tmp").write_text("\n".join(asked[:until]) + "\n")
    (HERE / "answers.tmp").write_text("\n".join(answered[:until]) + "\n")


def wrong_messages() -> None:
    """Each kind of message that isn't what it says is named by `check --self`; the engine's log by `check --log`."""
    active = captured(1, 60)
    right = b"".join(active.frames)
    done = run("check", "--self", "-", input=right)
    holds(done.returncode == 0 and b"right" in done.stdout, f"messages that are right: {done}")
    at = right.index(b"\x0134=3\x0149=BROKER\x0156=VENUE")
    for name, old, new, said in (
        ("a byte", b"38=", b"39=", "field 10 says"), ("the length", b"\x019=", b"\x019=0", "R 28|field 9 says|field 10 says"), ("the number", b"34=3", b"34=4", "field 10 says"),
        ("the sum", b"\x0110=", b"\x0110=9", "R 28"), ("a tag", b"49=", b"x9=", "R 28"), ("the end", b"10=", b"10=000\x01", "field 10 says 000"), ("nothing", b"8=FIX", b"", "R 28"),
    ):  # fmt: skip
        begin = right.rindex(b"8=FIX", 0, at)
        spot = right.index(old, begin)
        copy = right[:spot] + new + right[spot + len(old) :] if len(old) == len(new) else lengthened(active.frames, right, spot, old, new)
        done = run("check", "--self", "-", input=copy)
        holds(done.returncode == 1 and b"message 3 " in done.stdout and any(word in done.stdout.decode() for word in said.split("|")), f"{name} changed: {done}")
    frames = [hello(), bind(key(*KEYS[0]), 1, 5, 0), batch(run_of([record_none(4), record(5, fix(KEYS[0], 3, random.Random(1)))]), epoch=5, commit_no=1), checked(1, 5, 9)]
    done = run("check", "--self", "-", input=b"".join(frames))
    holds(done.returncode == 1 and b"message 5               field 34 says 3" in done.stdout, f"a message under another number: {done}")
    for name, keys, said in (("sender", (b"FIX.4.4", b"BROKE", b"VENUE", b""), b"field 49 says BROKER"), ("target", (b"FIX.4.4", b"BROKER", b"VENU", b""), b"field 56 says VENUE"),
        ("begin string", (b"FIX.4.3", b"BROKER", b"VENUE", b""), b"field 8 says FIX.4.4")):  # fmt: skip
        frames = [bind(key(*keys), 1, 5, 0) if frame[4] == 3 and frame[5] == 1 else frame for frame in active.frames]
        done = run("check", "--self", "-", input=b"".join(frames))
        holds(done.returncode == 1 and said in done.stdout, f"another {name}: {done}")


def lengthened(frames: list[bytes], whole: bytes, spot: int, old: bytes, new: bytes) -> bytes:
    """A message with other bytes, and the lengths of its record and its frame after it."""
    at = 0
    for i, frame in enumerate(frames):
        if at <= spot < at + len(frame):
            begin = frame.rindex(b"8=FIX", 0, spot - at + 5) - 4
            grown = frame[: spot - at] + new + frame[spot - at + len(old) :]
            more = len(new) - len(old)
            text = int.from_bytes(grown[begin : begin + 4], "little") + more
            grown = (len(grown) - 4).to_bytes(4, "little") + grown[4:begin] + text.to_bytes(4, "little") + grown[begin + 4 :]
            return b"".join(frames[:i] + [grown] + frames[i + 1 :])
        at += len(frame)
    raise AssertionError("no frame is there")


def record_captures() -> None:
    """What stands beside the recorded captures for this run: the log of a QuickFIX engine as an active sends it, copies behind and ahead, the widest texts and numbers."""
    body = (ROOT / "tests/quickfix/broker.body").read_bytes()
    texts = [b"8=FIX" + text for text in body.split(b"8=FIX")[1:]]
    numbers = [int(re.search(rb"\x0134=(\d+)\x01", text).group(1)) for text in texts]

    def sent(changes: list[bytes], epoch: int = 5) -> bytes:
        frames = [hello(epoch=epoch), bind(key(*KEYS[0]), 1, epoch, 0)] + [batch(run_of([change]), epoch=epoch, commit_no=1 + i) for i, change in enumerate(changes)]
        return b"".join(frames + [checked(1, epoch, 9)])

    changes, after = [], 1
    for number, text in zip(numbers, texts):
        changes += ([record_none(number - 1)] if number > after else []) + [record(number, text)]
        after = number + 1
    (HERE / "quickfix.tmp").write_bytes(sent(changes))
    (HERE / "behind.tmp").write_bytes(sent(changes[:-3]))
    (HERE / "newer.tmp").write_bytes(sent(changes[:-2], 6))
    other = [change.replace(b"55=MSFT", b"55=MSFX") if i == 2 else change for i, change in enumerate(changes[:8]) if i != 3]
    (HERE / "other.tmp").write_bytes(sent(other[:3] + [record_none(numbers[3])] + other[3:] + [record(numbers[6] + 1, b"strange")]))
    ahead = captured(1, 100)
    ahead.frames.pop()
    ahead.send(2, [record_none(99)])
    ahead.frames.append(checked(99, 5, 7))
    (HERE / "ahead.tmp").write_bytes(b"".join(ahead.frames))
    few = captured(2, 8)
    (HERE / "wrong.tmp").write_bytes(b"".join(few.frames).replace(b"55=VOD.L", b"55=BOD.L", 2).replace(b"38=", b"3x=", 1))
    top = 2**64 - 2
    frames = [hello(epoch=2**64 - 1, node=b"n" * 300)]
    for i in range(3):
        texts = (b"K" * 31 + b"%d" % i, b"S" * 32, b"T" * 32, b"U" * 32)
        frames += [bind(key(*texts), 2**32 - 1 - i, 2**64 - 1, 2**64 - 1), bind(key(*texts), 2**32 - 1 - i, 2**64 - 1, 0)]
        changes = [set_created_at(b"20261116-08:00:00.123"), set_marks(b"M" * 64), set_next_incoming_in_flight(2**64 - 1, 2**64 - 1), record_none(top - 6)]
        frames.append(batch(run_of(changes), handle=2**32 - 1 - i, epoch=2**64 - 1, commit_no=1))
        frames.append(batch(run_of([record(top - 5 + j, b"m" * 999 * j) for j in range(5)]), handle=2**32 - 1 - i, epoch=2**64 - 1, commit_no=2))
        frames.append(batch(run_of([]), handle=2**32 - 1 - i, epoch=2**64 - 1, commit_no=2**64 - 1))
    (HERE / "wide.tmp").write_bytes(b"".join(frames))


def terminal() -> None:
    """On a terminal of 80 columns no line of any screen is wrapped: what is seen is what was written."""
    if not shutil.which("tmux"):
        return print("console: no tmux: the screens aren't looked at on a terminal")
    with tempfile.TemporaryDirectory() as folder:
        tmux = ["tmux", "-S", f"{folder}/tmux", "-f", "/dev/null"]
        script = "".join(f"clear; tmux clear-history; '{PROGRAM}' {line} 2>&1; echo END{n}; read -r _\n" for n, line in enumerate(TERMINAL))
        (Path(folder) / "script").write_text(script)
        subprocess.run([*tmux, "new-session", "-d", "-x", "80", "-y", "24", "-c", HERE, "bash", f"{folder}/script"], check=True)
        subprocess.run([*tmux, "set-option", "-g", "history-limit", "5000"], check=True)
        for n, line in enumerate(TERMINAL):
            seen = captured_pane(tmux, f"END{n}")
            done = run(*line.split())
            wanted = (done.stdout + done.stderr).decode()
            holds(seen == [row.rstrip() for row in wanted.split("\n")[:-1]], f"on a terminal '{line}' is what was written:\n" + "\n".join(seen))
            subprocess.run([*tmux, "send-keys", "Enter"], check=True)
        subprocess.run([*tmux, "kill-server"], stderr=subprocess.DEVNULL)


TERMINAL = [
    "show wide.tmp", "frames wide.tmp", "check wide.tmp few.cap", "check --self wide.tmp", "promote wide.tmp --unchecked --lag 7", f"resend wide.tmp --key {WIDE} 1-0 7-7", "choose wide.tmp ahead.tmp",
    "show monday.cap", "check monday.cap tuesday.cap", "explain 28", "explain 21", "nothing",
]  # fmt: skip


def captured_pane(tmux: list[str], end: str) -> list[str]:
    """The lines of the terminal before the last one, once that is there."""
    for _ in range(1000):
        rows = subprocess.run([*tmux, "capture-pane", "-p", "-S", "-"], stdout=subprocess.PIPE, check=True).stdout.decode().split("\n")
        if end in rows:
            return rows[: rows.index(end)]
        time.sleep(0.01)
    return []


def ends() -> None:
    with open("/dev/full", "wb") as full:
        done = run("show", "monday.cap", stdout=full)
    holds(done.returncode == 3 and done.stderr == b"wizhdulet: standard output: No space left on device\n", f"/dev/full: {done}")
    reader = subprocess.Popen(["true"], stdin=subprocess.PIPE)
    reader.wait()
    done = run("frames", "monday.cap", stdout=reader.stdin)
    holds(done.returncode == 141 and done.stderr == b"", f"a reader that is gone: {done}")
    numbers = {int(n) for n in re.findall(r"^\| (\d+) \|", (ROOT / "docs/REFUSALS.md").read_text(), re.M)}
    for n in range(300):
        done = run("explain", str(n))
        holds((done.returncode == 0) == (n in numbers) and done.returncode in (0, 2), f"explain {n}: {done}")


# Another program in its place is one with a fault (standby_faults.py).
PROGRAM = os.environ.get("WIZHDULET_PROGRAM") or subprocess.run([ROOT / "host/build"], stdout=subprocess.PIPE, check=True, text=True).stdout.split()[-1]
record_lines()
record_captures()
screens()
cuts()
bits()
drift()
audits()
versions()
sorts()
wrong_messages()
terminal()
ends()
for file in HERE.glob("*.tmp"):
    file.unlink()
print(f"console: {len(SCREENS)} screens, {checks.failed} tests failed")
sys.exit(checks.failed != 0)

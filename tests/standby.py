#!/usr/bin/env python3
"""Tests the standby, target/host/wizhdulet (host/build builds it first), over real sockets and files: killed at any moment, a copy cut at every length, full and failing disks,
lines of every kind, two actives, the Rust's answers, and what compact, send and promote leave. Under a minute.

standby.py [TEST..]   the tests named, else all
"""
import os
import random
import resource
import select
import shutil
import signal
import socket
import struct
import subprocess
import sys
import tempfile
import threading
import time
from concurrent.futures import ThreadPoolExecutor
from pathlib import Path

ROOT = Path(__file__).resolve().parents[1]
sys.path.insert(0, str(ROOT / "tests/make"))
from checks import Checks  # noqa: E402
from console_captures import KEYS, captured, fix  # noqa: E402
from wire import COMMIT, LAST_WHOLE, RESET, WHOLE, app_record, batch, bind, checked, hello, key, record, record_none, run, set_created_at, set_marks, set_next_incoming, set_next_incoming_in_flight  # noqa: E402

WELCOME, ACK, NACK, BOUND = 2, 5, 6, 7
STALE, DIVERGED, LAG, RESTARTED = 1, 2, 3, 4
checks = Checks("standby")
holds = checks.holds


def frames_of(stream: bytes) -> list[bytes]:
    """The whole frames."""
    frames, at = [], 0
    while at + 4 <= len(stream) and at + 4 + int.from_bytes(stream[at : at + 4], "little") <= len(stream):
        end = at + 4 + int.from_bytes(stream[at : at + 4], "little")
        frames.append(stream[at:end])
        at = end
    return frames


def wizhdulet(*arguments: object, **more) -> subprocess.CompletedProcess:
    done = subprocess.run([PROGRAM, *map(str, arguments)], stdout=subprocess.PIPE, stderr=subprocess.PIPE, timeout=60, **more)
    # A name can be as long as it is.
    wide = [row for row in done.stdout.decode().split("\n") if len(row) > 80 and "/" not in row and "\t" not in row]
    holds(not wide, f"no line of {arguments} has more than 80 columns: {wide}")
    return done


def shown(copy: Path, *options: object) -> dict[tuple[str, ...], list[str]]:
    """The sessions of a copy, as `show --tsv` has them: by their key, the fields behind it."""
    done = wizhdulet("show", "--tsv", copy, *options)
    rows = [line.split("\t") for line in done.stdout.decode().split("\n")[1:-1]]
    return {tuple(row[1:5]): row[5:] for row in rows}


class Standby:
    """A running one, on a port of its own choice."""

    def __init__(self, copy: Path, *options: object, address: str = "0", environment: dict | None = None, prepare=None):
        self.log: list[str] = []
        self.process = subprocess.Popen([PROGRAM, "standby", address, str(copy), *map(str, options)], stderr=subprocess.PIPE, stdout=subprocess.DEVNULL, env={**os.environ, **(environment or {})},
            preexec_fn=prepare, restore_signals=prepare is None)  # fmt: skip
        self.port = 0
        while line := self.process.stderr.readline().decode():
            self.log.append(line)
            if " listening on " in line:
                self.port = int(line.split(" listening on ")[1].split(",")[0].rsplit(":", 1)[1])
                break
        self.reader = threading.Thread(target=lambda: self.log.extend(line.decode() for line in self.process.stderr), daemon=True)
        self.reader.start()

    def said(self, words: str, count: int = 1) -> bool:
        """Whether the log has the words, within ten seconds."""
        for _ in range(2000):
            if sum(words in line for line in list(self.log)) >= count:
                return True
            time.sleep(0.005)
        return False

    def end(self, how: int = signal.SIGKILL) -> int:
        self.process.send_signal(how)
        status = self.process.wait(10)
        self.reader.join()
        return status

    def __enter__(self):
        return self

    def __exit__(self, *_):
        if self.process.poll() is None:
            self.end()


class Line:
    """The active's end of a line."""

    def __init__(self, standby: Standby, epoch: int | None = 5, node: bytes = b"gw-a"):
        self.socket = socket.create_connection(("127.0.0.1", standby.port), timeout=20)
        self.socket.setsockopt(socket.IPPROTO_TCP, socket.TCP_NODELAY, 1)
        self.came, self.numbers, self.out, self.epoch = b"", {}, {}, epoch or 0
        self.welcome = self.ask(hello(epoch=epoch, node=node)) if epoch is not None else b""

    def send(self, *frames: bytes) -> None:
        self.socket.sendall(b"".join(frames))

    def answer(self) -> bytes:
        """The next answer, none where the line is closed."""
        while len(self.came) < 4 or len(self.came) < 4 + int.from_bytes(self.came[:4], "little"):
            try:
                more = self.socket.recv(1 << 20)
            except ConnectionError:
                more = b""
            if not more:
                return b""
            self.came += more
        end = 4 + int.from_bytes(self.came[:4], "little")
        answer, self.came = self.came[:end], self.came[end:]
        return answer

    def ask(self, *frames: bytes) -> bytes:
        self.send(*frames)
        return self.answer()

    def is_closed(self) -> bool:
        return self.answer() == b""

    def bind(self, handle: int, texts: tuple[bytes, ...], max_lag: int = 0) -> bytes:
        self.numbers[handle] = 0
        return self.ask(bind(key(*texts), handle, self.epoch, max_lag))

    def batch(self, handle: int, changes: list[bytes], part: int = COMMIT) -> bytes:
        self.numbers[handle] += 1
        return batch(run(changes), part=part, handle=handle, epoch=self.epoch, commit_no=self.numbers[handle])

    def incarnation(self) -> int:
        return int.from_bytes(self.welcome[13:21], "little")

    def check(self) -> bytes:
        return self.ask(checked(99, self.epoch, self.incarnation()))

    def close(self) -> None:
        self.socket.close()


def outgoing(bound: bytes) -> int:
    return int.from_bytes(bound[9:17], "little")


def is_nack(answer: bytes, reason: int) -> bool:
    return len(answer) == 10 and answer[4] == NACK and answer[9] == reason


def filled(copy: Path, commits: int, *options: object, check: bool = True) -> None:
    """A copy of three sessions, as a standby keeps it."""
    with Standby(copy, *options) as standby:
        line = Line(standby)
        for frame in captured(1, commits).frames[1:-1]:
            holds(line.ask(frame)[4] in (ACK, BOUND), "what an active sends is taken")
        if check:
            holds(line.check()[4] == ACK, "it is checked")


# ---- a life
def life(here: Path) -> None:
    copy = here / "copy"
    filled(copy, 60)
    frames = frames_of(copy.read_bytes())
    holds(len(frames) == 65 and frames[:-1] == captured(1, 60).frames[:-1], "the copy is the active's direction of the line, frame by frame")
    (here / "captured").write_bytes(b"".join(captured(1, 60).frames))
    done = wizhdulet("check", copy, here / "captured")
    holds(done.returncode == 0, f"its sessions are those of the capture: {done}")
    with Standby(copy) as standby:
        holds(standby.log[0].startswith(f"wizhdulet: {copy}: 20") and " 65 frames, 3 sessions, epoch 5" in standby.log[0], f"a start says what it has: {standby.log}")
        line = Line(standby)
        holds(line.welcome[4] == WELCOME and line.incarnation() > 1 << 60, "it is welcomed by an incarnation that was drawn")
        holds(outgoing(line.bind(1, KEYS[0])) == int(shown(copy)[("FIX.4.4", "BROKER", "VENUE", "")][0]), "a Bound has the number of the copy")
        holds(is_nack(line.ask(checked(9, 5, line.incarnation() - 1)), RESTARTED), "a Checked of another run is turned down")
        done = wizhdulet("status", copy)
        holds(done.returncode == 1 and f"RUNNING, process {standby.process.pid}".encode() in done.stdout and b"NOT CHECKED" in done.stdout, f"not checked, it says: {done}")
        holds(line.check()[4] == ACK and standby.said("checked: 3 sessions may be taken over"), "it is checked")
        Line(standby, epoch=None).close()
        holds(standby.said("closed behind 0 frames"), "another line comes and goes")
        done = wizhdulet("status", "copy", cwd=here)
        holds(done.returncode == 0 and b"checked in its last run" in done.stdout and b"gw-a" in done.stdout, f"checked, it says: {done}")
        holds(standby.end(signal.SIGTERM) == -signal.SIGTERM, "it ends by a signal")
    done = wizhdulet("status", copy)
    holds(done.returncode == 1 and b"NOT RUNNING" in done.stdout, f"stopped, it says: {done}")


# ---- killed
def kills(here: Path) -> None:
    """Killed under load: what was acknowledged is in the copy, and at most what was not answered besides."""
    copy, draw = here / "copy", random.Random(11)
    numbers = [1, 1, 1]
    with Standby(copy, "--bytes", 4096, "--messages", 64):
        pass
    for n in range(100):
        with Standby(copy) as standby:
            line = Line(standby, epoch=5 + n)
            for i, texts in enumerate(KEYS):
                bound = outgoing(line.bind(1 + i, texts))
                holds(numbers[i] == bound, f"kill {n}: after a restart a Bound has {bound}, the copy {numbers[i]}")
            acked, waiting = list(numbers), []
            kept = list(numbers)
            killer = threading.Timer(draw.uniform(0, 0.04), standby.process.kill)
            killer.start()
            try:
                while True:
                    while len(waiting) < draw.choice([1, 1, 4, 16]):
                        i = draw.randrange(3)
                        line.send(line.batch(1 + i, [record(kept[i], b"m" * draw.choice([0, 10, 300]))]))
                        waiting.append(i)
                        kept[i] += 1
                    if not (answer := line.answer()):
                        break
                    holds(answer[4] == ACK, f"kill {n}: a commit is taken: {answer.hex()}")
                    acked[waiting.pop(0)] += 1
            except ConnectionError:
                pass
            killer.join()
            standby.process.wait()
            rows = shown(copy)
            for i, texts in enumerate(KEYS):
                now = int(rows[tuple(text.decode() for text in texts)][0])
                holds(acked[i] <= now <= kept[i], f"kill {n}: session {i} has {now}, acknowledged {acked[i]}, sent {kept[i]}")
                numbers[i] = now


def places(here: Path) -> None:
    """Killed within each write, sync and send: by a library that stands before those of C and dies there."""
    if not DISK:
        return
    for n in range(1, 101):
        copy = here / f"copy{n}"
        with Standby(copy, environment={"LD_PRELOAD": DISK, "DISK_COPY": str(copy), "DISK_DIES_AT": str(n)}) as standby:
            acked = outcome = 0
            try:
                line = Line(standby)
                holds(line.welcome == b"" or line.welcome[4] == WELCOME, "a Welcome or none")
                bound = line.bind(1, KEYS[0]) if line.welcome else b""
                acked = outcome = 1
                while bound:
                    outcome = acked + 3
                    line.send(*[line.batch(1, [record(acked + i, b"m" * (i + 1))]) for i in range(3)])
                    for _ in range(3):
                        if not (answer := line.answer()):
                            raise ConnectionError
                        holds(answer[4] == ACK, f"place {n}: a commit is taken: {answer.hex()}")
                        acked += 1
            except (ConnectionError, OSError):
                pass
            holds(standby.process.wait(10) == -signal.SIGKILL, f"place {n}: it was killed there")
        with Standby(copy) as standby:
            bound = outgoing(Line(standby).bind(1, KEYS[0]))
            holds(max(acked, 1) <= bound <= max(outcome, 1), f"place {n}: acknowledged {acked}, sent {outcome}, kept {bound}")


# ---- cut
def cuts(here: Path) -> None:
    """A copy cut at every length: it starts, and has the sessions of the whole frames."""
    capture = (ROOT / "tests/console/few.cap").read_bytes()
    frames, ends = frames_of(capture), [0]
    for frame in frames:
        ends.append(ends[-1] + len(frame))
    whole = []
    for end in ends:
        (here / "whole").write_bytes(capture[:end])
        whole.append(shown(here / "whole"))
    (here / "empty").write_bytes(b"")
    with Standby(here / "empty"):
        state = (here / "empty.state").read_text()

    def start(lengths: list[int], name: str) -> None:
        copy = here / name
        for length in lengths:
            copy.write_bytes(capture[:length])
            (here / f"{name}.state").write_text(state)
            count = max(i for i, end in enumerate(ends) if end <= length)
            with Standby(copy) as standby:
                cut = length - ends[count]
                holds(standby.port > 0 and ("half-written" in standby.log[0]) == (cut > 0) and f" {count} frame" in standby.log[0], f"cut at {length}: {standby.log}")
                holds(copy.read_bytes() == capture[: ends[count]], f"cut at {length}: the copy ends with a whole frame")
                holds(cut == 0 or (here / f"{name}.left").read_bytes() == capture[ends[count] : length], f"cut at {length}: what was cut off is kept")
                line = Line(standby, epoch=9)
                for i, texts in enumerate(KEYS):
                    row = whole[count].get(tuple(text.decode() for text in texts), ["1", "1", "", ""])
                    bound = line.bind(1 + i, texts)
                    told = [str(n) for n in struct.unpack("<QQ", bound[9:25])]
                    holds(told == row[:2], f"cut at {length}: session {i} is {told}, of the whole frames {row[:2]}")

    with ThreadPoolExecutor(4) as pool:
        done = [pool.submit(start, list(range(i, len(capture) + 1, 4)), f"copy{i}") for i in range(4)]
    holds(all(one.exception() is None for one in done), f"every length was looked at: {[one.exception() for one in done]}")


# ---- disks
def fill(standby: Standby, copy: Path, words: str) -> None:
    """Commits until the line is closed: every Ack has its frame in the copy."""
    line = Line(standby)
    line.bind(1, KEYS[0])
    acked, answers = 0, [b"first"]
    while all(answers) and acked < 2000:
        line.send(*[line.batch(1, [record(acked + 1 + i, b"m" * 300)]) for i in range(4)])
        answers = [line.answer() for _ in range(4)]
        acked += sum(answer != b"" for answer in answers)
    frames = frames_of(copy.read_bytes())
    holds(sum(map(len, frames)) == copy.stat().st_size, f"{words}: the copy ends with a whole frame")
    holds(sum(frame[4] == 4 for frame in frames) == acked > 20, f"{words}: what is in the copy was acknowledged, {acked}")
    holds(standby.said("NOT KEPT, and not answered: ") and standby.said(words), f"{words}: the log says why: {standby.log}")
    holds(Line(standby, epoch=None).ask(hello(node=b"n" * 20000)) == b"", f"{words}: nothing is answered then")
    holds(standby.process.poll() is None, f"{words}: it goes on")


def full(here: Path) -> None:
    disk = here / "disk"
    disk.mkdir()
    if os.getuid() == 0 and shutil.which("mount") and subprocess.run(["mount", "-t", "tmpfs", "-o", "size=64k", "tmpfs", disk], stderr=subprocess.DEVNULL).returncode == 0:
        try:
            (disk / "other").write_bytes(b"o" * 16000)
            with Standby(disk / "copy", "--bytes", 4096) as standby:
                fill(standby, disk / "copy", "No space left on device")
                (disk / "other").unlink()
                line = Line(standby, epoch=6)
                acked = sum(frame[4] == 4 for frame in frames_of((disk / "copy").read_bytes()))
                holds(outgoing(line.bind(1, KEYS[0])) == 1 + acked, "with room again it goes on where it was")
                holds(line.ask(line.batch(1, [record(1 + acked, b"m")]))[4] == ACK, "and takes commits")
        finally:
            subprocess.run(["umount", disk], check=True)
    else:
        print("standby: no right to mount a disk: a limit on the file's size stands for it")

    def limit() -> None:
        signal.signal(signal.SIGXFSZ, signal.SIG_IGN)
        resource.setrlimit(resource.RLIMIT_FSIZE, (30000, 30000))

    with Standby(here / "copy", prepare=limit) as standby:
        fill(standby, here / "copy", "File too large")


def syncs(here: Path) -> None:
    """Each answer is sent after a sync of its frame; where a sync fails it isn't sent, and the program ends."""
    if not DISK:
        return print("standby: no cc: the order of write, sync and send isn't looked at")
    copy, order = here / "copy", here / "order"
    with Standby(copy, environment={"LD_PRELOAD": DISK, "DISK_COPY": str(copy), "DISK_ORDER": str(order)}) as standby:
        order.write_bytes(b"")
        line = Line(standby)
        line.bind(1, KEYS[0])
        for n in range(1, 30):
            line.send(*[line.batch(1, [record(3 * n - 2 + i, b"m")]) for i in range(3)])
            for _ in range(3):
                holds(line.answer()[4] == ACK, "it is taken")
    written = synced = asked = sent = 0
    for step, count in (row.split() for row in order.read_text().splitlines()):
        if step == "write":
            written += int(count)
        elif step == "sync":
            synced = written
        else:
            sent += int(count)
            # Every answer here is shorter than its frame but the Bound and the Ack of 17 bytes, so frames are counted.
            asked = len(frames_of(copy.read_bytes()[:synced]))
            holds(sent == sum(len(answer) for answer in answers_of(copy.read_bytes())[:asked]), f"what is sent is what is synced: {sent} bytes of answers, {asked} frames")
            holds(written == synced, "nothing is written behind the sync before the answer")
    holds(asked == 2 + 87, f"all were looked at: {asked}")
    for n in (1, 2, 5):
        copy = here / f"failing{n}"
        with Standby(copy, environment={"LD_PRELOAD": DISK, "DISK_COPY": str(copy), "DISK_FAILS_AT": str(n)}) as standby:
            line = Line(standby)
            answered = int(line.welcome != b"")
            if answered:
                answered += int(line.bind(1, KEYS[0]) != b"")
            while 1 < answered < 20 and line.ask(line.batch(1, [record(answered - 1, b"m")])):
                answered += 1
            holds(answered == n - 1, f"sync {n} fails: {answered} answers")
            holds(standby.process.wait(10) == 3 and standby.said("the disk failed, so this standby ends: Input/output error"), f"sync {n} fails: it ends and says why: {standby.log}")


def answers_of(stream: bytes) -> list[bytes]:
    """As long as the answers to frames are: of a Hello 21 bytes, a new Bind 49, a Batch 17."""
    return [b"x" * {1: 21, 3: 49, 4: 17}[frame[4]] for frame in frames_of(stream)]


# ---- lines
def pieces(here: Path) -> None:
    frames = captured(3, 100).frames[:-1]
    copies = []
    for name, cut in (("ones", 1), ("sevens", 7), ("all", 1 << 30)):
        copy = here / name
        with Standby(copy) as standby:
            line = Line(standby, epoch=None)
            stream = b"".join(frames)
            for at in range(0, len(stream), cut):
                line.send(stream[at : at + cut])
            kinds = [line.answer()[4] for _ in frames]
            holds(kinds == [WELCOME, BOUND, BOUND, BOUND] + [ACK] * 100, f"in pieces of {cut}: all are answered in order")
        copies.append(copy.read_bytes())
    holds(copies == [b"".join(frames)] * 3, "the copies are the same bytes")
    copy = here / "large"
    with Standby(copy) as standby:
        line = Line(standby)
        line.bind(1, KEYS[0])
        most = 67_108_864 - len(line.batch(1, [record(1, b"")])) + 4
        line.numbers[1] = 0
        holds(line.ask(line.batch(1, [record(1, b"m" * most)])) == ack(1, 1), "a body of 67,108,864 bytes is taken")
        holds(outgoing(line.bind(2, KEYS[0])) == 2, "and its number kept")
        holds(copy.stat().st_size > 67_108_864, "it is in the copy")
        line.send(struct.pack("<I", 67_108_865))
        holds(line.is_closed() and standby.said("R 1 "), f"one byte more ends the line: {standby.log}")
    with Standby(copy) as standby:
        holds(outgoing(Line(standby).bind(2, KEYS[0])) == 2, "a start reads it again")


def ack(handle: int, number: int) -> bytes:
    return struct.pack("<IBIQ", 13, ACK, handle, number)


def rubbish(here: Path) -> None:
    copy, draw = here / "copy", random.Random(5)
    with Standby(copy, "--sessions", 2) as standby:
        held = [Line(standby, epoch=None) for _ in range(8)]
        for bytes_ in (b"GET / HTTP/1.1\r\n\r\n", bytes(64), b"\xff" * 64, draw.randbytes(5000), b"8=FIX.4.4\x019=5\x01"):
            line = Line(standby, epoch=None)
            line.send(bytes_)
            line.socket.shutdown(socket.SHUT_WR)
            holds(line.is_closed(), f"rubbish ends its line: {bytes_[:20]!r}")
        holds(copy.read_bytes() == b"", "nothing of it is in the copy")
        for words, frame in (("a Bind", bind(key())), ("a Batch", batch(run([]))), ("a Checked", checked(1, 5, 1)), ("an Ack", ack(1, 1))):
            line = Line(standby, epoch=None)
            holds(line.ask(frame) == b"" and standby.said("the first frame of a line must be a Hello"), f"a line that begins with {words} is closed")
        holds(copy.read_bytes() == b"", "nothing of those is in the copy")
        for words, said, frames in (
            ("R 11", ": R 11 ", [hello(version=9)]),
            ("R 12", ": R 12 ", [hello(kinds=[1])]),
            ("R 13", ": R 13 ", [hello(), bind(key(), 1, 5, 0), batch(run([]), run([app_record(1, b"")]), epoch=5, commit_no=1)]),
            ("R 14", ": R 14 ", [hello(), batch(run([]), handle=7, epoch=5)]),
            ("R 16", ": R 16 ", [hello(), bind(key(), 1, 5, 0), batch(run([]), part=WHOLE, epoch=5, commit_no=1)]),
            ("R 19", ": R 19 ", [hello(), ack(1, 1)]),
            ("R 20", ": R 20 ", [hello(), bind(key(), 1, 5, 0), bind(key(b"FIX.4.2"), 2, 5, 0), bind(key(b"FIX.4.1"), 3, 5, 0)]),
            ("another epoch", ": another epoch than that of the line's Hello", [hello(), bind(key(), 1, 6, 0)]),
            ("a fault", "R 3 ", [hello(), struct.pack("<IBIB", 6, NACK, 1, 9)]),
        ):  # fmt: skip
            line = Line(standby, epoch=None)
            line.send(*frames, bind(key(), 1, 5, 0))
            answered = [line.answer() for _ in range(len(frames))]
            holds(all(answered[:-1]) and answered[-1] == b"" and standby.said(said), f"{words}: answered before it, closed at it: {answered} {standby.log[-1]}")
        line = Line(standby)
        holds(line.bind(1, KEYS[0]) == b"" and Line(standby, epoch=4).welcome[5:13] == struct.pack("<Q", 5), "no third session; a lower epoch is told the higher")
        for one in held:
            holds(one.ask(hello(epoch=5))[4] == WELCOME, "a line that was silent is served when it speaks")
        before = open_files(standby)
        for n in range(1000):
            one = socket.create_connection(("127.0.0.1", standby.port))
            if n % 3 == 0:
                one.sendall(hello()[: n % 27])
            one.close()
        holds(standby.said("closed behind", 1000), "a thousand lines come and go")
        until = time.monotonic() + 10
        while open_files(standby) > before and time.monotonic() < until:
            time.sleep(0.01)
        holds(open_files(standby) <= before, f"none stays open: {open_files(standby)}, before {before}")
        silent = [Line(standby, epoch=None) for _ in range(40)]
        line = Line(standby)
        holds(line.bind(1, (b"FIX.4.4", b"A", b"B", b""))[4] == BOUND and standby.said("more than 16 lines are open"), "forty silent lines keep nobody out")
        for one in [Line(standby, epoch=None) for _ in range(40)] + silent:
            one.close()
        holds(line.ask(line.batch(1, [set_next_incoming(7)]))[4] == ACK, "and the current line stays")
        holds(standby.process.poll() is None, "it goes on")


def open_files(standby: Standby) -> int:
    return len(os.listdir(f"/proc/{standby.process.pid}/fd"))


def behind_a_refusal(here: Path) -> None:
    """What came in one read behind a refused frame isn't taken, and no start takes it either."""
    copy = here / "copy"
    with Standby(copy) as standby:
        line = Line(standby)
        line.bind(1, KEYS[0])
        line.send(line.batch(1, [record(1, b"one")]), batch(run([]), handle=7, epoch=5), line.batch(1, [record(2, b"two")]))
        holds(line.answer()[4] == ACK and line.is_closed(), "answered before the refusal, not behind it")
        line = Line(standby)
        holds(outgoing(line.bind(1, KEYS[0])) == 2, "the second wasn't taken")
        holds(line.ask(line.batch(1, [record(2, b"TWO")]))[4] == ACK, "another comes in its place")
        line.send(line.batch(1, [record(3, b"three")]), ack(1, 1), bytes(1 << 22))
        holds(line.answer()[4] == ACK and line.is_closed(), "an answer before a refusal arrives, however much comes behind it")
    with Standby(copy, "--lag", 0) as standby:
        holds(outgoing(Line(standby).bind(1, KEYS[0])) == 4, "a start has all that was taken")
    holds(b"TWO" in copy.read_bytes() and b"two" not in copy.read_bytes(), "only what was taken is in the copy")


# ---- two actives
def actives(here: Path) -> None:
    with Standby(here / "copy") as standby:
        a = Line(standby, epoch=5)
        a.bind(1, KEYS[0])
        holds(a.ask(a.batch(1, [record(1, b"a")])) == ack(1, 1), "the first is served")
        b = Line(standby, epoch=6, node=b"gw-b")
        holds(b.welcome[5:13] == struct.pack("<Q", 6), "a higher epoch is welcomed")
        holds(is_nack(a.ask(a.batch(1, [record(2, b"a")])), STALE), "the Batch of the deposed one: Nack StaleEpoch")
        holds(is_nack(a.bind(2, KEYS[1]), STALE) and is_nack(a.check(), STALE), "its Bind and its Checked too")
        holds(outgoing(b.bind(1, KEYS[0])) == 2, "the second has what the first left")
        a.numbers[1] = 0
        holds(is_nack(a.ask(a.batch(1, [record(2, b"a")])), STALE), "the deposed one doesn't come through on the other's handle")
        holds(b.ask(b.batch(1, [record(2, b"b")])) == ack(1, 1), "the second goes on")
        a.close()
        holds(standby.said("closed behind 7 frames") and b.ask(b.batch(1, [record(3, b"b")])) == ack(1, 2), "that the deposed line is closed changes nothing")
        c = Line(standby, epoch=5)
        holds(c.welcome[5:13] == struct.pack("<Q", 6), "a lower epoch is told the higher")
        holds(is_nack(c.bind(1, KEYS[0]), STALE) and is_nack(c.ask(c.batch(1, [record(4, b"c")])), STALE), "and turned down")
        holds(b.ask(b.batch(1, [record(4, b"b")])) == ack(1, 3), "the current one is not disturbed")
        d = Line(standby, epoch=6)
        holds(d.welcome[4] == WELCOME and b.is_closed() and standby.said("R 22 "), "another line of the same epoch is the current one: 22 for the other")
        d.bind(1, KEYS[0])
        holds(d.ask(d.batch(1, [record(5, b"d")])) == ack(1, 1), "and is served")
        c.close()
    rows = shown(here / "copy")
    holds(rows[("FIX.4.4", "BROKER", "VENUE", "")][0] == "6", f"the copy has the accepted ones: {rows}")


def replaced(here: Path) -> None:
    """A line of the same epoch comes while the first is sending without pause: no Batch of the first is taken on the handles of the second."""
    with Standby(here / "copy") as standby:
        for n in range(60):
            a = Line(standby)
            a.bind(1, KEYS[0])
            # Not the next number on its own handle, but the next behind the first Batch of the newer line.
            stray = batch(run([set_next_incoming(99)]), handle=1, epoch=5, commit_no=2) * 20

            def flood() -> None:
                try:
                    while True:
                        a.socket.sendall(stray)
                        a.socket.recv(1 << 20)
                except OSError:
                    pass

            thread = threading.Thread(target=flood)
            thread.start()
            b = Line(standby)
            at = outgoing(b.bind(1, KEYS[1]))
            holds(b.ask(b.batch(1, [record(at, b"new")])) == ack(1, 1), f"round {n}: the newer line is served")
            b.bind(2, KEYS[2])
            b.close()
            thread.join()
            a.close()
    rows = shown(here / "copy")
    holds(rows[("FIX.4.2", "BROKER", "DARKPOOL", "A")][:2] == ["61", "1"], f"the session of the newer lines has their commits alone: {rows}")


# ---- what a start has is what was there
def lives(here: Path) -> None:
    """Lines by chance, several at once, of several epochs, broken off anywhere: a start answers every Bind as the run before it did, stored messages and all."""
    options = ("--sessions", 3, "--bytes", 2000, "--messages", 20, "--lag", 50)
    seen = {"Nack": 0, "closed": 0, "Ack": 0, "starts": 0}
    for seed in range(12):
        copy, draw, epoch = here / f"copy{seed}", random.Random(seed), 5
        told: list[bytes] = []
        for _ in range(4):
            with Standby(copy, *options) as standby:
                seen["starts"] += 1
                if told:
                    holds(ends_of(standby, epoch) == told, f"life {seed}: a start answers as before it")
                lines: list[Line] = []
                for _ in range(draw.randrange(20, 120)):
                    if len(lines) < draw.choice([1, 3]):
                        epoch += draw.choice([0, 0, 1])
                        lines.append(Line(standby, epoch=epoch - draw.choice([0, 0, 0, 1])))
                    line = draw.choice(lines)
                    if not answered_all(line, [at_random(draw, line) for _ in range(draw.choice([1, 1, 4]))], seen) or draw.random() < 0.05:
                        lines.remove(line)
                        line.close()
                told = ends_of(standby, epoch := epoch + 1)
        (here / "again").write_bytes(copy.read_bytes())
        done = wizhdulet("check", copy, here / "again", *options)
        holds(done.returncode == 0, f"life {seed}: the console reads the same: {done}")
        done = wizhdulet("compact", copy)
        holds(done.returncode == 0 and wizhdulet("check", copy, here / "again", *options).returncode == 0, f"life {seed}: compacted it is the same: {done}")
    holds(all(count > 30 for count in seen.values()), f"all of it has happened: {seen}")


def answered_all(line: Line, frames: list[bytes], seen: dict[str, int]) -> bool:
    """Sends frames at once; whether each was answered."""
    try:
        line.send(*frames)
    except ConnectionError:
        return False
    for _ in frames:
        answer = line.answer()
        if is_nack(answer, DIVERGED):
            line.numbers[int.from_bytes(answer[5:9], "little")] -= 1
        elif answer and answer[4] == BOUND:
            line.out[int.from_bytes(answer[5:9], "little")] = outgoing(answer)
        seen["closed" if not answer else {NACK: "Nack"}.get(answer[4], "Ack")] += 1
        if not answer:
            return False
    return True


def ends_of(standby: Standby, epoch: int) -> list[bytes]:
    """What a new line is told of the sessions, with a sum over their stored messages."""
    line = Line(standby, epoch=epoch)
    return [line.bind(1, texts, 50) for texts in KEYS]


def at_random(draw: random.Random, line: Line) -> bytes:
    handle = draw.choice([1, 1, 2])
    if not line.numbers or draw.random() < 0.15:
        line.numbers[handle] = 0
        return bind(key(*draw.choice(KEYS)), handle, line.epoch, draw.choice([0, 50, 51]))
    kind = draw.random()
    if kind < 0.05:
        return hello(epoch=line.epoch)
    if kind < 0.1:
        return checked(1, line.epoch, line.incarnation() - draw.choice([0, 1]))
    if handle not in line.numbers:
        line.numbers[handle] = 0
    number = line.out.get(handle, 1) if draw.random() < 0.8 else draw.randrange(1, 9)
    line.out[handle] = number + 2
    changes = draw.choice([[record(n, draw.randbytes(draw.choice([0, 9, 300]))) for n in range(number, number + 2)], [record_none(number)], [set_marks(b"q")], [RESET, record(1, b"r")], [set_next_incoming_in_flight(4, 3)]])
    part = draw.choice([COMMIT, COMMIT, COMMIT, WHOLE, LAST_WHOLE])
    return line.batch(handle, ([RESET] if part and draw.random() < 0.8 else []) + changes, part)


# ---- the Rust
def rust(here: Path) -> None:
    """The same frames through the Rust and through the socket: the same answers, up to a refusal."""
    lists = [(ROOT / f"oracle/recorded/frames/{name}.in").read_text() for name in ("01-document", "09-life", "10-limits")]
    answers = [(ROOT / f"oracle/recorded/frames/{name}.out").read_text() for name in ("01-document", "09-life", "10-limits")]
    lists.append(b"\n".join(frame.hex().encode() for frame in with_incarnation(captured(4, 300).frames)).decode())
    if (ROOT / "../shared/docs/src/crates").is_dir() or os.environ.get("WIZHDULET_RUST"):
        program = ROOT / "oracle/rust-frames-program"
        answers.append(subprocess.run([program], input=lists[-1].encode(), stdout=subprocess.PIPE, check=True).stdout.decode())
    else:
        print("standby: no text of the Rust beside the repository: its recorded answers alone are looked at")
    count = 0
    for n, (asked, answered) in enumerate(zip(lists, answers)):
        with Standby(here / f"copy{n}", "--sessions", 4, "--handles", 4, "--bytes", 4096, "--messages", 64) as standby:
            line, lines, drawn, highest = Line(standby, epoch=None), {}, b"", 0
            for frame, answer in zip(asked.split(), answered.split("\n")):
                sent = bytearray.fromhex(frame)
                epoch = int.from_bytes(sent[7:15] if sent[4] == 1 else sent[9:17], "little")
                if sent[4] == 1 or epoch not in lines:
                    # A Hello begins a line; a frame of a lower epoch has a line of its own, whose Hello changes nothing; nor does one of 0 at the beginning.
                    holds(sent[4] == 1 or epoch < highest or not lines, f"list {n} can be sent on lines: {frame}")
                    line = lines[epoch] = Line(standby, epoch=None if sent[4] == 1 else epoch)
                    drawn = drawn or bytes(line.welcome[13:21])
                if sent[4] == 8 and sent[17:25] == struct.pack("<Q", 7):
                    sent[17:25] = drawn
                got = bytearray(lines[epoch].ask(bytes(sent)))
                if got and got[4] == WELCOME:
                    highest = int.from_bytes(got[5:13], "little")
                    drawn, got[13:21] = bytes(got[13:21]), struct.pack("<Q", 7)
                holds(bytes(got) == (b"" if answer.startswith("R") else bytes.fromhex(answer)), f"list {n}, {frame}: {got.hex()}, the Rust {answer}")
                count += 1
                if not got:
                    break
    holds(count > 22 + 300 * (len(answers) > 3), f"frames were compared: {count}")


def with_incarnation(frames: list[bytes]) -> list[bytes]:
    return frames[:-1] + [checked(99, 5, 7)]


# ---- copies
def copies(here: Path) -> None:
    copy, limits = here / "copy", ("--sessions", 5, "--bytes", 20000, "--messages", 200, "--lag", 5)
    filled(copy, 200, *limits)
    with Standby(copy) as standby:
        line = Line(standby)
        line.bind(1, (b"FIX.4.4", b"NEW", b"VENUE", b""))
        line.bind(2, KEYS[1])
        line.ask(line.batch(2, [RESET, record(1, fix(KEYS[1], 1, random.Random(1)))], WHOLE))
        line.check()
    old = here / "old"
    shutil.copy(copy, old)
    shutil.copy(f"{copy}.state", f"{old}.state")
    done = wizhdulet("compact", "copy", cwd=here)
    holds(done.returncode == 0 and b"now " in done.stdout and len(frames_of(copy.read_bytes())) == 9, f"compacted: {done} {len(frames_of(copy.read_bytes()))}")
    for name in (copy, old):
        done = wizhdulet("check", old, name)
        holds(done.returncode == 0 and b"4 sessions" in done.stdout, f"{name} is the same copy: {done}")
    holds(wizhdulet("show", copy).returncode == 0, "compacted it is checked as before")
    done = wizhdulet("compact", copy)
    again = copy.read_bytes()
    holds(wizhdulet("compact", copy).returncode == 0 and copy.read_bytes() == again, "compacted again it is the same file")
    with Standby(here / "sent", *limits) as standby:
        done = wizhdulet("send", "old", f"127.0.0.1:{standby.port}", cwd=here)
        holds(done.returncode == 0 and standby.said("checked: 4 sessions"), f"sent: {done} {standby.log}")
    done = wizhdulet("check", old, here / "sent")
    holds(done.returncode == 0 and b"4 sessions" in done.stdout, f"sent, it is the same copy: {done}")
    with Standby(here / "sent") as standby:
        line = Line(standby)
        holds(outgoing(line.bind(1, (b"FIX.4.4", b"NEW", b"VENUE", b""))) == 1 and line.ask(line.batch(1, [record(1, b"m")]))[4] == ACK, "a session that is new in the copy isn't there")
        done = wizhdulet("send", "old", f"127.0.0.1:{standby.port}", cwd=here)
    holds(done.returncode == 0 and shown(here / "sent")[("FIX.4.4", "NEW", "VENUE", "")][:2] == ["1", "1"], f"sent again it is as new there too: {done}")
    unchanged = copy.read_bytes()
    for options in (("--sessions", 3), ("--bytes", 1000), ("--messages", 10)):
        done = wizhdulet("compact", copy, *options)
        holds(done.returncode == 1 and copy.read_bytes() == unchanged and not (here / "copy.new").exists(), f"{options} don't fit: nothing is changed: {done}")
    with Standby(copy, "--sessions", 6) as standby:
        holds(standby.process.wait(10) == 2 and "kept with --sessions 5" in standby.log[0], f"other limits than it is kept with: {standby.log}")
    done = wizhdulet("compact", copy, "--sessions", 7, "--bytes", 30000)
    holds(done.returncode == 0 and wizhdulet("check", old, copy).returncode == 0, f"larger limits: {done}")
    with Standby(copy, "--sessions", 7, "--bytes", 30000) as standby:
        holds(standby.port > 0, f"it is kept with those: {standby.log}")


def limits(here: Path) -> None:
    """A handle for each of 16 openings of each session where their number isn't given, whose hold areas take no memory; and what the system can't give."""
    for n, (options, sessions, handles) in enumerate((((), 16, 256), (("--sessions", 3), 3, 48), (("--sessions", 3, "--handles", 3), 3, 3), (("--handles", 5), 16, 5), (("--sessions", 16), 16, 256))):
        copy = here / f"copy{n}"
        with Standby(copy, *options) as standby:
            holds(kept_with(copy) == (sessions, handles), f"{options}: kept with {kept_with(copy)}")
            done = wizhdulet("status", copy)
            holds(f"{sessions} sessions, {handles} handles, C 1,048,576, M".encode() in done.stdout, f"{options}: it says so: {done}")
            line = Line(standby)
            for handle in range(300):
                holds(line.bind(handle, KEYS[0])[4:] == line.bind(handle, KEYS[0])[4:] != b"", f"{options}: opening {handle} of a session is taken")
            holds(outgoing(line.bind(1, KEYS[1])) == outgoing(line.bind(2, KEYS[2])) == 1, f"{options}: and two more sessions")
    with Standby(copy, "--sessions", 16) as standby:
        holds(standby.port > 0 and kept_with(copy) == (16, 256), f"started again with the same: {standby.log}")
    for options, sessions, handles in ((("--sessions", 5), 5, 80), (("--sessions", 5, "--handles", 7), 5, 7), (("--sessions", 5), 5, 7), (("--bytes", 4096), 5, 7), (("--sessions", 6), 6, 96)):
        holds(wizhdulet("compact", copy, *options).returncode == 0 and kept_with(copy) == (sessions, handles), f"compact {options}: kept with {kept_with(copy)}")
    large = ("--sessions", 16, "--bytes", 1 << 22)
    with Standby(here / "few", *large, "--handles", 16) as few, Standby(here / "many", *large) as many:
        holds(kept_with(here / "many") == (16, 256) and resident(many) < resident(few) + 4096, f"240 hold areas of 4 MiB more take no memory: {resident(few)} and {resident(many)} KiB")
    for options in (("--sessions", 2**32 - 1), ("--handles", 2**64 - 1), ("--handles", 2**40), ("--sessions", 2**32 - 1, "--bytes", 0, "--messages", 65536)):
        with Standby(here / "none", *options) as standby:
            holds(standby.process.wait(10) == 2 and "the system doesn't give the memory that these limits need" in standby.log[0], f"{options}: {standby.log}")


def kept_with(copy: Path) -> tuple[int, int]:
    """The sessions and handles that a copy is kept with."""
    rows = Path(f"{copy}.state").read_text().split("\n")
    return int(rows[1].removeprefix("sessions ")), int(rows[2].removeprefix("handles "))


def resident(standby: Standby) -> int:
    """The memory that it has, in KiB."""
    return int(next(row.split()[1] for row in Path(f"/proc/{standby.process.pid}/status").read_text().split("\n") if row.startswith("VmRSS")))


def promotions(here: Path) -> None:
    copy = here / "copy"
    filled(copy, 120, "--lag", 5, check=False)
    done = wizhdulet("promote", copy)
    holds(done.returncode == 1 and b"NOT CHECKED" in done.stderr and not (here / "copy.promoted").exists(), f"not checked: {done}")
    done = wizhdulet("send", copy, "127.0.0.1:1")
    holds(done.returncode == 1 and b"NOT CHECKED" in done.stderr, f"nor is it sent: {done}")
    with Standby(copy) as standby:
        line = Line(standby)
        line.check()
        standby.end()
        with Standby(copy) as standby:
            done = wizhdulet("promote", copy)
            holds(done.returncode == 2 and done.stderr == f"wizhdulet: {copy}: in use by process {standby.process.pid}\n".encode(), f"a standby runs: {done}")
    done = wizhdulet("promote", copy)
    holds(done.returncode == 1 and b"NOT CHECKED" in done.stderr, f"checked in the run before the last: {done}")
    rehearsal = wizhdulet("promote", copy, "--rehearse", "--unchecked", "--expect", "BROKER,VENUE=35")
    holds(rehearsal.returncode == 0 and b"REHEARSAL" in rehearsal.stdout and not (here / "copy.promoted").exists(), f"a rehearsal changes nothing: {rehearsal}")
    with Standby(copy) as standby:
        Line(standby).check()
    kept = copy.read_bytes()
    done = wizhdulet("promote", "copy", "--expect", "BROKER,VENUE=35", cwd=here)
    holds(done.returncode == 0 and done.stdout.split(b"out now")[1:] == rehearsal.stdout.split(b"out now")[1:] != [], f"the numbers of the rehearsal: {done}")
    holds(copy.read_bytes() == kept, "the copy itself is kept")
    before, after = shown(copy), shown(here / "copy.promoted")
    holds(list(before) == list(after) and len(before) == 3, "the same sessions")
    for texts, row in before.items():
        now = after[texts]
        holds(int(now[0]) == int(row[0]) + 5 and now[1:3] == row[1:3] and now[4] == row[4] + "B" and now[6:] == row[6:], f"taken over: {row} {now}")
    with Standby(here / "filled", "--lag", 5) as standby:
        done = wizhdulet("send", here / "copy.promoted", f"127.0.0.1:{standby.port}")
        holds(done.returncode == 0 and wizhdulet("check", here / "filled", here / "copy.promoted").returncode == 0, f"a promoted copy fills another: {done}")
        Line(standby, epoch=8)
        done = wizhdulet("send", copy, f"127.0.0.1:{standby.port}")
        holds(done.returncode == 1 and b"epoch 8 has been there" in done.stderr, f"a higher epoch has been there: {done}")
    done = wizhdulet("promote", copy)
    holds(done.returncode == 2 and b"is there already" in done.stderr, f"a second time: {done}")
    with Standby(copy) as standby:
        holds(standby.said("this copy has been taken over"), "a standby on it says so")


    other = here / "other"
    filled(other, 10, check=False)
    holds(wizhdulet("compact", other).returncode == 0 and wizhdulet("promote", other).returncode == 1, "compacted it isn't checked either")
    done = wizhdulet("promote", other, "--unchecked")
    holds(done.returncode == 0 and b"the copy was NOT checked" in done.stdout, f"unchecked: {done}")
    done = wizhdulet("send", here / "other.promoted", "127.0.0.1:1")
    holds(done.returncode == 1 and b"NOT CHECKED" in done.stderr, f"what was promoted unchecked isn't checked: {done}")


def versions(here: Path) -> None:
    """A session with a stamp of 30 bytes: kept, started again, compacted, sent and promoted in version 2, never shortened for version 1."""
    copy, stamp = here / "copy", b"20261127-23:59:59.123456789012"
    with Standby(copy) as standby:
        line = Line(standby)
        holds(line.bind(1, KEYS[0])[4] == BOUND and line.ask(line.batch(1, [set_created_at(stamp)])) == b"" and standby.said(": R 6 "), "version 1 has no such stamp")
        line = Line(standby, epoch=None)
        line.epoch = 5
        holds(line.ask(hello(version=2))[4] == WELCOME and line.bind(1, KEYS[0])[4] == BOUND, "a Hello of version 2 is welcomed")
        holds(line.ask(line.batch(1, [set_created_at(stamp), record(1, fix(KEYS[0], 1, random.Random(1)))]))[4] == ACK, "version 2 has it")
        line = Line(standby)
        holds(line.bind(1, KEYS[1])[4] == BOUND and line.bind(2, KEYS[0]) == b"" and standby.said(": R 32 "), "over version 1 a Bind of its session is 32")
    with Standby(copy) as standby:
        line = Line(standby, epoch=None)
        line.epoch = 5
        line.welcome = line.ask(hello(version=2))
        holds(stamp in line.bind(1, KEYS[0]) and line.check()[4] == ACK, "started again, a Bound has the whole stamp")
    kept = shown(copy)
    holds([row[3] for row in kept.values()] == [stamp.decode(), ""] or stamp.decode() in str(kept), f"it is shown: {kept}")
    holds(wizhdulet("promote", copy).returncode == 0 and str(shown(here / "copy.promoted")).count(stamp.decode()) == 1, "promoted it has the stamp")
    holds(wizhdulet("compact", copy).returncode == 0 and shown(copy) == kept and copy.read_bytes()[5:7] == b"\2\0", "compacted it is the same, in version 2")
    with Standby(here / "sent") as standby:
        done = wizhdulet("send", copy, f"127.0.0.1:{standby.port}")
        holds(done.returncode == 0 and shown(here / "sent") == kept, f"sent, it is the same: {done}")
    filled(here / "short", 5)
    holds(wizhdulet("compact", here / "short").returncode == 0 and (here / "short").read_bytes()[5:7] == b"\1\0", "without a long stamp, version 1 is spoken")


def locks(here: Path) -> None:
    copy = here / "copy"
    filled(copy, 20)
    with Standby(copy) as standby:
        for command in (["standby", "0", copy], ["compact", copy], ["promote", copy]):
            done = wizhdulet(*command)
            holds(done.returncode == 2 and done.stderr == f"wizhdulet: {copy}: in use by process {standby.process.pid}\n".encode(), f"{command}: {done}")
        for command in (["show", copy], ["frames", copy], ["check", copy, copy], ["status", copy]):
            holds(wizhdulet(*command).returncode < 2, f"{command[0]} reads it all the same")
        with Standby(here / "other", address=f"127.0.0.1:{standby.port}") as other:
            holds(other.process.wait(10) == 2 and "Address already in use" in other.log[0], f"an address in use: {other.log}")
    stranger = here / "notes"
    for text in (b"a", b"a file of somebody else\n", bytes.fromhex("10000000") + b"x" * 9, b"".join(captured(1, 5).frames[1:])):
        stranger.write_bytes(text)
        with Standby(stranger) as standby:
            holds(standby.process.wait(10) == 2 and stranger.read_bytes() == text, f"a file that is no copy stays as it is: {standby.log}")
    with Standby(here / "none" / "copy") as standby:
        holds(standby.process.wait(10) == 2 and "No such file" in standby.log[0], f"no folder: {standby.log}")
    with Standby(here) as standby:
        holds(standby.process.wait(10) == 2 and "not a file" in standby.log[0], f"a folder: {standby.log}")
    at = sum(map(len, frames_of(copy.read_bytes())[:7]))
    copy.write_bytes(copy.read_bytes()[:at] + b"\x00" * 4 + copy.read_bytes()[at:])
    before = copy.read_bytes()
    with Standby(copy) as standby:
        holds(standby.process.wait(10) == 2 and "DAMAGED" in standby.log[0] and copy.read_bytes() == before, f"a damaged copy: {standby.log}")
    holds(wizhdulet("compact", copy).returncode == 2 and copy.read_bytes() == before, "nor is it compacted")
    for name in ("standby", "status", "compact", "send"):
        done = wizhdulet(name)
        holds(done.returncode == 2 and done.stderr.startswith(b"wizhdulet: a standby copy"), f"{name} alone: {done}")
    done = wizhdulet("send", here / "notes", "127.0.0.1:1", "--unchecked")
    holds(done.returncode == 2 and b"127.0.0.1:1: Connection refused" in done.stderr, f"nobody listens: {done}")
    (here / "copy.state").write_text("something else\n")
    done = wizhdulet("status", copy)
    holds(done.returncode == 2 and b"copy.state: isn't what" in done.stderr, f"another state: {done}")


def disk() -> str:
    """A library before those of C that can fail, die and keep a list."""
    if not shutil.which("cc"):
        return ""
    library = ROOT / "target/host/disk.so"
    subprocess.run(["cc", "-std=gnu11", "-Wall", "-Wextra", "-Werror", "-O2", "-shared", "-fPIC", ROOT / "tests/disk.c", "-o", library, "-ldl"], check=True)
    return str(library)


TESTS = [life, kills, places, cuts, full, syncs, pieces, rubbish, behind_a_refusal, actives, replaced, lives, rust, copies, limits, promotions, versions, locks]
# Another program in its place is one with a fault (standby_faults.py).
PROGRAM = os.environ.get("WIZHDULET_PROGRAM") or subprocess.run([ROOT / "host/build"], stdout=subprocess.PIPE, check=True, text=True).stdout.split()[-1]
DISK = disk()
# In memory a sync costs nothing, where there is room for the longest frame.
MEMORY = "/dev/shm" if Path("/dev/shm").is_dir() and shutil.disk_usage("/dev/shm").free > 1 << 28 else None
for test in TESTS:
    if not sys.argv[1:] or test.__name__ in sys.argv[1:]:
        began = time.monotonic()
        with tempfile.TemporaryDirectory(dir=MEMORY) as folder:
            test(Path(folder))
        if sys.argv[1:]:
            print(f"{test.__name__}: {time.monotonic() - began:.1f} s")
print(f"standby: {len(TESTS)} tests, {checks.failed} failed")
sys.exit(checks.failed != 0)

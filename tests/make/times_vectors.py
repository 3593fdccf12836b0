#!/usr/bin/env python3
"""Writes stdin and stdout of crates/vectors_times: dates, stamps and numbers, and what must be written, from Python's datetime and calendar.

The milliseconds are differences of datetime objects, whose calendar is Python's own; the digits past the microseconds, which datetime hasn't, are
kept beside them. By rule: 6, 33 and 34, and the shortest form.
"""
import datetime
import os
import random

CRATE = os.path.join(os.path.dirname(os.path.abspath(__file__)), "..", "..", "crates", "vectors_times")
EPOCH = datetime.datetime(1970, 1, 1)
DAY = datetime.timedelta(days=1)
MILLI = datetime.timedelta(milliseconds=1)
END = (datetime.datetime(9999, 12, 31) - EPOCH) // MILLI + 86_400_000


def month_ends():
    """The first and the last day of each month of 1970 to 2370, then of each year to 9999."""
    for year in range(1970, 2371):
        for month in range(1, 13):
            first = datetime.datetime(year, month, 1)
            yield first
            yield (datetime.datetime(year + month // 12, month % 12 + 1, 1)) - DAY
    for year in range(2371, 10_000):
        yield datetime.datetime(year, 1, 1)
        yield datetime.datetime(year, 12, 31)


def stamp(when: datetime.datetime, fraction: str) -> str:
    return when.strftime("%Y%m%d-%H:%M:%S").rjust(17, "0") + ("." + fraction if fraction else "")


def number(when: datetime.datetime, fraction: str) -> tuple[int, int]:
    """Of a time without a fraction, and the digits of its fraction."""
    digits = fraction.ljust(12, "0")
    whole = when + datetime.timedelta(microseconds=int(digits[:6]))
    return (whole - EPOCH) // MILLI, int(digits[3:])


def shortest(text: str) -> str:
    while len(text) > 21 and text.endswith("000"):
        text = text[:-3]
    return text[:17] if text.endswith(".000") and len(text) == 21 else text


def fractions(chance: random.Random, digits: int) -> list[str]:
    groups = digits // 3
    some = ["".join(chance.choice(["000", "001", "999", f"{chance.randrange(1000):03}"]) for _ in range(groups)) for _ in range(24)]
    return some + ["0" * digits, "9" * digits, "0" * (digits - 1) + "1"] if digits else [""] * 8


def main() -> None:
    chance = random.Random(8)
    lines, answers = [], []

    def ask(line: str, answer: str) -> None:
        lines.append(line)
        answers.append(answer)

    dates = list(month_ends())
    for date in dates:
        ask(date.strftime("%Y%m%d"), f"{(date - EPOCH) // MILLI} {stamp(date, '')}")
    # Times of every number of digits.
    for digits in (0, 3, 6, 9, 12):
        for fraction in fractions(chance, digits):
            for when in (chance.randrange(0, END // 1000), chance.choice([0, 68_169_600, 951_782_400, 4_107_542_399, END // 1000 - 1])):
                time = EPOCH + datetime.timedelta(seconds=when)
                text = stamp(time, fraction)
                millis, picos = number(time, fraction)
                ask(f"T {text}", f"{millis} {picos}")
                ask(f"N {millis} {picos}", shortest(text))
    # Both sides of each refusal: 33, 6, 34.
    for text, answer in [
        ("19691231-23:59:59.999999999999", "R 33"),
        ("19700101-00:00:00.000000000000", "0 0"),
        ("00000101-00:00:00", "R 33"),
        ("20161231-23:59:59.999999999999", "1483228799999 999999999"),
        ("20161231-23:59:60", "R 33"),
        ("19700101-00:00:60.000", "R 33"),
        ("20161231-23:59:61", "R 6"),
        ("20161231-23:60:00", "R 6"),
        ("20161231-24:00:00", "R 6"),
        ("20230228-00:00:00", "1677542400000 0"),
        ("20230229-00:00:00", "R 6"),
        ("20240229-00:00:00", "1709164800000 0"),
        ("20240230-00:00:00", "R 6"),
        ("21000229-00:00:00", "R 6"),
        ("20240431-00:00:00", "R 6"),
        ("20240400-00:00:00", "R 6"),
        ("20240001-00:00:00", "R 6"),
        ("20241301-00:00:00", "R 6"),
        ("19690230-00:00:60", "R 6"),
        ("20240101-00:00:00.", "R 6"),
        ("20240101-00:00:00.1", "R 6"),
        ("20240101-00:00:00.12", "R 6"),
        ("20240101-00:00:00.1234", "R 6"),
        ("20240101-00:00:00.12345678", "R 6"),
        ("20240101-00:00:00.12345678901", "R 6"),
        ("20240101-00:00:00.1234567890123", "R 6"),
        ("20240101-00:00:00.123456789012345", "R 6"),
        ("20240101-00:00:00.12345678901x", "R 6"),
        ("20240101-00:00:00,123", "R 6"),
        ("20240101 00:00:00", "R 6"),
        ("20240101-00:00", "R 6"),
        ("", "R 6"),
    ]:
        ask(f"T {text}".rstrip(), answer)
    for millis, picos, answer in [
        (END - 1, 999_999_999, "99991231-23:59:59.999999999999"),
        (END, 0, "R 34"),
        (2**64 - 1, 0, "R 34"),
        (0, 999_999_999, "19700101-00:00:00.000999999999"),
        (0, 1_000_000_000, "R 34"),
        (0, 2**64 - 1, "R 34"),
        (END, 1_000_000_000, "R 34"),
        (946_684_800_000, 0, "20000101-00:00:00"),
    ]:
        ask(f"N {millis} {picos}", answer)
    answers.append(f"counted to day {(dates[-1] - EPOCH).days}, 0 differ")
    for name, text in (("stdin", lines), ("stdout", answers)):
        with open(os.path.join(CRATE, name), "w", encoding="ascii") as file:
            file.write("\n".join(text) + "\n")


main()

#!/usr/bin/env python3
"""Writes the stored input and output of the program `days`.

    python3 tests/calendar_vectors.py crates/days

Day numbers come from Python's datetime alone. For every month from January 1970 to December 2199 the first and the
last day stand in the input twice, as a date and as a day number; before them stand worked examples, dates that do not
exist and lines that are neither a date nor a number.
"""
import calendar
import datetime
import sys

EPOCH = datetime.date(1970, 1, 1)
LAST = (datetime.date(2199, 12, 31) - EPOCH).days


def said(day):
    number = (day - EPOCH).days
    return f"{day.isoformat()} {number}" if 1 <= number <= LAST else "refused 10"


def examples():
    """(line, what is printed for it)"""
    for date in ((2026, 3, 1), (2000, 2, 29), (2024, 2, 29), (2100, 2, 28), (2100, 3, 1), (1970, 1, 2), (2199, 12, 31)):
        day = datetime.date(*date)
        yield day.isoformat().encode(), said(day)
    # dates that do not exist, or lie outside the range
    for line in ("2100-02-29", "2023-02-29", "2026-04-31", "2026-13-01", "2026-00-10", "2026-01-00", "2200-01-01",
                 "1970-01-01", "1969-12-31", "0000-00-00", "9999-12-31", "2026-12-32"):
        yield line.encode(), "refused 10"
    # numbers
    for number in (1, 31, 20513, 84005):
        day = EPOCH + datetime.timedelta(days=number)
        yield str(number).encode(), f"{day.isoformat()} {number}"
    for line in ("0", "84006", "99999"):
        yield line.encode(), "refused 10"
    # neither a date nor a number
    for line in (b"", b" ", b"01", b"100000", b"00001", b"2026-3-1", b"2026-03-1", b"2026/03/01", b"20260301", b"2026-03-01 ",
                 b" 2026-03-01", b"2026-03-011", b"+5", b"-5", b"5 ", b"5\r", b"one", b"(bring 0)", b"20x6-03-01",
                 b"2026-03_01", bytes(range(1, 10)), bytes(range(128, 256)), b"\xe2\x80\x902026", b"\x00"):
        yield line, "refused 18"


def months():
    for year in range(1970, 2200):
        for month in range(1, 13):
            for day in (1, calendar.monthrange(year, month)[1]):
                date = datetime.date(year, month, day)
                yield date.isoformat().encode(), said(date)
                yield str((date - EPOCH).days).encode(), said(date)


def main():
    folder = sys.argv[1]
    rows = list(examples()) + list(months())
    with open(f"{folder}/stdin", "wb") as f:
        f.writelines(line + b"\n" for line, _ in rows)
    with open(f"{folder}/stdout", "w") as f:
        f.writelines(text + "\n" for _, text in rows)
    print(f"{len(rows)} lines")


main()

#!/usr/bin/env python3
"""Makes the books beside it, from public trading hours and the system's time zones. Python 3.11 or later, nothing else.

    make.py           writes the books
    make.py --check   ends with 1 where a book beside it is not what this would write

A book covers 2026 on the venue's own clock. Its hours are those of cash equities that the venue publishes; its holidays and
shortened days are an example of 2026, to be checked against the venue's own notice before anyone relies on them. Clock changes come
from zoneinfo. Times are published to the minute, and every rule says so. Labels number a venue's holidays and short days from 1, as
listed here; evidence 1 stands for the venue's page of hours, 2 for its calendar. docs/FORMAT.md has the records.
"""

import sys
from datetime import date, datetime
from pathlib import Path
from struct import pack
from zoneinfo import ZoneInfo

YEAR = 2026
SECOND = 1_000_000_000
CLOSED, PRE_OPEN, OPENING, CONTINUOUS, BREAK, CLOSING, POST_CLOSE = range(7)
WEEKLY, HOLIDAY, SHORTENED = range(3)
WEEKDAYS, WEEKEND, EVERY_DAY = 31, 96, 127
HOURS_PAGE, CALENDAR = 1, 2
SHUT = [("00:00", CLOSED)]


def venue(zone, hours, holidays, short_hours=(), short_days=()):
    return {"zone": zone, "hours": hours, "holidays": holidays, "short_hours": short_hours, "short_days": short_days}


VENUES = {
    # Core session 9:30 to 16:00, orders from 6:30; 13:00 on short days. The auctions are moments, not spans.
    "new-york": venue(
        "America/New_York",
        [("00:00", CLOSED), ("06:30", PRE_OPEN), ("09:30", CONTINUOUS), ("16:00", CLOSED)],
        ["01-01", "01-19", "02-16", "04-03", "05-25", "06-19", "07-03", "09-07", "11-26", "12-25"],
        [("00:00", CLOSED), ("06:30", PRE_OPEN), ("09:30", CONTINUOUS), ("13:00", CLOSED)],
        ["11-27", "12-24"],
    ),
    # Opening auction 7:50, continuous 8:00 to 16:30, closing auction to 16:35, trading at the closing price to 16:40. The two minutes'
    # auction at noon is left in continuous trading. Short days end at 12:30.
    "london": venue(
        "Europe/London",
        [("00:00", CLOSED), ("07:50", OPENING), ("08:00", CONTINUOUS), ("16:30", CLOSING), ("16:35", POST_CLOSE), ("16:40", CLOSED)],
        ["01-01", "04-03", "04-06", "05-04", "05-25", "08-31", "12-25", "12-28"],
        [("00:00", CLOSED), ("07:50", OPENING), ("08:00", CONTINUOUS), ("12:30", CLOSING), ("12:35", POST_CLOSE), ("12:40", CLOSED)],
        ["12-24", "12-31"],
    ),
    # Orders from 7:30, opening auction 8:50, continuous 9:00 to 17:30, closing auction to 17:35, post-trading to 20:30. The two minutes'
    # auction at 13:00 is left in continuous trading. On the year's last trading day the closing auction begins at 14:00.
    "frankfurt": venue(
        "Europe/Berlin",
        [
            ("00:00", CLOSED), ("07:30", PRE_OPEN), ("08:50", OPENING), ("09:00", CONTINUOUS), ("17:30", CLOSING),
            ("17:35", POST_CLOSE), ("20:30", CLOSED),
        ],
        ["01-01", "04-03", "04-06", "05-01", "12-24", "12-25", "12-31"],
        [("00:00", CLOSED), ("07:30", PRE_OPEN), ("08:50", OPENING), ("09:00", CONTINUOUS), ("14:00", CLOSING), ("14:05", CLOSED)],
        ["12-30"],
    ),
    # Orders from 8:00, morning 9:00 to 11:30, afternoon 12:30 to 15:25, closing auction to 15:30. Shut on the first three days of the year
    # and the last as well as on national holidays, 22 September (between two of them) and 6 May (for 3 May, a Sunday) included.
    "tokyo": venue(
        "Asia/Tokyo",
        [
            ("00:00", CLOSED), ("08:00", PRE_OPEN), ("09:00", CONTINUOUS), ("11:30", BREAK), ("12:30", CONTINUOUS),
            ("15:25", CLOSING), ("15:30", CLOSED),
        ],
        ["01-01", "01-02", "01-12", "02-11", "02-23", "03-20", "04-29", "05-04", "05-05", "05-06", "07-20", "08-11", "09-21", "09-22"]
        + ["09-23", "10-12", "11-03", "11-23", "12-31"],
    ),
    # Pre-opening session (an auction) 9:00, morning 9:30 to 12:00, afternoon 13:00 to 16:00, closing auction to 16:10. On the eves of Lunar
    # New Year, Christmas and New Year only the morning, with its closing auction at 12:00.
    "hong-kong": venue(
        "Asia/Hong_Kong",
        [
            ("00:00", CLOSED), ("09:00", OPENING), ("09:30", CONTINUOUS), ("12:00", BREAK), ("13:00", CONTINUOUS),
            ("16:00", CLOSING), ("16:10", CLOSED),
        ],
        ["01-01", "02-17", "02-18", "02-19", "04-03", "04-06", "04-07", "05-01", "05-25", "06-19", "07-01", "10-01", "10-19", "12-25"],
        [("00:00", CLOSED), ("09:00", OPENING), ("09:30", CONTINUOUS), ("12:00", CLOSING), ("12:10", CLOSED)],
        ["02-16", "12-24", "12-31"],
    ),
    # Orders from 7:00, normal trading 10:00 to 16:00, closing auction with its call to 16:11. The opening goes by letter over nine minutes;
    # all of it is in normal trading here. On short days normal trading ends at 14:10; the auction behind it is left out.
    "sydney": venue(
        "Australia/Sydney",
        [("00:00", CLOSED), ("07:00", PRE_OPEN), ("10:00", CONTINUOUS), ("16:00", CLOSING), ("16:11", CLOSED)],
        ["01-01", "01-26", "04-03", "04-06", "06-08", "12-25", "12-28"],
        [("00:00", CLOSED), ("07:00", PRE_OPEN), ("10:00", CONTINUOUS), ("14:10", CLOSED)],
        ["12-24", "12-31"],
    ),
}

# An invented market, open day and night but for a break at 02:15. On the night that New York's clocks go forward its break begins
# after it has ended, so no window over that night is plain.
NIGHT = [("00:00", CONTINUOUS), ("02:15", BREAK), ("03:00", CONTINUOUS)]


def day_number(day):
    return (day - date(1970, 1, 1)).days


FIRST, LAST = day_number(date(YEAR, 1, 1)), day_number(date(YEAR, 12, 31))


def record(kind, body):
    return pack("<HH", len(body) + 2, kind) + body


def rule(code, first, last, mask, label, evidence, points):
    to_the_minute = pack("<BqH", 1, 60 * SECOND, 0)
    times = [(int(time[:2]) * 3600 + int(time[3:]) * 60) * SECOND for time, _ in points]
    body = pack("<iiBBHHH", first, last, code, mask, label, evidence, 0) + to_the_minute + pack("<B", len(points))
    return record(3, body + b"".join(pack("<QB", time, phase) for time, (_, phase) in zip(times, points)))


def offset_at(zone, second):
    return int(datetime.fromtimestamp(second, zone).utcoffset().total_seconds())


def midnight(zone, day):
    return int(datetime(day.year, day.month, day.day, tzinfo=zone).timestamp())


def clock_changes(zone, start, end):
    """Each second of [start, end) from which another offset holds, with it. No zone changes twice within an hour."""
    changes = []
    for before in range(start, end, 3600):
        after = before + 3600
        if offset_at(zone, before) == offset_at(zone, after):
            continue
        low, high = before, after
        while low + 1 < high:
            middle = (low + high) // 2
            low, high = (middle, high) if offset_at(zone, middle) == offset_at(zone, before) else (low, middle)
        changes.append((high, offset_at(zone, high)))
    return changes


def clock(name):
    """Coverage of the year, and the clock changes from a week before it to a week behind."""
    zone = ZoneInfo(name)
    start, end = midnight(zone, date(YEAR, 1, 1)), midnight(zone, date(YEAR + 1, 1, 1))
    week = 7 * 86_400
    head = pack("<qqi", start * SECOND, end * SECOND, offset_at(zone, start - week))
    changes = clock_changes(zone, start - week, end + week)
    return record(1, head) + b"".join(record(2, pack("<qi", at, offset)) for at, offset in changes)


def dated(code, days, label, points):
    rules = []
    for place, text in enumerate(days):
        day = day_number(date.fromisoformat(f"{YEAR}-{text}"))
        rules.append(rule(code, day, day, 0, label + place, CALENDAR, points))
    return b"".join(rules)


def book(v):
    open_days = rule(WEEKLY, FIRST, LAST, WEEKDAYS, 0, HOURS_PAGE, v["hours"])
    weekend = rule(WEEKLY, FIRST, LAST, WEEKEND, 0, HOURS_PAGE, SHUT)
    shut = dated(HOLIDAY, v["holidays"], 1, SHUT)
    short = dated(SHORTENED, v["short_days"], 1 + len(v["holidays"]), v["short_hours"])
    return clock(v["zone"]) + open_days + weekend + shut + short


def books():
    made = {f"{name}.book": book(v) for name, v in VENUES.items()}
    made["invented-night.book"] = clock("America/New_York") + rule(WEEKLY, FIRST, LAST, EVERY_DAY, 0, HOURS_PAGE, NIGHT)
    return made


def main():
    folder = Path(__file__).parent
    check = sys.argv[1:] == ["--check"]
    wrong = 0
    for name, made in books().items():
        path = folder / name
        if not check:
            path.write_bytes(made)
        elif not path.exists() or path.read_bytes() != made:
            print(f"{name} is not what make.py writes")
            wrong = 1
    print(f"{len(books())} books {'checked' if check else 'written'}")
    return wrong


sys.exit(main())

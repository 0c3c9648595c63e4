#!/usr/bin/env python3
"""tzif_test.py: judges the stand-in for jiff. Reads what `compare zones` prints, writes each book's clock changes as a TZif file, has
Python's zoneinfo read the file, and compares every offset and reading; and every date with Python's calendar. Ends with 1 if one differs.

A reading's instants are found by their definition: x - o is one if o is in use and zoneinfo gives o at x - o. In a fold and in a gap
zoneinfo's own answers (fold=0, the earlier or by the offset before; fold=1, the later or by the offset after) must be the same too.
"""
import collections
import datetime
import os
import struct
import sys
import tempfile
import zoneinfo

EPOCH = datetime.datetime(1970, 1, 1)
UTC = datetime.timezone.utc


def tzif(first, changes):
    """A TZif file, version 3, without a footer: the last offset stays. Its first block is empty, as RFC 9636 allows."""
    kinds = [first] + sorted({o for _, o in changes} - {first})
    if len(kinds) > 255:
        return None
    head = b"TZif3" + bytes(15)
    one = head + struct.pack(">6l", 0, 0, 0, 0, 1, 1) + struct.pack(">lBB", 0, 0, 0) + b"\0"
    two = head + struct.pack(">6l", 0, 0, 0, len(changes), len(kinds), 4)
    two += b"".join(struct.pack(">q", at) for at, _ in changes) + bytes(kinds.index(o) for _, o in changes)
    two += b"".join(struct.pack(">lBB", o, 0, 0) for o in kinds) + b"LMT\0"
    return one + two + b"\n\n"


def offset_at(zone, s):
    return round((EPOCH + datetime.timedelta(seconds=s)).replace(tzinfo=UTC).astimezone(zone).utcoffset().total_seconds())


def offset_of(zone, x, fold):
    return round((EPOCH + datetime.timedelta(seconds=x)).replace(tzinfo=zone, fold=fold).utcoffset().total_seconds())


def resolve(zone, used, x):
    found = sorted(x - o for o in used if offset_at(zone, x - o) == o)
    twice = [x - offset_of(zone, x, 0), x - offset_of(zone, x, 1)]
    if len(found) == 1:
        return ["C", x, found[0]] if twice == found * 2 else ["?", x, found, twice]
    if len(found) == 2:
        return ["F", x, *found] if twice == found else ["?", x, found, twice]
    return ["G", x, *twice] if not found else ["?", x, found, twice]


def is_date(number, year, month, day, weekday):
    date = datetime.date(1970, 1, 1) + datetime.timedelta(days=number)
    return (date.year, date.month, date.day, date.weekday()) == (year, month, day, weekday)


def zones(lines, dates):
    """Each book: first offset, changes, what is asked and expected. Counts the dates, right and wrong."""
    book = None
    for line in lines:
        word, *numbers = line.split()
        numbers = [int(n) for n in numbers]
        if word == "D":
            dates[is_date(*numbers)] += 1
        elif word == "Z":
            if book:
                yield book
            book = (numbers[0], [], [])
        elif word == "T":
            book[1].append(tuple(numbers))
        else:
            book[2].append([word, *numbers])
    yield book


def main():
    counts, dates, wrong, shifts, spacing = collections.Counter(), collections.Counter(), 0, 0, 10**9
    folder = tempfile.mkdtemp()
    path = os.path.join(folder, "zone")
    for first, changes, asked in zones(sys.stdin, dates):
        data = tzif(first, changes)
        if data is None:
            counts["books with more than 255 offsets, not asked"] += 1
            continue
        with open(path, "wb") as f:
            f.write(data)
        with open(path, "rb") as f:
            zone = zoneinfo.ZoneInfo.from_file(f)
        counts["books"] += 1
        counts["clock changes"] += len(changes)
        used = {first} | {o for _, o in changes}
        offsets = [first] + [o for _, o in changes]
        shifts = max([shifts] + [abs(b - a) for a, b in zip(offsets, offsets[1:])])
        spacing = min([spacing] + [b[0] - a[0] for a, b in zip(changes, changes[1:])])
        for expected in asked:
            word, at = expected[:2]
            near = used
            if word == "R":
                got = ["R", at, offset_at(zone, at)]
            else:
                if len(used) > 12:  # offsets in use within four days of the reading
                    places = [i for i, (t, _) in enumerate(changes) if abs(t - at) <= 345_600]
                    near = {offsets[j] for i in places for j in (i, i + 1)} or {offset_at(zone, at)}
                got = resolve(zone, near, at)
            counts[{"R": "offsets", "C": "clear", "F": "folds", "G": "gaps"}[word]] += 1
            if got != expected:
                wrong += 1
                if wrong < 10:
                    print("DIFFERENCE", first, changes, "stand-in", expected, "zoneinfo", got)
    os.remove(path)
    os.rmdir(folder)
    wrong += dates[False]
    counts["dates"] = dates[True] + dates[False]
    for name, count in counts.items():
        print("stand-in:", name, count)
    print("stand-in: largest shift", shifts, "s, least spacing", spacing, "s")
    print("stand-in: differences", wrong)
    if counts["books"] < int(sys.argv[1]) or counts["dates"] != 109_573 or shifts < 115_200 or spacing > 172_800:
        print("stand-in: too few dates or books, or too tame")
        sys.exit(1)
    sys.exit(1 if wrong else 0)


main()

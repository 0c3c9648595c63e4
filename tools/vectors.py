#!/usr/bin/env python3
"""vectors.py: makes the lists that the programs vectors_calendar and vectors_zone compare the calendar and the zone crates with.

Nothing here is ours to judge by: dates are Python's datetime and calendar, readings are asked of Python's zoneinfo (at whole
seconds) and of java.time's ZoneRules (Readings.java, to the nanosecond), and a case is kept only if the two agree; if they do not,
this stops. Transitions are found by asking zoneinfo for the offset at every six hours from 1900 to 2199 and bisecting to the second.
It is needed to make the list, not to run the tests. Run it in the repository's root: python3 tools/vectors.py
"""
import calendar
import datetime
import io
import random
import struct
import subprocess
import zoneinfo

DAY, NS = 86_400, 1_000_000_000
EPOCH = datetime.datetime(1970, 1, 1)
START = int((datetime.datetime(1900, 1, 1) - EPOCH).total_seconds())
END = int((datetime.datetime(2200, 1, 1) - EPOCH).total_seconds())

# Records are a kind, a byte, and signed little-endian numbers of 8 bytes. They stand in blocks of 65,536 bytes, none across an edge,
# with zeros up to the edge. A zone whose cases go past an edge is said again in the next block, as SAME.
MONTH, DATE, NO_NUMBER, NO_DATE, ZONE, CHANGE, READING, CLEAR, FOLD, GAP, SAME = range(1, 12)
BLOCK = 65_536
out = bytearray()
counts = {}


def record(kind, *numbers):
    return struct.pack(f"<B{len(numbers)}q", kind, *numbers)


def left():
    return -len(out) % BLOCK or BLOCK


def put(kind, *numbers):
    """Adds a record. A block begins with what is to be said again."""
    counts[kind] = counts.get(kind, 0) + 1
    new = record(kind, *numbers)
    if left() < len(new):
        out.extend(bytes(left()))
    if left() == BLOCK:
        out.extend(again)
    out.extend(new)


again = b""


# ---- dates

# weekdays that books of history give, Monday 0
PUBLISHED = [
    (1900, 1, 1, 0), (1912, 4, 15, 0), (1929, 10, 29, 1), (1945, 5, 8, 1), (1957, 10, 4, 4), (1963, 11, 22, 4),
    (1969, 7, 20, 6), (1970, 1, 1, 3), (1987, 10, 19, 0), (1989, 11, 9, 3), (2000, 1, 1, 5), (2008, 9, 15, 0), (2026, 1, 5, 0),
]


def number(year, month, day):
    return (datetime.date(year, month, day) - datetime.date(1970, 1, 1)).days


def dates():
    for year in range(1900, 2200):
        for month in range(1, 13):
            weekday, days = calendar.monthrange(year, month)
            put(MONTH, year, month, number(year, month, 1), days, weekday)
    for year, month, day, weekday in PUBLISHED:
        put(DATE, year, month, day, number(year, month, day), weekday)
    for n in (-25_568, 84_006, -(2**31), 2**31 - 1, -25_569, 109_573):
        put(NO_NUMBER, n)
    top = 2**32 - 1
    for date in ((1899, 12, 31), (2200, 1, 1), (1900, 2, 29), (2100, 2, 29), (2026, 0, 1), (2026, 13, 1), (2026, 1, 0), (2026, 1, 32),
                 (2026, 4, 31), (0, 1, 1), (top, 1, 1), (2026, top, 1), (2026, 1, top)):
        put(NO_DATE, *date)


# ---- zones

ZONES = [
    "America/New_York", "Europe/London", "America/St_Johns", "Australia/Lord_Howe", "Pacific/Apia", "Asia/Kolkata", "Africa/Casablanca",
    "Asia/Shanghai", "America/Sao_Paulo", "America/Santiago", "Africa/Monrovia", "Antarctica/Troll", "Asia/Tehran", "Pacific/Chatham",
]

# RFC 9636's examples: the table of Pacific/Honolulu from 1900 on, and two footers
HONOLULU = (-37_800, [(-1_157_283_000, -34_200), (-1_155_436_200, -37_800), (-880_198_200, -34_200), (-765_376_200, -37_800), (-712_150_200, -36_000)])
FOOTERS = ["<-03>3<-02>,M3.5.0/-2,M10.5.0/-1", "IST-2IDT,M3.4.4/26,M10.5.0"]


def tzif(first, changes, footer=""):
    """A TZif file, version 3, of a first offset, transitions and a footer."""
    offsets = sorted({first} | {o for _, o in changes})
    kinds = [first] + [o for o in offsets if o != first]
    head = b"TZif3" + bytes(15)
    one = head + struct.pack(">6l", 0, 0, 0, 0, 1, 1) + struct.pack(">lBB", 0, 0, 0) + b"\0"
    two = head + struct.pack(">6l", 0, 0, 0, len(changes), len(kinds), 4)
    two += b"".join(struct.pack(">q", at) for at, _ in changes) + bytes(kinds.index(o) for _, o in changes)
    two += b"".join(struct.pack(">lBB", o, 0, 0) for o in kinds) + b"LMT\0"
    return zoneinfo.ZoneInfo.from_file(io.BytesIO(one + two + b"\n" + footer.encode() + b"\n"))


def offset_at(zone, s):
    return int((EPOCH + datetime.timedelta(seconds=s)).replace(tzinfo=datetime.timezone.utc).astimezone(zone).utcoffset().total_seconds())


def changes_of(zone):
    """The first offset at 1900, and the transitions to 2199."""
    first = last = offset_at(zone, START)
    found = []
    for s in range(START, END, DAY // 4):
        if offset_at(zone, s) != last:
            low, high = s - DAY // 4, s
            while high - low > 1:
                middle = (low + high) // 2
                low, high = (middle, high) if offset_at(zone, middle) == last else (low, middle)
            last = offset_at(zone, high)
            found.append((high, last))
    return first, found


def invented(seed):
    """Transitions as a book may have them: offsets to 16 hours either way, spacing down to 48 hours."""
    random.seed(seed)
    at, found = START + random.randrange(DAY * 400), []
    first = random.randint(-57_600, 57_600)
    for _ in range(60):
        found.append((at, random.choice([-57_600, 57_600, 0, 1, -1, random.randint(-57_600, 57_600)])))
        at += random.choice([172_800, 172_801, random.randint(172_800, 400_000), random.randint(172_800, 20_000_000)])
    return first, found


def resolve(zone, s):
    """What zoneinfo says of a reading at a whole second."""
    wall = (EPOCH + datetime.timedelta(seconds=s)).replace(tzinfo=zone)
    before, after = (int(wall.replace(fold=f).utcoffset().total_seconds()) for f in (0, 1))
    if before == after:
        return ("C", (s - before) * NS)
    return ("F" if before > after else "G", (s - before) * NS, (s - after) * NS)


def probes(first, changes):
    instants, walls, before = [], [], first
    near = (-NS, -1, 0, 1, NS)
    for at, after in changes:
        instants += [at * NS + d for d in near]
        for edge in sorted({at + before, at + after}):
            walls += [edge * NS + d for d in near]
        walls.append((2 * at + before + after) * NS // 2)
        before = after
    low, high = (START - 5 * DAY) * NS, (END + 5 * DAY) * NS
    return [t for t in instants if low <= t <= high], [x for x in walls if low <= x <= high]


def readings(zones):
    global again
    asked, told = [], []
    for zone, first, changes in zones:
        asked.append(f"Z {first}")
        asked += [f"T {at} {o}" for at, o in changes]
        instants, walls = probes(first, changes)
        asked += [f"R {t}" for t in instants] + [f"W {x}" for x in walls]
        told.append((zone, first, changes, instants, walls))
    answers = iter(subprocess.run(["java", "tools/Readings.java"], input="\n".join(asked) + "\n", capture_output=True, text=True, check=True).stdout.split("\n"))
    for zone, first, changes, instants, walls in told:
        assert len(changes) <= 640 and all(b[0] - a[0] >= 172_800 for a, b in zip(changes, changes[1:])), (zone, len(changes))
        known = b"".join(record(CHANGE, at, o) for at, o in changes)
        again = b""
        if left() < 2 * len(known) + 9:
            out.extend(bytes(left()))
        put(ZONE, first)
        out.extend(known)
        again = record(SAME, first) + known
        for t in instants:
            word, x = next(answers).split()
            assert word == "R" and int(x) == t + offset_at(zone, t // NS) * NS, (zone, t, x)
            put(READING, t, int(x))
        for x in walls:
            word, *numbers = next(answers).split()
            numbers = [int(n) for n in numbers]
            if x % NS == 0:
                assert resolve(zone, x // NS) == (word, *numbers), (zone, x, word, numbers, resolve(zone, x // NS))
            put({"C": CLEAR, "F": FOLD, "G": GAP}[word], x, *numbers)
    assert next(answers) == "", "an answer too many"


def keep(name):
    with open(f"crates/{name}/data/list", "wb") as f:
        f.write(out)
    print(name, len(out), "bytes")
    out.clear()


def main():
    dates()
    keep("vectors_calendar")
    zones = []
    assert changes_of(zoneinfo.ZoneInfo("Pacific/Honolulu")) == HONOLULU, changes_of(zoneinfo.ZoneInfo("Pacific/Honolulu"))
    zones.append((tzif(*HONOLULU), *HONOLULU))
    for footer in FOOTERS:
        zone = tzif(0, [], footer)
        zones.append((zone, *changes_of(zone)))
    for name in ZONES:
        zone = zoneinfo.ZoneInfo(name)
        zones.append((zone, *changes_of(zone)))
    for seed in range(12):
        first, changes = invented(seed)
        zones.append((tzif(first, changes), first, changes))
    readings(zones)
    keep("vectors_zone")
    names = "MONTH DATE NO_NUMBER NO_DATE ZONE CHANGE READING CLEAR FOLD GAP SAME".split()
    print(", ".join(f"{names[k - 1]} {n}" for k, n in sorted(counts.items())))


main()

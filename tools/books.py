#!/usr/bin/env python3
"""books.py: makes the list of books that the program vectors_book judges, each with the number that it must get.

The number is said twice and must be the same, else this stops: by whoever makes the case, from what is wrong with it, and by `judge`
below, written from document 01 alone. Where a case is made by a rule or at random (2,290 of the 5,454) it has `judge`'s number only. It is
needed to make the list, not to run the tests. Run it in the repository's root: python3 tools/books.py
"""
import collections
import itertools
import random
import struct

from blocks import Blocks, record

CASE, ZEROS = 1, 2
NS = 1_000_000_000
DAY_NS = 86_400 * NS
INSTANTS = (-2_177_452_800 * NS, 7_226_582_400 * NS)
SECONDS = (-2_208_988_800, 7_258_118_400)
OFFSETS = (-57_600, 57_600)
DAYS = (-25_567, 84_005)
WIDTHS = (0, 10**15)
MOST = {1: 1, 2: 640, 3: 256, 4: 32}
I4, I8, U2 = (-(2**31), 2**31 - 1), (-(2**63), 2**63 - 1), (0, 2**16 - 1)
BYTES = (*range(11), 126, 127, 128, 129, 254, 255)

# ---- document 01's judgement


def judge(book):
    if len(book) > 65_536:
        return 1
    at, before, last = 0, collections.Counter(), None
    while at < len(book):
        number, at, kind, instant = judge_record(book, at, before, last)
        if number:
            return number
        before[kind] += 1
        last = instant if kind == 2 else last
    return 0


def judge_record(book, at, before, last):
    """The record's number, where the next begins, its kind, its instant if it is a transition."""
    bad = (2, None, None, None)
    if at + 4 > len(book):
        return bad
    size, kind = struct.unpack_from("<HH", book, at)
    body = book[at + 4:at + 2 + size]
    if size < 2 or at + 2 + size > len(book) or kind not in MOST or (at == 0 and kind != 1):
        return bad
    plain = {1: 20, 2: 12, 3: 28, 4: 24}[kind]
    if len(body) < plain:
        return bad
    many = body[plain - 1] if kind > 2 else 0
    if len(body) != plain + many * {1: 0, 2: 0, 3: 9, 4: 8}[kind]:
        return bad
    numbers, instant = set(), None

    def test(number, wrong):
        if wrong:
            numbers.add(number)

    def outside(value, ends):
        return not ends[0] <= value <= ends[1]

    test(3, before[kind] >= MOST[kind])
    if kind == 1:
        start, end, offset = struct.unpack("<qqi", body)
        test(4, outside(start, INSTANTS) or outside(end, INSTANTS) or outside(offset, OFFSETS))
        test(8, end <= start)
    elif kind == 2:
        instant, offset = struct.unpack("<qi", body)
        test(4, outside(instant, SECONDS) or outside(offset, OFFSETS))
        test(9, last is not None and instant - last < 172_800)
    else:
        first, final = struct.unpack_from("<ii", body)
        tag, width, text = struct.unpack_from("<BqH", body, plain - 12)
        test(4, outside(first, DAYS) or outside(final, DAYS) or tag > 3 or outside(width, WIDTHS))
        test(4, tag in (0, 3) and width != 0)
        test(4, tag in (0, 1) and text != 0)
        test(7, final < first)
        if kind == 3:
            code, mask, label = struct.unpack_from("<BBH", body, 8)
            points = list(struct.iter_unpack("<QB", body[plain:]))
            test(4, code > 3 or mask > 127 or (code == 0 and label != 0) or (code != 0 and mask != 0))
            test(4, many > 16 or any(t >= DAY_NS or p > 7 for t, p in points))
            test(5, not points or points[0][0] != 0)
            test(6, any(b[0] <= a[0] for a, b in zip(points, points[1:])))
        else:
            test(4, many > 8 or any(t >= DAY_NS for (t,) in struct.iter_unpack("<Q", body[plain:])))
    return min(numbers, default=0), at + 2 + size, kind, instant


# ---- books, as dictionaries of fields

HEADER = dict(kind=1, start=1_767_225_600 * NS, end=1_798_761_600 * NS, offset=-18_000)
CHANGE = dict(kind=2, instant=1_772_953_200, offset=-14_400)
BACK = dict(kind=2, instant=1_793_512_800, offset=-18_000)
RULE = dict(kind=3, first=20_454, last=20_818, code=0, mask=31, label=0, evidence=1, derived=0, tag=1, width=NS, text=0,
            points=[(0, 0), (34_200 * NS, 3), (57_600 * NS, 0)])
HOLIDAY = dict(RULE, first=20_454, last=20_454, code=1, mask=0, label=7, derived=3, tag=2, width=60 * NS, text=9, points=[(0, 0)])
EVENT = dict(kind=4, first=20_454, last=20_818, code=5, evidence=2, tag=3, width=0, text=4, times=[36_000 * NS, 3_600 * NS])
BOOK = [HEADER, CHANGE, RULE, EVENT, BACK, HOLIDAY]


def encode(r):
    if r["kind"] == 1:
        body = struct.pack("<qqi", r["start"], r["end"], r["offset"])
    elif r["kind"] == 2:
        body = struct.pack("<qi", r["instant"], r["offset"])
    elif r["kind"] == 3:
        body = struct.pack("<iiBBHHH", r["first"], r["last"], r["code"], r["mask"], r["label"], r["evidence"], r["derived"])
        body += struct.pack("<BqHB", r["tag"], r["width"], r["text"], len(r["points"]))
        body += b"".join(struct.pack("<QB", *p) for p in r["points"])
    else:
        body = struct.pack("<iiHH", r["first"], r["last"], r["code"], r["evidence"])
        body += struct.pack("<BqHB", r["tag"], r["width"], r["text"], len(r["times"]))
        body += b"".join(struct.pack("<Q", t) for t in r["times"])
    return struct.pack("<HH", len(body) + 2, r["kind"]) + body


def encoded(records):
    return b"".join(map(encode, records))


def changed(place, **fields):
    """BOOK with other fields in the record at a place."""
    return BOOK[:place] + [dict(BOOK[place], **fields)] + BOOK[place + 1:]


# ---- the list

blocks, counts, kinds = Blocks(), collections.Counter(), collections.Counter()


def case(what, book, number=None):
    found = judge(book)
    assert number is None or number == found, (what, number, found, book.hex())
    counts[found] += 1
    kinds[what] += 1
    blocks.add(record(CASE, found, len(book)) + book)


def zeros(length, number):
    assert judge(bytes(length)) == number
    counts[number] += 1
    kinds["lengths"] += 1
    blocks.add(record(ZEROS, number, length))


def ends(what, place, name, span, field, wrong=4, fine=0, **others):
    """A field one below, at and one above each end of its range, as far as the field can say them, and at the field's own ends."""
    values = {v for e in span for v in (e - 1, e, e + 1)} | set(field)
    for v in sorted(v for v in values if field[0] <= v <= field[1]):
        good = fine(v) if callable(fine) else fine
        case(what, encoded(changed(place, **{name: v}, **others)), good if span[0] <= v <= span[1] else wrong)


def fields():
    far, near = dict(end=INSTANTS[1]), dict(start=INSTANTS[0])
    ends("fields", 0, "start", INSTANTS, I8, fine=lambda v: 8 if v >= INSTANTS[1] else 0, **far)
    ends("fields", 0, "end", INSTANTS, I8, fine=lambda v: 8 if v <= INSTANTS[0] else 0, **near)
    ends("fields", 0, "offset", OFFSETS, I4)
    ends("fields", 1, "instant", SECONDS, I8, fine=lambda v: 9 if v > BACK["instant"] - 172_800 else 0)
    ends("fields", 4, "instant", SECONDS, I8, fine=lambda v: 9 if v < CHANGE["instant"] + 172_800 else 0)
    for place in (1, 4):
        ends("fields", place, "offset", OFFSETS, I4)
    for place in (2, 3, 5):
        ends("fields", place, "first", DAYS, I4, fine=lambda v: 7 if v > BOOK[place]["last"] else 0)
        ends("fields", place, "last", DAYS, I4, fine=lambda v: 7 if v < BOOK[place]["first"] else 0)
        for tag, width, text in itertools.product(BYTES, (0, 1), (0, 1)):
            good = tag <= 3 and not (tag in (0, 3) and width) and not (tag in (0, 1) and text)
            case("fields", encoded(changed(place, tag=tag, width=width, text=text)), 0 if good else 4)
        for tag in (1, 2):
            ends("fields", place, "width", WIDTHS, I8, tag=tag, text=0)
        for tag in (2, 3):
            ends("fields", place, "text", U2, U2, tag=tag, width=0)
        ends("fields", place, "evidence", U2, U2)
    for code in BYTES:
        case("fields", encoded(changed(2, code=code)), 0 if code == 0 else 4)
        case("fields", encoded(changed(5, code=code)), 0 if 1 <= code <= 3 else 4)
        case("fields", encoded(changed(2, mask=code)), 0 if code <= 127 else 4)
    ends("fields", 2, "label", (0, 0), U2)
    ends("fields", 5, "label", U2, U2)
    ends("fields", 5, "mask", (0, 0), (0, 255))
    ends("fields", 2, "derived", U2, U2)
    ends("fields", 3, "code", U2, U2)
    for phase in BYTES:
        case("fields", encoded(changed(2, points=[(0, 0), (NS, phase), (2 * NS, 1)])), 0 if phase <= 7 else 4)
    for t in (0, 1, DAY_NS - 1, DAY_NS, DAY_NS + 1, 2**63, 2**64 - 1):
        case("fields", encoded(changed(2, points=[(t, 3)])), 4 if t >= DAY_NS else 5 if t else 0)
        case("fields", encoded(changed(2, points=[(0, 3), (t, 3)])), 4 if t >= DAY_NS else 0 if t else 6)
        case("fields", encoded(changed(3, times=[t])), 4 if t >= DAY_NS else 0)
        case("fields", encoded(changed(3, times=[t, 0, t])), 4 if t >= DAY_NS else 0)


def points():
    for n in range(20):
        rising = [(i * NS, i % 8) for i in range(n)]
        case("points", encoded(changed(2, points=rising)), 5 if n == 0 else 4 if n > 16 else 0)
        for i in range(1, n):
            equal = rising[:i] + [(rising[i - 1][0], 1)] + rising[i + 1:]
            case("points", encoded(changed(2, points=equal)), 4 if n > 16 else 6)
            last = rising[:i] + [(DAY_NS, 1)] + rising[i + 1:]
            case("points", encoded(changed(2, points=last)), 4)
    for n in range(12):
        case("points", encoded(changed(3, times=[DAY_NS - 1 - i * NS for i in range(n)])), 4 if n > 8 else 0)
        for i in range(n):
            times = [DAY_NS if j == i else 0 for j in range(n)]
            case("points", encoded(changed(3, times=times)), 4)
    for n in (17, 100, 255):
        case("points", encoded(changed(2, points=[(i, 0) for i in range(n)])), 4)
        case("points", encoded(changed(3, times=[0] * n)), 4)


def frames():
    """Every kind and length of a last record, with a body of zeros and of the record's own bytes, and every truncation."""
    bodies = {1: HEADER, 2: CHANGE, 3: RULE, 4: EVENT}
    for kind in (*range(0, 9), 255, 256, 65_535):
        own = encode(bodies.get(kind, RULE))[4:]
        for size in range(0, 76):
            body = (own + bytes(80))[:max(size - 2, 0)]
            case("frames", encoded(BOOK) + struct.pack("<HH", size, kind) + body, 2 if size != len(own) + 2 or kind not in MOST else None)
    for size in range(0, 30):
        body = (encode(HEADER)[4:] + bytes(80))[:max(size - 2, 0)]
        case("frames", struct.pack("<HH", size, 1) + body, 0 if size == 22 else 2)
    for r in BOOK[1:]:
        case("frames", encode(r), 2)
        case("frames", encoded([r] + BOOK), 2)
    whole = encoded(BOOK)
    edges = {len(encoded(BOOK[:i])) for i in range(len(BOOK) + 1)}
    for n in range(len(whole) + 1):
        case("truncations", whole[:n], 0 if n in edges else 2)
    for n in range(1, 4):
        for byte in (0, 1, 255):
            case("frames", whole + bytes([byte] * n), 2)


def limits():
    """Each limit, and one above it."""
    changes = [dict(CHANGE, instant=SECONDS[0] + i * 172_800) for i in range(641)]
    for n in (639, 640, 641):
        case("limits", encoded([HEADER] + changes[:n]), 3 if n > 640 else 0)
        case("limits", encoded(changes[:1] + changes[:n]), 2)
    for n in (255, 256, 257):
        case("limits", encoded([HEADER] + [HOLIDAY] * n), 3 if n > 256 else 0)
        case("limits", encoded([HEADER] + [HOLIDAY] * n + [dict(HOLIDAY, code=9)]), 3 if n > 255 else 4)
    for n in (31, 32, 33):
        case("limits", encoded([HEADER] + [EVENT] * n), 3 if n > 32 else 0)
        case("limits", encoded([HEADER] + [EVENT] * n + [dict(EVENT, tag=9)]), 3 if n > 31 else 4)
    full = [HEADER] + changes[:640] + [dict(RULE, points=[(i, 0) for i in range(16)])] * 256 + [dict(EVENT, times=[0] * 8)] * 32
    assert len(encoded(full)) == 58_264
    case("limits", encoded(full), 0)
    for one_more in (changes[640], RULE, EVENT, HEADER):
        case("limits", encoded(full + [one_more]), 3)
    for length in (1, 2, 3, 4, 24, 65_535, 65_536):
        zeros(length, 2)
    zeros(0, 0)
    for length in (65_537, 65_538, 66_000, 70_000, 99_999, 100_000):
        zeros(length, 1)


FAULTS = {
    0: [dict(start=INSTANTS[0] - 1), dict(end=INSTANTS[1] + 1), dict(offset=57_601), dict(start=5, end=5), dict(start=6, end=5)],
    1: [dict(instant=SECONDS[1] + 1), dict(offset=-57_601), dict(instant=BACK["instant"] - 172_799)],
    2: [dict(first=-25_568), dict(last=84_006), dict(code=4), dict(mask=128), dict(label=1), dict(tag=4), dict(width=-1), dict(text=1),
        dict(points=[]), dict(points=[(1, 0)]), dict(points=[(0, 0), (5, 1), (5, 2)]), dict(points=[(0, 8)]), dict(points=[(3, 0), (2, 0)]),
        dict(last=20_453), dict(points=[(0, i % 8) for i in range(17)]), dict(points=[(i, 0) for i in range(17)])],
    3: [dict(first=84_006), dict(last=-25_568), dict(tag=9), dict(width=1), dict(text=0, tag=1, width=10**15 + 1), dict(times=[DAY_NS]),
        dict(times=[0] * 9), dict(first=20_819)],
    4: [dict(instant=CHANGE["instant"] + 172_799), dict(instant=CHANGE["instant"]), dict(instant=0), dict(offset=57_601)],
    5: [dict(mask=1), dict(code=0), dict(code=4), dict(points=[]), dict(points=[(1, 9)]), dict(last=20_453), dict(points=[(0, 1), (0, 2)])],
}


def two_faults():
    """In one record, the smaller number; in two records, the first record's, in both orders."""
    alone = {}
    for place, faults in FAULTS.items():
        for i, fault in enumerate(faults):
            alone[place, i] = judge(encoded(changed(place, **fault)))
            case("one fault", encoded(changed(place, **fault)))
        for (i, a), (j, b) in itertools.combinations(enumerate(faults), 2):
            if not set(a) & set(b):
                book = encoded(changed(place, **a, **b))
                both = {alone[place, i], alone[place, j]} - {0}
                case("two in a record", book, min(both) if both and place not in (0, 1, 4) else None)
    for (p, i), (q, j) in itertools.combinations([(p, i) for p in FAULTS for i in range(len(FAULTS[p]))], 2):
        if p < q:
            book = changed(p, **FAULTS[p][i])
            book[q] = dict(BOOK[q], **FAULTS[q][j])
            known = alone[p, i] if p not in (1, 4) and alone[p, i] else None
            case("two records", encoded(book), known)
            if p in (2, 3, 5) and q in (2, 3, 5):
                book[p], book[q] = book[q], book[p]
                case("two records", encoded(book), alone[q, j] or alone[p, i])


def chance(rng):
    """Random bytes, random damage to a good book, and random orders of its records."""
    for _ in range(400):
        case("random bytes", rng.randbytes(rng.randrange(1, 80)))
    whole = encoded(BOOK)
    for _ in range(1200):
        damaged = bytearray(whole)
        for _ in range(rng.choice((1, 1, 1, 2, 3))):
            damaged[rng.randrange(len(damaged))] = rng.choice((0, 1, 127, 128, 255, rng.randrange(256)))
        case("damage", bytes(damaged))
    for _ in range(300):
        records = [HEADER] + rng.sample(BOOK[1:], rng.randrange(0, 6)) + rng.choices(BOOK, k=rng.randrange(0, 3))
        case("orders", encoded(records))
    for _ in range(200):
        cut = sorted(rng.sample(range(len(whole) + 1), 2))
        case("damage", whole[:cut[0]] + whole[cut[1]:])


fields()
points()
frames()
limits()
two_faults()
chance(random.Random(20261115))
with open("crates/vectors_book/data/list", "wb") as f:
    f.write(blocks.out)
print(dict(kinds), sum(counts.values()), len(blocks.out))
print("numbers", dict(sorted(counts.items())))
assert sum(counts.values()) >= 5000 and all(counts[n] >= 50 for n in (0, *range(2, 10))), counts
